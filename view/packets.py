#!/usr/bin/env python3
"""Takes the packets of a finding out of a capture: those of the whole capture, of a window or of several, that pass a filter in tcpdump's words.

    packets.py today.pcap --window-us 1000000 --window 4 'host 10.20.0.80' -o finding.pcap
    packets.py today.pcap --queries tour.query --window 3..5 'dst host 10.20.0.80 and tcp[tcpflags] == tcp-syn' -o finding.pcap
    packets.py today.pcap --queries tour.query --window 4 'host 10.20.0.80'
    packets.py today.pcap 'src host 198.51.100.7' -o attacker.pcap

    900 of 24,300 packets, 2026-11-29T00:00:08.372054Z to 2026-11-29T00:00:14.365387Z

Without -o tcpdump prints them; with it a line tells how many they are of those in the windows, and the times of the first and the last of them in UTC.
Without --window the whole capture is looked at: windows that were answered lack an attack's edges. A record is in the window that `sonata` counts it in:
by the time since the first record, and never backwards. Without a filter all packets are taken. Needs tcpdump: on Debian `apt-get install tcpdump`."""

import argparse
import re
import shutil
import struct
import subprocess
import sys
import tempfile

import cut
import times

PACKAGE = 'Needs tcpdump: on Debian `apt-get install tcpdump`.'


def windows_of(text):
    """The first and the last of N or N..M."""
    span = re.fullmatch(r'(\d+)(?:\.\.(\d+))?', text)
    if not span or span[2] and int(span[2]) < int(span[1]):
        raise argparse.ArgumentTypeError('a window N, or windows N..M')
    return int(span[1]), int(span[2] or span[1])


def taken(file, out, window, first, last):
    """Copy the records of some windows after the capture's header, and count them. Without a last window those of all from the first one on."""
    header, order, unit = cut.opened(file)
    out.write(header)
    start, number, count = None, 0, 0
    for time, record in cut.records(file, order, unit):
        start = time if start is None else start
        number = max(number, (time - start) // (window * 1000))
        if last is not None and number > last:
            break
        if number >= first:
            out.write(record)
            count += 1
    return count


def told(name, count):
    """How many records a capture has of so many, and the times of its first and its last one."""
    with open(name, 'rb') as file:
        _, order, unit = cut.opened(file)
        found = [time for time, _ in cut.records(file, order, unit)]
    line = '%s of %s packets' % (format(len(found), ','), format(count, ','))
    return line + (', %s to %s' % (times.text(found[0] // 1000), times.text(found[-1] // 1000)) if found else '')


def filtered(file, given):
    """Let tcpdump take the packets of a filter: print them, or write them."""
    # By standard input and output, since tcpdump opens files as another user where root starts it.
    words = ['tcpdump', '-r', '-'] + (['-w', '-'] if given.output else ['-nn']) + ([given.filter] if given.filter else [])
    file.seek(0)
    try:
        out = open(given.output, 'wb') if given.output else None
    except OSError as fault:
        sys.exit('%s: %s' % (given.output, fault.strerror))
    done = subprocess.run(words, stdin=file, stdout=out, stderr=subprocess.PIPE, text=True)
    if out:
        out.close()
    told = [line for line in done.stderr.splitlines() if not line.startswith(('reading from', 'dropped privs', 'Warning'))]
    if done.returncode:
        sys.exit(told[-1] if told else 'tcpdump: status %d' % done.returncode)


def main():
    words = argparse.ArgumentParser(description=__doc__, formatter_class=argparse.RawDescriptionHelpFormatter)
    words.add_argument('capture')
    words.add_argument('filter', nargs='?', help='an expression of tcpdump')
    words.add_argument('--window', type=windows_of, metavar='W', help='the window, or the first and the last as 3..5; without it the whole capture')
    length = words.add_mutually_exclusive_group()
    length.add_argument('--window-us', type=cut.count_from(1), metavar='N', help='the length of a window in microseconds')
    length.add_argument('--queries', help='the query file, for the length of a window')
    words.add_argument('-o', '--output', metavar='OUT', help='the capture to write; without it the packets are printed')
    given = words.parse_intermixed_args()
    if given.window and not given.queries and not given.window_us:
        words.error('--window needs --queries or --window-us')
    first, last = given.window or (0, None)
    if not shutil.which('tcpdump'):
        sys.exit(PACKAGE)
    try:
        with open(given.capture, 'rb') as file, tempfile.TemporaryFile() as part:
            count = taken(file, part, given.window_us or (times.window_of(given.queries) if given.queries else 1), first, last)
            if not count:
                sys.exit('%s: no record%s' % (given.capture, ' in window %s' % '..'.join(map(str, dict.fromkeys(given.window))) if given.window else ''))
            part.flush()
            filtered(part, given)
    except OSError as fault:
        sys.exit('%s: %s' % (given.capture, fault.strerror))
    except struct.error:
        sys.exit('%s: no capture of classic pcap' % given.capture)
    if given.output:
        print(told(given.output, count))
    return 0


if __name__ == '__main__':
    sys.exit(main())
