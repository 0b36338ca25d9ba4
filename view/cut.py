#!/usr/bin/env python3
"""Cuts a capture at bounds of windows into parts that can be answered side by side.

    cut.py CAPTURE FOLDER --window 1000000 --windows 60
    cut.py CAPTURE FOLDER --window 1000000 --windows 60 --before 1

The parts are FOLDER/part-FIRST-KEPT.pcap. FIRST is the number, in the whole capture, of the window that is window 0 of the part, and KEPT that of the first
window whose answers count: with --before each part begins so many windows earlier, so that the coarser levels of a refined query have answered once.

Records are counted into windows as sonata does it: by the time since the first record, and never backwards. So that the part's windows begin where those of
the whole do, each part but the first begins with a marker, a record without a byte at the window's first microsecond (or nanosecond). It has no headers, so
a query whose first filter asks for a header doesn't count it. Classic pcap alone, and - is standard input. Needs nothing but Python."""

import argparse
import collections
import os
import struct
import sys

MAGICS = {0xA1B2C3D4: 1000, 0xA1B23C4D: 1}
LARGEST = 262144
PCAPNG = bytes.fromhex('0a0d0d0a')


def opened(file):
    """The header of a capture, its byte order, and the nanoseconds of a fraction."""
    header = file.read(24)
    for order in '<>':
        if len(header) == 24 and struct.unpack_from(order + 'I', header)[0] in MAGICS:
            return header, order, MAGICS[struct.unpack_from(order + 'I', header)[0]]
    why = ', but of pcapng: `editcap -F pcap` makes one' if header[:4] == PCAPNG else ''
    sys.exit('%s: no capture of classic pcap%s' % (file.name, why))


def records(file, order, unit):
    """The time in nanoseconds and the bytes of each whole record. A damaged end is told and left out."""
    while head := file.read(16):
        seconds, fraction, captured, _ = struct.unpack(order + '4I', head) if len(head) == 16 else (0, 0, LARGEST + 1, 0)
        body = file.read(captured) if captured <= LARGEST else b''
        if captured > LARGEST or len(body) < captured:
            print('the capture is damaged at its end; what is whole is cut', file=sys.stderr)
            return
        yield seconds * 10**9 + fraction * unit, head + body


class Parts:
    """The part that is written, and the records of the last windows, with which the next one may begin."""

    def __init__(self, folder, header, order, unit, given):
        self.folder, self.header, self.order, self.unit, self.given = folder, header, order, unit, given
        self.out, self.begun, self.count, self.start = None, None, 0, 0
        self.last = collections.deque()

    def marker(self, number):
        """A record without bytes at the beginning of a window."""
        time = (self.start + number * self.given.window * 1000) // self.unit
        seconds, fraction = divmod(time, 10**9 // self.unit)
        return struct.pack(self.order + '4I', seconds, fraction, 0, 0)

    def begin(self, number):
        """Begin a part whose answers count from a window on."""
        if self.out:
            self.out.close()
        held = [(window, bytes_) for window, bytes_ in self.last if window >= number - self.given.before]
        first = held[0][0] if held else number
        self.out = open(os.path.join(self.folder, 'part-%08d-%08d.pcap' % (first, number)), 'wb')
        self.out.write(self.header + (self.marker(first) if first else b'') + b''.join(bytes_ for _, bytes_ in held))
        self.begun, self.count = number, self.count + 1

    def take(self, number, bytes_):
        if self.begun is None or number >= self.begun + self.given.windows:
            self.begin(number)
        self.out.write(bytes_)
        self.last.append((number, bytes_))
        while self.last[0][0] < number - self.given.before:
            self.last.popleft()


def cut(file, folder, given):
    """Cut a capture, and give the number of parts."""
    header, order, unit = opened(file)
    parts, number, start = Parts(folder, header, order, unit, given), 0, None
    for time, bytes_ in records(file, order, unit):
        if start is None:
            start = parts.start = time
        number = max(number, (time - start) // (given.window * 1000))
        parts.take(number, bytes_)
    if parts.out:
        parts.out.close()
    return parts.count


def count_from(least):
    """The reading of a word as a number that is at least this."""
    def number(word):
        if int(word) < least:
            raise argparse.ArgumentTypeError('at least %d' % least)
        return int(word)
    return number


def main():
    words = argparse.ArgumentParser(description=__doc__, formatter_class=argparse.RawDescriptionHelpFormatter)
    words.add_argument('capture')
    words.add_argument('folder')
    words.add_argument('--window', type=count_from(1), required=True, help='the window of the query file, in microseconds')
    words.add_argument('--windows', type=count_from(1), required=True, help='cut after so many windows')
    words.add_argument('--before', type=count_from(0), default=0, help='begin each part so many windows earlier (one less than the levels of the longest path)')
    given = words.parse_args()
    try:
        os.makedirs(given.folder, exist_ok=True)
        with sys.stdin.buffer if given.capture == '-' else open(given.capture, 'rb') as file:
            print('%d parts' % cut(file, given.folder, given))
    except OSError as fault:
        sys.exit('%s: %s' % (fault.filename or given.folder, fault.strerror))
    return 0


if __name__ == '__main__':
    sys.exit(main())
