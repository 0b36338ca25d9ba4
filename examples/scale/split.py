#!/usr/bin/env python3
"""Splits a capture of Ethernet between switches, as if each saw the packets of some sources: by the last bits of the IPv4 source address.

    split.py today.pcap switches --switches 8

Writes FOLDER/switch-N.pcap. Each begins with a record without a byte at the time of the whole capture's first record, so that all have the same windows; with
--unmarked, for `sonata many`, none does. A packet without an IPv4 header goes to switch 0. Needs nothing but Python."""

import argparse
import os
import struct
import sys

HERE = os.path.dirname(os.path.abspath(__file__))
sys.path.insert(0, os.path.join(HERE, '..', '..', 'view'))
import cut  # noqa: E402


def switch_of(record, count):
    """The switch of a record of classic pcap, of 16 bytes and the packet."""
    packet = record[16:]
    return packet[29] % count if packet[12:14] == b'\x08\x00' and len(packet) >= 34 else 0


def marker(time, order, unit):
    """A record without a byte at this time."""
    seconds, fraction = divmod(time // unit, 10**9 // unit)
    return struct.pack(order + '4I', seconds, fraction, 0, 0)


def split(file, folder, count, marked):
    header, order, unit = cut.opened(file)
    outs = [open(os.path.join(folder, 'switch-%d.pcap' % number), 'wb') for number in range(count)]
    begun = False
    for time, record in cut.records(file, order, unit):
        if not begun:
            for out in outs:
                out.write(header + (marker(time, order, unit) if marked else b''))
            begun = True
        outs[switch_of(record, count)].write(record)
    for out in outs:
        out.close()


def main():
    words = argparse.ArgumentParser(description=__doc__, formatter_class=argparse.RawDescriptionHelpFormatter)
    words.add_argument('capture')
    words.add_argument('folder')
    words.add_argument('--switches', type=cut.count_from(1), default=8, help='how many (default 8)')
    words.add_argument('--unmarked', action='store_true', help='begin with no record at the time of the first of all')
    given = words.parse_args()
    try:
        os.makedirs(given.folder, exist_ok=True)
        with open(given.capture, 'rb') as file:
            split(file, given.folder, given.switches, not given.unmarked)
    except OSError as fault:
        sys.exit('%s: %s' % (fault.filename, fault.strerror))
    return 0


if __name__ == '__main__':
    sys.exit(main())
