#!/usr/bin/env python3
"""Writes a generated capture: little-endian, microseconds, Ethernet, TCP over IPv4, 54 captured bytes a packet.

few   5000 packets a second: a SYN flood, a host with many small connections, and traffic to 64 servers.
many  200000 packets a second to about 100000 addresses in each second, drawn so that few of them get most packets.

The numbers are drawn from the given number alone, so a capture can be made again. Needs nothing but Python."""

import argparse
import struct
import sys

FILE_HEADER = struct.pack('<IHHIIII', 0xA1B2C3D4, 2, 4, 0, 0, 262144, 1)
RECORD = struct.Struct('<IIII' + '54s')
PACKET = struct.Struct('>6s6sH' + 'BBHIBBH' + 'II' + 'HH8sBB6s')
NO_BYTES = bytes(8)
DESTINATION, SOURCE = bytes.fromhex('020000000002'), bytes.fromhex('020000000001')
SYN, ACK = 2, 16
POPULAR = 180000


def draws(number):
    """The drawn numbers, each of 31 bits."""
    while True:
        number = (number * 6364136223846793005 + 1442695040888963407) & 0xFFFFFFFFFFFFFFFF
        yield number >> 33


def address(a, b, c, d):
    return a << 24 | b << 16 | c << 8 | d


def record(second, micro, source, target, source_port, target_port, flags, length):
    packet = PACKET.pack(DESTINATION, SOURCE, 0x0800, 0x45, 0, length, 0, 0x40, 6, 0, source, target,
                         source_port, target_port, NO_BYTES, 0x50, flags, NO_BYTES[:6])
    return RECORD.pack(second, micro, 54, 14 + length, packet)


def few(count, number):
    draw = draws(number)
    flooded, busy = address(10, 1, 2, 3), address(10, 9, 8, 7)
    for i in range(count):
        b = i % 5000
        c, r = divmod(b, 10)
        if r == 0:
            fields = address(172, 16, c >> 8, c & 255), flooded, 1024 + c, 80, SYN, 60
        elif r == 1:
            fields = address(192, 168, 0, c % 4 + 1), busy, 2048 + c, 80, ACK, 40
        else:
            u, v = next(draw), next(draw)
            fields = (address(30, 0, 0, v % 16 + 1), address(20, 0, u % 8, u // 8 % 8), 4096 + v // 16 % 1024, 443, ACK, 1040)
        yield record(1 + i // 5000, b * 200, *fields)


def many(count, number):
    draw = draws(number)
    for i in range(count):
        u, v, w = next(draw), next(draw), next(draw)
        rank = (u * u >> 31) * POPULAR >> 31
        flags, length = (SYN, 60) if w % 4 == 0 else (ACK, 40 + w // 4 % 1400)
        yield record(1 + i // 200000, i % 200000 * 5, address(30, 0, 0, 0) + v % 4096, address(20, 0, 0, 0) + rank,
                     1024 + v // 4096 % 32768, 443, flags, length)


KINDS = {'few': few, 'many': many}


def write(kind, count, number, out):
    """Write a capture of the kind, some records at a time."""
    out.write(FILE_HEADER)
    waiting = []
    for one in KINDS[kind](count, number):
        waiting.append(one)
        if len(waiting) == 20000:
            out.write(b''.join(waiting))
            waiting = []
    out.write(b''.join(waiting))


def main():
    words = argparse.ArgumentParser(description=__doc__, formatter_class=argparse.RawDescriptionHelpFormatter)
    words.add_argument('kind', choices=KINDS)
    words.add_argument('file', help='the capture to write')
    words.add_argument('--packets', type=int, default=2000000)
    words.add_argument('--number', type=int, default=7, help='the number from which all draws stem')
    given = words.parse_args()
    with open(given.file, 'wb') as out:
        write(given.kind, given.packets, given.number, out)
    return 0


if __name__ == '__main__':
    sys.exit(main())
