#!/usr/bin/env python3
"""Writes the captures of docs/TOUR.md without root, devices or tools: eight seconds of yesterday's traffic, eight of today's, and eight with a burst.

    day.py FOLDER        # FOLDER/yesterday.pcap, FOLDER/today.pcap and FOLDER/burst.pcap

In each second 24 gateways fetch pages from 32 servers of 10.20.0.0/22, a host of 198.51.100.0/24 scans the ports of 10.20.1.5, some 220 addresses ask
10.20.9.9, and 10.20.2.2 sends its backup to 192.0.2.10. Today a flood of SYNs from drawn addresses to 10.20.0.80 begins in the middle of the fourth
second and comes again in each second that follows; in the burst it comes once. The same words write the same bytes each time. Needs nothing but Python."""

import written

SECOND = 1_000_000
SCANNER, SCANNED = (198, 51, 100, 7), (10, 20, 1, 5)
ASKED, BACKED_UP, STORE, FLOODED = (10, 20, 9, 9), (10, 20, 2, 2), (192, 0, 2, 10), (10, 20, 0, 80)


def draws(number):
    """Drawn numbers of 31 bits, the same for the same number."""
    while True:
        number = (number * 6364136223846793005 + 1442695040888963407) & 0xFFFFFFFFFFFFFFFF
        yield number >> 33


def pages(draw, begin):
    """700 packets of gateways to servers, one in eight of them a SYN."""
    for i in range(700):
        u, v = next(draw), next(draw)
        gateway, server = (100, 64, u % 4, 1 + u // 4 % 6), (10, 20, v % 4, 1 + v // 4 % 8)
        flags, size = (written.SYN, 0) if u // 64 % 8 == 0 else (written.ACK, 200 + v // 64 % 800)
        yield begin + i * 1400, written.tcp(gateway, server, 1024 + v // 64 % 4096, 443, flags, size)


def scan(_, begin):
    """120 ports of a server, each second others."""
    first = begin // SECOND * 120
    for i in range(120):
        yield begin + 40 + i * 8000, written.tcp(SCANNER, SCANNED, 50000, 1 + first + i, written.SYN)


def asking(draw, begin):
    """Some 220 addresses, each with a question or two."""
    for i in range(240):
        source = 172, 16 + i % 16, 1, 1 + i * 7 % 250 if next(draw) % 12 else 1
        yield begin + 80 + i * 4000, written.udp(source, ASKED, 5300 + i, 53, 40)


def backup(_, begin):
    """200 full packets."""
    for i in range(200):
        yield begin + 120 + i * 4900, written.tcp(BACKED_UP, STORE, 873, 40000, written.ACK, 1448)


def flood(draw, begin):
    """600 SYNs in half a second, each of a drawn source."""
    for i in range(600):
        u = next(draw)
        source = 1 + u % 223, u // 256 % 256, u // 65536 % 256, 1 + u // 16777216 % 127
        yield begin + SECOND // 2 + i * 800, written.tcp(source, FLOODED, 1024 + i, 80, written.SYN)


def day(number, flooded):
    """The packets of eight seconds, with the flood in some of them."""
    draw = draws(number)
    kinds = [pages, scan, asking, backup]
    return [packet for second in range(8) for kind in kinds + [flood] * (second in flooded) for packet in kind(draw, second * SECOND)]


DAYS = {'yesterday': (1, ()), 'today': (2, range(3, 8)), 'burst': (3, (3,))}


if __name__ == '__main__':
    written.write_captures(__doc__, ((name, day(*words)) for name, words in DAYS.items()))
