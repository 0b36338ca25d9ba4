#!/usr/bin/env python3
"""Writes the two small captures with which README.md begins: four seconds of yesterday's traffic, and four of today's.

    small.py FOLDER        # FOLDER/yesterday.pcap and FOLDER/today.pcap

In each second 24 connections are opened to 10.20.9.9, and 24 more to twelve servers of 10.20.0.0/22, two to each. Today somebody opens 30 more to 10.20.0.80 in
each second from the second one on. Only the SYNs are written. The same words write the same bytes each time. Needs nothing but Python."""

import written

SECOND = 1_000_000


def opened(begin):
    """24 connections to one server, and two to each of twelve others."""
    for i in range(24):
        yield begin + i * 40_000, written.tcp((100, 64, 0, 1 + i), (10, 20, 9, 9), 1024 + i, 443, written.SYN)
        yield begin + 20_000 + i * 40_000, written.tcp((100, 64, 1, 1 + i), (10, 20, i % 4, 1 + i // 4 % 3), 1024 + i, 443, written.SYN)


def flood(begin):
    """30 connections to one server, each from another source."""
    for i in range(30):
        yield begin + 500 + i * 30_000, written.tcp((203, 0, 113, 1 + i), (10, 20, 0, 80), 2048 + i, 80, written.SYN)


def day(flooded):
    """The packets of four seconds, with the flood in some of them."""
    return [packet for second in range(4) for kind in [opened] + [flood] * (second in flooded) for packet in kind(second * SECOND)]


DAYS = {'yesterday': (), 'today': (1, 2, 3)}


if __name__ == '__main__':
    written.write_captures(__doc__, ((name, sorted(day(flooded))) for name, flooded in DAYS.items()))
