#!/usr/bin/env python3
"""Writes the captures with which docs/PLANS.md shows how late a plan prints what a query answers.

    late.py FOLDER        # FOLDER/late.pcap, FOLDER/gap.pcap and FOLDER/never.pcap

Two packets come to 10.0.0.9 in each of two seconds, which follow one another in late.pcap, and have a second without packets between them in gap.pcap. In
never.pcap two long packets come to 10.0.0.9 and three short ones to 10.0.0.8, in each of five seconds. The same words write the same bytes each time. Needs
nothing but Python."""

import written

SECOND, SOURCE = 1_000_000, (10, 77, 0, 1)


def packets(last, count, size, begin):
    """This many packets to 10.0.0.LAST."""
    for i in range(count):
        yield begin + i * 100_000, written.udp(SOURCE, (10, 0, 0, last), 5300, 53, size)


def two(begin):
    yield from packets(9, 2, 40, begin)


def five(begin):
    yield from packets(9, 2, 200, begin)
    yield from packets(8, 3, 20, begin + SECOND // 2)


DAYS = {'late': (two, (0, 1)), 'gap': (two, (0, 2)), 'never': (five, range(5))}


if __name__ == '__main__':
    written.write_captures(__doc__, ((name, [packet for second in seconds for packet in kind(second * SECOND)]) for name, (kind, seconds) in DAYS.items()))
