#!/usr/bin/env python3
"""Writes the captures with which examples/README.md and docs/PLANS.md show what a table without room for its prefixes sends, and what a weight is good for.

    room.py FOLDER        # FOLDER/room.pcap and FOLDER/weight.pcap

In room.pcap two packets come to each of 10.0.0.9 and 20.0.0.9 in one second, and to each of 10.0.0.9 and 30.0.0.9 in the next. In weight.pcap two packets come to
10.0.0.9 in each of two seconds, and then one to each of 10.0.0.20, 10.0.0.40 and 10.0.0.60. The same words write the same bytes each time. Needs nothing but
Python."""

import written

SECOND, SOURCE = 1_000_000, (10, 77, 0, 1)


def packets(begin, *hosts):
    """A packet to each of these hosts, one after another."""
    for i, host in enumerate(hosts):
        yield begin + i * 100_000, written.udp(SOURCE, host, 5300, 53, 40)


def room():
    for second, other in enumerate((20, 30)):
        yield from packets(second * SECOND, (10, 0, 0, 9), (10, 0, 0, 9), (other, 0, 0, 9), (other, 0, 0, 9))


def weight():
    for second in range(2):
        yield from packets(second * SECOND, *[(10, 0, 0, last) for last in (9, 9, 20, 40, 60)])


if __name__ == '__main__':
    written.write_captures(__doc__, ((kind.__name__, list(kind())) for kind in (room, weight)))
