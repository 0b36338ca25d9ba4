#!/usr/bin/env python3
"""Writes two days whose traffic turns, each with the day before it: in the morning a few clients ask many servers, in the evening many clients ask a few.

    turning.py FOLDER

few-yesterday.pcap and few-today.pcap have 10 packets a second, so that examples/README.md can count them by hand; yesterday.pcap and today.pcap have 1000, of 12
clients to 200 servers, and then of 200 clients to 12. Both days before are mornings alone. levels-yesterday.pcap and levels-today.pcap have eight packets in
all, for a query of two levels. The same words write the same bytes each time. Needs nothing but Python."""

import random

from written import udp, write_captures

SECOND = 1_000_000


def hosts(net):
    """200 addresses of a net, drawn from its number: so some of them share a slot of a register."""
    return [(10, net, number // 256, number % 256) for number in random.Random(net).sample(range(256, 65280), 200)]


def asked(second, place, each, client, server):
    """The packet of a client to a server, at a place of the `each` packets of a second."""
    return second * SECOND + place * (SECOND // each), udp(client, server, 40000, 53, 20)


def turning(seconds, each, most, fewest):
    """A day: in each second so many packets of the morning, in which the fewest clients ask the most servers, and then those of the evening. The evening's clients
    and servers are others."""
    clients, servers, later_clients, later_servers = hosts(1), hosts(2), hosts(3), hosts(4)
    for second, mornings in enumerate(seconds):
        for place in range(each):
            few, many = place % fewest, place % most
            pair = (clients[few], servers[many]) if place < mornings else (later_clients[many], later_servers[few])
            yield asked(second, place, each, *pair)


def to(second, *servers):
    """A packet to each of these addresses."""
    return [(second * SECOND + place * 1000, udp((10, 1, 0, 1), server, 40000, 53, 20)) for place, server in enumerate(servers)]


NINE, EIGHT, SEVEN, OTHER = (10, 2, 0, 9), (10, 2, 0, 8), (10, 2, 0, 7), (20, 2, 0, 9)
DAYS = [('few-yesterday', turning([10, 10], 10, 10, 1)), ('few-today', turning([10, 10, 7, 0, 0, 0], 10, 10, 1)),
        ('yesterday', turning([1000] * 4, 1000, 200, 12)), ('today', turning([1000] * 3 + [0] * 5, 1000, 200, 12)),
        ('levels-yesterday', to(0, NINE, NINE)), ('levels-today', to(0, NINE, EIGHT, SEVEN, OTHER) + to(1, NINE) + to(2, NINE))]


if __name__ == '__main__':
    write_captures(__doc__, DAYS)
