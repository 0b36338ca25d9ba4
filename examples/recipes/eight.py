#!/usr/bin/env python3
"""Writes a capture on which plans for examples/eight are tried: four seconds in which all of its eight queries find something at once.

    eight.py FOLDER        # FOLDER/eight.pcap

In each second one server is sent 450 SYNs, a source sends to 320 addresses, another tries 120 ports of one address, another one port of 60 addresses, another
opens 25 connections to port 22, 60 connections carry hardly any bytes, 100 DNS answers go to one address, and somebody pings 40. Beside that 24 gateways
fetch pages from 32 servers. The same words write the same bytes each time. Needs nothing but Python."""

import written
from written import ACK, SYN

SECOND = 1_000_000


def drawn(number):
    """A number of 31 bits that looks drawn, the same for the same number."""
    return (number * 6364136223846793005 + 1442695040888963407 & 0xFFFFFFFFFFFFFFFF) >> 33


def page(i):
    draw = drawn(i)
    return written.tcp((100, 64, draw % 4, 1 + draw // 4 % 6), (10, 20, draw // 32 % 4, 1 + draw // 128 % 8), 1024 + draw % 997, 443, ACK, 200 + draw % 800)


# For each kind of packet how many there are in a second, and the packet of a number, which goes on from one second to the next.
KINDS = [
    (450, lambda i: written.tcp((192, 0, 2, 1 + i % 9), (10, 1, 2, 3), 1024 + i, 443, SYN)),
    (320, lambda i: written.udp((203, 0, 113, 5), (10, 40 + i % 3, i // 3 % 200, 1 + i % 250), 4000, 9, 20)),
    (120, lambda i: written.tcp((198, 51, 100, 7), (10, 1, 5, 5), 50000, 1 + i, SYN)),
    (60, lambda i: written.tcp((198, 51, 100, 8), (10, 2, i // 250, 1 + i % 250), 50000, 445, SYN)),
    (25, lambda i: written.tcp((198, 51, 100, 9), (10, 1, 7, 7), 30000 + i, 22, SYN)),
    (60, lambda i: written.tcp((172, 16, 0, 1 + i % 60), (10, 9, 8, 7), 20000 + i % 60, 80, ACK, 1)),
    (100, lambda i: written.udp((192, 0, 3, 1 + i % 40), (10, 1, 9, 9), 53, 40000, 1200)),
    (40, lambda i: written.echo((198, 51, 100, 10), (10, 3, i // 250, 1 + i % 250), 8)),
    (300, page),
]


def packets():
    """The packets of four seconds, each kind at regular times."""
    return [(second * SECOND + 37 * kind + i * SECOND // count, make(second * count + i))
            for second in range(4) for kind, (count, make) in enumerate(KINDS) for i in range(count)]


if __name__ == '__main__':
    written.write_captures(__doc__, [('eight', packets())])
