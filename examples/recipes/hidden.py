#!/usr/bin/env python3
"""Writes two captures for somebody who tries `sonata` for the first time: half a minute of yesterday's traffic, in which nothing happens, and half a minute
of today's, in which three attacks are hidden: a scan of ports, a flood of SYNs, and many connections that carry hardly any bytes. Who attacks whom, and when,
is drawn from a number.

    hidden.py FOLDER --seed 11     # FOLDER/yesterday.pcap, FOLDER/today.pcap, and FOLDER/truth.txt, which isn't to be looked at before

In each second 40 clients fetch pages from 48 servers of 10.30.0.0/22, names are asked for, and there are some pings. The same words write the same bytes
each time. Needs nothing but Python."""

import argparse
import os
import random

import written
from written import ACK, FIN, SYN

SECOND, LONG = 1_000_000, 30
# The first seconds of 28 and 29 November 2026.
DAYS = {'yesterday': 1795824000, 'today': 1795824000 + 86400}


def address(draw, *front):
    return tuple(front) + tuple(draw.randrange(1, 250) for _ in range(4 - len(front)))


def ordinary(draw, servers):
    """The packets of half a minute without an attack."""
    clients = [address(draw, 100, 64 + i % 2) for i in range(40)]
    for i in range(650 * LONG):
        when = i * SECOND // 650 + draw.randrange(900)
        client, server, port, kind = draw.choice(clients), draw.choice(servers), 1024 + draw.randrange(40000), draw.randrange(100)
        if kind < 12:
            yield when, written.tcp(client, server, port, 443, SYN)
        elif kind < 22:
            yield when, written.tcp(client, server, port, 443, FIN | ACK)
        elif kind < 88:
            yield when, written.tcp(server, client, 443, port, ACK, draw.randrange(200, 1400))
        elif kind < 98:
            yield when, written.udp(servers[0], client, 53, port, draw.randrange(60, 200))
        else:
            yield when, written.echo(client, server, 8)


def scan(draw, source, target, begin):
    """150 ports a second, for six seconds."""
    ports = draw.sample(range(1, 20000), 900)
    return [(begin + i * 6 * SECOND // 900, written.tcp(source, target, 47000, port, SYN)) for i, port in enumerate(ports)]


def flood(draw, target, begin):
    """600 SYNs a second from drawn sources, for five seconds."""
    return [(begin + i * SECOND // 600, written.tcp(address(draw, draw.randrange(1, 220)), target, 1024 + i, 443, SYN)) for i in range(3000)]


def slow(source, target, begin):
    """90 connections, each with a byte a second, for ten seconds."""
    return [(begin + second * SECOND + i * SECOND // 90, written.tcp(source, target, 30000 + i, 80, ACK, 1)) for second in range(10) for i in range(90)]


def attacks(draw, servers):
    """The packets of the three attacks, and a line that tells each."""
    scanned, flooded, held = draw.sample(servers[1:], 3)
    scanner, holder = address(draw, 198, 51), address(draw, 203, 0)
    times = [draw.randrange(2 * SECOND, (LONG - long) * SECOND) for long in (8, 7, 12)]
    lines = ['scan of ports: %s tries %s, from %%s' % (dotted(scanner), dotted(scanned)), 'flood: %s is sent SYNs, from %%s' % dotted(flooded),
             'slow connections: %s holds them at %s, from %%s' % (dotted(holder), dotted(held))]
    found = scan(draw, scanner, scanned, times[0]) + flood(draw, flooded, times[1]) + slow(holder, held, times[2])
    return found, [line % 'second %.1f' % (time / SECOND) for line, time in zip(lines, times)]


def dotted(parts):
    return '.'.join(map(str, parts))


def main():
    words = argparse.ArgumentParser(description=__doc__, formatter_class=argparse.RawDescriptionHelpFormatter)
    words.add_argument('folder')
    words.add_argument('--seed', type=int, default=11, help='the number from which the attacks are drawn (default 11)')
    given = words.parse_args()
    os.makedirs(given.folder, exist_ok=True)
    draw = random.Random(given.seed)
    servers = [(10, 30, i % 4, 10 + i // 4) for i in range(48)]
    hidden, lines = attacks(draw, servers)
    for day, first in DAYS.items():
        packets = list(ordinary(draw, servers)) + (hidden if day == 'today' else [])
        written.write(os.path.join(given.folder, day + '.pcap'), [((first - 1) * SECOND + when, packet) for when, packet in packets])
    with open(os.path.join(given.folder, 'truth.txt'), 'w') as file:
        file.write('\n'.join(lines) + '\n')


if __name__ == '__main__':
    main()
