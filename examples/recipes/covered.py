#!/usr/bin/env python3
"""Writes captures of a minute of ordinary traffic in which an attack is hidden, one for each of four queries, and one of the same traffic without any.

    covered.py FOLDER                  # all of them, as FOLDER/dns_tunnel.pcap and so on, and FOLDER/ordinary.pcap
    covered.py FOLDER dns_tunnel ordinary

In each second forty machines of 10.30.0.0/16 ask a resolver, fetch pages, send some bytes up, hear by QUIC and set their clocks, and twenty of
2001:db8:30:1::/64 talk over IPv6. Then a machine sends a DNS tunnel's questions, one is hit by answers of memcached, a stranger sweeps the IPv6 network, or a machine sends a
file out. The same words write the same bytes each time. Needs nothing but Python."""

import argparse
import ipaddress
import os
import random
import struct
import sys

import written
from written import ACK, SYN

SECOND, LONG = 1_000_000, 60
RESOLVER, UPSTREAM = (10, 30, 0, 53), (192, 0, 2, 53)
MACHINES = [(10, 30, i % 4, 10 + i // 4) for i in range(40)]
OUTSIDE = [(203, 0, 113, 1 + i) for i in range(60)]
NETWORK, FAR = int(ipaddress.IPv6Address('2001:db8:30:1::')), int(ipaddress.IPv6Address('2001:db8:a:b::'))
SWEEPER = int(ipaddress.IPv6Address('2001:db8:77::5'))
# Who attacks whom, from when on and for how long in seconds, and how many packets a second: what `try_all.py` looks for.
TUNNEL = (10, 30, 1, 17), RESOLVER, 17.3, 20, 60
REFLECTED = (10, 30, 2, 15), 11211, 31.6, 10, 300
FAN = SWEEPER, 22.4, 15, 80
FILE = (10, 30, 3, 19), (198, 51, 100, 77), 14.2, 40, 150


def question(draw, when, machine):
    """A question, what the resolver asks for it in one of ten cases, and the answer."""
    port = 20000 + draw.randrange(40000)
    packets = [(when, written.udp(machine, RESOLVER, port, 53, draw.randrange(30, 62))), (when + 900, written.udp(RESOLVER, machine, 53, port, draw.randrange(60, 300)))]
    if draw.randrange(10) == 0:
        packets += [(when + 100, written.udp(RESOLVER, UPSTREAM, port, 53, draw.randrange(30, 62))), (when + 800, written.udp(UPSTREAM, RESOLVER, 53, port, draw.randrange(60, 300)))]
    return packets


def page(draw, when, machine, server):
    """A page: a SYN, a request with some bytes, and the bytes of the page."""
    port = 1024 + draw.randrange(60000)
    return ([(when, written.tcp(machine, server, port, 443, SYN)), (when + 300, written.tcp(machine, server, port, 443, ACK, draw.randrange(100, 1400)))]
            + [(when + 600 + i * 50, written.tcp(server, machine, 443, port, ACK, 1400)) for i in range(4)])


def talk6(draw, when):
    """Over IPv6: a machine opens a connection, and the server of the network answers one of its many clients."""
    machine, far = NETWORK + 1 + draw.randrange(20), FAR + 1 + draw.randrange(30)
    return [(when, written.tcp6(machine, far, 1024 + draw.randrange(60000), 443, SYN)), (when + 200, written.tcp6(NETWORK + 0x80, FAR + draw.randrange(1000), 443, 50000, ACK))]


def ordinary(draw):
    """The packets of a minute without an attack."""
    packets = []
    for i in range(60 * LONG):
        when, machine, server = i * SECOND // 60 + draw.randrange(900), draw.choice(MACHINES), draw.choice(OUTSIDE)
        packets += question(draw, when, machine) + talk6(draw, when + 50)
        packets += page(draw, when + 100, machine, server) if i % 3 == 0 else []
        packets += [(when + 7000, written.udp(server, machine, 443, 50443, 1200)), (when + 7100, written.udp((192, 0, 2, 123), machine, 123, 123, 48))]
        packets += [(when + 3000, written.tcp(MACHINES[7], OUTSIDE[3], 50000, 443, ACK, 1000))] if i % 4 == 0 else []
    return packets


def every(begin, long, rate, packet):
    """So many packets a second for a while, each made of its number."""
    return [(int(begin * SECOND) + i * SECOND // rate, packet(i)) for i in range(long * rate)]


def ping6(source, target):
    """An echo request of ICMPv6."""
    return struct.pack('>IHBB', 6 << 28, 16, 58, 64) + source.to_bytes(16, 'big') + target.to_bytes(16, 'big') + struct.pack('>BBHHH', 128, 0, 0, 1, 1) + bytes(8)


def dns_tunnel(draw):
    source, resolver, *when = TUNNEL
    return every(*when, lambda i: written.udp(source, resolver, 40053, 53, draw.randrange(150, 210)))


def reflection(draw):
    target, port, *when = REFLECTED
    return every(*when, lambda i: written.udp((172, 16 + i % 120 // 8, 5, 1 + i % 120), target, port, 50000, 1400))


def ip6_fan(draw):
    source, *when = FAN
    return every(*when, lambda i: ping6(source, NETWORK + 0x1000 + i) if i % 2 else written.tcp6(source, NETWORK + 0x1000 + i, 50000, 22, SYN))


def exfiltration(draw):
    source, target, *when = FILE
    return every(*when, lambda i: written.tcp(source, target, 50001, 443, ACK, 1400))


HIDDEN = {'ordinary': lambda draw: [], 'dns_tunnel': dns_tunnel, 'reflection': reflection, 'ip6_fan': ip6_fan, 'exfiltration': exfiltration}


def main():
    words = argparse.ArgumentParser(description=__doc__, formatter_class=argparse.RawDescriptionHelpFormatter)
    words.add_argument('folder')
    words.add_argument('names', nargs='*', metavar='NAME', help='of ' + ', '.join(HIDDEN))
    given = words.parse_args()
    strange = set(given.names) - set(HIDDEN)
    if strange:
        words.error('no such capture: ' + ', '.join(sorted(strange)))
    try:
        os.makedirs(given.folder, exist_ok=True)
        for name in given.names or HIDDEN:
            written.write(os.path.join(given.folder, name + '.pcap'), ordinary(random.Random(11)) + HIDDEN[name](random.Random(12)))
    except OSError as fault:
        sys.exit('%s: %s' % (given.folder, fault.strerror))
    return 0


if __name__ == '__main__':
    sys.exit(main())
