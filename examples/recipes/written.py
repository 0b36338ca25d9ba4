#!/usr/bin/env python3
"""Writes a capture of each recipe without root, devices or tools: the packets that its tool sends and that the victim answers, at regular times.

    written.py FOLDER                  # all of them, as FOLDER/port_scan.pcap and so on
    written.py FOLDER port_scan quiet

The attacker is 10.77.0.1 and the victim 10.77.0.2, and over IPv6 fd77::1 and fd77::2, as in the recipes. The same words write the same bytes each time. Each attack goes on for about five
seconds, so that a refined query has windows to look into; real tools are often done within one. Needs nothing but Python."""

import argparse
import ipaddress
import os
import struct
import sys

ATTACKER, VICTIM = (10, 77, 0, 1), (10, 77, 0, 2)
FIN, SYN, RST, PUSH, ACK = 1, 2, 4, 8, 16
SNAP = 128
# The same two over IPv6, the network that is scanned, and the one of the spreader's partners.
ATTACKER_6, VICTIM_6, SCANNED, PARTNERS = (int(ipaddress.IPv6Address(text)) for text in ('fd77::1', 'fd77::2', 'fd88:0:0:7::', 'fd88:0:2:3::'))


def ip(source, target, protocol, body, ttl=64):
    return struct.pack('>BBHHHBBH', 0x45, 0, 20 + len(body), 0, 0, ttl, protocol, 0) + bytes(source) + bytes(target) + body


def tcp(source, target, sport, dport, flags, size=0, ttl=64):
    return ip(source, target, 6, struct.pack('>HHIIBBHHH', sport, dport, 0, 0, 0x50, flags, 64240, 0, 0) + bytes(size), ttl)


def tcp6(source, target, sport, dport, flags, hops=64):
    """A segment over IPv6, whose addresses are numbers."""
    return (struct.pack('>IHBB', 6 << 28, 20, 6, hops) + source.to_bytes(16, 'big') + target.to_bytes(16, 'big')
            + struct.pack('>HHIIBBHHH', sport, dport, 0, 0, 0x50, flags, 64240, 0, 0))


def udp(source, target, sport, dport, size, ttl=64):
    return ip(source, target, 17, struct.pack('>HHHH', sport, dport, 8 + size, 0) + bytes(size), ttl)


def echo(source, target, kind):
    return ip(source, target, 1, struct.pack('>BBHHH', kind, 0, 0, 1, 1) + bytes(56))


def refused(target, sport, dport, when):
    """A SYN to a port that is closed, and the answer."""
    return [(when, tcp(ATTACKER, target, sport, dport, SYN)), (when + 60, tcp(target, ATTACKER, dport, sport, RST | ACK))]


def refused6(target, sport, dport, when):
    return [(when, tcp6(ATTACKER_6, target, sport, dport, SYN)), (when + 60, tcp6(target, ATTACKER_6, dport, sport, RST | ACK))]


def opened(sport, dport, when):
    return [(when, tcp(ATTACKER, VICTIM, sport, dport, SYN)), (when + 60, tcp(VICTIM, ATTACKER, dport, sport, SYN | ACK)),
            (when + 120, tcp(ATTACKER, VICTIM, sport, dport, ACK))]


def line(sport, dport, when, size):
    """A line to the victim, and its acknowledgment."""
    return [(when, tcp(ATTACKER, VICTIM, sport, dport, PUSH | ACK, size)), (when + 60, tcp(VICTIM, ATTACKER, dport, sport, ACK))]


def closed(sport, dport, when):
    return [(when, tcp(ATTACKER, VICTIM, sport, dport, FIN | ACK)), (when + 60, tcp(VICTIM, ATTACKER, dport, sport, FIN | ACK)),
            (when + 120, tcp(ATTACKER, VICTIM, sport, dport, ACK))]


def connection(sport, dport, when, size):
    return opened(sport, dport, when) + line(sport, dport, when + 200, size) + closed(sport, dport, when + 400)


def other(number):
    """An address of a spoofed source, each number another."""
    return 172, 16 + number % 16, number // 16 % 256, 1 + number * 7 % 250


def ping(target, when):
    return [(when, echo(ATTACKER, target, 8)), (when + 60, echo(target, ATTACKER, 0))]


def quiet():
    """Four pings and ten connections."""
    pings = [packet for i in range(4) for packet in ping(VICTIM, i * 300_000)]
    return pings + [packet for i in range(10) for packet in connection(40000 + i, 80, 1_300_000 + i * 100_000, 7)]


def each(count, gap, packets):
    """The packets of a number and a time, for each number up to a count, with a gap in microseconds."""
    return [packet for i in range(count) for packet in packets(i, i * gap)]


RECIPES = {
    'quiet': quiet,
    'newly_opened': lambda: each(5000, 1000, lambda i, when: refused(VICTIM, 1024 + i, 80, when)),
    'syn_flood': lambda: each(5000, 1000, lambda i, when: [(when, tcp(other(i), VICTIM, 1024 + i, 80, SYN))]),
    'super_spreader': lambda: each(5000, 1000, lambda i, when: refused((10, 88, i * 37 % 256, i * 101 % 251), 1024 + i, 80, when)),
    'port_scan': lambda: each(2000, 2500, lambda i, when: refused(VICTIM, 50000, 1 + i, when)),
    'host_scan': lambda: each(1280, 4000, lambda i, when: refused((10, 88, 1 + i // 256, i % 256), 50000, 445, when)),
    'ssh_brute_force': lambda: each(180, 200_000, lambda i, when: connection(40000 + i, 22, when, 20)),
    'slow_connections': lambda: (each(200, 500, lambda i, when: opened(40000 + i, 80, when))
                                 + each(1000, 5000, lambda i, when: line(40000 + i % 200, 80, 150_000 + when, 8))),
    'dns_reflection': lambda: each(5000, 1000, lambda i, when: [(when, udp((10, 88, 0, 1 + i % 40), VICTIM, 53, 40000, 1200, 60))]),
    'icmp_sweep': lambda: each(1280, 4000, lambda i, when: ping((10, 88, 2 + i // 256, i % 256), when)),
    'top_talkers': lambda: each(10000, 500, lambda i, when: [(when, tcp(ATTACKER, VICTIM, 40000, 9000, ACK, 1448))]),
    'ip6_opened': lambda: each(5000, 1000, lambda i, when: refused6(VICTIM_6, 50000, 1 + i, when)),
    'ip6_spreader': lambda: each(5000, 1000, lambda i, when: refused6(PARTNERS + i * 37 % 4096, 1024 + i, 80, when)),
    'ip6_scan': lambda: (each(500, 10_000, lambda i, when: refused6(SCANNED + i, 50000, 443, when))
                         + each(20, 250_000, lambda i, when: refused6(SCANNED + (1 << 64) + i % 4, 50001, 443, when + 500))),
    'ttl_anomalies': lambda: (each(250, 20_000, lambda i, when: [(when, tcp((10, 77, 0, 50), VICTIM, 2000 + i, 80, SYN, ttl=64)),
                                                                 (when + 40, tcp((10, 77, 0, 50), VICTIM, 4000 + i, 80, SYN, ttl=113))])
                              + each(25, 200_000, lambda i, when: [(when + 80 + n, udp(ATTACKER, VICTIM, 40000, 33434, 0, 1 + i % 5)) for n in range(3)])),
}


def write(name, packets):
    """The capture of packets, each its time in microseconds and its bytes from IPv4 or IPv6 on, over Ethernet and cut to the first bytes."""
    with open(name, 'wb') as out:
        out.write(struct.pack('<IHHIIII', 0xA1B2C3D4, 2, 4, 0, 0, SNAP, 1))
        for when, packet in sorted(packets, key=lambda packet: packet[0]):
            frame = bytes.fromhex('020000000002020000000001' + ('86dd' if packet[0] >> 4 == 6 else '0800')) + packet
            out.write(struct.pack('<IIII', 1 + when // 1_000_000, when % 1_000_000, min(SNAP, len(frame)), len(frame)) + frame[:SNAP])


def write_captures(description, captures):
    """The main part of a script that writes captures, each its name and its packets, into a folder that its caller names."""
    words = argparse.ArgumentParser(description=description, formatter_class=argparse.RawDescriptionHelpFormatter)
    words.add_argument('folder')
    given = words.parse_args()
    os.makedirs(given.folder, exist_ok=True)
    for name, packets in captures:
        write(os.path.join(given.folder, name + '.pcap'), packets)


def main():
    words = argparse.ArgumentParser(description=__doc__, formatter_class=argparse.RawDescriptionHelpFormatter)
    words.add_argument('folder')
    words.add_argument('recipes', nargs='*', metavar='RECIPE', help='of ' + ', '.join(RECIPES))
    given = words.parse_args()
    strange = set(given.recipes) - set(RECIPES)
    if strange:
        words.error('no recipe: ' + ', '.join(sorted(strange)))
    os.makedirs(given.folder, exist_ok=True)
    for name in given.recipes or RECIPES:
        write(os.path.join(given.folder, name + '.pcap'), RECIPES[name]())
    return 0


if __name__ == '__main__':
    sys.exit(main())
