#!/usr/bin/env python3
"""Writes the two captures of IPv6 of docs/QUERIES.md: eight seconds of yesterday's connections, and eight of today's.

    six.py FOLDER        # FOLDER/yesterday.pcap and FOLDER/today.pcap

In each second 240 connections are opened to as many servers of twelve networks of 2001:db8:20::/48, and 130 to forty servers of one more. Today somebody opens
400 more a second to 2001:db8:20:7::80 from the middle of the fourth second on. Only the SYNs are written. The same words write the same bytes each time. Needs
nothing but Python."""

import ipaddress

import written

SECOND = 1_000_000
SITE, CLIENTS, STRANGERS = (int(ipaddress.IPv6Address(text)) for text in ('2001:db8:20::', '2001:db8:c::', '2001:db8:bad::'))


def server(network, host):
    return SITE + (network << 64) + host


def opened(begin):
    """240 connections to twelve networks of twenty servers each, and 130 to forty servers of the thirteenth."""
    for i in range(240):
        yield begin + i * 4000, written.tcp6(CLIENTS + i % 60, server(1 + i % 12, 1 + i // 12), 1024 + i, 443, written.SYN)
    for i in range(130):
        yield begin + 50 + i * 7000, written.tcp6(CLIENTS + 100 + i % 30, server(13, 1 + i % 40), 2048 + i, 443, written.SYN)


def flood(begin):
    """400 connections to one server, each from another network."""
    for i in range(400):
        yield begin + 90 + i * 2000, written.tcp6(STRANGERS + (i << 64) + 1, server(7, 0x80), 4096 + i, 80, written.SYN)


def day(flooded):
    """The packets of eight seconds, with the flood in some of them. It begins in the middle of the first of them."""
    packets = [packet for second in range(8) for packet in opened(second * SECOND)]
    late = [packet for second in flooded for packet in flood(second * SECOND)]
    return packets + [packet for packet in late if packet[0] >= flooded[0] * SECOND + SECOND // 2]


DAYS = {'yesterday': (), 'today': (3, 4, 5, 6, 7)}


if __name__ == '__main__':
    written.write_captures(__doc__, ((name, day(flooded)) for name, flooded in DAYS.items()))
