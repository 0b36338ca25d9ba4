#!/usr/bin/env python3
"""Sends frames of unusual form on an interface: tags, tunnels, fragments, padding, options, cut and wrong headers. Needs root, and nothing but Python."""

import argparse
import socket
import struct
import time

TARGET, SOURCE = bytes.fromhex('020000000002'), bytes.fromhex('020000000001')
TCP = struct.pack('>HHIIBBHHH', 40000, 80, 0x01020304, 0x0A0B0C0D, 0x50, 2, 1024, 0, 0)
UDP = struct.pack('>HHHH', 40000, 53, 16, 0) + b'question'
ECHO = struct.pack('>BBHHH', 8, 0, 0, 7, 1) + b'echoecho'


def checksum(header):
    total = sum(struct.unpack('>%dH' % (len(header) // 2), header))
    while total >> 16:
        total = (total & 0xFFFF) + (total >> 16)
    return ~total & 0xFFFF


def ip(protocol, payload, first=0x45, options=b'', fragment=0, length=None, ttl=61):
    """An IPv4 packet from 10.77.0.7 to 10.77.0.2."""
    whole = 20 + len(options) + len(payload) if length is None else length
    head = struct.pack('>BBHHHBBH4s4s', first, 0, whole, 9, fragment, ttl, protocol, 0, bytes([10, 77, 0, 7]), bytes([10, 77, 0, 2])) + options
    return head[:10] + struct.pack('>H', checksum(head)) + head[12:] + payload


def ip6(next_header, payload):
    return struct.pack('>IHBB', 6 << 28, len(payload), next_header, 63) + bytes(15) + b'\x01' + bytes(15) + b'\x02' + payload


def frame(kind, payload, tags=()):
    tagged = b''.join(struct.pack('>HH', tag, number) for tag, number in tags)
    return TARGET + SOURCE + tagged + struct.pack('>H', kind) + payload


def tcp_with(flags, high=0x50):
    return TCP[:12] + bytes([high, flags]) + TCP[14:]


def tags():
    syn = ip(6, TCP)
    yield frame(0x0800, syn, [(0x8100, 5)])
    yield frame(0x0800, syn, [(0x8100, 0xE005)])
    yield frame(0x0800, syn, [(0x88A8, 7), (0x8100, 5)])
    yield frame(0x0800, syn, [(0x88A8, 7), (0x8100, 5), (0x8100, 9)])
    yield frame(0x0800, syn, [(0x9100, 7), (0x8100, 5)])
    yield frame(0x0806, bytes(28), [(0x8100, 5)])
    yield TARGET + SOURCE + b'\x81\x00'
    yield TARGET + SOURCE + b'\x81\x00\x00\x05'
    yield TARGET + SOURCE + b'\x81\x00\x00\x05\x08\x00'


def tunnels():
    inner = ip(6, TCP)
    yield frame(0x0800, ip(4, inner))
    yield frame(0x0800, ip(41, ip6(6, TCP)))
    yield frame(0x0800, ip(47, struct.pack('>HH', 0, 0x0800) + inner))
    yield frame(0x0800, ip(17, struct.pack('>HHHHII', 4789, 4789, 16 + 14 + len(inner), 0, 0x08000000, 7 << 8) + frame(0x0800, inner)))
    yield frame(0x86DD, ip6(4, inner))
    yield frame(0x8847, struct.pack('>I', 17 << 12 | 1 << 8 | 64) + inner)
    yield frame(0x8864, struct.pack('>BBHHH', 0x11, 0, 1, len(inner) + 2, 0x21) + inner)
    yield frame(0x0800, ip(1, struct.pack('>BBHI', 3, 3, 0, 0) + ip(17, UDP)))
    yield frame(0x0800, ip(1, struct.pack('>BBHI', 11, 0, 0, 0) + ip(6, TCP)[:28]))


def fragments():
    yield frame(0x0800, ip(17, UDP, fragment=0x2000))
    yield frame(0x0800, ip(17, b'behind the first', fragment=2))
    yield frame(0x0800, ip(6, TCP, fragment=1))
    yield frame(0x0800, ip(17, UDP[:8], fragment=1) + bytes(18))
    yield frame(0x0800, ip(6, TCP, fragment=0x4000))
    yield frame(0x0800, ip(6, TCP[:8], fragment=0x2000))


def padding():
    yield frame(0x0800, ip(6, b'') + TCP)
    yield frame(0x0800, ip(17, b'') + UDP)
    yield frame(0x0800, ip(1, b'') + ECHO + bytes(10))
    yield frame(0x0800, ip(6, TCP[:8]) + TCP[8:])
    yield frame(0x0800, ip(17, UDP) + bytes(20))
    yield frame(0x0800, ip(6, TCP, length=0))
    yield frame(0x0800, ip(6, TCP, length=2000))


def headers():
    yield frame(0x0800, ip(6, TCP, first=0x46, options=b'\x01\x01\x01\x00'))
    yield frame(0x0800, ip(6, TCP, first=0x4F, options=b'\x01' * 40))
    yield frame(0x0800, ip(6, TCP, first=0x44))
    yield frame(0x0800, ip(6, TCP, first=0x55))
    yield frame(0x0800, ip(6, TCP, first=0x65))
    yield frame(0x0800, ip(6, TCP, first=0x4F))
    yield frame(0x0800, ip(6, TCP)[:19])
    yield frame(0x0800, ip(6, TCP[:19]))
    yield frame(0x0800, ip(17, UDP[:7]))
    yield frame(0x0800, ip(1, ECHO[:4]))
    yield frame(0x0800, ip(1, ECHO[:3]))
    yield frame(0x0800, ip(6, tcp_with(0xC2)))
    yield frame(0x0800, ip(6, tcp_with(0x12, 0x51)))
    yield frame(0x0800, ip(6, tcp_with(2, 0x40)))
    yield frame(0x0800, ip(6, tcp_with(0)))
    yield frame(0x0800, ip(6, tcp_with(0xFF)))
    yield frame(0x0800, ip(17, UDP[:4] + b'\0\4' + UDP[6:]))
    yield frame(0x0800, ip(17, UDP[:4] + b'\0\0' + UDP[6:]))
    yield frame(0x0800, ip(132, bytes(16)))
    yield frame(0x0800, ip(6, TCP, ttl=1))


def links():
    yield frame(0x86DD, ip6(6, TCP))
    yield frame(0x86DD, ip6(17, UDP))
    yield frame(0x86DD, ip6(58, b'\x80' + bytes(11)))
    yield frame(0x86DD, ip6(1, ECHO))
    yield frame(0x86DD, ip6(6, TCP[:19]))
    yield frame(0x86DD, ip6(17, UDP[:7]))
    yield frame(0x86DD, ip6(6, TCP)[:39])
    yield frame(0x86DD, b'\x70' + ip6(6, TCP)[1:])
    yield frame(0x86DD, ip6(6, TCP), [(0x88A8, 7), (0x8100, 5)])
    yield frame(0x0800, ip6(6, TCP))
    yield frame(0x86DD, ip(6, TCP))
    yield frame(38, b'\x42\x42\x03' + bytes(35))
    yield frame(0x88B5, ip(6, TCP))
    yield frame(0x0806, struct.pack('>HHBBH', 1, 0x0800, 6, 4, 1) + bytes(20))
    yield frame(0x0800, b'')
    yield frame(0x0800, b'\x45')


def extensions():
    """Headers between IPv6 and what it carries: hop by hop, destination, routing, fragments, authentication, and two of them."""
    pad = b'\x01\x04' + bytes(4)
    routing = struct.pack('>BBBBI', 6, 2, 4, 0, 0) + bytes(15) + b'\x03'
    yield frame(0x86DD, ip6(0, b'\x06\0' + pad + TCP))
    yield frame(0x86DD, ip6(60, b'\x11\0' + pad + UDP))
    yield frame(0x86DD, ip6(43, routing + TCP))
    yield frame(0x86DD, ip6(44, struct.pack('>BBHI', 6, 0, 0, 9) + TCP))
    yield frame(0x86DD, ip6(44, struct.pack('>BBHI', 17, 0, 1, 10) + UDP[:8]))
    yield frame(0x86DD, ip6(44, struct.pack('>BBHI', 17, 0, 1 << 3, 10) + UDP[8:]))
    yield frame(0x86DD, ip6(51, struct.pack('>BBHIII', 6, 4, 0, 5, 1, 0) + bytes(12) + TCP))
    yield frame(0x86DD, ip6(0, b'\x2b\0' + pad + routing + TCP))
    yield frame(0x86DD, ip6(0, b'\x3a\0\x05\x02\0\0\x01\0' + b'\x8f\0' + bytes(6)))
    yield frame(0x86DD, ip6(59, TCP))


def six():
    """IPv6 whose numbers are at their ends, inside IPv4 and IPv6, and beside what it declares."""
    greatest = b'\x6f' + b'\xff' * 5 + b'\x06\xff' + b'\xff' * 32
    yield frame(0x86DD, greatest + TCP)
    yield frame(0x86DD, ip6(6, b'')[:8] + bytes(32) + TCP)
    yield frame(0x86DD, ip6(41, ip6(6, TCP)))
    yield frame(0x0800, ip(41, ip6(17, UDP)))
    yield frame(0x86DD, ip6(6, TCP)[:4] + b'\0\0' + ip6(6, TCP)[6:])
    yield frame(0x86DD, ip6(17, UDP) + bytes(10))
    yield frame(0x86DD, ip6(6, b''))
    yield frame(0x86DD, ip6(6, tcp_with(0x12, 0x5F)))
    yield frame(0x86DD, ip6(6, tcp_with(2, 0x40)))
    yield frame(0x86DD, ip6(17, UDP[:4] + b'\0\4' + UDP[6:]))


def main():
    words = argparse.ArgumentParser(description=__doc__)
    words.add_argument('interface')
    given = words.parse_args()
    with socket.socket(socket.AF_PACKET, socket.SOCK_RAW) as wire:
        wire.bind((given.interface, 0))
        for group in (tags, tunnels, fragments, padding, headers, links, extensions, six):
            for one in group():
                wire.send(one)
                time.sleep(0.002)


if __name__ == '__main__':
    main()
