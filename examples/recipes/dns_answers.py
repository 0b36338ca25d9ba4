#!/usr/bin/env python3
"""Writes a capture of DNS answers from many reflectors to one address, to be replayed."""

import argparse
import struct


def checksum(header):
    total = sum(struct.unpack('>10H', header))
    while total >> 16:
        total = (total & 0xFFFF) + (total >> 16)
    return ~total & 0xFFFF


def answer(reflector, size):
    """An Ethernet frame with a DNS answer of `size` bytes from a reflector to 10.77.0.2. Its UDP checksum is left out."""
    addresses = bytes([10, 88, reflector >> 8, reflector & 255]) + bytes([10, 77, 0, 2])
    head = struct.pack('>BBHHHBBH', 0x45, 0, 28 + size, reflector, 0, 60, 17, 0) + addresses
    head = head[:10] + struct.pack('>H', checksum(head)) + head[12:]
    dns = struct.pack('>HHHHHH', reflector, 0x8180, 1, 1, 0, 0) + bytes(size - 12)
    return b'\xff' * 6 + bytes.fromhex('020000000001') + b'\x08\x00' + head + struct.pack('>HHHH', 53, 40000, 8 + size, 0) + dns


def main():
    words = argparse.ArgumentParser(description=__doc__)
    words.add_argument('file')
    words.add_argument('--answers', type=int, default=1500)
    words.add_argument('--size', type=int, default=1200, help='bytes of each answer')
    given = words.parse_args()
    with open(given.file, 'wb') as out:
        out.write(struct.pack('<IHHIIII', 0xA1B2C3D4, 2, 4, 0, 0, 262144, 1))
        for i in range(given.answers):
            frame = answer(1 + i % 40, given.size)
            out.write(struct.pack('<IIII', 1 + i // 1000, i % 1000 * 1000, len(frame), len(frame)) + frame)


if __name__ == '__main__':
    main()
