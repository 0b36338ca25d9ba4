#!/usr/bin/env python3
"""Writes a capture again with the other byte order, other times, or another time unit. The packets stay as they are.

swap      the other byte order
apart     packet number i at second i, so that a window of a second holds one packet
mix       every third packet a second and a half earlier, so that times fall

Needs nothing but Python."""

import argparse
import struct

NANO = 0xA1B23C4D


def read(name):
    """The byte order, header numbers and records of a capture."""
    with open(name, 'rb') as file:
        whole = file.read()
    order = '<' if struct.unpack_from('<I', whole)[0] in (0xA1B2C3D4, NANO) else '>'
    records, at = [], 24
    while at + 16 <= len(whole):
        head = struct.unpack_from(order + 'IIII', whole, at)
        records.append((head, whole[at + 16:at + 16 + head[2]]))
        at += 16 + head[2]
    return order, struct.unpack_from(order + 'IHHIIII', whole), records


def write(name, order, header, records):
    with open(name, 'wb') as out:
        out.write(struct.pack(order + 'IHHIIII', *header))
        for head, packet in records:
            out.write(struct.pack(order + 'IIII', *head) + packet)


def apart(records):
    return [((1 + i, 0) + head[2:], packet) for i, (head, packet) in enumerate(records)]


def mix(records, unit):
    def earlier(head):
        second, fraction = divmod(head[0] * unit + head[1] - 3 * unit // 2, unit)
        return (second, fraction) + head[2:]
    return [(earlier(head) if i % 3 == 2 else head, packet) for i, (head, packet) in enumerate(records)]


def rewrite(how, source, target):
    order, header, records = read(source)
    if how == 'swap':
        order = '>' if order == '<' else '<'
    elif how == 'apart':
        records = apart(records)
    else:
        records = mix(records, 10**9 if header[0] == NANO else 10**6)
    write(target, order, header, records)


def main():
    words = argparse.ArgumentParser(description=__doc__, formatter_class=argparse.RawDescriptionHelpFormatter)
    words.add_argument('how', choices=['swap', 'apart', 'mix'])
    words.add_argument('source')
    words.add_argument('target')
    given = words.parse_args()
    rewrite(given.how, given.source, given.target)


if __name__ == '__main__':
    main()
