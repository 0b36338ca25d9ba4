#!/usr/bin/env python3
"""Measures what addresses of 128 bits cost: the queries of three.query over IPv6, against the same over IPv4.

Each packet of a generated capture is written a second time over IPv6, with its addresses after a prefix of 96 bits and 20 more bytes a packet, and the queries
ask for the fields of IPv6 in place of those of IPv4. Both are answered in turn; the least processor time of each counts. With --instructions valgrind counts
instead, which other programs on the machine don't disturb. Needs a C compiler, or valgrind."""

import os
import sys

import generate as generator
import instructions
import run

PREFIX = bytes.fromhex('20010db8') + bytes(8)
FIELDS = {'ip.src': 'ip6.src', 'ip.dst': 'ip6.dst', 'ip.valid': 'ip6.valid', 'ip.len': 'ip6.plen'}
LEVELS = {'8, 16, 32': '104, 112, 128', '(8: 1000, 16: 1000)': '(104: 1000, 112: 1000)'}


def over_ip6(record):
    """A record of the generator with a header of IPv6 in place of that of IPv4."""
    head, packet = record[:8], record[16:]
    link, header, tcp = packet[:12], packet[14:34], packet[34:]
    length = int.from_bytes(header[2:4], 'big') - 20
    long_header = bytes([0x60, 0, 0, 0]) + length.to_bytes(2, 'big') + bytes([6, 64]) + PREFIX + header[12:16] + PREFIX + header[16:20]
    sizes = (74).to_bytes(4, 'little') + (54 + length).to_bytes(4, 'little')
    return head + sizes + link + b'\x86\xdd' + long_header + tcp


def second_capture(first):
    """The name of the capture over IPv6 beside one over IPv4."""
    content, size = run.bytes_of(first), generator.RECORD.size
    start = len(generator.FILE_HEADER)
    with open(first + '.six', 'wb') as file:
        file.write(content[:start])
        for at in range(start, len(content), size):
            file.write(over_ip6(content[at:at + size]))
    return first + '.six'


def second_queries(folder):
    """The name of the queries over IPv6."""
    text = run.bytes_of(run.QUERIES).decode()
    for old, new in {**FIELDS, **LEVELS}.items():
        text = text.replace(old, new)
    name = os.path.join(folder, 'six.query')
    with open(name, 'w') as file:
        file.write(text)
    return name


def figures(kind, given, measurer, folder):
    first = run.generate(kind, given.packets, given.number, folder)
    words = {'IPv4': [given.sonata, 'plain', run.QUERIES, first], 'IPv6': [given.sonata, 'plain', second_queries(folder), second_capture(first)]}
    if given.instructions:
        four, six = (instructions.counted(one, folder) / given.packets for one in words.values())
        print('%s: IPv4 %.0f instructions a packet, IPv6 %.0f, ratio %.2f (goal 1.6)' % (kind, four, six, six / four), flush=True)
        return True
    outs = {label: os.path.join(folder, kind + label) for label in words}
    for word in words.values():
        run.read_once(word[-1])
    found = run.measure(measurer, words, outs, given.runs)
    print(kind)
    for label, one in found.items():
        run.line(label, one, given.packets)
    print('  processor time over that of IPv4: %.2f (goal 1.6)' % (found['IPv6'].seconds / found['IPv4'].seconds), flush=True)
    return all(one.status == 0 for one in found.values())


def words_given():
    words = run.usual_words(__doc__, 1000000)
    words.add_argument('--instructions', action='store_true', help='count instructions, by valgrind')
    return words.parse_args()


def main():
    given = words_given()
    return run.measured(given, lambda measurer, folder: [figures(kind, given, measurer, folder) for kind in given.kinds])


if __name__ == '__main__':
    sys.exit(main())
