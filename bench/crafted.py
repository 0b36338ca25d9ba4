#!/usr/bin/env python3
"""Measures `sonata plain` on captures of crafted keys against captures of random ones: processor time as a ratio, all of one run of this program.

Of the first kind are keys of two columns (Ethernet addresses) with one hash of 64 bits, of the second keys of three columns (addresses and a port) that agree in
the low bits of their hashes, of the third prefixes of IPv6 addresses with one hash; all for tables that hash from a known number (checks/crafted.c, which takes
about a minute for a million keys). No file is left. Needs a C compiler."""

import argparse
import os
import subprocess
import sys

import run

GOAL = 2
CHECKS = os.path.join(run.HERE, '..', 'checks')
QUERIES = {
    'hash': ('addresses', 'map eth.src as a, eth.dst as b | distinct | map 1 as one, 1 as n | reduce one: sum(n) width 32'),
    'prefixes': ('hosts', 'filter ip6.valid == 1 | map ip6.src as s | distinct | map 1 as one, 1 as n | reduce one: sum(n) width 32'),
    'bits': ('ports', 'map ip.dst as d, ip.src as s, tcp.sport as p | distinct | map d as d, 1 as n | reduce d: sum(n) width 32'),
}


def words_given():
    words = argparse.ArgumentParser(description=__doc__, formatter_class=argparse.RawDescriptionHelpFormatter)
    words.add_argument('--sonata', default=run.USUAL, help='the program to measure (default: the one that this clone built)')
    words.add_argument('--keys', type=int, default=1000000, help='keys of each capture (default 1000000)')
    words.add_argument('--runs', type=int, default=3, help='runs of each; the least processor time counts')
    return words.parse_args()


def captured(crafted, kind, keys, folder):
    name = os.path.join(folder, kind + '.pcap')
    with open(name, 'wb') as file:
        subprocess.run([crafted, kind, str(keys)], stdout=file, check=True)
    return name


def compare(given, measurer, crafted, kind, folder):
    """Whether the crafted keys take at most so many times what random ones take."""
    usual, operators = QUERIES[kind]
    query = os.path.join(folder, kind + '.query')
    with open(query, 'w') as file:
        file.write('window 1000000 query keys { packets | %s; }\n' % operators)
    captures = {name: captured(crafted, name, given.keys, folder) for name in (usual, kind)}
    words = {name: [given.sonata, 'plain', query, capture] for name, capture in captures.items()}
    outs = {name: os.path.join(folder, 'out.' + name) for name in words}
    found = run.measure(measurer, words, outs, given.runs)
    print('%d keys of one kind, %s:' % (given.keys, kind))
    for name, one in found.items():
        run.line(name, one, given.keys)
    ratio = found[kind].seconds / max(1e-6, found[usual].seconds)
    print('  crafted over random: processor time %.2f (goal %d)' % (ratio, GOAL))
    return ratio <= GOAL and all(one.status == 0 for one in found.values())


def main():
    given = words_given()

    def kinds(measurer, folder):
        crafted = run.build('crafted', folder, sources=CHECKS)
        return [compare(given, measurer, crafted, kind, folder) for kind in QUERIES]

    return run.measured(given, kinds)


if __name__ == '__main__':
    sys.exit(main())
