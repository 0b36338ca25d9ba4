#!/usr/bin/env python3
"""Checks `sonata plain` on captures against tools from outside: tcpdump's counts, tshark's field values, and the slow reference of plain.py.

Each capture gets one line. A part whose tool isn't there is skipped and said so. The status is 0 where nothing differs. Needs tcpdump and tshark for
their parts."""

import glob
import os
import shutil
import subprocess
import sys
from collections import Counter

import against_tcpdump
import against_tshark
import plain
import program

HERE = os.path.dirname(os.path.abspath(__file__))
QUERIES = sorted(glob.glob(os.path.join(HERE, '..', 'examples', 'queries', '*.query'))) + [os.path.join(HERE, '..', 'bench', 'three.query')]


def by_tcpdump(executable, capture):
    differ, asked = against_tcpdump.compare(executable, capture)
    return differ, '%d counts' % asked, Counter()


def by_tshark(executable, capture):
    differ, packets, reasons = against_tshark.compare(executable, capture)
    return differ, '%d packets' % packets, reasons


def by_reference(executable, capture):
    """Status, text and line of each query file of the library, byte for byte."""
    differ = []
    for queries in QUERIES:
        if program.run(executable, queries, capture) != plain.plain(queries, capture):
            differ.append('%s: the reference answers otherwise' % os.path.basename(queries))
    return differ, '%d query files' % len(QUERIES), Counter()


PARTS = [('tcpdump', 'tcpdump', by_tcpdump), ('tshark', 'tshark', by_tshark), ('reference', 'python3', by_reference)]


def check(executable, capture, reasons):
    """Print the line of a capture, and its differences. True where there is none."""
    shown, differ = [], []
    for name, tool, part in PARTS:
        if not shutil.which(tool):
            shown.append(name + ' skipped')
            continue
        try:
            found, what, some = part(executable, capture)
        except (program.Unanswered, subprocess.CalledProcessError) as fault:
            found, what, some = [str(fault)], 'no answer', Counter()
        reasons.update(some)
        differ += found
        shown.append('%s %s, %d differ' % (name, what, len(found)))
    print('%-26s %s' % (os.path.basename(capture), '; '.join(shown)), *differ[:20], sep='\n    ', flush=True)
    return not differ


def main():
    words = program.command_line(__doc__)
    words.add_argument('captures', nargs='+', help='captures, or folders of them')
    given = words.parse_args()
    captures = [name for one in given.captures for name in (sorted(glob.glob(os.path.join(one, '*.pcap'))) if os.path.isdir(one) else [one])]
    reasons = Counter()
    good = [check(given.sonata, capture, reasons) for capture in captures]
    print('packets in which tshark reads more or less, by reason:', *('%7d  %s' % (n, why) for why, n in sorted(reasons.items())), sep='\n  ')
    print('%d of %d captures without a difference' % (sum(good), len(good)))
    return 0 if all(good) else 1


if __name__ == '__main__':
    sys.exit(main())
