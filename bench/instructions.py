#!/usr/bin/env python3
"""Counts the instructions that `sonata plain` and the C program take for each packet, by callgrind of valgrind.

Other programs on the machine don't disturb this count. With --queries the given query files are counted on sonata alone, and with --parts it is told where
the instructions go, by the names of functions; what the compiler took into another function counts there. Needs valgrind, a C compiler and libpcap-dev.

With --following `live` and `replan` are counted on sonata alone, as bench/plans.py measures them, but trained on 2000 packets. With --several those of `many` are
counted, over what two switches saw that took turns at the packets, against those of `run` over all packets, along the plan of full.plan. These need valgrind
alone."""

import argparse
import os
import re
import shutil
import subprocess
import sys
import tempfile

import plans
import run


# The parts of the work, each with what the names of its functions begin with or hold. The first that fits counts.
PARTS = [
    ('reading the capture, and windows', r'^sn_pcap::|^sn_io::|^sn_command_capture::|^sn_top::|^sn_windows::'),
    ('fields', r'^sn_fields::'),
    ('blocks of tuples, and what they are asked', r'^sn_(ops_stream|lanes_narrow)::'),
    ('filters and maps', r'^sn_types::|^sn_ops::((plain|packets|seen|start|take)::|lists::branch_list)'),
    ('distincts', r'^sn_table::(keys|rows)::'),
    ('reduces', r'^sn_table::(entries|table)::'),
    ('growth of tables and lists', r'^indexmap::|^std_alloc::|alloc|free|memset'),
    ('copies of memory', r'memcpy|memmove'),
    ('joins, and rows after reduces', r'^sn_ops::'),
    ('sorting and printing', r'^sn_out::|^sn_query_print|^core::|^sn_rows::|sort'),
]


def counted(words, folder):
    """The instructions of one run. What it tells of functions stands in the file `callgrind` of the folder."""
    told = os.path.join(folder, 'callgrind')
    done = subprocess.run(['valgrind', '--tool=callgrind', '--callgrind-out-file=' + told] + words, stdout=subprocess.DEVNULL, stderr=subprocess.PIPE, text=True)
    return int(re.search(r'refs: *([0-9,]+)', done.stderr).group(1).replace(',', ''))


def part_of(function):
    return next((part for part, pattern in PARTS if re.search(pattern, function)), 'the rest')


def parts(folder):
    """The instructions of each part of the last run."""
    told = subprocess.run(['callgrind_annotate', '--threshold=100', os.path.join(folder, 'callgrind')], stdout=subprocess.PIPE, text=True, check=True).stdout
    found = {part: 0 for part, _ in PARTS + [('the rest', '')]}
    for count, function in re.findall(r'^ *([0-9,]+) \([ 0-9.]+%\)  [^ ]*?:([^/ ][^ ]*)', told, re.MULTILINE):
        found[part_of(function)] += int(count.replace(',', ''))
    return found


def following(given, folder):
    """The instructions of `live` and of `replan` for each packet, without those of the plan that both make first."""
    for kind in ('few', 'many'):
        plan, live, replan = (counted([os.path.abspath(given.sonata), *words], folder) for words in plans.following_words(kind, given, folder, 2000).values())
        print('%s: live %.0f instructions a packet, replan %.0f, ratio %.2f; with the plan %.2f'
              % (kind, (live - plan) / given.packets, (replan - plan) / given.packets, (replan - plan) / (live - plan), replan / live), flush=True)


def switches(given, capture, folder):
    """The instructions of one switch that sees all packets, and of two that answer as one."""
    words = [os.path.join(run.HERE, name) for name in ('full.switch', 'three.query', 'full.plan')]
    whole = counted([os.path.abspath(given.sonata), 'run', *words, capture], folder) / given.packets
    return whole, counted([os.path.abspath(given.sonata), 'many', *words, *run.halves(capture)], folder) / given.packets


def several(given, folder):
    for kind in ('few', 'many'):
        one, two = switches(given, run.generate(kind, given.packets, given.number, folder), folder)
        print('%s: run %.0f instructions a packet, many %.0f, ratio %.2f (goal 1.3)' % (kind, one, two, two / one))


def words_given():
    words = argparse.ArgumentParser(description=__doc__, formatter_class=argparse.RawDescriptionHelpFormatter)
    words.add_argument('--sonata', default=run.USUAL, help='the program to measure (default: the one that this clone built)')
    words.add_argument('--packets', type=int, default=200000, help='packets of each capture')
    words.add_argument('--number', type=int, default=7, help='the number from which the captures are drawn')
    words.add_argument('--parts', action='store_true', help='tell where the instructions go')
    words.add_argument('--queries', nargs='+', help='query files to count on sonata alone')
    words.add_argument('--following', action='store_true', help='count `live` and `replan` where no plan changes')
    words.add_argument('--several', action='store_true', help='count `many` against `run`, and nothing else')
    return words.parse_args()


def main():
    given = words_given()
    if not shutil.which('valgrind'):
        print('skipped: no valgrind')
        return 0
    with tempfile.TemporaryDirectory(prefix='sonata-bench-') as folder:
        if given.following:
            following(given, folder)
            return 0
        if given.several:
            several(given, folder)
            return 0
        baseline, engine = (None, None) if given.queries else (run.build(name, folder, '-lpcap') for name in ('baseline', 'engine'))
        for kind in ('few', 'many'):
            capture = run.generate(kind, given.packets, given.number, folder)
            for queries in given.queries or [run.QUERIES]:
                ours = counted([os.path.abspath(given.sonata), 'plain', queries, capture], folder) / given.packets
                print('%s, %s: sonata %.0f instructions a packet' % (kind, os.path.basename(queries), ours))
                for part, count in parts(folder).items() if given.parts else []:
                    print('  %-36s %5.0f' % (part, count / given.packets))
            if baseline:
                theirs = counted([baseline, capture], folder) / given.packets
                print('%s: C %.0f instructions a packet, ratio %.2f' % (kind, theirs, ours / theirs))
                engines = counted([engine, run.QUERIES, capture], folder) / given.packets
                print('%s: the C engine %.0f instructions a packet, ratio %.2f' % (kind, engines, ours / engines))
    return 0


if __name__ == '__main__':
    sys.exit(main())
