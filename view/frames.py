#!/usr/bin/env python3
"""Reads report frames of either version, as `sonata emit` writes them, and writes them as CSV, a line for each frame.

    sonata emit SWITCH QUERIES PLAN CAPTURE | frames.py --plan PLAN > frames.csv
    frames.py reports > frames.csv

The columns are window, query, level, branch, kind, operator and c1 to c8. The kind is `at` for a row that stands before that operator, `partial` for a
key and its part of a reduce, and `end` where a lane ends its window. Query and level are numbers; with a plan they are the query's name and the level
in bits. A row's window is that of the next end in its lane, so a row is written when that end comes. Addresses are numbers.

The status is 0 where the reports end with whole windows, and 1, with a line on standard error, where they don't. Needs nothing but Python."""

import argparse
import csv
import os
import struct
import sys

HEAD = struct.Struct('>8B')
# the bytes of a column, by version
SIZES = {1: 8, 2: 16}
KINDS = ['at', 'partial', 'end']
COLUMNS = ['window', 'query', 'level', 'branch', 'kind', 'operator'] + ['c%d' % number for number in range(1, 9)]


class Spoilt(Exception):
    """Bytes that are no frame: what is wrong, and the byte at which the frame begins."""


def is_head(version, kind, query, level, branch, operator, count, zero):
    """Whether a frame begins with these bytes."""
    in_range = version in SIZES and kind <= 2 and query <= 7 and level <= 3 and branch <= 1 and operator <= 12 and count <= 8 and zero == 0
    return in_range and (kind < 2 or (operator, count) == (0, 1))


def frames(file):
    """The frames of a binary stream: lane, kind, operator and columns."""
    at = 0
    while head := file.read(8):
        if len(head) < 8:
            raise Spoilt('cut', at)
        if not is_head(*head):
            raise Spoilt('not a frame', at)
        version, kind, query, level, branch, operator, count, _ = HEAD.unpack(head)
        # the number of a window has eight bytes in both versions
        size = 8 if kind == 2 else SIZES[version]
        body = file.read(size * count)
        if len(body) < size * count:
            raise Spoilt('cut', at)
        yield (query, level, branch), KINDS[kind], operator, tuple(int.from_bytes(body[k:k + size], 'big') for k in range(0, len(body), size))
        at += 8 + size * count


def rows(found):
    """Each frame with its window: window, lane, kind, operator and columns. The rows of a lane come with its end."""
    waiting = {}
    for lane, kind, operator, columns in found:
        if kind != 'end':
            waiting.setdefault(lane, []).append((kind, operator, columns))
            continue
        for row in waiting.pop(lane, []):
            yield columns[0], lane, *row
        yield columns[0], lane, 'end', None, ()
    if waiting:
        raise Spoilt('rows without the end of their window, in lanes %s' % ', '.join(map(str, sorted(waiting))), 'the last')


def names_of(plan):
    """The name of each query and its path."""
    if plan is None:
        return None
    import texts
    return [(entry.name, entry.path) for entry in texts.read_plan(plan)]


def named(names, lane):
    """Query, level and branch of a lane, by the names of a plan where there is one."""
    query, level, branch = lane
    if names is None:
        return query, level, branch
    try:
        name, path = names[query]
        return name, path[level], branch
    except IndexError:
        sys.exit('lane %s is not one of this plan' % (lane,))


def main():
    words = argparse.ArgumentParser(description=__doc__, formatter_class=argparse.RawDescriptionHelpFormatter)
    words.add_argument('reports', nargs='?', default='-', help='report frames; without it, or with -, standard input')
    words.add_argument('--plan', help='the plan, for the names of queries and levels')
    given = words.parse_args()
    names, out = names_of(given.plan), csv.writer(sys.stdout, lineterminator='\n')
    try:
        out.writerow(COLUMNS)
        with sys.stdin.buffer if given.reports == '-' else open(given.reports, 'rb') as file:
            for window, lane, kind, operator, columns in rows(frames(file)):
                out.writerow([window, *named(names, lane), kind, operator, *columns, *[None] * (8 - len(columns))])
        sys.stdout.flush()
    except Spoilt as fault:
        sys.exit('%s: %s, frame at byte %s' % (given.reports, *fault.args))
    except OSError as fault:
        if fault.filename is None:
            # Where standard output took no more, what is left for it goes nowhere.
            os.dup2(os.open(os.devnull, os.O_WRONLY), sys.stdout.fileno())
        sys.exit('%s: %s' % (fault.filename or 'standard input or output', fault.strerror))
    return 0


if __name__ == '__main__':
    sys.exit(main())
