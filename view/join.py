#!/usr/bin/env python3
"""Joins what was answered for the parts that cut.py made, as if the whole capture had been answered.

    join.py part-00000000-00000000.txt part-00000060-00000060.txt ..

Each file holds what `sonata plain` or `run` printed for the part of the same name. Windows get the numbers that they have in the whole, those before the
part's KEPT number are left out, and the totals are added up. The status is 1 where an answer isn't whole. Needs nothing but Python."""

import argparse
import os
import re
import sys

NAME = re.compile(r'part-(\d+)-(\d+)\.')


class NotWhole(Exception):
    """An answer without its total."""


def blocks(name):
    """The kept windows of a part: their number, what was emitted (or None), and the lines after."""
    told = NAME.match(os.path.basename(name))
    if not told:
        sys.exit('%s: no name of a part' % name)
    first, kept = (int(number) for number in told.groups())
    try:
        with open(name) as file:
            found, whole = read(file, first)
    except OSError as fault:
        sys.exit('%s: %s' % (name, fault.strerror))
    except (IndexError, ValueError):
        sys.exit('%s: no printed answers' % name)
    if not whole:
        raise NotWhole(name)
    return [block for block in found if block[0] >= kept]


def read(file, first):
    """The windows of a part, and whether its total stands at the end."""
    found, whole = [], False
    for line in file:
        words = line.split()
        if words[0] == 'window':
            found.append((first + int(words[1]), int(words[3]) if len(words) > 2 else None, []))
        elif words[0] == 'total':
            whole = True
        elif words[0] != 'capture':
            found[-1][2].append(line)
    return found, whole


def main():
    words = argparse.ArgumentParser(description=__doc__, formatter_class=argparse.RawDescriptionHelpFormatter)
    words.add_argument('answers', nargs='+')
    given = words.parse_args()
    windows, emitted = 0, None
    try:
        for name in sorted(given.answers, key=os.path.basename):
            for number, sent, lines in blocks(name):
                windows, emitted = windows + 1, emitted if sent is None else (emitted or 0) + sent
                sys.stdout.write('window %d%s\n%s' % (number, '' if sent is None else ' emitted %d' % sent, ''.join(lines)))
    except NotWhole as fault:
        print('%s isn\'t whole' % fault, file=sys.stderr)
        return 1
    print('total windows %d%s' % (windows, '' if emitted is None else ' emitted %d' % emitted))
    return 0


if __name__ == '__main__':
    sys.exit(main())
