#!/usr/bin/env python3
"""Says what `sonata` answers on captures that others made, and compares it with tshark and with the slow reference.

    foreign.py FOLDER        every file below the folder that begins as a capture does

Each capture is asked the queries of examples/queries, one that is refused the first of them; status, text and error line of each must be those of the reference. Of
those that are answered to their end the 30 fields of each packet must be those that tshark prints, or tshark must read less or more for one of the reasons of
against_tshark.py. A capture that is refused counts under the word that says why. Captures whose answers or fields differ are named. Control-C ends it with what was
tried by then. The status is 0 where none differs, and where the folder has captures.

docs/CAPTURES.md says which packages of Debian have captures, and what came out. Needs tshark for its part."""

import glob
import os
import shutil
import subprocess
import sys
from collections import Counter

import against_tshark
import plain
import program

HERE = os.path.dirname(os.path.abspath(__file__))
QUERIES = sorted(glob.glob(os.path.join(HERE, '..', 'examples', 'queries', '*.query')))
MAGICS = {bytes.fromhex(word) for word in ('d4c3b2a1', 'a1b2c3d4', '4d3cb2a1', 'a1b23c4d', '0a0d0d0a')}
MOST_BYTES = 20 << 20


def first_bytes(name):
    try:
        with open(name, 'rb') as file:
            return file.read(4)
    except OSError:
        return b''


def captures(folder):
    """The files below a folder that begin as a capture does."""
    names = sorted(os.path.join(at, name) for at, _, some in os.walk(folder) for name in some)
    return [name for name in names if first_bytes(name) in MAGICS]


def answer_of(status, line):
    """The kind of an answer in a word or two: whole, damaged or why not."""
    if status == 0:
        return 'answered'
    words = line.split()
    if status == 5 and words[2] in ('Cut', 'Bad'):
        return 'answered up to a damaged record'
    return 'refused: ' + (words[2] if status == 5 else line.strip())


def by_reference(executable, capture):
    """The kind of the first query's answer, and the queries whose answers aren't those of the reference."""
    kind, differ = None, []
    for queries in QUERIES:
        found = program.run(executable, queries, capture)
        kind = kind or answer_of(found[0], found[2])
        if found != plain.plain(queries, capture):
            differ.append('%s: the reference answers otherwise' % os.path.basename(queries))
        if kind.startswith('refused'):
            break
    return kind, differ


def by_tshark(executable, capture):
    """How many packets were compared, the reasons for which tshark reads less or more, and what differs for none of them."""
    try:
        differ, packets, reasons = against_tshark.compare(executable, capture)
    except (program.Unanswered, subprocess.CalledProcessError):
        return 0, Counter(), None
    return packets, reasons, differ


class Tally:
    """How many captures had which answer, the packets compared, the reasons, and the lines of those that differ."""

    def __init__(self):
        self.kinds, self.reasons, self.packets, self.lines = Counter(), Counter(), 0, []

    def add(self, executable, capture, has_tshark):
        """Compares the answers of a capture; one that can't be read any more counts as that."""
        try:
            self.compare(executable, capture, has_tshark)
        except OSError as fault:
            if fault.filename != capture:
                raise
            self.kinds['gone since the list was made: ' + fault.strerror] += 1

    def compare(self, executable, capture, has_tshark):
        kind, differ = by_reference(executable, capture)
        self.kinds[kind] += 1
        if has_tshark and kind == 'answered' and os.path.getsize(capture) <= MOST_BYTES:
            packets, reasons, found = by_tshark(executable, capture)
            self.packets += packets
            self.reasons.update(reasons)
            self.kinds['compared with tshark' if found is not None else 'on which tshark ends with a fault'] += 1
            differ += found or []
        self.lines += ['%s: %s' % (capture, line) for line in differ[:5]]

    def show(self, has_tshark):
        print(*('%7d  %s' % (count, kind) for kind, count in self.kinds.most_common()), sep='\n')
        print('%d packets compared with tshark%s' % (self.packets, '' if has_tshark else ', which is not there'))
        print(*('%7d  %s' % (count, why) for why, count in self.reasons.most_common()), sep='\n', end='\n' if self.reasons else '')
        print('\n'.join(self.lines) or 'nothing differs')


def main():
    words = program.command_line(__doc__)
    words.add_argument('folder', metavar='FOLDER', help='captures, in it or below it')
    given = words.parse_args()
    if not os.path.isdir(given.folder):
        sys.exit('%s: no such folder' % given.folder)
    if shutil.which(given.sonata) is None:
        sys.exit('%s: not there; --sonata names the program' % given.sonata)
    names = captures(given.folder)
    if not names:
        sys.exit('%s: no captures' % given.folder)
    has_tshark, tally, number = shutil.which('tshark') is not None, Tally(), 0
    print('%d captures, %d query files' % (len(names), len(QUERIES)), flush=True)
    try:
        for number, capture in enumerate(names):
            tally.add(given.sonata, capture, has_tshark)
    except KeyboardInterrupt:
        print('interrupted after %d' % number)
    tally.show(has_tshark)
    return 1 if tally.lines else 0


if __name__ == '__main__':
    sys.exit(main())
