#!/usr/bin/env python3
"""Lets each call of `sonata` on the system fail in turn, and spoils each byte of its files in turn. Needs a C compiler, and else nothing but Python.

    python3 checks/faults.py                     all tables
    python3 checks/faults.py reads memory        some of them

reads    the N-th read fails, or file to open, or step to a place in a file: status 9, and a front of the whole text. One that a signal
         interrupts: that, or the whole text. The N-th read gives a byte, or all do: the whole text
writes   the N-th write of standard output fails, or takes nothing: status 10, and a front of the whole text. One that a signal interrupts:
         that, or the whole text. The N-th write takes a byte, or all do: the whole text. Where a write of the line on standard error fails,
         status and text are as they were
memory   the N-th request for memory is refused, or all from the N-th on: status 1 and a front of the whole text, or all of it
worked   the same of eight worked calls of which the text stands in this file
bytes    each byte of each file is replaced by each of ten, and each file is cut to each length, in the call that reads it first of all that do
others   the same at a few evenly drawn places, in all other calls that read the file, and of training captures
streams, limits, growth, sizes, long            what the machine does: checks/machine.py

N counts from 0 up to the first run that meets no failure; where a call or a file has more than `--most` places, evenly drawn ones of them are
tried. `--calls` asks for some of the commands alone. The whole text and the answer to a spoilt file are those of the reading in checks/planned.py. Prints
each run that is answered otherwise; Control-C ends a table with what was tried of it. The status is 0 where none is."""

import os
import subprocess
import sys
import tempfile

import calls
import machine
import planned
import program
from calls import CALLS, FIRST, front, words

HERE = os.path.dirname(os.path.abspath(__file__))
SECONDS = 120
ERRORS = {1: 'sonata: memory\n', 9: 'sonata: read fault\n', 10: 'sonata: write fault\n'}
VALUES = [0, 1, 10, 32, 48, 57, 59, 97, 128, 255]
# of a job, which takes a third of a second, as many places are tried as one in so many of another call; and of a file in another call than the first
FEWER, DRAWN = 20, 80


# ---- what may come

def complete(answer, whole):
    return answer == whole


def refused(status):
    """A status with its line, and a front of the whole text."""
    return lambda answer, whole: front(answer, whole, (status, ERRORS[status]))


def either(*accepted):
    return lambda answer, whole: any(one(answer, whole) for one in accepted)


def unheard(answer, whole):
    """Nothing but the line on standard error is lost."""
    return answer[:2] == whole[:2] and whole[2].startswith(answer[2])


def starved(answer, whole):
    """Out of memory, with its line where the words were taken, or the whole answer."""
    return answer == whole or front(answer, whole, (1, ERRORS[1]), (1, ''), (13, ''))


# ---- a run with one failing call

class Faults:
    """The program, the names of its files, and what was tried of it."""

    def __init__(self, sonata, folder, most):
        self.sonata, self.folder, self.most, self.names = sonata, folder, most, calls.write(folder)
        self.calls, self.tried, self.bad = built(sonata), 0, 0
        self.library, self.met = os.path.join(folder, 'faults.so'), os.path.join(folder, 'met')
        subprocess.run(['cc', '-shared', '-fPIC', '-O1', '-o', self.library, os.path.join(HERE, 'faults.c')], check=True)

    def run(self, spoken, call, at, how, before=None, **more):
        """The answer, and whether the failure was met. `before` is called before the program begins."""
        if os.path.exists(self.met):
            os.remove(self.met)
        changed = dict(os.environ, LD_PRELOAD=self.library, FAULT_CALL=call, FAULT_AT=str(at), FAULT_HOW=how, FAULT_MET=self.met, **more)
        done = subprocess.run([self.sonata, *spoken], capture_output=True, env=changed, timeout=SECONDS, check=False, preexec_fn=before)
        return (done.returncode, done.stdout, done.stderr.decode(errors='replace')), os.path.exists(self.met)

    def count(self, spoken, call):
        """How many such calls a run makes: the least number that isn't met."""
        low, high = 0, 1
        while self.run(spoken, call, high - 1, 'fail')[1]:
            low, high = high, high * 2
        while low < high:
            middle = (low + high) // 2
            low, high = (middle + 1, high) if self.run(spoken, call, middle, 'fail')[1] else (low, middle)
        return low

    def expect(self, what, answer, may):
        self.tried += 1
        if not may:
            self.bad += 1
            print('  %s: %s' % (what, program.shown(answer)), flush=True)

    def fail(self, call, names, kind, *hows):
        """Lets each call of a kind fail in these ways, each with what may come of it."""
        self.fail_words(call, words(call, names), kind, *hows)

    def fail_words(self, call, spoken, kind, *hows, whole=None):
        whole = whole or calls.answer(*spoken)
        for at in places(self.count(spoken, kind), self.most // FEWER if call == 'job' else self.most):
            for how, accepted in hows:
                answer, met = self.run(spoken, kind, at, how)
                self.expect('%s, %s %d %s' % (call, kind, at, how), answer, met and accepted(answer, whole))

    def piecemeal(self, call, spoken, kind, accepted=complete):
        """Lets each call of a kind move one byte."""
        answer, _ = self.run(spoken, kind, 0, 'one')
        self.expect('%s, each %s of one byte' % (call, kind), answer, accepted(answer, calls.answer(*spoken)))


def built(sonata):
    """The calls whose commands the program has."""
    found = program.built(sonata)
    return [call for call in CALLS if call in found or call == 'live --trace' and 'live --schedule' in found]


def places(count, most):
    """The numbers below a count, or evenly drawn ones of them."""
    return range(count) if count <= most else sorted({place * (count - 1) // (most - 1) for place in range(most)})


def small_and_large(faults):
    """The calls over the small files, and those that answer a capture over one of 1.4 MB."""
    yield from ((call, faults.names) for call in faults.calls)
    yield from ((call, dict(faults.names, capture=faults.names['large'])) for call in faults.calls if call in ('plain', 'run', 'run --csv', 'emit', 'detect'))


# ---- reads and writes

def reads(faults):
    failing, interrupted = ('fail', refused(9)), ('interrupted', either(refused(9), complete))
    for call, names in small_and_large(faults):
        faults.fail(call, names, 'open', failing, interrupted)
        faults.fail(call, names, 'read', failing, interrupted, ('once', complete))
    for call in (call for call in faults.calls if CALLS[call]):
        faults.piecemeal(call, words(call, faults.names), 'read')
    for call in (call for call in faults.calls if {'training', 'capture'} < set(CALLS[call])):
        faults.fail(call, dict(faults.names, training=faults.names['capture']), 'seek', failing)


def complaining(faults, call):
    """Words of which the answer has a line on standard error: too few, a file that isn't there, a damaged capture."""
    spoken = words(call, faults.names)
    yield spoken[:1]
    if CALLS[call]:
        yield [spoken[0], os.path.join(HERE, 'absent'), *spoken[2:]]
    if 'capture' in CALLS[call]:
        yield words(call, dict(faults.names, capture=faults.names['damaged']))


def writes(faults):
    interrupted = ('interrupted', either(refused(10), complete))
    for call, names in small_and_large(faults):
        faults.fail(call, names, 'write', ('fail', refused(10)), ('none', refused(10)), interrupted, ('once', complete))
        faults.piecemeal(call, words(call, names), 'write')
    for call in faults.calls:
        for spoken in complaining(faults, call):
            faults.fail_words(call, spoken, 'error', ('fail', unheard), ('none', unheard), ('interrupted', unheard), ('once', unheard))
            faults.piecemeal(call, spoken, 'error', unheard)


# ---- memory

def memory(faults):
    for call in faults.calls:
        faults.fail(call, faults.names, 'memory', ('fail', starved), ('from', starved))


SPREAD = b'''window 1000000 query q { packets | map ip.dst as d, ip.src as s | distinct | map d as d, 1 as n | reduce d: sum(n) width 16 | filter n > 1; }'''
LEVELS = b'''window 1000000 query q { refine ip.dst: 8, 32; packets | map ip.dst as d, 1 as n | reduce d: sum(n) width 16 | filter n > 1; }'''
TWO = b'''window 1000000 query a { packets | map ip.dst as d, 1 as n | reduce d: sum(n) width 8; }
query b { packets | map ip.src as s, 1 as n | reduce s: sum(n) width 8; }'''
FRAMES = bytes.fromhex('''0200000000010200 0000000000000000000000000a000009 0000000000000000000000000a000002
                          0201000000030200 0000000000000000000000000a000009 00000000000000000000000000000001 0202000000000100 0000000000000000''')
PLAN_TEXT = b'''plan\nquery a path 0;\npiece 0 0 cut 2 slots 1 stages 1;\nquery b path 0;\npiece 0 0 cut 0;
cost 6;\ntree\nE 4\nE 4\nB 8\nB 8\nE 4\nE 4\nE 4\nP 6\nB 6\nE 4\nX\ndone\n'''
# captures of SYN packets by time in microseconds, source and target
FILES = {
    'spread.query': SPREAD, 'levels.query': LEVELS, 'two.query': TWO, 'frames': FRAMES, 'tree': PLAN_TEXT,
    'spread.plan': b'plan query q path 0; piece 0 0 cut 5 slots 1, 1 stages 1, 3;',
    'levels.plan': b'plan query q path 8, 32; piece 8 0 cut 0; piece 32 0 cut 0;',
    'five.switch': b'stages 5; actions 2; bits 1000; meta 1000; chain 1; slots 1;',
    'four.switch': b'stages 4; actions 2; bits 1000; meta 1000; chain 1; slots 1;',
    'two.switch': b'stages 2; actions 1; bits 41; meta 100; chain 1; slots 1;',
    'spread.pcap': [(0, 1, 9), (0, 2, 9)],
    'levels.pcap': [(0, 1, 9), (100000, 1, 9), (1000000, 1, 9), (1100000, 1, 9)],
    'gap.pcap': [(0, 1, 9), (100000, 1, 9), (2000000, 1, 9), (2100000, 1, 9)],
    'two.pcap': [(0, 1, 9), (1, 1, 9), (2, 1, 9), (3, 2, 9), (4, 2, 9)],
}
WORKED = [
    ('emit five.switch spread.query spread.plan spread.pcap', FRAMES),
    ('finish spread.query spread.plan frames', b'window 0 emitted 2\nquery q level 0 rows 1\n10.0.0.9 2\ntotal windows 1 emitted 2\n'),
    ('run four.switch levels.query levels.plan levels.pcap', b'''window 0 emitted 2\nquery q level 8 rows 1\n10.0.0.0 2\nquery q level 32 rows 0
window 1 emitted 4\nquery q level 8 rows 1\n10.0.0.0 2\nquery q level 32 rows 1\n10.0.0.9 2\ntotal windows 2 emitted 6\n'''),
    ('run four.switch levels.query levels.plan gap.pcap', b'''window 0 emitted 2\nquery q level 8 rows 1\n10.0.0.0 2\nquery q level 32 rows 0
window 2 emitted 2\nquery q level 8 rows 1\n10.0.0.0 2\nquery q level 32 rows 0\ntotal windows 2 emitted 4\n'''),
    ('run four.switch levels.query levels.plan levels.pcap --csv', b'''window,query,level,c1,c2,c3,c4,c5,c6,c7,c8
0,q,8,10.0.0.0,2,,,,,,\n1,q,8,10.0.0.0,2,,,,,,\n1,q,32,10.0.0.9,2,,,,,,\n'''),
    ('plan two.switch two.query two.pcap', PLAN_TEXT),
    ('live two.switch two.query two.pcap two.pcap', PLAN_TEXT + b'''window 0 emitted 6\nquery a level 0 rows 1\n10.0.0.9 5
query b level 0 rows 2\n10.0.0.1 3\n10.0.0.2 2\ntotal windows 1 emitted 6\n'''),
    ('check two.switch two.query two.pcap tree', b'yes cost 6 nodes 11\n'),
]


def worked(faults):
    """Refuses each request for memory of the worked calls, whose text stands above."""
    names = {}
    for name, content in FILES.items():
        calls.put(names, faults.folder, name, content if isinstance(content, bytes) else calls.syns(content))
    for line, text in WORKED:
        spoken = [names.get(word, word) for word in line.split()]
        whole, answer = (0, text, ''), program.ran(faults.sonata, *spoken)
        faults.expect(line, answer, answer == whole)
        faults.fail_words(line, spoken, 'memory', ('fail', starved), ('from', starved), whole=whole)


# ---- spoilt files

def spoilt(content, limit, most):
    """A file with one of the bytes before a limit replaced, and cut to each length."""
    for place in places(limit, most):
        for value in VALUES:
            if content[place] != value:
                yield 'byte %d as %d' % (place, value), content[:place] + bytes([value]) + content[place + 1:]
    for length in places(len(content), most):
        yield 'length %d' % length, content[:length]


def spoil(faults, call, name, most):
    """Spoils a file of a call; of a capture the header, and the first two records with their headers."""
    content, changed = calls.held(faults.names[name]), dict(faults.names, **{name: os.path.join(faults.folder, 'spoilt')})
    limit = 24 + 2 * 70 if name in ('capture', 'training', 'second') else len(content)
    spoken = words(call, changed)
    for what, bytes_ in spoilt(content, limit, most):
        with open(changed[name], 'wb') as file:
            file.write(bytes_)
        wanted, answer = planned.answer(*spoken), program.ran(faults.sonata, *spoken)
        faults.expect('%s, %s, %s, wanted %s' % (call, name, what, program.shown(wanted)), answer, answer == wanted)


def in_first(faults):
    for name, call in FIRST.items():
        if call in faults.calls:
            spoil(faults, call, name, faults.most)


def in_others(faults):
    for call in faults.calls:
        for name in CALLS[call]:
            if FIRST.get(name) != call:
                spoil(faults, call, name, max(faults.most // DRAWN, 2))


TABLES = {'reads': reads, 'writes': writes, 'memory': memory, 'worked': worked, 'bytes': in_first, 'others': in_others, **machine.TABLES}


def tell(faults, table):
    """Tries a table, and tells how it came out, also where Control-C ends it."""
    faults.tried, faults.bad, ended = 0, 0, ''
    try:
        TABLES[table](faults)
    except KeyboardInterrupt:
        ended = ', interrupted'
    print('%s: %d runs of %d calls, %d answered otherwise%s' % (table, faults.tried, len(faults.calls), faults.bad, ended), flush=True)
    return faults.bad


def main():
    given = program.command_line(__doc__)
    given.add_argument('tables', nargs='*', metavar='TABLE', help='which of them: %s (default: all)' % ', '.join(TABLES))
    given.add_argument('--most', type=int, default=2000, help='the most places of a call or a file that are tried (default 2000)')
    given.add_argument('--calls', metavar='CALLS', help='which commands, as `plain,run --csv` (default: all)')
    chosen = given.parse_args()
    if strange := set(chosen.tables) - set(TABLES):
        given.error('no table %s' % ', '.join(sorted(strange)))
    bad = 0
    with tempfile.TemporaryDirectory() as folder:
        faults = Faults(os.path.abspath(chosen.sonata), folder, chosen.most)
        faults.calls = [call for call in faults.calls if not chosen.calls or call in chosen.calls.split(',')]
        for table in chosen.tables or TABLES:
            bad += tell(faults, table)
    return 1 if bad else 0


if __name__ == '__main__':
    sys.exit(main())
