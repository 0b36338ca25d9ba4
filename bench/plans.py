#!/usr/bin/env python3
"""Measures the commands around plans against `sonata plain`, all of one run of this program: processor time (user and system) and peak memory as ratios.

along     `run`, `emit` and `finish` with the queries of three.query and the plan of full.plan, on two generated captures; on `few` also `run` and `emit` with
          few.plan, whose registers are of a size that suits it (`fitting`). `emit` drives the lanes by a loop of its own, and along full.plan its engine
          takes no row, so `run` over it is what a machine and the engine cost. The answers of `run` and `finish`
          are compared with those of `plain`, and the text of `run` with that of switch.c, which does by hand what this plan says, its queries and plan
          compiled in (`C`). planned.c does by hand what `run` and `emit` do, and reads switch, queries and plan when it runs (`C engine`, `C engine emit`):
          its text is compared with that of `run`, and its frames with the bytes of `emit`.
late      `detect` with the same queries, along the plan of full.plan, whose paths have one level, and along paths of two. It answers each query twice, in one
          reading.
following `replan` where no plan changes, whatever comes too early, against `live`, with the same queries, the switch of full.switch, and a training capture of
          20000 packets. Both make the same plan first; what they take beyond `plan` is the answering alone. The texts are compared.
several   `many` with the same queries and plan over what two switches saw that took turns at the packets of each capture, against `run` over the whole. The answers
          are compared.
open      `run` with the same queries along paths of two levels, with nothing cut, on the switch of full.switch and on the same with `entries 1`: in each window whose
          tables are open all packets come to level 32, and the engine drops those of other prefixes. The answers are compared.
lanes     `run` against `emit` along plans of 8 to 64 lanes, each of which tests each packet and sends none: what a machine's choice of events costs as lanes grow.
short     `run`, `emit` and the training with windows of one packet each: what is done at each window's end, whatever it holds.
training  `plan` and `check` with the queries and the switch of the generated job, at several sizes of both captures. `plan --nodes 1` ends after the cost
          table, so it is the training alone, and what `plan` takes beyond it is the search and the printing of the tree.
job       `job 7` against `plain` with its queries on the capture of 8.
search    a million expanded nodes of a space in which the search doesn't end.
reading   `plan` and `run` against planned.py, the slow reading in Python, on 20000 packets.

A ratio is that of the least processor times, and where the commands ran in the same turns there stands, too, the median of the turns' ratios: the least may come
from different whiles, between which a shared machine changes its speed, so the median of some fifty turns (`--runs 51`) tells more on such a one.

What the program hasn't is left out. No file is left but with --keep. Needs a C compiler, and libpcap-dev for switch.c and planned.c, which are left out without it."""

import argparse
import os
import subprocess
import sys

import run

SWITCH, PLAN, FEW_PLAN = (os.path.join(run.HERE, name) for name in ('full.switch', 'full.plan', 'few.plan'))
CHECKS = os.path.join(run.HERE, '..', 'checks')
JOB_SWITCH = 'stages 16; actions 8; bits 8388608; meta 4096; chain 2; slots 256, 1024, 4096;\n'
TIGHT_SWITCH = 'stages 4; actions 2; bits 65536; meta 512; chain 2; slots 64, 256;\n'
# Eight queries that want more registers than the tight switch has.
EIGHT = 'window 1000000\n' + ''.join('query q%d { refine ip.dst: 8, 16, 24, 32; packets | filter ip.len > %d | map ip.dst as d, 1 as n | reduce d: sum(n) width 32 | filter n > %d; }\n'
                                     % (number, 40 + 100 * number, 50 + number) for number in range(8))
GOALS = {('detect', 'plain'): 2.2, ('many', 'run'): 1.3, ('run', 'plain'): 1.5, ('emit', 'plain'): 1.3, ('run fitting', 'plain'): 2, ('emit fitting', 'plain'): 2, ('training', 'plain'): 4, ('training many', 'plain'): 7, ('short training', 'plain'): 3, ('lanes run', 'lanes emit'): 1.3, ('job', 'plain'): 6, ('replan', 'live'): 1.1}

sys.path.insert(0, CHECKS)
import program  # noqa: E402


def two_levels(coarse):
    """The plan of the three queries of three.query at a coarse level and the finest one, with nothing cut."""
    lines = ['plan']
    for name, branches in (('newconn', 1), ('spread', 1), ('slow', 2)):
        lines.append('query %s path %d, 32;' % (name, coarse))
        lines += ['piece %d %d cut 0;' % (level, branch) for level in (coarse, 32) for branch in range(branches)]
    return '\n'.join(lines) + '\n'


class Part:
    """Commands that are measured in turn on one capture, and what is told of them."""

    def __init__(self, given, measurer, folder, title):
        self.given, self.measurer, self.folder, self.title = given, measurer, folder, title
        self.words, self.outs, self.found = {}, {}, {}

    def add(self, label, *words):
        self.words[label] = [self.given.sonata, *words]
        self.outs[label] = os.path.join(self.folder, 'out.' + label)
        return self.outs[label]

    def measure(self, runs=None):
        new = {label: words for label, words in self.words.items() if label not in self.found}
        self.found.update(run.measure(self.measurer, new, self.outs, runs or self.given.runs))

    def tell(self, packets, over='plain'):
        print(self.title)
        for label, one in self.found.items():
            run.line(label, one, packets)
        for label in self.found:
            if label != over:
                self.over(label, over)

    def over(self, label, other):
        one, another = self.found[label], self.found[other]
        self.ratio(label, one.seconds / max(1e-6, another.seconds), one.peak_bytes / another.peak_bytes, other, run.by_turns(one, another))

    def ratio(self, label, time, peak, over, median=None):
        goal = GOALS.get((label, over))
        print('  %s over %s: processor time %.2f%s%s; peak memory %.2f'
              % (label, over, time, ', by turns %.2f' % median if median else '', ' (goal %g)' % goal if goal else '', peak))


def rows_of(name):
    """The lines of answers, without the counts of what was emitted: a path of one level answers what the query does."""
    return [line.split(b' emitted ')[0] for line in run.bytes_of(name).splitlines()]


# The labels of what is written by hand, each with that of the command whose output it prints.
BY_HAND = {'C': 'run', 'C engine': 'run', 'C engine emit': 'emit'}


def by_hand(folder):
    """The programs written by hand, or None where they can't be built."""
    try:
        return [run.build(name, folder, '-lpcap') for name in ('switch', 'planned')]
    except subprocess.CalledProcessError:
        print('switch.c, planned.c: left out, they need libpcap-dev')
        return None


def add_by_hand(part, programs, files):
    """Add the programs written by hand, where they could be built, on the files that `run` and `emit` are given."""
    if programs:
        switch, planned = programs
        for label, words in zip(BY_HAND, ([switch, files[-1]], [planned, 'run', *files], [planned, 'emit', *files])):
            part.add(label)
            part.words[label] = words


def prints_the_same(part):
    """Tell the times over those of the programs written by hand. Whether each prints what its command does."""
    pairs = [(label, command) for label, command in BY_HAND.items() if label in part.found and command in part.found]
    for label, command in pairs:
        part.over(command, label)
    return all(run.bytes_of(part.outs[label]) == run.bytes_of(part.outs[command]) for label, command in pairs)


def along(given, measurer, folder):
    """Whether `run` and `finish` answer what `plain` does, and the programs written by hand print what `run` and `emit` do."""
    good, programs = True, by_hand(folder)
    for kind in given.kinds:
        capture = run.generate(kind, given.packets, given.number, folder)
        part = Part(given, measurer, folder, 'along a plan, %s: %d packets' % (kind, given.packets))
        four = SWITCH, run.QUERIES, PLAN, capture
        part.add('plain', 'plain', run.QUERIES, capture)
        part.add('run', 'run', *four)
        add_by_hand(part, programs, four)
        reports = part.add('emit', 'emit', *four) if 'emit' in given.built else None
        if kind == 'few':
            for command in ('run', 'emit'):
                part.add(command + ' fitting', command, SWITCH, run.QUERIES, FEW_PLAN, capture)
        run.read_once(capture)
        part.measure()
        if reports:
            part.add('finish', 'finish', run.QUERIES, PLAN, reports)
            part.measure()
        part.tell(given.packets)
        for fitting in ('', ' fitting'):
            if 'emit' + fitting in part.found:
                part.over('run' + fitting, 'emit' + fitting)
        equal = prints_the_same(part) and all(rows_of(part.outs['plain']) == rows_of(part.outs[label]) for label in ('run', 'finish') if label in part.outs)
        print('  answers %s, statuses %s' % ('equal' if equal else 'DIFFER', sorted({one.status for one in part.found.values()})))
        good = good and equal
        os.remove(capture)
    return good


def late(given, measurer, folder):
    """Whether `detect` ends along both plans."""
    good, two = True, written(folder, 'two.plan', two_levels(8))
    for kind in given.kinds:
        capture = run.generate(kind, given.packets, given.number, folder)
        part = Part(given, measurer, folder, 'how late, %s: %d packets' % (kind, given.packets))
        part.add('plain', 'plain', run.QUERIES, capture)
        part.add('detect', 'detect', run.QUERIES, PLAN, capture)
        part.add('detect two levels', 'detect', run.QUERIES, two, capture)
        run.read_once(capture)
        part.measure()
        part.tell(given.packets)
        good = good and all(one.status == 0 for one in part.found.values())
        os.remove(capture)
    return good


def following_words(kind, given, folder, trained=20000):
    """The words of `plan`, `live` and `replan` for a generated capture, trained on a small one of its kind. No number of items is over the greatest one."""
    train = os.path.join(folder, 'train.pcap')
    os.rename(run.generate(kind, trained, given.number + 1, folder), train)
    three, capture = (SWITCH, run.QUERIES, train), run.generate(kind, given.packets, given.number, folder)
    return {'plan': ['plan', *three], 'live': ['live', *three, capture], 'replan': ['replan', *three, capture, '4294967295']}


def following(given, measurer, folder):
    """Whether `replan` answers what `live` does."""
    good = True
    for kind in given.kinds:
        part = Part(given, measurer, folder, 'following the traffic, %s: %d packets' % (kind, given.packets))
        for label, words in following_words(kind, given, folder).items():
            part.add(label, *words)
        run.read_once(part.words['live'][-1])
        part.measure()
        part.tell(given.packets, over='live')
        plan, live, replan = (part.found[label].seconds for label in ('plan', 'live', 'replan'))
        print('  what replan takes beyond the plan, over what live does: %.2f' % ((replan - plan) / max(1e-6, live - plan)))
        equal = run.bytes_of(part.outs['replan']) == b'epoch 0\n' + run.bytes_of(part.outs['live'])
        print('  answers %s, statuses %s' % ('equal' if equal else 'DIFFER', sorted({one.status for one in part.found.values()})))
        good = good and equal
    return good


def several(given, measurer, folder):
    """Whether `many` over two halves of a capture answers what `run` does over the whole."""
    good = True
    for kind in given.kinds:
        capture = run.generate(kind, given.packets, given.number, folder)
        parted = run.halves(capture)
        part = Part(given, measurer, folder, 'several switches, %s: %d packets' % (kind, given.packets))
        part.add('run', 'run', SWITCH, run.QUERIES, PLAN, capture)
        part.add('many', 'many', SWITCH, run.QUERIES, PLAN, *parted)
        for name in (capture, *parted):
            run.read_once(name)
        part.measure()
        part.tell(given.packets, over='run')
        equal = rows_of(part.outs['run']) == rows_of(part.outs['many'])
        print('  answers %s, statuses %s' % ('equal' if equal else 'DIFFER', sorted({one.status for one in part.found.values()})))
        good = good and equal
        for name in (capture, *parted):
            os.remove(name)
    return good


def opened_words(capture, folder):
    """The words of `run` along two levels, on a switch whose tables hold all prefixes and on one whose tables hold one."""
    two, one = written(folder, 'two.plan', two_levels(16)), written(folder, 'one.switch', run.bytes_of(SWITCH).decode() + 'entries 1;\n')
    return {'run two levels': ['run', SWITCH, run.QUERIES, two, capture], 'run open': ['run', one, run.QUERIES, two, capture]}


def opened(given, measurer, folder):
    """Whether `run` with open tables answers what it does with room."""
    good = True
    for kind in given.kinds:
        capture = run.generate(kind, given.packets, given.number, folder)
        part = Part(given, measurer, folder, 'open tables, %s: %d packets' % (kind, given.packets))
        part.add('plain', 'plain', run.QUERIES, capture)
        for label, words in opened_words(capture, folder).items():
            part.add(label, *words)
        run.read_once(capture)
        part.measure()
        part.tell(given.packets)
        part.over('run open', 'run two levels')
        room, one = (part.outs[label] for label in ('run two levels', 'run open'))
        equal = rows_of(room) == rows_of(one)
        sent = [run.bytes_of(name).split()[-1].decode() for name in (room, one)]
        print('  items %s with room, %s with open tables; answers %s' % (*sent, 'equal' if equal else 'DIFFER'))
        good = good and equal and all(one.status == 0 for one in part.found.values())
        os.remove(capture)
    return good


def written(folder, name, text):
    path = os.path.join(folder, name)
    with open(path, 'w') as file:
        file.write(text)
    return path


def lanes_texts(count):
    """Queries of two branches at four levels, and a plan that gives them this many lanes, of which none ever sends."""
    branch = 'packets | filter ip.len > 65000 | map ip.dst as d, ip.len as %s | reduce d: sum(%s) width 32;'
    query = 'query q%d { refine ip.dst: 8, 16, 24, 32; ' + branch % ('n', 'n') + ' ' + branch % ('m', 'm') + ' join d | filter n > 5; }\n'
    path = ''.join('piece %d %d cut 1;\n' % (level, side) for level in (8, 16, 24, 32) for side in (0, 1))
    queries = range(count // 8)
    return 'window 1000000\n' + ''.join(query % n for n in queries), 'plan\n' + ''.join('query q%d path 8, 16, 24, 32;\n' % n + path for n in queries)


def lanes(given, measurer, folder):
    """Whether `run` and `emit` end along plans of many lanes."""
    good, switch = True, written(folder, 'lanes.switch', 'stages 16; actions 64; bits 8388608; meta 65535; chain 1; slots 256;\n')
    capture = run.generate('few', given.packets // 4, given.number, folder)
    run.read_once(capture)
    for count in (8, 16, 32, 64):
        queries, plan = (written(folder, name, text) for name, text in zip(('lanes.query', 'lanes.plan'), lanes_texts(count)))
        part = Part(given, measurer, folder, '%d lanes, few: %d packets' % (count, given.packets // 4))
        part.add('lanes run', 'run', switch, queries, plan, capture)
        part.add('lanes emit', 'emit', switch, queries, plan, capture)
        part.measure()
        part.tell(given.packets // 4, over='lanes emit')
        good = good and all(one.status == 0 for one in part.found.values())
    os.remove(capture)
    return good


def short(given, measurer, folder):
    """Whether commands end over windows of one packet."""
    text = run.bytes_of(run.QUERIES).decode()
    queries = written(folder, 'short.query', text.replace('window 1000000', 'window 200'))
    switch, capture = written(folder, 'job.switch', JOB_SWITCH), run.generate('few', given.windows, given.number, folder)
    part = Part(given, measurer, folder, 'windows of one packet: %d' % given.windows)
    part.add('plain', 'plain', queries, capture)
    part.add('short run', 'run', SWITCH, queries, PLAN, capture)
    part.add('short emit', 'emit', SWITCH, queries, PLAN, capture)
    part.add('short training', 'plan', switch, queries, capture, '--nodes', '1')
    run.read_once(capture)
    part.measure()
    part.tell(given.windows)
    return all(one.status in (0, 8) for one in part.found.values())


def training(given, measurer, folder):
    """Whether `plan` ends and `check` says yes."""
    good, switch = True, written(folder, 'job.switch', JOB_SWITCH)
    for kind, packets in ((kind, packets) for kind in given.kinds for packets in given.training):
        capture, label = run.generate(kind, packets, given.number, folder), {'few': 'training', 'many': 'training many'}[kind]
        part = Part(given, measurer, folder, 'training, %s: %d packets' % (kind, packets))
        three = switch, run.QUERIES, capture
        part.add('plain', 'plain', run.QUERIES, capture)
        part.add(label, 'plan', *three, '--nodes', '1')
        certificate = part.add('plan', 'plan', *three)
        run.read_once(capture)
        part.measure(given.runs if packets < 500000 else 1)
        if 'check' in given.built:
            part.add('check', 'check', *three, certificate)
            part.measure(given.runs if packets < 500000 else 1)
        part.tell(packets)
        search = part.found['plan'].seconds - part.found[label].seconds
        print('  what plan takes beyond its training, over the training: %.2f (goal 0.20)' % (search / max(1e-6, part.found[label].seconds)))
        good = good and part.found['plan'].status == 0 and ('check' not in part.found or part.found['check'].status == 0)
        os.remove(capture)
    return good


def job(given, measurer, folder):
    capture = os.path.join(folder, 'generated.pcap')
    with open(capture, 'wb') as file:
        subprocess.run([given.sonata, 'gen', '8'], stdout=file, check=True)
    part = Part(given, measurer, folder, 'job 7, over plain on the capture of 8')
    part.add('plain', 'plain', run.QUERIES, capture)
    part.add('job', 'job', '7')
    part.measure()
    part.tell(20000)
    return part.found['job'].status == 0


def search(given, measurer, folder):
    capture = run.generate('few', 20000, given.number, folder)
    part = Part(given, measurer, folder, 'search, a million nodes over a tight switch')
    eight = written(folder, 'tight.switch', TIGHT_SWITCH), written(folder, 'eight.query', EIGHT), capture
    part.add('training', 'plan', *eight, '--nodes', '1')
    part.add('million', 'plan', *eight, '--nodes', '1000000')
    part.measure(1)
    part.tell(20000, over='training')
    one = part.found['million']
    print('  the search alone: %.2f s, peak %.0f MB, status %d' % (one.seconds - part.found['training'].seconds, one.peak_bytes / 1e6, one.status))
    return one.status == 8


def reading(given, measurer, folder):
    capture = run.generate('few', 20000, given.number, folder)
    three = os.path.join(run.HERE, '..', 'examples', 'three')
    switch, queries = os.path.join(three, 'small.switch'), os.path.join(three, 'three.query')
    part = Part(given, measurer, folder, 'reading, few: 20000 packets')
    part.add('plan', 'plan', switch, queries, capture)
    part.add('reading', 'plan', switch, queries, capture)
    part.words['reading'][0:1] = [sys.executable, os.path.join(CHECKS, 'planned.py')]
    part.measure(1)
    part.tell(20000, over='plan')
    return run.bytes_of(part.outs['plan']) == run.bytes_of(part.outs['reading'])


PARTS = {'along': (along, {'run'}), 'late': (late, {'detect'}), 'following': (following, {'live', 'replan'}), 'several': (several, {'run', 'many'}), 'open': (opened, {'run'}), 'lanes': (lanes, {'run', 'emit'}), 'short': (short, {'run', 'emit', 'plan'}), 'training': (training, {'plan'}), 'job': (job, {'job', 'gen'}), 'search': (search, {'plan'}), 'reading': (reading, {'plan'})}


def words_given():
    words = argparse.ArgumentParser(description=__doc__, formatter_class=argparse.RawDescriptionHelpFormatter)
    words.add_argument('parts', nargs='*', metavar='PART', default=['along', 'training', 'job'], help='of %s (default: along training job)' % ', '.join(PARTS))
    words.add_argument('--sonata', default=run.USUAL, help='the program to measure (default: the one that this clone built)')
    words.add_argument('--packets', type=int, default=1000000, help='packets of each answered capture of `along`, `late`, `following`, `several` and `open`')
    words.add_argument('--training', type=int, nargs='+', default=[20000, 2000000], metavar='PACKETS', help='packets of training captures (default 20000 2000000)')
    words.add_argument('--windows', type=int, default=20000, help='windows of `short` (default 20000)')
    words.add_argument('--number', type=int, default=7, help='the number from which the captures are drawn')
    words.add_argument('--runs', type=int, default=5, help='runs of each command; the least processor time counts (above 500000 packets of training it is one)')
    words.add_argument('--kinds', nargs='+', default=['few', 'many'], choices=['few', 'many'], help='captures of `along`, `late`, `following`, `several` and `open`')
    words.add_argument('--keep', metavar='FOLDER', help='put outputs there, and leave them')
    given = words.parse_args()
    if set(given.parts) - set(PARTS):
        words.error('no part: ' + ', '.join(sorted(set(given.parts) - set(PARTS))))
    return given


def main():
    given = words_given()

    def parts(measurer, folder):
        good, given.built = [], program.built(given.sonata)
        for name in given.parts:
            measure, needed = PARTS[name]
            if needed <= given.built:
                good.append(measure(given, measurer, folder))
            else:
                print('%s: left out, the program has no %s' % (name, ', '.join(sorted(needed - given.built))))
        return good

    return run.measured(given, parts, given.keep)


if __name__ == '__main__':
    sys.exit(main())
