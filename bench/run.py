#!/usr/bin/env python3
"""Measures `sonata plain` with the queries of three.query against a program in C over libpcap, a bare count by tcpdump, and cat, which reads the bytes and no more.

Builds the C program, generates two captures into a temporary folder, runs all on both, and prints whether the answers are equal, the processor
time (user and system), packets a second, peak memory, and the ratios. An engine in C, which reads the queries when it runs and whose tables are seeded, is
measured as well: what it takes more than the C program is what that program has by its queries being compiled in. No file is left but with --keep. Needs
a C compiler and libpcap-dev."""

import argparse
import os
import shutil
import statistics
import subprocess
import sys
import tempfile

import generate as generator

HERE = os.path.dirname(os.path.abspath(__file__))
QUERIES = os.path.join(HERE, 'three.query')
USUAL = os.path.join(HERE, '..', 'crates', 'sonata', 'out', 'sonata')


class Measure:
    """One run of a program on a capture: its status, processor seconds and peak memory."""

    def __init__(self, numbers):
        self.status, user, system, peak = (int(number) for number in numbers)
        self.user, self.system, self.peak_bytes = user / 1e6, system / 1e6, peak * 1024
        self.seconds = self.user + self.system
        self.turns, self.together = [self.seconds], None


def run_once(measurer, words, out_name):
    """One run of a program, whose output stands in a file."""
    with open(out_name, 'wb') as out:
        done = subprocess.run([measurer] + words, stdout=out, stderr=subprocess.PIPE, check=True)
    return Measure(done.stderr.split())


def best_of(runs):
    """The run of least processor time, with the greatest peak of all runs."""
    best = min(runs, key=lambda m: m.seconds)
    best.peak_bytes = max(m.peak_bytes for m in runs)
    return best


def measure(measurer, words, outs, runs):
    """Each program's best run. The programs run in turn, so that a busy while of the machine meets all of them. The best run has the seconds of all turns, and what
    was measured in the same turns."""
    found = {label: [] for label in words}
    for _ in range(runs):
        for label in words:
            found[label].append(run_once(measurer, words[label], outs[label]))
    best = {label: best_of(found[label]) for label in words}
    for label in words:
        best[label].turns, best[label].together = [m.seconds for m in found[label]], best
    return best


def by_turns(one, another):
    """The median of the ratios of two programs' processor times turn by turn, or None where they weren't measured in the same turns: the best runs of programs may
    come from different whiles, between which a shared machine changes its speed."""
    if one.together is None or one.together is not another.together:
        return None
    return statistics.median(mine / max(1e-6, other) for mine, other in zip(one.turns, another.turns))


def build(name, folder, *libraries, sources=HERE):
    program = os.path.join(folder, name)
    subprocess.run([os.environ.get('CC', 'cc'), '-O2', '-o', program, os.path.join(sources, name + '.c'), *libraries], check=True)
    return program


def generate(kind, packets, number, folder):
    name = os.path.join(folder, kind + '.pcap')
    subprocess.run([sys.executable, os.path.join(HERE, 'generate.py'), kind, name, '--packets', str(packets), '--number', str(number)], check=True)
    return name


def halves(capture):
    """The names of two captures beside a generated one: what two switches saw that took turns at its packets."""
    size, names = generator.RECORD.size, [capture + '.first', capture + '.second']
    content = bytes_of(capture)
    head, records = content[:len(generator.FILE_HEADER)], content[len(generator.FILE_HEADER):]
    for turn, name in enumerate(names):
        with open(name, 'wb') as file:
            file.write(head + b''.join(records[at:at + size] for at in range(turn * size, len(records), 2 * size)))
    return names


def bytes_of(name):
    with open(name, 'rb') as file:
        return file.read()


def read_once(name):
    """Read a file, so that each program finds it in the system's memory."""
    with open(name, 'rb') as file:
        while file.read(1 << 20):
            pass


def line(label, one, packets):
    rate = packets / one.seconds if one.seconds else 0
    print('  %-9s status %d  user %6.2f s  system %5.2f s  together %6.2f s  %9.0f packets a second  peak %7.1f MB'
          % (label, one.status, one.user, one.system, one.seconds, rate, one.peak_bytes / 1e6))


def capture_figures(kind, given, programs, folder):
    """Measure all programs on one generated capture. True where the answers are equal."""
    capture = generate(kind, given.packets, given.number, folder)
    words = {'sonata': [programs['sonata'], 'plain', QUERIES, capture], 'C': [programs['C'], capture],
             'C engine': [programs['C engine'], QUERIES, capture], 'tcpdump': ['tcpdump', '-r', capture, '--count'], 'cat': ['cat', capture]}
    outs = {label: os.path.join(folder, '%s.%s' % (kind, label.replace(' ', '-'))) for label in words}
    outs['cat'] = os.devnull
    if not shutil.which('tcpdump'):
        del words['tcpdump']
    read_once(capture)
    found = measure(programs['measure'], words, outs, given.runs)
    answering = ('sonata', 'C', 'C engine')
    equal = len({bytes_of(outs[label]) for label in answering}) == 1 and not any(found[label].status for label in answering)
    size = os.path.getsize(capture)
    print('%s: %d packets, %.1f MB, answers %s' % (kind, given.packets, size / 1e6, 'equal' if equal else 'DIFFER'))
    for label, one in found.items():
        line(label, one, given.packets)
    ratios(found, size)
    if 'tcpdump' in found:
        print('  tcpdump counts: %s' % bytes_of(outs['tcpdump']).decode().strip())
    return equal


def ratios(found, size):
    ours = found['sonata']
    for label in found:
        if label != 'sonata' and found[label].seconds:
            print('  processor time over %s: %.2f' % (label, ours.seconds / found[label].seconds))
    if found['C'].seconds:
        print('  processor time of the C engine over C: %.2f' % (found['C engine'].seconds / found['C'].seconds))
    print('  bytes of the capture a second: %.0f million' % (size / 1e6 / ours.seconds))
    print('  peak memory over the capture\'s bytes: %.2f; over the C program\'s peak: %.2f' % (ours.peak_bytes / size, ours.peak_bytes / found['C'].peak_bytes))


def usual_words(description, packets):
    """The words of a script that measures a program over captures of the given number of packets."""
    words = argparse.ArgumentParser(description=description, formatter_class=argparse.RawDescriptionHelpFormatter)
    words.add_argument('--sonata', default=USUAL, help='the program to measure (default: the one that this clone built)')
    words.add_argument('--packets', type=int, default=packets, help='packets of each capture')
    words.add_argument('--number', type=int, default=7, help='the number from which the captures are drawn')
    words.add_argument('--runs', type=int, default=5, help='runs of each; the least processor time counts')
    words.add_argument('--kinds', nargs='+', default=['few', 'many'], choices=['few', 'many'], help='captures')
    return words


def words_given():
    words = usual_words(__doc__, 2000000)
    words.add_argument('--keep', metavar='FOLDER', help='put captures and outputs there, and leave them')
    return words.parse_args()


def measured(given, measure, keep=None):
    """The status of a script: 2 where there is no program, and else 0 where all that measure(measurer, folder) gives is true. The folder is for its files, and is
    removed after it, unless one is named that is kept."""
    if not os.access(given.sonata, os.X_OK):
        print('no program at %s; build it first, or name one with --sonata' % given.sonata, file=sys.stderr)
        return 2
    given.sonata = os.path.abspath(given.sonata)
    folder = keep or tempfile.mkdtemp(prefix='sonata-bench-')
    os.makedirs(folder, exist_ok=True)
    try:
        good = measure(build('measure', folder), folder)
    finally:
        if not keep:
            shutil.rmtree(folder)
    return 0 if all(good) else 1


def main():
    given = words_given()

    def figures(measurer, folder):
        programs = {'sonata': given.sonata, 'C': build('baseline', folder, '-lpcap'), 'C engine': build('engine', folder, '-lpcap'), 'measure': measurer}
        return [capture_figures(kind, given, programs, folder) for kind in given.kinds]

    return measured(given, figures, given.keep)


if __name__ == '__main__':
    sys.exit(main())
