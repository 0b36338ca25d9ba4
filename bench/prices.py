#!/usr/bin/env python3
"""Tells how far plans of `plan --prices` are from the least that their prices show, on switches of many shapes.

    python3 bench/prices.py FOLDER [--sonata PROGRAM] [--switches N]

Makes the capture of examples/recipes/eight.py in the folder. Then it plans the first one to eight queries of examples/eight at one to four levels on both switches
there, and all eight on N random ones (100): 6 to 12 stages, 1 to 8 registers a stage, 66,560 to 262,144 bits a stage and 768 to 4096 of metadata. `check` is asked
of each plan. Prints how many have no gap between cost and least number, how many at most one part in a hundred, the greatest gap, and the processor time beside
that of counting alone, which is a `plan` that may expand one node: as ratios within this run. The status is 0 where `check` says yes to each. Python 3 alone."""

import argparse
import os
import random
import re
import resource
import subprocess
import sys

TOP = os.path.dirname(os.path.dirname(os.path.abspath(__file__)))
EIGHT = os.path.join(TOP, 'examples', 'eight')
LEVELS = {1: '32', 2: '16, 32', 3: '8, 16, 32', 4: '8, 16, 24, 32'}


def queries_of(text, count, levels):
    """The first queries of a file, each at so many levels; a coarse constant of a level that isn't asked goes, and one more level has that of the one before it."""
    window, *queries = re.split(r'(?m)^(?=query )', text)

    def constants(found):
        said = dict(re.findall(r'(\d+): (\d+)', found[1]))
        kept = [(level, said.get(level, said['16'])) for level in LEVELS[levels].split(', ')[:-1]]
        return ' at (%s)' % ', '.join('%s: %s' % it for it in kept) if kept else ''

    some = [re.sub(r' at \(([^)]*)\)', constants, re.sub(r'(refine \S+): [^;]*;', r'\1: %s;' % LEVELS[levels], one)) for one in queries[:count]]
    return window + ''.join(some)


def drawn_switch(draw):
    """A random switch, as a text."""
    return 'stages %d; actions %d; bits %d; meta %d; chain 1; slots 256, 1024;\n' % (
        draw.randrange(6, 13), draw.randrange(1, 9), draw.randrange(66560, 262145), draw.randrange(768, 4097))


def timed(*words):
    """The status, the text and the processor seconds of a call."""
    before = resource.getrusage(resource.RUSAGE_CHILDREN)
    ran = subprocess.run(words, capture_output=True, text=True)
    after = resource.getrusage(resource.RUSAGE_CHILDREN)
    return ran.returncode, ran.stdout, after.ru_utime + after.ru_stime - before.ru_utime - before.ru_stime


def planned(sonata, folder, switch, queries):
    """The gap of a plan in parts of its least number, the time beside that of counting, and whether `check` says yes."""
    paths = [os.path.join(folder, it) for it in ('bench.switch', 'bench.query', 'eight.pcap', 'bench.plan')]
    for path, text in zip(paths, (switch, queries)):
        with open(path, 'w', encoding='utf-8') as file:
            file.write(text)
    _, _, counting = timed(sonata, 'plan', *paths[:3], '--nodes', '1')
    status, text, whole = timed(sonata, 'plan', *paths[:3], '--prices')
    with open(paths[3], 'w', encoding='utf-8') as file:
        file.write(text)
    said = re.fullmatch(r'yes cost (\d+) least (\d+)\n', timed(sonata, 'check', *paths)[1])
    if status or not said:
        return None
    cost, least = map(int, said.groups())
    return (cost - least) / least, whole / counting


def tell(name, found):
    """Prints what came out of some plans."""
    gaps, ratios = zip(*found)
    print('%s: %d plans, no gap %d, at most 1 in 100 %d, the greatest %.2f in 100; processor time over that of counting: median %.2f, greatest %.2f' % (
        name, len(found), gaps.count(0), sum(gap <= 0.01 for gap in gaps), 100 * max(gaps), sorted(ratios)[len(ratios) // 2], max(ratios)), flush=True)


def main():
    words = argparse.ArgumentParser(description=__doc__, formatter_class=argparse.RawDescriptionHelpFormatter)
    words.add_argument('folder')
    words.add_argument('--sonata', default=os.path.join(TOP, 'crates', 'sonata', 'out', 'sonata'))
    words.add_argument('--switches', type=int, default=100)
    given = words.parse_args()
    os.makedirs(given.folder, exist_ok=True)
    subprocess.run([sys.executable, os.path.join(TOP, 'examples', 'recipes', 'eight.py'), given.folder], check=True, stdout=subprocess.DEVNULL)
    texts = {}
    for name in ('eight.query', 'ordinary.switch', 'large.switch'):
        with open(os.path.join(EIGHT, name), encoding='utf-8') as file:
            texts[name] = file.read()
    whole = True
    for name in ('ordinary.switch', 'large.switch'):
        found = [planned(given.sonata, given.folder, texts[name], queries_of(texts['eight.query'], count, levels)) for count in range(1, 9) for levels in LEVELS]
        whole &= None not in found
        tell(name, [it for it in found if it])
    draw = random.Random(2018)
    found = [planned(given.sonata, given.folder, drawn_switch(draw), texts['eight.query']) for _ in range(given.switches)]
    whole &= None not in found
    tell('random switches', [it for it in found if it])
    return 0 if whole else 1


if __name__ == '__main__':
    sys.exit(main())
