#!/usr/bin/env python3
"""Tells for which switches, queries and levels the search of `sonata plan` ends, and what `view/some_plan.py` finds of all eight queries, as a table of
Markdown: the first 1, 2, 3, 5 and 8 queries of examples/eight/eight.query on both switches there, with one, two, three and four levels each.

    levels.py > levels.md
    levels.py --switches large --levels 4 --counts 8 --search 60

A cell is the cost and the nodes of the tree where the search ended within --search seconds of processor time and a budget of 1000000, else the bound of that
budget, or where the time was over before, that of --nodes.
The training capture is that of examples/recipes/eight.py. Needs scipy for some_plan.py (`apt-get install python3-scipy`), and the distribution's own
/usr/bin/python3; with --search-only it needs nothing but the program."""

import argparse
import os
import re
import resource
import subprocess
import sys
import tempfile
import time

HERE = os.path.dirname(os.path.abspath(__file__))
TOP = os.path.dirname(HERE)
EIGHT = os.path.join(TOP, 'examples', 'eight')
sys.path.insert(0, os.path.join(TOP, 'view'))
import programs  # noqa: E402
import some_plan  # noqa: E402

LEVELS = {1: (32,), 2: (16, 32), 3: (8, 16, 32), 4: (8, 16, 24, 32)}


def asked(count, levels):
    """The text of the first queries with these levels. A level of 24 is relaxed as 16 is."""
    with open(os.path.join(EIGHT, 'eight.query')) as file:
        head, *queries = re.split(r'(?=^query )', file.read(), flags=re.M)
    text = head + ''.join(queries[:count])
    relaxed = re.compile(r' at \(8: (\d+), 16: (\d+)\)')
    if len(levels) == 1:
        return re.sub(r'^ *refine .*\n', '', relaxed.sub('', text), flags=re.M)

    def at(found):
        by = {8: found[1], 16: found[2], 24: found[2]}
        return ' at (%s)' % ', '.join('%d: %s' % (level, by[level]) for level in levels[:-1])
    return re.sub(r'(refine \S+:) 8, 16, 32;', r'\1 %s;' % ', '.join(map(str, levels)), relaxed.sub(at, text))


def search(given, names):
    """Cost and nodes where the search ends in its time, else None and the bound of the budget."""
    def limit():
        resource.setrlimit(resource.RLIMIT_CPU, (given.search, given.search + 1))
    done = subprocess.run([given.sonata, 'plan', *names, '--nodes', '1000000'], capture_output=True, text=True, preexec_fn=limit)
    if done.returncode == 0:
        return int(done.stdout.split('\ncost ')[1].split(';')[0]), len(re.findall(r'^[EBXP]', done.stdout.split('\ntree\n')[1], re.M))
    if done.returncode == 8:
        return None, int(done.stderr.split()[-1])
    if done.returncode > 0:
        sys.exit('plan: ' + done.stderr.strip())
    return None, programs.searched(given.sonata, *names, given.nodes)[1]


def cell(given, names, count):
    """What a cell of the table says."""
    begun = time.process_time()
    cost, number = search(given, names)
    if cost is not None:
        return '%s, %s nodes' % (format(cost, ','), format(number, ','))
    told = 'no end, bound %s' % format(number, ',')
    if count < 8 or given.search_only:
        return told
    _, sends, _ = some_plan.planned(given.sonata, names, given.seconds)
    print('%s: %.0f seconds of this process' % (names[0], time.process_time() - begun), file=sys.stderr)
    return told + '; `some_plan.py` ' + some_plan.sentence(sends, number)


def row(given, folder, switch, count):
    cells = []
    for levels in given.levels:
        query = os.path.join(folder, 'some.query')
        with open(query, 'w') as file:
            file.write(asked(count, LEVELS[levels]))
        cells.append(cell(given, (os.path.join(EIGHT, switch + '.switch'), query, os.path.join(folder, 'eight.pcap')), count))
        print('%s, %d queries, %d levels: %s' % (switch, count, levels, cells[-1]), file=sys.stderr, flush=True)
    print('| `%s.switch` | %d | %s |' % (switch, count, ' | '.join(cells)), flush=True)


def main():
    words = argparse.ArgumentParser(description=__doc__, formatter_class=argparse.RawDescriptionHelpFormatter)
    words.add_argument('--switches', nargs='+', choices=['ordinary', 'large'], default=['ordinary', 'large'])
    words.add_argument('--counts', nargs='+', type=int, choices=range(1, 9), default=[1, 2, 3, 5, 8], help='how many queries (default 1 2 3 5 8)')
    words.add_argument('--levels', nargs='+', type=int, choices=LEVELS, default=list(LEVELS), help='how many levels (default 1 2 3 4)')
    words.add_argument('--search', type=int, default=20, help='seconds of processor time for each search (default 20)')
    words.add_argument('--nodes', type=int, default=1000, help='the budget whose bound is told where a search did not end (default 1000)')
    words.add_argument('--seconds', type=float, default=120, help='seconds for each integer program (default 120)')
    words.add_argument('--search-only', action='store_true', help='leave some_plan.py out')
    programs.add_option(words)
    given = words.parse_args()
    if given.search < 1 or given.nodes < 1 or given.seconds <= 0:
        words.error('--search, --nodes and --seconds are above 0')
    with tempfile.TemporaryDirectory(prefix='sonata-levels-') as folder:
        subprocess.run([sys.executable, os.path.join(TOP, 'examples', 'recipes', 'eight.py'), folder], check=True)
        for switch in given.switches:
            for count in given.counts:
                row(given, folder, switch, count)
    return 0


if __name__ == '__main__':
    sys.exit(main())
