#!/usr/bin/env python3
"""Compares `sonata plan` and `check` with all plans of small spaces. Every list of paths, cuts, sizes and stages is written down as a plan; those that fit
are run over the training capture, and their items counted, with the prefixes in their tables where the switch gives them a weight. So the least cost and
the first plan of that cost are known without a search, a cost table or a bound. Then the tree must be accepted and be the one of that plan, and the budget
must be exact: with as many nodes as the tree has expanded ones the plan is found, and with fewer the bound is told that so many of them lie below.

Prints each case on which the program differs, with the seed that makes it again. The status is 0 where none does. Needs nothing but Python.

With --alone the search of planned.py is compared in place of a program."""

import itertools
import random
import re
import sys

import planned
import program
import random_certificates
import random_plans
from reference import costs, fields, pipes, plans, split, switches

MOST = 3000


def piece_choices(switch, query, level, branch):
    """Each cut with sizes and stages, in order."""
    for cut in range(pipes.max_cut(query.branches[branch]) + 1):
        stateful = sum(op.kind in ('distinct', 'reduce') for op in query.branches[branch][:cut])
        for sizes in itertools.product(switch.slots, repeat=stateful):
            for stages in itertools.product(range(switch.stages), repeat=stateful * switch.chain):
                yield plans.Piece(level, branch, cut, list(sizes), list(stages))


def paths_of(query):
    """The rising lists of a query's levels that end in the finest, in order: the coarsest level counts least."""
    levels = plans.levels_of(query)
    chosen = [[level for level, is_in in zip(levels[:-1], bits) if is_in] + levels[-1:] for bits in itertools.product([False, True], repeat=len(levels) - 1)]
    return sorted(chosen, key=lambda path: [level in path for level in reversed(levels)])


def entries_of(switch, query):
    for path in paths_of(query):
        pieces = [list(piece_choices(switch, query, level, branch)) for level in path for branch in range(len(query.branches))]
        for chosen in itertools.product(*pieces):
            yield plans.Entry(query.name, path, list(chosen))


def candidates(switch, queries):
    """How many plans are written down at most."""
    count = 1
    for query in queries:
        count *= sum(1 for _ in itertools.islice(entries_of(switch, query), MOST + 1))
    return count


def small_files(draw):
    """The files of a case whose plans are few, with its queries and its switch."""
    while True:
        held = random_certificates.files(draw)
        queries = random_plans.typed_text(held['queries'])
        switch = switches.parse(held['switch'])
        if candidates(switch, queries) <= MOST:
            return held, queries, switch


def fits(queries, switch, entries):
    try:
        plans.check_fits(queries, switch, entries)
    except plans.Misfit:
        return False
    return True


def installed(levels, queries, switch, number):
    """How many prefixes stand in the tables of all pieces in a window."""
    tables = [levels.prefixes(q, j, number) for q, entry in enumerate(levels.entries) for j in range(1, len(entry.path)) for _ in queries[q].branches]
    return sum(len(prefixes) for prefixes in tables if not split.is_open(switch.entries, prefixes))


def spent(window, queries, switch, entries, train):
    """The items that a plan sends over a capture, and the switch's weight for each prefix that is installed."""
    levels, total = split.Levels(queries, entries, switch.entries), 0
    for number, tuples in split.windows_of(window, train)[0]:
        total += switch.weight * installed(levels, queries, switch, number)
        passing, _ = levels.window(number, tuples)
        total += sum(len(sent) + len(read) for _, (sent, read) in split.lane_items(switch, queries, entries, passing))
    return total


def first_least(window, queries, switch, train):
    """The lines of the first plan of least cost, and its cost. Plans come in the order of their choices."""
    known, best = {}, None
    for chosen in itertools.product(*[list(entries_of(switch, query)) for query in queries]):
        if not fits(queries, switch, list(chosen)):
            continue
        key = str([(entry.path, [(piece.cut, piece.sizes) for piece in entry.pieces]) for entry in chosen])
        if key not in known:
            known[key] = spent(window, queries, switch, list(chosen), train)
        if best is None or known[key] < best[1]:
            best = plans.lines(chosen), known[key]
    return best


def faults(answer, names, window, queries, switch, train):
    """What is wrong with the answers of a program on one case."""
    three = names['switch'], names['queries'], names['plan']
    lines, cost = first_least(window, queries, switch, train)
    status, text, _ = answer('plan', *three, '--nodes', '1000000')
    if status != 0 or text.decode().split('\ncost ')[0] != '\n'.join(lines) or '\ncost %d;\n' % cost not in text.decode():
        return ['plan: wanted cost %d of\n%s\nfound status %d and\n%s' % (cost, '\n'.join(lines), status, text.decode().split('\ntree')[0])]
    table = costs.Costs(queries, switch, split.windows_of(window, train)[0])
    reader = costs.TreeReader(text)
    plan = costs.Partial(table, costs.choices_of(table, reader.plan()))
    _, nodes = reader.tree()
    found = [] if nodes == costs.tree(table, plan) else ['another tree']
    bounds = sorted(number for letter, number in nodes if letter == 'E')
    if answer('plan', *three, '--nodes', str(max(1, len(bounds)))) != (0, text, ''):
        found.append('another answer with %d nodes' % len(bounds))
    for most in {len(bounds) - 1, len(bounds) // 2} - {0, -1}:
        refused = 8, b'', 'sonata: budget %d bound %d\n' % (most, bounds[most])
        if most < len(bounds) and answer('plan', *three, '--nodes', str(most)) != refused:
            found.append('wanted %r' % (refused,))
    random_plans.write(names['folder'], {'reports': text})
    said = answer('check', *three, names['reports'])
    return found if said == (0, b'yes cost %d nodes %d\n' % (cost, len(nodes)), '') else found + ['check says %r' % (said,)]


def tried(answer, seed, folder):
    draw = random.Random(seed)
    held, queries, switch = small_files(draw)
    names = dict(random_plans.write(folder, held), folder=folder)
    window = int(re.match(rb'window (\d+)', held['queries']).group(1))
    try:
        fields.header(held['plan'])
    except fields.BadHeader:
        return [5 if answer('plan', names['switch'], names['queries'], names['plan'])[0] == 5 else None]
    found = faults(answer, names, window, queries, switch, held['plan'])
    for fault in found:
        print(fault)
    return [None if found else 0]


def case(executable, seed, folder):
    return tried(lambda *words: program.ran(executable, *words), seed, folder)


def alone(seed, folder):
    return tried(planned.answer, seed, folder)


if __name__ == '__main__':
    sys.exit(program.random_cases(__doc__, case, alone, cases=300, needs=('plan', 'check')))
