#!/usr/bin/env python3
"""Compares the cost table that `sonata_entries` prints with the slow reference, entry by entry, and with what `sonata plan` finds, on small random queries,
switches and captures: the cost of its plan must be the sum of the entries of the plan's pieces, and the bound of its tree's first node the sum over the queries
of the path whose pieces cost least. A text or capture that `plan` refuses must be refused with the same status and line. Prints each case on which they differ,
with the seed that makes it again. The status is 0 where none does. Needs nothing but Python.

The program is the one that this clone built, or that SONATA_ENTRIES names."""

import os
import random
import re
import sys

import planned
import program
import random_certificates
import random_plans
from reference import costs, plans, tokens

ENTRIES = os.environ.get('SONATA_ENTRIES', os.path.join(os.path.dirname(program.USUAL), '..', '..', 'sonata_entries', 'out', 'sonata_entries'))


def fronts(query):
    """The levels of a query up to each piece that a path may have, in order: the coarsest level counts least."""
    levels = plans.levels_of(query)
    return [tuple(level for place, level in enumerate(levels) if number >> place & 1) for number in range(1, 1 << len(levels))]


def lanes(queries):
    return [(q, front, branch) for q, query in enumerate(queries) for front in fronts(query) for branch in range(len(query.branches))]


def line(query, front, branch, option, cost):
    """The line of an entry."""
    listed = ', '.join
    slots = ' slots ' + listed(map(str, option[1])) if option[1] else ''
    return '%s levels %s branch %d cut %d%s cost %d\n' % (query.name, listed(map(str, front)), branch, option[0], slots, cost)


def table_text(table):
    """The text of a cost table of the reference."""
    return ''.join(line(table.queries[q], front, branch, option, table.entry(q, front, branch, option))
                   for q, front, branch in lanes(table.queries) for option in costs.options(table.switch, table.queries[q], branch)).encode()


def read(text):
    """The costs of a printed table, by the query's name, the levels, the branch, the cut and the sizes."""
    form = re.compile(r'^(\S+) levels ([\d, ]+) branch (\d+) cut (\d+)(?: slots ([\d, ]+))? cost (\d+)$', re.M)
    return {(name, tuple(map(int, levels.split(', '))), int(branch), int(cut), tuple(map(int, sizes.split(', '))) if sizes else ()): int(cost)
            for name, levels, branch, cut, sizes, cost in form.findall(text.decode())}


def cost_of(found, entries):
    """What a plan costs by a printed table."""
    return sum(found[entry.name, tuple(entry.path[:entry.path.index(piece.level) + 1]), piece.branch, piece.cut, tuple(piece.sizes)]
               for entry in entries for piece in entry.pieces)


def least_of(found, queries):
    """The least that all queries cost, each along its best path, with room for everything."""
    least = {}
    for (name, front, branch, _, _), cost in found.items():
        least[name, front, branch] = min(cost, least.get((name, front, branch), cost))
    return sum(min(sum(least[query.name, tuple(path[:length]), branch] for length in range(1, len(path) + 1) for branch in range(len(query.branches)))
                   for path in costs.paths(query)) for query in queries)


def agrees(found, queries, certificate):
    """Whether a printed table and what `plan` found of the same files agree. A plan without a cost or a tree doesn't, nor a table without an entry of the plan's."""
    text = certificate.decode(errors='replace')
    cost, bound = re.search(r'^cost (\d+);$', text, re.M), re.search(r'^tree\n\w (\d+)$', text, re.M)
    try:
        same = cost and bound and cost_of(found, plans.parse(certificate)) == int(cost[1]) and least_of(found, queries) == int(bound[1])
    except (KeyError, ValueError, tokens.Fault):
        same = False
    if not same:
        print('  the table and what `plan` found differ')
    return bool(same)


def case(executable, seed, folder):
    """The status of both programs, None where they differ."""
    draw = random.Random(seed)
    names = random_plans.write(folder, random_certificates.files(draw))
    three = names['switch'], names['queries'], names['plan']
    status, certificate, told = program.ran(executable, 'plan', *three)
    if status:
        return [program.alike(ENTRIES, (status, b'', told), *three) if status != 8 else None]
    window, queries = planned.read_queries(names['queries'])
    table = planned.trained(window, queries, planned.read_switch(names['switch']), names['plan'])
    if program.alike(ENTRIES, (0, table_text(table), ''), *three) is None:
        return [None]
    return [0 if agrees(read(program.ran(ENTRIES, *three)[1]), queries, certificate) else None]


if __name__ == '__main__':
    if not os.access(ENTRIES, os.X_OK):
        sys.exit('%s: not there; SONATA_ENTRIES names the program' % ENTRIES)
    sys.exit(program.random_cases(__doc__, case, cases=300, needs=['plan']))
