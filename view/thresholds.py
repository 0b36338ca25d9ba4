#!/usr/bin/env python3
"""Says which thresholds a quiet capture suggests: for each column that the filters at the end of a query ask, the quantiles of its values over all rows and
windows, as numbers to write after `>`.

    thresholds.py QUERIES CAPTURE
    thresholds.py QUERIES CAPTURE --quantiles 0.9 0.99 0.999 1
    thresholds.py QUERIES CAPTURE --level 24

`sonata plain` answers each query without the filters after its last reduce, map, distinct or join, and at the ends of a join's branches, so that every row is there. `filter n > 36` after
the quantile 1 says that no row of this capture has more than 36. --level asks refined queries at a coarser level, for the constants after `at`; without
it they are asked at the finest. Needs nothing but Python and the program."""

import argparse
import math
import os
import sys
import tempfile

import printed
import programs
import texts
from reference.answers import constant_at
from texts import grammar


def condition_text(condition):
    mask = ' & %d' % condition.mask if condition.mask != grammar.ALL_BITS else ''
    relaxed = ' at (%s)' % ', '.join('%d: %d' % pair for pair in condition.relaxed) if condition.relaxed else ''
    return '%s%s %s %d%s' % (condition.name, mask, condition.comparison, condition.constant, relaxed)


def column_text(column):
    form = {'constant': '%(number)d', 'copy': '%(one)s', 'mask': '%(one)s & %(number)d', 'shift': '%(one)s >> %(number)d', 'sum': '%(one)s + %(other)s',
            'ratio': '%(one)s * %(number)d / %(other)s'}[column.form]
    reads = column.reads + ['', '']
    return form % {'number': column.number, 'one': reads[0], 'other': reads[1]} + ' as ' + column.name


def operator_text(operator):
    if operator.kind == 'filter':
        return 'filter ' + ', '.join(map(condition_text, operator.conditions))
    if operator.kind == 'map':
        return 'map ' + ', '.join(map(column_text, operator.columns))
    if operator.kind == 'distinct':
        return 'distinct'
    width = ' width %d' % operator.width if operator.fold == 'sum' else ''
    return 'reduce %s: %s(%s)%s' % (', '.join(operator.keys), operator.fold, operator.value, width)


def without_end(operators):
    """The operators before the filters at the end, and these."""
    end = len(operators)
    while end and operators[end - 1].kind == 'filter':
        end -= 1
    return operators[:end], operators[end:]


def opened_query(query, level):
    """The text of a query without the filters at its end, of a join also without those at the ends of its branches, and these. None where there are none, or no
    map before them."""
    last = query.after if query.join_keys else query.branches[0]
    kept, end = without_end(last)
    branches = [without_end(branch)[0] for branch in query.branches] if query.join_keys else [kept]
    end = end + [operator for branch in query.branches for operator in without_end(branch)[1] if query.join_keys]
    if not end or not query.join_keys and not any(operator.kind == 'map' for operator in kept):
        return None, []
    levels = [one for one in query.levels if level is None or one <= level]
    lines = ['query %s {' % query.name] + (['  refine %s: %s;' % (query.refine_field, ', '.join(map(str, levels)))] if levels else [])
    for branch in branches:
        lines.append('  packets ' + ' '.join('| ' + operator_text(relaxed_to(operator, levels)) for operator in branch) + ';')
    if query.join_keys:
        lines.append('  join %s %s;' % (', '.join(query.join_keys), ' '.join('| ' + operator_text(relaxed_to(operator, levels)) for operator in kept)))
    return '\n'.join(lines + ['}']) + '\n', end


def relaxed_to(operator, levels):
    """An operator whose relaxed constants are of these levels alone."""
    for condition in operator.conditions:
        condition.relaxed = [pair for pair in condition.relaxed if pair[0] in levels]
    return operator


def asked(query, end):
    """The columns that the filters at the end ask with > or >=, each with the condition."""
    names = [name for name, _, _ in query.columns]
    return [(names.index(condition.name), condition) for operator in end for condition in operator.conditions
            if condition.comparison in ('>', '>=') and condition.name in names]


def quantile(values, share):
    """The least value that at least this share of the sorted values doesn't pass."""
    return values[max(0, math.ceil(share * len(values)) - 1)]


def tell(query, condition, values, windows, given):
    level = given.level if given.level in query.levels else None
    stands = constant_at(condition, level)
    passing = sum(value > stands or value == stands and condition.comparison == '>=' for value in values)
    print('query %s%s, column %s: %s rows in %d windows; %s pass `%s %d` as it stands' % (
        query.name, ' at level %d' % level if level else '', condition.name, format(len(values), ','), windows, format(passing, ',') if passing else 'none',
        condition.comparison, stands))
    for share in given.quantiles if values else []:
        print('  %-7s filter %s > %d' % ('%g %%' % (100 * share), condition.name, quantile(values, share)))


def share(word):
    if not 0 < float(word) <= 1:
        raise argparse.ArgumentTypeError('above 0 and at most 1')
    return float(word)


def answered(given, window, text):
    """The rows of a query on the capture, and the number of windows."""
    with tempfile.TemporaryDirectory(prefix='sonata-thresholds-') as folder:
        names = [os.path.join(folder, name) for name in ('open.query', 'answer')]
        with open(names[0], 'w') as file:
            file.write('window %d\n%s' % (window, text))
        _, found, _ = programs.answered([given.sonata, 'plain', names[0], given.capture], (0, 5))
        with open(names[1], 'w') as file:
            file.write(found)
        rows = list(printed.rows(names[1]))
    return [row for _, query, _, row in rows if query], sum(query is None for _, query, _, _ in rows)


def main():
    words = argparse.ArgumentParser(description=__doc__, formatter_class=argparse.RawDescriptionHelpFormatter)
    words.add_argument('queries')
    words.add_argument('capture', help='a capture of usual traffic')
    words.add_argument('--quantiles', type=share, nargs='+', default=[0.9, 0.99, 1], metavar='SHARE', help='shares of the rows (default 0.9 0.99 1)')
    words.add_argument('--level', type=int, help='ask refined queries at this level of theirs')
    programs.add_option(words)
    given = words.parse_args()
    programs.readable(given.queries, given.capture)
    window, _ = texts.accepted(given.queries, grammar.parse)
    queries = texts.read_queries(given.queries)
    if given.level is not None and not any(given.level in query.levels for query in queries):
        sys.exit('--level %d: no query has it' % given.level)
    for query in queries:
        text, end = opened_query(query, given.level if given.level in query.levels else None)
        conditions = asked(query, end)
        if text is None or not conditions:
            print('query %s: no filter at its end asks for more than a number' % query.name)
            continue
        rows, windows = answered(given, window, text)
        for place, condition in conditions:
            tell(query, condition, sorted(int(row[place]) for row in rows), windows, given)
    return 0


if __name__ == '__main__':
    printed.ended(main)
