#!/usr/bin/env python3
"""Reads queries before they are planned, and says what in them is likely a mistake: answers that come late or never, packets without a header that count, sums
that stay at their greatest number, and rows that nobody counts.

    lint.py QUERIES

    tunnel: NEVER, line 9: level 8 asks for b > 50000 and level 32 for b > 1000, so level 8 leaves out prefixes of addresses that level 32 would answer
      write a constant of at most 1000 for level 8
    opened: late, by at most 1 window: each further level of `refine ip.dst: 24, 32` looks a window later, and what is over within 1 window may not be printed
      write `refine ip.dst: 32;` where that matters

NEVER stands where an address may stay in the answers of the query without refinement, and its plan may print it never: where `sonata detect` over an empty
capture says `bound no` of the longest path, with the constant or the operator that is the reason. Of a join that asks sums alone, it is `unproved`. `late` and
`unproved` aren't counted as findings. The status is 1 where there are findings, else 0. A packet's length counts as at most 262,144 bytes, a window as 4,194,304
records. A plan may take fewer levels than the refine line has, and a path of one level is never late. That a query has a bound is proved of `detect`; the rest is
a reading of the text. Needs nothing but Python and the program."""

import argparse
import collections
import itertools
import os
import struct
import sys
import tempfile

import entries
import printed
import programs
import texts
from reference import fields
from reference.answers import constant_at, passes
from texts import plans
from reference.tokens import ALL_BITS

EMPTY = struct.pack('<IHHIIII', 0xA1B2C3D4, 2, 4, 0, 0, 262144, 1)
RECORDS, LONGEST = 1 << 22, 1 << 18
VALID = {'ip': 'ip.valid == 1', 'ip6': 'ip6.valid == 1', 'tcp': 'tcp.valid == 1', 'udp': 'udp.valid == 1', 'icmp': 'icmp.valid == 1'}
# A header that is there only where another one is.
BELOW = {'icmp': 'ip'}

Finding = collections.namedtuple('Finding', 'word line reason advice')
# Of a column: the greatest number of a row, and the greatest sum over the rows of a window.
Most = collections.namedtuple('Most', 'row sum')


def counted(count, word):
    return '%s %s%s' % (format(count, ','), word, '' if count == 1 else 's')


def bounds(program, name, queries):
    """Whether `detect` gives each refined query a bound along the longest path."""
    if not any(query.levels for query in queries):
        return {}
    with tempfile.TemporaryDirectory(prefix='sonata-lint-') as folder:
        plan, capture = os.path.join(folder, 'uncut.plan'), os.path.join(folder, 'empty.pcap')
        with open(plan, 'w') as file:
            file.write('\n'.join(plans.lines([entries.uncut(query, query.levels or [0]) for query in queries])) + '\n')
        with open(capture, 'wb') as file:
            file.write(EMPTY)
        _, text, _ = programs.answered([program, 'detect', name, plan, capture])
    lines = [line.split() for line in text.splitlines()]
    return {words[1]: words[5] == 'yes' for words in lines if words[0] == 'query'}


def greater(query, operator):
    """The conditions with > or >= of which a coarse level asks for more than the finest one."""
    finest = query.levels[-1]
    for condition in operator.conditions:
        levels = [level for level in query.levels if constant_at(condition, level) > constant_at(condition, finest)]
        if levels and condition.comparison in ('>', '>='):
            asks = '%s %s' % (condition.name, condition.comparison)
            reason = 'level %d asks for %s %d and level %d for %s %d, so level %d leaves out prefixes of addresses that level %d would answer' % (
                levels[0], asks, constant_at(condition, levels[0]), finest, asks, constant_at(condition, finest), levels[0], finest)
            advice = 'write a constant of at most %d for level%s %s' % (constant_at(condition, finest), 's' * (len(levels) > 1), ', '.join(map(str, levels)))
            yield Finding('NEVER', operator.line, reason, advice)


def other_comparison(query, operator):
    """The conditions after a reduce that a prefix may fail though an address in it passes."""
    for condition in operator.conditions:
        if condition.comparison not in ('>', '>='):
            yield Finding('NEVER', operator.line, '`%s %s` after the reduce: a prefix may fail it where an address in it passes' % (condition.name, condition.comparison),
                          alone(query))
        elif condition.mask != ALL_BITS:
            yield Finding('NEVER', operator.line, '`%s &` after the reduce: a prefix may fail it where an address in it passes' % condition.name, alone(query))


def alone(query):
    return 'write `refine %s: %d;`, which asks at the finest level alone, or a second query beside it without this' % (query.refine_field, query.levels[-1])


def after_reduce(query, operator, value):
    """Why an operator after the reduce may lose an address."""
    if operator.kind != 'filter':
        yield Finding('NEVER', operator.line, '%s stands after the reduce, where a bound is proved for filters alone' % operator.kind, alone(query))
        return
    yield from greater(query, operator)
    yield from other_comparison(query, operator)
    for condition in operator.conditions:
        if condition.name != value:
            yield Finding('NEVER', operator.line, '`%s` after the reduce is no sum but a key' % condition.name, 'ask for it before the reduce')


def before_reduce(query, operator, distincts):
    """Why an operator up to the reduce may lose an address."""
    if operator.kind == 'filter' and any(condition.relaxed for condition in operator.conditions):
        yield Finding('NEVER', operator.line, 'a constant with `at` before the reduce: levels count different packets', 'write one constant there, and `at` after the reduce')
    if operator.kind == 'distinct' and distincts > 1:
        yield Finding('NEVER', operator.line, 'a second distinct before the reduce', alone(query))
    if operator.kind == 'reduce' and operator.fold == 'min':
        yield Finding('NEVER', operator.line, '`min`: the least of a prefix is at most that of an address in it, so a prefix may fail where the address passes', alone(query))


def grows(operators):
    """Whether a branch answers, for a prefix, each number at least as great as for an address in it."""
    places = [place for place, operator in enumerate(operators) if operator.kind == 'reduce']
    if len(places) != 1 or operators[places[0]].fold not in ('sum', 'max') or sum(one.kind == 'distinct' for one in operators) > 1:
        return False
    before, end = operators[:places[0]], operators[places[0] + 1:]
    return not any(condition.relaxed for one in before for condition in one.conditions) and asks_more(end, {operators[places[0]].value})


def asks_more(operators, names):
    """Whether these are filters alone that ask for more than a number, of columns of these names."""
    return all(one.kind == 'filter' for one in operators) and all(
        condition.comparison in ('>', '>=') and condition.mask == ALL_BITS and condition.name in names for one in operators for condition in one.conditions)


def joined(query):
    """What is to be said of a join none of whose constants is the reason."""
    numbers = {operator.value for branch in query.branches for operator in branch if operator.kind == 'reduce'}
    if all(map(grows, query.branches)) and asks_more(query.after, numbers):
        return Finding('unproved', query.join_line, 'a join, to which `detect` gives no bound; but each of its numbers is for a prefix at least that for an address in it, '
                       'so by this reading it is late by at most %s' % counted(len(query.levels) - 1, 'window'), alone(query).replace('write', 'where that must be sure write'))
    return Finding('NEVER', query.join_line, 'a join: a ratio or a sum of an address may pass where that of its prefix fails, and no bound is proved',
                   'relax the constants of the coarse levels well below the finest one\'s, and ' + alone(query).replace('write', 'where none may be lost write'))


def never(query):
    """Why a refined query has no bound, by its text."""
    if query.join_keys:
        filters = [operator for some in [*query.branches, query.after] for operator in some if operator.kind == 'filter']
        found = [one for operator in filters for one in greater(query, operator)]
        return found or [joined(query)]
    found, value, distincts = [], None, 0
    for operator in query.branches[0]:
        distincts += operator.kind == 'distinct'
        found += before_reduce(query, operator, distincts) if value is None else after_reduce(query, operator, value)
        value = operator.value if operator.kind == 'reduce' and value is None else value
    if value is None:
        found.append(Finding('NEVER', query.branches[0][-1].line, 'no reduce: a bound is proved for one by sum, max or or', 'count the rows: `map .. , 1 as n | reduce ..: sum(n) width 32`'))
    return found


def late(query):
    """How late a query with a bound may be, where its path has all levels."""
    windows = len(query.levels) - 1
    span = counted(windows, 'window')
    return Finding('late', None, 'by at most %s: each further level of `refine %s: %s` looks a window later, and what is over within %s may not be printed' % (
        span, query.refine_field, ', '.join(map(str, query.levels)), span), 'write `refine %s: %d;` where that matters' % (query.refine_field, query.levels[-1]))


def header_of(name):
    head = name.split('.')[0]
    return head if head in VALID else None


def headers_asked(operators):
    """The headers without which a packet fails the filters before the first map."""
    front = itertools.takewhile(lambda operator: operator.kind != 'map', operators)
    conditions = [condition for operator in front for condition in operator.conditions if not passes({condition.name: 0}, [condition], None)]
    asked = {header_of(condition.name) for condition in conditions} - {None}
    return asked | {BELOW[head] for head in asked if head in BELOW}


def read_first(operators):
    """The fields that are read up to and with the first map, each with the line where it is read first."""
    for operator in operators:
        names = [condition.name for condition in operator.conditions] + [name for column in operator.columns for name in column.reads]
        yield from ((name, operator.line) for name in names)
        if operator.kind == 'map':
            return


def headers(operators):
    """The headers that a branch reads and doesn't ask for."""
    asked, reported = headers_asked(operators), set()
    for name, line in read_first(operators):
        head = header_of(name)
        if head and head not in asked | reported:
            reported.add(head)
            yield Finding('header', line, '`%s` is 0 in packets without this header, and they count too' % name, 'add `%s` to the first filter' % VALID[head])


def most_of_field(name):
    greatest = min(LONGEST, (1 << fields.WIDTHS[name]) - 1) if name == 'pkt.len' else (1 << fields.WIDTHS[name]) - 1
    return Most(greatest, RECORDS * greatest)


def most_of_column(column, known):
    """The greatest numbers of a map's column. Sums of columns and ratios stand after joins alone, where nothing is folded."""
    if column.form == 'constant':
        return Most(column.number, RECORDS * column.number)
    one = known(column.reads[0])
    if column.form == 'mask':
        return Most(min(one.row, column.number), one.sum)
    if column.form == 'shift':
        return Most(one.row >> column.number, one.sum >> column.number)
    return one


def saturated(operator, most):
    """A sum that may pass its width in a window of as many records as there may be."""
    greatest = (1 << operator.width) - 1
    if operator.fold == 'sum' and most.sum > greatest:
        least = -(-(greatest + 1) // max(1, most.row))
        yield Finding('width', operator.line, 'the sum of `%s` has %d bits and stays at %s, which %s of a key in a window can pass' % (
            operator.value, operator.width, format(greatest, ','), counted(least, 'row')), 'write `width %d`' % most.sum.bit_length())


def widths(operators):
    """The sums of a branch that may stay at their greatest number."""
    known = None
    for operator in operators:
        if operator.kind == 'map':
            read = most_of_field if known is None else known.__getitem__
            known = {column.name: most_of_column(column, read) for column in operator.columns}
        elif operator.kind == 'reduce':
            most = known[operator.value]
            yield from saturated(operator, most)
            known = dict(known, **{operator.value: Most(min(most.sum, (1 << operator.width) - 1) if operator.fold == 'sum' else most.row, most.sum)})


def distincts(operators):
    """The distincts of a branch that no reduce follows."""
    for place, operator in enumerate(operators):
        if operator.kind == 'distinct' and not any(later.kind == 'reduce' for later in operators[place:]):
            yield Finding('distinct', operator.line, 'no reduce follows the distinct, so each row is an answer of its own', 'to count them add `| map KEY as k, 1 as n | reduce k: sum(n) width 32`')


def findings(query, bound):
    """What is to be said of a query. `bound` is what `detect` says of it, None where it isn't refined."""
    found = [] if bound is None or len(query.levels) < 2 else [late(query)] if bound else never(query)
    if bound is False and len(query.levels) > 1 and not found:
        found = [Finding('NEVER', query.refine_line, '`detect` gives it no bound', alone(query))]
    read = [one for operators in query.branches for reading in (headers, widths, distincts) for one in reading(operators)]
    return list(dict.fromkeys(found + read))


def main():
    words = argparse.ArgumentParser(description=__doc__, formatter_class=argparse.RawDescriptionHelpFormatter)
    words.add_argument('queries')
    programs.add_option(words)
    given = words.parse_args()
    programs.readable(given.queries)
    queries, count = texts.read_queries(given.queries), 0
    known = bounds(given.sonata, given.queries, queries)
    for query, one in ((query, one) for query in queries for one in findings(query, known.get(query.name))):
        count += one.word not in ('late', 'unproved')
        print('%s: %s%s %s\n  %s' % (query.name, one.word, ', line %d:' % one.line if one.line else ',', one.reason, one.advice))
    print('%s in %s' % (counted(count, 'finding'), '1 query' if len(queries) == 1 else '%d queries' % len(queries)))
    return 1 if count else 0


if __name__ == '__main__':
    printed.ended(main)
