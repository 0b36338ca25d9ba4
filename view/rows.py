#!/usr/bin/env python3
"""Writes answers as JSON lines for jq, one for each row: a filter over what `plain`, `run`, `finish`, `many`, `live`, `replan` and `run --csv` print.

    sonata run SWITCH QUERIES PLAN CAPTURE | rows.py --queries QUERIES | jq -c 'select(.query == "opened" and .n > 500)'
    rows.py today.csv --queries tour.query --capture today.pcap | jq -r '[.time, .d, .n] | @tsv'

A line has window, query, level, and the row's columns by the names that the query gives them; without --queries they stand in a list `columns`. Addresses
are text, and all else numbers. With --capture (or --first) it has the time at which the window begins, too. A query's own column of the name window,
time, query or level stands after a low line (`_level`). --greatest puts the rows of a window and query with the greatest last column first, and
--finest leaves out rows of levels but the finest that the query has in its answers. Needs nothing but Python."""

import argparse
import json
import sys

import printed
import texts
import times

OWN = ('window', 'time', 'query', 'level')


def value(word):
    """A column: a number, or an address as it is printed."""
    return int(word) if word.isdigit() else word


def object_of(window, query, level, row, names, clock):
    found = {'window': window, 'time': clock.at(window)} if clock else {'window': window}
    found.update(query=query, level=level)
    own = names.get(query)
    if own is None or len(own) != len(row):
        return dict(found, columns=[value(word) for word in row])
    return dict(found, **{'_' + name if name in OWN else name: value(word) for name, word in zip(own, row)})


def written(file, given, queries, clock):
    """A line for each row."""
    names = {query.name: [name for name, _, _ in query.columns] for query in queries}
    finest = {query.name: query.levels[-1] for query in queries if query.levels}
    for window, query, level, rows in printed.blocks(file):
        if given.finest and finest.get(query, level) != level:
            continue
        for row in printed.greatest_first(rows) if given.greatest else rows:
            sys.stdout.write(json.dumps(object_of(window, query, level, row, names, clock)) + '\n')


def main():
    words = argparse.ArgumentParser(description=__doc__, formatter_class=argparse.RawDescriptionHelpFormatter)
    words.add_argument('answers', nargs='?', default='-', help='answers; without it, or with -, standard input')
    times.add_options(words)
    words.add_argument('--greatest', action='store_true', help='the rows of each query by their last column, the greatest first')
    words.add_argument('--finest', action='store_true', help='rows of the finest level alone; needs --queries')
    given = words.parse_args()
    if given.finest and not given.queries:
        words.error('--finest needs --queries')
    queries = texts.read_queries(given.queries) if given.queries else []
    clock = times.Clock(given) if given.capture or given.first is not None else None
    printed.passed_on(given.answers, lambda file: written(file, given, queries, clock))
    return 0


if __name__ == '__main__':
    sys.exit(main())
