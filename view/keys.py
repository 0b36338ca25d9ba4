#!/usr/bin/env python3
"""Prints a line for each key that was answered: by which query, from when to when, in how many windows, and its greatest number in one of them.

    sonata plain QUERIES CAPTURE | keys.py --queries QUERIES --capture CAPTURE
    keys.py today.txt --queries tour.query --capture today.pcap --local

    port_scan 198.51.100.7 10.1.5.5: windows 5..10, 2026-11-28T00:00:05.000308Z to 2026-11-28T00:00:11.000308Z, 6 of them, ports at most 150

Keys are those of the finest level of each query, its own in the query file's order and the first to be answered first. The times are those at which the
first window begins and the last one ends, so what was found may begin and end up to a window inside of them, and outside where it was below the query's
threshold: packets.py tells the times of its packets. A key is the keys of a query's join or last reduce, and the number is its last column. Answers are
those of `plain`, `run`, `finish`, `many`, `live` and `replan`, and CSV. Needs nothing but Python."""

import argparse
import sys

import printed
import texts
import times


def findings(name, queries):
    """By query and key at the finest levels: the first and the last window, how many there are, and the greatest number or None."""
    finest, places, found = {query.name: query.levels[-1] for query in queries if query.levels}, printed.places_of(queries), {}
    for window, query, level, row in printed.rows(name):
        if query is None or finest.get(query, level) != level:
            continue
        key, number = printed.keyed(row, places.get(query))
        first, last, count, greatest = found.get((query, key), (window, None, 0, None))
        numbers = [one for one in (greatest, number) if one is not None]
        found[query, key] = first, window, count + (window != last), max(numbers, default=None)
    return found


def main():
    words = argparse.ArgumentParser(description=__doc__, formatter_class=argparse.RawDescriptionHelpFormatter)
    words.add_argument('answers', nargs='?', default='-', help='answers; without it, or with -, standard input')
    times.add_options(words)
    given = words.parse_args()
    clock = times.Clock(given)
    queries = texts.read_queries(given.queries) if given.queries else []
    order, named = {query.name: place for place, query in enumerate(queries)}, {query.name: query.columns[-1][0] + ' ' for query in queries}
    for (query, key), (first, last, count, greatest) in sorted(findings(given.answers, queries).items(), key=lambda one: (order.get(one[0][0], 0), one[1][0])):
        span = '%d' % first if first == last else '%d..%d' % (first, last)
        print('%s %s: windows %s, %s to %s, %d of them%s' % (query, key, span, clock.at(first), clock.at(last + 1), count,
                                                             '' if greatest is None else ', %sat most %d' % (named.get(query, ''), greatest)))
    return 0


if __name__ == '__main__':
    printed.ended(main)
