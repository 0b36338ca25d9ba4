#!/usr/bin/env python3
"""Gives answers clock times: a filter over what `plain`, `run`, `run --csv`, `finish`, `many`, `live` and `replan` print.

    sonata run SWITCH QUERIES PLAN CAPTURE | clock.py --capture CAPTURE --queries QUERIES
    clock.py today.txt --capture today.pcap --queries tour.query --local --greatest
    clock.py today.csv --capture today.pcap --window-us 1000000

The line of a window tells when it begins, in UTC or by --local in the time of this place: `window 3 emitted 1125 at 2026-11-02T10:15:03.000000Z`.
CSV gets the time as a column after the window. --greatest puts the rows of each query with the greatest last column first. All other lines stay as they
are. Windows begin at the first record, so the time is that of the first record and the windows before. Needs nothing but Python."""

import argparse
import csv
import itertools
import sys

import printed
import times


def timed_text(lines, clock, greatest):
    """The lines of printed answers, with times at the windows. The plans and trees of `live` and `replan` stay."""
    ahead = False
    for line in lines:
        words = line.split()
        ahead = (ahead or line == 'plan\n') and line != 'done\n'
        if ahead or line == 'done\n':
            yield line
            continue
        if words[:1] == ['window'] and len(words) in (2, 4):
            yield '%s at %s\n' % (line.rstrip('\n'), clock.at(int(words[1])))
        elif words[:1] == ['query']:
            yield line
            rows = list(itertools.islice(lines, int(words[5])))
            yield from (sorted(rows, key=last_number) if greatest else rows)
        elif words[:1] in (['total'], ['capture'], ['event'], ['epoch']):
            yield line
        else:
            raise ValueError


def last_number(line):
    last = line.split()[-1:]
    return -int(last[0]) if last and last[0].isdigit() else 0


def timed_csv(records, clock, greatest):
    """Records with the time after the window."""
    for _, some in itertools.groupby(records, lambda record: tuple(record[:3])):
        for record in sorted(some, key=lambda record: last_number(' '.join(record))) if greatest else some:
            yield [record[0], clock.at(int(record[0])), *record[1:]]


def written(file, clock, is_greatest_first):
    """Writes the answers with times, as they come: CSV as CSV, and printed answers as these."""
    first = file.readline()
    if first.startswith(printed.HEADING):
        out = csv.writer(sys.stdout, lineterminator='\n')
        out.writerow(['window', 'time', *first.strip().split(',')[1:]])
        out.writerows(timed_csv(csv.reader(file), clock, is_greatest_first))
    else:
        for line in timed_text(itertools.chain([first], file), clock, is_greatest_first):
            sys.stdout.write(line)


def main():
    words = argparse.ArgumentParser(description=__doc__, formatter_class=argparse.RawDescriptionHelpFormatter)
    words.add_argument('answers', nargs='?', default='-', help='answers; without it, or with -, standard input')
    times.add_options(words)
    words.add_argument('--greatest', action='store_true', help='the rows of each query by their last column, the greatest first')
    given = words.parse_args()
    clock = times.Clock(given)
    printed.passed_on(given.answers, lambda file: written(file, clock, given.greatest))
    return 0


if __name__ == '__main__':
    sys.exit(main())
