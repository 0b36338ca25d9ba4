#!/usr/bin/env python3
"""Prints what answers have that wasn't answered before: a line for each new key of a query at its finest level, for a journal or a mail.

    news.py answers.txt --queries tour.query --capture slot.pcap --known known.json
    sonata live .. | news.py - --queries tour.query --first 1794268800 --known known.json --days 7

A key is new where KNOWN doesn't have it, or had it last more than --days ago. KNOWN is written again, with this answer's keys; where it isn't there, all
keys are new. Answers are those of `plain`, `run`, `finish`, `many`, `live` and `replan`, and CSV. Needs nothing but Python."""

import argparse
import json
import os
import sys

import keys
import printed
import texts
import times


def read_known(name):
    """The keys that were answered before, each with the time of its last window in seconds."""
    try:
        with open(name) as file:
            known = json.load(file)
        if not isinstance(known, dict) or not all(isinstance(time, (int, float)) for time in known.values()):
            raise ValueError
        return {printed.short(key): time for key, time in known.items()}
    except FileNotFoundError:
        return {}
    except OSError as fault:
        sys.exit('%s: %s' % (name, fault.strerror))
    except ValueError:
        sys.exit('%s: no file of known keys' % name)


def write_known(name, known):
    """Put the file in the place of the old one at once, so that an end in between leaves one of both."""
    try:
        with open(name + '.new', 'w') as file:
            json.dump(known, file, indent=0, sort_keys=True)
        os.replace(name + '.new', name)
    except OSError as fault:
        sys.exit('%s: %s' % (name, fault.strerror))


def main():
    words = argparse.ArgumentParser(description=__doc__, formatter_class=argparse.RawDescriptionHelpFormatter)
    words.add_argument('answers', nargs='?', default='-', help='answers; without it, or with -, standard input')
    times.add_options(words)
    words.add_argument('--known', required=True, help='the file of keys that were answered before')
    words.add_argument('--days', type=float, default=7, help='a key is new again after so many days (default 7)')
    given = words.parse_args()
    clock, known = times.Clock(given), read_known(given.known)
    queries = texts.read_queries(given.queries) if given.queries else []
    for (query, key), (first, last, _, greatest) in keys.findings(given.answers, queries).items():
        key = '%s %s' % (query, key)
        begun = (clock.first + first * clock.window) / 1e6
        if key not in known or begun - known[key] > given.days * 86400:
            print('%s from %s%s' % (key, clock.at(first), '' if greatest is None else ', at most %d a window' % greatest))
        known[key] = max(known.get(key, 0), (clock.first + last * clock.window) / 1e6)
    write_known(given.known, known)
    return 0


if __name__ == '__main__':
    sys.exit(main())
