#!/usr/bin/env python3
"""Answers `plain QUERIES CAPTURE` as `sonata` should: an independent and slow reference, for comparison. Needs nothing
but Python."""

import argparse
import os
import sys

sys.path.insert(0, os.path.dirname(os.path.abspath(__file__)))
from reference import answers, fields, grammar, tokens, typing_rules  # noqa: E402


def read(name):
    try:
        with open(name, 'rb') as file:
            return file.read()
    except OSError:
        return None


def told(line):
    """A line as it stands on standard error."""
    return 'sonata: %s\n' % line


def plain(queries_name, capture_name):
    """The status, the text, and what is told on standard error."""
    text = read(queries_name)
    if text is None:
        return 9, '', told('read fault')
    try:
        window, queries = grammar.parse(text)
        typing_rules.check(queries)
    except tokens.Fault as fault:
        return 3, '', told('queries %s line %d' % (fault.kind, fault.line))
    file = read(capture_name)
    if file is None:
        return 9, '', told('read fault')
    try:
        answer, ending = answers.answers(window, queries, file)
    except fields.BadHeader as fault:
        return 5, '', told('capture %s byte %d' % fault.args)
    return (5, answer, told('capture %s byte %d' % ending)) if ending else (0, answer, '')


def main():
    words = argparse.ArgumentParser(description=__doc__)
    words.add_argument('queries', help='a query file')
    words.add_argument('capture', help='a capture in classic pcap')
    given = words.parse_args()
    status, text, line = plain(given.queries, given.capture)
    sys.stdout.write(text)
    sys.stderr.write(line)
    return status


if __name__ == '__main__':
    sys.exit(main())
