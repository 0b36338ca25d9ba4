"""Reads what `sonata` answered: printed answers of `plain`, `run`, `finish`, `many`, `live` and `replan`, or the CSV of `run --csv`. Addresses of IPv6 are
given as RFC 5952 writes them."""

import csv
import ipaddress
import itertools
import os
import re
import sys

HEADING = 'window,query,level,'
ADDRESS = re.compile(r'(?:[0-9a-f]{4}:){7}[0-9a-f]{4}')


def short(text):
    """The same text with each address of IPv6 as RFC 5952 writes it."""
    return ADDRESS.sub(lambda found: str(ipaddress.IPv6Address(found.group())), text) if ':' in text else text


def ended(main):
    """Runs the main part of a command and ends with its status, and quietly where nobody reads on."""
    try:
        status = main()
        sys.stdout.flush()
    except BrokenPipeError:
        os.dup2(os.open(os.devnull, os.O_WRONLY), sys.stdout.fileno())
        status = 0
    sys.exit(status)


def opened(name):
    """A file of answers, or standard input where its name is -."""
    try:
        return sys.stdin if name == '-' else open(name, newline='')
    except OSError as fault:
        sys.exit('%s: %s' % (name, fault.strerror))


def passed_on(name, write):
    """Lets `write` pass answers on to standard output. Ends with a line where they are none, and quietly where nobody reads on."""
    try:
        with opened(name) as file:
            write(file)
        sys.stdout.flush()
    except (IndexError, TypeError, ValueError):
        sys.exit('%s: neither CSV nor printed answers' % name)
    except BrokenPipeError:
        os.dup2(os.open(os.devnull, os.O_WRONLY), sys.stdout.fileno())


def without_plans(lines):
    """Lines of answers, an iterator, without the plans and trees that stand before or between them, and without the lines of epochs."""
    for line in lines:
        if line == 'plan\n':
            # (this reads on up to that line)
            if 'done\n' not in lines:
                raise ValueError
        elif not line.startswith('epoch '):
            yield line


def blocks(file):
    """The answers in order: for each window its number alone, and for each query and level of it the rows. CSV tells neither windows without a row nor
    queries without one."""
    first = file.readline()
    if first.startswith(HEADING):
        yield from csv_blocks(csv.reader(file))
    else:
        yield from text_blocks(line.split() for line in without_plans(itertools.chain([first], file)))


def csv_blocks(records):
    last = None
    for key, some in itertools.groupby(records, lambda record: tuple(record[:3])):
        window, query, level = key
        if window != last:
            yield int(window), None, None, []
            last = window
        yield int(window), query, int(level), [[short(column) for column in record[3:] if column] for record in some]


def text_blocks(lines):
    window = None
    for words in lines:
        if not words:
            raise ValueError
        if words[0] == 'window':
            window = int(words[1])
            yield window, None, None, []
        elif words[0] == 'query':
            _, query, _, level, _, count = words
            rows = [list(map(short, row)) for row in itertools.islice(lines, int(count))]
            if window is None or len(rows) < int(count):
                raise ValueError
            yield window, query, int(level), rows
        elif words[0] not in ('total', 'capture'):
            raise ValueError


def rows(name):
    """The rows of a file, each with its window, query and level, and a window's number alone before its rows."""
    with opened(name) as file:
        try:
            for window, query, level, some in blocks(file):
                if query is None:
                    yield window, None, None, []
                for row in some:
                    yield window, query, level, row
        except (IndexError, TypeError, ValueError):
            sys.exit('%s: neither CSV nor printed answers' % name)


def prefixes(name, queries):
    """The refinement columns of answers: by window, and there by the name of the query and the level. The windows are in order."""
    places = {query.name: [column for column, _, _ in query.columns].index(query.carried) for query in queries if query.levels}
    found = {}
    for window, query, level, row in rows(name):
        answered = found.setdefault(window, {})
        if query in places and places[query] < len(row):
            answered.setdefault((query, level), set()).add(row[places[query]])
    return found


def table_sizes(answered, query, before):
    """How many prefixes the table after a level has in each window: those that the level answered in the window before."""
    return {window: len(answered.get(window - 1, {}).get((query.name, before), ())) for window in answered}


def key_places(query):
    """The places in a query's rows of the keys of its join or its last reduce, where its rows have them."""
    reduces = [operator.keys for operator in query.branches[0] if operator.kind == 'reduce']
    keys = query.join_keys or (reduces[-1] if reduces else [])
    return [place for place, (name, _, _) in enumerate(query.columns[:-1]) if name in keys]


def places_of(queries):
    """The same for each query, by its name."""
    return {query.name: key_places(query) for query in queries}


def keyed(row, places=None):
    """A row's key, by its places or else all columns before the number, and its number: the last column, where it has more than one."""
    front, number = (row[:-1], int(row[-1])) if len(row) > 1 and row[-1].isdigit() else (row, None)
    return ' '.join([row[place] for place in places or () if place < len(row)] or front), number


def greatest_first(some):
    """Rows by their last column, where that is a number, the greatest first."""
    return sorted(some, key=lambda row: -int(row[-1]) if row and row[-1].isdigit() else 0)
