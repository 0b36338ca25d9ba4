#!/usr/bin/env python3
"""Compares `sonata detect` with the slow reading of reference/stays.py on the random query files, plans and captures of random_plans.py. Prints each case on
which they differ, with the seed that makes it again. The status is 0 where none does. Needs nothing but Python.

With --alone the reading is compared with two facts: a stay is printed in one of its windows, and of a query with `bound yes` a stay of as many windows as
its path has levels is printed no later than in the last of so many. It needs no program."""

import io
import os
import random
import sys

import planned
import program
import random_plans

sys.path.insert(0, os.path.join(os.path.dirname(os.path.abspath(__file__)), '..', 'view'))
import stays  # noqa: E402


def words(seed, folder):
    names = random_plans.write(folder, random_plans.files(random.Random(seed)))
    return 'detect', names['queries'], names['plan'], names['capture']


def case(executable, seed, folder):
    """The status, None where the program answers otherwise."""
    return [random_plans.differs(executable, *words(seed, folder))]


def is_in_time(query, stay):
    """Whether a stay was printed in one of its windows or never, and within the bound where there is one."""
    if stay.printed is not None and not stay.first <= stay.printed <= stay.last:
        return False
    due = query.bound and stay.last - stay.first + 1 >= query.levels
    return not due or stay.printed is not None and stay.printed <= stay.first + query.levels - 1


def alone(seed, folder):
    status, text, _ = planned.answer(*words(seed, folder))
    queries = stays.read(io.StringIO(text.decode()))
    return [status if all(is_in_time(query, stay) for query in queries for stay in query.stays) else None]


if __name__ == '__main__':
    sys.exit(program.random_cases(__doc__, case, alone, needs=('detect',)))
