#!/usr/bin/env python3
"""Compares what `sonata replan` answers on small random query files, switches and captures with planned.py, some with few nodes for the search. Prints each case on
which they differ, with the seed that makes it again. The status is 0 where none does. Needs nothing but Python."""

import random
import sys

import planned
import program
import random_certificates
import random_plans


def case(executable, seed, folder):
    draw = random.Random(seed)
    names = random_plans.write(folder, random_certificates.files(draw))
    words = ['replan', names['switch'], names['queries'], names['plan'], names['capture'], str(draw.choice([0, 0, 1, 2, 3, 5, 20]))]
    if draw.random() < 0.2:
        words += ['--nodes', str(draw.choice([1, 3, 10, 50]))]
    return [program.alike(executable, planned.answer(*words), *words)]


if __name__ == '__main__':
    sys.exit(program.random_cases(__doc__, case, cases=500, needs=('replan',)))
