#!/usr/bin/env python3
"""Compares what `sonata live` answers by twenty schedules each, on small random query files, switches and captures: all must be the text of planned.py.
With --trace the lines of events are those of planned.py too, and without them the text is the same.

Prints each case on which they differ, with the seed that makes it again. The status is 0 where none does. Needs nothing but Python."""

import random
import sys

import planned
import program
import random_certificates
import random_plans

SCHEDULES = 20


def without_events(text):
    return b''.join(line for line in text.splitlines(True) if not line.startswith(b'event '))


def case(executable, seed, folder):
    draw = random.Random(seed)
    names = random_plans.write(folder, random_certificates.files(draw))
    words = 'live', names['switch'], names['queries'], names['plan'], names['capture']
    wanted = planned.answer(*words)
    found = []
    for number in [0, 1, 4294967295] + [draw.randrange(1 << 32) for _ in range(SCHEDULES - 3)]:
        found.append(program.alike(executable, wanted, *words, '--schedule', str(number)))
    told = *words, '--trace', '--schedule', str(draw.randrange(1 << 32))
    traced = planned.answer(*told)
    if (traced[0], without_events(traced[1]), traced[2]) != wanted:
        found.append(None)
    return sorted(set(found + [program.alike(executable, traced, *told)]), key=str)


if __name__ == '__main__':
    sys.exit(program.random_cases(__doc__, case, cases=500, needs=('live --schedule',)))
