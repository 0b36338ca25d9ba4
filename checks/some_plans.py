#!/usr/bin/env python3
"""Compares view/some_plan.py with `sonata plan` on small random query files, switches and captures: the plan that the integer program finds must fit, and
send just as many items as the plan that the search finds. Needs scipy, and the distribution's own /usr/bin/python3. The status is 0 where all do."""

import os
import random
import sys

import program
import random_certificates
import random_plans

sys.path.insert(0, os.path.join(os.path.dirname(os.path.abspath(__file__)), '..', 'view'))
import programs  # noqa: E402
import some_plan  # noqa: E402


def case(executable, seed, folder):
    draw = random.Random(seed)
    names = random_plans.write(folder, random_certificates.files(draw))
    three = names['switch'], names['queries'], names['plan']
    status, text, _ = program.ran(executable, 'plan', *three)
    if status:
        return [status]
    _, sends, _ = some_plan.planned(executable, three, 60)
    cost = int(text.decode().split('\ncost ')[1].split(';')[0])
    if sends != cost:
        print('  seed %d: plan costs %d, some_plan.py sends %d' % (seed, cost, sends))
    assert programs.searched(executable, *three, 100000)[1] == cost
    return [0 if sends == cost else None]


if __name__ == '__main__':
    sys.exit(program.random_cases(__doc__, case, cases=200, needs=('plan', 'run', 'emit')))
