#!/usr/bin/env python3
"""Compares `sonata plan`, `check` and `live` with the slow reference of planned.py on small random query files, switches and captures: plans, costs, trees,
budgets, spoilt certificates, and trees that cover the plans in another way than the search's. Prints each case on which they differ, with the seed that
makes it again. The status is 0 where none does. A command that the program hasn't is left out. Needs nothing but Python.

With --alone the reference is compared with itself: its search with all plans of the space, one after another, and its checker with its own trees."""

import functools
import itertools
import random
import sys

import planned
import program
import random_plans
import random_queries
from reference import costs, plans


def small(draw):
    """A query text whose space of plans is small: at most two branches in all, and two levels a query."""
    while True:
        text, queries = random_plans.typed(draw)
        if all(len(query.levels) <= 2 for query in queries) and sum(len(query.branches) for query in queries) <= 2:
            return text


def switch_text(draw):
    text = 'stages %d; actions %d; bits %d; meta %d; chain %d; slots %s;' % (
        draw.choice([2, 3, 4]), draw.choice([1, 2, 8]), draw.choice([41, 200, 4294967296]), draw.choice([40, 100, 65535]), draw.choice([1, 1, 2]),
        ', '.join(map(str, sorted(draw.sample([1, 2, 8], draw.choice([1, 1, 2]))))))
    return ' '.join([text, *random_plans.membership(draw)]) + '\n'


def files(draw):
    """The bytes of each file of a case. The training capture stands in the place of the plan."""
    return {'switch': switch_text(draw).encode(), 'queries': small(draw).encode(), 'plan': random_plans.capture(draw), 'capture': random_plans.capture(draw)}


def spoilt(draw, certificate):
    """A certificate with a node, a number or a line changed, or none."""
    lines = certificate.decode().split('\n')
    place = draw.randrange(len(lines))
    form = draw.randrange(6)
    if form == 0:
        lines.pop(place)
    elif form == 1:
        lines.insert(place, lines[place])
    elif form == 2:
        lines[place] = random_queries.spoilt(draw, lines[place])
    elif form == 3:
        lines[place] = draw.choice(['E 0', 'B 3', 'X', 'P 1', 'done', ''])
    elif form == 4:
        numbers = [n for n, line in enumerate(lines) if line[:2] in ('E ', 'B ', 'P ')]
        if numbers:
            at = draw.choice(numbers)
            letter, number = lines[at].split(' ')
            lines[at] = '%s %d' % (draw.choice([letter, letter, 'E', 'B']), max(0, int(number) + draw.choice([-1, 0, 1])))
    return '\n'.join(lines).encode()


def other_tree(draw, table, plan):
    """The nodes of another tree that covers the plans: where more than one letter is right for a partial plan, one of them is drawn."""
    cost, waiting, found = plan.lower(), [costs.Partial(table, [])], []
    while waiting:
        partial = waiting.pop()
        bound, broken = partial.lower(), partial.is_broken()
        if partial.choices == plan.choices and not broken:
            found.append(('P', cost))
            continue
        is_way = partial.choices == plan.choices[:len(partial.choices)]
        lawful = ['X'] * broken + ['B'] * (bound >= cost and not is_way) + ['E'] * (not partial.is_complete() and len(found) < 3000)
        letter = draw.choice(lawful or ['B'])
        found.append((letter, None if letter == 'X' else bound))
        if letter == 'E':
            waiting += reversed(partial.children())
    return found


def other_certificate(draw, names):
    """What another search might have printed: another plan that fits, mostly of least cost, or another tree for it. None where there is no plan."""
    window, queries = planned.read_queries(names['queries'])
    try:
        table = planned.trained(window, queries, planned.read_switch(names['switch']), names['plan'])
    except planned.Refused:
        return None
    every = list(itertools.islice(costs.all_plans(table), 400))
    least = min(one.lower() for one in every)
    plan = draw.choice([one for one in every if one.lower() == least] if draw.random() < 0.8 else every)
    nodes = [letter if number is None else '%s %d' % (letter, number) for letter, number in other_tree(draw, table, plan)]
    return ('\n'.join(plans.lines(plan.plan()) + ['cost %d;' % plan.lower(), 'tree'] + nodes + ['done']) + '\n').encode()


built = functools.lru_cache(None)(program.built)


def case(executable, seed, folder):
    draw = random.Random(seed)
    names = random_plans.write(folder, files(draw))
    three = names['switch'], names['queries'], names['plan']
    nodes = () if draw.random() < 0.6 else ('--nodes', str(draw.choice([1, 2, 5, 20])))
    _, certificate, _ = planned.answer('plan', *three)
    held = draw.choice([lambda: certificate, lambda: spoilt(draw, certificate or b'plan'), lambda: spoilt(draw, certificate or b'plan'),
                        lambda: other_certificate(draw, names)])()
    random_plans.write(folder, {'reports': held or b''})
    asked = [('plan', *three, *nodes), ('live', *three, names['capture'], *nodes), ('check', *three, names['reports'])]
    return [random_plans.differs(executable, *words) for words in asked if words[0] in built(executable)]


def alone(seed, folder):
    draw = random.Random(seed)
    names = random_plans.write(folder, files(draw))
    window, queries = planned.read_queries(names['queries'])
    try:
        table = planned.trained(window, queries, planned.read_switch(names['switch']), names['plan'])
    except planned.Refused as refused:
        return [refused.answer[0]]
    plan = costs.best(table, 100000)
    every = [(one.lower(), one.choices) for one in costs.all_plans(table)]
    nodes = costs.tree(table, plan)
    costs.check_tree(table, plan, plan.lower(), nodes)
    plans.check_fits(queries, table.switch, plan.plan())
    expanded = sum(letter == 'E' for letter, _ in nodes)
    try:
        costs.best(table, expanded - 1)
        exact = False
    except costs.Budget:
        exact = costs.best(table, expanded).choices == plan.choices
    same = min(every) == (plan.lower(), plan.choices) and every == sorted(every, key=lambda one: one[1])
    return [0 if same and (exact or expanded == 0) and costs.choices_of(table, plan.plan()) == plan.choices else None]


if __name__ == '__main__':
    sys.exit(program.random_cases(__doc__, case, alone))
