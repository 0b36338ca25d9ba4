#!/usr/bin/env python3
"""Compares what `sonata check` says of plans with prices with the slow reference of planned.py, on small random query files, switches and captures: random
plans that fit, random prices, what they show and a little less or more, and spoilt texts. Where the program takes `plan --prices`, the reference judges
what it writes too. Prints each case on which they differ, with the seed that makes it again. The status is 0 where none does. Needs nothing but Python.

With --alone the reference is compared with itself: what prices show isn't above the cost of any plan of the space."""

import functools
import itertools
import random
import sys

import planned
import program
import random_certificates
import random_plans
import random_queries
from reference import costs, plans, prices

PLANS = 400


def drawn_limit(draw, switch):
    if draw.random() < 0.25:
        return prices.Limit(None, 1, 0, draw.choice([1, 1, 7, switch.meta + 1, prices.WIDE]), draw.choice([0, 1, 5, 100]))
    first = draw.randrange(0, switch.stages + 1)
    last = draw.choice([first, min(31, first + 1), 31])
    times, plus, divisor = draw.choice([(0, 1, 1), (0, 1, 1), (1, 0, 1), (1, 0, switch.bits // 2 + 1), (1, draw.randrange(100), draw.choice([1, 50, 300])),
                                        (draw.randrange(4), draw.randrange(1 << 32), draw.randrange(1, 1 << 32)), (prices.WIDE, prices.WIDE, 1)])
    return prices.Limit((first, last), times, plus, min(divisor, prices.WIDE), draw.choice([0, 1, 1, 2, 3, 10, 1000, prices.WIDE]))


def drawn_prices(draw, table, plan):
    """A cost and prices for a plan, mostly with the number that they show or one near it."""
    limits = [drawn_limit(draw, table.switch) for _ in range(draw.choice([0, 1, 1, 2, 3, 5]))]
    shown = prices.Shown(plan.lower(), draw.choice([1, 1, 1, 2, 10, 65536, prices.WIDE]), 0, limits)
    most = prices.least(table, shown)
    shown.least = max(0, draw.choice([most, most, most - 1, most + 1, 0, 2 ** 64 - 1]))
    shown.cost = max(0, shown.cost + draw.choice([0, 0, 0, 0, 1, -1]))
    return shown


def spoilt(draw, text):
    """A text with a line, a word or a byte changed, or cut."""
    form = draw.randrange(7)
    if form == 0:
        return text[:draw.randrange(len(text))]
    if form == 1:
        place = draw.randrange(len(text))
        return text[:place] + bytes([draw.randrange(256)]) + text[place + 1:]
    found = text.decode().split('\n')
    place = draw.randrange(len(found))
    if form == 2:
        found.pop(place)
    elif form == 3:
        found.insert(place, found[place])
    elif form == 4:
        found[place] = random_queries.spoilt(draw, found[place])
    elif form == 5:
        numbers = [n for n, word in enumerate(found[place].split(' ')) if word.rstrip(',;').isdigit()]
        if numbers:
            said, at = found[place].split(' '), draw.choice(numbers)
            end = said[at][len(said[at].rstrip(',;')):]
            said[at] = draw.choice(['0', '1', '31', '32', '4294967295', '4294967296', '18446744073709551615', '18446744073709551616', 'x']) + end
            found[place] = ' '.join(said)
    else:
        limits = [line for line in found if line.startswith('limit')] or ['limit meta divisor 1 price 0;']
        found[place:place] = [limits[0]] * draw.choice([1, 63, 64, 65])
    return '\n'.join(found).encode()


def table_of(names):
    """The costs of a case, or None where its files are refused."""
    try:
        window, queries = planned.read_queries(names['queries'])
        return planned.trained(window, queries, planned.read_switch(names['switch']), names['plan'])
    except planned.Refused:
        return None


def held_text(draw, table):
    every = list(itertools.islice(costs.all_plans(table), PLANS))
    plan = draw.choice(every)
    text = ('\n'.join(plans.lines(plan.plan()) + prices.lines(drawn_prices(draw, table, plan))) + '\n').encode()
    return text if draw.random() < 0.5 else spoilt(draw, text)


@functools.lru_cache(None)
def takes_prices(executable):
    """Whether the program takes `plan --prices`."""
    return program.answers_words(executable, 'plan', *['no such file'] * 3, '--prices')


def planned_by_prices(executable, names, table, folder):
    """0 where the reference says yes of what `plan --prices` writes, whose number isn't above the cost of the least plan; None otherwise, which is told."""
    three = names['switch'], names['queries'], names['plan']
    status, text, line = program.ran(executable, 'plan', *three, '--prices')
    random_plans.write(folder, {'reports': text})
    verdict = planned.answer('check', *three, names['reports'])
    if status == 0 and verdict[0] == 0:
        least = costs.best(table, 1000000).lower()
        shown = prices.parse(text)
        if shown.least <= least <= shown.cost:
            return 0
    print('  plan --prices: status %d, %r; check should say %s' % (status, line, program.shown(verdict)))
    return None


def case(executable, seed, folder):
    draw = random.Random(seed)
    names = random_plans.write(folder, random_certificates.files(draw))
    three, table = (names['switch'], names['queries'], names['plan']), table_of(names)
    random_plans.write(folder, {'reports': b'plan' if table is None else held_text(draw, table)})
    found = [random_plans.differs(executable, 'check', *three, names['reports'])]
    if table is not None and takes_prices(executable):
        found.append(planned_by_prices(executable, names, table, folder))
    return found


def alone(seed, folder):
    draw = random.Random(seed)
    names = random_plans.write(folder, random_certificates.files(draw))
    table = table_of(names)
    if table is None:
        return [9]
    every = list(itertools.islice(costs.all_plans(table), 4000))
    shown = drawn_prices(draw, table, draw.choice(every))
    return [0 if prices.least(table, shown) <= min(plan.lower() for plan in every) else None]


if __name__ == '__main__':
    sys.exit(program.random_cases(__doc__, case, alone))
