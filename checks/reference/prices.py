"""Prices on a switch's limits after a plan: their text, and what they show that no plan costs less than."""

import itertools
from dataclasses import dataclass, field

from . import costs, plans

WIDE = (1 << 32) - 1
# What a register larger than a stage pays, and a piece with a table past the last stage.
TOO_MUCH = 1 << 108
MOST_LIMITS = 64


@dataclass
class Limit:
    """A limit of stages, from the first to the last, or of metadata, where there are none."""
    stages: tuple
    times: int
    plus: int
    divisor: int
    price: int

    def is_at(self, stage):
        return self.stages is not None and self.stages[0] <= stage <= self.stages[1]

    def weight(self, bits, registers):
        return (self.times * bits + self.plus * registers) // self.divisor


@dataclass
class Shown:
    cost: int
    scale: int
    least: int
    limits: list = field(default_factory=list)


class PricesReader(plans.PlanReader):
    """Reads on after a plan."""

    def shown(self):
        self.keyword('cost')
        cost = self.number()
        self.symbol(';')
        self.keyword('prices')
        scale = self.number(1, WIDE)
        self.symbol(';')
        limits = []
        while self.is_keyword('limit') and len(limits) < MOST_LIMITS:
            limits.append(self.limit())
        self.keyword('least')
        least = self.number()
        self.symbol(';')
        self.keyword('done')
        if self.now.kind != 'end':
            self.fault('Expected')
        return Shown(cost, scale, least, limits)

    def limit(self):
        self.step()
        stages, times, plus = None, 1, 0
        if self.is_keyword('meta'):
            self.step()
        else:
            stages, times, plus = self.of_stages()
        self.keyword('divisor')
        divisor = self.number(1, WIDE)
        self.keyword('price')
        price = self.number(0, WIDE)
        self.symbol(';')
        return Limit(stages, times, plus, divisor, price)

    def of_stages(self):
        self.keyword('stages')
        first = self.number(0, 31)
        self.symbol(',')
        last = self.number(first, 31)
        if not self.is_keyword('bits'):
            return (first, last), 1, 0
        self.step()
        times = self.number(0, WIDE)
        self.keyword('plus')
        return (first, last), times, self.number(0, WIDE)


def stand_after(text):
    """Whether prices stand after the plan of a text, and no tree: the fourth token after it is the word `prices`."""
    reader = plans.PlanReader(text)
    reader.plan()
    try:
        for _ in range(3):
            reader.step()
    except StopIteration:
        return False
    return reader.is_keyword('prices')


def parse(text):
    """The cost, the prices and the number after a plan. Raises the first fault after the plan."""
    reader = PricesReader(text)
    reader.plan()
    return reader.shown()


def lines(shown):
    """The lines of the text of prices."""
    found = ['cost %d;' % shown.cost, 'prices %d;' % shown.scale]
    for limit in shown.limits:
        mixed = '' if (limit.times, limit.plus) == (1, 0) else ' bits %d plus %d' % (limit.times, limit.plus)
        where = 'meta' if limit.stages is None else 'stages %d, %d%s' % (*limit.stages, mixed)
        found.append('limit %s divisor %d price %d;' % (where, limit.divisor, limit.price))
    return found + ['least %d;' % shown.least, 'done']


# ---- what prices show

def worth(switch, limits):
    """What all limits of the switch are worth, in parts of an item."""
    total = 0
    for limit in limits:
        if limit.stages is None:
            total += limit.price * (switch.meta // limit.divisor)
        else:
            total += limit.price * limit.weight(switch.bits, switch.actions) * sum(limit.is_at(stage) for stage in range(switch.stages))
    return total


def register_pays(switch, limits, bits, stage):
    if bits > switch.bits:
        return TOO_MUCH
    return sum(limit.price * limit.weight(bits, 1) for limit in limits if limit.is_at(stage))


def stages_pay(switch, limits, tables, bits):
    """What the registers of tables pay at least, of all ways to give each table in order a later stage."""
    ways = itertools.combinations(range(switch.stages), len(tables))
    paid = (sum(register_pays(switch, limits, bits[table], stage) for table, stage in zip(tables, way) if table is not None) for way in ways)
    return min(paid, default=TOO_MUCH)


def option_pays(table, shown, q, front, branch, option):
    """What an option of a piece costs and pays at least, in parts of an item."""
    query, switch = table.queries[q], table.switch
    entry, piece = plans.Entry('', list(front)), plans.Piece(front[-1], branch, option[0], list(option[1]))
    tables, registers = plans.tables(switch, query, entry, piece)
    piece.stages = [0] * registers
    bits = [bits for _, bits in plans.registers_of(switch, query, piece)]
    metadata = sum(limit.price * (plans.metadata_of(query, piece) // limit.divisor) for limit in shown.limits if limit.stages is None)
    return shown.scale * table.entry(q, front, branch, option) + metadata + stages_pay(switch, shown.limits, tables, bits)


def piece_pays(table, shown, q, front, branch):
    return min(option_pays(table, shown, q, front, branch, option) for option in table.options(table.queries[q], branch))


def query_pays(table, shown, q):
    query = table.queries[q]
    return min(sum(piece_pays(table, shown, q, tuple(path[:j + 1]), branch) for j in range(len(path)) for branch in range(len(query.branches)))
               for path in costs.paths(query))


def least(table, shown):
    """What the prices show that no plan costs less than, in items."""
    parts = sum(query_pays(table, shown, q) for q in range(len(table.queries))) - worth(table.switch, shown.limits)
    return -(-max(0, parts) // shown.scale)


def check(table, plan, shown):
    """Raises the first fault of a cost and prices, as of a tree at its root."""
    if shown.cost != plan.lower():
        raise costs.Untrue('Cost', 0, plan.lower(), shown.cost)
    most = least(table, shown)
    if shown.least > most:
        raise costs.Untrue('Bound', 0, most, shown.least)
