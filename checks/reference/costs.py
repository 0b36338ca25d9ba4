"""What each piece emits on a training capture, and the space of plans: choices, bounds, trees."""

import heapq
import itertools
from dataclasses import dataclass, field

from . import pipes, plans, split


def paths(query):
    """The paths of a query in order: path number m has level i of all but the last where bit i of m is set, and always the last."""
    levels = plans.levels_of(query)
    return [[level for i, level in enumerate(levels[:-1]) if m >> i & 1] + levels[-1:] for m in range(1 << len(levels) - 1)]


def options(switch, query, branch):
    """The cuts with the sizes of their stateful operators, in order."""
    operators = query.branches[branch]
    found = []
    for cut in range(pipes.max_cut(operators) + 1):
        stateful = sum(op.kind in ('distinct', 'reduce') for op in operators[:cut])
        found += [(cut, list(sizes)) for sizes in itertools.product(switch.slots, repeat=stateful)]
    return found


@dataclass
class Seen:
    """A window at the last level of a front of a path: the tuples that pass its table, how many prefixes are installed in it, and the rows."""
    passing: list
    installed: int
    rows: list


class Costs:
    """The entries of a cost table, worked out where they are asked for."""

    def __init__(self, queries, switch, windows):
        self.queries, self.switch, self.windows = queries, switch, windows
        self.known_fronts, self.counts, self.known = {}, {}, {}

    def options(self, query, branch):
        """The options of a branch of one of the queries, worked out once."""
        key = id(query), branch
        if key not in self.known:
            self.known[key] = options(self.switch, query, branch)
        return self.known[key]

    def seen(self, q, front):
        """For each window what is seen of it at the last level of a front of a path."""
        if (q, front) not in self.known_fronts:
            self.known_fronts[(q, front)] = [self.seen_of(q, front, place) for place in range(len(self.windows))]
        return self.known_fronts[(q, front)]

    def seen_of(self, q, front, place):
        query, (number, tuples) = self.queries[q], self.windows[place]
        if len(front) == 1:
            return Seen(tuples, 0, split.answers.rows_at(query, front[-1], [t for _, t in tuples]))
        follows = place > 0 and self.windows[place - 1][0] + 1 == number
        prefixes = split.column_of(query, self.seen(q, front[:-1])[place - 1].rows) if follows else set()
        kept = [(n, t) for n, t in tuples if split.keeps(query, front[-2], prefixes, t)]
        rows = split.answers.rows_at(query, front[-1], [t for _, t in kept])
        return Seen(tuples, 0, rows) if split.is_open(self.switch.entries, prefixes) else Seen(kept, len(prefixes), rows)

    def entry(self, q, front, branch, option):
        key = q, front, branch, option[0], tuple(option[1])
        if key not in self.counts:
            total = 0
            for seen in self.seen(q, front):
                sent, read = pipes.items(self.queries[q], branch, front[-1], seen.passing, option[0], self.switch.chain, option[1])
                total += len(sent) + len(read) + self.switch.weight * seen.installed
            self.counts[key] = total
        return self.counts[key]

    def least(self, q, front, branch):
        return min(self.entry(q, front, branch, option) for option in self.options(self.queries[q], branch))


@dataclass
class Chosen:
    """A piece on the way: its place, and its option and stages so far."""
    front: tuple
    level: int
    branch: int
    option: tuple = None
    stages: list = field(default_factory=list)


class Partial:
    """A partial plan: what its choices say, and what may follow."""

    def __init__(self, costs, choices):
        self.costs, self.choices = costs, list(choices)
        self.paths, self.pieces = [], []
        self.follow = None
        self.read()

    def read(self):
        rest = iter(self.choices)
        try:
            for q, query in enumerate(self.costs.queries):
                self.follow = 0, len(paths(query))
                path = paths(query)[next(rest)]
                self.paths.append(path)
                pieces = [Chosen(tuple(path[:j + 1]), level, b) for j, level in enumerate(path) for b in range(len(query.branches))]
                self.pieces += [(q, piece) for piece in pieces]
                for piece in pieces:
                    self.read_piece(query, piece, rest)
            self.follow = None
        except StopIteration:
            pass

    def read_piece(self, query, piece, rest):
        switch, found = self.costs.switch, self.costs.options(query, piece.branch)
        self.follow = 0, len(found)
        piece.option = found[next(rest)]
        for _ in range(self.tables(query, piece)[1]):
            least = self.least_stage(query, piece)
            self.follow = least, max(0, switch.stages - least)
            piece.stages.append(next(rest))

    def entry_piece(self, piece):
        return plans.Entry('', list(piece.front)), plans.Piece(piece.level, piece.branch, piece.option[0], piece.option[1], piece.stages)

    def tables(self, query, piece):
        return plans.tables(self.costs.switch, query, *self.entry_piece(piece))

    def least_stage(self, query, piece):
        """The least stage of the next register of a piece."""
        least = 0
        for table in self.tables(query, piece)[0]:
            if table is None:
                least += 1
            elif table == len(piece.stages):
                return least
            else:
                least = piece.stages[table] + 1

    def is_complete(self):
        return self.follow is None

    def children(self):
        first, count = self.follow
        return [Partial(self.costs, self.choices + [first + i]) for i in range(count)]

    def lower(self):
        costs, total = self.costs, 0
        for q, piece in self.pieces:
            total += costs.entry(q, piece.front, piece.branch, piece.option) if piece.option else costs.least(q, piece.front, piece.branch)
        for q in range(len(self.paths), len(costs.queries)):
            query = costs.queries[q]
            total += min(sum(costs.least(q, tuple(path[:j + 1]), b) for j in range(len(path)) for b in range(len(query.branches))) for path in paths(query))
        return total

    def is_past_end(self, query, piece):
        tables, registers = self.tables(query, piece)
        if len(piece.stages) < registers:
            return False
        if not registers:
            return len(tables) > self.costs.switch.stages
        later = len(tables) - 1 - tables.index(registers - 1)
        return piece.stages[-1] + later > self.costs.switch.stages - 1

    def broken_limit(self):
        """The first limit of the switch that the partial plan breaks, where, and what was found there; none where all are kept."""
        switch, registers, metadata = self.costs.switch, [], 0
        for q, piece in self.pieces:
            if piece.option is None:
                continue
            query = self.costs.queries[q]
            if self.is_past_end(query, piece):
                return 'stages', (query, piece), None
            whole = plans.Piece(piece.level, piece.branch, piece.option[0], piece.option[1], piece.stages + [-1] * 8)
            registers += [one for one in plans.registers_of(switch, query, whole) if one[0] >= 0]
            metadata += plans.metadata_of(query, whole)
        for stage in range(switch.stages):
            here = [bits for other, bits in registers if other == stage]
            if len(here) > switch.actions:
                return 'actions', stage, len(here)
            if sum(here) > switch.bits:
                return 'bits', stage, sum(here)
        return ('meta', None, metadata) if metadata > switch.meta else None

    def is_broken(self):
        return self.broken_limit() is not None

    def plan(self):
        """The entries of a complete list."""
        entries = [plans.Entry(query.name, path) for query, path in zip(self.costs.queries, self.paths)]
        for q, piece in self.pieces:
            entries[q].pieces.append(self.entry_piece(piece)[1])
        return entries


def choices_of(costs, entries):
    """The complete list of a plan that fits."""
    found = []
    for query, entry in zip(costs.queries, entries):
        found.append(paths(query).index(entry.path))
        for piece in entry.pieces:
            found += [options(costs.switch, query, piece.branch).index((piece.cut, piece.sizes)), *piece.stages]
    return found


class Budget(Exception):
    """More nodes were to be expanded than may be: the bound of the next one."""


def best(costs, most):
    """The first plan of least cost, as a partial plan. At most so many partial plans are expanded."""
    start = Partial(costs, [])
    waiting, expanded = [(start.lower(), start.choices, start)], 0
    while waiting:
        bound, _, partial = heapq.heappop(waiting)
        if partial.is_complete():
            return partial
        if expanded == most:
            raise Budget(bound)
        expanded += 1
        for child in partial.children():
            if not child.is_broken():
                heapq.heappush(waiting, (child.lower(), child.choices, child))
    raise AssertionError('a space has a plan')


def all_plans(costs):
    """All complete lists that aren't broken, in order."""
    waiting = [Partial(costs, [])]
    while waiting:
        partial = waiting.pop()
        if partial.is_broken():
            continue
        if partial.is_complete():
            yield partial
        else:
            waiting += reversed(partial.children())


def tree(costs, plan):
    """The nodes of the tree of a plan, each its letter and number."""
    cost, waiting, found = plan.lower(), [Partial(costs, [])], []
    while waiting:
        partial = waiting.pop()
        bound = partial.lower()
        if partial.is_broken():
            found.append(('X', None))
        elif partial.choices == plan.choices:
            found.append(('P', cost))
        elif not partial.is_complete() and (bound, partial.choices) < (cost, plan.choices):
            found.append(('E', bound))
            waiting += reversed(partial.children())
        else:
            found.append(('B', bound))
    return found


class Untrue(Exception):
    """The first fault of a tree: its kind, the node and two numbers."""


def check_tree(costs, plan, number, nodes):
    cost = plan.lower()
    if number != cost:
        raise Untrue('Cost', 0, cost, number)
    waiting, at = [Partial(costs, [])], 0
    while waiting:
        partial = waiting.pop()
        if at == len(nodes):
            raise Untrue('Shape', at, 0, 0)
        letter, given = nodes[at]
        if letter == 'E' and partial.is_complete() or letter == 'P' and partial.choices != plan.choices:
            raise Untrue('Shape', at, 0, 0)
        if letter != 'X' and given != partial.lower():
            raise Untrue('Bound', at, partial.lower(), given)
        if letter == 'B' and given < cost:
            raise Untrue('Bound', at, cost, given)
        if letter == 'X' and not partial.is_broken():
            raise Untrue('NotBroken', at, 0, 0)
        if letter == 'E':
            waiting += reversed(partial.children())
        at += 1
    if at < len(nodes):
        raise Untrue('Shape', at, 0, 0)
    if not any(letter == 'P' for letter, _ in nodes):
        raise Untrue('NoPlan', len(nodes), 0, 0)


# ---- texts

def certificate(costs, plan):
    """The text of `plan`."""
    nodes = [letter if number is None else '%s %d' % (letter, number) for letter, number in tree(costs, plan)]
    return ('\n'.join(plans.lines(plan.plan()) + ['cost %d;' % plan.lower(), 'tree'] + nodes + ['done']) + '\n').encode()


class TreeReader(plans.PlanReader):
    """Reads on after a plan."""

    def node(self):
        letter = self.step().value
        return letter, None if letter == 'X' else self.number()

    def tree(self):
        self.keyword('cost')
        cost = self.number()
        self.symbol(';')
        self.keyword('tree')
        nodes = []
        while any(self.is_keyword(letter) for letter in 'EBXP'):
            nodes.append(self.node())
        self.keyword('done')
        if self.now.kind != 'end':
            self.fault('Expected')
        return cost, nodes
