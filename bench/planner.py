"""Plans that fit a switch, from the table of what each piece costs, by a search of its own: for the ways to plan that `sonata plan` has no word for, and for
queries for which its search doesn't end.

A plan is kept with the stages of its registers. In turn some queries lose their pieces, and get a path and options again, a piece at the earliest stages that
have room; a plan that costs more is kept now and then, and ever more seldom. So what is found fits, and nothing says that no plan costs less. A slow
machine finds the same plan: the search ends after a number of turns and not after a time."""

import dataclasses
import math
import os
import random
import sys

sys.path.insert(0, os.path.join(os.path.dirname(os.path.abspath(__file__)), '..', 'view'))
from texts import costs, plans  # noqa: E402

WAYS = ['All-SP', 'Filter-DP', 'Max-DP', 'Fix-REF', 'Sonata']


@dataclasses.dataclass(frozen=True)
class Option:
    """A cut of a piece with the sizes before it: what it costs, the bits of its registers, how many tables without state stand before each of them and after the
    last, and its metadata."""
    cut: int
    sizes: tuple
    cost: int
    registers: tuple
    gaps: tuple
    metadata: int

    def beats(self, other):
        """Whether it is at most as large in everything."""
        return (self.cost <= other.cost and self.metadata <= other.metadata and len(self.registers) <= len(other.registers)
                and sum(self.gaps) + len(self.registers) <= sum(other.gaps) + len(other.registers)
                and all(mine <= theirs for mine, theirs in zip(self.registers, other.registers))
                and all(mine <= theirs for mine, theirs in zip(self.starts(), other.starts())))

    def starts(self):
        """The earliest stage of each register, and after them the first stage that is free after all tables."""
        found, at = [], 0
        for gap in self.gaps:
            found.append(at + gap)
            at += gap + 1
        return found


def option_of(switch, query, front, branch, cut, sizes, cost):
    """An option with what it takes of the switch."""
    piece = plans.Piece(front[-1], branch, cut, list(sizes))
    entry = plans.Entry(query.name, list(front))
    tables, registers = plans.tables(switch, query, entry, piece)
    gaps = [0]
    for table in tables:
        if table is None:
            gaps[-1] += 1
        else:
            gaps.append(0)
    piece.stages = [0] * registers
    bits = tuple(bits for _, bits in plans.registers_of(switch, query, piece))
    return Option(cut, tuple(sizes), cost, bits, tuple(gaps), plans.metadata_of(query, piece))


def filters_ahead(query, branch):
    """How many filters a branch begins with."""
    kinds = [operator.kind for operator in query.branches[branch]]
    return next((place for place, kind in enumerate(kinds) if kind != 'filter'), len(kinds))


def paths_of(query, way):
    """The paths that a way to plan has for a query."""
    known = [tuple(path) for path in costs.paths(query)]
    if way == 'Sonata':
        return known
    return [max(known, key=len)] if way == 'Fix-REF' else [min(known, key=len)]


def has_cut(query, branch, cut, way):
    """Whether a way to plan may cut a branch here."""
    if way == 'All-SP':
        return cut == 0
    return way != 'Filter-DP' or cut == filters_ahead(query, branch)


def fits_alone(switch, option):
    """Whether the switch has room for a piece alone."""
    return len(option.registers) + sum(option.gaps) <= switch.stages and option.metadata <= switch.meta and all(bits <= switch.bits for bits in option.registers)


def useful(options):
    """The options that no other beats, the cheapest first. Of equal ones the one with the largest registers stays: in another capture it has room for more."""
    ordered = sorted(options, key=lambda option: (option.cost, len(option.registers), sum(option.registers), option.metadata))
    kept = []
    for option in ordered:
        if not any(other.beats(option) for other in kept):
            kept.append(option)
    return kept


class Space:
    """The plans of queries on a switch that a way to plan may take."""

    def __init__(self, switch, queries, table, way):
        """The table has what a piece costs by the query's number, the levels of its path up to it, its branch, its cut and its sizes."""
        self.switch, self.queries = switch, queries
        self.paths = [paths_of(query, way) for query in queries]
        self.options, self.known = {}, {}
        for (q, front, branch, cut, sizes), cost in table.items():
            if any(path[:len(front)] == front for path in self.paths[q]) and has_cut(queries[q], branch, cut, way):
                option = option_of(switch, queries[q], front, branch, cut, sizes, cost)
                if fits_alone(switch, option) or not cut:
                    self.options.setdefault((q, front, branch), []).append(option)
        self.options = {lane: useful(some) for lane, some in self.options.items()}

    def lanes(self, q, path):
        """The pieces of a query along a path: its number, the levels up to the piece, and the branch."""
        if (q, path) not in self.known:
            self.known[q, path] = [(q, path[:length], branch) for length in range(1, len(path) + 1) for branch in range(len(self.queries[q].branches))]
        return self.known[q, path]


class Load:
    """What stands in the stages of a switch."""

    def __init__(self, switch):
        self.switch = switch
        self.counts, self.bits, self.metadata = [0] * switch.stages, [0] * switch.stages, 0

    def stages_for(self, option):
        """The earliest stages that have room for an option's registers in order, or None."""
        if self.metadata + option.metadata > self.switch.meta:
            return None
        counts, room, actions, last = self.counts, self.bits, self.switch.actions, self.switch.stages
        found, at = [], 0
        for bits, gap in zip(option.registers, option.gaps):
            at += gap
            most = self.switch.bits - bits
            while at < last and (counts[at] >= actions or room[at] > most):
                at += 1
            if at >= last:
                return None
            found.append(at)
            at += 1
        return found if at + option.gaps[-1] <= last else None

    def add(self, option, stages, sign=1):
        for bits, stage in zip(option.registers, stages):
            self.counts[stage] += sign
            self.bits[stage] += sign * bits
        self.metadata += sign * option.metadata

    def remove(self, option, stages):
        self.add(option, stages, -1)


class Search:
    """A plan, and the way to a better one."""

    def __init__(self, space, seed=1):
        self.space, self.draw = space, random.Random(seed)
        self.load, self.paths, self.placed = Load(space.switch), [None] * len(space.queries), {}
        self.fees = self.fees_of_switch()

    def fees_of_switch(self):
        """What a register, a bit of one and a bit of metadata count beside the cost where an option is chosen, as shares of the switch."""
        switch = self.space.switch
        return 1 / (switch.stages * switch.actions), 1 / (switch.stages * switch.bits), 1 / switch.meta

    def share(self, option):
        """The share of the switch that an option takes."""
        register, bit, metadata = self.fees
        return len(option.registers) * register + sum(option.registers) * bit + option.metadata * metadata

    def cost(self):
        return sum(option.cost for option, _ in self.placed.values())

    def take_out(self, q):
        """Takes a query's pieces out, and gives what brings them back."""
        path, gone = self.paths[q], {}
        for lane in self.space.lanes(q, path) if path else []:
            gone[lane] = self.placed.pop(lane)
            self.load.remove(*gone[lane])
        self.paths[q] = None
        return path, gone

    def bring_back(self, q, path, gone):
        self.take_out(q)
        self.paths[q] = path
        self.placed.update(gone)
        for option, stages in gone.values():
            self.load.add(option, stages)

    def put_piece(self, lane, price):
        """Puts the option of a piece in that costs least, with a price for its share of the switch. Whether one fits."""
        for option in sorted(self.space.options[lane], key=lambda option: option.cost + price * self.share(option)):
            stages = self.load.stages_for(option)
            if stages is not None:
                self.load.add(option, stages)
                self.placed[lane] = option, stages
                return True
        return False

    def put_along(self, q, path, price):
        """Puts the pieces of a query along a path in. Whether they fit."""
        self.paths[q] = path
        lanes = list(self.space.lanes(q, path))
        self.draw.shuffle(lanes)
        for lane in lanes:
            if not self.put_piece(lane, price):
                return False
        return True

    def withdraw(self, q):
        """Takes a query's pieces out that were put in so far."""
        for lane in [lane for lane in self.placed if lane[0] == q]:
            self.load.remove(*self.placed.pop(lane))
        self.paths[q] = None

    def put_best(self, q, price):
        """Puts a query in along the path that comes cheapest, with a price for shares of the switch. Whether one fits."""
        best = None
        for path in self.space.paths[q]:
            if self.put_along(q, path, price):
                found = {lane: self.placed[lane] for lane in self.space.lanes(q, path)}
                value = sum(option.cost + price * self.share(option) for option, _ in found.values())
                if best is None or value < best[0]:
                    best = value, path, found
            self.withdraw(q)
        if best is None:
            return False
        self.bring_back(q, best[1], best[2])
        return True

    def start(self):
        """A first plan: the best of several, each with another price for shares of the switch."""
        best = None
        for exponent in range(0, 15):
            for q in range(len(self.space.queries)):
                self.withdraw(q)
            if all(self.put_best(q, 4.0 ** exponent) for q in range(len(self.space.queries))):
                best = min([best, self.held()] if best else [self.held()], key=lambda one: one[0])
        if best is None:
            sys.exit('no plan fits the switch')
        self.restore(best)

    def held(self):
        """The plan with its cost."""
        return self.cost(), list(self.paths), dict(self.placed)

    def restore(self, held):
        for q in range(len(self.space.queries)):
            self.withdraw(q)
        _, paths, placed = held
        for q, path in enumerate(paths):
            self.bring_back(q, path, {lane: placed[lane] for lane in self.space.lanes(q, path)})

    def turn_queries(self, heat):
        """Some queries lose their pieces and get others. What undoes it, and whether they fit."""
        count = len(self.space.queries)
        some = self.draw.sample(range(count), min(count, self.draw.choice([1, 1, 2, 2, 3])))
        gone = {q: self.take_out(q) for q in some}
        price = math.exp(self.draw.uniform(0, math.log(64 * heat + 64)))
        self.draw.shuffle(some)
        fits = all(self.put_best(q, price * self.draw.choice([1, 1, 16])) for q in some)
        return lambda: self.undo_queries(gone), fits

    def undo_queries(self, gone):
        for q in gone:
            self.withdraw(q)
        for q, (path, pieces) in gone.items():
            self.bring_back(q, path, pieces)

    def put_any(self, lane):
        """Puts one of the cheaper options of a piece in, a drawn one. Whether one fits."""
        options = self.space.options[lane]
        first = min(len(options) - 1, int(self.draw.expovariate(0.4)))
        for option in options[first:]:
            stages = self.load.stages_for(option)
            if stages is not None:
                self.load.add(option, stages)
                self.placed[lane] = option, stages
                return True
        return False

    def turn_pieces(self):
        """Some pieces lose their stages and options and get others. What undoes it, and whether they fit."""
        lanes = self.draw.sample(list(self.placed), min(len(self.placed), self.draw.choice([1, 2, 2, 3, 4])))
        gone = {lane: self.placed.pop(lane) for lane in lanes}
        for option, stages in gone.values():
            self.load.remove(option, stages)
        fits = all(self.put_any(lane) for lane in lanes)
        return lambda: self.undo_pieces(gone), fits

    def undo_pieces(self, gone):
        for lane in gone:
            if lane in self.placed:
                self.load.remove(*self.placed[lane])
        for lane, (option, stages) in gone.items():
            self.load.add(option, stages)
            self.placed[lane] = option, stages

    def improve(self, turns):
        """The best plan of many turns."""
        best, now = self.held(), self.cost()
        for turn in range(turns):
            heat = 0.05 * best[0] * (1 - turn / turns) ** 2 + 0.01
            undo, fits = self.turn_queries(heat) if self.draw.random() < 0.15 else self.turn_pieces()
            cost = self.cost() if fits else math.inf
            if cost <= now or (fits and self.draw.random() < math.exp((now - cost) / heat)):
                now = cost
                if cost < best[0]:
                    best = self.held()
            else:
                undo()
        self.restore(best)

    def entries(self):
        """The plan's entries, as texts have them."""
        found = []
        for q, (query, path) in enumerate(zip(self.space.queries, self.paths)):
            entry = plans.Entry(query.name, list(path))
            for lane in self.space.lanes(q, path):
                option, stages = self.placed[lane]
                entry.pieces.append(plans.Piece(lane[1][-1], lane[2], option.cut, list(option.sizes), list(stages)))
            found.append(entry)
        return found


def cost_of(queries, table, entries):
    """What a plan costs by a table."""
    return sum(table[q, tuple(entry.path[:entry.path.index(piece.level) + 1]), piece.branch, piece.cut, tuple(piece.sizes)]
               for q, entry in enumerate(entries) for piece in entry.pieces)


def planned(switch, queries, table, way, turns, known=()):
    """A plan of a way, and its cost. Plans that are known and fit are where it may begin."""
    search = Search(Space(switch, queries, table, way))
    search.start()
    found = search.held()
    for entries in known:
        placed = held_of(search, entries)
        if placed is not None and placed[0] < found[0]:
            found = placed
    search.restore(found)
    search.improve(turns)
    entries = search.entries()
    plans.check_fits(queries, switch, entries)
    return entries, search.cost()


def held_of(search, entries):
    """A plan's text as the search holds it, or None where one of its options was left out."""
    paths, placed = [], {}
    for q, entry in enumerate(entries):
        path = tuple(entry.path)
        paths.append(path)
        for lane, piece in zip(search.space.lanes(q, path), entry.pieces):
            same = [option for option in search.space.options.get(lane, ()) if option.cut == piece.cut and option.sizes == tuple(piece.sizes)]
            if not same:
                return None
            placed[lane] = same[0], list(piece.stages)
    return sum(option.cost for option, _ in placed.values()), paths, placed
