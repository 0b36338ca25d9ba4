"""Plan texts, and whether a plan fits a switch."""

from dataclasses import dataclass, field

from . import pipes
from .grammar import Reader


@dataclass
class Piece:
    level: int
    branch: int
    cut: int
    sizes: list = field(default_factory=list)
    stages: list = field(default_factory=list)


@dataclass
class Entry:
    name: str
    path: list
    pieces: list = field(default_factory=list)


class Misfit(Exception):
    """The first check that a plan fails: its kind and two numbers."""


class PlanReader(Reader):
    def any_name(self):
        if self.now.kind != 'name' or len(self.now.value) > 32:
            self.fault('Expected')
        return self.step().value

    def numbers(self, least, most, limit):
        found = [self.number(least, most)]
        while self.is_symbol(',') and len(found) < limit:
            self.step()
            found.append(self.number(least, most))
        return found

    def piece(self):
        self.step()
        piece = Piece(self.number(0, 128), self.number(0, 1), 0)
        self.keyword('cut')
        piece.cut = self.number(0, 12)
        if self.is_keyword('slots'):
            self.step()
            piece.sizes = self.numbers(1, 65536, 2)
            self.keyword('stages')
            piece.stages = self.numbers(0, 31, 8)
        self.symbol(';')
        return piece

    def entry(self):
        self.keyword('query')
        name = self.any_name()
        self.keyword('path')
        entry = Entry(name, self.numbers(0, 128, 4))
        self.symbol(';')
        while self.is_keyword('piece') and len(entry.pieces) < 8:
            entry.pieces.append(self.piece())
        return entry

    def plan(self):
        self.keyword('plan')
        entries = [self.entry()]
        while not (self.now.kind == 'end' or self.is_keyword('cost')):
            if len(entries) == 8:
                self.fault('Expected')
            entries.append(self.entry())
        return entries


def parse(text):
    """The entries of a plan text, which ends at its end or before the word `cost`. Raises the text's first fault."""
    return PlanReader(text).plan()


def lines(entries):
    """The lines of a plan's text."""
    found = ['plan']
    for entry in entries:
        found.append('query %s path %s;' % (entry.name, ', '.join(map(str, entry.path))))
        for piece in entry.pieces:
            registers = ' slots %s stages %s' % (', '.join(map(str, piece.sizes)), ', '.join(map(str, piece.stages))) if piece.sizes else ''
            found.append('piece %d %d cut %d%s;' % (piece.level, piece.branch, piece.cut, registers))
    return found


# ---- what fits

def levels_of(query):
    return query.levels or [0]


def is_entry(query, entry):
    levels = levels_of(query)
    rising = all(a < b for a, b in zip(entry.path, entry.path[1:]))
    if entry.name != query.name or not rising or not set(entry.path) <= set(levels) or entry.path[-1] != levels[-1]:
        return False
    return [(p.level, p.branch) for p in entry.pieces] == [(level, b) for level in entry.path for b in range(len(query.branches))]


def check_paths(queries, entries):
    for number in range(max(len(queries), len(entries))):
        if number >= len(queries) or number >= len(entries) or not is_entry(queries[number], entries[number]):
            raise Misfit('Path', 0, number)


def pieces(queries, entries):
    """Each piece with its query and entry, in order: the lanes."""
    return [(query, entry, piece) for query, entry in zip(queries, entries) for piece in entry.pieces]


def check_cut(query, piece):
    most = pipes.max_cut(query.branches[piece.branch])
    if piece.cut > most:
        raise Misfit('Cut', most, piece.cut)


def tables(switch, query, entry, piece):
    """The tables of a piece in order: None without state, or the number of a register."""
    found = [None] if piece.level != entry.path[0] else []
    registers = 0
    for operator in query.branches[piece.branch][:piece.cut]:
        if operator.kind in ('distinct', 'reduce'):
            found += range(registers, registers + switch.chain)
            registers += switch.chain
        else:
            found.append(None)
    return found, registers


def check_places(switch, query, entry, piece):
    found, registers = tables(switch, query, entry, piece)
    if len(piece.stages) != registers:
        raise Misfit('Order', registers, len(piece.stages))
    least = 0
    for table in found:
        if table is None:
            least += 1
            continue
        if piece.stages[table] < least:
            raise Misfit('Order', least, piece.stages[table])
        least = piece.stages[table] + 1
    if least > switch.stages:
        raise Misfit('Stage', *((switch.stages - 1, least - 1) if registers else (switch.stages, least)))


def check_piece(switch, query, entry, piece):
    check_cut(query, piece)
    stateful = sum(op.kind in ('distinct', 'reduce') for op in query.branches[piece.branch][:piece.cut])
    if len(piece.sizes) != stateful:
        raise Misfit('Slots', stateful, len(piece.sizes))
    for size in piece.sizes:
        if size not in switch.slots:
            raise Misfit('Slots', 0, size)
    check_places(switch, query, entry, piece)


def registers_of(switch, query, piece):
    """The stage and bits of each register of a piece."""
    schemas, found, sizes, stages = pipes.schemas(query, piece.branch), [], list(piece.sizes), list(piece.stages)
    for number, operator in enumerate(query.branches[piece.branch][:piece.cut]):
        if operator.kind not in ('distinct', 'reduce'):
            continue
        width = dict((name, width) for name, width, _ in schemas[number])
        if operator.kind == 'distinct':
            bits = sum(width.values()) + 1
        else:
            value = operator.width if operator.fold == 'sum' else width[operator.value]
            bits = sum(width[key] for key in operator.keys) + value + 1
        size = sizes.pop(0)
        found += [(stages.pop(0), size * bits) for _ in range(switch.chain)]
    return found


def metadata_of(query, piece):
    """The widest row after an operator of the prefix from the first map on."""
    schemas, mapped, widest = pipes.schemas(query, piece.branch), False, 0
    for number, operator in enumerate(query.branches[piece.branch][:piece.cut]):
        mapped = mapped or operator.kind == 'map'
        if mapped:
            widest = max(widest, sum(width for _, width, _ in schemas[number + 1]))
    return widest


def check_fits(queries, switch, entries):
    """Raises the first check that the plan fails."""
    check_paths(queries, entries)
    lanes = pieces(queries, entries)
    for query, entry, piece in lanes:
        check_piece(switch, query, entry, piece)
    registers = [register for query, _, piece in lanes for register in registers_of(switch, query, piece)]
    for stage in range(switch.stages):
        here = [bits for other, bits in registers if other == stage]
        if len(here) > switch.actions:
            raise Misfit('Actions', switch.actions, len(here))
        if sum(here) > switch.bits:
            raise Misfit('Bits', switch.bits, sum(here))
    metadata = sum(metadata_of(query, piece) for query, _, piece in lanes)
    if metadata > switch.meta:
        raise Misfit('Meta', switch.meta, metadata)


def check_shape(queries, entries):
    """Raises the first of the checks of paths and cuts that the plan fails."""
    check_paths(queries, entries)
    for query, _, piece in pieces(queries, entries):
        check_cut(query, piece)
