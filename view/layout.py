#!/usr/bin/env python3
"""Draws how a plan lies in a switch: stages across, a row for each piece with its tables and registers, and below it how full each stage's
actions and bits are. The metadata of the pieces stands at the right.

    layout.py SWITCH QUERIES PLAN -o plan.svg
    layout.py SWITCH QUERIES PLAN --answers today.txt -o plan.svg

With answers (what `sonata run` printed along the plan, or its CSV) there is one more row: how many prefixes are installed in each window in the table of each
piece that has one, beside how many a table holds. Where that is too few the table is open, and the prefixes that don't find room are drawn light.

The registers of a reduce are dark, those of a distinct light, and a table without state is open. A plan says in which stages registers stand. A table without state stands in the first stage that is free for it; the switch may move it as far
as the next register allows."""

import dataclasses
import sys

import pictures
import printed
import texts
from texts import plans


@dataclasses.dataclass
class Table:
    """A table of a piece: its words, its stage, and the bits of a register."""
    words: str
    stage: int
    bits: int = 0

    def fill(self, query):
        """Its colour: dark for a reduce, light for a distinct, none for a table without state."""
        if not self.bits:
            return 'white'
        return pictures.shade(query, 0, 2) if self.words.startswith('distinct') else pictures.colour(query)

    def ink(self):
        return 'white' if self.bits and not self.words.startswith('distinct') else '#333333'


def tables_of(switch, query, entry, piece):
    """The tables of a piece, each in its stage."""
    bits = [number for _, number in plans.registers_of(switch, query, piece)]
    stages, sizes, free = list(piece.stages), list(piece.sizes), 0
    found = []
    if piece.level != entry.path[0]:
        found, free = [Table('prefixes', 0)], 1
    for operator in query.branches[piece.branch][:piece.cut]:
        if operator.kind not in ('distinct', 'reduce'):
            found.append(Table(operator.kind, free))
            free += 1
            continue
        size = sizes.pop(0)
        for number in range(switch.chain):
            place = ' %d/%d' % (number + 1, switch.chain) if switch.chain > 1 else ''
            found.append(Table('%s%s\n%d slots' % (operator.kind, place, size), stages.pop(0), bits.pop(0)))
            free = found[-1].stage + 1
    return found


class Installed:
    """How many prefixes the table of each query and level has in each window."""

    def __init__(self, name, queries, entries):
        answered = printed.prefixes(name, queries)
        self.windows = list(answered)
        self.tables = {(q, j): printed.table_sizes(answered, queries[q], entry.path[j - 1])
                       for q, entry in enumerate(entries) for j in range(1, len(entry.path))}


def prefixes(count):
    return '1 prefix' if count == 1 else '%s prefixes' % format(count, ',')


class Picture:
    """The lanes of a plan in a switch, and what answers along it install."""

    def __init__(self, switch, queries, entries, installed=None):
        self.switch, self.installed = switch, installed
        self.lanes = [(q, query, entry, piece) for q, (query, entry) in enumerate(zip(queries, entries)) for piece in entry.pieces]
        self.tables = [tables_of(switch, query, entry, piece) for _, query, entry, piece in self.lanes]
        self.stages = max([switch.stages] + [table.stage + 1 for tables in self.tables for table in tables])
        self.pyplot = pictures.drawing()
        heights = [0.34 * len(self.lanes), 0.8, 0.8] + [0.8] * (installed is not None)
        self.figure, self.parts = self.pyplot.subplots(
            len(heights), 2, figsize=(2.6 + 0.82 * self.stages + 1.8, heights[0] + 2.6 + 0.8 * (installed is not None)), gridspec_kw={'height_ratios': heights,
            'width_ratios': [0.82 * self.stages, 1.7], 'hspace': 0.12, 'wspace': 0.03}, squeeze=False, constrained_layout=False)

    def draw_lanes(self):
        part = self.parts[0][0]
        for row, (tables, (q, *_)) in enumerate(zip(self.tables, self.lanes)):
            for table in tables:
                part.add_patch(self.pyplot.Rectangle((table.stage - 0.46, row - 0.4), 0.92, 0.8, facecolor=table.fill(q), edgecolor=pictures.colour(q), linewidth=1))
                part.text(table.stage, row, table.words, ha='center', va='center', fontsize=6.2, linespacing=0.95, color=table.ink())
        part.set_xlim(-0.5, self.stages - 0.5)
        part.set_ylim(len(self.lanes) - 0.5, -0.5)
        part.set_yticks(range(len(self.lanes)), ['%s, cut %d' % (texts.piece_name(query, piece), piece.cut) for _, query, _, piece in self.lanes])
        for label, (q, *_) in zip(part.get_yticklabels(), self.lanes):
            label.set_color(pictures.colour(q))
        self.mark_stages(part)
        part.tick_params(labelbottom=False, labeltop=True, top=True, bottom=False)
        part.set_xlabel('stage')
        part.xaxis.set_label_position('top')

    def mark_stages(self, part):
        part.set_xticks(range(self.stages))
        for border in range(1, self.stages):
            part.axvline(border - 0.5, color='#dddddd', linewidth=0.6, zorder=0)
        if self.stages > self.switch.stages:
            part.axvline(self.switch.stages - 0.5, color='#b00000', linewidth=1.5)

    def draw_stages(self, part, amount, limit, words, shown):
        """The sums of an amount over the registers of each stage, by query, against the switch's limit."""
        sums = [0] * self.stages
        for tables, (q, *_) in zip(self.tables, self.lanes):
            for table in tables:
                if table.bits:
                    part.bar(table.stage, amount(table), 0.8, bottom=sums[table.stage], color=table.fill(q), edgecolor=pictures.colour(q), linewidth=0.6)
                    sums[table.stage] += amount(table)
        for stage, total in enumerate(sums):
            if total:
                part.annotate(shown(total, limit), (stage, total), (0, 2), textcoords='offset points', ha='center', va='bottom', fontsize=6.5,
                              color='#b00000' if total > limit else '#333333', bbox={'facecolor': 'white', 'edgecolor': 'none', 'pad': 0.8})
        part.axhline(limit, color='#b00000', linewidth=0.8, linestyle='--')
        part.set_ylim(0, 1.4 * max([limit] + sums))
        part.set_xlim(-0.5, self.stages - 0.5)
        part.set_yticks([limit], ['%s %s' % (format(limit, ','), words)])
        self.mark_stages(part)
        part.tick_params(labelbottom=False, bottom=False)

    def draw_installed(self, part):
        """The prefixes of each table by window, side by side, against what a table holds. Those of an open table are light."""
        limit, tables, windows = self.switch.entries, self.installed.tables, self.installed.windows
        width = 0.9 / max(1, len(tables))
        for place, ((q, _), sizes) in enumerate(tables.items()):
            for window, count in sizes.items():
                is_open = limit is not None and count > limit
                part.bar(window + (place - (len(tables) - 1) / 2) * width, count, width, color=pictures.shade(q, 0, 4) if is_open else pictures.colour(q),
                         edgecolor=pictures.colour(q), linewidth=0.6, linestyle=':' if is_open else '-')
        most = max([1] + [count for sizes in tables.values() for count in sizes.values()])
        if limit is not None and limit <= 4 * most:
            part.axhline(limit, color='#b00000', linewidth=0.8, linestyle='--')
            most = max(most, limit)
            part.set_yticks([limit], ['%s a table' % prefixes(limit)])
        else:
            part.set_yticks([most], [prefixes(most)])
        part.set_ylim(0, 1.25 * most)
        if windows:
            part.set_xlim(windows[0] - 0.6, windows[-1] + 0.6)
        pictures.whole_ticks(part.xaxis)
        part.set_xlabel('window')

    def name_tables(self, part):
        """Which colours the tables have, and what a light bar is."""
        part.axis('off')
        names = list(dict.fromkeys((q, query.name) for q, query, entry, piece in self.lanes if len(entry.path) > 1))
        for row, (q, name) in enumerate(names):
            part.text(0.08, 0.9 - 0.2 * row, '\u25a0 ' + name, transform=part.transAxes, va='center', fontsize=7, color=pictures.colour(q))
        words = 'light: the table is open' if self.switch.entries is not None else 'tables without a limit'
        part.text(0.08, 0.9 - 0.2 * len(names), words, transform=part.transAxes, va='center', fontsize=6.5, color='#333333')

    def draw_metadata(self, part):
        bits = [plans.metadata_of(query, piece) for _, query, _, piece in self.lanes]
        part.barh(range(len(bits)), bits, 0.8, color=[pictures.colour(q) for q, *_ in self.lanes])
        for row, number in enumerate(bits):
            part.annotate('%d' % number, (number, row), (3, 0), textcoords='offset points', va='center', fontsize=6.5)
        part.set_ylim(len(bits) - 0.5, -0.5)
        part.set_xlim(0, 1.25 * max(bits + [1]))
        part.set_yticks([])
        part.set_xticks([])
        part.set_title('metadata bits\n%d of %d (%.0f %%)' % (sum(bits), self.switch.meta, 100 * sum(bits) / max(1, self.switch.meta)), fontsize=8)

    def draw_legend(self, part):
        """What dark, light and open boxes are."""
        part.axis('off')
        for row, (words, table) in enumerate([('reduce', Table('reduce', 0, 1)), ('distinct', Table('distinct', 0, 1)), ('no state', Table('', 0))]):
            part.add_patch(self.pyplot.Rectangle((0.08, 0.68 - 0.3 * row), 0.14, 0.2, transform=part.transAxes, facecolor=table.fill(0), edgecolor=pictures.colour(0), linewidth=1))
            part.text(0.28, 0.78 - 0.3 * row, words, transform=part.transAxes, va='center', fontsize=7)

    def draw(self, title):
        self.draw_lanes()
        self.draw_metadata(self.parts[0][1])
        self.draw_stages(self.parts[1][0], lambda table: 1, self.switch.actions, 'registers', lambda total, limit: '%d of %d' % (total, limit))
        self.draw_stages(self.parts[2][0], lambda table: table.bits, self.switch.bits, 'bits', lambda total, limit: '%.1f %%' % (100 * total / limit))
        self.draw_legend(self.parts[1][1])
        self.parts[2][1].axis('off')
        if self.installed is not None:
            self.draw_installed(self.parts[3][0])
            self.name_tables(self.parts[3][1])
        self.parts[0][0].set_title(title, loc='left', fontsize=9, pad=8)


def main():
    words = pictures.command_line(__doc__)
    words.add_argument('switch')
    words.add_argument('queries')
    words.add_argument('plan', help='a plan, or what `sonata plan` printed; - is standard input')
    words.add_argument('--answers', metavar='ANSWERS', help='answers along the plan; - is standard input')
    given = words.parse_args()
    pictures.form_of(given.output)
    switch, queries, entries = texts.read_switch(given.switch), texts.read_queries(given.queries), texts.read_plan(given.plan)
    texts.shaped(queries, entries)
    fault = texts.misfit(queries, switch, entries)
    if fault and fault.split()[0] in ('Slots', 'Order'):
        sys.exit('the plan can not be drawn in this switch: ' + fault)
    picture = Picture(switch, queries, entries, Installed(given.answers, queries, entries) if given.answers else None)
    picture.draw('%d stages, %s registers and %s bits in each, chains of %d%s' % (
        switch.stages, switch.actions, format(switch.bits, ','), switch.chain, '; DOES NOT FIT: ' + fault if fault else ''))
    pictures.save(picture.figure, given.output)
    return 0


if __name__ == '__main__':
    sys.exit(main())
