#!/usr/bin/env python3
"""Draws what `sonata detect` printed: for each query a row for each address, with a bar over the windows of each of its stays. A bar is pale up to the window
in which the address was printed and full from there on; that of a stay which was never printed is grey.

    sonata detect QUERIES PLAN CAPTURE | stays.py - -o stays.svg
    stays.py late.txt --most 60 -o stays.svg

Of many addresses those of the most windows have rows of their own, and the stays of all others are folded: a row for those that were printed in their first
window, one for those that were printed a window later, and so on, and one for those that never were, each square the darker the more of them are in its
window. After the name of a query stand the levels of its path, whether there is a bound on the delay, and how many stays there are of each kind. Needs
nothing but Python."""

import argparse
import collections
import html
import re
import sys

import pictures
import printed

LINE = re.compile(r'query (\S+) levels (\d+) bound (yes|no)')
STAY = re.compile(r'(\S+) from (\d+) to (\d+) printed (\d+|never)')
END = re.compile(r'(?:capture|total) ')
NEVER = '#b0b0b0'
LEFT, WIDTH, ROW, SQUARES = 150, 600, 13, 300

Query = collections.namedtuple('Query', 'name levels bound stays')
Stay = collections.namedtuple('Stay', 'address first last printed')


def stay_of(found):
    address, first, last, window = found.groups()
    return Stay(printed.short(address), int(first), int(last), None if window == 'never' else int(window))


def read(file):
    """The queries in their order, each with its stays."""
    queries = []
    for line in file:
        if found := LINE.fullmatch(line.rstrip('\n')):
            queries.append(Query(found[1], int(found[2]), found[3] == 'yes', []))
        elif queries and (found := STAY.fullmatch(line.rstrip('\n'))):
            queries[-1].stays.append(stay_of(found))
        elif not END.match(line):
            raise ValueError
    return queries


def read_file(name):
    with printed.opened(name) as file:
        try:
            return read(file)
        except ValueError:
            sys.exit('%s: not what `sonata detect` prints' % name)


def delay(stay):
    """How many windows after the first one of a stay it was printed, or None."""
    return None if stay.printed is None else stay.printed - stay.first


def counted(count, word):
    return '%s %s%s' % (format(count, ','), word, '' if count == 1 else 'es' if word.endswith('s') else 's')


def delay_words(late):
    if late is None:
        return 'never'
    return 'at once' if late == 0 else 'after ' + counted(late, 'window')


def by_delay(stays):
    """Stays by how late they were printed: soonest first, never last."""
    found = collections.defaultdict(list)
    for stay in stays:
        found[delay(stay)].append(stay)
    return sorted(found.items(), key=lambda item: (item[0] is None, item[0]))


def own_rows(stays, most):
    """The stays of the addresses that have rows of their own, those of the most windows, in the order of the text; and all other stays."""
    windows, rows = collections.Counter(), {}
    for stay in stays:
        windows[stay.address] += stay.last - stay.first + 1
    chosen = set(sorted(windows, key=lambda address: -windows[address])[:most])
    for stay in stays:
        if stay.address in chosen:
            rows.setdefault(stay.address, []).append(stay)
    return rows, [stay for stay in stays if stay.address not in chosen]


def title_words(query):
    """A query's name, levels and bound, and how many stays were printed how late."""
    kinds = ', '.join('%s %s' % (format(len(stays), ','), delay_words(late)) for late, stays in by_delay(query.stays))
    addresses = len({stay.address for stay in query.stays})
    counts = '%s of %s, printed %s' % (counted(len(query.stays), 'stay'), counted(addresses, 'address'), kinds) if query.stays else 'no stays'
    return '%s, %s, bound %s: %s' % (query.name, counted(query.levels, 'level'), 'yes' if query.bound else 'no', counts)


class Picture:
    """The parts of a picture, downwards."""

    def __init__(self, windows):
        self.windows, self.parts, self.down = windows, [], 6

    def across(self, window):
        return LEFT + WIDTH * window / self.windows

    def write(self, across, text, **more):
        marks = ''.join(' %s="%s"' % (name.replace('_', '-'), value) for name, value in more.items())
        self.parts.append('<text x="%.1f" y="%.1f"%s>%s</text>' % (across, self.down + 9, marks, html.escape(text)))

    def bar(self, first, after, fill, title='', opacity=1.0):
        """A bar from a window up to another one, which it leaves out."""
        name = '<title>%s</title>' % html.escape(title) if title else ''
        self.parts.append('<rect x="%.2f" y="%.1f" width="%.2f" height="%d" fill="%s" opacity="%.2f">%s</rect>' % (
            self.across(first), self.down + 2, max(0.5, self.across(after) - self.across(first)), ROW - 4, fill, opacity, name))

    def stay(self, stay, number):
        """A stay: pale before it was printed, full from there on."""
        line = '%s from %d to %d printed %s' % (*stay[:3], 'never' if stay.printed is None else stay.printed)
        if stay.printed is None:
            self.bar(stay.first, stay.last + 1, NEVER, line)
            return
        if stay.printed > stay.first:
            self.bar(stay.first, stay.printed, pictures.colour(number), opacity=0.35)
        self.bar(stay.printed, stay.last + 1, pictures.colour(number), line)

    def folded(self, late, stays, number):
        """A row of stays that were printed equally late, darker where more of them are."""
        self.write(LEFT - 6, '%s more %s' % (format(len(stays), ','), delay_words(late)), text_anchor='end', font_style='italic')
        wide = -(-self.windows // SQUARES)
        counts = squares(stays, wide, -(-self.windows // wide))
        for square, count in enumerate(counts):
            if count:
                self.bar(square * wide, min(self.windows, (square + 1) * wide), NEVER if late is None else pictures.colour(number),
                         '%s in windows %d to %d' % (format(count, ','), square * wide, (square + 1) * wide - 1), 0.25 + 0.75 * count / max(counts))
        self.down += ROW

    def query(self, query, number, most):
        """A query's words, the rows of its addresses, and those of all others."""
        rows, others = own_rows(query.stays, most)
        self.write(6, title_words(query), fill=pictures.colour(number), font_weight='bold')
        self.down += ROW + 2
        for address, stays in rows.items():
            self.write(LEFT - 6, address, text_anchor='end')
            for stay in stays:
                self.stay(stay, number)
            self.down += ROW
        for late, stays in by_delay(others):
            self.folded(late, stays, number)
        self.down += 8

    def axis(self):
        """The numbers of windows, each at the middle of its own."""
        step = next(step for power in range(20) for step in (10**power, 2 * 10**power, 5 * 10**power) if self.windows <= 20 * step)
        for window in range(0, self.windows, step):
            self.write(self.across(window + 0.5), str(window), text_anchor='middle', fill='#555555')
        self.down += ROW
        self.write(LEFT + WIDTH / 2, 'window', text_anchor='middle', fill='#555555')
        self.down += ROW + 4

    def svg(self):
        return ('<svg xmlns="http://www.w3.org/2000/svg" width="{0}" height="{1}" viewBox="0 0 {0} {1}" font-family="DejaVu Sans, sans-serif" font-size="8">\n'
                '<rect width="{0}" height="{1}" fill="white"/>\n{2}\n</svg>\n').format(LEFT + WIDTH + 10, round(self.down), '\n'.join(self.parts))


def squares(stays, wide, count):
    """How many stays are in each square of so many windows."""
    steps = [0] * (count + 1)
    for stay in stays:
        steps[stay.first // wide] += 1
        steps[stay.last // wide + 1] -= 1
    found, now = [], 0
    for step in steps[:count]:
        now += step
        found.append(now)
    return found


def drawn(queries, most, windows=1):
    picture = Picture(max([windows] + [stay.last + 1 for query in queries for stay in query.stays]))
    for number, query in enumerate(queries):
        picture.query(query, number, most)
    picture.axis()
    return picture.svg()


def main():
    words = argparse.ArgumentParser(description=__doc__, formatter_class=argparse.RawDescriptionHelpFormatter)
    words.add_argument('stays', nargs='?', default='-', help='what `sonata detect` printed; without it, or with -, standard input')
    words.add_argument('-o', '--output', metavar='PICTURE', required=True, help='the picture to write: .svg')
    words.add_argument('--most', type=int, default=40, help='addresses of a query that have rows of their own (default 40)')
    words.add_argument('--windows', type=int, default=1, metavar='N', help='how many windows the picture has at least')
    given = words.parse_args()
    if pictures.form_of(given.output) != 'svg':
        sys.exit('%s: this picture is .svg alone' % given.output)
    queries = read_file(given.stays)
    if not queries:
        sys.exit('%s: no query is refined, so none is late' % given.stays)
    pictures.write_svg(drawn(queries, given.most, given.windows), given.output)
    return 0


if __name__ == '__main__':
    sys.exit(main())
