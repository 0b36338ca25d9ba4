"""Draws what paper.py measured: three pictures as SVG, dark where the reader's screen is. Needs nothing but Python."""

import math

from planner import WAYS

LIGHT = {'paper': '#ffffff', 'ink': '#222222', 'grid': '#dddddd', 'All-SP': '#7a7a7a', 'Filter-DP': '#d9822b', 'Max-DP': '#3d9157', 'Fix-REF': '#3b6fb6', 'Sonata': '#b5403f'}
DARK = {'paper': '#16191d', 'ink': '#e2e4e6', 'grid': '#3a4046', 'All-SP': '#a7adb3', 'Filter-DP': '#eda45a', 'Max-DP': '#6fc48a', 'Fix-REF': '#79a8e8', 'Sonata': '#ee7f7d'}
LABELS = {'stages': 'stages', 'actions': 'registers a stage', 'bits': 'register bits a stage', 'meta': 'bits of metadata'}
LEAST = 0.5
FONT = 'font-family="DejaVu Sans, Helvetica, Arial, sans-serif"'


def name_of(way):
    """A way as the name of a class of marks."""
    return way.lower().replace('-', '')


def colours(known):
    """The rules that give marks their colours."""
    rules = ['.paper{fill:%(paper)s} .ink{fill:%(ink)s} .axis{stroke:%(ink)s} .grid{stroke:%(grid)s} .packets{stroke:%(ink)s}' % known]
    rules += ['.%s{fill:%s;stroke:%s}' % (name_of(way), known[way], known[way]) for way in WAYS]
    return ' '.join(rules)


STYLE = '<style>%s .line{fill:none;stroke-width:1.6} .packets{stroke-dasharray:2 3} @media (prefers-color-scheme: dark){%s}</style>' % (colours(LIGHT), colours(DARK))


def text(x, y, words, anchor='middle', size=9, turned=False):
    turn = ' transform="rotate(-90 %.1f %.1f)"' % (x, y) if turned else ''
    return '<text class="ink" x="%.1f" y="%.1f" font-size="%d" text-anchor="%s"%s>%s</text>' % (x, y, size, anchor, turn, words)


def line(one, other, kind):
    return '<line class="%s" x1="%.1f" y1="%.1f" x2="%.1f" y2="%.1f"/>' % (kind, *one, *other)


def mark(x, y, way):
    """The mark of a way: each has a shape of its own."""
    kind = name_of(way)
    if way == 'Sonata':
        return '<circle class="%s" cx="%.1f" cy="%.1f" r="3.4"/>' % (kind, x, y)
    corners = {'All-SP': [(-3, -3), (3, -3), (3, 3), (-3, 3)], 'Filter-DP': [(0, -4), (4, 3), (-4, 3)], 'Max-DP': [(0, -6), (6, 0), (0, 6), (-6, 0)], 'Fix-REF': [(0, 4), (4, -3), (-4, -3)]}[way]
    return '<polygon class="%s" points="%s"/>' % (kind, ' '.join('%.1f,%.1f' % (x + a, y + b) for a, b in corners))


class Panel:
    """Axes: a place on the picture, and a range of powers of ten from the lower edge to the upper one."""

    def __init__(self, left, top, width, height, low, high):
        self.left, self.top, self.width, self.height, self.low, self.high = left, top, width, height, low, high
        self.drawn = []
        for power in range(low, high + 1):
            y = self.y(10 ** power)
            self.drawn.append(line((left, y), (left + width, y), 'grid'))
        self.drawn.append(line((left, top), (left, top + height), 'axis'))
        self.drawn.append(line((left, top + height), (left + width, top + height), 'axis'))

    def y(self, number):
        share = (math.log10(max(10.0 ** self.low, number)) - self.low) / (self.high - self.low)
        return self.top + self.height * (1 - share)

    def x(self, place, count):
        """The middle of one of so many places."""
        return self.left + self.width * (place + 0.5) / count

    def numbers(self):
        for power in range(self.low, self.high + 1):
            self.drawn.append(text(self.left - 5, self.y(10 ** power) + 3, '{:,}'.format(10 ** power) if power >= 0 else '0.%s1' % ('0' * (-power - 1)), 'end'))

    def ticks(self, labels):
        for place, label in enumerate(labels):
            for row, part in enumerate(label.split('_')):
                self.drawn.append(text(self.x(place, len(labels)), self.top + self.height + 14 + 10 * row, part))

    def bars(self, place, count, numbers):
        width = self.width / count / (len(numbers) + 1.5)
        first = self.x(place, count) - width * len(numbers) / 2
        for way, number in numbers.items():
            y = self.y(number)
            self.drawn.append('<rect class="%s" stroke="none" x="%.1f" y="%.1f" width="%.1f" height="%.1f"><title>%s: %s a window</title></rect>' % (
                name_of(way), first, y, width * 0.9, max(0.5, self.top + self.height - y), way, '{:,.1f}'.format(number)))
            first += width

    def curve(self, way, numbers):
        points = [(self.x(place, len(numbers)), self.y(number)) for place, number in enumerate(numbers)]
        self.drawn.append('<polyline class="%s line" style="fill:none" points="%s"/>' % (name_of(way), ' '.join('%.1f,%.1f' % point for point in points)))
        self.drawn += [mark(x, y, way) for x, y in points]


def legend(left, top, step=92):
    """What each mark stands for."""
    found = []
    for place, way in enumerate(WAYS):
        x = left + place * step
        found += [mark(x, top - 3, way), text(x + 9, top, way, 'start')]
    return found


def picture(width, height, title, parts):
    return '\n'.join(['<svg xmlns="http://www.w3.org/2000/svg" viewBox="0 0 %d %d" width="%d" height="%d" role="img" %s>' % (width, height, width, height, FONT),
                      '<title>%s</title>' % title, STYLE, '<rect class="paper" width="%d" height="%d"/>' % (width, height), *parts, '</svg>', ''])


def powers(numbers):
    """The powers of ten around numbers."""
    some = [max(LEAST, number) for number in numbers]
    return math.floor(math.log10(min(some)) - 0.05), math.ceil(math.log10(max(some)) + 0.01)


def a_window(row, field='sent'):
    return row[field] / row['windows']


def cases_of(rows):
    """The rows of each case in order, by way."""
    found = {}
    for row in rows:
        found.setdefault((row['queries'], row['setting'], row['value']), {})[row['way']] = row
    return list(found.values())


def alone(rows):
    cases = cases_of(rows)
    panel = Panel(70, 40, 760, 240, *powers(a_window(row) for row in rows))
    panel.numbers()
    panel.ticks([case['Sonata']['queries'] for case in cases])
    for place, case in enumerate(cases):
        panel.bars(place, len(cases), {way: a_window(case[way]) for way in WAYS})
    return picture(850, 330, 'What each query alone sends', [*panel.drawn, *legend(180, 22), text(16, 160, 'items a window', turned=True)])


def together(rows, window):
    cases = cases_of(rows)
    panel = Panel(80, 40, 450, 260, *powers([window, *(a_window(row) for row in rows)]))
    panel.numbers()
    panel.ticks([str(len(case['Sonata']['queries'].split())) for case in cases])
    panel.drawn += [line((80, panel.y(window)), (530, panel.y(window)), 'packets'), text(534, panel.y(window) + 3, 'packets', 'start', 8)]
    for way in WAYS:
        panel.curve(way, [a_window(case[way]) for case in cases])
    return picture(590, 350, 'What the first queries together send', [*panel.drawn, *legend(90, 22), text(16, 170, 'items a window', turned=True), text(305, 338, 'queries together')])


def shown(word, value):
    """The value of a setting in few letters."""
    return '%d Mb' % (value >> 20) if word == 'bits' else str(value)


def settings(rows):
    parts, low_high = [], powers(a_window(row, 'cost') for row in rows)
    for number, word in enumerate(LABELS):
        cases = cases_of([row for row in rows if row['setting'] == word])
        panel = Panel(75 + 205 * number, 40, 185, 230, *low_high)
        if number == 0:
            panel.numbers()
        panel.ticks([shown(word, case['Sonata']['value']) for case in cases])
        for way in WAYS:
            panel.curve(way, [a_window(case[way], 'cost') for case in cases])
        parts += [*panel.drawn, text(75 + 205 * number + 92, 304, LABELS[word])]
    return picture(890, 320, 'What all queries together send, by the size of the switch', [*parts, *legend(200, 22), text(16, 160, 'items a window', turned=True)])


def drawn(rows, window):
    """The pictures by name."""
    parts = {name: [row for row in rows if row['figure'] == name] for name in ('alone', 'together', 'settings')}
    return {'alone.svg': alone(parts['alone']), 'together.svg': together(parts['together'], window), 'settings.svg': settings(parts['settings'])}
