#!/usr/bin/env python3
"""Which switch do I need? Draws what the best plan sends over one number of the switch, and tells what each step buys.

    what_if.py SWITCH QUERIES TRAIN bits 32768 49152 65536 98304 -o bits.svg
    what_if.py SWITCH QUERIES TRAIN stages 4..10 -o stages.svg
    what_if.py SWITCH QUERIES TRAIN bits 32768..131072/16384 -o bits.svg
    what_if.py SWITCH QUERIES TRAIN slots 128 128,512 128,512,2048 -o slots.svg

The word is one of the switch text: stages, actions, bits, meta, chain, slots, entries or weight. All else stays as the text says. Each switch gets the plan of `sonata
plan --prices`, with the least that its prices show; where that is below the cost, `plan` may search with a budget of --nodes too. What lies between the two has another
colour in the picture. A table of the same stands on standard output; in the picture
the values stand side by side, each with a bar of its own, since what lies between two of them wasn't asked."""

import os
import re
import sys
import tempfile

import pictures
import programs
import texts
from texts import switches, tokens

RANGE = re.compile(r'(\d+)\.\.(\d+)(?:/(\d+))?$')
WORDS = ('stages', 'actions', 'bits', 'meta', 'chain', 'slots', 'entries', 'weight')


def values_of(word, given):
    """The texts of the values: numbers, ranges of numbers, or lists of sizes."""
    found = []
    for text in given:
        span = RANGE.match(text)
        if span and word != 'slots':
            first, last, step = int(span[1]), int(span[2]), int(span[3] or 1)
            if step < 1 or last < first or (last - first) // step > 99:
                sys.exit('%s: a range rises, by at most 100 values' % text)
            found += map(str, range(first, last + 1, step))
        elif re.match(r'\d+(,\d+)*$' if word == 'slots' else r'\d+$', text):
            found.append(text.replace(',', ', '))
        else:
            sys.exit('%s: no value of %s' % (text, word))
    return found


def switch_text(switch, word, value):
    """The text of the switch with one value in place of its own."""
    own = {name: str(getattr(switch, name)) for name in WORDS if getattr(switch, name) is not None}
    own['slots'] = ', '.join(map(str, switch.slots))
    own[word] = value
    return ''.join('%s %s;\n' % item for item in own.items())


def parsed(text, word, value):
    """The switch of a text. A value that no switch has ends the command."""
    try:
        return switches.parse(text.encode())
    except tokens.Fault as fault:
        sys.exit('%s %s: no switch has that (%s)' % (word, value, fault.kind))


class Point:
    """What a switch sends: a value, the items of a plan, and the least that any plan sends, as far as it is known."""

    def __init__(self, value, sends, least):
        self.value, self.sends, self.least = value, sends, least

    def words(self, before):
        gap = 'none sends fewer' if self.sends == self.least else 'none sends fewer than %s' % format(self.least, ',')
        step = '' if before is None else ', %s' % bought(before.sends, self.sends)
        return '%s: sends %s, %s%s' % (self.value, format(self.sends, ','), gap, step)


def bought(before, after):
    """What a step buys, in words."""
    if before == after:
        return 'buys nothing'
    return '%s %s' % ('buys' if after < before else 'costs', format(abs(before - after), ','))


def asked(given, value):
    """The point of a value."""
    with tempfile.TemporaryDirectory(prefix='sonata-what-if-') as folder:
        name = os.path.join(folder, 'other.switch')
        text = switch_text(texts.read_switch(given.switch), given.word, value)
        with open(name, 'w') as file:
            file.write(text)
        parsed(text, given.word, value)
        files = name, given.queries, given.train
        sends, least = programs.priced(given.sonata, *files)
        if least < sends:
            found, known = programs.searched(given.sonata, *files, given.nodes)
            sends, least = (known, known) if found is not None else (sends, max(least, known))
        return Point(value, sends, least)


def drawn(points, word):
    pyplot = pictures.drawing()
    figure, part = pyplot.subplots(figsize=(max(4, 1.2 + 0.75 * len(points)), 3.2))
    across = list(range(len(points)))
    part.bar(across, [min(point.least, point.sends) for point in points], 0.4, color=pictures.colour(0), alpha=0.55)
    greatest = max(point.sends for point in points)
    for place, point in zip(across, points):
        if point.least < point.sends:
            part.bar(place, point.sends - point.least, 0.4, bottom=point.least, color=pictures.colour(1), alpha=0.6)
        part.annotate(format(point.sends, ','), (place, point.sends), (0, 2), textcoords='offset points', ha='center', fontsize=7)
    for (left, before), (right, after) in zip(zip(across, points), zip(across[1:], points[1:])):
        if before.sends != after.sends:
            words = '%s%s' % ('\u2212' if after.sends < before.sends else '+', format(abs(before.sends - after.sends), ','))
            part.annotate(words, ((left + right) / 2, min(before.sends, after.sends) / 2), ha='center', fontsize=6.5,
                          zorder=4, bbox={'facecolor': 'white', 'edgecolor': 'none', 'pad': 0.6},
                          color='#3d9157' if after.sends < before.sends else '#b5403f')
    part.set_xticks(across, [point.value if word == 'slots' else format(int(point.value), ',') for point in points],
                    rotation=30 if len(points) > 8 or word == 'slots' else 0, fontsize=7)
    part.set_ylim(0, 1.18 * max(greatest, 1))
    part.set_xlabel(word)
    part.set_ylabel('cost on TRAIN' if word == 'weight' else 'items sent on TRAIN')
    if any(point.least < point.sends for point in points):
        words = 'up to a plan that fits, from the least that any could send'
        part.legend([pyplot.Rectangle((0, 0), 1, 1, color=pictures.colour(1), alpha=0.6)], [words], frameon=False, fontsize=7, loc='lower right', bbox_to_anchor=(1, 1))
    return figure


def main():
    words = pictures.command_line(__doc__, pictures.PACKAGE)
    words.add_argument('switch')
    words.add_argument('queries')
    words.add_argument('train', help='the training capture')
    words.add_argument('word', choices=WORDS)
    words.add_argument('values', nargs='+', help='numbers, ranges as 4..10 or 32768..131072/16384, or for slots lists as 128,512')
    words.add_argument('--nodes', type=int, default=20000, help='the budget of each search (default 20000)')
    programs.add_option(words)
    given = words.parse_args()
    pictures.form_of(given.output)
    pictures.drawing()
    programs.readable(given.switch, given.queries, given.train)
    points = []
    for value in values_of(given.word, given.values):
        points.append(asked(given, value))
        print('%s %s' % (given.word, points[-1].words(points[-2] if points[1:] else None)), flush=True)
    pictures.save(drawn(points, given.word), given.output)
    return 0


if __name__ == '__main__':
    sys.exit(main())
