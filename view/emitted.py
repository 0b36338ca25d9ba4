#!/usr/bin/env python3
"""Draws how many items a plan sends to the engine in each window, by query and level, for one or several plans side by side, and beside them what plans send
that follow the traffic.

    emitted.py --of one.plan one.reports --of other.plan other.reports -o emitted.svg
    emitted.py --of one.plan one.reports --epochs epochs.txt -o emitted.svg

Each plan comes with the report frames that `sonata emit` wrote for it. A column of the picture is a plan, a row a query; the first row is their sum. The
lightest part of a bar is the coarsest level of the path. The axis begins at window 0, and windows in which nothing is sent have their place.

What `sonata replan` printed is a column too. A dashed line stands where a new plan begins. The text has the sum alone; so in the row of a query stands what each
plan does with it at its finest level, where its epoch is wide enough: the cut of each branch, and the sizes of its registers."""

import collections
import os
import sys

import frames
import pictures
import texts

# About the inches of a letter of the words in an epoch.
LETTER = 0.055


def counted(plan, reports):
    """The entries of a plan, the windows of its reports, and the number of rows by window, query and place of the level."""
    entries = texts.read_plan(plan)
    counts, windows = collections.Counter(), set()
    try:
        with sys.stdin.buffer if reports == '-' else open(reports, 'rb') as file:
            for window, (query, level, _), kind, _, _ in frames.rows(frames.frames(file)):
                frames.named([(entry.name, entry.path) for entry in entries], (query, level, 0))
                windows.add(window)
                counts[window, query, level] += kind != 'end'
    except frames.Spoilt as fault:
        sys.exit('%s: %s, frame at byte %s' % (reports, *fault.args))
    except OSError as fault:
        sys.exit('%s: %s' % (reports, fault.strerror))
    return entries, sorted(windows), counts


def draw_bars(part, windows, stacks):
    """Bars of parts on one another, each a colour with its numbers by window."""
    below = [0] * len(windows)
    for colour, numbers in stacks:
        part.bar(windows, numbers, 0.9 if len(windows) < 80 else 1, bottom=below, color=colour)
        below = [a + b for a, b in zip(below, numbers)]
    return max(below, default=0)


def query_stacks(entries, windows, counts, query):
    path = entries[query].path
    return [(pictures.shade(query, place, len(path)), [counts[window, query, place] for window in windows]) for place in range(len(path))]


def sum_stacks(entries, windows, counts):
    return [(pictures.colour(query), [sum(counts[window, query, place] for place in range(len(entry.path))) for window in windows])
            for query, entry in enumerate(entries)]


def write_words(part, entry, total, number, along=''):
    """The path of a query and what it sends, at the top of its part, and which colour is which level."""
    path = 'path ' + ', '.join(map(str, entry.path)) if entry else 'all queries'
    part.text(0.01, 0.97, '%s: %s%s' % (path, format(total, ','), along), transform=part.transAxes, va='top', fontsize=7,
              color=pictures.colour(number) if entry else '#333333', bbox={'facecolor': 'white', 'edgecolor': 'none', 'pad': 0.5, 'alpha': 0.8})
    for place, level in enumerate(entry.path if entry and len(entry.path) > 1 else []):
        across = 1 - 0.095 * (len(entry.path) - place)
        part.text(across, 0.97, '\u25a0', transform=part.transAxes, va='top', fontsize=7, color=pictures.shade(number, place, len(entry.path)))
        part.text(across + 0.03, 0.97, '/%d' % level, transform=part.transAxes, va='top', fontsize=6.5, color='#333333')


class Reports:
    """The column of a plan with its report frames."""

    def __init__(self, plan, reports):
        self.entries, self.windows, self.counts = counted(plan, reports)

    def names(self):
        return [entry.name for entry in self.entries]

    def row(self, part, query):
        """Draw the sum (query None) or a query. The height of the tallest bar."""
        stacks = sum_stacks(self.entries, self.windows, self.counts) if query is None else query_stacks(self.entries, self.windows, self.counts, query)
        write_words(part, None if query is None else self.entries[query], sum(sum(numbers) for _, numbers in stacks), query or 0)
        return draw_bars(part, self.windows, stacks)


class Epochs:
    """The column of what `replan` printed."""

    def __init__(self, name):
        self.epochs = texts.read_epochs(name)
        self.windows = [window for epoch in self.epochs for window, _ in epoch.windows]

    def names(self):
        return [entry.name for entry in self.epochs[0].entries]

    def row(self, part, query):
        """Draw the sum (query None), or write what becomes of a query, with a line where each plan but the first begins. The height of the tallest bar."""
        for first, *_ in [epoch.windows for epoch in self.epochs[1:] if epoch.windows]:
            part.axvline(first[0] - 0.5, color='#333333', linewidth=0.8, linestyle='--')
        if query is not None:
            self.write_pieces(part, query)
            return 0
        sent = [sent for epoch in self.epochs for _, sent in epoch.windows]
        write_words(part, None, sum(sent), 0, ' along %d plan%s' % (len(self.epochs), 's' if len(self.epochs) > 1 else ''))
        return draw_bars(part, self.windows, [('#777777', sent)])

    def write_pieces(self, part, query):
        """In each epoch that has the room for it, what its plan does with a query."""
        left, right = part.get_xlim()
        inches = part.get_window_extent().width / part.figure.dpi / (right - left)
        for epoch in self.epochs:
            words, windows = piece_words(epoch.entries[query]), [window for window, _ in epoch.windows]
            if windows and (windows[-1] - windows[0] + 1) * inches > LETTER * max(map(len, words)):
                part.text((windows[0] + windows[-1]) / 2, 0.5, '\n'.join(words), transform=part.get_xaxis_transform(), ha='center', va='center', fontsize=6.5,
                          color=pictures.colour(query))


def piece_words(entry):
    """What a plan does with a query at the finest level of its path, a line for each branch."""
    finest = [piece for piece in entry.pieces if piece.level == entry.path[-1]]
    return ['cut %d%s' % (piece.cut, ', slots ' + ', '.join(map(str, piece.sizes)) if piece.sizes else '') for piece in finest]


def drawn(columns, titles):
    pyplot = pictures.drawing()
    names, last = columns[0].names(), max([0] + [window for column in columns for window in column.windows])
    width = min(6.0, max(2.4, 9.0 / len(columns)))
    figure, parts = pyplot.subplots(len(names) + 1, len(columns), figsize=(1.2 + width * len(columns), 0.7 + 0.95 * (len(names) + 1)), sharex=True,
                                    sharey='row', squeeze=False, gridspec_kw={'hspace': 0.18, 'wspace': 0.06})
    for place, (column, title) in enumerate(zip(columns, titles)):
        parts[0][place].set_title(title, fontsize=8)
        for row in range(len(names) + 1):
            part = parts[row][place]
            part.set_xlim(-0.6, last + 0.6)
            tallest = column.row(part, row - 1 if row else None)
            part.set_ylim(0, max(part.get_ylim()[1] if place else 0, 1.45 * tallest, 1))
            pictures.whole_ticks(part.yaxis)
            pictures.whole_ticks(part.xaxis)
        parts[-1][place].set_xlabel('window')
    for row, name in enumerate(['items'] + names):
        if row and all(isinstance(column, Epochs) for column in columns):
            parts[row][0].set_yticks([])
        parts[row][0].set_ylabel(name, rotation=0, ha='right', va='center', color=pictures.colour(row - 1) if row else '#333333')
        parts[row][0].yaxis.set_label_coords(-0.55 / width, 0.5)
    return figure


def main():
    words = pictures.command_line(__doc__)
    words.add_argument('--of', nargs=2, metavar=('PLAN', 'REPORTS'), action='append', default=[], help='a plan and its report frames; once for each plan')
    words.add_argument('--epochs', metavar='TEXT', action='append', default=[], help='what `replan` printed; once for each text')
    words.add_argument('--title', action='append', help='the title of a column, those of plans first (else the name of its file)')
    given = words.parse_args()
    pictures.form_of(given.output)
    if not given.of and not given.epochs:
        words.error('a plan with its reports, or the text of `replan`, is to be drawn')
    columns = [Reports(*pair) for pair in given.of] + [Epochs(name) for name in given.epochs]
    if any(column.names() != columns[0].names() for column in columns):
        sys.exit('the plans are of other queries')
    titles = given.title or [os.path.basename(name) for name in [plan for plan, _ in given.of] + given.epochs]
    if len(titles) != len(columns):
        sys.exit('as many titles as plans, or none')
    pictures.save(drawn(columns, titles), given.output)
    return 0


if __name__ == '__main__':
    sys.exit(main())
