#!/usr/bin/env python3
"""Draws the answers of `sonata run --csv` over time: for each query a line for each address or key that was answered, by windows.

    sonata run SWITCH QUERIES PLAN CAPTURE --csv | answers.py - -o answers.svg
    answers.py answers.csv --queries QUERIES --level 32 -o answers.svg
    sonata plain QUERIES CAPTURE | answers.py - -o answers.svg

Printed answers are read too: those of `plain`, `run`, `finish`, `many`, `live` and `replan`. The axis goes from window 0 to the last one, whether it has a row or
not. CSV doesn't tell of windows without a row: --windows says how many there are.

A row's last column is its number, where it has more than one, and gives the darkness of its square, from the query's least number to its greatest. Where
there are more than 800 windows a square stands for several, by the greatest of their numbers. Its key
are the keys of the query's join or last reduce where the query file is given, else the columns before the number. Each query is drawn at its finest level
that was answered; the rows of its other levels are counted after its name."""

import ipaddress
import sys

import pictures
import printed
import texts


def read(name, places):
    """The rows of each query and level: a window, a key and a number. `places` has the keys of some queries' rows."""
    found, windows = {}, {0}
    for window, query, level, columns in printed.rows(name):
        windows.add(window)
        if query is None:
            continue
        key, number = printed.keyed(columns, places.get(query))
        found.setdefault(query, {}).setdefault(level, []).append((window, key, 1 if number is None else number))
    return found, windows


def address_order(key):
    """Addresses by their numbers, and other keys as they read."""
    return [part.rjust(40, '0') for word in key.split(' ') for part in parts_of(word)]


def parts_of(word):
    """The parts of a word that are compared one after another: the eight groups of an address of IPv6, or what points part."""
    try:
        return ipaddress.IPv6Address(word).exploded.split(':') if ':' in word else word.split('.')
    except ValueError:
        return [word]


def chosen(rows, most):
    """The keys that are drawn, those of the most windows first and then of the greatest numbers, and how many there are."""
    windows, greatest = {}, {}
    for window, key, number in rows:
        windows.setdefault(key, set()).add(window)
        greatest[key] = max(number, greatest.get(key, 0))
    best = sorted(windows, key=lambda key: (-len(windows[key]), -greatest[key], address_order(key)))
    return sorted(best[:most], key=address_order), len(best)


def title_words(query, level, levels, drawn, count, column):
    if not levels:
        return query + ': no rows'
    others = ', '.join('%d rows at level %d' % (len(rows), other) for other, rows in sorted(levels.items()) if other != level)
    keys = '' if drawn == count else ', %d of %s keys' % (drawn, format(count, ','))
    words = '%s, level %d: %s rows%s%s' % (query, level, format(len(levels.get(level, [])), ','), keys, ' (%s)' % others if others else '')
    return words + (', number: ' + column if column else '')


def greatest_numbers(rows, keys, width):
    """The greatest number of each key and square, a square being so many windows wide."""
    found = {}
    for window, key, number in rows:
        if key in keys:
            square = key, window // width
            found[square] = max(number, found.get(square, 0))
    return found


def draw_query(part, rows, keys, number, width, bordered):
    """A square for each key and so many windows in which it was answered; darker is more."""
    squares = greatest_numbers(rows, set(keys), width)
    least, greatest = min(squares.values()), max(squares.values())
    # Many windows make squares too thin for the lightest colours.
    bars, lightest = {}, 0 if width == 1 else 2
    for (key, square), value in sorted(squares.items()):
        share = (value - least) / (greatest - least) if greatest > least else 1
        bars.setdefault((key, lightest + round((6 - lightest) * share)), []).append((square * width - 0.5, width))
    for (key, step), spans in bars.items():
        part.broken_barh(spans, (keys.index(key) - 0.4, 0.8), facecolors=[pictures.shade(number, step, 7)], edgecolors='white', linewidth=0.3 if bordered else 0)
    write_shades(part, [(least, lightest), (greatest, 6)] if greatest > least else [(greatest, 6)], number)


def write_shades(part, shades, number):
    """The least and the greatest number of a query, each after its colour."""
    height = part.get_window_extent().height
    for place, (value, step) in enumerate(shades):
        across = 0.5 + (len(shades) - 1 - 2 * place) * 6.5 / height
        part.text(1.008, across, '\u25a0', transform=part.transAxes, fontsize=8, va='center', color=pictures.shade(number, step, 7))
        part.text(1.024, across, format(value, ','), transform=part.transAxes, fontsize=7, va='center', color='#555555')


def shown_key(key):
    return key if len(key) <= 44 else key[:42] + '..'


def drawn(found, windows, names, queries, given):
    pyplot = pictures.drawing()
    levels = {query: given.level if given.level is not None else max(found.get(query, {0: []})) for query in names}
    lists = {query: found.get(query, {}).get(levels[query], []) for query in names}
    keys = {query: chosen(lists[query], given.most) for query in names}
    heights = [max(1.2, len(keys[query][0])) for query in names]
    inches, gap, edge = 0.17 * sum(heights), 0.36, 0.5
    whole = inches + gap * (len(names) - 1) + 2 * edge
    figure, parts = pyplot.subplots(len(names), 1, figsize=(8.5, whole), sharex=True, squeeze=False,
                                    gridspec_kw={'height_ratios': heights, 'hspace': gap * len(names) / inches, 'bottom': edge / whole, 'top': 1 - edge / whole})
    columns = {query.name: query.columns[-1][0] for query in queries if len(query.columns) > 1}
    width = 1 + max(windows) // 800
    for number, (query, (part,)) in enumerate(zip(names, parts)):
        shown, count = keys[query]
        if shown:
            draw_query(part, lists[query], shown, number, width, max(windows) < 80)
        part.set_yticks(range(len(shown)), [shown_key(key) for key in shown], fontsize=6.5)
        part.set_ylim(max(len(shown), 1) - 0.4, -0.6)
        part.set_xlim(-0.5, max(windows) + 0.5)
        title = title_words(query, levels[query], found.get(query, {}), len(shown), count, columns.get(query))
        part.set_title(title, loc='left', fontsize=8, pad=3, color=pictures.colour(number))
    pictures.whole_ticks(parts[-1][0].xaxis)
    parts[-1][0].set_xlabel('window' if width == 1 else 'window; a square is %d windows, by the greatest of their numbers' % width)
    return figure


def main():
    words = pictures.command_line(__doc__)
    words.add_argument('answers', help='what `run --csv` printed, or printed answers; - is standard input')
    words.add_argument('--queries', help='the query file: its order, queries without a row, and the name of the number')
    words.add_argument('--level', type=int, help='draw this level in place of the finest')
    words.add_argument('--most', type=int, default=12, help='keys that are drawn of a query (default 12)')
    words.add_argument('--windows', type=int, metavar='N', help='how many windows the capture has, where what is read doesn\'t tell it')
    given = words.parse_args()
    pictures.form_of(given.output)
    queries = texts.read_queries(given.queries) if given.queries else []
    found, windows = read(given.answers, printed.places_of(queries))
    names = [query.name for query in queries] or list(found)
    if not names or not any(found.values()):
        sys.exit('%s: no row was answered' % given.answers)
    if given.windows is not None and given.windows <= max(windows):
        sys.exit('--windows %d: there is a window %d' % (given.windows, max(windows)))
    windows.add((given.windows or 1) - 1)
    pictures.save(drawn(found, windows, names, queries, given), given.output)
    return 0


if __name__ == '__main__':
    sys.exit(main())
