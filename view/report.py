#!/usr/bin/env python3
"""Writes one page of HTML about a plan and what was answered by it, to be handed around: nothing in it is loaded from elsewhere.

    report.py SWITCH QUERIES TRAIN PLANTREE CAPTURE -o report.html

The page has the plan in the switch, the tree of bounds to open node by node, the items sent by query and level, the answers over time with a table to sort
and filter, how late refined queries were answered, the commands and the checksums of all files, and what is proved and what isn't. It runs `sonata check`,
`run`, `emit` and `detect` for that. --answers, --reports and --stays give what the last three wrote, in their place, and --unchecked leaves `check` out,
which the page then says.

PLANTREE is what `sonata plan` printed. A page of a tree of 10,000 nodes and of a day of windows stays below 2 MB: of more than 3,000 keys those are shown
that were answered in most windows, and of many windows several share a column. A tree of more than 20,000 nodes is left out, and the page says so;
--whole-tree puts it in, which takes minutes for 500,000 nodes, and 7 MB. A line on standard error says so."""

import argparse
import collections
import hashlib
import html
import io
import json
import os
import sys
import tempfile

import emitted
import layout
import pictures
import printed
import programs
import stays
import texts
import times
import tree

TEMPLATE = os.path.join(os.path.dirname(os.path.abspath(__file__)), 'report.html')
COLUMNS, KEYS, NODES, STAYS = 120, 3000, 20000, 20


def checksum(name):
    try:
        with open(name, 'rb') as file:
            return hashlib.file_digest(file, 'sha256').hexdigest()
    except OSError as fault:
        sys.exit('%s: %s' % (name, fault.strerror))


def run_to(words, name):
    """What the program prints, in a file. A damaged capture is answered up to its damage, as the page says."""
    with open(name, 'wb') as file, programs.opened(words, stdout=file, stderr=-1) as running:
        line = running.stderr.read().decode(errors='replace').strip()
    if running.returncode not in (0, 5) or not os.path.getsize(name):
        sys.exit('%s: %s' % (words[1], line or 'status %d' % running.returncode))
    return line


def layout_svg(switch, queries, plan):
    """The picture of the plan in the switch."""
    picture = layout.Picture(switch, queries, plan)
    picture.draw('')
    text = io.StringIO()
    picture.figure.savefig(text, format='svg', bbox_inches='tight', metadata={'Date': None})
    svg = pictures.shortened(text.getvalue())
    return svg[svg.index('<svg'):]


def tree_data(queries, switch, nodes):
    """The tree in preorder: letters, bounds, the numbers of the words of each choice, of the children, and of the words of a broken limit."""
    root = tree.built(queries, switch, nodes)
    tree.count(root)
    words, order, waiting = {}, [], [root]
    while waiting:
        node = waiting.pop()
        order.append(node)
        waiting += reversed(node.children)

    def number(text):
        return words.setdefault(text, len(words))
    data = {'letters': ''.join(node.letter for node in order), 'bounds': [node.number or 0 for node in order], 'choices': [number(node.choice) for node in order],
            'children': [len(node.children) for node in order], 'limits': [number(node.limit) if node.limit else 0 for node in order],
            'below': [sum(node.below.values()) for node in order], 'plan': [place for place, node in enumerate(order) if node.to_plan]}
    return dict(data, words=list(words))


def tree_words(given, nodes):
    """How many nodes the tree has, and of which kinds; and that it isn't shown, where it is left out."""
    count = collections.Counter(letter for letter, _ in nodes)
    line = '%s nodes: %s, and the plan.' % (format(len(nodes), ','), ', '.join('%s %s' % (format(count[letter], ','), tree.WORDS[letter]) for letter in 'EBX'))
    if is_shown(given, nodes):
        return line
    return line + ' They are left out of this page, since they are more than %s; <code>report.py --whole-tree</code> puts them in, and %s has them as text.' % (
        format(NODES, ','), html.escape(os.path.basename(given.certificate)))


def is_shown(given, nodes):
    return given.whole_tree or len(nodes) <= NODES


def columns_of(windows):
    """How many windows share a column."""
    return -(-max(1, windows) // COLUMNS)


def sent_svg(plan, windows, counts, query, count):
    """The items that a query sends, by level, as bars over the windows."""
    path, width = plan[query].path, columns_of(count)
    sums = [[0] * (-(-count // width)) for _ in path]
    for (window, q, place), number in counts.items():
        if q == query:
            sums[place][window // width] += number
    tops = [sum(column) for column in zip(*sums)]
    most, below, parts = max(tops + [1]), [0] * len(tops), []
    for place, numbers in enumerate(sums):
        steps = []
        for x, number in enumerate(numbers):
            if number:
                height, base = 60 * number / most, 60 * below[x] / most
                steps.append('M%d %.1fh.9v-%.1fh-.9z' % (x, 62 - base, height))
                below[x] += number
        parts.append('<path d="%s" fill="%s"/>' % (''.join(steps), hexed(pictures.shade(query, place, len(path)))))
    legend = ' '.join('<span class="level"><i style="background:%s"></i>%s%s</span>' % (
        hexed(pictures.shade(query, place, len(path))), '/%d ' % level if level else '', format(sum(sums[place]), ',')) for place, level in enumerate(path))
    return '<figure><figcaption><b style="color:%s">%s</b> %s, at most %s a column</figcaption><svg viewBox="0 0 %d 63" preserveAspectRatio="none" role="img" ' \
        'aria-label="items of %s over windows"><path d="M0 62.5h%d" stroke="#999" stroke-width=".5"/>%s</svg></figure>' % (
            pictures.colour(query), html.escape(plan[query].name), legend, format(max(tops + [0]), ','), len(tops), html.escape(plan[query].name), len(tops), ''.join(parts))


def hexed(colour):
    return '#%02x%02x%02x' % tuple(round(255 * part) for part in colour)


class Finding:
    """A key of a query and level, over the windows that answered it."""

    def __init__(self):
        self.first = self.last = None
        self.windows, self.greatest, self.at, self.columns = 0, -1, 0, {}

    def add(self, window, number, width):
        if self.last != window:
            self.windows += 1
        self.first = window if self.first is None else self.first
        self.last = window
        if number > self.greatest:
            self.greatest, self.at = number, window
        self.columns[window // width] = max(number, self.columns.get(window // width, 0))


def read_answers(name):
    """The rows of a file with their windows, and the number of windows."""
    rows = [row for row in printed.rows(name)]
    return [row for row in rows if row[1]], 1 + max([row[0] for row in rows] + [-1])


def findings(rows, count, queries):
    """What was answered, key by key: query, level, key, first and last window, how many, the greatest number, its window, and a line of digits over time."""
    found, width, order = collections.defaultdict(Finding), columns_of(count), {query.name: place for place, query in enumerate(queries)}
    places = printed.places_of(queries)
    for window, query, level, row in rows:
        key, number = printed.keyed(row, places.get(query))
        found[order.get(query, 0), level, key].add(window, 1 if number is None else number, width)
    best = sorted(found.items(), key=lambda item: (-item[1].windows, -item[1].greatest))
    lines = []
    for (query, level, key), one in best[:KEYS]:
        columns = [one.columns.get(x, -1) for x in range(one.first // width, one.last // width + 1)]
        line = ''.join('0' if number < 0 else str(1 + round(6 * number / max(1, one.greatest))) for number in columns)
        lines.append([query, level, key, one.first, one.last, one.windows, one.greatest, one.at, one.first // width, line])
    return lines, len(found)


def commands(given):
    """The lines by which a colleague repeats it, by the files' own names."""
    base = [os.path.basename(name) for name in (given.switch, given.queries, given.train, given.certificate, given.capture)]
    switch, queries, train, certificate, capture = base
    return ['sonata check %s %s %s %s' % (switch, queries, train, certificate), 'sonata run %s %s %s %s' % (switch, queries, certificate, capture),
            'sonata emit %s %s %s %s > reports' % (switch, queries, certificate, capture), 'sonata detect %s %s %s' % (queries, certificate, capture)]


def kept_words(keys):
    """How many keys the table has."""
    if keys <= KEYS:
        return 'All %s keys are in the table.' % format(keys, ',')
    return 'The table has the %s keys of most windows, of %s.' % (format(KEYS, ','), format(keys, ','))


def filled(parts):
    """The page: the template with each part in its place."""
    with open(TEMPLATE, encoding='utf-8') as file:
        text = file.read()
    for name, part in parts.items():
        text = text.replace('{{%s}}' % name, part)
    return text


def checked(given):
    """What `check` says, in words."""
    if given.unchecked:
        return 'It was not checked for this page.'
    status, text, line = programs.answered([given.sonata, 'check', given.switch, given.queries, given.train, given.certificate], (0, 6, 7))
    return '<code>sonata check</code> says <b>%s</b>.' % html.escape((text if status == 0 else line).strip())


def late_svg(name, count):
    """How late addresses were printed, over so many windows; in words where no query is refined."""
    queries = stays.read_file(name)
    if not queries:
        return '<p>No query is refined, so none is late.</p>'
    svg = pictures.shortened(stays.drawn(queries, STAYS, count))
    return '<div class="wide" tabindex="0" role="region" aria-label="how late addresses were printed">%s</div>' % svg


def made(given, answers, reports, late, damage):
    """The parts of the page."""
    switch, queries = texts.read_switch(given.switch), texts.read_queries(given.queries)
    plan, cost, nodes = texts.read_certificate(given.certificate)
    texts.shaped(queries, plan)
    if len(nodes) > NODES:
        print('a tree of %s nodes: %s' % (format(len(nodes), ','), 'this takes a while' if given.whole_tree else 'left out, --whole-tree puts it in'),
              file=sys.stderr, flush=True)
    data = tree_data(queries, switch, nodes) if is_shown(given, nodes) else None
    rows, count = read_answers(answers)
    _, windows, counts = emitted.counted(given.certificate, reports)
    count = max(count, 1 + max(windows + [-1]))
    lines, keys = findings(rows, count, queries)
    first = times.first_record(given.capture) // 1000
    page = {'first': first, 'window': times.window_of(given.queries), 'count': count, 'width': columns_of(count), 'cost': cost, 'tree': data, 'rows': lines,
            'queries': [{'name': query.name, 'colour': pictures.colour(q), 'number': query.columns[-1][0]} for q, query in enumerate(queries)]}
    files = [given.switch, given.queries, given.train, given.certificate, given.capture]
    return {
        'title': html.escape(given.title), 'cost': format(cost, ','), 'train': html.escape(os.path.basename(given.train)), 'checked': checked(given),
        'capture': html.escape(os.path.basename(given.capture)), 'windows': format(len(windows), ','), 'sent': format(sum(counts.values()), ','),
        'damage': html.escape('The capture is damaged: %s.' % damage) if damage else '', 'layout': layout_svg(switch, queries, plan),
        'plan': html.escape('\n'.join(texts.plans.lines(plan))), 'switch': html.escape(texts.held(given.switch).decode(errors='replace')),
        'nodes': tree_words(given, nodes), 'with': '' if data else ' hidden',
        'charts': ''.join(sent_svg(plan, windows, counts, q, count) for q in range(len(plan))),
        'per': '' if columns_of(count) == 1 else ' A column is %d windows.' % columns_of(count),
        'kept': kept_words(keys), 'late': late_svg(late, count),
        'asked': html.escape(texts.held(given.queries).decode(errors='replace')), 'commands': html.escape('\n'.join(commands(given))),
        'files': ''.join('<tr><td>%s</td><td><code>%s</code></td></tr>' % (html.escape(os.path.basename(name)), checksum(name)) for name in files + [given.sonata]),
        'data': json.dumps(page, separators=(',', ':')).replace('</', '<\\/')}


def main():
    words = argparse.ArgumentParser(description=__doc__ + '\n\n' + pictures.PACKAGE, formatter_class=argparse.RawDescriptionHelpFormatter)
    words.add_argument('switch')
    words.add_argument('queries')
    words.add_argument('train', help='the training capture')
    words.add_argument('certificate', metavar='PLANTREE', help='what `sonata plan` printed')
    words.add_argument('capture', help='the capture that is answered')
    words.add_argument('-o', '--output', metavar='PAGE', required=True, help='the page to write')
    words.add_argument('--title', default='A plan and its answers', help='the title of the page')
    words.add_argument('--answers', help='what `sonata run` printed, where it is there already')
    words.add_argument('--reports', help='what `sonata emit` wrote, where it is there already')
    words.add_argument('--stays', help='what `sonata detect` printed, where it is there already')
    words.add_argument('--unchecked', action='store_true', help='leave `sonata check` out')
    words.add_argument('--whole-tree', action='store_true', help='show the tree also where it has more than %s nodes' % format(NODES, ','))
    programs.add_option(words)
    given = words.parse_args()
    pictures.drawing()
    for name in (given.switch, given.queries, given.train, given.certificate, given.capture, given.sonata):
        checksum(name)
    four = given.switch, given.queries, given.certificate, given.capture
    with tempfile.TemporaryDirectory(prefix='sonata-report-') as folder:
        answers, reports, late = (one or os.path.join(folder, name) for one, name in ((given.answers, 'answers'), (given.reports, 'reports'), (given.stays, 'stays')))
        damage = '' if given.answers else run_to([given.sonata, 'run', *four], answers)
        if not given.reports:
            run_to([given.sonata, 'emit', *four], reports)
        if not given.stays:
            run_to([given.sonata, 'detect', *four[1:]], late)
        page = filled(made(given, answers, reports, late, damage))
    try:
        with open(given.output, 'w', encoding='utf-8') as file:
            file.write(page)
    except OSError as fault:
        sys.exit('%s: %s' % (given.output, fault.strerror))
    return 0


if __name__ == '__main__':
    sys.exit(main())
