#!/usr/bin/env python3
"""Draws the bounding tree of what `sonata plan` printed: the way to the plan, and what was pruned beside it.

    tree.py SWITCH QUERIES PLANTREE -o tree.svg

The green way goes from the empty plan down to the plan, one box for the choices of a query's path or of a piece (its cut, sizes and stages). Beside
it hang the choices that weren't taken, folded by their kind: B can cost no less than the plan, by its bound, X breaks the switch's limits, and E was
looked into further, since its bound is below the cost, or equals it and it stands before the plan. Small trees are opened; in large ones what is below an E is counted in its box. The boxes are laid out downwards or to the right, boxes side by side in
several rows where they are many, whichever comes nearest to a page."""

import collections
import dataclasses
import html
import shutil
import subprocess
import sys

import pictures
import texts
from texts import costs

PACKAGE = 'Needs graphviz: on Debian `apt-get install graphviz`.'
FILLS = {'E': '#e8eef7', 'B': '#eeeeee', 'X': '#f6dcdc', 'P': '#cfe8d5'}
WORDS = {'E': 'expanded', 'B': 'bounded', 'X': 'broken', 'P': 'the plan'}
LEGEND = {'E': 'E: looked into, its bound is below the cost, or equals it and it stands before the plan', 'B': 'B: costs at least as much as the plan, by its bound', 'X': 'X: breaks a limit of the switch', 'P': 'P: the plan'}
PAGE = 1.4


@dataclasses.dataclass
class Node:
    """A node of the tree: its letter and number, the last choice of its partial plan, and its children."""
    letter: str
    number: int
    choice: str
    kind: str
    children: list = dataclasses.field(default_factory=list)
    below: collections.Counter = dataclasses.field(default_factory=collections.Counter)
    to_plan: bool = False
    limit: str = ''


def listed(numbers):
    return ', '.join(map(str, numbers))


def choice_of(before, partial):
    """The last choice of a partial plan in words, and whether it is a path, an option or a stage."""
    if len(partial.paths) > len(before.paths):
        q = len(partial.paths) - 1
        return '%s: path %s' % (partial.costs.queries[q].name, listed(partial.paths[q])), 'path'
    for (q, piece), (_, old) in zip(partial.pieces, before.pieces):
        if old.option is None and piece.option is not None:
            slots = ' slots ' + listed(piece.option[1]) if piece.option[1] else ''
            return '%s: cut %d%s' % (texts.piece_name(partial.costs.queries[q], piece), piece.option[0], slots), 'option'
    return '%s in stage %d' % (register_of(before, partial), partial.choices[-1]), 'stage'


def register_of(before, partial):
    """The register whose stage is a partial plan's last choice: that of a distinct or of a reduce, and its number in its chain."""
    q, piece = next((q, piece) for (q, piece), (_, old) in zip(partial.pieces, before.pieces) if len(piece.stages) > len(old.stages))
    kinds = [operator.kind for operator in partial.costs.queries[q].branches[piece.branch][:piece.option[0]] if operator.kind in ('distinct', 'reduce')]
    chain, number = partial.costs.switch.chain, len(piece.stages) - 1
    return kinds[number // chain] + (' %d/%d' % (number % chain + 1, chain) if chain > 1 else '')


def broken_limit(partial):
    """The limit of the switch that a partial plan breaks, in words."""
    switch, broken = partial.costs.switch, partial.broken_limit()
    if broken is None:
        return 'no limit: this node is wrong'
    limit, where, found = broken
    if limit == 'stages':
        return 'the tables of %s reach past the last stage' % texts.piece_name(*where)
    if limit == 'actions':
        return 'stage %d would have %d registers of %d' % (where, found, switch.actions)
    if limit == 'bits':
        return 'stage %d would have %s bits of %s' % (where, format(found, ','), format(switch.bits, ','))
    return 'the metadata would have %d bits of %d' % (found, switch.meta)


def built(queries, switch, nodes):
    """The tree that nodes in preorder stand for. The space of plans says how many children an E has."""
    start = costs.Partial(costs.Costs(queries, switch, []), [])
    root = Node('', 0, 'all plans', 'start')
    waiting, listing = [(root, None, start)], iter(nodes)
    while waiting:
        above, before, partial = waiting.pop()
        try:
            letter, number = next(listing)
            choice, kind = choice_of(before, partial) if before else ('all plans', 'start')
            node = Node(letter, number, choice, kind, limit=broken_limit(partial) if letter == 'X' else '')
            if letter == 'E':
                waiting += [(node, partial, child) for child in reversed(partial.children())]
        except (StopIteration, TypeError):
            sys.exit('the nodes are no tree over the plans of this switch and these queries')
        above.children.append(node)
    if next(listing, None):
        sys.exit('nodes stand after the tree')
    return root.children[0]


def count(root):
    """Count what is at and below each node, and mark the way to the plan."""
    order, waiting = [], [root]
    while waiting:
        node = waiting.pop()
        order.append(node)
        waiting += node.children
    for node in reversed(order):
        node.below[node.letter] += 1
        for child in node.children:
            node.below.update(child.below)
        node.to_plan = node.below['P'] > 0


def way(root):
    """The nodes from the root to the plan, in lists of one path or one piece."""
    found, node = [[root]], root
    while node.letter == 'E':
        node = next((child for child in node.children if child.to_plan), None)
        if node is None:
            break
        if node.kind == 'stage':
            found[-1].append(node)
        else:
            found.append([node])
    return found


def opened(segments, most):
    """The E nodes beside the way that are drawn open: the ones nearest to it first, while there is room."""
    room, found = most - 3 * len(segments), set()
    waiting = collections.deque(child for segment in segments for node in segment for child in node.children if child.letter == 'E' and not child.to_plan)
    if len(waiting) > room // 2:
        return found
    while waiting:
        node = waiting.popleft()
        room -= 1 + len({child.letter for child in node.children})
        if room < 0:
            break
        found.add(id(node))
        waiting += [child for child in node.children if child.letter == 'E']
    return found


def span(numbers):
    least, greatest = min(numbers), max(numbers)
    return 'bound %s' % format(least, ',') if least == greatest else 'bounds %s to %s' % (format(least, ','), format(greatest, ','))


def stage_choices(nodes):
    """The stages that were chosen, on a line for each register."""
    stages = collections.defaultdict(set)
    for node in nodes:
        register, stage = node.choice.split(' in stage ')
        stages[register].add(int(stage))
    return ['%s in stage%s %s' % (register, 's' * (len(found) > 1), stage_span(sorted(found))) for register, found in stages.items()]


def stage_span(stages):
    whole = len(stages) > 2 and stages[-1] - stages[0] == len(stages) - 1
    return '%d to %d' % (stages[0], stages[-1]) if whole else listed(stages)


def shown_choices(nodes, most=3):
    """The first choices of nodes, one on a line, and how many more there are. Stages are told on one line."""
    if all(node.kind == 'stage' for node in nodes):
        return stage_choices(nodes)
    words = [node.choice for node in nodes]
    return words[:most] + (['and %d more' % (len(words) - most)] if len(words) > most else [])


class Graph:
    """The text for graphviz. Edges are kept apart from boxes, so that boxes side by side can be laid out in several rows."""

    def __init__(self):
        self.lines, self.boxes, self.edges = [], 0, collections.defaultdict(list)

    def box(self, words, fill, bold=False):
        name, self.boxes = 'n%d' % self.boxes, self.boxes + 1
        cells = '<BR/>'.join(['<B>%s</B>' % html.escape(words[0])] + [html.escape(line) for line in words[1:]])
        self.lines.append('%s [label=<%s>, fillcolor="%s"%s];' % (name, cells, fill, ', color="#3d9157", penwidth=2' if bold else ''))
        return name

    def edge(self, above, below, bold=False):
        self.edges[above].append((below, 'color="#3d9157", penwidth=2.5, weight=20' if bold else 'color="#999999"'))

    def folded(self, above, nodes):
        """A box for nodes of one letter side by side."""
        letter = nodes[0].letter
        words = ['%s %s' % (format(len(nodes), ','), WORDS[letter])]
        if letter != 'X':
            words.append(span([node.number for node in nodes]))
        words += shown_choices(nodes)
        if letter == 'E':
            below = sum((child.below for node in nodes for child in node.children), collections.Counter())
            words.append('below: ' + ', '.join('%s %s' % (format(below[kind], ','), kind) for kind in 'EBX') if below else 'no stage is left')
        self.edge(above, self.box(words, FILLS[letter]))

    def beside(self, above, nodes, open_):
        """What hangs below a box: each opened node by itself, and the others by their letter and kind of choice."""
        groups = collections.defaultdict(list)
        for node in nodes:
            if id(node) in open_:
                name = self.box([node.choice, 'expanded, bound %s' % format(node.number, ',')], FILLS['E'])
                self.edge(above, name)
                self.beside(name, node.children, open_)
            else:
                groups[(node.kind == 'stage', node.letter)].append(node)
        for group in groups.values():
            self.folded(above, group)

    def text(self, title, direction, rows):
        """The graph laid out downwards or to the right. What hangs beside the way below one box is spread over so many rows."""
        points = 12 * max(1, (self.boxes / 40) ** 0.5)
        lines = ['digraph {', 'graph [label=<%s>, labelloc=t, rankdir=%s, fontname="DejaVu Sans", nodesep=0.15, ranksep=0.3];' % (legend(title, points), direction),
                 'node [shape=box, style="filled,rounded", fontname="DejaVu Sans", fontsize=9, margin="0.14,0.05"];', 'edge [arrowhead=none];'] + self.lines
        for above, below in self.edges.items():
            for place, (name, style) in enumerate(below):
                lines.append('%s -> %s [%s, minlen=%d];' % (above, name, style, 1 if 'weight' in style else 1 + place % rows))
        return '\n'.join(lines + ['}'])


def legend(title, points):
    """The title with the meaning of each colour below it, in letters of a size."""
    def cell(words, size, more):
        return '<TD %s><FONT POINT-SIZE="%.0f">%s</FONT></TD>' % (more, size, html.escape(words))
    cells = ''.join(cell(words, 0.75 * points, 'BGCOLOR="%s"' % FILLS[letter]) for letter, words in LEGEND.items())
    return '<TABLE BORDER="0" CELLSPACING="4"><TR>%s</TR><TR>%s</TR></TABLE>' % (cell(title, points, 'COLSPAN="4"'), cells)


def laid_out(graph, title):
    """The graph's text in the layout that comes nearest to a page. Few boxes go downwards."""
    if graph.boxes <= 60:
        return graph.text(title, 'TB', 1)
    found = []
    for direction in ('TB', 'LR'):
        for rows in (1, 2, 4, 8):
            text = graph.text(title, direction, rows)
            words = subprocess.run(['dot', '-Tplain'], input=text.encode(), stdout=subprocess.PIPE, check=True).stdout.split()
            shape = float(words[2]) / float(words[3]) / PAGE
            found.append((max(shape, 1 / shape), text))
    return min(found)[1]


def way_words(segment):
    last = segment[-1]
    words = [segment[0].choice] + ([', '.join(node.choice for node in segment[1:])] if segment[1:] else [])
    if last.letter == 'P':
        return words + ['the plan, cost %s' % format(last.number, ',')]
    return words + ['bound %s' % format(last.number, ',')]


def drawn(root, most):
    segments = way(root)
    graph, above = Graph(), None
    open_ = opened(segments, most)
    for place, segment in enumerate(segments):
        name = graph.box(way_words(segment), FILLS[segment[-1].letter], bold=True)
        if above:
            graph.edge(above, name, bold=True)
        further = segments[place + 1] if place + 1 < len(segments) else []
        parents = segment[-1:] + further[:-1]
        graph.beside(name, [child for node in parents for child in node.children if not child.to_plan], open_)
        above = name
    counts = ', '.join('%s %s' % (format(root.below[letter], ','), WORDS[letter]) for letter in 'EBX')
    return laid_out(graph, '%s nodes: %s, and the plan' % (format(sum(root.below.values()), ','), counts))


def main():
    words = pictures.command_line(__doc__, PACKAGE)
    words.add_argument('switch')
    words.add_argument('queries')
    words.add_argument('certificate', metavar='PLANTREE', help='what `sonata plan` printed; - is standard input')
    words.add_argument('--most', type=int, default=40, help='open E nodes beside the way while there are about so few boxes (default 40)')
    given = words.parse_args()
    form = pictures.form_of(given.output)
    if not shutil.which('dot'):
        sys.exit(PACKAGE)
    switch, queries = texts.read_switch(given.switch), texts.read_queries(given.queries)
    _, _, nodes = texts.read_certificate(given.certificate)
    if not nodes:
        sys.exit('%s: a tree without nodes' % given.certificate)
    root = built(queries, switch, nodes)
    count(root)
    made = subprocess.run(['dot', '-T' + form], input=drawn(root, given.most).encode(), stdout=subprocess.PIPE, check=True).stdout
    if form == 'svg':
        pictures.write_svg(made.decode(), given.output)
    else:
        pictures.write(made, given.output)
    return 0


if __name__ == '__main__':
    sys.exit(main())
