"""Report frames, and what an engine makes of them."""

from . import answers, pipes
from .fields import WIDTHS


class BadReports(Exception):
    """Refused reports: the kind and the byte."""


# the bytes of a column, by version
SIZES = {1: 8, 2: 16}


def encoded(lane, item, version=2):
    tag, operator, row = item
    head = [version, {'at': 0, 'partial': 1}[tag], *lane, operator, len(row), 0]
    return bytes(head) + b''.join(column.to_bytes(SIZES[version], 'big') for column in row)


def ended(lane, window, version=2):
    return bytes([version, 2, *lane, 0, 1, 0]) + window.to_bytes(8, 'big')


def size_of(head):
    """The bytes of each number of a frame that begins so: a window's has eight in both versions."""
    return 8 if head[1] == 2 else SIZES[head[0]]


def head_bound(place, head):
    """The values that a frame may have at one of its first eight bytes, the bytes before it being these."""
    is_end = len(head) > 1 and head[1] == 2
    return [{1, 2}, {0, 1, 2}, set(range(8)), set(range(4)), {0, 1}, {0} if is_end else set(range(13)), {1} if is_end else set(range(9)), {0}][place]


def decode(bytes_, at):
    """The lane, the item or the window's number, and the end of the frame at a byte."""
    for place in range(8):
        if at + place == len(bytes_):
            raise BadReports('Cut', at)
        if bytes_[at + place] not in head_bound(place, bytes_[at:at + place]):
            raise BadReports('Bad', at + place)
    kind, lane, operator, columns = bytes_[at + 1], tuple(bytes_[at + 2:at + 5]), bytes_[at + 5], bytes_[at + 6]
    size = size_of(bytes_[at:])
    end = at + 8 + size * columns
    if end > len(bytes_):
        raise BadReports('Cut', at)
    row = tuple(int.from_bytes(bytes_[k:k + size], 'big') for k in range(at + 8, end, size))
    return lane, (row[0] if kind == 2 else ('at' if kind == 0 else 'partial', operator, row)), end


def refinement_column(query, rows):
    """The refinement column of answers; nothing of a query that isn't refined."""
    place = [name for name, _, _ in query.columns].index(query.carried) if query.levels else None
    return set() if place is None else {row[place] for row in rows}


class Lane:
    """What came of a piece in a window."""

    def __init__(self, query, piece):
        self.query, self.piece = query, piece
        self.schemas = pipes.schemas(query, piece.branch)
        self.prefix = [op.kind for op in query.branches[piece.branch][:piece.cut]]
        self.clear()

    def clear(self):
        self.items, self.end = [], None

    def is_tag(self, tag, operator):
        if tag == 'at':
            return operator == self.piece.cut or operator < self.piece.cut and self.prefix[operator] in ('distinct', 'reduce')
        return operator < self.piece.cut and self.prefix[operator] == 'reduce' and 'distinct' in self.prefix[:operator]

    def columns(self, tag, operator):
        return self.schemas[operator + (tag == 'partial')]

    def is_wide(self, item):
        columns = self.columns(*item[:2])
        return len(item[2]) != len(columns) or any(number >> width for number, (_, width, _) in zip(item[2], columns))

    def left(self, bits, prefixes):
        """Drop the items of other prefixes than these, which have so many bits."""
        names, low = pipes.carried(self.query, self.piece.branch), WIDTHS[self.query.refine_field] - bits
        kept = []
        for tag, operator, row in self.items:
            place = [name for name, _, _ in self.columns(tag, operator)].index(names[operator + (tag == 'partial')])
            if row[place] >> low << low in prefixes:
                kept.append((tag, operator, row))
        return kept

    def value(self, items):
        """The rows tagged with the first operator go through all, and the others join where they are tagged."""
        def rows(tag, operator):
            names = [name for name, _, _ in self.columns(tag, operator)]
            return [dict(zip(names, row)) for t, o, row in items if (t, o) == (tag, operator)]

        operators, level = self.query.branches[self.piece.branch], self.piece.level
        flow = rows('at', 0)
        for i, operator in enumerate(operators):
            if operator.kind == 'reduce':
                flow = answers.reduced(flow + rows('partial', i), operator)
            else:
                flow = answers.apply(flow, operator, level)
            flow = flow + rows('at', i + 1)
        return flow


class Engine:
    """The lanes, the number of the window that was closed last, and the prefixes that each level of each query answered in it."""

    def __init__(self, queries, entries):
        self.queries, self.entries, self.closed, self.answered = queries, entries, None, {}
        self.lanes = {}
        for q, (query, entry) in enumerate(zip(queries, entries)):
            for piece in entry.pieces:
                self.lanes[(q, entry.path.index(piece.level), piece.branch)] = Lane(query, piece)

    def fault(self, lane, content):
        """Why a frame is refused, or None."""
        to = self.lanes.get(lane)
        if isinstance(content, int):
            if to is None:
                return 'Stranger'
            if to.end is not None:
                return 'AfterEnd'
            others = [other.end for other in self.lanes.values() if other.end is not None]
            late = self.closed is not None and content <= self.closed
            return 'Window' if late or any(other != content for other in others) else None
        if to is None or not to.is_tag(*content[:2]):
            return 'Stranger'
        if to.is_wide(content):
            return 'Width'
        return 'AfterEnd' if to.end is not None else None

    def take(self, lane, content):
        if isinstance(content, int):
            self.lanes[lane].end = content
        else:
            self.lanes[lane].items.append(content)

    def started(self):
        return any(lane.items or lane.end is not None for lane in self.lanes.values())

    def is_whole(self):
        return all(lane.end is not None for lane in self.lanes.values())

    def value(self, q, j, branch, follows):
        """What a lane makes of its items. Where a level stands before its own, only those of prefixes count that this one answered in the window before."""
        lane = self.lanes[(q, j, branch)]
        if j == 0:
            return lane.value(lane.items)
        return lane.value(lane.left(self.entries[q].path[j - 1], self.answered[(q, j - 1)] if follows else set()))

    def part(self, q, j, follows):
        query, level = self.queries[q], self.entries[q].path[j]
        rows = self.value(q, j, 0, follows)
        if query.join_keys:
            rows = answers.join(rows, self.value(q, j, 1, follows), query.join_keys)
            for operator in query.after:
                rows = answers.apply(rows, operator, level)
        return query, level, answers.sorted_rows(query, rows)

    def close(self):
        """The window's number, its number of items, and its parts."""
        window = next(iter(self.lanes.values())).end
        emitted = sum(len(lane.items) for lane in self.lanes.values())
        follows = self.closed is not None and self.closed + 1 == window
        parts = {(q, j): self.part(q, j, follows) for q, entry in enumerate(self.entries) for j in range(len(entry.path))}
        for lane in self.lanes.values():
            lane.clear()
        self.closed = window
        self.answered = {(q, j): refinement_column(query, rows) for (q, j), (query, _, rows) in parts.items()}
        return window, emitted, list(parts.values())
