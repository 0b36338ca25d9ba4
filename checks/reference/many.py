"""`many`: several switches, each with a capture of its own, that run one plan."""

from . import engines, fields, pipes, split


def read(files):
    """Each capture's records, link and ending. A refused header ends it, with the number of the file."""
    found = []
    for number, file in enumerate(files, 1):
        try:
            order, fraction_ns, link = fields.header(file)
        except fields.BadHeader as fault:
            raise fields.BadHeader(*fault.args, number) from fault
        found.append((*fields.records(file, order, fraction_ns), link))
    return found


def windows_of(window_us, captures):
    """The windows that hold a record of any capture, each with the tuples of each capture. Window 0 begins at the least time of the captures' first
    records; each capture has a running number of its own."""
    start = min((records[0][0] for records, _, _ in captures if records), default=0)
    found = {}
    for place, (records, _, link) in enumerate(captures):
        number = 0
        for time, wire, packet in records:
            number = max(number, (time - start) // (window_us * 1000))
            found.setdefault(number, [[] for _ in captures])[place].append(fields.fields(packet, wire, link))
    return sorted(found.items())


def prefix(operators, cut):
    """How many operators a switch runs: those of the cut, up to the first that has registers."""
    for number, operator in enumerate(operators[:cut]):
        if operator.kind in ('distinct', 'reduce'):
            return number + 1
    return cut


def retagged(operators, count, item):
    """What stands after the switch's register is given the register's own number: a row of a distinct as its input, one of a reduce as a part."""
    tag, number, row = item
    last = operators[count - 1].kind if count else None
    if number != count or last not in ('distinct', 'reduce'):
        return item
    return ('at' if last == 'distinct' else 'partial', count - 1, row)


def switch_items(query, piece, depth, tuples):
    """The items that one switch sends of a piece in a window, with the tags of several."""
    operators = query.branches[piece.branch]
    count = prefix(operators, piece.cut)
    sent, read_out = pipes.items(query, piece.branch, piece.level, list(enumerate(tuples)), count, depth, piece.sizes)
    return [retagged(operators, count, item) for item in [one for _, one in sent] + read_out]


class Switches:
    """The switches and their engine: what the levels of each query answered in the window before, over all switches."""

    def __init__(self, queries, switch, entries):
        self.queries, self.switch, self.entries = queries, switch, entries
        self.levels, self.engine = split.Levels(queries, entries, switch.entries), engines.Engine(queries, entries)

    def window(self, number, captures):
        """The items of all switches and the answers of a window, by the queries themselves and by the engine from the items alone."""
        whole = [(place, t) for place, tuples in enumerate(captures) for t in tuples]
        passing, rows = self.levels.window(number, whole)
        for (q, j, branch), lane in self.engine.lanes.items():
            for place in range(len(captures)):
                sent = [t for other, t in passing[(q, j)] if other == place]
                lane.items += switch_items(self.queries[q], lane.piece, self.switch.chain, sent)
            lane.end = number
        _, emitted, parts = self.engine.close()
        return emitted, rows, {place: part for place, (_, _, part) in zip(rows, parts)}


def windows_along(window_us, queries, switch, entries, captures):
    switches = Switches(queries, switch, entries)
    return [(number, *switches.window(number, tuples)) for number, tuples in windows_of(window_us, captures)]


def many(window_us, queries, switch, entries, files):
    """The text of `many`, and how the first damaged capture ends: a kind, a byte and its number, or None."""
    captures = read(files)
    text, total = [], 0
    found = windows_along(window_us, queries, switch, entries, captures)
    for number, emitted, rows, _ in found:
        text.append(split.block(number, emitted, [(queries[q], entries[q].path[j], part) for (q, j), part in rows.items()]))
        total += emitted
    damaged = [(*ending, number) for number, (_, ending, _) in enumerate(captures, 1) if ending]
    text += ['capture %d %s at byte %d\n' % (number, kind.lower(), at) for kind, at, number in damaged]
    text.append('total windows %d emitted %d\n' % (len(found), total))
    return ''.join(text).encode(), damaged[0] if damaged else None
