"""`run`, `emit` and `finish`: queries refined along a plan, over the windows of a capture."""

from . import answers, engines, fields, pipes


def column_of(query, rows):
    """The refinement column of answers."""
    place = [name for name, _, _ in query.columns].index(query.carried)
    return {row[place] for row in rows}


def keeps(query, bits, prefixes, tuple_):
    return answers.masked(tuple_, query, bits)[query.refine_field] in prefixes


def is_open(limit, prefixes):
    """Whether a table for at most so many prefixes stays open: it hasn't room for these. No limit is None."""
    return limit is not None and len(prefixes) > limit


class Levels:
    """The answers of each query at each level of its path in the window before. A table has a limit of prefixes, or none."""

    def __init__(self, queries, entries, limit=None):
        self.queries, self.entries, self.limit = queries, entries, limit
        self.number, self.before = None, {}

    def prefixes(self, q, j, number):
        """What the level before another answered in the window before."""
        follows = self.number is not None and self.number + 1 == number
        return column_of(self.queries[q], self.before[(q, j - 1)]) if follows else set()

    def shared(self, q, j, number, tuples):
        """The numbered tuples of a window that pass the table of a level, and those of them that the level answers."""
        if j == 0:
            return tuples, tuples
        query, bits, prefixes = self.queries[q], self.entries[q].path[j - 1], self.prefixes(q, j, number)
        kept = [(n, t) for n, t in tuples if keeps(query, bits, prefixes, t)]
        return tuples if is_open(self.limit, prefixes) else kept, kept

    def window(self, number, tuples):
        """The tuples that pass each level of each query, and the rows that it answers."""
        shares = {(q, j): self.shared(q, j, number, tuples) for q, entry in enumerate(self.entries) for j in range(len(entry.path))}
        rows = {(q, j): answers.rows_at(self.queries[q], self.entries[q].path[j], [t for _, t in kept]) for (q, j), (_, kept) in shares.items()}
        self.number, self.before = number, rows
        return {place: passing for place, (passing, _) in shares.items()}, rows


def lane_items(switch, queries, entries, passing):
    """The lanes in order, each with what it sends and reads out in a window."""
    found = []
    for q, entry in enumerate(entries):
        for piece in entry.pieces:
            j = entry.path.index(piece.level)
            found.append(((q, j, piece.branch), pipes.items(queries[q], piece.branch, piece.level, passing[(q, j)], piece.cut, switch.chain, piece.sizes)))
    return found


def windows_of(window_us, file):
    """The windows of a capture, each with its numbered tuples, and how the capture ends."""
    order, fraction_ns, link = fields.header(file)
    records, ending = fields.records(file, order, fraction_ns)
    found = answers.windows(records, window_us * 1000)
    return [(number, list(enumerate(fields.fields(p, wire, link) for _, wire, p in window))) for number, window in found], ending


def part_lines(query, level, rows):
    return ['query %s level %d rows %d' % (query.name, level, len(rows))] + [' '.join(answers.shown_row(query, row)) for row in rows]


def block(number, emitted, parts):
    lines = ['window %d emitted %d' % (number, emitted)]
    for part in parts:
        lines += part_lines(*part)
    return '\n'.join(lines) + '\n'


def windows_along(window_us, queries, switch, entries, file):
    """The number, items and parts of each window along a plan, and how the capture ends."""
    found, ending = windows_of(window_us, file)
    levels, blocks = Levels(queries, entries, switch.entries), []
    for number, tuples in found:
        passing, rows = levels.window(number, tuples)
        emitted = sum(len(sent) + len(read) for _, (sent, read) in lane_items(switch, queries, entries, passing))
        blocks.append((number, emitted, [(queries[q], entry.path[j], rows[(q, j)]) for q, entry in enumerate(entries) for j in range(len(entry.path))]))
    return blocks, ending


def run(window_us, queries, switch, entries, file):
    """The text of `run`, and how the capture ends."""
    blocks, ending = windows_along(window_us, queries, switch, entries, file)
    text = [block(*one) for one in blocks]
    if ending:
        text.append('capture %s at byte %d\n' % (ending[0].lower(), ending[1]))
    text.append('total windows %d emitted %d\n' % (len(blocks), sum(emitted for _, emitted, _ in blocks)))
    return ''.join(text).encode(), ending


HEADING = 'window,query,level,c1,c2,c3,c4,c5,c6,c7,c8\n'


def run_csv(window_us, queries, switch, entries, file):
    """The rows of `run --csv`, and how the capture ends."""
    blocks, ending = windows_along(window_us, queries, switch, entries, file)
    text = [HEADING]
    for number, _, parts in blocks:
        for query, level, rows in parts:
            for row in rows:
                columns = answers.shown_row(query, row)
                text.append(','.join([str(number), query.name, str(level)] + columns + [''] * (8 - len(columns))) + '\n')
    return ''.join(text).encode(), ending


def emit(window_us, queries, switch, entries, file):
    """The frames of `emit`, and how the capture ends."""
    found, ending = windows_of(window_us, file)
    levels, frames = Levels(queries, entries, switch.entries), []
    for number, tuples in found:
        passing, _ = levels.window(number, tuples)
        lanes = lane_items(switch, queries, entries, passing)
        sent = sorted((n, place, lane, item) for place, (lane, (items, _)) in enumerate(lanes) for n, item in items)
        frames += [engines.encoded(lane, item) for _, _, lane, item in sent]
        for lane, (_, read) in lanes:
            frames += [engines.encoded(lane, item) for item in read] + [engines.ended(lane, number)]
    return b''.join(frames), ending


def finish(queries, entries, reports):
    """The text of `finish`, and the kind and byte of what is wrong with the reports, or None."""
    engine, at, text, windows, total = engines.Engine(queries, entries), 0, [], 0, 0
    while at < len(reports):
        try:
            lane, content, end = engines.decode(reports, at)
        except engines.BadReports as fault:
            return ''.join(text).encode(), fault.args
        why = engine.fault(lane, content)
        if why:
            return ''.join(text).encode(), (why, at)
        engine.take(lane, content)
        at = end
        if engine.is_whole():
            number, emitted, parts = engine.close()
            text.append(block(number, emitted, parts))
            windows, total = windows + 1, total + emitted
    if engine.started():
        return ''.join(text).encode(), ('Unfinished', len(reports))
    text.append('total windows %d emitted %d\n' % (windows, total))
    return ''.join(text).encode(), None
