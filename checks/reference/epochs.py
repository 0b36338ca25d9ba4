"""`replan`: a capture that is answered along plans that follow its traffic."""

from . import split


def is_early(cut, item):
    """Whether an item left the switch before the cut of its piece: a row at an operator before it, or a part."""
    tag, number, _ = item
    return tag == 'partial' or number != cut


def answered(queries, switch, entries, levels, number, tuples):
    """The items of a window along a plan, each with the cut of its piece, and the window's block."""
    passing, rows = levels.window(number, tuples)
    cuts = [piece.cut for entry in entries for piece in entry.pieces]
    lanes = split.lane_items(switch, queries, entries, passing)
    items = [(cut, item) for cut, (_, (sent, read)) in zip(cuts, lanes) for item in [one for _, one in sent] + read]
    parts = [(queries[q], entry.path[j], rows[(q, j)]) for q, entry in enumerate(entries) for j in range(len(entry.path))]
    return items, split.block(number, len(items), parts)


def texts(windows, ending, queries, switch, entries, most, planned):
    """What is written after the first plan, piece by piece. `planned` gives the entries and the text of the plan of one window."""
    levels, epoch, total, over = split.Levels(queries, entries, switch.entries), 0, 0, None
    for number, tuples in windows:
        front = ''
        if over:
            epoch += 1
            entries, front = planned([over])
            levels, front = split.Levels(queries, entries, switch.entries), 'epoch %d\n%s' % (epoch, front.decode())
        items, block = answered(queries, switch, entries, levels, number, tuples)
        yield (front + block).encode()
        total += len(items)
        over = (number, tuples) if sum(is_early(*one) for one in items) > most else None
    damage = 'capture %s at byte %d\n' % (ending[0].lower(), ending[1]) if ending else ''
    yield ('%stotal windows %d emitted %d\n' % (damage, len(windows), total)).encode()
