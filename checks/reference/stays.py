"""`detect`: how long an address is in the unrefined answers of a query, and when a plan prints it."""

from . import answers, fields, split
from .tokens import ALL_BITS


def is_threshold(query, value, condition):
    """Whether a condition asks if the value of the reduce is above a constant that no level has greater than the finest."""
    finest = answers.constant_at(condition, query.levels[-1])
    return (condition.name == value and condition.mask == ALL_BITS and condition.comparison in ('>', '>=')
            and all(answers.constant_at(condition, level) <= finest for level in query.levels))


def is_monotone(query):
    if len(query.branches) != 1:
        return False
    distincts, reduced = 0, None
    for operator in query.branches[0]:
        if reduced is not None:
            if operator.kind != 'filter' or not all(is_threshold(query, reduced, condition) for condition in operator.conditions):
                return False
        elif operator.kind == 'filter':
            if any(condition.relaxed for condition in operator.conditions):
                return False
        elif operator.kind == 'distinct':
            distincts += 1
        elif operator.kind == 'reduce':
            if operator.fold not in ('sum', 'max', 'or') or distincts > 1:
                return False
            reduced = operator.value
    return reduced is not None


def stays_of(held):
    """The first and last windows of each run of consecutive numbers among these."""
    runs = []
    for number in sorted(held):
        if runs and runs[-1][1] + 1 == number:
            runs[-1][1] = number
        else:
            runs.append([number, number])
    return runs


def lines(query, path, seen):
    """The lines of a query, of whose windows the addresses of both answers are told."""
    shown = ['query %s levels %d bound %s' % (query.name, len(path), 'yes' if is_monotone(query) else 'no')]
    for address in sorted(set().union(*(unrefined for _, unrefined, _ in seen)) if seen else set()):
        for first, last in stays_of({number for number, unrefined, _ in seen if address in unrefined}):
            printed = [number for number, _, refined in seen if first <= number <= last and address in refined]
            shown.append('%s from %d to %d printed %s' % (answers.shown(address, fields.WIDTHS[query.refine_field], True), first, last, min(printed) if printed else 'never'))
    return shown


def detect(window_us, queries, entries, file):
    """The printed text, and how the capture ended."""
    windows, ending = split.windows_of(window_us, file)
    levels = split.Levels(queries, entries)
    seen = {q: [] for q, query in enumerate(queries) if query.levels}
    for number, tuples in windows:
        _, rows = levels.window(number, tuples)
        for q, found in seen.items():
            query, path = queries[q], entries[q].path
            whole = answers.rows_at(query, query.levels[-1], [t for _, t in tuples])
            found.append((number, split.column_of(query, whole), split.column_of(query, rows[(q, len(path) - 1)])))
    text = [line for q, found in seen.items() for line in lines(queries[q], entries[q].path, found)]
    if ending:
        text.append('capture %s at byte %d' % (ending[0].lower(), ending[1]))
    text.append('total windows %d' % len(windows))
    return ('\n'.join(text) + '\n').encode(), ending
