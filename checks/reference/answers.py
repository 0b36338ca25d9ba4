"""Answers of `plain`: windows, operators and the printed text."""

import operator as compare

from . import fields as packets
from .tokens import GREATEST

HOLDS = {'==': compare.eq, '!=': compare.ne, '<': compare.lt, '<=': compare.le, '>': compare.gt, '>=': compare.ge}


def windows(records, window_ns):
    """The numbers of the windows that hold a record, each with its records, in order."""
    found, number = [], 0
    for record in records:
        number = max(number, (record[0] - records[0][0]) // window_ns)
        if not found or found[-1][0] != number:
            found.append((number, []))
        found[-1][1].append(record)
    return found


def constant_at(condition, level):
    """The constant of a condition at a level."""
    return dict(condition.relaxed).get(level, condition.constant)


def passes(row, conditions, level):
    return all(HOLDS[condition.comparison](row[condition.name] & condition.mask, constant_at(condition, level)) for condition in conditions)


def value(row, column):
    read = [row[name] for name in column.reads]
    if column.form == 'constant':
        return column.number
    if column.form == 'copy':
        return read[0]
    if column.form == 'mask':
        return read[0] & column.number
    if column.form == 'shift':
        return read[0] >> column.number
    if column.form == 'sum':
        return min(GREATEST, read[0] + read[1])
    return min(GREATEST, read[0] * column.number // read[1]) if read[1] else 0


def reduced(rows, operator):
    groups = {}
    for row in rows:
        groups.setdefault(tuple(row[key] for key in operator.keys), []).append(row[operator.value])
    fold = {'sum': lambda values: min(sum(values), (1 << operator.width) - 1), 'max': max, 'min': min, 'or': or_of}[operator.fold]
    return [dict(zip(operator.keys + [operator.value], key + (fold(values),))) for key, values in groups.items()]


def or_of(values):
    result = 0
    for number in values:
        result |= number
    return result


def apply(rows, operator, level):
    if operator.kind == 'filter':
        return [row for row in rows if passes(row, operator.conditions, level)]
    if operator.kind == 'map':
        return [{column.name: value(row, column) for column in operator.columns} for row in rows]
    if operator.kind == 'distinct':
        return list({tuple(row.items()): row for row in rows}.values())
    return reduced(rows, operator)


def masked(tuple_, query, level):
    """The packet with its refinement field's highest bits kept."""
    if level == 0:
        return tuple_
    low = packets.WIDTHS[query.refine_field] - level
    return {**tuple_, query.refine_field: tuple_[query.refine_field] >> low << low}


def branch_rows(query, number, tuples, level):
    read = query.read[number]
    rows = [{name: t[name] for name in read} for t in (masked(t, query, level) for t in tuples)]
    for operator in query.branches[number]:
        rows = apply(rows, operator, level)
    return rows


def join(left, right, keys):
    by_key = {}
    for row in right:
        by_key.setdefault(tuple(row[key] for key in keys), []).append(row)
    return [{**one, **other} for one in left for other in by_key.get(tuple(one[key] for key in keys), [])]


def sorted_rows(query, rows):
    return sorted(tuple(row[name] for name, _, _ in query.columns) for row in rows)


def rows_at(query, level, tuples):
    """The sorted rows of a query at a level."""
    rows = branch_rows(query, 0, tuples, level)
    if query.join_keys:
        rows = join(rows, branch_rows(query, 1, tuples, level), query.join_keys)
        for operator in query.after:
            rows = apply(rows, operator, level)
    return sorted_rows(query, rows)


def query_rows(query, tuples):
    """The finest level of a query, and its sorted rows there."""
    level = query.levels[-1] if query.levels else 0
    return level, rows_at(query, level, tuples)


def shown(number, width, address):
    """A number of a column: an address dotted, one of 128 bits as eight groups of hexadecimal digits, another number in decimal."""
    if not address:
        return str(number)
    if width == 128:
        return ':'.join('%04x' % (number >> shift & 65535) for shift in range(112, -1, -16))
    return '.'.join(str(number >> shift & 255) for shift in (24, 16, 8, 0))


def shown_row(query, row):
    return [shown(number, width, address) for number, (_, width, address) in zip(row, query.columns)]


def window_text(number, tuples, queries):
    lines = ['window %d' % number]
    for query in queries:
        level, rows = query_rows(query, tuples)
        lines.append('query %s level %d rows %d' % (query.name, level, len(rows)))
        lines += [' '.join(shown_row(query, row)) for row in rows]
    return '\n'.join(lines) + '\n'


def answers(window_us, queries, file):
    """The printed text, and how the capture ended: None, or a kind and a byte."""
    order, fraction_ns, link = packets.header(file)
    records, ending = packets.records(file, order, fraction_ns)
    found = windows(records, window_us * 1000)
    text = [window_text(number, [packets.fields(p, wire, link) for _, wire, p in window], queries) for number, window in found]
    if ending:
        text.append('capture %s at byte %d\n' % (ending[0].lower(), ending[1]))
    text.append('total windows %d\n' % len(found))
    return ''.join(text), ending
