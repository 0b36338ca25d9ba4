"""What the prefix of a branch sends in a window: residence in registers, and the items."""

from . import answers
from .fields import ADDRESSES, NUMBERS, WIDTHS
from .typing_rules import Branch, copies, walk

BASIS, PRIME, MODULUS = 14695981039346656037, 1099511628211, 1 << 64


def max_cut(operators):
    """The greatest cut: no stateful operators before it but one distinct, one reduce, or both in this order, and only filters after the reduce."""
    for count in range(len(operators), -1, -1):
        kinds = [op.kind for op in operators[:count]]
        stateful = [kind for kind in kinds if kind in ('distinct', 'reduce')]
        later = kinds[kinds.index('reduce') + 1:] if 'reduce' in kinds else []
        if stateful in ([], ['distinct'], ['reduce'], ['distinct', 'reduce']) and set(later) <= {'filter'}:
            return count
    return 0


def schemas(query, number):
    """The columns (name, width, address mark) before each operator of a branch, and at its end. A typed query doesn't change, so they are kept with it."""
    known = vars(query).setdefault('known_schemas', {})
    if number not in known:
        known[number] = worked_schemas(query, number)
    return known[number]


def worked_schemas(query, number):
    at = Branch(query, query.branches[number][-1])
    fields = [(name, WIDTHS[name], name in ADDRESSES) for name in sorted(query.read[number], key=NUMBERS.get)]
    found = []
    for operator in query.branches[number]:
        found.append(list(at.columns) if at.mapped else fields)
        walk(operator, at)
    found.append(list(at.columns) if at.mapped else fields)
    return found


def carried(query, number):
    """The name of the refinement column before each operator of a branch, and at its end."""
    name, found = query.refine_field, [query.refine_field]
    for operator in query.branches[number]:
        if operator.kind == 'map':
            name = copies(operator, name)[0].name
        found.append(name)
    return found


def slot(register, key, slots):
    """FNV-1a over the key's columns, least byte first, eight bytes of one below 2^64 and sixteen of another; it begins with the basis exclusive-ored with
    the register's number."""
    held = BASIS ^ register
    for column in key:
        for byte in column.to_bytes(8 if column < MODULUS else 16, 'little'):
            held = (held ^ byte) * PRIME % MODULUS
    return held % slots


def homes(keys, depth, slots):
    """The place of each key that resides."""
    taken, found = set(), {}
    for key in dict.fromkeys(keys):
        for register in range(depth):
            place = register * slots + slot(register, key, slots)
            if place not in taken:
                taken.add(place)
                found[key] = place
                break
    return found


def held_rows(rows, operator, home):
    """A row for each resident key of a reduce, by rising place."""
    groups = {}
    for row in rows:
        groups.setdefault(tuple(row[k] for k in operator.keys), []).append(row)
    return [answers.reduced(groups[key], operator)[0] for key in sorted(home, key=home.get)]


def items(query, number, level, tuples, cut, depth, sizes):
    """The items of a branch at a level over the tuples of a window that are kept, each beside its packet's number, and those that are read
    out. An item is a tag (`at` or `partial` and an operator's number) and a row."""
    operators, sizes, sent, spilled = query.branches[number], list(sizes), [], False
    read = query.read[number]
    flow = [(n, {name: t[name] for name in read}) for n, t in ((n, answers.masked(t, query, level)) for n, t in tuples)]
    for i, operator in enumerate(operators[:cut]):
        if operator.kind in ('filter', 'map'):
            flow = [(n, row) for n, one in flow for row in answers.apply([one], operator, level)]
            continue
        keys = [tuple(row[k] for k in (operator.keys if operator.kind == 'reduce' else row)) for _, row in flow]
        home = homes(keys, depth, sizes.pop(0))
        sent += [(n, ('at', i, tuple(row.values()))) for (n, row), key in zip(flow, keys) if key not in home]
        if operator.kind == 'reduce':
            held = held_rows([row for (_, row), key in zip(flow, keys) if key in home], operator, home)
            if spilled:
                return sent, [('partial', i, tuple(row.values())) for row in held]
            for later in operators[i + 1:cut]:
                held = answers.apply(held, later, level)
            return sent, [('at', cut, tuple(row.values())) for row in held]
        spilled = any(key not in home for key in keys)
        seen = set()
        flow = [one for one, key in zip(flow, keys) if key in home and not (key in seen or seen.add(key))]
    return sent + [(n, ('at', cut, tuple(row.values()))) for n, row in flow], []
