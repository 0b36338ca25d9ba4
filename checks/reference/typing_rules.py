"""Names, widths and the eight faults of types."""

from .fields import ADDRESSES, NUMBERS, WIDTHS
from .tokens import Fault


class Branch:
    """What is known of a branch while its operators are walked: the fields read, the columns, and the carried column."""

    def __init__(self, query, last=None):
        self.query = query
        self.last = last
        self.mapped = False
        self.read = []
        self.columns = []
        self.carried = query.refine_field

    def known(self, name):
        return name in (self.width() if self.mapped else WIDTHS)

    def width(self):
        return {name: width for name, width, _ in self.columns} if self.mapped else WIDTHS

    def is_address(self, name):
        return any(address for other, _, address in self.columns if other == name) if self.mapped else name in ADDRESSES

    def refined(self):
        return bool(self.query.refine_field)

    def end_columns(self):
        """The columns at the branch's end: those of its packet rows where it has no map."""
        if self.mapped:
            return self.columns
        return [(name, WIDTHS[name], name in ADDRESSES) for name in sorted(self.read, key=NUMBERS.get)]


def names_read(operator):
    if operator.kind == 'filter':
        return [c.name for c in operator.conditions]
    if operator.kind == 'map':
        return [name for column in operator.columns for name in column.reads]
    if operator.kind == 'reduce':
        return operator.keys + [operator.value]
    return []


def fault_unknown(operator, at):
    if not at.mapped and operator.kind in ('distinct', 'reduce'):
        return None
    if all(at.known(name) for name in names_read(operator)):
        return None
    return 'UnknownColumn' if at.mapped else 'UnknownField'


def fault_too_wide(operator, at):
    if not at.mapped and operator.kind in ('filter', 'map'):
        return 'TooWide' if len(set(at.read) | set(names_read(operator))) > 8 else None
    if not at.mapped:
        return None
    if operator.kind == 'reduce':
        wide = at.width()[operator.value] > (operator.width if operator.fold == 'sum' else 64)
    else:
        wide = any(at.width()[name] > 64 for column in operator.columns if column.form in ('sum', 'ratio') for name in column.reads)
    return 'TooWide' if wide else None


def copies(operator, name):
    return [c for c in operator.columns if c.form == 'copy' and c.reads == [name]]


def fault_refine_lost(operator, at):
    if not at.refined():
        return None
    lost = (operator.kind == 'map' and not copies(operator, at.carried)
            or operator.kind == 'reduce' and at.carried not in operator.keys
            or operator is at.last and not at.mapped and operator.kind != 'map')
    return 'RefineLost' if lost else None


def fault_refine_filter(operator, at):
    if not at.refined():
        return None
    reads = names_read(operator).count(at.carried)
    lawful = {'filter': 0, 'map': 1, 'distinct': 0, 'reduce': 1}[operator.kind]
    return 'RefineFilter' if reads > lawful else None


def fault_levels(operator, at):
    for condition in operator.conditions:
        levels = [level for level, _ in condition.relaxed]
        if len(set(levels)) < len(levels) or not set(levels) <= set(at.query.levels):
            return 'Levels'
    return None


def first_fault(operator, at):
    fault = fault_unknown(operator, at) or fault_too_wide(operator, at)
    if fault is None and not at.mapped and operator.kind in ('distinct', 'reduce'):
        fault = 'NoMap'
    return fault or fault_refine_lost(operator, at) or fault_refine_filter(operator, at) or fault_levels(operator, at)


def column_of(column, at):
    """A map's column as a triple of name, width and address mark."""
    if column.form == 'constant':
        return column.name, max(1, column.number.bit_length()), False
    if column.form in ('sum', 'ratio'):
        return column.name, 64, False
    width = at.width()[column.reads[0]]
    if column.form == 'shift':
        return column.name, max(1, width - column.number), False
    return column.name, width, at.is_address(column.reads[0])


def reduced(operator, at):
    kept = {name: (name, width, address) for name, width, address in at.columns}
    width = operator.width if operator.fold == 'sum' else at.width()[operator.value]
    return [kept[key] for key in operator.keys] + [(operator.value, width, False)]


def walk(operator, at):
    """Check one operator and go on after it."""
    fault = first_fault(operator, at)
    if fault:
        raise Fault(fault, operator.line)
    if not at.mapped and operator.kind in ('filter', 'map'):
        at.read += sorted(set(names_read(operator)) - set(at.read))
    if operator.kind == 'map':
        columns = [column_of(column, at) for column in operator.columns]
        if at.refined():
            at.carried = copies(operator, at.carried)[0].name
        at.columns, at.mapped = columns, True
    elif operator.kind == 'reduce':
        at.columns = reduced(operator, at)


def check_refine(query):
    if not query.refine_field:
        return
    if query.refine_field not in NUMBERS:
        raise Fault('UnknownField', query.refine_line)
    rising = all(a < b for a, b in zip(query.levels, query.levels[1:]))
    lawful = query.refine_field in ADDRESSES and rising and query.levels[0] >= 1 and query.levels[-1] <= WIDTHS[query.refine_field]
    if not lawful:
        raise Fault('Levels', query.refine_line)


def join_fault(query, left, right):
    left_width = {name: width for name, width, _ in left.end_columns()}
    right_width = {name: width for name, width, _ in right.end_columns()}
    keys = query.join_keys
    all_known = all(key in left_width and key in right_width for key in keys)
    if all_known and len(left_width) + len(right_width) - len(keys) > 8:
        return 'TooWide'
    if query.refine_field and not (left.carried == right.carried and left.carried in keys):
        return 'RefineLost'
    lawful = all_known and all(left_width[k] == right_width[k] for k in keys) and set(left_width) & set(right_width) == set(keys)
    return None if lawful else 'JoinKeys'


def joined(query, left, right):
    at = Branch(query)
    kept = {name: (name, width, address) for name, width, address in left.end_columns()}
    others = [c for c in left.end_columns() + right.end_columns() if c[0] not in query.join_keys]
    at.columns = [kept[key] for key in query.join_keys] + others
    at.mapped, at.carried = True, left.carried
    return at


def check_query(query):
    check_refine(query)
    ends = []
    for operators in query.branches:
        at = Branch(query, operators[-1])
        for operator in operators:
            walk(operator, at)
        ends.append(at)
    query.read = [sorted(at.read, key=NUMBERS.get) for at in ends]
    query.branch_columns = [[name for name, _, _ in at.end_columns()] for at in ends]
    at = ends[0]
    if query.join_keys:
        fault = join_fault(query, *ends)
        if fault:
            raise Fault(fault, query.join_line)
        at = joined(query, *ends)
        for operator in query.after:
            walk(operator, at)
    query.columns, query.carried = at.end_columns(), at.carried


def check(queries):
    """Check the queries of a file. Adds to each the fields that its branches read, its columns, and the name of its refinement column."""
    for query in queries:
        check_query(query)
