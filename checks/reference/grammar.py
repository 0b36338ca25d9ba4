"""Query text to queries, or its first fault."""

from dataclasses import dataclass, field

from .tokens import ALL_BITS, Fault, GREATEST, tokens

KEYWORDS = {'window', 'query', 'refine', 'packets', 'filter', 'at', 'map', 'as', 'distinct', 'reduce', 'sum', 'width', 'max', 'min', 'or', 'join'}
COMPARISONS = ['==', '!=', '<', '<=', '>', '>=']


@dataclass
class Condition:
    name: str
    mask: int
    comparison: str
    constant: int
    relaxed: list


@dataclass
class Column:
    """A column of a map: its form, the names that it reads, its number, and its own name."""
    form: str
    reads: list
    number: int
    name: str


@dataclass
class Operator:
    kind: str
    line: int
    conditions: list = field(default_factory=list)
    columns: list = field(default_factory=list)
    keys: list = field(default_factory=list)
    fold: str = ''
    value: str = ''
    width: int = 0


@dataclass
class Query:
    name: str
    refine_line: int = 0
    refine_field: str = ''
    levels: list = field(default_factory=list)
    branches: list = field(default_factory=list)
    join_line: int = 0
    join_keys: list = field(default_factory=list)
    after: list = field(default_factory=list)


class Reader:
    def __init__(self, text):
        self.rest = tokens(text)
        self.now = next(self.rest)

    def fault(self, kind):
        raise Fault('Lex' if self.now.kind == 'lex' else kind, self.now.line)

    def step(self):
        token = self.now
        self.now = next(self.rest)
        return token

    def is_symbol(self, symbol):
        return self.now.kind == 'symbol' and self.now.value == symbol

    def is_keyword(self, word):
        return self.now.kind == 'name' and self.now.value == word

    def is_name(self):
        return self.now.kind == 'name' and self.now.value not in KEYWORDS

    def is_number(self, least=0, most=GREATEST):
        return self.now.kind == 'number' and least <= self.now.value <= most

    def symbol(self, symbol):
        if not self.is_symbol(symbol):
            self.fault('Expected')
        return self.step()

    def keyword(self, word):
        if not self.is_keyword(word):
            self.fault('Expected')
        return self.step()

    def name(self, taken=()):
        if not self.is_name():
            self.fault('Expected')
        if len(self.now.value) > 32:
            self.fault('TooMany')
        if self.now.value in taken:
            self.fault('Twice')
        return self.step().value

    def number(self, least=0, most=GREATEST):
        if not self.is_number(least, most):
            self.fault('Expected')
        return self.step().value

    def listed(self, item, begins, limit):
        """Items joined by commas. `item` reads one, given those before it; `begins` says whether one can begin here."""
        items = []
        while True:
            if len(items) == limit and begins():
                self.fault('TooMany')
            items.append(item(items))
            if not self.is_symbol(','):
                return items
            self.step()

    def names(self):
        return self.listed(lambda before: self.name(before), self.is_name, 8)

    def relaxed(self, _):
        level = self.number(0, 128)
        self.symbol(':')
        return level, self.number()

    def condition(self, _):
        name, mask, relaxed = self.name(), ALL_BITS, []
        if self.is_symbol('&'):
            self.step()
            mask = self.number()
        if not (self.now.kind == 'symbol' and self.now.value in COMPARISONS):
            self.fault('Expected')
        comparison = self.step().value
        constant = self.number()
        if self.is_keyword('at'):
            self.step()
            self.symbol('(')
            relaxed = self.listed(self.relaxed, lambda: self.is_number(0, 128), 4)
            self.symbol(')')
        return Condition(name, mask, comparison, constant, relaxed)

    def expression(self, after_join):
        if self.now.kind == 'number':
            return 'constant', [], self.number()
        first = self.name()
        if self.is_symbol('&'):
            self.step()
            return 'mask', [first], self.number()
        if self.is_symbol('>>'):
            self.step()
            return 'shift', [first], self.number(0, 63)
        if after_join and self.is_symbol('+'):
            self.step()
            return 'sum', [first, self.name()], 0
        if after_join and self.is_symbol('*'):
            self.step()
            factor = self.number()
            self.symbol('/')
            return 'ratio', [first, self.name()], factor
        return 'copy', [first], 0

    def column(self, before, after_join):
        form, reads, number = self.expression(after_join)
        self.keyword('as')
        return Column(form, reads, number, self.name([c.name for c in before]))

    def filter(self, line):
        self.step()
        return Operator('filter', line, conditions=self.listed(self.condition, self.is_name, 8))

    def map(self, line, after_join=False):
        self.step()
        begins = lambda: self.is_name() or self.now.kind == 'number'
        return Operator('map', line, columns=self.listed(lambda before: self.column(before, after_join), begins, 8))

    def reduce(self, line):
        self.step()
        keys = self.names()
        self.symbol(':')
        fold = next((f for f in ('sum', 'max', 'min', 'or') if self.is_keyword(f)), None)
        if fold is None:
            self.fault('Expected')
        self.step()
        self.symbol('(')
        value = self.name(keys)
        self.symbol(')')
        width = 0
        if fold == 'sum':
            self.keyword('width')
            width = self.number(1, 64)
        return Operator('reduce', line, keys=keys, fold=fold, value=value, width=width)

    def operator(self, after_join):
        line = self.symbol('|').line
        if self.is_keyword('filter'):
            return self.filter(line)
        if self.is_keyword('map'):
            return self.map(line, after_join)
        if not after_join and self.is_keyword('distinct'):
            self.step()
            return Operator('distinct', line)
        if not after_join and self.is_keyword('reduce'):
            return self.reduce(line)
        self.fault('Expected')

    def operators(self, after_join):
        found = []
        while self.is_symbol('|'):
            if len(found) == 12:
                self.fault('TooMany')
            found.append(self.operator(after_join))
        return found

    def branch(self):
        self.keyword('packets')
        if not self.is_symbol('|'):
            self.fault('Expected')
        found = self.operators(False)
        self.symbol(';')
        return found

    def refine(self, query):
        query.refine_line = self.step().line
        query.refine_field = self.name()
        self.symbol(':')
        query.levels = self.listed(lambda before: self.number(0, 128), lambda: self.is_number(0, 128), 4)
        self.symbol(';')

    def join(self, query):
        query.join_line = self.keyword('join').line
        query.join_keys = self.names()
        query.after = self.operators(True)
        self.symbol(';')

    def query(self, before):
        self.keyword('query')
        query = Query(self.name([q.name for q in before]))
        self.symbol('{')
        if self.is_keyword('refine'):
            self.refine(query)
        query.branches.append(self.branch())
        if self.is_keyword('packets'):
            query.branches.append(self.branch())
            self.join(query)
        self.symbol('}')
        return query

    def file(self):
        self.keyword('window')
        window = self.number(1, 3600000000)
        queries = [self.query([])]
        while self.is_keyword('query'):
            if len(queries) == 8:
                self.fault('TooMany')
            queries.append(self.query(queries))
        if self.now.kind != 'end':
            self.fault('Expected')
        return window, queries


def parse(text):
    """The window in microseconds and the queries of a text. Raises the text's first fault."""
    return Reader(text).file()
