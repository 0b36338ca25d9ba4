"""Wrong definitions as texts: reads the lists of checks/wrong, and puts each edit into the code beside what it stands for, under a number.

An edit changes a few words of an expression or a statement. Around these words the smallest expression is found that stands by itself (between brackets,
commas, `=`, `=>`, `&&`, `||` and the like), and in its place stands `(if sn_wrong::is(N) { WRONG } else { RIGHT })`."""

import os
import re

TOKEN = re.compile(r'//[^\n]*|/\*.*?\*/|"(?:\\.|[^"\\])*"|b?\'(?:\\(?:u\{\w+\}|x\w\w|.)|[^\'\\])\'|\'\w+|\w+(?:\.\d\w*)?|::|->|=>|\.\.=|\.\.|<<=|>>=|[-+*/%&|^]=|==|!=|<=|>=|&&|\|\||[^\w\s]', re.S)
OPEN, CLOSE = {'(': ')', '[': ']', '{': '}'}, {')': '(', ']': '[', '}': '{'}
LEFT_ENDS = {',', ';', '=', '+=', '-=', '*=', '/=', '%=', '&=', '|=', '^=', '<<=', '>>=', '=>', 'return', 'if', 'while', 'match', 'in', 'else', ':', '..', '..=', 'break'}
RIGHT_ENDS = {',', ';', '=>', 'else', '..', '..=', '=', '+=', '-='}
# What goes on with an expression that ended in a block.
AFTER_BLOCKS = {'.', '?', 'as', '==', '!=', '<=', '>=', '&&', '||', '+'}
# What begins a clause, with or without a name before its braces.
CLAUSES = {'requires', 'ensures', 'decreases'}
HEADS = {'if', 'while', 'match', 'in'}
FIELDS = ('definition', 'says', 'file', 'in', 'old', 'new')


class Bad(Exception):
    """An entry that can't be read, or whose text isn't there."""


def tokens(text):
    """The tokens of a text, each with its place, without comments."""
    return [(one.group(), one.start(), one.end()) for one in TOKEN.finditer(text) if not one.group().startswith(('//', '/*'))]


class Entry:
    """A wrong definition: its name, and its fields."""

    def __init__(self, crate, number, fields):
        self.crate, self.name, self.fields = crate, '%s %d' % (crate, number), fields

    def __getattr__(self, name):
        return self.fields.get(name, '')


def block_entry(crate, number, block):
    fields = {}
    for line in block.strip('\n').split('\n'):
        head, colon, rest = line.partition(':')
        if not colon or head not in FIELDS or head in fields:
            raise Bad('%s.wrong: no field: %s' % (crate, line))
        fields[head] = rest.strip()
    if not {'definition', 'says', 'file', 'old', 'new'} <= set(fields):
        raise Bad('%s.wrong: a field is lacking: %s' % (crate, block))
    return Entry(crate, number, fields)


def read_list(path):
    """The entries of a list, in order, numbered from 1."""
    crate = os.path.basename(path)[:-len('.wrong')]
    with open(path, encoding='utf-8') as file:
        blocks = re.split(r'\n{2,}', file.read().strip('\n'))
    blocks = ['\n'.join(line for line in block.split('\n') if not line.startswith('#')) for block in blocks]
    return [block_entry(crate, number, block) for number, block in enumerate(filter(None, blocks), 1)]


def closing(found, at):
    """The place in a list of tokens of the bracket that closes the one there."""
    depth = 0
    for place in range(at, len(found)):
        depth += (found[place][0] in OPEN) - (found[place][0] in CLOSE)
        if depth == 0:
            return place
    raise Bad('a bracket is open')


def bodies(text, found):
    """The functions of a text: the name, and where the body begins and ends."""
    for place, (word, _, _) in enumerate(found[:-1]):
        if word == 'fn' and re.match(r'\w', found[place + 1][0]):
            at = place + 2
            while at < len(found) and found[at][0] != ';':
                if found[at][0] == '{' and not CLAUSES & {found[at - 1][0], found[at - 2][0]}:
                    yield found[place + 1][0], found[at][1], found[closing(found, at)][2]
                    break
                at = closing(found, at) + 1 if found[at][0] in OPEN else at + 1


def place_of(entry, text):
    """Where the old text of an entry stands in its file."""
    spans = [(0, len(text))]
    if entry.fields.get('in'):
        spans = [(start, end) for name, start, end in bodies(text, tokens(text)) if name == entry.fields['in']]
    places = [start + it.start() for start, end in spans for it in re.finditer(re.escape(entry.old), text[start:end])]
    if len(places) != 1:
        raise Bad('%s: stands %d times: %s' % (entry.name, len(places), entry.old))
    return places[0]


def changed(old, new):
    """How many characters at the front and at the end two texts have in common, whole words alone."""
    front = os.path.commonprefix([old, new])
    front = front[:len(front) - len(re.search(r'\w*$', front).group())] if len(front) < max(len(old), len(new)) else front
    rest, other = old[len(front):], new[len(front):]
    end = os.path.commonprefix([rest[::-1], other[::-1]])[::-1]
    return len(front), len(end) - len(re.match(r'\w*', end).group())


def is_bar(text, token):
    """Whether a bar ends the parameters of a closure: it stands right after the last."""
    return token[0] == '|' and not text[token[1] - 1].isspace() or token[0] == '||' and text[token[1] - 1] == '('


def head_before(found, at):
    """Whether the statement before a token is still in the head of an if, while, match or for."""
    depth = 0
    for place in range(at, -1, -1):
        word = found[place][0]
        depth += (word in CLOSE) - (word in OPEN)
        if depth < 0 or depth == 0 and word in {';', '}', '=>', 'else'}:
            return False
        if depth == 0 and word in HEADS:
            return True
    return False


def left_end(text, found, at, stops):
    """The first token of the expression that a token belongs to."""
    while at > 0:
        word = found[at - 1][0]
        if word == '}' and found[at][0] not in AFTER_BLOCKS:
            # a block that ended is a statement of its own, before this one
            break
        if word in CLOSE:
            depth, at = 1, at - 1
            while depth:
                at -= 1
                depth += (found[at][0] in CLOSE) - (found[at][0] in OPEN)
            continue
        if word in OPEN or word in LEFT_ENDS or word in stops or is_bar(text, found[at - 1]):
            break
        at -= 1
    return at


def right_end(found, at, stops, in_head):
    """The last token of the expression that a token belongs to."""
    while at + 1 < len(found):
        word = found[at + 1][0]
        if word in CLOSE or word in RIGHT_ENDS or word in stops or word == '{' and in_head:
            break
        at = closing(found, at + 1) if word in OPEN else at + 1
    return at


def expression(text, start, end):
    """Where the smallest expression begins and ends that holds a piece of a text and stands by itself."""
    found = tokens(text)
    inside = [place for place, (_, left, right) in enumerate(found) if right > start and left < end] or \
        [max(place for place, (_, left, _) in enumerate(found) if left < max(start, 1))]
    words = {found[place][0] for place in range(inside[0], inside[-1] + 1)}
    first, last = inside[0], inside[-1]
    return found, first, last, words


def macro_around(found, at):
    """The first token of the `matches!` in whose pattern a token stands, or None."""
    depth = 0
    for place in range(at - 1, 1, -1):
        depth += (found[place][0] in CLOSE) - (found[place][0] in OPEN)
        if depth < 0:
            inside = found[place][0] == '(' and [it[0] for it in found[place - 2:place]] == ['matches', '!']
            return place - 2 if inside and any(word == ',' for word, _, _ in found[place:at]) else None
    return None


def settle(text, start, end, words=()):
    """The expression that holds a piece of a text, as its first and last place."""
    found, first, last, inside = expression(text, start, end)
    inside = inside | set(words)
    stops = set() if '||' in inside else {'||'} if '&&' in inside else {'||', '&&'}
    depth = low = 0
    for place in range(first, last + 1):
        depth += (found[place][0] in OPEN) - (found[place][0] in CLOSE)
        low = min(low, depth)
    if low or depth:
        raise Bad('the words that change aren\'t whole: %s' % text[start:end])
    left = left_end(text, found, first, stops)
    pattern = macro_around(found, left)
    if pattern is not None:
        first, last = pattern, closing(found, pattern + 2)
        left = left_end(text, found, first, stops)
    right = right_end(found, last, stops, head_before(found, left - 1))
    # what a call gives is lent as a whole, and not by each side of an `if`, where it would end
    if found[left][0] == '&' and found[left + 1][0] != 'mut' and found[right][0] == ')' and left < first:
        left += 1
    return found[left][1], found[right][2]


def is_statement(text):
    return text == '' or text.endswith((';', '}')) and not text.startswith('let ')


def variant(entry, text):
    """Where an entry's expression stands in its file, and the wrong text for it."""
    at = place_of(entry, text)
    if is_statement(entry.old) and is_statement(entry.new) and entry.old.endswith((';', '}')):
        return at, at + len(entry.old), entry.new, True
    for front, back in (changed(entry.old, entry.new), (0, 0)):
        start, end = at + front, at + len(entry.old) - back
        new = entry.new[front:len(entry.new) - back]
        try:
            left, right = settle(text, start, end, [word for word, _, _ in tokens(new)])
            return left, right, text[left:start] + new + text[end:right], False
        except Bad as bad:
            said = bad
    raise said


def put(text, variants):
    """A text with all variants in it: (first place, end, wrong text, whether it is a statement, number), which may lie in one another."""
    def piece(start, end, inside):
        made, at = '', start
        while inside:
            widest = min(inside, key=lambda it: (it[0], -it[1]))
            same = [it for it in inside if it[:2] == widest[:2]]
            within = [it for it in inside if it[:2] != widest[:2] and it[0] < widest[1]]
            inside = [it for it in inside if it[0] >= widest[1]]
            right = piece(widest[0], widest[1], within)
            tests = ''.join('if sn_wrong::is(%d) { %s } else ' % (number, wrong) for _, _, wrong, _, number in same)
            whole = tests + '{ ' + right + ' }'
            made += text[at:widest[0]] + (whole if widest[3] else '(' + whole + ')')
            at = widest[1]
        return made + text[at:end]
    for one in variants:
        for other in variants:
            if one[0] < other[0] < one[1] < other[1]:
                raise Bad('two edits overlap: %s / %s' % (text[one[0]:one[1]], text[other[0]:other[1]]))
    return piece(0, len(text), sorted(variants))
