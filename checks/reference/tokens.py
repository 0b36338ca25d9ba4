"""Tokens of query texts."""

import re

SYMBOLS = ['==', '!=', '<=', '>=', '>>', '{', '}', ';', ',', '|', '(', ')', ':', '&', '+', '*', '/', '<', '>']
WORD = re.compile(rb'[A-Za-z0-9_][A-Za-z0-9_.]*')
DECIMAL = re.compile(rb'[0-9]+\Z')
HEXADECIMAL = re.compile(rb'0x[0-9A-Fa-f]+\Z')
ADDRESS = re.compile(rb'([0-9]{1,3})\.([0-9]{1,3})\.([0-9]{1,3})\.([0-9]{1,3})\Z')
GREATEST = (1 << 64) - 1
# What a condition without `&` keeps: more bits than a number of a text has.
ALL_BITS = (1 << 128) - 1


class Fault(Exception):
    """A refused query text: the kind of the fault and its line."""

    def __init__(self, kind, line):
        super().__init__(kind, line)
        self.kind = kind
        self.line = line


class Token:
    """A token: its kind (`name`, `number`, `symbol`, `end` or `lex`), its value and its line."""

    def __init__(self, kind, value, line):
        self.kind = kind
        self.value = value
        self.line = line


def number_of(word):
    """The number of a word that begins with a digit, or None where it is no number."""
    if DECIMAL.match(word):
        # 21 digits after the zeros are past 64 bits, whatever follows them
        value = int(word.lstrip(b'0')[:21] or b'0')
    elif HEXADECIMAL.match(word):
        value = int(word, 16)
    else:
        parts = ADDRESS.match(word)
        if parts is None:
            return None
        value = 0
        for part in parts.groups():
            if int(part) > 255:
                return None
            value = value * 256 + int(part)
    return value if value <= GREATEST else None


def word_token(word, line):
    if not word[:1].isdigit():
        return Token('name', word.decode('ascii'), line)
    value = number_of(word)
    return Token('lex', None, line) if value is None else Token('number', value, line)


def skip_blanks(text, at, line):
    """The place and line of the first byte from `at` on that is neither a blank nor in a comment."""
    while at < len(text):
        byte = text[at:at + 1]
        if byte == b'#':
            end = text.find(b'\n', at)
            at = len(text) if end < 0 else end
        elif byte in b' \t\r\n':
            line += byte == b'\n'
            at += 1
        else:
            break
    return at, line


def tokens(text):
    """The tokens of a text one after another. The last is the end, or the first place where no token begins."""
    at, line = skip_blanks(text, 0, 1)
    while at < len(text):
        word = WORD.match(text, at)
        if word:
            token, length = word_token(word.group(), line), len(word.group())
        else:
            symbol = next((s for s in SYMBOLS if text.startswith(s.encode(), at)), None)
            token, length = Token('lex' if symbol is None else 'symbol', symbol, line), len(symbol or '')
        yield token
        if token.kind == 'lex':
            return
        at, line = skip_blanks(text, at + length, line)
    yield Token('end', None, line)
