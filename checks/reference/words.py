"""The words of the command line."""

import re
from dataclasses import dataclass, field

FILES = {'plain': 2, 'plan': 3, 'run': 4, 'emit': 4, 'finish': 3, 'detect': 3, 'many': 5, 'check': 4, 'live': 4, 'replan': 4, 'gen': 0, 'job': 0}
MOST_FILES = {'many': 11}
WITH_NUMBER = ('replan',)
OPTIONS = {'plan': ['--nodes'], 'run': ['--csv'], 'live': ['--nodes', '--schedule', '--trace'], 'replan': ['--nodes']}
DIGITS = re.compile('[0-9]{1,10}\\Z')
RANGES = {'--nodes': (1, 1000000), '--schedule': (0, 4294967295), 'number': (0, 4294967295)}


@dataclass
class Command:
    """A command with its file words, its options, and its number where it has one."""
    name: str
    files: list = field(default_factory=list)
    options: dict = field(default_factory=dict)
    number: int = None


def number_of(word, what):
    """The number of a word in the range of what it is for, or None."""
    least, most = RANGES[what]
    return int(word) if DIGITS.match(word) and least <= int(word) <= most else None


def read_options(command, rest):
    """Whether the rest of the words are options of a command, each at most once."""
    while rest:
        name, rest = rest[0], rest[1:]
        if name not in OPTIONS.get(command.name, []) or name in command.options:
            return False
        command.options[name] = True
        if name in RANGES:
            value = number_of(rest[0], name) if rest else None
            if value is None:
                return False
            command.options[name], rest = value, rest[1:]
    return True


def read(words):
    """The command that words spell, or None."""
    if not words or words[0] not in FILES:
        return None
    command, count = Command(words[0]), FILES[words[0]]
    if count == 0:
        command.number = number_of(words[1], 'number') if len(words) == 2 else None
        return command if command.number is not None else None
    if words[0] in MOST_FILES:
        count = min(max(count, len(words) - 1), MOST_FILES[words[0]])
    command.files = list(words[1:1 + count])
    if len(command.files) < count or any(not word or word.startswith('-') for word in command.files):
        return None
    rest = list(words[1 + count:])
    if words[0] in WITH_NUMBER:
        command.number, rest = number_of(rest[0], 'number') if rest else None, rest[1:]
        if command.number is None:
            return None
    return command if read_options(command, rest) else None
