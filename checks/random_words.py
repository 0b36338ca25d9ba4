#!/usr/bin/env python3
"""Compares which words `sonata` takes as a command with the reading of reference/words.py: random lists of words, good and spoilt, over files that aren't there.
Words that spell a command end with status 9, since the first file can't be read, and all others with 2, as do those of a command that the program hasn't.
Prints each case on which they differ. The status is 0 where none does. Needs nothing but Python."""

import functools
import random
import sys

import program
from reference import words

NUMBERS = ['0', '1', '7', '007', '1000000', '1000001', '4294967295', '4294967296', '0000000001', '00000000001', '', '-1', '+1', '0x1', '1.0', '\u0661', ' 1', '9999999999']
STRANGE = ['', '-', '--', '-h', '--help', '--version', '--nodes', '--nodes=5', '--csv', '--csv=1', '--trace', '--schedule', '--NODES', 'no', 'plan', '\u00e9', 'a b']


def option(draw, name):
    spelled = draw.choice([name] * 12 + STRANGE)
    return [spelled] + ([draw.choice(NUMBERS)] if name in ('--nodes', '--schedule') and draw.random() < 0.95 else [])


def spoken(draw):
    """A list of words, mostly close to those of a command."""
    name = draw.choice(list(words.FILES))
    said = [name] + ['absent%d' % i for i in range(words.FILES[name])]
    if words.FILES[name] == 0 or name in words.WITH_NUMBER:
        said.append(draw.choice(NUMBERS))
    options = [option(draw, draw.choice(['--nodes', '--csv', '--schedule', '--trace'] + words.OPTIONS.get(name, []) * 4)) for _ in range(draw.choice([0, 0, 1, 1, 2, 3]))]
    said += [word for one in options for word in one]
    for _ in range(draw.choice([0, 0, 0, 0, 1, 2])):
        form, place = draw.randrange(4), draw.randrange(len(said))
        if form == 0:
            said.pop(place)
        elif form == 1:
            said.insert(place, draw.choice(STRANGE))
        elif form == 2:
            said[place] = draw.choice(STRANGE)
        else:
            other = draw.randrange(len(said))
            said[place], said[other] = said[other], said[place]
        if not said:
            break
    return said


built = functools.lru_cache(None)(program.built)


def wanted(executable, said):
    """The answer that words should have, or None where they would compute something or their option may be missing."""
    given = words.read(said)
    if given is None or given.name not in built(executable) or '--csv' in given.options and 'run --csv' not in built(executable):
        return 2, b'', 'sonata: usage\n'
    if given.number is not None and not given.files or ('--schedule' in given.options or '--trace' in given.options) and 'live --schedule' not in built(executable):
        return None
    return 9, b'', 'sonata: read fault\n'


def case(executable, seed, _):
    said = spoken(random.Random(seed))
    answer = wanted(executable, said)
    return ['not asked'] if answer is None else [program.alike(executable, answer, *said)]


if __name__ == '__main__':
    sys.exit(program.random_cases(__doc__, case, cases=3000))
