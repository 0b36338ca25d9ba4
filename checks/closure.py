#!/usr/bin/env python3
"""Counts the definitions that a reader must believe by what contracts reach, from name to name.

    python3 checks/closure.py [--top FOLDER] [--list]

Begins at the headline (`KeepsHeadline`); at the clauses of `top`, which are all that commands promise; at those of the other program, `sonata_entries`; and at
those of laws, functions that do nothing, which stand in files `law.rt` and the like. From there it follows the `use` lines of specs/. Prints how many definitions and lines each reaches,
by crate for the first two. `definitions.py` compares that with the marks at the heads of files. It reads no model of an impl, and no struct or enum that stands in
src/. Python 3 alone."""

import argparse
import collections
import glob
import os
import re

TOP = os.path.dirname(os.path.dirname(os.path.abspath(__file__)))
NAMES = re.compile(r'(?:ghost )?use ([\w.+]+?)\.\{(.*?)\}[; ]*$', re.S)
WHOLE = re.compile(r'(?:ghost )?use ([\w.+]+) as (\w+)[; ]*$')
HEAD = re.compile(r'(?: {0,2}(?:abbrev|unfoldable) )?pub (?!use )(?:(?:record|data|abbrev|unfoldable) )*([^\s(:{]+)')
WORD = re.compile(r'[^\s(){}\[\],;λ"]+')
MODULE = re.compile(r'Rattle\.(\w+)\.specs\.(\w+)(?:\.(\w+))?$')
FUNCTION = re.compile(r'\s*(?:pub(?:\(\w+\))? )?fn (\w+)')
CLAUSE = re.compile(r'\s*(?:requires|ensures)\b')
HEADLINE = ('sn_command_live', 'Headline', 'KeepsHeadline')


class Definition:
    """A definition: its file and the first line of it, what the file uses, and its lines."""

    def __init__(self, path, mark, uses, wholes):
        self.path, self.mark, self.uses, self.wholes, self.lines = path, mark, uses, wholes, []


def parts(name):
    """The words by which a name stands in a text: itself, or what a sign has between its places."""
    return tuple(it for it in name.split('◌') if it) or (name,)


def read_use(line, uses, wholes):
    """Adds the names that a `use` line brings."""
    names, whole = NAMES.match(line), WHOLE.match(line)
    for one in names[2].split(',') if names else []:
        name, _, other = one.strip().partition(' as ')
        if name:
            uses[(other or name).strip()] = (names[1], name.strip())
    if whole:
        wholes[whole[2]] = whole[1]


def read_file(path, crate, found):
    """Adds the definitions of a file."""
    module, current, uses, wholes = os.path.basename(path)[:-5], None, {}, {}
    with open(path, encoding='utf-8') as file:
        lines = file.read().split('\n')
    for line in lines:
        if line.startswith('use '):
            current = read_use(line, uses, wholes)
            continue
        head = HEAD.match(line)
        if head:
            current = found[(crate, module, head[1])] = Definition(path, lines[0].strip(), uses, wholes)
        if current and line.strip() and not line.lstrip().startswith('--'):
            current.lines.append(line)


def definitions(top):
    """All definitions, by crate, module and name."""
    found = {}
    for path in sorted(glob.glob(os.path.join(top, 'crates', '*', 'specs', '*.antt'))):
        if os.path.basename(path) != 'Lib.antt':
            read_file(path, path.split(os.sep)[-3], found)
    return found


def used(found, module, name):
    """The definition of a name of another file: itself, or the one that has it as a constructor."""
    match = MODULE.match(module)
    keys = [(match[1], match[2], name), (match[1], match[2], match[3])] if match else []
    return next((key for key in keys if key in found), None)


def named(found, text, near, uses, wholes):
    """The definitions that a text names: of `near`, those of its own file by their names, and those that its `use` lines bring."""
    words, firsts = set(), {}
    for word in WORD.findall(text):
        words.add(word)
        firsts.setdefault(word.partition('.')[0], set()).add(word.partition('.')[2].partition('.')[0])
    seen = words | firsts.keys()
    got = {key for name, key in near.items() if seen.issuperset(parts(name))}
    got |= {used(found, *place) for name, place in uses.items() if seen.issuperset(parts(name))}
    return (got | {used(found, wholes[first], rest) for first in firsts.keys() & wholes.keys() for rest in firsts[first]}) - {None}


def by_file(found):
    """The definitions of each file, by name."""
    files = collections.defaultdict(dict)
    for key in found:
        files[key[:2]][key[2]] = key
    return files


def close(found, starts):
    """All definitions that these reach, and these."""
    files, seen, left = by_file(found), set(), list(starts)
    while left:
        key = left.pop()
        if key not in seen:
            seen.add(key)
            one = found[key]
            left += named(found, ' '.join(one.lines), files[key[:2]], one.uses, one.wholes)
    return seen


def clauses(path, function=None):
    """The text of the clauses of a file of code, or of one function of it, with the names that the file's `ghost use` lines bring."""
    text, uses, wholes, name, inside = [], {}, {}, '', False
    with open(path, encoding='utf-8') as file:
        for line in file:
            head = FUNCTION.match(line)
            if line.lstrip().startswith('ghost use '):
                read_use(line.strip(), uses, wholes)
            elif head:
                name, inside = head[1], False
            elif line.strip() == '{':
                inside = False
            elif not line.lstrip().startswith('//'):
                inside = inside or bool(CLAUSE.match(line))
                text += [line] * (inside and function in (None, name))
    return ''.join(text), uses, wholes


def started(top, found, paths, function=None):
    """The definitions that clauses of these files name."""
    got = set()
    for path in paths:
        text, uses, wholes = clauses(os.path.join(top, path), function)
        got |= named(found, text, {}, uses, wholes)
    return got


def starts(top, found):
    """Where a reader begins: the definitions that the clauses of `top`, of the other program, and of laws name."""
    return {'top': started(top, found, ['crates/sn_top/src/top.rt'], 'top'),
            'sonata_entries': started(top, found, ['crates/sonata_entries/src/run.rt', 'crates/sonata_entries/src/entries.rt']),
            'laws': started(top, found, sorted(glob.glob('crates/sn_*/src/**/*law*.rt', root_dir=top, recursive=True)))}


def reached(top):
    """The definitions that the clauses of `top` reach."""
    found = definitions(top)
    return close(found, starts(top, found)['top'])


def lines_of(found, keys):
    return sum(len(found[key].lines) for key in keys)


def main():
    parser = argparse.ArgumentParser(description=__doc__, formatter_class=argparse.RawDescriptionHelpFormatter)
    parser.add_argument('--top', default=TOP, help='the repository (the one of this script)')
    parser.add_argument('--list', action='store_true', help='also list what the clauses of `top` reach')
    given = parser.parse_args()
    found = definitions(given.top)
    begun = starts(given.top, found)
    headline, whole, both, every = (close(found, keys) for keys in ([HEADLINE], begun['top'], begun['top'] | begun['sonata_entries'], set().union(*begun.values())))
    crates = collections.Counter(key[0] for key in whole)
    print(f'{"crate":24}{"headline":>16}{"top":>16}')
    for crate in sorted(crates):
        inside = {key for key in whole if key[0] == crate}
        print(f'{crate:24}{len(inside & headline):8}{lines_of(found, inside & headline):8}{crates[crate]:8}{lines_of(found, inside):8}')
    for name, keys in (('the headline', headline), ('all of top', whole), ('both programs', both), ('and all laws', every), ('all definitions', found.keys())):
        print(f'{name:24}{len(keys):8} definitions{lines_of(found, keys):8} lines')
    if given.list:
        print('\n'.join('%s/%s %s' % key for key in sorted(whole)))


if __name__ == '__main__':
    main()
