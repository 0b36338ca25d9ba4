#!/usr/bin/env python3
"""Checks that the documents name the house as it is.

    python3 checks/house.py

Each crate of crates.txt must stand once in docs/ARCHITECTURE.md, under the heading that it has in crates.txt, and in docs/PROVED.md where it isn't one of tests
or the program; and each path of a crate that a document names must be there, and the code of each CALLING.md must be that of a file of sn_test_callers, and that of docs/CALLING.md of
sonata_entries, which the gate proves; and crates.txt may name below a crate only those that its text names. Under each "Proved" of docs/PROVED.md a crate's part must name a clause, a
function or a definition that stands in that crate, and each name in brackets must stand in some crate; its lines have at most 300 signs, as a sentence has a line there. No count of `bounds.py` may be
past its bound: what a reader must believe, and what is long or says too little, with the poorer words of CONTRIBUTING.md, of which no name has one. Prints how many crates there are, the
longest chain, and the counts. The status is 0
only where all is so. Python 3 alone."""

import functools
import glob
import os
import re
import sys

import bounds

TOP = os.path.dirname(os.path.dirname(os.path.abspath(__file__)))
ROOM = re.compile(r'^\*\*([^*\n]+)\*\*:[^\n]*\n+```\n(.*?)```', re.M | re.S)
CRATE = re.compile(r'^(sn_\w+|sonata|sonata_entries)  +\S', re.M)
NAMED = re.compile(r'\bRattle\.(sn_\w+)|\b(sn_\w+)::')
PATH = re.compile(r'`(sn_\w+)/([\w/+]+)(\.\w+)?`')


def text(*names):
    with open(os.path.join(TOP, *names), encoding='utf-8') as file:
        return file.read()


def listed():
    """The crates of crates.txt: the heading over each, and the crates of this repository that it stands on."""
    room, rooms, below = '', {}, {}
    for line in text('crates.txt').splitlines():
        if line.startswith('#'):
            room = line[1:].strip()
        elif ':' in line:
            name, rest = line.split('#')[0].split(':')
            rooms[name.split()[0]], below[name.split()[0]] = room, rest.split()
    return rooms, {name: [it for it in found if it in rooms] for name, found in below.items()}


def longest(below):
    """The longest chain of crates, each standing on the one before."""
    @functools.lru_cache(None)
    def chain(name):
        return max((chain(it) for it in below[name]), key=len, default=()) + (name,)
    return max((chain(name) for name in below), key=len)


def files_of(crate):
    """The files of a crate that the prover reads."""
    return [os.path.join(at, name) for part in ('src', 'specs', 'proofs') for at, _, names in os.walk(os.path.join(TOP, 'crates', crate, part)) for name in names]


def unnamed(below):
    """The crates that crates.txt has below another, and whose names don't stand in its text."""
    for crate, found in below.items():
        named = {it for file in files_of(crate) for pair in NAMED.findall(text(file)) for it in pair}
        yield from (f'{crate}: crates.txt has {it} below it, and its text doesn\'t name it' for it in found if it not in named)


def off_the_map(rooms):
    """What is wrong with the map of docs/ARCHITECTURE.md, and which crates docs/PROVED.md leaves out."""
    drawn = [(name, room) for room, lines in ROOM.findall(text('docs', 'ARCHITECTURE.md')) for name in CRATE.findall(lines)]
    for name in sorted(rooms.keys() | {name for name, _ in drawn}):
        places = [room for it, room in drawn if it == name]
        if places != [rooms.get(name)]:
            yield f'{name}: crates.txt has it under {rooms.get(name)}, docs/ARCHITECTURE.md under {", ".join(places) or "nothing"}'
    proved = text('docs', 'PROVED.md')
    yield from (f'{name}: not in docs/PROVED.md' for name in rooms if not re.match(r'sn_test_|sonata$', name) and f'`{name}`' not in proved)


PROVED = re.compile(r'^\*\*Proved\.\*\*\n(.*?)(?=\n\*\*|\n## |\Z)', re.M | re.S)
STANDS = re.compile(r"\bensures (\w+) \{|\bfn (\w+)|\b(?:struct|enum|trait) (\w+)|\bpub (?:(?:record|data) )?(?!fn |struct |enum |trait )(\w+)|^ *(\w+) :", re.M)


@functools.lru_cache(None)
def names_in(crate):
    """The clauses, functions, types and definitions that stand in a crate."""
    found = set()
    for file in files_of(crate):
        if os.path.relpath(file, os.path.join(TOP, 'crates', crate)).startswith(('src', 'specs')):
            found.update(name for groups in STANDS.findall(text(file)) for name in groups if name)
    return found


def unnamed_clauses(rooms):
    """The parts of docs/PROVED.md under "Proved" that name nothing which stands in their crates, and the names in brackets that stand in no crate."""
    every = set().union(*(names_in(crate) for crate in rooms)) | set(rooms)
    for part in PROVED.findall(text('docs', 'PROVED.md')):
        for bullet in re.split(r'^- ', part, flags=re.M)[1:]:
            crates = re.findall(r'`(sn_\w+|sonata\w*)`', bullet.partition('.**')[0].partition('** ')[0])
            named = set(re.findall(r'`(\w+)', bullet.partition('** ')[2]))
            if not named & set().union(*(names_in(crate) for crate in crates if crate in rooms)):
                yield f'docs/PROVED.md: of {", ".join(crates)} names no clause or definition: {bullet[:60]}'
            bracketed = {name for piece in re.findall(r'\(([^()]*)\)', bullet) for name in re.findall(r'`(\w+)`', piece)}
            yield from (f'docs/PROVED.md: ({name}) stands in no crate' for name in sorted(bracketed - every))


def long_lines():
    """The lines of docs/PROVED.md that are too long to be read in a diff."""
    for number, line in enumerate(text('docs', 'PROVED.md').splitlines(), 1):
        if len(line) > 300:
            yield f'docs/PROVED.md:{number}: {len(line)} signs on a line, and a sentence has a line'


def is_there(crate, path, ending):
    """Whether a crate has a file or folder, or a definition file, test file or table of cases of this name."""
    folder = os.path.join(TOP, 'crates', crate)
    return any(os.path.exists(os.path.join(folder, *it)) for it in [(path + ending,), ('specs', path + '.antt'), ('src', path + '.rt'), ('data', path + '.cases'), (path + '.antt',)])


def lost_paths():
    """The paths of crates that the documents name and that aren't there."""
    names = ['README.md', 'CONTRIBUTING.md'] + sorted(glob.glob('docs/*.md', root_dir=TOP)) + sorted(glob.glob('crates/*/CALLING.md', root_dir=TOP))
    for name in names:
        for crate, path, ending in sorted(set(PATH.findall(text(name)))):
            if not path.isupper() and 'NAME' not in crate and not is_there(crate, path, ending):
                yield f'{name}: {crate}/{path}{ending} is not there'


def unproved_callers():
    """The pages CALLING.md whose code is that of no file of sn_test_callers."""
    proved = [text('crates', 'sn_test_callers', 'src', name) for name in glob.glob('*.rt', root_dir=os.path.join(TOP, 'crates', 'sn_test_callers', 'src'))]
    for name in sorted(glob.glob('crates/*/CALLING.md', root_dir=TOP)):
        blocks = re.findall(r'```\w+\n(.*?)```', text(name), re.S)
        yield from (f'{name}: its code stands in no file of sn_test_callers' for it in blocks if it not in proved)
    entries = [text(name) for name in glob.glob('crates/sonata_entries/*/*', root_dir=TOP) if name.endswith(('.rt', '.antt'))]
    blocks = re.findall(r'```(?:rust|antt)\n(.*?)```', text('docs', 'CALLING.md'), re.S)
    yield from (f'docs/CALLING.md: its code stands in no file of sonata_entries: {it.splitlines()[0]}' for it in blocks if not any(it in whole for whole in entries))


def main():
    rooms, below = listed()
    chain = longest(below)
    print(f'{len(rooms)} crates, the longest chain has {len(chain)}: {" ".join(chain)}')
    counts = bounds.past()
    wrong = [*counts, *off_the_map(rooms), *unnamed(below), *lost_paths(), *unproved_callers(), *unnamed_clauses(rooms), *long_lines()]
    print('\n'.join(wrong) or 'the documents name the house as it is')
    return 1 if wrong else 0


if __name__ == '__main__':
    sys.exit(main())
