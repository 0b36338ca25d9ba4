#!/usr/bin/env python3
"""Counts, crate by crate, the definitions that a reader must believe and those that only serve proofs, by what contracts reach.

    python3 checks/definitions.py [--top FOLDER] [--files] [--unreached]

A definition is reached where the clauses of `top` or of `sonata_entries` name it, or one that they reach does (`closure.py`). The first line of each file of specs/
says which it is: `-- to be believed` or `-- serves proofs`. A file that has a definition which a program's clauses reach must say the first. One of which
nothing is reached, neither from there nor from a law nor from a call of a crate that has a CALLING.md, must say the second. Between the two, where
laws or those calls alone reach, either is right. A line is printed for each file whose first line says otherwise, and then the status is 1, but for those of
marks_to_mend.txt, which are mended when their crates are changed next. Lines are counted without imports, comments and
blank lines. `Lib.antt`, which only names the others, and crates of tests (`sn_test_`) are left out. Python 3 alone.
"""

import argparse
import collections
import glob
import os
import re
import sys

import closure

BELIEVED, SERVES = '-- to be believed', '-- serves proofs'
# The goals, in lines: what the headline reaches, and what all of `top` does.
GOALS = (2250, 4300)


def reads(path):
    with open(path, encoding='utf-8') as file:
        return file.read()


def sources(top, *patterns):
    return sorted({path for pattern in patterns for path in glob.glob(pattern, root_dir=top, recursive=True)})


def near_programs(top, found):
    """What the clauses of the two programs reach, and what these, laws, and the crates that have a CALLING.md reach."""
    begun = closure.starts(top, found)
    called = [os.path.dirname(path) + '/src/**/*.rt' for path in sources(top, 'crates/*/CALLING.md')]
    other = closure.started(top, found, sources(top, *called, 'crates/*_laws/src/**/*.rt'))
    programs = begun['top'] | begun['sonata_entries']
    return closure.close(found, programs), closure.close(found, programs | begun['laws'] | other)


def imported(top, found, paths):
    """The definitions that the `use` lines of these files name."""
    got = set()
    for path in paths:
        whole, uses, wholes = reads(os.path.join(top, path)), {}, {}
        for line in re.findall(r'^ *((?:ghost )?use [^;\n]*)', whole, re.M):
            closure.read_use(line.strip(), uses, wholes)
        got |= {closure.used(found, *place) for place in uses.values()}
        got |= {closure.used(found, module, name) for word, module in wholes.items() for name in re.findall(r'\b%s\.([^\s(){}.,]+)' % word, whole)}
    return got - {None}


def unreached(top, found):
    """The definitions that no code names, nor a definition which code names: proofs alone do, or nothing."""
    code = closure.close(found, imported(top, found, sources(top, 'crates/*/src/**/*.rt')))
    return sorted(found.keys() - code)


def by_path(top, found):
    files = collections.defaultdict(list)
    for key, one in found.items():
        files[os.path.relpath(one.path, top)].append(key)
    return files


def wrong_marks(files, programs, every, found):
    """The files whose first line says otherwise than what reaches them, each with what it is to say."""
    for path, keys in sorted(files.items()):
        says = [BELIEVED] if programs.intersection(keys) else [BELIEVED, SERVES] if every.intersection(keys) else [SERVES]
        if found[keys[0]].mark not in says:
            yield path, f'{path}: its first line is {found[keys[0]].mark!r}, and by what contracts reach it is {" or ".join(map(repr, says))}'


def print_table(found, files, programs):
    table = collections.defaultdict(lambda: [0, 0, 0, 0])
    for path, keys in files.items():
        for key in keys:
            at = 0 if key in programs else 2
            table[key[0]][at] += 1
            table[key[0]][at + 1] += len(found[key].lines)
    table['all'] = [sum(column) for column in zip(*table.values())]
    print(f"{'crate':24}{'to believe':>14}{'lines':>8}{'other':>14}{'lines':>8}")
    for crate, row in [*sorted(it for it in table.items() if it[0] != 'all'), ('all', table['all'])]:
        print(f'{crate:24}{row[0]:14}{row[1]:8}{row[2]:14}{row[3]:8}')


def main():
    parser = argparse.ArgumentParser(description=__doc__, formatter_class=argparse.RawDescriptionHelpFormatter)
    parser.add_argument('--top', default=closure.TOP, help='the repository (the one of this script)')
    parser.add_argument('--files', action='store_true', help='also list the files of which a program promises something, the longest first')
    parser.add_argument('--unreached', action='store_true', help='also list the definitions that proofs alone name, or nothing')
    given = parser.parse_args()
    found = {key: one for key, one in closure.definitions(given.top).items() if not key[0].startswith('sn_test_')}
    files = by_path(given.top, found)
    programs, every = near_programs(given.top, found)
    print_table(found, files, programs)
    headline, whole = closure.close(found, [closure.HEADLINE]), closure.close(found, closure.starts(given.top, found)['top'])
    for name, keys, goal in (('the headline', headline, GOALS[0]), ('all of top', whole, GOALS[1])):
        print(f'{name}: {len(keys)} definitions in {closure.lines_of(found, keys)} lines (the goal is to stay below {goal})')
    left = unreached(given.top, found)
    print(f'named by proofs alone, or by nothing: {len(left)} definitions in {closure.lines_of(found, left)} lines')
    if given.files:
        lengths = {path: closure.lines_of(found, programs.intersection(keys)) for path, keys in files.items()}
        print('\n'.join(f'{length:6} {path}' for path, length in sorted(lengths.items(), key=lambda it: -it[1]) if length))
    if given.unreached:
        print('\n'.join('%s/%s %s' % key for key in left))
    marks = dict(wrong_marks(files, programs, every, found))
    later = {line for line in reads(os.path.join(given.top, 'checks', 'marks_to_mend.txt')).splitlines() if line and not line.startswith('#')}
    wrong = [line for path, line in marks.items() if path not in later]
    print(f'of {len(marks.keys() & later)} files the first line is mended when their crates are changed next; {len(later - marks.keys())} of checks/marks_to_mend.txt are right')
    print('\n'.join(wrong) or 'the first line of each other file says what contracts reach')
    return 1 if wrong else 0


if __name__ == '__main__':
    sys.exit(main())
