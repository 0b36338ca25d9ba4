#!/usr/bin/env python3
"""Counts what the gate and the scripts try: tests, cases of tables, calls, and wrong bodies.

    python3 checks/counts.py [--names] [--since COMMIT]

A test is a function `#[test]`. A case is a paragraph of a table: of a file `data/TOPIC.cases`, or of a text in a crate of tests that has lines `= `, which are wanted. A call is
one of a file of calls in `data/`. A wrong body is an edit, of `crates/CRATE/must-fail` (the gate tries it) or of `checks/edits`. --names lists them: tests and edits by name,
cases by their topics, calls by their kinds. --since compares with a commit, and tells which names and texts that the commit has aren't there any more. The status is 1 only where
a case, a call or an edit is lost: a test may have become a table. Needs git for --since. Python 3 alone."""

import argparse
import collections
import glob
import os
import re
import subprocess
import sys
import tempfile

import house

TEST = re.compile(r'#\[test\]\s+(?:#\[[^\]]*\]\s+)*fn (\w+)')
TEXT = re.compile(r'"((?:\\.|[^"\\])*)"', re.S)
ESCAPE = re.compile(r'\\(?:x([0-9a-f]{2})|u\{([0-9a-f]+)\}|\n\s*|(.))', re.S)
LETTERS = {'n': '\n', 't': '\t', 'r': '\r', '0': '\0'}


def read(path):
    with open(path, 'rb') as file:
        return file.read()


def crate_of(top, path):
    return os.path.relpath(path, os.path.join(top, 'crates')).split(os.sep)[0]


def sources(top):
    """The source files of all crates, with their crate and their text."""
    for path in sorted(glob.glob(os.path.join(top, 'crates', '*', 'src', '**', '*.rt'), recursive=True)):
        yield path, crate_of(top, path), read(path).decode()


def tests(top):
    """The tests: crate, file and name."""
    return {f'{crate}/{os.path.basename(path)[:-3]}/{name}': 1 for path, crate, text in sources(top) for name in TEST.findall(text)}


def literal(text):
    """What a string of the language says."""
    def letter(found):
        code = found[1] or found[2]
        return chr(int(code, 16)) if code else LETTERS.get(found[3], found[3] or '')
    return ESCAPE.sub(letter, text)


def unescaped(case):
    """A case of a file, in which a backslash and two digits are a byte."""
    first, *others = case.split('\\')
    return (first.encode() + b''.join(bytes.fromhex(it[:2]) + it[2:].encode() for it in others)).decode()


def cases_of_file(text):
    """The cases of a file: its paragraphs from the first table on, but for the heads of tables."""
    paragraphs = text.rstrip('\n').split('\n\n')
    first = next((at for at, it in enumerate(paragraphs) if it.startswith('table ')), len(paragraphs))
    return [unescaped(it) for it in paragraphs[first:] if not it.startswith('table ')]


def cases_of_source(text):
    """The cases of a source file of tests: the paragraphs of its texts that have wanted lines."""
    texts = [literal(it) for it in TEXT.findall(text)]
    return [case for it in texts if re.search(r'(?m)^= \S', it) for case in it.split('\n\n')]


def cases(top):
    """The cases: topic and text, and how often each stands there."""
    found = collections.Counter()
    for path in sorted(glob.glob(os.path.join(top, 'crates', '*', 'data', '*.cases'))):
        found.update((os.path.basename(path)[:-6], case) for case in cases_of_file(read(path).decode()))
    for path, crate, text in sources(top):
        if crate.startswith('sn_test_'):
            found.update((os.path.basename(path)[:-3], case) for case in cases_of_source(text))
    return found


def calls_of(content):
    """The names of the calls of a file: what follows a line with a length isn't looked at."""
    at, found = 0, []
    while at < len(content):
        end = content.index(b'\n', at)
        words = content[at:end].decode().split(' ')
        at = end + 1
        if words[0] == 'call':
            found.append(words[1])
        elif words[0] == 'made':
            # a capture that the program makes: its name alone stands in the file
            at += int(words[1]) + 1
        elif words[0] != 'status':
            at += sum(int(word) + 1 for word in words[1:])
    return found


def calls(top):
    """The calls: their names, and how often each stands there."""
    found = collections.Counter()
    for path in sorted(glob.glob(os.path.join(top, 'crates', 'sn_test_calls', 'data', '*'))):
        found.update(calls_of(read(path)))
    return found


def edits(top):
    """The wrong bodies, by crate and name, wherever they are tried."""
    paths = glob.glob(os.path.join(top, 'crates', '*', 'must-fail', '*.edit')) + glob.glob(os.path.join(top, 'checks', 'edits', '*', '*.edit'))
    return collections.Counter(f'{os.path.basename(os.path.dirname(path.replace("/must-fail", "")))}/{os.path.basename(path)[:-5]}' for path in sorted(paths))


def of_gate(top):
    return len(glob.glob(os.path.join(top, 'crates', '*', 'must-fail', '*.edit')))


KINDS = {'tests': tests, 'cases': cases, 'calls': calls, 'edits': edits}
GROUP = {'cases': lambda it: it[0], 'calls': lambda it: it.split('-')[0]}


def counted(top):
    return {kind: collections.Counter(found(top)) for kind, found in KINDS.items()}


def at_commit(commit, folder):
    """Puts what is counted of a commit into a folder."""
    packed = subprocess.run(['git', 'archive', commit, 'crates', 'checks/edits'], cwd=house.TOP, stdout=subprocess.PIPE, stderr=subprocess.PIPE, check=False)
    if packed.returncode:
        sys.exit(f'no commit {commit}: {packed.stderr.decode().strip()}')
    subprocess.run(['tar', '-x', '-C', folder], input=packed.stdout, check=True)


def tell_names(now):
    for kind, found in now.items():
        group = GROUP.get(kind)
        if group is None:
            print('\n'.join(f'{kind[:-1]} {name}' for name in sorted(found)))
            continue
        sums = collections.Counter()
        for it, count in found.items():
            sums[group(it)] += count
        print('\n'.join(f'{kind} {name} {count}' for name, count in sums.items()))


def tell_lost(now, before):
    """Tells what was there before and isn't now. How much of it isn't a test."""
    lost = {kind: before[kind] - now[kind] for kind in now}
    for kind, found in lost.items():
        print('\n'.join([f'{kind}: {sum(found.values())} that were aren\'t there now', *(f'    {it}' for it in sorted(map(str, found)))]))
    return sum(sum(found.values()) for kind, found in lost.items() if kind != 'tests')


def main():
    parser = argparse.ArgumentParser(description=__doc__, formatter_class=argparse.RawDescriptionHelpFormatter)
    parser.add_argument('--names', action='store_true', help='lists what is counted')
    parser.add_argument('--since', metavar='COMMIT', help='a commit to compare with')
    given = parser.parse_args()
    now, gate = counted(house.TOP), of_gate(house.TOP)
    if not given.since:
        print('\n'.join(f'{kind} {sum(found.values())}' for kind, found in now.items()) + f', {gate} of them in the gate')
    if given.names:
        tell_names(now)
    if not given.since:
        return 0
    with tempfile.TemporaryDirectory() as folder:
        at_commit(given.since, folder)
        before, gate_before = counted(folder), of_gate(folder)
    print('\n'.join(f'{kind} {sum(found.values())}, were {sum(before[kind].values())}' for kind, found in now.items()) + f'; in the gate {gate}, were {gate_before}')
    return 1 if tell_lost(now, before) else 0


if __name__ == '__main__':
    sys.exit(main())
