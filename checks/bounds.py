#!/usr/bin/env python3
"""Counts of the house that may not grow: what a reader must believe, and what is long or says too little.

    python3 checks/bounds.py [--list NAME]

Prints each count with its bound, which is what it was when it was last brought down, and the goal; with --list also what a count has found, where it counts
places. Crates of tests (`sn_test_`) are left out, but for words. A count past its bound is a fault, and `house.py` fails at it; one below it wants the bound
lowered here. Python 3 alone."""

import argparse
import glob
import os
import re
import sys

import closure

TOP = closure.TOP
FUNCTION = re.compile(r'^ *(?:pub(?:\([\w ]+\))? )?(?:const )?fn (\w+)(?:<[^(]*>)?\(', re.M)
WORDS = ('behind', 'told', 'untold')
PROSE = re.compile(r'\b(?:behind|told|untold|at hand|want of memory|let(?:s|ting)?(?: \w+)? in)\b', re.I)
# What is counted: its bound, and the goal.
BOUNDS = {
    'definitions of the headline': (801, 750), 'lines of the headline': (2506, 2250),
    'definitions of all of top': (1579, 1400), 'lines of all of top': (4942, 4300),
    'functions of more than six arguments': (47, 0), 'arguments that are bool': (58, 20),
    'lines of proofs above 120 signs, in 1000': (163, 10), 'long files of proofs without a head': (17, 0),
    'poor words in names': (0, 0), 'poor words in comments': (5, 0),
}


def texts(*patterns, tests=False):
    """The files of these patterns, those of crates of tests only where they are asked for, each with its text."""
    for path in sorted({it for pattern in patterns for it in glob.glob(pattern, root_dir=TOP, recursive=True)}):
        if tests or not path.startswith('crates/sn_test_'):
            with open(os.path.join(TOP, path), encoding='utf-8') as file:
                yield path, file.read()


def arguments(text, at):
    """The arguments that begin at a place of a text, up to the bracket that ends them."""
    depth, found = 1, ['']
    for before, sign in zip(text[at - 1:], text[at:]):
        depth += (sign in '([{<') - (sign in ')]}' or sign == '>' and before != '-')
        if not depth:
            break
        if sign == ',' and depth == 1:
            found.append('')
        else:
            found[-1] += sign
    return [one.strip() for one in found if one.strip()]


def functions():
    """All functions of the product: the file, the name, and the arguments, `self` among them."""
    for path, text in texts('crates/*/src/**/*.rt'):
        yield from ((path, head[1], arguments(text, head.end())) for head in FUNCTION.finditer(text))


def many_arguments():
    return [f'{path}: {name} has {len(given)} arguments' for path, name, given in functions() if len(given) > 6]


def bool_arguments():
    return [f'{path}: {name} ({one})' for path, name, given in functions() for one in given if re.search(r': *bool$', one)]


def proofs():
    return [(path, text.splitlines()) for path, text in texts('crates/*/proofs/**/*.antt')]


def headless():
    return [f'{path}: {len(lines)} lines' for path, lines in proofs() if len(lines) > 100 and not lines[0].startswith('--')]


def comment(line, mark):
    """The comment of a line of code, and what stands before it."""
    code, _, words = (' ' + line).partition(' ' + mark) if mark == '--' else line.partition(mark)
    return code, words


def is_poor(name):
    """Whether a part of a name is a poorer word, by underscores, hyphens and capitals."""
    parts = [it.lower() for it in re.findall(r'[A-Z]?[a-z]+', name)]
    return any(it in parts for it in (*WORDS, 'lets'))


def lost_words():
    """The poorer words of CONTRIBUTING.md in names, and in comments and prose, in all crates."""
    names, comments = [], []
    for path, text in texts('crates/**/*.cases', 'crates/**/*.md', tests=True):
        comments += [f'{path}: {it}' for it in PROSE.findall(text)]
    for path, text in texts('crates/**/*.rt', 'crates/**/*.antt', 'checks/edits/**/*.edit', tests=True):
        for number, line in enumerate(text.splitlines(), 1):
            code, words = comment(line, '--' if path.endswith('.antt') else '//')
            code = re.sub(r'"[^"]*"', '', code)
            names += [f'{path}:{number}: {name}' for name in re.findall(r"[A-Za-z_][\w'-]*", code) if is_poor(name)]
            comments += [f'{path}:{number}: {it}' for it in PROSE.findall(words)]
    return names, comments


def counted():
    """Each count, with what it found where it counts places."""
    found = closure.definitions(TOP)
    headline, whole = closure.close(found, [closure.HEADLINE]), closure.reached(TOP)
    lines = [line for _, of_file in proofs() for line in of_file]
    names, comments = lost_words()
    lists = {'functions of more than six arguments': many_arguments(), 'arguments that are bool': bool_arguments(),
             'long files of proofs without a head': headless(), 'poor words in names': names, 'poor words in comments': comments}
    counts = {'definitions of the headline': len(headline), 'lines of the headline': closure.lines_of(found, headline),
              'definitions of all of top': len(whole), 'lines of all of top': closure.lines_of(found, whole),
              'lines of proofs above 120 signs, in 1000': round(1000 * sum(len(line) > 120 for line in lines) / len(lines))}
    return counts | {name: len(places) for name, places in lists.items()}, lists


def past(show=print):
    """Shows the counts, and gives a line for each that is past its bound."""
    counts, lists = counted()
    wrong = []
    for name, (bound, goal) in BOUNDS.items():
        show(f'{counts[name]:6} {name}: at most {bound}' + (f', and the goal is {goal}' if goal < bound else ''))
        if counts[name] > bound:
            wrong += [f'{name}: {counts[name]}, and {bound} are the most'] + (lists.get(name, []) if counts[name] <= 20 else [])
    return wrong


def main():
    parser = argparse.ArgumentParser(description=__doc__, formatter_class=argparse.RawDescriptionHelpFormatter)
    parser.add_argument('--list', choices=[name for name in BOUNDS], help='also list what this count has found')
    given = parser.parse_args()
    wrong = past()
    if given.list:
        print('\n'.join(counted()[1].get(given.list, [])))
    print('\n'.join(wrong) or 'no count is past its bound')
    return 1 if wrong else 0


if __name__ == '__main__':
    sys.exit(main())
