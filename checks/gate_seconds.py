#!/usr/bin/env python3
"""The processor seconds that the gate takes for each crate, as checks/gate_seconds.txt has them: for below.py and gate_schedule.py.

    python3 checks/gate_seconds.py

The file has a line for each crate, with the seconds of its proof, of its tests and of its edits, and lines that begin with # and say what was measured. `gate_time.py --to
checks/gate_seconds.txt` writes it from a run of the gate. Run by itself it prints the sums, and the crates of crates.txt that the file lacks. Python 3 alone."""

import os
import sys

import house

FILE = os.path.join(house.TOP, 'checks', 'gate_seconds.txt')
PARTS = ('proof', 'tests', 'edits')


def read(path=FILE):
    """The seconds of each crate by part, and what the file says of them."""
    seconds, said = {}, []
    try:
        with open(path, encoding='utf-8') as file:
            lines = file.read().splitlines()
    except OSError as fault:
        sys.exit(f'{path}: {fault.strerror}')
    for number, line in enumerate(lines, 1):
        words = line.split()
        if line.startswith('#'):
            said.append(line[1:].strip())
        elif len(words) == 4 and all(word.isdigit() for word in words[1:]):
            seconds[words[0]] = dict(zip(PARTS, map(int, words[1:])))
        elif words:
            sys.exit(f'{path}: line {number} is not a crate and three numbers')
    return seconds, said


def text_of(seconds, said):
    """The file of these seconds."""
    lines = [f'# {line}' for line in said]
    lines += [f'{crate:24}' + ''.join(f'{round(parts.get(part, 0)):8}' for part in PARTS) for crate, parts in seconds.items()]
    return '\n'.join(lines) + '\n'


def of(crate, seconds):
    """The seconds of a crate by part, or none where the file lacks it."""
    return seconds.get(crate, dict.fromkeys(PARTS, 0))


def main():
    seconds, said = read()
    rooms, _ = house.listed()
    print('\n'.join(said))
    sums = [sum(parts[part] for parts in seconds.values()) for part in PARTS]
    print(', '.join(f'{part} {number}' for part, number in zip(PARTS, sums)) + f': {sum(sums)} processor seconds')
    print('not measured: ' + (' '.join(name for name in rooms if name not in seconds) or 'none'))
    return 0


if __name__ == '__main__':
    sys.exit(main())
