#!/usr/bin/env python3
"""Says what a change of a crate proves anew, and how long that takes.

    python3 checks/below.py CRATE ..
    python3 checks/below.py --all

A change of a crate proves it anew and all crates that stand on it: their proofs, tests and edits. Seconds are those of checks/gate_seconds.txt, minutes by the clock those of
gate_schedule.py for these crates alone, with all others kept. --all tells each crate in a line, the dearest first. Python 3 alone."""

import argparse
import sys

import gate_schedule
import gate_seconds
import house


def above(world, name):
    """A crate and those that stand on it, lowest first."""
    return [it for it in world.direct if it == name or name in world.below(it)]


def told(world, seconds, name):
    """What a change of a crate takes: its crates, the processor seconds of each part, and minutes on four processors and on two."""
    crates = above(world, name)
    parts = [sum(gate_seconds.of(it, seconds)[part] for it in crates) for part in gate_seconds.PARTS]
    tasks = gate_schedule.tasks_of(world, seconds, set(crates))
    minutes = [gate_schedule.seconds_by_the_clock(tasks, gate_schedule.machine_of(*machine)) / 60 for machine in ((4, 24), (2, 14))]
    return crates, parts, minutes


def tell(world, seconds, name):
    crates, parts, (four, two) = told(world, seconds, name)
    print(f'{name}: {len(crates)} of {len(world.direct)} crates are proved anew, {sum(parts)} processor seconds ({", ".join(f"{part} {it}" for part, it in zip(gate_seconds.PARTS, parts))}); '
          f'{four:.0f} minutes on four processors with 24 GB, {two:.0f} on two with 14 GB')
    print('   ' + ' '.join(crates))


def tell_all(world, seconds):
    rows = [(sum(parts), name, len(crates), minutes) for name in world.direct for crates, parts, minutes in [told(world, seconds, name)]]
    print(f'{"crate":24}{"crates":>8}{"seconds":>9}{"minutes on 4":>14}{"on 2":>6}')
    for took, name, count, (four, two) in sorted(rows, reverse=True):
        print(f'{name:24}{count:8}{took:9}{four:14.0f}{two:6.0f}')


def main():
    parser = argparse.ArgumentParser(description=__doc__, formatter_class=argparse.RawDescriptionHelpFormatter)
    parser.add_argument('crates', nargs='*', metavar='CRATE')
    parser.add_argument('--all', action='store_true', help='tells each crate in a line')
    given = parser.parse_args()
    rooms, _ = house.listed()
    strangers = [name for name in given.crates if name not in rooms]
    if strangers:
        sys.exit(f'crates.txt has no crate {", ".join(strangers)}')
    if not given.crates and not given.all:
        parser.error('a crate, or --all')
    world, (seconds, said) = gate_schedule.House(), gate_seconds.read()
    print('\n'.join(said))
    for name in given.crates:
        tell(world, seconds, name)
    if given.all:
        tell_all(world, seconds)
    return 0


if __name__ == '__main__':
    sys.exit(main())
