#!/usr/bin/env python3
"""Says how long a gate from nothing takes on a machine, by the way in which the gate's tool orders its work.

    python3 checks/gate_schedule.py [--processors N --memory GB] [--chain]

The seconds of each crate are those of checks/gate_seconds.txt, and lines and edits are counted in the work tree. The order is that of `rt ci`: what others wait for longest
(by lines of code) goes first, one task a processor, each once all below it are proved; a task is begun only where the memory that the tool reckons for it is free, which is more
than it takes; edits fill what proofs leave free. Memory is 85 parts in 100 of what is free, and free is what the machine has but 2.5 GB. Without a machine it tells two: four
processors with 24 GB, two with 14 GB. --chain adds the longest chain of proofs, which no number of processors makes shorter. What the tool does before the first proof (60 seconds)
and its runs of tests and programs at the end (120) are taken as fixed. Python 3 alone; where the toolchain's `rt` is found, the memory of its libraries is reckoned too."""

import argparse
import collections
import functools
import glob
import heapq
import os
import re
import shutil
import sys

import gate_seconds
import house

BEFORE, AFTER = 60, 120
# What a task takes by itself in one thread, before its first function and for each 1,000 lines of the crates below it.
LOADING, LOADING_BELOW = 7.0, 0.5
# A further job of a check does so much of what one does alone.
FURTHER_JOB = 0.75
Task = collections.namedtuple('Task', 'waits lines memory seconds alone')
Machine = collections.namedtuple('Machine', 'processors memory')


def lines_of(crate, ending):
    """How many lines a crate's files of this ending have, and how many tests stand in them."""
    texts = [house.text(name) for name in house.files_of(crate) if name.endswith(ending)]
    return sum(text.count('\n') for text in texts), sum(len(re.findall(r'(?m)^\s*#\[test\]', text)) for text in texts)


class House:
    """The crates of crates.txt: what each stands on, how large it is, and the memory that the gate's tool reckons for it."""

    def __init__(self):
        _, self.direct = house.listed()
        self.names = {name: words for name, words in named().items()}
        self.code = {name: lines_of(name, '.rt') for name in self.direct}
        self.lemmas = {name: lines_of(name, '.antt')[0] for name in self.direct}
        self.edits = {name: len(glob.glob(os.path.join(house.TOP, 'crates', name, 'must-fail', '*.edit'))) for name in self.direct}
        self.kit = kit_of()

    @functools.lru_cache(None)
    def below(self, name):
        """The crates below one, each after those that it uses."""
        found = []
        for it in self.direct[name]:
            found += [other for other in (*self.below(it), it) if other not in found]
        return tuple(found)

    def lines_below(self, name):
        return sum(self.code[it][0] for it in self.below(name))

    def memory(self, name):
        """The bytes that the gate's tool reckons for a check of a crate."""
        used = {word for it in (name, *self.below(name)) for word in self.names[it] if word not in self.direct}
        files = [os.path.join(self.kit, f'{word}.rlib', 'toolchain', 'checked.a') for word in used]
        loaded = sum(os.path.getsize(file) for file in files if os.path.isfile(file))
        return 1e9 + 1e6 * self.code[name][0] + 2e5 * self.lemmas[name] + 8e4 * self.lines_below(name) + min(5 * loaded, 2.5e9)

    def loading(self, name):
        """The seconds that a check takes before its first function."""
        return LOADING + LOADING_BELOW * self.lines_below(name) / 1000


def named():
    """The words that crates.txt has for each crate, the toolchain's libraries too."""
    found = {}
    for line in house.text('crates.txt').splitlines():
        if ':' in line and not line.startswith('#'):
            name, rest = line.split('#')[0].split(':')
            found[name.split()[0]] = rest.split()
    return found


def kit_of():
    """The folder of the toolchain's libraries, or one that isn't there."""
    found = shutil.which('rt')
    return os.path.join(os.path.dirname(os.path.dirname(os.path.realpath(found))), 'rlibs') if found else ''


def edit_tasks(world, name, seconds, waits, memory):
    """The tasks of a crate's edits. One alone is a whole check; more go over a check that they share, and a last one follows them."""
    count, took = world.edits[name], gate_seconds.of(name, seconds)['edits']
    both = [(name, 'proof'), (name, 'tests')]
    if count == 1:
        return {(name, 'edits', 0): Task(both, world.code[name][0], memory, took, took)}
    if not count:
        return {}
    each = took / (count + 2)
    tasks = {(name, 'seed'): Task(waits, 0, memory, each, each)}
    for number in range(count):
        tasks[name, 'edits', number] = Task([*both, (name, 'seed')], world.code[name][0], 0.7 * memory, each, each)
    tasks[name, 'sound'] = Task([(name, 'seed'), *((name, 'edits', number) for number in range(count))], 0, 0.7 * memory, each, each)
    return tasks


def tasks_of(world, seconds, only=None):
    """What a gate does, of all crates or of some: those that are kept take no time."""
    tasks = {}
    for name in sorted(world.direct, key=lambda it: len(world.below(it))):
        if only is not None and name not in only:
            continue
        took, memory, lines = gate_seconds.of(name, seconds), world.memory(name), world.code[name][0]
        waits = [(it, 'proof') for it in world.below(name) if only is None or it in only]
        alone = world.loading(name)
        tasks[name, 'proof'] = Task(waits, lines, memory, took['proof'], alone)
        tests = took['tests'] if world.code[name][1] else 0
        tasks[name, 'tests'] = Task(waits, lines if tests else 0, memory, tests, alone)
        tasks.update(edit_tasks(world, name, seconds, waits, memory))
    return tasks


def in_order(tasks):
    """The tasks, those with the most lines waiting for them first, and what edits need last."""
    waiting = dict.fromkeys(tasks, 0)
    for key in reversed(tasks):
        waiting[key] += tasks[key].lines
        for it in tasks[key].waits:
            waiting[it] = max(waiting[it], waiting[key])
    return sorted(tasks, key=lambda key: (fills(key), -waiting[key]))


def fills(key):
    return key[1] in ('edits', 'seed')


def is_proof(key):
    return key[1] in ('proof', 'tests')


class Run:
    """A gate as it goes: what runs, what is done, and what is left."""

    def __init__(self, tasks, machine):
        self.tasks, self.machine, self.left = tasks, machine, in_order(tasks)
        self.now, self.count, self.ends, self.running, self.done = 0.0, 0, [], {}, set()

    def room(self):
        return self.machine.memory - sum(memory for memory, _ in self.running.values()), self.machine.processors - sum(jobs for _, jobs in self.running.values())

    def begin(self, key, jobs):
        task = self.tasks[key]
        alone = min(task.seconds, task.alone)
        took = alone + (task.seconds - alone) / (1 + (jobs - 1) * FURTHER_JOB)
        self.left.remove(key)
        self.running[key] = task.memory * (1 + 0.6 * (jobs - 1)), jobs
        self.count += 1
        heapq.heappush(self.ends, (self.now + took, self.count, key))

    def jobs_for(self, key, ready, proofs):
        """How many jobs a task gets: a proof those that no other proof waits for, where their memory is free."""
        memory, idle = self.room()
        if not is_proof(key) and key[1] != 'seed':
            return 1
        others = len(proofs) - proofs.index(key) if key in proofs else len(ready) - ready.index(key)
        return max(1, min(4, idle // others, 1 + int((memory / self.tasks[key].memory - 1) / 0.6)))

    def fill(self):
        """Begins what may begin now."""
        ready = [key for key in self.left if all(it in self.done for it in self.tasks[key].waits)]
        proofs, lacks = [key for key in ready if is_proof(key)], False
        for key in ready:
            memory, idle = self.room()
            if lacks and fills(key):
                break
            if idle > 0 and (not self.running or self.tasks[key].memory <= memory):
                self.begin(key, self.jobs_for(key, ready, proofs))
            else:
                lacks = lacks or idle > 0 and is_proof(key)

    def end_next(self):
        """Goes on to the next end of a task."""
        self.now, _, key = heapq.heappop(self.ends)
        self.running.pop(key)
        self.done.add(key)


def seconds_by_the_clock(tasks, machine):
    """How long a gate of these tasks takes on a machine."""
    run = Run(tasks, machine)
    while run.left or run.running:
        run.fill()
        run.end_next()
    return BEFORE + run.now + AFTER


def positive(kind):
    """What reads a number above 0 from a word."""
    def number(word):
        found = kind(word)
        if not 0 < found < 10000:
            raise ValueError
        return found
    number.__name__ = 'number above 0'
    return number


def machine_of(processors, gigabytes):
    return Machine(processors, 0.85 * max(1e9, (gigabytes - 2.5) * 1e9))


def longest(world, seconds):
    """The chain of proofs that takes longest."""
    @functools.lru_cache(None)
    def chain(name):
        took, crates = max((chain(it) for it in world.direct[name]), default=(0, ()))
        return took + gate_seconds.of(name, seconds)['proof'], (*crates, name)
    return max(chain(name) for name in world.direct)


def main():
    parser = argparse.ArgumentParser(description=__doc__, formatter_class=argparse.RawDescriptionHelpFormatter)
    parser.add_argument('--processors', type=positive(int), metavar='N', help='of another machine')
    parser.add_argument('--memory', type=positive(float), metavar='GB', help='of another machine')
    parser.add_argument('--chain', action='store_true', help='tells the longest chain of proofs too')
    given = parser.parse_args()
    if (given.processors is None) != (given.memory is None):
        parser.error('--processors and --memory are given together')
    world, (seconds, said) = House(), gate_seconds.read()
    tasks = tasks_of(world, seconds)
    print('\n'.join(said))
    print(f'{sum(task.seconds for task in tasks.values()):.0f} processor seconds, {len(tasks)} tasks')
    for processors, gigabytes in [(given.processors, given.memory)] if given.processors else [(4, 24), (2, 14)]:
        took = seconds_by_the_clock(tasks, machine_of(processors, gigabytes))
        print(f'{processors} processors with {gigabytes:g} GB: {took / 60:.0f} minutes')
    if given.chain:
        took, crates = longest(world, seconds)
        print(f'the longest chain of proofs: {took / 60:.0f} minutes, {" ".join(crates)}')
    return 0


if __name__ == '__main__':
    sys.exit(main())
