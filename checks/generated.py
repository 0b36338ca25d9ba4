#!/usr/bin/env python3
"""Compares `sonata gen` and `job` with reference/generated.py and planned.py.

Of `gen` the captures of some numbers, byte for byte; they are written to nothing but a pipe. Of `job` the summary of the numbers given with --jobs: it
costs, emits and answers what `plan` and `run` of the program do on the two captures, with the two texts of the job, and what planned.py says, which takes
some minutes for a number (--slow). The status is 0 where nothing differs. Needs nothing but Python."""

import os
import random
import subprocess
import sys
import tempfile

import planned
import program
from reference import generated


def try_captures(executable, count):
    """How many of the captures of some numbers differ."""
    draw = random.Random(1)
    numbers = [0, 1, 7, 8, 4294967295] + [draw.randrange(1 << 32) for _ in range(count)]
    bad = 0
    for number in numbers:
        found = subprocess.run([executable, 'gen', str(number)], capture_output=True)
        good = (found.returncode, found.stderr) == (0, b'') and found.stdout == generated.capture(number)
        bad += not good
        if not good:
            print('gen %d: status %d, %d bytes, another capture' % (number, found.returncode, len(found.stdout)))
    print('gen: %d of %d captures differ' % (bad, len(numbers)))
    return bad


def summary(executable, number, folder):
    """The lines of a job by the other commands of the program."""
    names = {name: os.path.join(folder, name) for name in ('switch', 'queries', 'train', 'answered', 'plan')}
    for name, content in (('switch', generated.SWITCH), ('queries', generated.QUERIES), ('train', generated.capture(number)), ('answered', generated.capture(number + 1))):
        with open(names[name], 'wb') as file:
            file.write(content)
    planning = program.ran(executable, 'plan', names['switch'], names['queries'], names['train'])
    with open(names['plan'], 'wb') as file:
        file.write(planning[1])
    text = planning[1].decode()
    lines = program.ran(executable, 'run', names['switch'], names['queries'], names['plan'], names['answered'])[1].decode().splitlines()
    window = lines[lines.index(next(line for line in lines if line.startswith('window 3 '))):-1]
    found = ['job %d packets 20000 windows %s' % (number, lines[-1].split()[2]), 'cost ' + text.split('\ncost ')[1].split(';')[0],
             'emitted ' + lines[-1].split()[-1], 'nodes %d' % (len(text.split('\ntree\n')[1].splitlines()) - 1)]
    for place, line in enumerate(window):
        if line.startswith('query ') and ' level 32 ' in line:
            count = int(line.split()[-1])
            found += ['query %s rows %d' % (line.split()[1], count)] + window[place + 1:place + 1 + count]
    return ('\n'.join(found) + '\n').encode()


def try_jobs(executable, numbers, slow):
    bad = 0
    with tempfile.TemporaryDirectory() as folder:
        for number in numbers:
            wanted = 0, summary(executable, number, folder), ''
            bad += program.alike(executable, wanted, 'job', str(number)) is None
            if slow:
                bad += program.alike(executable, planned.answer('job', str(number)), 'job', str(number)) is None
    print('job: %d differences over %d numbers' % (bad, len(numbers)))
    return bad


def main():
    words = program.command_line(__doc__)
    words.add_argument('--captures', type=int, default=20, help='drawn numbers of captures (default 20)')
    words.add_argument('--jobs', type=int, nargs='*', default=[7, 8, 0], metavar='NUMBER', help='numbers of jobs (default 7 8 0)')
    words.add_argument('--slow', action='store_true', help='compare each job with planned.py too')
    given = words.parse_args()
    built = program.built(given.sonata)
    bad = try_captures(given.sonata, given.captures) if 'gen' in built else print('skipped: the program has no gen') or 0
    if {'job', 'plan', 'run'} <= built:
        bad += try_jobs(given.sonata, given.jobs, given.slow)
    else:
        print('skipped: the program has no job')
    return 1 if bad else 0


if __name__ == '__main__':
    sys.exit(main())
