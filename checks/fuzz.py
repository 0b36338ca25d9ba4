#!/usr/bin/env python3
"""Looks for inputs that reach new code of `sonata`, by AFL++, and compares what it answers to each of them with the reading in checks/planned.py.

    python3 checks/fuzz.py INSTRUMENTED FOLDER                 all kinds of files, ten minutes each
    python3 checks/fuzz.py INSTRUMENTED FOLDER queries --seconds 60

INSTRUMENTED is the program as checks/instrument.py builds it. Each kind of file has a call that reads it, which AFL++ runs over and over with changed
bytes, at most 65,536 of them. It begins from the files of checks/calls.py, from the texts in examples/ and the frames of checks/odd_frames.py, and of
texts it knows the words.

queries      plain, the query text                    capture     live, the answered capture
switch       run, the switch text                     fields      plain, the capture, by queries of all fields
plan         run, the plan text                       training    plan, the training capture
certificate  check, the plan with its cost and tree   several     many, the first of two captures
reports      finish, the reports                      epochs      replan, the answered capture
asked        detect, the query text                   stays       detect, the capture

FOLDER keeps what was found: what reaches new code, what ends the program by a signal, and what takes a second or more. Then each file that reached new
code is given to the program and to the reading, and once more to the program repeated up to 65,536 bytes. Prints how many runs there were, in how many
seconds by the clock and of a processor, how many files reached new code, and each that ends by a signal, takes a second, or is answered otherwise. The
status is 0 where there is none. Needs AFL++ (Debian's package afl++)."""

import glob
import os
import resource
import struct
import subprocess
import sys
import tempfile
import time

import calls
import odd_frames
import planned
import program
from reference import fields

TOP = os.path.join(os.path.dirname(os.path.abspath(__file__)), '..')
# the call that reads a file of this kind, in which word, and the files in the place of the usual ones
KINDS = {
    'queries': ('plain', 'queries', {}),
    'switch': ('run', 'switch', {}),
    'plan': ('run', 'plan', {}),
    'certificate': ('check', 'certificate', {}),
    'reports': ('finish', 'reports', {}),
    'asked': ('detect', 'queries', {}),
    'capture': ('live', 'capture', {}),
    'fields': ('plain', 'capture', {'queries': 'fields'}),
    'training': ('plan', 'training', {}),
    'several': ('many', 'capture', {}),
    'epochs': ('replan', 'capture', {}),
    'stays': ('detect', 'capture', {}),
}
EXAMPLES = {'queries': '*.query', 'switch': '*.switch', 'plan': '*.plan', 'certificate': '*.plan'}
WORDS = {
    'queries': '''window query refine packets filter map distinct reduce join as at sum max min or width { } ; , | ( ) : & + * / == != < <= > >= >>
                  18446744073709551615 0x80 10.0.0.9 # a b n c q'''.split() + [name for name, _ in fields.FIELDS],
    'switch': 'stages actions bits meta chain slots entries weight 4294967296 65535 65536 4194304 ; , #'.split(),
    'plan': 'plan query path piece cut slots stages cost ; , many both 32 8 65536 #'.split(),
    'certificate': 'plan query path piece cut slots stages cost tree done E B P X ; , 18446744073709551615 #'.split(),
}
QUIET = {'AFL_NO_UI': '1', 'AFL_SKIP_CPUFREQ': '1', 'AFL_I_DONT_CARE_ABOUT_MISSING_CRASHES': '1', 'AFL_NO_AFFINITY': '1'}
# milliseconds after which a run is one that hangs, and the most bytes of a file
SLOW, LARGEST = 1000, 65536


def spoken_for(kind, names, name):
    """The words of the call that reads a file of this kind, which has this name."""
    call, read, others = KINDS[kind]
    return calls.words(call, dict(names, **{place: names[other] for place, other in others.items()}, **{read: name}))


# ---- what it begins from

def all_fields():
    """A query text that prints each field, by eight."""
    parts = [fields.FIELDS[first:first + 8] for first in range(0, len(fields.FIELDS), 8)]
    columns = [', '.join('%s as c%d' % (name, place) for place, (name, _) in enumerate(part)) for part in parts]
    return 'window 1000000\n' + ''.join('query q%d { packets | map %s; }\n' % found for found in enumerate(columns))


def written(frames, order, fraction, link):
    """A capture of these frames, a tenth of a second apart."""
    head = struct.pack(order + 'IHHIIII', 0xA1B2C3D4 if fraction == 10**6 else 0xA1B23C4D, 2, 4, 0, 0, 262144, link)
    return head + b''.join(struct.pack(order + 'IIII', number // 10, number % 10 * fraction // 10, len(frame), len(frame)) + frame
                           for number, frame in enumerate(frames))


def odd_captures():
    """The unusual frames in both byte orders and units of time, and under each link type."""
    groups = [list(group()) for group in (odd_frames.tags, odd_frames.tunnels, odd_frames.fragments, odd_frames.padding, odd_frames.headers, odd_frames.links,
                                          odd_frames.extensions, odd_frames.six)]
    for number, frames in enumerate(groups):
        yield written(frames, '<>'[number % 2], (10**6, 10**9)[number // 2 % 2], 1)
    yield written([frame[14:] for frame in groups[-1]], '<', 10**6, 101)
    yield written([bytes(14) + frame[12:] for frame in groups[-1]], '<', 10**6, 113)
    yield written([frame[12:14] + bytes(18) + frame[14:] for frame in groups[-1]], '>', 10**9, 276)


def examples(pattern):
    """The files of this form in examples/."""
    for name in sorted(glob.glob(os.path.join(TOP, 'examples', '**', pattern), recursive=True)):
        with open(name, 'rb') as file:
            yield file.read()


def begin(kind, names, folder):
    """Writes the files from which a kind begins, and the words that its texts have."""
    _, read, _ = KINDS[kind]
    with open(names[read], 'rb') as file:
        first = file.read()
    more = examples(EXAMPLES[read]) if read in EXAMPLES else odd_captures() if read in ('capture', 'training') else []
    os.makedirs(folder, exist_ok=True)
    for number, content in enumerate([first, *more]):
        if len(content) <= 4096:
            with open(os.path.join(folder, '%03d' % number), 'wb') as seed:
                seed.write(content)
    if read not in WORDS:
        return []
    with open(folder + '.words', 'w', encoding='ascii') as file:
        file.writelines('"%s"\n' % word for word in WORDS[read])
    return ['-x', folder + '.words']


# ---- a run of AFL++

def fuzz(instrumented, kind, names, folder, seconds):
    """Runs AFL++ for so long, over what an earlier run left if there is something. The lines of its statistics, and how long a processor was at it."""
    seeds, found = os.path.join(folder, kind + '-seeds'), os.path.join(folder, kind)
    again = os.path.exists(os.path.join(found, 'default', 'queue'))
    known = begin(kind, names, seeds)
    words = ['afl-fuzz', '-i', '-' if again else seeds, '-o', found, '-t', str(SLOW), '-m', 'none', '-G', str(LARGEST), *known, '-V', str(seconds), '--',
             instrumented, *spoken_for(kind, names, '@@')]
    before = resource.getrusage(resource.RUSAGE_CHILDREN)
    done = subprocess.run(words, env=dict(os.environ, **QUIET), stdout=subprocess.PIPE, stderr=subprocess.STDOUT, check=False)
    after = resource.getrusage(resource.RUSAGE_CHILDREN)
    if done.returncode:
        sys.exit(done.stdout.decode(errors='replace')[-2000:])
    with open(os.path.join(found, 'default', 'fuzzer_stats'), encoding='utf-8') as file:
        stats = dict(line.split(':', 1) for line in file.read().replace(' ', '').splitlines() if ':' in line)
    return stats, after.ru_utime + after.ru_stime - before.ru_utime - before.ru_stime


# ---- what was found

def kept(folder, kind, what):
    return sorted(glob.glob(os.path.join(folder, kind, 'default', what, 'id*')))


def differs(sonata, kind, names, name):
    """What the program answers to this file, and what the reading does, where they differ."""
    spoken = spoken_for(kind, names, name)
    wanted, answer = planned.answer(*spoken), program.ran(sonata, *spoken)
    return None if answer == wanted else '%s, wanted %s' % (program.shown(answer), program.shown(wanted))


def used(sonata, spoken):
    """The status of a run, and the milliseconds that a processor was at it."""
    before = resource.getrusage(resource.RUSAGE_CHILDREN)
    status = program.ran(sonata, *spoken)[0]
    after = resource.getrusage(resource.RUSAGE_CHILDREN)
    return status, (after.ru_utime + after.ru_stime - before.ru_utime - before.ru_stime) * 1000


def is_slow(sonata, kind, names, name):
    """Whether a processor is at this file for a second; under AFL++ the program may have waited for one. Or a signal ends it."""
    status, milliseconds = used(sonata, spoken_for(kind, names, name))
    return status < 0 or milliseconds >= SLOW


def repeated(name, large):
    """Writes a file over and over, up to the most bytes."""
    with open(name, 'rb') as file, open(large, 'wb') as to:
        content = file.read() or b' '
        to.write((content * (LARGEST // len(content) + 1))[:LARGEST])


def slow_when_repeated(sonata, kind, names, queue):
    """The files that are slow when they are repeated up to the most bytes."""
    with tempfile.TemporaryDirectory() as folder:
        large = os.path.join(folder, 'large')
        for name in queue:
            repeated(name, large)
            if is_slow(sonata, kind, names, large):
                yield name


def tell(sonata, kind, names, folder, stats, seconds):
    """Prints what was found of one kind, and how many of it are faults."""
    queue, crashes = kept(folder, kind, 'queue'), kept(folder, kind, 'crashes')
    hangs = [name for name in kept(folder, kind, 'hangs') if is_slow(sonata, kind, names, name)]
    large = list(slow_when_repeated(sonata, kind, names, queue))
    other = [(name, found) for name in queue if (found := differs(sonata, kind, names, name))]
    print('%s: %s runs in %s seconds, %.0f of a processor; %d files reach new code, %d end by a signal, %d take a second, %d do repeated, '
          '%d are answered otherwise' % (kind, stats['execs_done'], stats['run_time'], seconds, len(queue), len(crashes), len(hangs), len(large), len(other)),
          flush=True)
    for name in crashes + hangs + large:
        print('  ' + name)
    for name, found in other:
        print('  %s: %s' % (name, found))
    return len(crashes) + len(hangs) + len(large) + len(other)


def main():
    given = program.command_line(__doc__)
    given.add_argument('instrumented', help='the program that checks/instrument.py built')
    given.add_argument('folder', help='what is found, and was found before')
    given.add_argument('kinds', nargs='*', metavar='KIND', help='which of them: %s (default: all)' % ', '.join(KINDS))
    given.add_argument('--seconds', type=int, default=600, help='how long each kind is tried (default 600)')
    chosen = given.parse_args()
    if strange := set(chosen.kinds) - set(KINDS):
        given.error('no kind %s' % ', '.join(sorted(strange)))
    os.makedirs(chosen.folder, exist_ok=True)
    bad = 0
    with tempfile.TemporaryDirectory() as passing:
        names = calls.write(passing)
        names['fields'] = os.path.join(passing, 'fields')
        with open(names['fields'], 'w', encoding='ascii') as file:
            file.write(all_fields())
        for kind in chosen.kinds or KINDS:
            stats, seconds = fuzz(os.path.abspath(chosen.instrumented), kind, names, chosen.folder, chosen.seconds)
            bad += tell(chosen.sonata, kind, names, chosen.folder, stats, seconds)
    return 1 if bad else 0


if __name__ == '__main__':
    sys.exit(main())
