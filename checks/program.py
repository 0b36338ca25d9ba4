"""Runs `sonata plain` on a query text and reads its answer, and the command line that the checks share."""

import argparse
import collections
import functools
import os
import shutil
import subprocess
import tempfile

USUAL = os.path.join(os.path.dirname(os.path.abspath(__file__)), '..', 'crates', 'sonata', 'out', 'sonata')
FIELDS = ['pkt.len', 'eth.dst', 'eth.src', 'eth.type', 'vlan.id', 'ip.valid', 'ip.len', 'ip.ttl', 'ip.proto', 'ip.src', 'ip.dst', 'tcp.valid',
          'tcp.sport', 'tcp.dport', 'tcp.seq', 'tcp.ack', 'tcp.flags', 'udp.valid', 'udp.sport', 'udp.dport', 'udp.len', 'icmp.valid', 'icmp.type',
          'icmp.code', 'ip6.valid', 'ip6.plen', 'ip6.next', 'ip6.hops', 'ip6.src', 'ip6.dst']


class Unanswered(Exception):
    """The program ended with another status than 0."""


def run(executable, queries, capture):
    """Status, standard output and standard error over a query file and a capture."""
    done = subprocess.run([executable, 'plain', queries, capture], capture_output=True, text=True)
    return done.returncode, done.stdout, done.stderr


def run_text(executable, text, capture):
    """The same for a query text."""
    with tempfile.NamedTemporaryFile('w', suffix='.query') as file:
        file.write(text)
        file.flush()
        return run(executable, file.name, capture)


def answer(executable, text, capture):
    """The printed answer of a query text over a capture."""
    status, found, line = run_text(executable, text, capture)
    if status:
        raise Unanswered('status %d: %s' % (status, line.strip()))
    return found


COMMANDS = {'plain': 2, 'plan': 3, 'run': 4, 'emit': 4, 'finish': 3, 'detect': 3, 'many': 5, 'check': 4, 'live': 4}


def answers_words(executable, *words):
    """Whether the program has these words as a command. One that hasn't answers them at once with status 2."""
    try:
        return subprocess.run([executable, *words], capture_output=True, timeout=2).returncode != 2
    except subprocess.TimeoutExpired:
        return True


def built(executable):
    """The commands that the program has; `run --csv` and `live --schedule` count as such."""
    nothing = 'no such file'
    found = {name for name, files in COMMANDS.items() if answers_words(executable, name, *[nothing] * files)}
    if answers_words(executable, 'run', *[nothing] * 4, '--csv'):
        found.add('run --csv')
    if answers_words(executable, 'live', *[nothing] * 4, '--schedule', '1', '--trace'):
        found.add('live --schedule')
    if answers_words(executable, 'replan', *[nothing] * 4, '0'):
        found.add('replan')
    if answers_words(executable, 'gen', '0'):
        found.add('gen')
    if answers_words(executable, 'job', '7'):
        found.add('job')
    return found


def rows(text):
    """The rows of an answer as a list of window, query and columns."""
    found, window, query = [], None, None
    for words in (line.split(' ') for line in text.splitlines()):
        if words[0] == 'window':
            window = int(words[1])
        elif words[0] == 'query':
            query = words[1]
        elif words[0] != 'total':
            found.append((window, query, words))
    return found


def link_of(capture):
    """The link type of a capture."""
    with open(capture, 'rb') as file:
        head = file.read(24)
    order = 'little' if head[0] in (0xD4, 0x4D) else 'big'
    return int.from_bytes(head[20:24], order) & 0xFFFF


def command_line(description):
    """The parser of a check's command line, with the program that is checked."""
    words = argparse.ArgumentParser(description=description, formatter_class=argparse.RawDescriptionHelpFormatter)
    words.add_argument('--sonata', default=USUAL, help='the program (default: the one that this clone built)')
    return words


def shown(answer):
    """An answer of a program in a line: its status, its bytes and its line on standard error."""
    status, text, line = answer
    return 'status %s, %d bytes, %r' % (status, len(text), line)


def first_difference(wanted, found):
    """The first line in which two outputs differ, as both have it."""
    one, other = wanted.split(b'\n'), found.split(b'\n')
    place = next((n for n, (a, b) in enumerate(zip(one, other)) if a != b), min(len(one), len(other)))
    return 'line %d: wanted %r, found %r' % (place + 1, one[place:place + 1], other[place:place + 1])


def ran(executable, *words):
    """Status, standard output as bytes and standard error of a run."""
    done = subprocess.run([executable, *words], capture_output=True)
    return done.returncode, done.stdout, done.stderr.decode(errors='replace')


def alike(executable, wanted, *words):
    """The status that an answer should have and has, or None where the program answers otherwise, which is told."""
    found = ran(executable, *words)
    if found == wanted:
        return wanted[0]
    print('  %s\n    wanted %s\n    found  %s' % (' '.join(words), shown(wanted), shown(found)))
    if wanted[1] != found[1]:
        print('    ' + first_difference(wanted[1], found[1]))
    return None


def size_of(folder):
    return sum(os.path.getsize(os.path.join(folder, name)) for name in os.listdir(folder))


def random_cases(description, case, alone=None, cases=1000, needs=()):
    """Run cases of random files, each from its seed, and tell how they came out. A case gives its statuses, None where two answers differ; `alone` is
    a case that needs no program, where there is one. Commands that are needed and that the program hasn't end it. Control-C ends it with what was tried by
    then. The status is 0 where no answers differ."""
    words = command_line(description)
    words.add_argument('--cases', type=int, default=cases, help='how many cases (default %d)' % cases)
    words.add_argument('--first', type=int, default=0, help='the first seed')
    words.add_argument('--keep', metavar='FOLDER', help='leave the files of the last case there')
    if alone:
        words.add_argument('--alone', action='store_true', help='compare the reference with itself; it needs no program')
    given = words.parse_args()
    is_alone = alone and given.alone
    missing = [] if is_alone else sorted(set(needs) - built(given.sonata))
    if missing:
        print('skipped: the program has no %s' % ', '.join(missing))
        return 0
    tried = alone if is_alone else functools.partial(case, given.sonata)
    counts, differing = collections.Counter(), []
    with tempfile.TemporaryDirectory() as passing:
        folder = given.keep or passing
        os.makedirs(folder, exist_ok=True)
        try:
            for seed in range(given.first, given.first + given.cases):
                found = tried(seed, folder)
                if None in found:
                    differing.append((size_of(folder), seed))
                    print('seed %d: they differ: %s' % (seed, found), flush=True)
                counts[tuple(found)] += 1
        except KeyboardInterrupt:
            print('interrupted')
    for statuses, count in counts.most_common():
        print('%6d cases with the statuses %s' % (count, ', '.join(map(str, statuses))))
    print('%d of %d cases differ%s' % (len(differing), sum(counts.values()), '; that of the fewest bytes has the seed %d' % min(differing)[1] if differing else ''))
    return 1 if differing else 0


def check_captures(description, tool, show):
    """Compare on each capture of the command line with a tool. `show` prints what differs on one capture, and says whether something does.

    The status is 0 where nothing differs, and where the tool isn't there."""
    words = command_line(description)
    words.add_argument('captures', nargs='+')
    given = words.parse_args()
    if not shutil.which(tool):
        print('skipped: no ' + tool)
        return 0
    return 1 if sum(show(given.sonata, capture) for capture in given.captures) else 0
