#!/usr/bin/env python3
"""Tries examples/operating/hour as one tries what guards something.

    python3 checks/hours.py                       # all, some minutes
    python3 checks/hours.py files kills           # of files, others, kills, together, full, journal

files     each file of the folder missing, empty, cut, unreadable or of another kind, then mended
others    a program, a view or a mail that fails, is ended, or writes half an answer and says that all is well
kills     ended by SIGKILL at each line of the script, the first time it comes to it and the last, and begun again
together  four at once; and one that is ended while its program writes on
full      a disk without room, and with room for one page more each time, then with room
journal   ended at each line that tells, with a system's journal (one that this script plays)

A folder has four captures of an hour, three of them with a flood that nobody else has. After each first run no file may be taken for an answer that isn't a whole
one, and no flood may be told twice; after the trouble each flood must be told once, each capture answered, and nothing else told. `full` and `journal`
need a mount namespace (root, or `unshare -r`), and are left out without; so is what needs another user, without root."""

import collections
import concurrent.futures
import functools
import glob
import itertools
import json
import os
import re
import shutil
import signal
import subprocess
import sys
import tempfile
import time

import program

TOP = os.path.dirname(os.path.dirname(os.path.abspath(__file__)))
SCRIPT = os.path.join(TOP, 'examples', 'operating', 'hour')
sys.path.insert(0, os.path.join(TOP, 'examples', 'recipes'))
import written  # noqa: E402

TEXTS = {
    'q.query': 'window 1000000 query flood { packets | filter tcp.flags == 2 | map ip.dst as d, 1 as n | reduce d: sum(n) width 16 | filter n > 20; }\n',
    'other.query': 'window 1000000 query other { packets | filter ip.valid == 1 | map ip.src as s, pkt.len as b | reduce s: sum(b) width 32 | filter b > 1; }\n',
    's.switch': 'stages 6; actions 2; bits 65536; meta 512; chain 1; slots 128, 512;\n',
    'sonata.conf': 'switch=s.switch queries=q.query\nback=1 keep=9 nodes=2000 sonata=PROGRAM\n',
    'journal.txt': '',
}
SLOTS = ['slot-20261201-%02d0000' % hour for hour in range(4)]
FLOODED = [hour for hour in range(4) if hour != 1]
FIRST, NUMBER = 150, itertools.count()
TOTAL = re.compile(r'total windows \d+( emitted \d+)?\n')
# Ends itself at the N-th line that it comes to, or writes the lines that it comes to.
TRACED = '''
import json, os, runpy, signal, sys
count, at, script = 0, int(sys.argv[1]), sys.argv[2]
came = []
def line(frame, event, _):
    global count
    if event == 'line':
        count += 1
        came.append(frame.f_lineno)
        if count == at:
            os.kill(os.getpid(), signal.SIGKILL)
    return line
sys.settrace(lambda frame, event, _: line if frame.f_code.co_filename == script else None)
sys.argv = sys.argv[2:]
try:
    runpy.run_path(script, run_name='__main__')
finally:
    sys.settrace(None)
    if not at:
        json.dump(came, sys.stdout)
'''


def second(hour, begin, flooded):
    """The packets of a second: connections to twenty addresses, and perhaps forty SYNs to one."""
    for i in range(60):
        yield begin + i * 16_000, written.tcp((10, 1, 0, 1 + i % 7), (10, 2, 0, 1 + i % 20), 1024 + i, 443, written.SYN if i % 3 == 0 else written.ACK, 200)
    for i in range(40 * flooded):
        yield begin + 80 + i * 20_000, written.tcp((10, 3, 0, 1 + i), (10, 9, 0, 1 + hour), 1024 + i, 80, written.SYN)


def write_hour(name, hour, seconds=3):
    written.write(name, [packet for n in range(seconds) for packet in second(hour, (hour * 3600 + n) * 1_000_000, n == 1 and hour in FLOODED)])


def template(folder, executable):
    """A folder as the script finds it, with a plan that fits and one of another query."""
    os.makedirs(folder)
    for name, text in TEXTS.items():
        with open(os.path.join(folder, name), 'w') as file:
            file.write(text.replace('PROGRAM', executable))
    for hour, slot in enumerate(SLOTS):
        write_hour(os.path.join(folder, slot + '.pcap'), hour)
        os.utime(os.path.join(folder, slot + '.pcap'), (1, 1))
    for query, plan in [('q.query', 'kept.plan'), ('other.query', 'other.plan')]:
        status, text, line = program.ran(executable, 'plan', *(os.path.join(folder, it) for it in ('s.switch', query, SLOTS[1] + '.pcap')))
        if status:
            sys.exit('%s: status %d: %s' % (plan, status, line))
        with open(os.path.join(folder, plan), 'wb') as file:
            file.write(text)


@functools.lru_cache(None)
def python(user):
    """A Python that a user may run."""
    for path in (sys.executable, '/usr/bin/python3'):
        try:
            if subprocess.run([path, '-c', ''], user=user).returncode == 0:
                return path
        except OSError:
            pass
    sys.exit('no python3 for the user %s' % user)


class Case:
    """A copy of the folder, the runs in it, and what was told there."""

    def __init__(self, place, name):
        self.name, self.folder, self.wrong, self.user, self.lacking, self.hours = name, os.path.join(place, 'case-%d' % next(NUMBER)), [], None, set(), list(range(4))
        shutil.copytree(os.path.join(place, 'template'), self.folder)
        if os.geteuid() == 0:
            self.user = 65534
            for at, _, names in os.walk(self.folder):
                for it in [at, *(os.path.join(at, name) for name in names)]:
                    os.chown(it, self.user, self.user)

    def path(self, name):
        return os.path.join(self.folder, name)

    def words(self, *more):
        return [python(self.user), *more, SCRIPT, self.folder]

    def run(self, *more, **others):
        done = subprocess.run(self.words(*more), capture_output=True, text=True, user=self.user, **others)
        if 'Traceback' in done.stderr:
            self.wrong.append('a traceback: ' + done.stderr.strip().splitlines()[-1])
        return done

    def told(self):
        """The lines of the journal, each its kind and text, of which the last may be cut."""
        try:
            with open(self.path('journal.txt')) as file:
                return [tuple(line[:-1].split(' ', 2)[1:]) for line in file if line.endswith('\n') and line.count(' ') > 1]
        except FileNotFoundError:
            return []

    def expect(self, good, what):
        if not good:
            self.wrong.append(what)

    def check_answers(self, told=None):
        """What must be so at any time: whole answers alone, no flood told twice, nothing told that isn't there, and none taken for told before it was."""
        told = self.told() if told is None else told
        floods = collections.Counter(re.findall(r'flood 10\.9\.0\.(\d+) ', ' ; '.join(text for kind, text in told if kind == 'warning')))
        self.expect(sum(kind == 'warning' for kind, _ in told) == sum(floods.values()), 'told what is no flood')
        for hour, slot in ((hour, SLOTS[hour]) for hour in self.hours):
            self.expect(floods[str(1 + hour)] <= (hour in FLOODED), '%s: told %d times' % (slot, floods[str(1 + hour)]))
            if os.path.exists(self.path(slot + '.told')):
                self.expect(slot in self.lacking or floods[str(1 + hour)] == (hour in FLOODED), '%s: taken for told' % slot)
            for name in glob.glob(self.path(slot + '.txt')):
                with open(name) as file:
                    lines = file.readlines()
                if os.path.exists(self.path(slot + '.told')):
                    self.expect(bool(lines) and TOTAL.fullmatch(lines[-1]) is not None, slot + ': no whole answer')
                    self.expect(slot in self.lacking or ('10.9.0.%d 40\n' % (1 + hour) in lines) == (hour in FLOODED), slot + ': the flood is missing')

    def check_all(self, told=None):
        """What must be so when the trouble is over."""
        self.check_answers(told)
        for slot in (SLOTS[hour] for hour in self.hours):
            self.expect(os.path.exists(self.path(slot + '.told')), slot + ': not told')
        left = [os.path.basename(name) for ending in ('*.part', '*.how', '*.news', '*.known*', '*.failed') for name in glob.glob(self.path(ending))]
        self.expect(not [name for name in left if not name.startswith('known.json')], 'left: ' + ', '.join(left))
        with open(self.path('known.json')) as file:
            self.expect(len(json.load(file)) == len({*FLOODED} & {*self.hours}), 'known.json')

    def said(self, slot, kind, *parts):
        """Whether a line of this kind on a capture has these parts."""
        return any(it == kind and text.startswith(slot) and all(part in text for part in parts) for it, text in self.told())

    def end(self):
        shutil.rmtree(self.folder)
        for wrong in self.wrong:
            print('  %s: %s' % (self.name, wrong), flush=True)
        return bool(self.wrong)


def missing(path):
    os.unlink(path)


def empty(path):
    open(path, 'w').close()


def short(path):
    os.truncate(path, 10)


def bare(path):
    os.truncate(path, 24)


def half(path):
    os.truncate(path, os.path.getsize(path) // 2)


def unreadable(path):
    os.chmod(path, 0)


def folder(path):
    os.unlink(path)
    os.mkdir(path)


def nowhere(path):
    os.unlink(path)
    os.symlink('nothing', path)


def few(path):
    write_hour(path, 0, 0)
    written.write(path, [next(second(0, 0, False))])


# What spoils a file, and by which capture, 1, is then answered: the training capture is 0's.
TRAINS = [(empty, 'err', 'live: status 5'), (short, 'err', 'live: status 5'), (bare, 'notice', '0 packets'), (few, 'notice', '1 packets'),
          (unreadable, 'err', 'live: status 9')]
SPOILT = [missing, empty, short, half, unreadable, folder, nowhere]


def mend(case, name):
    """Put a file back as it was."""
    path, whole = case.path(name), os.path.join(os.path.dirname(case.folder), 'template', name)
    if os.path.isdir(path) and not os.path.islink(path):
        os.rmdir(path)
    elif os.path.lexists(path):
        os.unlink(path)
    shutil.copy2(whole, path)
    if case.user:
        os.chown(path, case.user, case.user)


def try_trains(place):
    """A training capture that is spoilt, with a plan that is kept and without."""
    for spoil, kind, why in TRAINS:
        for kept in (True, False):
            if spoil is unreadable and os.geteuid():
                continue
            case = Case(place, 'training capture %s, %s' % (spoil.__name__, 'kept.plan' if kept else 'no kept.plan'))
            if not kept:
                os.unlink(case.path('kept.plan'))
            spoil(case.path(SLOTS[0] + '.pcap'))
            case.lacking = {SLOTS[0]}
            case.run()
            case.check_answers()
            by = 'by kept.plan' if kept else 'trained on' if kind == 'notice' else 'by plain'
            case.expect(case.said(SLOTS[1], kind, why, by), 'not said as %s: %s' % (kind, [it for it in case.told() if it[1].startswith(SLOTS[1])]))
            case.expect(not case.said(SLOTS[1], 'info'), 'said as info')
            again(case, SLOTS[0] + '.pcap')
            case.run()
            case.check_all()
            yield case


def try_spoilt(place):
    """Each file spoilt in each way, and mended."""
    for name in [slot + '.pcap' for slot in SLOTS[1:]] + ['kept.plan', 's.switch', 'q.query', 'sonata.conf', 'known.json']:
        for spoil in SPOILT:
            if spoil is unreadable and os.geteuid():
                continue
            case = Case(place, '%s %s' % (name, spoil.__name__))
            if name == 'known.json':
                with open(case.path(name), 'w') as file:
                    json.dump({'flood 10.77.0.1': 1.0}, file)
            spoil(case.path(name))
            if name.endswith('.pcap') and os.path.isfile(case.path(name)):
                os.utime(case.path(name), (1, 1))
                case.lacking = {name[:-len('.pcap')]}
            case.run()
            case.check_answers()
            if name == 'known.json':
                case.expect(spoil in (missing, nowhere) or case.said('known.json', 'err'), 'not said: ' + name)
            else:
                check_said(case, name, spoil)
                again(case, name)
            case.run()
            case.check_all()
            yield case


def check_said(case, name, spoil):
    """Each capture without an answer must have an error, of it or of the file that was spoilt, but for one that is there no more."""
    for slot in SLOTS:
        if not os.path.exists(case.path(slot + '.told')):
            gone = spoil in (missing, folder, nowhere) and slot in name
            case.expect(gone or any(kind == 'err' and (slot in text or name in text) for kind, text in case.told()), 'not said of ' + slot)


def again(case, name):
    """Mend a file; where a part of a capture was answered, have it answered anew."""
    mend(case, name)
    case.lacking = set()
    slot = name[:-len('.pcap')]
    if slot in SLOTS:
        for ending in ('.told', '.txt'):
            if os.path.exists(case.path(slot + ending)):
                os.unlink(case.path(slot + ending))


def try_left(place):
    """What an earlier run left, or another program: half an answer, and parts."""
    for ending in ('.txt', '.txt.part', '.how.part', '.news.part', '.known-1', '.mailing'):
        case = Case(place, 'half a ' + ending)
        with open(case.path(SLOTS[2] + ending), 'w') as file:
            file.write('window 0 emitted 7\nquery flood level 0 rows 0\n')
        if case.user:
            os.chown(case.path(SLOTS[2] + ending), case.user, case.user)
        case.run()
        case.check_all()
        yield case


def stand_in(case, name, text):
    """A program of the folder."""
    with open(case.path(name), 'w') as file:
        file.write('#!/bin/bash\n' + text)
    os.chmod(case.path(name), 0o755)
    return case.path(name)


def configured(case, words):
    with open(case.path('sonata.conf'), 'a') as file:
        file.write(words + '\n')


PROGRAMS = {
    'is ended by a signal': 'REAL "$@" | head -c 60; kill -KILL $$',
    'says that all is well after half an answer': 'REAL "$@" | head -c 60; exit 0',
    'says that a capture is damaged after half an answer': 'REAL "$@" | head -c 60; exit 5',
    'writes nothing and says that all is well': 'exit 0',
    'writes half of the last line': 'REAL "$@" | head -c -1; exit 0',
    'is out of memory': 'echo sonata: memory >&2; exit 1',
    'ends by its search': '[ "$1" = live ] && { echo sonata: budget 2000 bound 7 >&2; exit 8; }; exec REAL "$@"',
}


def try_programs(place, executable):
    """A program that fails, then one that doesn't."""
    for what, text in PROGRAMS.items():
        case = Case(place, 'the program ' + what)
        configured(case, 'sonata=' + stand_in(case, 'fails', text.replace('REAL', executable)))
        case.run()
        case.check_answers()
        fell = 'search' in what
        told = [os.path.exists(case.path(slot + '.told')) for slot in SLOTS]
        case.expect(all(told) if fell else not any(told), 'told %s' % told)
        case.expect(all(case.said(slot, 'notice' if fell else 'err') for slot in SLOTS), 'not said')
        before = len(case.told())
        case.run()
        case.expect(len(case.told()) == before, 'said again')
        configured(case, 'sonata=' + executable)
        case.run()
        case.check_all()
        yield case
    for words in ('sonata=/nothing/sonata', 'views=/nothing', 'sonata=/etc/passwd'):
        case = Case(place, words)
        configured(case, words)
        case.run()
        case.expect(case.said(SLOTS[0], 'err') and not glob.glob(case.path('*.told')), 'not said, or taken for told')
        configured(case, 'sonata=%s views=%s' % (executable, os.path.join(TOP, 'view')))
        case.run()
        case.check_all()
        yield case


MAIL = 'echo "$2" >> FOLDER/subjects; cat >> FOLDER/mails; '


def try_mails(place):
    """A mail that goes out, one that doesn't, and one in whose midst the run is ended."""
    for what, text in [('goes', ''), ('fails', 'exit 1'), ('is in the midst', 'kill -KILL $PPID; sleep 0.2')]:
        case = Case(place, 'a mail that ' + what)
        configured(case, 'mail=me')
        stand_in(case, 'mail', MAIL.replace('FOLDER', case.folder) + text)
        place_of = dict(os.environ, PATH=case.folder + os.pathsep + os.environ['PATH'])
        case.run(env=place_of)
        case.check_answers()
        stand_in(case, 'mail', MAIL.replace('FOLDER', case.folder))
        case.run(env=place_of)
        case.check_all()
        with open(case.path('mails')) as mails, open(case.path('subjects')) as subjects:
            lines, perhaps = mails.read(), subjects.read().count('perhaps')
        case.expect(all('flood 10.9.0.%d ' % (1 + hour) in lines for hour in FLOODED), 'a mail is lost')
        case.expect(perhaps == (what == 'is in the midst'), '%d mails say that they may come twice' % perhaps)
        yield case


def lines_of(case):
    """The events at which to end a run, for each line of the script the first and the last time that it comes to it, but of the first hundred and fifty, before
    which nothing is written but the lock, one in ten; and the lines of all events."""
    came = json.loads(case.run('-c', TRACED, '0').stdout)
    first, last = {}, {}
    for number, line in enumerate(came, 1):
        first.setdefault(line, number)
        last[line] = number
    return [number for number in sorted({*first.values(), *last.values()}) if number > FIRST or number % 10 == 0], came


def of_two(place, name):
    """A case of two captures, both of which have a flood."""
    case = Case(place, name)
    case.hours = FLOODED[:2]
    for hour in {*range(4)} - {*case.hours}:
        os.unlink(case.path(SLOTS[hour] + '.pcap'))
    return case


def try_kills(place):
    """Ended at each line, and begun again."""
    case = of_two(place, 'not ended')
    at, came = lines_of(case)
    case.check_all()
    yield case

    def ended(number):
        case = of_two(place, 'ended at line %d (event %d)' % (came[number - 1], number))
        done = case.run('-c', TRACED, str(number))
        case.expect(done.returncode == -signal.SIGKILL, 'it ended by %d' % done.returncode)
        case.check_answers()
        case.run()
        case.check_all()
        return case

    with concurrent.futures.ThreadPoolExecutor(3) as several:
        yield from several.map(ended, at)


def try_together(place, executable):
    """Four at once; and one that is ended while its program goes on writing."""
    for turn in range(3):
        case = Case(place, 'four at once, turn %d' % turn)
        for one in [subprocess.Popen(case.words(), user=case.user) for _ in range(4)]:
            one.wait()
        case.check_all()
        yield case
    case = Case(place, 'its program goes on after it')
    configured(case, 'sonata=' + stand_in(case, 'slow', '%s "$@" | { head -c 60; sleep 2; echo window 9 emitted 9; sleep 1; echo more; }' % executable))
    running = subprocess.Popen(case.words(), user=case.user)
    time.sleep(1)
    running.kill()
    running.wait()
    configured(case, 'sonata=' + executable)
    case.run()
    time.sleep(3)
    case.check_all()
    yield case


def pages(path):
    """How many pages are free where a path is."""
    room = os.statvfs(path)
    return room.f_bfree


def fill(path, left):
    """Write a file that leaves so many pages free."""
    with open(path, 'wb', buffering=0) as file:
        for _ in range(pages(path) - left):
            file.write(bytes(4096))


def try_full(place):
    """A disk with no room, with room for a page, for two .., and then with room. Run in a mount namespace."""
    disk = os.path.join(place, 'disk')
    os.makedirs(disk)
    subprocess.run(['mount', '-t', 'tmpfs', '-o', 'size=1m,mode=777', 'none', disk], check=True)
    shutil.copytree(os.path.join(place, 'template'), os.path.join(disk, 'template'))
    os.sync()
    for left in range(40):
        case = Case(disk, 'room for %d pages' % left)
        fill(os.path.join(disk, 'filler'), left)
        done = case.run()
        case.check_answers()
        told = all(os.path.exists(case.path(slot + '.told')) for slot in SLOTS)
        case.expect((done.returncode == 0) == told, 'status %d, all told: %s' % (done.returncode, told))
        os.unlink(os.path.join(disk, 'filler'))
        case.run()
        case.check_all()
        yield case


PLAYED = {'systemd-cat': 'cat > FILE.line; { printf "%s " "$4"; cat FILE.line; } >> FILE', 'journalctl': 'cut -d" " -f2- FILE'}


def with_journal(place, name):
    """A case whose folder has a journal's programs, and what to run it with."""
    case = Case(place, name)
    for tool, text in PLAYED.items():
        stand_in(case, tool, text.replace('FILE', case.path('played')))
    open(case.path('played'), 'w').close()
    os.unlink(case.path('journal.txt'))
    if case.user:
        os.chown(case.path('played'), case.user, case.user)
    return case, dict(os.environ, PATH=case.folder + os.pathsep + os.environ['PATH'])


def played(case):
    """The lines of the journal that was played."""
    with open(case.path('played')) as file:
        return [tuple(line[:-1].split(' ', 1)) for line in file]


def telling_lines():
    """The numbers of the script's lines that look at what was told, or tell."""
    with open(SCRIPT) as file:
        text = file.read().splitlines()
    at = {name: next(n for n, line in enumerate(text, 1) if line.startswith('    def %s(' % name)) for name in ('lines', 'append', 'tell', 'mail')}
    return {*range(at['lines'], at['append']), *range(at['tell'], at['mail'])}


def try_journal(place):
    """Ended at each line of what tells, where the system has a journal. Run in a mount namespace."""
    subprocess.run(['mount', '-t', 'tmpfs', '-o', 'mode=755', 'none', '/run'], check=True)
    os.makedirs('/run/systemd/journal')
    open('/run/systemd/journal/socket', 'w').close()
    case, found_by = with_journal(place, 'a journal, not ended')
    came = json.loads(case.run('-c', TRACED, '0', env=found_by).stdout)
    case.check_all(played(case))
    case.expect(not os.path.exists(case.path('journal.txt')), 'journal.txt beside the journal')
    yield case
    lines = telling_lines()
    for number in [n for n, line in enumerate(came, 1) if line in lines]:
        case, found_by = with_journal(place, 'a journal, ended at line %d (event %d)' % (came[number - 1], number))
        case.run('-c', TRACED, str(number), env=found_by)
        case.check_answers(played(case))
        case.run(env=found_by)
        case.check_all(played(case))
        yield case


def in_namespace():
    """The words before a command that give it mounts of its own, or None."""
    for words in (['unshare', '-m'], ['unshare', '-rm']):
        try:
            if subprocess.run([*words, 'mount', '-t', 'tmpfs', 'none', '/mnt'], stderr=subprocess.DEVNULL).returncode == 0:
                return words
        except OSError:
            pass
    return None


def trials(place, executable):
    """The cases of each kind."""
    return {'files': [try_trains(place), try_spoilt(place), try_left(place)], 'others': [try_programs(place, executable), try_mails(place)],
            'kills': [try_kills(place)], 'together': [try_together(place, executable)], 'full': [try_full(place)], 'journal': [try_journal(place)]}


def tried(name, given):
    """How many cases of a kind there are, and how many go wrong."""
    with tempfile.TemporaryDirectory(prefix='sonata-hours-') as place:
        os.chmod(place, 0o755)
        executable = os.path.join(place, 'sonata')
        shutil.copy(given.sonata, executable)
        template(os.path.join(place, 'template'), executable)
        found = [case.end() for trial in trials(place, executable)[name] for case in trial]
        if name == 'full':
            subprocess.run(['umount', os.path.join(place, 'disk')])
    return len(found), sum(found)


def main():
    words = program.command_line(__doc__)
    kinds = ['files', 'others', 'kills', 'together', 'full', 'journal']
    words.add_argument('kinds', nargs='*', default=kinds, metavar='KIND', help='of %s (default: all)' % ', '.join(kinds))
    words.add_argument('--mounted', action='store_true', help=program.argparse.SUPPRESS)
    given = words.parse_args()
    bad, namespace = 0, None if given.mounted else in_namespace()
    for name in given.kinds:
        if name not in kinds:
            words.error('%s is none of %s' % (name, ', '.join(kinds)))
        if name in ('full', 'journal') and not given.mounted:
            if namespace:
                bad += subprocess.run([*namespace, sys.executable, os.path.abspath(__file__), '--mounted', '--sonata', given.sonata, name]).returncode
            else:
                print('%s: left out, no mount namespace' % name)
            continue
        cases, wrong = tried(name, given)
        print('%s: %d of %d cases as they should' % (name, cases - wrong, cases), flush=True)
        bad += wrong
    return 1 if bad else 0


if __name__ == '__main__':
    sys.exit(main())
