"""What the machine does to `sonata`: streams, names, limits and sizes, as tables of checks/faults.py.

streams  each command with standard output or standard error on a full disk, without a reader (also one that leaves after some bytes), and with the
         three descriptors closed, each two of them, and each; with each file word as a folder, an empty file, no file, a name of 4,095 bytes that is
         one, a name of 4,096 bytes, and a name that isn't UTF-8 (one with a NUL can't be given: it ends where the system's call `execve` takes
         words); with each file as a named pipe in pieces of 100 bytes, the last also stopped and continued between its halves; and with each
         file as a named pipe that nobody writes, where it waits until a signal ends it
limits   each command in 21 limits of the address space, from the one in which it begins up to the one that it takes, with one descriptor for
         files, with one for each file, and where half of its text is the largest file
growth   each capture holds half of its bytes, and the others are added right before the N-th read of the call: the answer to the whole, or from
         some N on to half
long     texts and reports of 64 kB that are one thing over and over, and a capture of 64 kB of different keys: in less than a second of a processor
sizes    each text, report and training capture with exactly 2^30 bytes, which are sparse and in a comment where it has any, and with one more;
         captures that go on after a damaged record, and captures of 4,194,304 records and one more

What must come is what docs/FORMATS.md has for it, and the reading in checks/planned.py answers."""

import ctypes
import multiprocessing
import os
import resource
import shutil
import signal
import subprocess
import time

import calls
from calls import CALLS, FIRST, front, words

SECONDS = 300
HERE = os.path.dirname(os.path.abspath(__file__))
READ, WRITE, LARGE = (9, 'sonata: read fault\n'), (10, 'sonata: write fault\n'), (12, 'sonata: too large\n')
# the descriptors of standard input, output and error
CLOSED = [(0,), (1,), (2,), (0, 1), (0, 2), (1, 2), (0, 1, 2)]
STEPS, LONG = 20, 65536
C, NOT_RANDOM = ctypes.CDLL(None), 0x40000


def run(sonata, spoken, **streams):
    """The status, text and line of a run whose descriptors are closed or replaced before it begins."""
    done = subprocess.run([sonata, *spoken], stdin=subprocess.DEVNULL, timeout=SECONDS, check=False, preexec_fn=streams.get('before'),
                          stdout=streams.get('out', subprocess.PIPE), stderr=streams.get('error', subprocess.PIPE))
    return done.returncode, done.stdout or b'', (done.stderr or b'').decode(errors='replace')


# ---- standard streams

def full(faults, call):
    """Standard output and standard error on a full disk."""
    spoken = words(call, faults.names)
    with open('/dev/full', 'wb') as disk:
        answer = run(faults.sonata, spoken, out=disk)
        faults.expect('%s, a full disk' % call, answer, answer == (10, b'', WRITE[1]))
        answer, whole = run(faults.sonata, spoken[:1], error=disk), calls.answer(*spoken[:1])
        faults.expect('%s, errors to a full disk' % call, answer, answer == (*whole[:2], ''))


def without_reader(faults, call):
    """Nobody reads, and the system's signal for that ends the program, or is ignored."""
    spoken = words(call, faults.names)
    for what, before in [('', None), (', the signal ignored', lambda: signal.signal(signal.SIGPIPE, signal.SIG_IGN))]:
        reader, writer = os.pipe()
        os.close(reader)
        answer = run(faults.sonata, spoken, out=writer, before=before)
        os.close(writer)
        may = (answer[0], answer[2]) == WRITE or before is None and answer == (-signal.SIGPIPE, b'', '')
        faults.expect('%s, no reader%s' % (call, what), answer, may)


def leaving(faults):
    """A reader that leaves after some bytes of a long text."""
    with subprocess.Popen([faults.sonata, 'gen', '7'], stdout=subprocess.PIPE, stderr=subprocess.PIPE) as process:
        found = process.stdout.read(1000)
        process.stdout.close()
        line = process.stderr.read().decode()
        status = process.wait()
    may = calls.answer('gen', '7')[1].startswith(found) and ((status, line) == WRITE or (status, line) == (-signal.SIGPIPE, ''))
    faults.expect('gen, a reader that leaves', (status, found, line), may)


def closed(faults, call):
    """Each of the three descriptors is closed, and each two of them, and all."""
    spoken = words(call, faults.names)
    whole = calls.answer(*spoken)
    for descriptors in CLOSED:
        answer = run(faults.sonata, spoken, before=lambda: [os.close(descriptor) for descriptor in descriptors])
        line = '' if 2 in descriptors else WRITE[1]
        may = answer == (10, b'', line) if 1 in descriptors else answer == whole
        faults.expect('%s, closed %s' % (call, descriptors), answer, may)


# ---- names

def long_name(folder):
    """A name of 4,095 bytes, which is the most that the system takes, in folders that are there."""
    path = os.path.join(folder, 'long')
    while 4095 - len(path) > 250:
        path = os.path.join(path, 'd' * 100)
    os.makedirs(path)
    return os.path.join(path, 'f' * (4095 - len(path) - 1))


def with_word(call, names, name, other):
    """The words of a call with another name in the place of a file's."""
    return words(call, dict(names, **{name: other}))


def odd_names(faults, call, long):
    """A folder, an empty file, no file, a name that is as long as one may be, and one that is longer, in the place of each file."""
    for name in CALLS[call]:
        shutil.copyfile(faults.names[name], long)
        others = [('a folder', HERE), ('an empty file', os.devnull), ('no file', os.path.join(HERE, 'absent')), ('4,096 bytes', '/' + 'x' * 4095)]
        for what, other in others:
            spoken = with_word(call, faults.names, name, other)
            answer, whole = run(faults.sonata, spoken), calls.answer(*spoken)
            faults.expect('%s, %s as %s' % (call, what, name), answer, answer == whole)
        answer, whole = run(faults.sonata, with_word(call, faults.names, name, long)), calls.answer(*words(call, faults.names))
        faults.expect('%s, 4,095 bytes as %s' % (call, name), answer, answer == whole)
        answer = run(faults.sonata, with_word(call, faults.names, name, b'\xff\xfe'))
        faults.expect('%s, no UTF-8 as %s' % (call, name), answer, answer == (13, b'', ''))


# ---- named pipes

def feed(path, name):
    """Writes a file to a named pipe in pieces."""
    with open(path, 'wb') as pipe:
        content = calls.held(name)
        for start in range(0, len(content), 100):
            pipe.write(content[start:start + 100])
            pipe.flush()


def in_pieces(faults, call, path):
    """Each file comes through a named pipe in pieces."""
    whole = calls.answer(*words(call, faults.names))
    for name in CALLS[call]:
        feeding = multiprocessing.Process(target=feed, args=(path, faults.names[name]))
        feeding.start()
        try:
            answer = run(faults.sonata, with_word(call, faults.names, name, path))
        finally:
            feeding.terminate()
            feeding.join()
        faults.expect('%s, %s in pieces' % (call, name), answer, answer == whole)


def sleeps(process):
    """Whether a process comes to sleep, seen twice, before ten seconds have passed."""
    seen = 0
    for _ in range(500):
        with open('/proc/%d/stat' % process.pid, encoding='ascii') as file:
            seen = seen + 1 if file.read().rpartition(')')[2].split()[0] == 'S' else 0
        if seen == 5:
            return True
        time.sleep(0.02)
    return False


def written_before(faults, call, name):
    """What a call has written when it comes to this file."""
    if call.startswith('live') and name == 'capture':
        return calls.answer(*words('plan', faults.names))[1]
    if call == 'replan' and name == 'capture':
        return b'epoch 0\n' + calls.answer(*words('plan', faults.names))[1]
    return b''


def unwritten(faults, call, path):
    """Each file is a named pipe that nobody writes: the program waits, and a signal ends it."""
    for name in CALLS[call]:
        spoken = with_word(call, faults.names, name, path)
        with subprocess.Popen([faults.sonata, *spoken], stdout=subprocess.PIPE, stderr=subprocess.PIPE) as process:
            waiting = sleeps(process)
            process.send_signal(signal.SIGTERM)
            text, line = process.communicate(timeout=SECONDS)
        answer = process.returncode, text, line.decode()
        faults.expect('%s, nobody writes %s' % (call, name), answer, waiting and answer == (-signal.SIGTERM, written_before(faults, call, name), ''))


def stopped(faults, call, path):
    """The last file comes through a named pipe, half of it after the program was stopped and continued."""
    name, whole = CALLS[call][-1], calls.answer(*words(call, faults.names))
    content = calls.held(faults.names[name])
    with subprocess.Popen([faults.sonata, *with_word(call, faults.names, name, path)], stdout=subprocess.PIPE, stderr=subprocess.PIPE) as process:
        with open(path, 'wb', buffering=0) as pipe:
            pipe.write(content[:len(content) // 2])
            waiting = sleeps(process)
            process.send_signal(signal.SIGSTOP)
            process.send_signal(signal.SIGCONT)
            pipe.write(content[len(content) // 2:])
        text, line = process.communicate(timeout=SECONDS)
    answer = process.returncode, text, line.decode()
    faults.expect('%s, stopped at %s' % (call, name), answer, waiting and answer == whole)


def streams(faults):
    path, long = os.path.join(faults.folder, 'pipe'), long_name(faults.folder)
    os.mkfifo(path)
    leaving(faults)
    for call in faults.calls:
        full(faults, call)
        without_reader(faults, call)
        closed(faults, call)
        odd_names(faults, call, long)
        in_pieces(faults, call, path)
        unwritten(faults, call, path)
        if CALLS[call]:
            stopped(faults, call, path)


# ---- limits

def limited(what, amount):
    return lambda: resource.setrlimit(what, (amount, amount))


def in_place(size):
    """A limit of the address space in kB, with the same addresses in each run, so that each takes as much."""
    def before():
        C.personality(NOT_RANDOM)
        resource.setrlimit(resource.RLIMIT_AS, (size * 1024, size * 1024))
    return before


def least(holds):
    """The least number of kB, a multiple of 4, of which this holds, which does of all above."""
    low, high = 0, 256
    while not holds(high):
        low, high = high, high * 2
    while low + 4 < high:
        middle = (low + high) // 8 * 4
        low, high = (low, middle) if holds(middle) else (middle, high)
    return high


def starved(answer, whole):
    """Out of memory, with its line where the words were taken, or the whole answer."""
    return answer == whole or front(answer, whole, (1, 'sonata: memory\n'), (13, ''))


def address_space(faults, call):
    """Limits between the least one in which the system begins the program with 256 kB of its stack, and the least one in which it answers all."""
    spoken = words(call, faults.names)
    whole = calls.answer(*spoken)

    def answers(size):
        return faults.run(spoken, 'begin', 0, '', before=in_place(size))

    low, high = least(lambda size: answers(size)[1]), least(lambda size: answers(size)[0] == whole)
    for step in range(STEPS + 1):
        size = low + (high - low) * step // STEPS
        answer, begun = answers(size)
        faults.expect('%s in %d kB' % (call, size), answer, begun and starved(answer, whole) and (step < STEPS or answer == whole))


def ignoring(signal_, limit):
    def before():
        signal.signal(signal_, signal.SIG_IGN)
        limit()
    return before


def descriptors(faults, call):
    """One descriptor for files, where the second file can't be opened, and as many as there are files."""
    spoken = words(call, faults.names)
    whole = calls.answer(*spoken)
    answer = run(faults.sonata, spoken, before=limited(resource.RLIMIT_NOFILE, 4))
    faults.expect('%s, one descriptor' % call, answer, answer == ((READ[0], b'', READ[1]) if CALLS[call] else whole))
    answer = run(faults.sonata, spoken, before=limited(resource.RLIMIT_NOFILE, max(4, 3 + len(CALLS[call]))))
    faults.expect('%s, a descriptor for each file' % call, answer, answer == whole)


def largest_file(faults, call):
    """Half of the text fits into the largest file that may be."""
    spoken = words(call, faults.names)
    whole = calls.answer(*spoken)
    with open(os.path.join(faults.folder, 'text'), 'wb') as out:
        half = limited(resource.RLIMIT_FSIZE, len(whole[1]) // 2)
        status, _, line = run(faults.sonata, spoken, out=out, before=ignoring(signal.SIGXFSZ, half))
    answer = status, calls.held(out.name), line
    faults.expect('%s, half of its text fits' % call, answer, front(answer, whole, WRITE))


def limits(faults):
    for call in faults.calls:
        address_space(faults, call)
        descriptors(faults, call)
        largest_file(faults, call)


# ---- captures that grow

def growth(faults):
    more, grows = os.path.join(faults.folder, 'more'), os.path.join(faults.folder, 'grows')
    for call in faults.calls:
        for name in (name for name in CALLS[call] if name in ('training', 'capture', 'second', 'reports')):
            content, spoken = calls.held(faults.names[name]), with_word(call, faults.names, name, grows)
            halved = with_word(call, faults.names, name, grows + '.half')
            for path, piece in [(more, content[len(content) // 2:]), (grows + '.half', content[:len(content) // 2])]:
                with open(path, 'wb') as file:
                    file.write(piece)
            whole, half = calls.answer(*words(call, faults.names)), calls.planned.answer(*halved)
            grow(faults, '%s, %s' % (call, name), spoken, {'FAULT_GROWS': grows, 'FAULT_MORE': more}, whole, half)


def grow(faults, what, spoken, files, whole, half):
    """Adds the second half before each read in turn. Once that is too late it stays so."""
    at, met, may = 0, True, [whole, half]
    while met:
        shutil.copyfile(files['FAULT_GROWS'] + '.half', files['FAULT_GROWS'])
        answer, met = faults.run(spoken, 'grow', at, 'fail', **files)
        faults.expect('%s grows before read %d' % (what, at), answer, answer in may and (at > 0 or answer == whole) and (met or answer == half))
        may, at = [half] if answer == half else may, at + 1


# ---- sizes

def sparse(faults, name, front_, size):
    """A file of this many bytes, of which these are the first and the others 0."""
    path = os.path.join(faults.folder, name + '.sparse')
    with open(path, 'wb') as file:
        file.write(front_)
        file.truncate(size)
    return path


def sized(faults, call, what, names, wanted):
    if call in faults.calls:
        answer = run(faults.sonata, words(call, dict(faults.names, **names)))
        faults.expect('%s, %s, wanted status %d' % (call, what, wanted[0]), answer, answer == wanted)
    for path in names.values():
        os.remove(path)


def texts_of(faults, name, call, size):
    """A text of 2^30 bytes, the last ones in a comment, and of one more."""
    content, whole = calls.held(faults.names[name]), calls.answer(*words(call, faults.names))
    sized(faults, call, '2^30 bytes of %s' % name, {name: sparse(faults, name, content + b'#', size)}, whole)
    sized(faults, call, '2^30 + 1 bytes of %s' % name, {name: sparse(faults, name, content + b'#', size + 1)}, (LARGE[0], b'', LARGE[1]))


def damaged_at(call, faults):
    """The answer to the whole capture where a record of too many bytes follows it."""
    status, text, _ = calls.answer(*words(call, faults.names))
    at = len(calls.held(faults.names['capture']))
    lines = text.split(b'\n')
    return 5, b'\n'.join(lines[:-2] + [b'capture bad at byte %d' % at] + lines[-2:]), 'sonata: capture Bad byte %d\n' % at


def sizes(faults):
    size = 1 << 30
    for name in ('queries', 'switch', 'plan', 'certificate'):
        texts_of(faults, name, FIRST[name], size)
    reports, bad, too_large = calls.held(faults.names['reports']), b'\xff' * 16, (LARGE[0], b'', LARGE[1])
    answered = calls.answer(*words('finish', faults.names))[1]
    unfinished = 11, answered[:answered.index(b'total')], 'sonata: reports Bad byte %d\n' % len(reports)
    sized(faults, 'finish', '2^30 bytes of reports', {'reports': sparse(faults, 'reports', reports, size)}, unfinished)
    sized(faults, 'finish', '2^30 + 1 bytes of reports', {'reports': sparse(faults, 'reports', reports, size + 1)}, unfinished)
    capture = calls.held(faults.names['capture'])
    whole = calls.answer(*words('plan', faults.names))
    sized(faults, 'plan', '2^30 bytes of training', {'training': sparse(faults, 'training', capture + bad, size)}, whole)
    for call in ('plan', 'check', 'live', 'replan'):
        sized(faults, call, '2^30 + 1 bytes of training', {'training': sparse(faults, 'training', capture + bad, size + 1)}, too_large)
    for call in ('plain', 'run', 'detect'):
        sized(faults, call, '2^40 + 1 bytes of capture', {'capture': sparse(faults, 'capture', capture + bad, (1 << 40) + 1)}, damaged_at(call, faults))
    both = {name: sparse(faults, name, capture + bad, size // 2 + 1) for name in ('capture', 'second')}
    sized(faults, 'many', '2^30 + 2 bytes of captures', both, too_large)
    records(faults)


def records(faults):
    """Records without bytes, 4,194,304 of one window and one more."""
    head, most = calls.capture()[:24], 4194304
    answered = b'window 0\nquery many level 32 rows 0\nquery both level 0 rows 1\n0.0.0.0 0\ntotal windows 1\n'
    for count, wanted in [(most, (0, answered, '')), (most + 1, (LARGE[0], b'', LARGE[1]))]:
        sized(faults, 'plain', '%d records' % count, {'capture': sparse(faults, 'capture', head, 24 + 16 * count)}, wanted)
    for call in ('run', 'emit', 'detect', 'many'):
        sized(faults, call, '%d records' % (most + 1), {'capture': sparse(faults, 'capture', head, 24 + 16 * (most + 1))}, (LARGE[0], b'', LARGE[1]))
    for call in ('plan', 'check', 'live', 'replan'):
        sized(faults, call, '%d records' % (most + 1), {'training': sparse(faults, 'training', head, 24 + 16 * (most + 1))}, (LARGE[0], b'', LARGE[1]))


# ---- 64 kB

def over_and_over(names):
    """Texts of 64 kB that are one thing over and over, and a capture of as many keys as they hold: a call, the file, and its bytes."""
    for byte in b'{|(#>=9a._ \n':
        for name in ('queries', 'switch', 'plan', 'certificate'):
            yield FIRST[name], name, bytes([byte]) * LONG
    queries, front_ = calls.held(names['queries']), calls.held(names['certificate']).partition(b'tree\n')
    yield 'plain', 'queries', queries + b'#' * (LONG - len(queries))
    yield 'plain', 'queries', b'window 1 query ' + b'a' * (LONG - 15)
    yield 'plain', 'queries', b'window 0x' + b'0' * (LONG - 10) + b'1'
    for node in (b'E 0\n', b'X\n', b'B 99\n', b'E 18446744073709551615\n', front_[2][:front_[2].index(b'\n') + 1]):
        yield 'check', 'certificate', (front_[0] + front_[1] + node * LONG)[:LONG]
    for call in CALLS:
        for name in set(CALLS[call]) & {'training', 'capture'}:
            yield call, name, calls.many_keys()[:LONG]
    yield 'finish', 'reports', (calls.held(names['reports']) * LONG)[:LONG]


def used():
    """The seconds of a processor that ended runs took."""
    found = resource.getrusage(resource.RUSAGE_CHILDREN)
    return found.ru_utime + found.ru_stime


def long(faults):
    path = os.path.join(faults.folder, 'long.text')
    for call, name, content in over_and_over(faults.names):
        if call in faults.calls:
            with open(path, 'wb') as file:
                file.write(content)
            spoken, before = with_word(call, faults.names, name, path), used()
            answer, seconds = run(faults.sonata, spoken), used() - before
            wanted = calls.planned.answer(*spoken)
            faults.expect('%s, %s of %r.. in %.3f seconds, wanted status %d' % (call, name, content[:12], seconds, wanted[0]), answer,
                          answer == wanted and seconds < 1)


TABLES = {'streams': streams, 'limits': limits, 'growth': growth, 'sizes': sizes, 'long': long}
