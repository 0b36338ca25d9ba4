"""A call of each command of `sonata` over small files, and what it should answer: for checks/faults.py, checks/machine.py and checks/fuzz.py."""

import functools
import os
import sys

import planned

HERE = os.path.dirname(os.path.abspath(__file__))
sys.path.insert(0, os.path.join(HERE, '..', 'bench'))
import generate  # noqa: E402

SWITCH = 'stages 4;\nactions 2;\nbits 4096;\nmeta 1024;\nchain 2;\nslots 4, 16;\n'
QUERIES = '''window 1000000
query many {
  refine ip.dst: 8, 32;
  packets
    | filter tcp.flags == 2
    | map ip.dst as d, ip.src as s
    | distinct
    | map d as d, 1 as n
    | reduce d: sum(n) width 32
    | filter n > 2 at (8: 1);
}
query both {
  packets
    | map ip.src as a, pkt.len as n
    | reduce a: sum(n) width 32;
  packets
    | map ip.src as a, 1 as c
    | reduce a: max(c);
  join a
    | map a as a, n * 2 / c as r;
}
'''

CALLS = {
    'plain': ['queries', 'capture'],
    'plan': ['switch', 'queries', 'training'],
    'check': ['switch', 'queries', 'training', 'certificate'],
    'run': ['switch', 'queries', 'plan', 'capture'],
    'run --csv': ['switch', 'queries', 'plan', 'capture'],
    'emit': ['switch', 'queries', 'plan', 'capture'],
    'finish': ['queries', 'plan', 'reports'],
    'detect': ['queries', 'plan', 'capture'],
    'many': ['switch', 'queries', 'plan', 'capture', 'second'],
    'live': ['switch', 'queries', 'training', 'capture'],
    'live --trace': ['switch', 'queries', 'training', 'capture'],
    'replan': ['switch', 'queries', 'training', 'capture'],
    'gen': [],
    'job': [],
}
# the call that reads a file of this name first of all that do
FIRST = {'queries': 'plain', 'capture': 'plain', 'switch': 'run', 'plan': 'run', 'certificate': 'check', 'reports': 'finish'}
# those that take a number in the place of files, and the one that takes it after them
NUMBERS = {'gen': ['7'], 'job': ['7']}
MOST = {'replan': ['1']}

# what the reading answers to `job 7`, for which it needs a minute and a half
JOB = b'''job 7 packets 20000 windows 4
cost 1749
emitted 1777
nodes 387
query newconn rows 1
10.1.2.3 500
query spread rows 1
10.1.2.3 500
query slow rows 1
10.9.8.7 25000
'''


def words(call, names):
    command, _, option = call.partition(' ')
    return [command, *NUMBERS.get(command, []), *(names[name] for name in CALLS[call]), *MOST.get(command, []), *([option] if option else [])]


@functools.lru_cache(maxsize=None)
def answer(*spoken):
    """What the reading answers to these words, of which the files stay as they are."""
    return (0, JOB, '') if spoken == ('job', '7') else planned.answer(*spoken)


def front(answer, whole, *told):
    """One of these statuses with its line, and a front of the whole text."""
    return (answer[0], answer[2]) in told and whole[1].startswith(answer[1])


def capture(sources=3, targets=2):
    """Three windows of a few packets each."""
    drawn = [(window, 0x0A000001 + source, 0x0A000009 + target, flags)
             for window in range(3) for target in range(targets) for source in range(sources) for flags in (2, 16)]
    return generate.FILE_HEADER + b''.join(generate.record(second, 0, source, target, 1234, 80, flags, 40) for second, source, target, flags in drawn)


def many_keys(count=936):
    """A capture of this many packets of different sources and targets, fifty in a second."""
    drawn = (generate.record(number // 50, number % 50, 0x0A000000 + number * 7919 % 65536, 0x14000000 + number * 104729 % 65536, number, 80,
                             2 if number % 3 else 16, 40) for number in range(count))
    return generate.FILE_HEADER + b''.join(drawn)


def syns(packets):
    """SYN packets, each the given microseconds after one second, from 10.0.0.S to 10.0.0.D."""
    drawn = (generate.record(1 + after // 10**6, after % 10**6, 0x0A000000 + source, 0x0A000000 + target, 1024, 80, 2, 40) for after, source, target in packets)
    return generate.FILE_HEADER + b''.join(drawn)


def put(names, folder, name, content):
    names[name] = os.path.join(folder, name)
    with open(names[name], 'wb') as file:
        file.write(content)


def held(name):
    """The bytes of a file."""
    with open(name, 'rb') as file:
        return file.read()


def write(folder):
    """The files, by name; plan, certificate and reports are those of the reading."""
    names = {}
    put(names, folder, 'switch', SWITCH.encode())
    put(names, folder, 'queries', QUERIES.encode())
    put(names, folder, 'capture', capture())
    put(names, folder, 'training', capture())
    put(names, folder, 'second', capture(sources=2, targets=3))
    put(names, folder, 'damaged', capture()[:-9])
    put(names, folder, 'large', answer('gen', '7')[1])
    certificate = answer(*words('plan', names))[1]
    put(names, folder, 'certificate', certificate)
    put(names, folder, 'plan', certificate[:certificate.index(b'cost')])
    put(names, folder, 'reports', answer(*words('emit', names))[1])
    return names
