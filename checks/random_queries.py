#!/usr/bin/env python3
"""Compares `sonata plain` with the slow reference of plain.py on random query files, good and spoilt, over small random captures.

Prints each case on which they differ, with the seed that makes it again. The status is 0 where none does. Needs nothing but Python."""

import os
import random
import struct
import sys

import plain
import program

NAMES = ['a', 'b', 'c', 'd']
COMPARISONS = ['==', '!=', '<', '<=', '>', '>=']
CONSTANTS = ['0', '1', '2', '6', '16', '17', '64', '80', '255', '0x800', '10.0.0.1', '10.0.1.0', '4294967295', '18446744073709551615', '0x20010db800000001']


def packet_6(draw, transport):
    """A header of IPv6 between few addresses, of which some differ in their lower halves alone."""
    source, target = (bytes.fromhex('20010db8') + bytes([0, draw.randrange(2)]) + bytes(9) + bytes([draw.randrange(4)]) for _ in range(2))
    return struct.pack('!IHBB', draw.choice([6, 6, 6, 7]) << 28, draw.choice([20, 1460]), transport, draw.choice([1, 64])) + source + target


def frame(draw):
    """An Ethernet frame of IPv4 or IPv6 with TCP or UDP between few addresses, sometimes cut or tagged."""
    transport = draw.choice([6, 6, 6, 17, 1])
    body = struct.pack('!HHIIBBHHH', draw.choice([80, 443, 1024]), draw.choice([22, 80]), draw.randrange(4), 0, 80, draw.choice([2, 16, 18, 17]), 0, 0, 0)
    packet = struct.pack('!BBHHHBBH4B4B', 0x45, 0, draw.choice([40, 1500]), 0, draw.choice([0, 0, 0, 1]), draw.choice([1, 64]), transport, 0,
                         10, 0, draw.randrange(2), draw.randrange(4), 10, draw.randrange(2), 0, draw.randrange(4))
    tag = b'\x81\x00\x00\x05' if draw.random() < 0.1 else b''
    is_six = draw.random() < 0.3
    whole = bytes(12) + tag + (b'\x86\xdd' + packet_6(draw, transport) if is_six else b'\x08\x00' + packet) + body
    return whole[:draw.randrange(len(whole))] if draw.random() < 0.05 else whole


def capture(draw):
    """A capture of up to 60 packets over a few windows, sometimes damaged."""
    order = draw.choice('<>')
    magic = draw.choice([0xA1B2C3D4, 0xA1B23C4D])
    file = [struct.pack(order + 'IHHIIII', magic, 2, 4, 0, 0, 65535, 1)]
    for _ in range(draw.randrange(60)):
        bytes_of = frame(draw)
        file.append(struct.pack(order + 'IIII', draw.randrange(5), draw.randrange(1000000), len(bytes_of), len(bytes_of) + draw.choice([0, 7])) + bytes_of)
    whole = b''.join(file)
    return whole[:draw.randrange(len(whole))] if draw.random() < 0.1 else whole


def condition(draw, names, levels):
    mask = ' & ' + draw.choice(CONSTANTS) if draw.random() < 0.2 else ''
    relaxed = ' at (%d: %s)' % (draw.choice(levels), draw.choice(CONSTANTS)) if levels and draw.random() < 0.3 else ''
    return draw.choice(names) + mask + ' ' + draw.choice(COMPARISONS) + ' ' + draw.choice(CONSTANTS) + relaxed


def filtered(draw, names, levels):
    return 'filter ' + ', '.join(condition(draw, names, levels) for _ in range(draw.choice([1, 1, 2])))


def expression(draw, names, wide):
    form = draw.randrange(8 if wide else 6)
    name = draw.choice(names)
    if form == 0:
        return draw.choice(CONSTANTS)
    if form == 1:
        return '%s & %s' % (name, draw.choice(CONSTANTS))
    if form == 2:
        return '%s >> %d' % (name, draw.choice([0, 8, 24, 63]))
    if form == 6:
        return '%s + %s' % (name, draw.choice(names))
    if form == 7:
        return '%s * %s / %s' % (name, draw.choice(['1', '100', '1000000']), draw.choice(names))
    return name


def mapped(draw, names, carried, pool, wide=False):
    """A map that carries a column on under the name `k`, and the names of its columns."""
    made = draw.sample(pool, draw.randrange(1, len(pool) + 1))
    cols = ['%s as %s' % (expression(draw, names, wide), name) for name in made]
    return 'map ' + ', '.join(([carried + ' as k'] if carried else []) + cols), (['k'] if carried else []) + made


def reduced(draw, names, carried):
    column = draw.choice([name for name in names if name != carried])
    keys = [name for name in names if name != column]
    fold = draw.choice(['sum', 'max', 'min', 'or'])
    return 'reduce %s: %s(%s)%s' % (', '.join(keys), fold, column, ' width %d' % draw.choice([4, 32, 64]) if fold == 'sum' else ''), keys + [column]


def branch(draw, carried, levels, pool):
    """A branch whose maps carry this field on, and its columns after it. Mostly well typed."""
    names, ops, mapped_yet = program.FIELDS, [], False
    for left in reversed(range(draw.randrange(1, 6))):
        form = draw.choice(['filter', 'map', 'distinct', 'reduce'] if mapped_yet else ['filter', 'map'])
        if carried and not mapped_yet and left == 0 and draw.random() < 0.9:
            form = 'map'
        others = [name for name in names if name != carried]
        if form == 'filter' and others:
            ops.append(filtered(draw, others, levels))
        elif form == 'map':
            text, names = mapped(draw, others or names, carried, pool)
            carried, mapped_yet = 'k' if carried else None, True
            ops.append(text)
        elif form == 'reduce' and len(names) > 1:
            text, names = reduced(draw, names, carried)
            ops.append(text)
        elif mapped_yet:
            ops.append('distinct')
    return '  packets | ' + ' | '.join(ops or ['filter ip.valid == 1']) + ';\n', names


def query(draw, number):
    refined = draw.choice([None, None, 'ip.src', 'ip.dst', 'ip6.src', 'ip6.dst'])
    levels = sorted(draw.sample([32, 48, 120, 128] if refined.startswith('ip6') else [8, 16, 24, 32], draw.randrange(1, 4))) if refined else []
    text = 'query q%d {\n' % number + ('  refine %s: %s;\n' % (refined, ', '.join(map(str, levels))) if refined else '')
    if draw.random() < 0.6:
        return text + branch(draw, refined, levels, NAMES)[0] + '}\n'
    carried = refined or draw.choice(['ip.dst', 'ip6.dst'])
    one, left = branch(draw, carried, levels, NAMES[:2])
    two, right = branch(draw, carried, levels, NAMES[2:])
    text += one + two + '  join k'
    if draw.random() < 0.6:
        text += ' | ' + mapped(draw, [name for name in left + right if name != 'k'] or ['k'], 'k', NAMES, wide=True)[0]
    return text + ';\n}\n'


def spoilt(draw, text):
    """The text with one word or byte changed."""
    words = text.split(' ')
    place = draw.randrange(len(words))
    words[place] = draw.choice(['', ';', 'x', '0', '64', 'as', 'filter', '$', words[draw.randrange(len(words))]])
    return ' '.join(words)


def queries(draw):
    text = 'window %d\n' % draw.choice([1, 250000, 1000000, 3600000000]) + ''.join(query(draw, n) for n in range(draw.choice([1, 1, 2, 3])))
    return spoilt(draw, text) if draw.random() < 0.3 else text


def case(executable, seed, folder):
    """The status, None where the two answer otherwise."""
    draw = random.Random(seed)
    names = [os.path.join(folder, name) for name in ('queries', 'capture')]
    for name, held in zip(names, (queries(draw).encode(), capture(draw))):
        with open(name, 'wb') as file:
            file.write(held)
    wanted = plain.plain(*names)
    return [wanted[0] if program.run(executable, *names) == wanted else None]


if __name__ == '__main__':
    sys.exit(program.random_cases(__doc__, case))
