#!/usr/bin/env python3
"""Compares `sonata run`, `run --csv`, `emit` and `finish` with the slow reference of planned.py on random query files, switches, plans, captures and
reports, good and spoilt. Prints each case on which they differ, with the seed that makes it again. The status is 0 where none does. A command that the
program hasn't is left out. Needs nothing but Python.

With --alone the reference is compared with itself: what `finish` makes of the frames of `emit` with the text of `run`. It needs no program."""

import functools
import os
import random
import struct
import sys

import planned
import program
import random_queries
from reference import engines, grammar, pipes, plans, switches, tokens, typing_rules

FILES = ('switch', 'queries', 'plan', 'capture', 'reports')
# An address and that of the other side.
ADDRESSES = [('ip.src', 'ip.dst'), ('ip.dst', 'ip.src'), ('ip6.src', 'ip6.dst'), ('ip6.dst', 'ip6.src')]


def typed_text(text):
    """The queries of a text that is well typed."""
    _, queries = grammar.parse(text)
    typing_rules.check(queries)
    return queries


def counting(draw, number):
    """A query that counts something for each key: a distinct, a reduce, or both, refined or not, and sometimes joined with a count of packets."""
    field, other = draw.choice(ADDRESSES)
    valid, length, written = ('ip6.valid', 'ip6.plen', [32, 48, 64, 120, 127, 128]) if field[:3] == 'ip6' else ('ip.valid', 'ip.len', [8, 16, 24, 30, 31, 32])
    levels = sorted(draw.sample(written, draw.choice([1, 2, 2, 3, 4]))) if draw.random() < 0.7 else []
    columns = [field + ' as k', other + ' as s'] + ['tcp.dport as p'] * draw.randrange(2)
    least = draw.choice(['0', '1', '2', '3'])
    relaxed = ' at (%d: 0)' % levels[0] if len(levels) > 1 and draw.random() < 0.4 else ''
    ops = draw.choice([[], ['filter %s == 1' % valid], ['filter tcp.flags & 2 == 2', 'filter tcp.valid == 1']]) + ['map ' + ', '.join(columns)]
    ops += draw.choice([['distinct'], ['distinct'], [], ['distinct', 'filter s & 3 > 0']])
    ops += ['map k as k, 1 as n', 'reduce k: %s width %d' % ('sum(n)', draw.choice([1, 2, 8, 64]))]
    ops += draw.choice([[], ['filter n > ' + least + relaxed], ['filter n > %s%s' % (least, relaxed), 'filter n < 9']])
    text = 'query c%d {\n' % number + ('  refine %s: %s;\n' % (field, ', '.join(map(str, levels))) if levels else '') + '  packets | ' + ' | '.join(ops) + ';\n'
    if draw.random() < 0.3:
        text += '  packets | map %s as k, %s as m | reduce k: %s;\n  join k | map k as k, n * 100 / m as r;\n' % (field, length, draw.choice(['sum(m) width 32', 'max(m)']))
    return text + '}\n'


def typed(draw):
    """A query text that is well typed, and its queries."""
    while True:
        make = draw.choice([random_queries.query, counting])
        text = 'window %d\n' % draw.choice([250000, 1000000, 2000000]) + ''.join(make(draw, n) for n in range(draw.choice([1, 1, 2])))
        try:
            return text, typed_text(text.encode())
        except tokens.Fault:
            continue


def membership(draw):
    """The items of a switch text that may be left out: how many prefixes a table holds, and what one of them costs."""
    items = []
    if draw.random() < 0.6:
        items.append('entries %d;' % draw.choice([1, 1, 1, 1, 2, 4194304]))
    if draw.random() < 0.5:
        items.append('weight %d;' % draw.choice([0, 1, 3, 65536]))
    return items


def switch_text(draw):
    sizes = sorted(draw.sample([1, 2, 3, 8, 64], draw.randrange(1, 5)))
    items = ['stages %d;' % draw.choice([4, 8, 16, 16, 32]), 'actions %d;' % draw.choice([1, 4, 8, 64]), 'bits %d;' % draw.choice([400, 20000, 4294967296]),
             'meta %d;' % draw.choice([100, 1000, 65535]), 'chain %d;' % draw.choice([1, 1, 2, 3, 4]), 'slots %s;' % ', '.join(map(str, sizes))]
    items += membership(draw)
    draw.shuffle(items)
    return ' '.join(items) + '\n'


def placed(draw, switch, query, entry, piece):
    """Stages for the registers of a piece, mostly such that all its tables find a place."""
    tables, registers = plans.tables(switch, query, entry, piece)
    free = max(0, switch.stages - len(tables))
    least, stages = 0, []
    for table in tables:
        if table is None:
            least += 1
            continue
        ahead = draw.randrange(free + 1) if draw.random() < 0.5 else 0
        free -= ahead
        stages.append(min(31, least + ahead))
        least = stages[-1] + 1
    return stages[:8]


def piece_of(draw, switch, query, entry, level, branch):
    most = pipes.max_cut(query.branches[branch])
    piece = plans.Piece(level, branch, draw.choice([most, most, draw.randrange(most + 1), 0]))
    count = sum(op.kind in ('distinct', 'reduce') for op in query.branches[branch][:piece.cut])
    piece.sizes = [draw.choice(switch.slots) for _ in range(count)]
    piece.stages = placed(draw, switch, query, entry, piece)
    return piece


def entry_of(draw, switch, query):
    levels = plans.levels_of(query)
    entry = plans.Entry(query.name, [level for level in levels[:-1] if draw.random() < 0.7] + levels[-1:])
    entry.pieces = [piece_of(draw, switch, query, entry, level, branch) for level in entry.path for branch in range(len(query.branches))]
    return entry


def plan_text(draw, switch, queries):
    return '\n'.join(plans.lines([entry_of(draw, switch, query) for query in queries])) + '\n'


def frames_of(reports):
    """The bytes of each frame."""
    found, at = [], 0
    while at < len(reports):
        _, _, end = engines.decode(reports, at)
        found.append(reports[at:end])
        at = end
    return found


def spoilt_bytes(draw, reports):
    """Reports cut, or with a byte or eight of them changed, left out or given again."""
    form, place = draw.randrange(5), draw.randrange(len(reports))
    if form == 0:
        return reports[:place]
    if form == 1:
        return reports[:place] + bytes([reports[place] ^ 1 << draw.randrange(8)]) + reports[place + 1:]
    eight = place // 8 * 8
    if form == 2:
        return reports + reports[eight:]
    if form == 3:
        return reports[:eight] + reports[eight + 8:]
    head = eight + draw.randrange(8)
    return reports[:head] + bytes([draw.choice([0, 1, 2, 3, 255])]) + reports[head + 1:]


def spoilt_frames(draw, reports):
    """Reports with a frame left out, given twice, moved, of another window, of another operator or with wider columns."""
    frames, form = frames_of(reports), draw.randrange(6)
    place = draw.randrange(len(frames))
    frame = frames.pop(place)
    if form == 1:
        frames[place:place] = [frame, frame]
    elif form == 2:
        frames.insert(draw.randrange(len(frames) + 1), frame)
    elif form == 3:
        size = engines.size_of(frame)
        frames.insert(place, frame[:8] + draw.choice([0, 1, 3, (1 << 64) - 1]).to_bytes(size, 'big') + frame[8 + size:] if len(frame) > 8 else frame)
    elif form == 4:
        frames.insert(place, frame[:5] + bytes([draw.randrange(13)]) + frame[6:] if frame[1] < 2 else frame[:2] + bytes([draw.randrange(8)]) + frame[3:])
    elif form == 5:
        size = engines.size_of(frame)
        frames.insert(place, frame[:-size] + draw.choice([(1 << 32), (1 << 64) - 1, (1 << 8 * size) - 1]).to_bytes(size, 'big') if len(frame) > 8 else frame)
    return b''.join(frames)


def spoilt_reports(draw, reports):
    """Reports with a fault, or with none by luck."""
    if not reports:
        return bytes(draw.randrange(9))
    return draw.choice([spoilt_bytes, spoilt_frames])(draw, reports)


def mixed(draw, reports):
    """The same frames, all in one version or each in one that is drawn. A column past 64 bits stands in version 2 alone."""
    found, at, versions = [], 0, draw.choice([[1], [2], [1, 2]])
    while at < len(reports):
        lane, content, end = engines.decode(reports, at)
        is_end = isinstance(content, int)
        is_wide = not is_end and any(column >> 64 for column in content[2])
        found.append((engines.ended if is_end else engines.encoded)(lane, content, 2 if is_wide else draw.choice(versions)))
        at = end
    return b''.join(found)


def shuffled(draw, reports):
    """The same frames, those of each window in another order between the lanes."""
    frames, at = [], 0
    while at < len(reports):
        lane, content, end = engines.decode(reports, at)
        frames.append((lane, reports[at:end], isinstance(content, int)))
        at = end
    lanes = sorted({lane for lane, _, _ in frames})
    queues = {lane: [frame for other, frame, _ in frames if other == lane] for lane in lanes}
    ends = {lane: [is_end for other, _, is_end in frames if other == lane] for lane in lanes}
    text = []
    while any(queues.values()):
        open_lanes = list(lanes)
        while open_lanes:
            lane = draw.choice(open_lanes)
            text.append(queues[lane].pop(0))
            if ends[lane].pop(0):
                open_lanes.remove(lane)
    return b''.join(text)


def rising(draw):
    """A capture whose times rise, so that window follows window, sometimes with a gap or a damaged end."""
    times = sorted(draw.randrange(draw.choice([2, 4, 5])) * 1000000 + draw.randrange(1000000) for _ in range(draw.randrange(120)))
    file = [struct.pack('<IHHIIII', 0xA1B2C3D4, 2, 4, 0, 0, 65535, 1)]
    for time in times:
        bytes_of = random_queries.frame(draw)
        file.append(struct.pack('<IIII', *divmod(time, 1000000), len(bytes_of), len(bytes_of)) + bytes_of)
    whole = b''.join(file)
    return whole[:draw.randrange(len(whole))] if draw.random() < 0.05 else whole


def capture(draw):
    return draw.choice([rising, rising, random_queries.capture])(draw)


def files(draw):
    """The bytes of each file of a case."""
    queries_text, queries = typed(draw)
    switch = switch_text(draw)
    plan = plan_text(draw, switches.parse(switch.encode()), queries)
    if draw.random() < 0.15:
        plan = random_queries.spoilt(draw, plan)
    if draw.random() < 0.05:
        switch = random_queries.spoilt(draw, switch)
    return {'switch': switch.encode(), 'queries': queries_text.encode(), 'plan': plan.encode(), 'capture': capture(draw)}


def write(folder, held):
    names = {name: os.path.join(folder, name) for name in FILES}
    for name, content in held.items():
        with open(names[name], 'wb') as file:
            file.write(content)
    return names


def differs(executable, *words):
    """The status that both answers have, or None where they differ."""
    return program.alike(executable, planned.answer(*words), *words)


built = functools.lru_cache(None)(program.built)


def case(executable, seed, folder):
    """The statuses of the commands, None where the program answers otherwise."""
    draw = random.Random(seed)
    names = write(folder, files(draw))
    four = names['switch'], names['queries'], names['plan'], names['capture']
    asked = [('run', *four), ('run', *four, '--csv'), ('emit', *four)]
    _, reports, _ = planned.answer('emit', *four)
    reports = mixed(draw, reports)
    write(folder, {'reports': spoilt_reports(draw, reports) if draw.random() < 0.5 else shuffled(draw, reports)})
    asked.append(('finish', names['queries'], names['plan'], names['reports']))
    return [differs(executable, *words) for words in asked if (words[0] + ' --csv' if '--csv' in words else words[0]) in built(executable)]


def alone(seed, folder):
    """The reference against itself: the text of `run` without a damage line, and that of `finish` on the frames of `emit`."""
    draw = random.Random(seed)
    names = write(folder, files(draw))
    four = names['switch'], names['queries'], names['plan'], names['capture']
    status, text, _ = planned.answer('run', *four)
    if status not in (0, 5) or not text:
        return [status]
    _, reports, _ = planned.answer('emit', *four)
    write(folder, {'reports': shuffled(draw, mixed(draw, reports))})
    done = planned.answer('finish', names['queries'], names['plan'], names['reports'])
    lines = [line for line in text.splitlines(True) if not line.startswith(b'capture ')]
    return [status if done == (0, b''.join(lines), '') else None]


if __name__ == '__main__':
    sys.exit(program.random_cases(__doc__, case, alone))
