#!/usr/bin/env python3
"""Compares `sonata many` on random captures of two to eight switches with the slow reading of reference/many.py, and, along paths of one level, with what
`sonata plain` answers of the captures merged in time order. Prints each case on which they differ, with the seed that makes it again. The status is 0 where
none does. Needs nothing but Python.

With --alone the reading is compared with itself: the answers of the queries to all tuples with what an engine makes of the items that the switches send,
and with the reading of `plain`. It needs no program."""

import os
import random
import struct
import sys

import planned
import program
import random_plans
import random_queries
from reference import grammar, many, plans, switches, typing_rules

HEADER = 24


def record(order, unit, time_us, bytes_of):
    seconds, fraction = divmod(time_us, 1000000)
    return struct.pack(order + 'IIII', seconds, fraction * unit, len(bytes_of), len(bytes_of)) + bytes_of


def written(records, order, nanos):
    head = struct.pack(order + 'IHHIIII', 0xA1B23C4D if nanos else 0xA1B2C3D4, 2, 4, 0, 0, 65535, 1)
    return head + b''.join(record(order, 1000 if nanos else 1, *one) for one in records)


def parted(draw):
    """The records of a capture whose times rise, and what each of two to eight switches saw of them."""
    count = draw.choice([2, 2, 2, 3, 8])
    times = sorted(draw.randrange(draw.choice([2, 4, 5])) * 1000000 + draw.randrange(1000000) for _ in range(draw.randrange(120)))
    records = [(time, random_queries.frame(draw)) for time in times]
    shares = [[] for _ in range(count)]
    for one in records:
        shares[draw.randrange(count)].append(one)
    return records, [written(share, draw.choice('<>'), draw.random() < 0.5) for share in shares]


def spoilt(draw, file):
    """A capture with another header, or cut anywhere, or with bytes after it, or with times that fall."""
    form = draw.randrange(4)
    if form == 0:
        return bytes([file[0] ^ 1]) + file[1:]
    if form == 1:
        return file[:draw.randrange(len(file))]
    return file + bytes(draw.randrange(1, 16)) if form == 2 else random_queries.capture(draw)


def captures(draw):
    """The captures of all switches, a part of them spoilt."""
    _, files = parted(draw)
    if draw.random() < 0.3:
        files[draw.randrange(len(files))] = spoilt(draw, files[0])
    return files


def flat(queries, entries):
    """The entries with the finest level of each path alone."""
    for query, entry in zip(queries, entries):
        entry.path = plans.levels_of(query)[-1:]
        entry.pieces = [piece for piece in entry.pieces if piece.level in entry.path]
    return entries


def flat_plan(held):
    """The text of a plan with paths of one level, and whether it fits."""
    _, queries = grammar.parse(held['queries'])
    typing_rules.check(queries)
    switch = switches.parse(held['switch'])
    entries = flat(queries, plans.parse(held['plan']))
    try:
        plans.check_fits(queries, switch, entries)
    except plans.Misfit:
        return None
    return ('\n'.join(plans.lines(entries)) + '\n').encode()


def write(folder, held):
    names = {name: os.path.join(folder, name) for name in held}
    for name, content in held.items():
        with open(names[name], 'wb') as file:
            file.write(content)
    return names


def words(names, count):
    return 'many', names['switch'], names['queries'], names['plan'], *(names['capture%d' % n] for n in range(count))


def good(draw):
    """A switch, queries and a plan that read well, as their texts."""
    while True:
        text, queries = random_plans.typed(draw)
        switch = random_plans.switch_text(draw)
        plan = random_plans.plan_text(draw, switches.parse(switch.encode()), queries)
        return {'switch': switch.encode(), 'queries': text.encode(), 'plan': plan.encode()}


def unsplit(text):
    """The lines of an answer without how many items were sent, and with no more than the finest level of a path of one."""
    return [line.split(b' emitted ')[0] for line in text.splitlines()]


def asked(seed, folder):
    """The words of a call of any captures, and those of a call along paths of one level with the merged capture, or None."""
    draw = random.Random(seed)
    held = random_plans.files(draw)
    files = captures(draw)
    names = write(folder, {**held, **{'capture%d' % n: file for n, file in enumerate(files)}})
    any_words = words(names, len(files))
    held = good(draw)
    held['plan'] = flat_plan(held)
    if held['plan'] is None:
        return any_words, None
    records, files = parted(draw)
    inner = os.path.join(folder, 'merged')
    os.makedirs(inner, exist_ok=True)
    names = write(inner, {**held, 'merged': written(records, '<', False), **{'capture%d' % n: file for n, file in enumerate(files)}})
    return any_words, (words(names, len(files)), ('plain', names['queries'], names['merged']))


def case(executable, seed, folder):
    any_words, merged = asked(seed, folder)
    found = [random_plans.differs(executable, *any_words)]
    if merged:
        status, text, _ = program.ran(executable, *merged[0])
        plain_status, plain_text, _ = program.ran(executable, *merged[1])
        found.append(status if (status, unsplit(text)) == (plain_status, unsplit(plain_text)) else None)
    return found


def engines_agree(call):
    """Whether the engine makes of the items what the queries answer, in each window."""
    _, switch_name, queries_name, plan_name, *capture_names = call
    window, queries = planned.read_queries(queries_name)
    switch = planned.read_switch(switch_name)
    entries = planned.read_plan(plan_name, lambda entries: plans.check_fits(queries, switch, entries))
    found = many.windows_along(window, queries, switch, entries, many.read([planned.held(name) for name in capture_names]))
    return all(rows == joined for _, _, rows, joined in found)


def alone(seed, folder):
    any_words, merged = asked(seed, folder)
    status, text, _ = planned.answer(*any_words)
    found = [status if status not in (0, 5) or not text or engines_agree(any_words) else None]
    if merged:
        status, text, _ = planned.answer(*merged[0])
        plain_status, plain_text, _ = planned.answer(*merged[1])
        found.append(status if (status, unsplit(text)) == (plain_status, unsplit(plain_text)) else None)
    return found


if __name__ == '__main__':
    sys.exit(program.random_cases(__doc__, case, alone, needs=['many']))
