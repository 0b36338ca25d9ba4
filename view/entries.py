"""Counts what each piece would cost on a training capture, for each cut and all sizes of its registers. `sonata emit` counts what it sends, on a switch with
room for everything but prefixes: an entry depends on the levels of the path up to the piece, its branch, its cut and its sizes, and on no other piece. So each
run gives an entry for every piece of a plan. What its prefixes cost, where they have a weight, stands in the answers of `sonata run`."""

import collections
import dataclasses
import os
import subprocess
import sys
import tempfile

import frames
import printed
import programs
import texts
from texts import costs, plans

ROOM = 'stages 32; actions 64; bits 4294967296; meta 65535; chain %d; slots %s;%s\n'


@dataclasses.dataclass(frozen=True)
class Lane:
    """A piece before its option is chosen: its query, the levels of the path up to it, and its branch."""
    query: int
    front: tuple
    branch: int

    def piece(self, option, stages=()):
        return plans.Piece(self.front[-1], self.branch, option[0], list(option[1]), list(stages))


def lanes_of(queries):
    """All pieces that a plan of these queries may have."""
    return [Lane(q, tuple(path[:j + 1]), branch) for q, query in enumerate(queries) for path in costs.paths(query) for j in range(len(path))
            for branch in range(len(query.branches))]


def least_stages(switch, query, lane, option):
    """The least stages that the registers of a piece may have, and the first stage after all its tables."""
    tables, _ = plans.tables(switch, query, plans.Entry(query.name, list(lane.front)), lane.piece(option))
    return [place for place, table in enumerate(tables) if table is not None], len(tables)


def is_possible(switch, query, lane, option):
    """Whether a piece fits the switch where it has it for itself."""
    stages, end = least_stages(switch, query, lane, option)
    whole = lane.piece(option, stages)
    return end <= switch.stages and plans.metadata_of(query, whole) <= switch.meta and all(bits <= switch.bits for _, bits in plans.registers_of(switch, query, whole))


def possible(switch, queries):
    """The options of each piece that fit the switch."""
    return {lane: [option for option in map(lambda one: (one[0], tuple(one[1])), costs.options(switch, queries[lane.query], lane.branch))
                   if is_possible(switch, queries[lane.query], lane, option)] for lane in dict.fromkeys(lanes_of(queries))}


def counted(words):
    """The rows of each lane among the frames that `emit` writes."""
    counts, rest = collections.Counter(), b''
    with programs.opened(words, stdout=subprocess.PIPE, stderr=subprocess.PIPE) as running:
        while block := running.stdout.read(1 << 20):
            rest += block
            at = 0
            while at + 8 <= len(rest):
                is_end = rest[at + 1] == 2
                end = at + 8 + (8 if is_end else frames.SIZES[rest[at]]) * rest[at + 6]
                if end > len(rest):
                    break
                if not is_end:
                    counts[rest[at + 2:at + 5]] += 1
                at = end
            rest = rest[at:]
        line = running.stderr.read().decode(errors='replace').strip()
    damaged = running.returncode == 5 and line.split()[2:3] in (['Cut'], ['Bad'])
    if running.returncode != 0 and not damaged:
        sys.exit('emit: %s' % (line or 'status %d' % running.returncode))
    return counts


def chosen_path(query, q, pending):
    """The path of a query on which most is still to be counted."""
    def left(path):
        return sum(len(pending.get(Lane(q, tuple(path[:j + 1]), branch), ())) for j in range(len(path)) for branch in range(len(query.branches)))
    return max(costs.paths(query), key=left)


def next_plan(switch, queries, pending):
    """A plan whose pieces have options that are still to be counted, where there are some, and the lanes and options of its pieces."""
    entries, asked = [], {}
    for q, query in enumerate(queries):
        path = chosen_path(query, q, pending)
        entries.append(plans.Entry(query.name, list(path)))
        for j in range(len(path)):
            for branch in range(len(query.branches)):
                lane = Lane(q, tuple(path[:j + 1]), branch)
                option = pending[lane].pop() if pending.get(lane) else (0, ())
                asked[bytes((q, j, branch))] = lane, option
                entries[-1].pieces.append(lane.piece(option, least_stages(switch, query, lane, option)[0]))
    return entries, asked


def room(switch):
    """The text of a switch with room for everything, whose tables hold as many prefixes as those of the other."""
    return ROOM % (switch.chain, ', '.join(map(str, switch.slots)), '' if switch.entries is None else ' entries %d;' % switch.entries)


def put(folder, name, text):
    """A file in a folder."""
    whole = os.path.join(folder, name)
    with open(whole, 'w') as file:
        file.write(text)
    return whole


def uncut(query, path):
    """A plan of a query along a path, with nothing in the switch."""
    return plans.Entry(query.name, list(path), [plans.Piece(level, branch, 0) for level in path for branch in range(len(query.branches))])


def installed(sizes, limit):
    """How many prefixes are installed in tables of these sizes, of which those above a limit stay open."""
    return sum(size for size in sizes if limit is None or size <= limit)


def fees(program, switch, queries, queries_name, capture):
    """What the prefixes cost that each piece has installed, by its query and the levels of the path up to it. Without a weight nothing is asked."""
    found, all_paths = collections.Counter(), [costs.paths(query) for query in queries]
    if not switch.weight:
        return found
    with tempfile.TemporaryDirectory(prefix='sonata-fees-') as folder:
        for number in range(max(map(len, all_paths))):
            entries = [uncut(query, paths[min(number, len(paths) - 1)]) for query, paths in zip(queries, all_paths)]
            names = put(folder, 'room.switch', room(switch)), queries_name, put(folder, 'uncut.plan', '\n'.join(plans.lines(entries)) + '\n'), capture
            _, text, _ = programs.answered([program, 'run', *names], (0, 5))
            answered = printed.prefixes(put(folder, 'answers', text), queries)
            for q, entry in enumerate(entries):
                for j in range(1, len(entry.path)):
                    sizes = printed.table_sizes(answered, queries[q], entry.path[j - 1]).values()
                    found[q, tuple(entry.path[:j + 1])] = switch.weight * installed(sizes, switch.entries)
    return found


def fee_of(paid, queries, entries):
    """What all prefixes cost that a plan has installed."""
    return sum(paid[q, tuple(entry.path[:j + 1])] * len(queries[q].branches) for q, entry in enumerate(entries) for j in range(len(entry.path)))


def table(program, switch, queries, names, options, told=lambda done: None, known=None, paid=collections.Counter()):
    """The entries of all options, for the files of queries and of the capture: by lane and option, the items sent, and what is paid for prefixes. Those that
    are known already, of the same sizes, chains and tables, aren't counted again."""
    found = {} if known is None else known
    pending = {lane: [option for option in reversed(some) if (lane, option) not in found] for lane, some in options.items()}
    whole = sum(map(len, pending.values()))
    with tempfile.TemporaryDirectory(prefix='sonata-entries-') as folder:
        room_name = put(folder, 'room.switch', room(switch))
        while any(pending.values()):
            entries, asked = next_plan(switch, queries, pending)
            plan_name = put(folder, 'one.plan', '\n'.join(plans.lines(entries)) + '\n')
            counts = counted([program, 'emit', room_name, names[0], plan_name, names[1]])
            found.update({(lane, option): counts[key] + paid[lane.query, lane.front] for key, (lane, option) in asked.items()})
            told(1 - sum(map(len, pending.values())) / whole)
    return found


def read(switch_name, queries_name):
    """A switch and queries, as the commands read them."""
    return texts.read_switch(switch_name), texts.read_queries(queries_name)
