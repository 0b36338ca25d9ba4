#!/usr/bin/env python3
"""Finds a plan that fits by an integer program, where the search of `sonata plan` doesn't end, and says how far from the best it can be at most.

    some_plan.py SWITCH QUERIES TRAIN > some.plan
    some_plan.py SWITCH QUERIES TRAIN --seconds 300 --nodes 20000 > some.plan

The plan goes to standard output, and a sentence to standard error: 'sends 2,600; none sends fewer than 2,381'. The first number is what `sonata run` says
of the plan on TRAIN. The second is the bound of `sonata plan --nodes N`, or its cost where the search ends. So both are numbers of `sonata`, and nothing of
the integer program has to be believed: what each piece would send is counted by `sonata emit`, and `run` refuses a plan that doesn't fit. Where the switch
has a `weight`, it is 'costs' and 'costs less', with this much for each prefix that is installed.

The counting takes longest, a run of `sonata emit` for each option of a piece; standard error tells every few seconds how far it is."""

import argparse
import collections
import os
import sys
import tempfile
import time

import entries
import programs
import texts
from texts import costs, plans

EVERY = 5
PACKAGE = 'Needs scipy: on Debian `apt-get install python3-scipy`, and the distribution\'s own /usr/bin/python3.'


def needed():
    """The packages that solve an integer program. Ends the command where they aren't there."""
    try:
        import numpy
        from scipy import optimize, sparse
    except ImportError:
        sys.exit(PACKAGE)
    return numpy, optimize, sparse


class Rows:
    """An integer program: columns that are 0 or 1 with what they cost, and rows of sums with their limits."""

    def __init__(self):
        self.costs, self.places, self.numbers, self.rows, self.least, self.most = [], [], [], [], [], []

    def column(self, cost=0):
        self.costs.append(cost)
        return len(self.costs) - 1

    def row(self, terms, least, most):
        """The sum of numbers times columns is between two limits."""
        for number, column in terms:
            self.rows.append(len(self.least))
            self.places.append(column)
            self.numbers.append(number)
        self.least.append(least)
        self.most.append(most)

    def solved(self, seconds):
        """The columns that are 1, and whether they are known to be of least cost. None where none was found in time."""
        numpy, optimize, sparse = needed()
        matrix = sparse.csr_array((self.numbers, (self.rows, self.places)), shape=(len(self.least), len(self.costs)))
        found = optimize.milp(numpy.array(self.costs, float), integrality=numpy.ones(len(self.costs)), bounds=optimize.Bounds(0, 1),
                              constraints=optimize.LinearConstraint(matrix, self.least, self.most), options={'time_limit': seconds, 'mip_rel_gap': 0})
        if found.x is None:
            return None, False
        return {place for place, value in enumerate(found.x) if value > 0.5}, found.status == 0


class Piece:
    """The columns of a piece: one for each option, and for each of its registers, size and stage one."""

    def __init__(self, model, lane, query, options):
        self.model, self.lane, self.query = model, lane, query
        self.chosen = {option: model.program.column(model.entries[lane, option]) for option in options}
        self.places = collections.defaultdict(dict)
        self.stateful = [place for place, operator in enumerate(query.branches[lane.branch]) if operator.kind in ('distinct', 'reduce')]
        for kind in range(max([len(sizes) for _, sizes in options] + [0])):
            self.add_registers(kind)
        self.add_order()
        self.add_end()

    def with_more(self, kind):
        """The columns of the options that have this distinct or reduce."""
        return [(option, column) for option, column in self.chosen.items() if len(option[1]) > kind]

    def add_registers(self, kind):
        """The registers of a distinct or reduce stand where its option is chosen, each in one stage, at the earliest after the tables before it."""
        switch, program = self.model.switch, self.model.program
        for size in dict.fromkeys(option[1][kind] for option, _ in self.with_more(kind)):
            some = [(option, column) for option, column in self.with_more(kind) if option[1][kind] == size]
            least = entries.least_stages(switch, self.query, self.lane, some[0][0])[0]
            whole = self.lane.piece(some[0][0], least)
            bits = plans.registers_of(switch, self.query, whole)[kind * switch.chain][1]
            for number in range(kind * switch.chain, (kind + 1) * switch.chain):
                stages = {stage: program.column() for stage in range(least[number], switch.stages)}
                program.row([(1, column) for column in stages.values()] + [(-1, column) for _, column in some], 0, 0)
                for stage, column in stages.items():
                    self.places[number].setdefault(stage, []).append(column)
                    self.model.loads[stage].append((bits, column))

    def gap(self, number):
        """The tables without state between a register and the next one."""
        chain = self.model.switch.chain
        return self.stateful[1] - self.stateful[0] - 1 if (number + 1) % chain == 0 else 0

    def add_order(self):
        """Each register stands after the one before it and the tables between: not both at or after a stage, and before the first one allowed then."""
        for number in sorted(self.places)[:-1]:
            gap, used = self.gap(number), [(-1, column) for _, column in self.with_more(number // self.model.switch.chain)]
            for stage in self.places[number]:
                after = [(1, column) for other, some in self.places[number].items() if other >= stage for column in some]
                early = [(1, column) for other, some in self.places[number + 1].items() if other <= stage + gap for column in some]
                if early:
                    self.model.program.row(after + early + used, -len(used), 0)

    def add_end(self):
        """The tables after the last register find stages."""
        switch = self.model.switch
        for kind in range(len(self.places) // switch.chain):
            last = [(option[0] - self.stateful[kind] - 1, column) for option, column in self.chosen.items() if len(option[1]) == kind + 1]
            used = [(-1, column) for _, column in self.with_more(kind)]
            for after in range(1, max([after for after, _ in last] + [0]) + 1):
                late = [(1, column) for stage, some in self.places[(kind + 1) * switch.chain - 1].items() if stage > switch.stages - 1 - after for column in some]
                self.model.program.row(late + [(1, column) for more, column in last if more >= after] + used, -len(used), 0)

    def plan_piece(self, ones):
        """The piece that a solution says."""
        option = next(option for option, column in self.chosen.items() if column in ones)
        stages = [stage for number in sorted(self.places) for stage, some in self.places[number].items() if ones.intersection(some)]
        return self.lane.piece(option, stages)


class Model:
    """The integer program of all plans that fit a switch."""

    def __init__(self, switch, queries, options, found):
        self.switch, self.queries, self.entries = switch, queries, found
        self.program, self.loads = Rows(), collections.defaultdict(list)
        self.paths = [{tuple(path): self.program.column() for path in costs.paths(query)} for query in queries]
        self.pieces = {lane: Piece(self, lane, queries[lane.query], some) for lane, some in options.items()}
        self.add_paths()
        self.add_limits()

    def add_paths(self):
        """A query has one path, and a piece an option where its levels begin that path."""
        for paths in self.paths:
            self.program.row([(1, column) for column in paths.values()], 1, 1)
        for lane, piece in self.pieces.items():
            begun = [(-1, column) for path, column in self.paths[lane.query].items() if path[:len(lane.front)] == lane.front]
            self.program.row([(1, column) for column in piece.chosen.values()] + begun, 0, 0)

    def add_limits(self):
        """What the registers of a stage and the metadata of all pieces may be."""
        for some in self.loads.values():
            self.program.row([(1, column) for _, column in some], 0, self.switch.actions)
            self.program.row([(bits / self.switch.bits, column) for bits, column in some], 0, 1)
        carried = [(plans.metadata_of(self.queries[lane.query], lane.piece(option)), column)
                   for lane, piece in self.pieces.items() for option, column in piece.chosen.items()]
        self.program.row([term for term in carried if term[0]], 0, self.switch.meta)

    def plan(self, ones):
        """The entries of the plan that a solution says."""
        found = []
        for q, query in enumerate(self.queries):
            path = next(path for path, column in self.paths[q].items() if column in ones)
            lanes = [entries.Lane(q, path[:j + 1], branch) for j in range(len(path)) for branch in range(len(query.branches))]
            found.append(plans.Entry(query.name, list(path), [self.pieces[lane].plan_piece(ones) for lane in lanes]))
        return found


def some_plan(switch, queries, options, found, seconds):
    """The text of a plan that fits, and whether the integer program knows it to be the best. None where none was found in time."""
    model = Model(switch, queries, options, found)
    ones, best = model.program.solved(seconds)
    if ones is None:
        return None, False
    plan = model.plan(ones)
    try:
        plans.check_fits(queries, switch, plan)
    except plans.Misfit as misfit:
        sys.exit('the solution does not fit (%s want %d got %d), by the inexact numbers of the integer program' % misfit.args)
    return '\n'.join(plans.lines(plan)) + '\n', best


def planned(program, names, seconds, told=lambda done: None, known=None):
    """A plan's text, what `sonata run` says that it sends of the training capture, with what its prefixes cost where they have a weight, and whether the
    integer program holds it for the best. Entries that are known aren't counted again."""
    needed()
    switch, queries = entries.read(*names[:2])
    options, paid = entries.possible(switch, queries), entries.fees(program, switch, queries, *names[1:])
    found = entries.table(program, switch, queries, names[1:], options, told, known, paid)
    text, best = some_plan(switch, queries, options, found, seconds)
    if text is None:
        sys.exit('no plan was found in %g seconds' % seconds)
    with tempfile.TemporaryDirectory(prefix='sonata-some-plan-') as folder:
        name = os.path.join(folder, 'some.plan')
        with open(name, 'w') as file:
            file.write(text)
        sends = programs.sent(program, names[0], names[1], name, names[2])
        return text, sends + entries.fee_of(paid, queries, plans.parse(text.encode())), best


def sentence(sends, least, weighed=False):
    """What a plan sends beside the least that any plan sends, as far as it is known; or what it costs, where prefixes have a weight."""
    told, fewer = ('costs', 'costs less') if weighed else ('sends', 'sends fewer')
    return '%s %s; none %s%s' % (told, format(sends, ','), fewer, '' if sends == least else ' than %s' % format(least, ','))


class Teller:
    """Tells on standard error every few seconds how much is counted, on a terminal in one line, and then that the integer program works."""

    def __init__(self, seconds):
        self.seconds, self.last, self.told = seconds, time.monotonic(), False

    def __call__(self, done):
        now, terminal = time.monotonic(), sys.stderr.isatty()
        if terminal or now - self.last >= EVERY:
            print('%scounting: %3.0f %%' % ('\r' * terminal, 100 * done), end='' if terminal else '\n', file=sys.stderr, flush=True)
            self.last, self.told = now, True
        if done == 1 and self.told:
            print('%sthe integer program has at most %g seconds' % ('\n' * terminal, self.seconds), file=sys.stderr, flush=True)


def main():
    words = argparse.ArgumentParser(description=__doc__ + '\n\n' + PACKAGE, formatter_class=argparse.RawDescriptionHelpFormatter)
    words.add_argument('switch')
    words.add_argument('queries')
    words.add_argument('train', help='the training capture; it is read many times')
    words.add_argument('--seconds', type=float, default=60, help='give the integer program so long (default 60); it takes what it has by then')
    words.add_argument('--nodes', type=int, default=1000, help='the budget of the search that gives the bound (default 1000)')
    programs.add_option(words)
    given = words.parse_args()
    if given.seconds <= 0 or given.nodes < 1:
        words.error('--seconds and --nodes are above 0')
    names = given.switch, given.queries, given.train
    needed()
    programs.readable(*names)
    text, sends, _ = planned(given.sonata, names, given.seconds, Teller(given.seconds))
    sys.stdout.write(text)
    sys.stdout.flush()
    print(sentence(sends, programs.searched(given.sonata, *names, given.nodes)[1], texts.read_switch(given.switch).weight > 0), file=sys.stderr)
    return 0


if __name__ == '__main__':
    sys.exit(main())
