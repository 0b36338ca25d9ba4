"""The texts that the pictures read (queries, switch, plan, tree, the epochs of `replan`), by the reader of checks/reference. Nothing here is proved."""

import collections
import os
import re
import sys

sys.path.insert(0, os.path.join(os.path.dirname(os.path.abspath(__file__)), '..', 'checks'))
from reference import costs, grammar, plans, switches, tokens, typing_rules  # noqa: E402


Epoch = collections.namedtuple('Epoch', 'number entries cost windows')


def held(name):
    """The bytes of a file, or of standard input where its name is -."""
    if name == '-':
        return sys.stdin.buffer.read()
    try:
        with open(name, 'rb') as file:
            return file.read()
    except OSError as fault:
        sys.exit('%s: %s' % (name, fault.strerror))


def accepted(name, reader):
    """What a reader makes of a file's bytes. A refused text ends the command with its first fault."""
    try:
        return reader(held(name))
    except tokens.Fault as fault:
        sys.exit('%s: %s line %d' % (name, fault.kind, fault.line))


def read_queries(name):
    """The typed queries of a file."""
    def typed(text):
        _, queries = grammar.parse(text)
        typing_rules.check(queries)
        return queries
    return accepted(name, typed)


def read_switch(name):
    return accepted(name, switches.parse)


def read_plan(name):
    """The entries of a plan. What `plan` prints after it isn't looked at."""
    return accepted(name, plans.parse)


def read_certificate(name):
    """The entries of a plan, its cost and the nodes of its tree, each a letter and a number."""
    def read(text):
        reader = costs.TreeReader(text)
        return reader.plan(), *reader.tree()
    return accepted(name, read)


def epoch_of(text):
    """The epoch of a text that begins with its number: the entries of its plan, what that costs, and its windows, each with the number of items sent."""
    head, _, answers = text.partition(b'\ndone\n')
    number, _, plan = head.partition(b'\n')
    cost = re.search(rb'^cost (\d+);$', plan, re.M)
    if cost is None:
        raise tokens.Fault('Expected', 1)
    windows = re.findall(rb'^window (\d+) emitted (\d+)$', answers, re.M)
    return Epoch(int(number), plans.parse(plan), int(cost[1]), [(int(window), int(sent)) for window, sent in windows])


def read_epochs(name):
    """The epochs of what `replan` printed."""
    found = accepted(name, lambda text: [epoch_of(part) for part in re.split(rb'^epoch ', text, flags=re.M)[1:]])
    if not found:
        sys.exit('%s: not what `sonata replan` prints' % name)
    return found


def shaped(queries, entries):
    """Ends the command where the plan isn't one of these queries."""
    try:
        plans.check_shape(queries, entries)
    except plans.Misfit as misfit:
        sys.exit('the plan is not one of these queries: %s want %d got %d' % misfit.args)


def misfit(queries, switch, entries):
    """The first check of the switch's limits that a plan fails, in words, or None."""
    try:
        plans.check_fits(queries, switch, entries)
    except plans.Misfit as fault:
        return '%s want %d got %d' % fault.args
    return None


def piece_name(query, piece):
    """The query of a piece, with its level and branch where the query has more than one."""
    level = ' /%d' % piece.level if query.levels else ''
    branch = ' branch %d' % piece.branch if len(query.branches) > 1 else ''
    return query.name + level + branch
