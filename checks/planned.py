#!/usr/bin/env python3
"""Answers the words of `sonata` as it should: an independent and slow reference, for comparison. Needs nothing but Python.

    planned.py plain QUERIES CAPTURE
    planned.py plan SWITCH QUERIES TRAIN [--nodes N]
    planned.py run SWITCH QUERIES PLAN CAPTURE [--csv]
    planned.py emit SWITCH QUERIES PLAN CAPTURE
    planned.py finish QUERIES PLAN REPORTS
    planned.py detect QUERIES PLAN CAPTURE
    planned.py many SWITCH QUERIES PLAN CAPTURE CAPTURE { CAPTURE }
    planned.py check SWITCH QUERIES TRAIN PLANTREE
    planned.py live SWITCH QUERIES TRAIN CAPTURE [--nodes N] [--schedule K] [--trace]
    planned.py replan SWITCH QUERIES TRAIN CAPTURE MOST [--nodes N]
    planned.py gen NUMBER
    planned.py job NUMBER

It knows no limits of bytes and records. Its files are read whole.
"""

import functools
import sys

import plain as unsplit
from plain import read, told
from reference import costs, epochs, fields, generated, grammar, many as several, nets, plans, prices, split, stays, switches, tokens, typing_rules, words


class Refused(Exception):
    """A status with its line, and the bytes that were written before it."""

    def __init__(self, status, line, text=b''):
        super().__init__(status, line)
        self.answer = status, text, told(line)


def held(name):
    """The bytes of a file."""
    bytes_ = read(name)
    if bytes_ is None:
        raise Refused(9, 'read fault')
    return bytes_


def read_queries(name):
    try:
        window, queries = grammar.parse(held(name))
        typing_rules.check(queries)
    except tokens.Fault as fault:
        raise Refused(3, 'queries %s line %d' % (fault.kind, fault.line)) from fault
    return window, queries


def read_switch(name):
    try:
        return switches.parse(held(name))
    except tokens.Fault as fault:
        raise Refused(4, 'switch %s line %d' % (fault.kind, fault.line)) from fault


def read_plan(name, check):
    """The entries of a plan that passes a check."""
    try:
        entries = plans.parse(held(name))
    except tokens.Fault as fault:
        raise Refused(6, 'plan %s line %d' % (fault.kind, fault.line)) from fault
    try:
        check(entries)
    except plans.Misfit as misfit:
        raise Refused(6, 'plan %s want %d got %d' % misfit.args) from misfit
    return entries


def whole(text, ending, front=b''):
    """The text over an answered capture, which is refused after it where the capture is damaged."""
    if ending:
        raise Refused(5, 'capture %s byte %d' % ending, front + text)
    return front + text


def answered(command, window, queries, switch, entries, name, front=b''):
    """What a command makes of an answered capture, after a text that was written before."""
    file = read(name)
    if file is None:
        raise Refused(9, 'read fault', front)
    try:
        return whole(*command(window, queries, switch, entries, file), front)
    except fields.BadHeader as fault:
        raise Refused(5, 'capture %s byte %d' % fault.args, front) from fault


def plain(given):
    status, text, line = unsplit.plain(*given.files)
    if status:
        raise Refused(status, line[len('sonata: '):-1], text.encode())
    return text.encode()


def over_capture(command):
    """A command that answers a capture along a plan."""
    def done(given):
        switch_name, queries_name, plan_name, capture_name = given.files
        window, queries = read_queries(queries_name)
        switch = read_switch(switch_name)
        entries = read_plan(plan_name, lambda entries: plans.check_fits(queries, switch, entries))
        return answered(command, window, queries, switch, entries, capture_name)
    return done


def run(given):
    return over_capture(split.run_csv if '--csv' in given.options else split.run)(given)


def finish(given):
    queries_name, plan_name, reports_name = given.files
    _, queries = read_queries(queries_name)
    entries = read_plan(plan_name, lambda entries: plans.check_shape(queries, entries))
    text, fault = split.finish(queries, entries, held(reports_name))
    if fault:
        raise Refused(11, 'reports %s byte %d' % fault, text)
    return text


def detect(given):
    queries_name, plan_name, capture_name = given.files
    window, queries = read_queries(queries_name)
    entries = read_plan(plan_name, lambda entries: plans.check_shape(queries, entries))
    return answered(lambda window, queries, _, entries, file: stays.detect(window, queries, entries, file), window, queries, None, entries, capture_name)


def many(given):
    switch_name, queries_name, plan_name, *capture_names = given.files
    window, queries = read_queries(queries_name)
    switch = read_switch(switch_name)
    entries = read_plan(plan_name, lambda entries: plans.check_fits(queries, switch, entries))
    files = []
    for number, name in enumerate(capture_names, 1):
        files.append(held(name))
        try:
            fields.header(files[-1])
        except fields.BadHeader as fault:
            raise Refused(5, 'capture %s byte %d file %d' % (*fault.args, number)) from fault
    text, damage = several.many(window, queries, switch, entries, files)
    if damage:
        raise Refused(5, 'capture %s byte %d file %d' % damage, text)
    return text


def trained(window, queries, switch, name):
    """The costs on a training capture, of which the whole records count."""
    try:
        windows, _ = split.windows_of(window, held(name))
    except fields.BadHeader as fault:
        raise Refused(5, 'capture %s byte %d' % fault.args) from fault
    return costs.Costs(queries, switch, windows)


def found(table, nodes):
    """The first least plan."""
    try:
        return costs.best(table, nodes)
    except costs.Budget as budget:
        raise Refused(8, 'budget %d bound %d' % (nodes, *budget.args)) from budget


USUAL_NODES = 100000


def plan(given):
    switch_name, queries_name, train_name = given.files
    window, queries = read_queries(queries_name)
    table = trained(window, queries, read_switch(switch_name), train_name)
    return costs.certificate(table, found(table, given.options.get('--nodes', USUAL_NODES)))


def live(given):
    switch_name, queries_name, train_name, capture_name = given.files
    window, queries = read_queries(queries_name)
    switch = read_switch(switch_name)
    table = trained(window, queries, switch, train_name)
    chosen = found(table, given.options.get('--nodes', USUAL_NODES))
    command = functools.partial(nets.traced, schedule=given.options.get('--schedule', 0)) if '--trace' in given.options else split.run
    return answered(command, window, queries, switch, chosen.plan(), capture_name, costs.certificate(table, chosen))


def replan(given):
    switch_name, queries_name, train_name, capture_name = given.files
    window, queries = read_queries(queries_name)
    switch = read_switch(switch_name)
    nodes = given.options.get('--nodes', USUAL_NODES)
    table = trained(window, queries, switch, train_name)
    chosen = found(table, nodes)
    text = b'epoch 0\n' + costs.certificate(table, chosen)

    def planned(windows):
        later = costs.Costs(queries, switch, windows)
        best = costs.best(later, nodes)
        return best.plan(), costs.certificate(later, best)

    def along(window, queries, switch, entries, file):
        windows, ending = split.windows_of(window, file)
        done = b''
        try:
            for piece in epochs.texts(windows, ending, queries, switch, entries, given.number, planned):
                done += piece
        except costs.Budget as budget:
            raise Refused(8, 'budget %d bound %d' % (nodes, *budget.args), text + done) from budget
        return done, ending

    return answered(along, window, queries, switch, chosen.plan(), capture_name, text)


def check(given):
    switch_name, queries_name, train_name, certificate_name = given.files
    window, queries = read_queries(queries_name)
    switch = read_switch(switch_name)
    table = trained(window, queries, switch, train_name)
    entries = read_plan(certificate_name, lambda entries: plans.check_fits(queries, switch, entries))
    chosen, text = costs.Partial(table, costs.choices_of(table, entries)), held(certificate_name)
    try:
        return (check_prices if prices.stand_after(text) else check_tree)(table, chosen, text)
    except tokens.Fault as fault:
        raise Refused(7, 'tree %s line %d' % (fault.kind, fault.line)) from fault
    except costs.Untrue as untrue:
        raise Refused(7, 'tree %s node %d want %d got %d' % untrue.args) from untrue


def check_tree(table, chosen, text):
    reader = costs.TreeReader(text)
    reader.plan()
    number, nodes = reader.tree()
    costs.check_tree(table, chosen, number, nodes)
    return b'yes cost %d nodes %d\n' % (number, len(nodes))


def check_prices(table, chosen, text):
    shown = prices.parse(text)
    prices.check(table, chosen, shown)
    return b'yes cost %d least %d\n' % (shown.cost, shown.least)


def gen(given):
    return generated.capture(given.number)


def job(given):
    window, queries = grammar.parse(generated.QUERIES)
    typing_rules.check(queries)
    switch = switches.parse(generated.SWITCH)
    table = costs.Costs(queries, switch, split.windows_of(window, generated.capture(given.number))[0])
    chosen = found(table, USUAL_NODES)
    blocks, _ = split.windows_along(window, queries, switch, chosen.plan(), generated.capture(given.number + 1))
    lines = ['job %d packets %d windows %d' % (given.number, generated.PACKETS, len(blocks)), 'cost %d' % chosen.lower(),
             'emitted %d' % sum(emitted for _, emitted, _ in blocks), 'nodes %d' % len(costs.tree(table, chosen))]
    for query, level, rows in next(parts for number, _, parts in blocks if number == 3):
        if level == query.levels[-1]:
            shown = split.part_lines(query, level, rows)
            lines += ['query %s rows %d' % (query.name, len(rows))] + shown[1:]
    return ('\n'.join(lines) + '\n').encode()


COMMANDS = {'plain': plain, 'plan': plan, 'run': run, 'emit': over_capture(split.emit), 'finish': finish, 'detect': detect, 'many': many, 'check': check, 'live': live, 'replan': replan, 'gen': gen, 'job': job}


def answer(*spoken):
    """The status, the bytes written, and what is told on standard error."""
    given = words.read(spoken)
    if given is None:
        return 2, b'', told('usage')
    try:
        return 0, COMMANDS[given.name](given), ''
    except Refused as refused:
        return refused.answer


def main():
    if sys.argv[1:] in ([], ['--help']):
        print(__doc__, end='')
        return 2 if len(sys.argv) == 1 else 0
    status, text, line = answer(*sys.argv[1:])
    sys.stdout.buffer.write(text)
    sys.stderr.write(line)
    return status


if __name__ == '__main__':
    sys.exit(main())
