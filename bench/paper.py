#!/usr/bin/env python3
"""Measures five ways to share queries between a switch and an engine, and draws what they send: each query alone, the first queries together, and all together on
switches of several sizes. docs/EVALUATION.md shows the figures and says what each way is.

    paper.py FOLDER            all of it, over two captures of 1,200,000 packets: 18 minutes with three jobs on four processors that had other work
    paper.py FOLDER --small    three queries over 60,000 packets: 41 seconds with two jobs there

The folder is made, or is empty. It gets the captures (of backbone.c, the second with other victims), the queries, a plan for each way and case, paper.csv with
all numbers, and three pictures. Each plan's cost is compared with what `sonata run` says of it on the first capture, and each inequality that the page claims is
tried: what doesn't hold is said at the end, with status 1.

Needs a C compiler, and the programs `sonata` and `sonata_entries` that this clone built or that the options name."""

import argparse
import concurrent.futures
import csv
import dataclasses
import itertools
import math
import os
import re
import shutil
import subprocess
import sys
import tempfile

import figures
import planner
from planner import WAYS, plans
from texts import grammar, switches, tokens, typing_rules

HERE = os.path.dirname(os.path.abspath(__file__))
CRATES = os.path.join(HERE, '..', 'crates')
USUAL_WINDOW = 60000
SETTINGS = [('stages', [8, 12, 16, 24]), ('actions', [2, 4, 8, 16]), ('bits', [1 << 21, 1 << 22, 1 << 23, 1 << 24]), ('meta', [1024, 2048, 4096, 8192])]
NODES = 2000
FIGURES = ['alone', 'together', 'settings']
FIELDS = ['figure', 'queries', 'setting', 'value', 'way', 'by', 'cost', 'bound', 'sent', 'most', 'windows', 'packets']


def usual(name):
    """The program that the shell finds, else the one that this clone built."""
    return shutil.which(name) or os.path.join(CRATES, name, 'out', name)


def words_given():
    words = argparse.ArgumentParser(description=__doc__, formatter_class=argparse.RawDescriptionHelpFormatter)
    words.add_argument('folder', metavar='FOLDER', help='where all goes; it is made, or is empty')
    words.add_argument('--packets', type=int, default=1200000, help='packets of each capture (default 1200000)')
    words.add_argument('--window', type=int, default=USUAL_WINDOW, help='packets of a window (default 60000); the thresholds go with it')
    words.add_argument('--queries', type=int, default=8, help='how many of the queries, from the first on (default 8)')
    words.add_argument('--small', action='store_true', help='three queries over 60,000 packets in four windows')
    words.add_argument('--turns', type=int, default=60000, help='turns of the search for a plan (default 60000)')
    words.add_argument('--jobs', type=int, default=min(4, os.cpu_count() or 1), help='how many run at a time (default: the processors, at most 4)')
    words.add_argument('--sonata', metavar='PROGRAM', default=usual('sonata'), help='the program (default: the one on the path, else that of this clone)')
    words.add_argument('--entries', metavar='PROGRAM', default=usual('sonata_entries'), help='the program that prints the cost table (default: likewise)')
    given = words.parse_args()
    given.folder = os.path.abspath(given.folder)
    if given.small:
        given.packets, given.window, given.queries, given.turns = 60000, 15000, 3, 3000
    return given


def refuse_bad(given):
    """Ends the command, before anything is written, where something is missing."""
    for name in (given.sonata, given.entries):
        if not os.access(name, os.X_OK):
            sys.exit('%s: not there; --sonata and --entries name the programs' % name)
    if shutil.which(compiler()) is None:
        sys.exit('%s: no C compiler; CC names one' % compiler())
    refuse_folder(given.folder)
    fits = given.packets <= 4194304 and 1 <= given.window <= min(1000000, given.packets // 2) and 1 <= given.queries <= 8
    if not fits or given.turns < 1 or given.jobs < 1:
        sys.exit('at most 8 queries, at least two windows of at most 1,000,000 packets, and at most 4,194,304 packets')


def refuse_folder(folder):
    """Ends the command where the folder that is made in the end can't take this one's place."""
    parent = os.path.dirname(folder)
    if not os.path.isdir(parent):
        sys.exit('%s: no such folder' % parent)
    if not os.access(parent, os.W_OK | os.X_OK):
        sys.exit('%s: not writable' % parent)
    if os.path.lexists(folder) and (os.path.islink(folder) or not os.path.isdir(folder) or os.listdir(folder)):
        sys.exit('%s: not an empty folder' % folder)
    if os.path.ismount(folder) or os.path.exists(folder) and os.path.samefile(folder, os.getcwd()):
        sys.exit('%s: no other folder can take its place; name one that is made' % folder)


def compiler():
    return os.environ.get('CC', 'cc')


def put(folder, name, text):
    """A file in a folder."""
    whole = os.path.join(folder, name)
    with open(whole, 'w') as file:
        file.write(text)
    return whole


def answered(words, good=(0,)):
    """Status, output and the line on standard error of a program."""
    try:
        done = subprocess.run(words, stdin=subprocess.DEVNULL, capture_output=True)
    except OSError as error:
        sys.exit('%s: %s' % (words[0], error.strerror))
    text, line = done.stdout.decode(errors='replace'), done.stderr.decode(errors='replace')
    if done.returncode not in good:
        sys.exit('%s: %s' % (' '.join(words[:2]), line.strip() or 'status %d' % done.returncode))
    return done.returncode, text, line


# ---- what is asked

def scaled(text, share):
    """Queries with their thresholds of counts for larger or smaller windows. Shares stay. A victim holds 300 connections however long a window is."""
    def number(found):
        most = 150 if found[1] == 'conns' else math.inf
        return 'filter %s > %d' % (found[1], max(1, min(most, round(int(found[2]) * share))))
    return re.sub(r'filter (n|conns) > (\d+)', number, text)


def chosen_queries(text, names):
    """The text of some of the queries."""
    head, *parts = re.split(r'(?=^query )', text, flags=re.M)
    return head + ''.join(part for part in parts if part.split()[1] in names)


def typed(text):
    _, queries = grammar.parse(text.encode())
    typing_rules.check(queries)
    return queries


def switch_text(items):
    return ' '.join('%s %s;' % item for item in items.items()) + '\n'


def switch_items(text):
    """The items of a switch text, by name."""
    return dict(item.split(None, 1) for item in re.sub(r'#.*', '', text).replace('\n', ' ').split(';') if item.strip())


def table_of(text, queries):
    """A cost table as `sonata_entries` prints it: by the query's number, the levels, the branch, the cut and the sizes."""
    numbers, found = {query.name: q for q, query in enumerate(queries)}, {}
    form = re.compile(r'(\S+) levels ([\d, ]+) branch (\d+) cut (\d+)(?: slots ([\d, ]+))? cost (\d+)$')
    for place, line in enumerate(text.splitlines(), 1):
        entry = form.match(line)
        if entry is None or entry[1] not in numbers:
            sys.exit('`sonata_entries`: line %d is no entry' % place)
        name, levels, branch, cut, sizes, cost = entry.groups()
        found[numbers[name], tuple(map(int, levels.split(', '))), int(branch), int(cut), tuple(map(int, sizes.split(', '))) if sizes else ()] = int(cost)
    if {key[0] for key in found} != set(numbers.values()):
        sys.exit('`sonata_entries`: not an entry of each query')
    return found


# ---- a case: some queries on a switch, in each of the five ways

@dataclasses.dataclass(frozen=True)
class Case:
    """Some queries on a switch: the figure, the setting that is changed and its value, and the numbers of the queries."""
    figure: str
    setting: str
    value: int
    queries: tuple
    switch: tuple

    def name(self):
        return '-'.join([self.figure, self.setting, str(self.value)] if self.setting else [self.figure, *([str(len(self.queries))] if self.figure == 'together' else [])])


@dataclasses.dataclass
class Work:
    """What all cases share: the folder, the programs, the whole query text and the whole cost table."""
    folder: str
    sonata: str
    text: str
    table: dict
    turns: int

    def names(self):
        return re.findall(r'^query (\S+)', self.text, re.M)


@dataclasses.dataclass
class Files:
    """The files of a case and its own queries, switch and part of the cost table."""
    switch_name: str
    queries_name: str
    switch: object
    queries: list
    table: dict


def files_of(work, case, label):
    names = work.names()
    text = chosen_queries(work.text, {names[q] for q in case.queries})
    items = switch_text(dict(case.switch))
    places = {q: place for place, q in enumerate(case.queries)}
    table = {(places[key[0]], *key[1:]): cost for key, cost in work.table.items() if key[0] in places}
    return Files(put(work.folder, label + '.switch', items), put(work.folder, label + '.query', text), switches.parse(items.encode()), typed(text), table)


def searched(work, files):
    """What `sonata plan` finds of the training capture within its nodes: the entries, or None, and what no plan costs less than."""
    train = os.path.join(work.folder, 'train.pcap')
    status, text, line = answered([work.sonata, 'plan', files.switch_name, files.queries_name, train, '--nodes', str(NODES)], (0, 8))
    bound = re.search(r' bound (\d+)$', line.strip()) if status == 8 else re.search(r'^cost (\d+);$', text, re.M)
    if bound is None:
        sys.exit('`sonata plan`: no %s' % ('bound' if status == 8 else 'plan with a cost'))
    return None if status == 8 else entries_of(text), int(bound[1])


def entries_of(text):
    """The entries of a plan as `sonata plan` prints it."""
    try:
        return plans.parse(text.encode())
    except tokens.Fault as fault:
        sys.exit('`sonata plan`: line %d is none of a plan' % fault.line)


def sent(work, files, plan_name, capture):
    """What `sonata run` sends of each window of a capture."""
    _, text, _ = answered([work.sonata, 'run', files.switch_name, files.queries_name, plan_name, os.path.join(work.folder, capture)])
    return [int(number) for number in re.findall(r'^window \d+ emitted (\d+)$', text, re.M)]


def planned(work, files, way, known):
    """The entries of the plan of a way, who made it, and what no plan of that way costs less than, where that is known."""
    if way == 'Sonata':
        entries, bound = searched(work, files)
        if entries is not None:
            return entries, 'plan', bound
        return planner.planned(files.switch, files.queries, files.table, way, work.turns, known)[0], 'search', bound
    turns = 1 if way in ('All-SP', 'Filter-DP') else max(1, work.turns // 4)
    return planner.planned(files.switch, files.queries, files.table, way, turns, known)[0], 'search', None


def measure(work, case, files, way, made):
    """A row of the table of all numbers. A cost that isn't what the training capture sends ends the command."""
    entries, by, bound = made
    names = work.names()
    name = put(os.path.join(work.folder, 'plans'), '%s-%s.plan' % (label_of(work, case), way), '\n'.join(plans.lines(entries)) + '\n')
    cost = planner.cost_of(files.queries, files.table, entries)
    train, test = sent(work, files, name, 'train.pcap'), sent(work, files, name, 'test.pcap')
    if sum(train) != cost:
        sys.exit('%s: the plan costs %d by the table, and %d are sent' % (name, cost, sum(train)))
    return {'figure': case.figure, 'queries': ' '.join(names[q] for q in case.queries), 'setting': case.setting, 'value': case.value, 'way': way, 'by': by, 'cost': cost,
            'bound': '' if bound is None else bound, 'sent': sum(test), 'most': max(test), 'windows': len(test)}


def label_of(work, case):
    return case.name() + ('-' + work.names()[case.queries[0]] if case.figure == 'alone' else '')


def run_cases(work, cases):
    """The rows of cases, each in all ways. What was planned for a case is where the next one's search may begin."""
    rows, before = [], {}
    for case in cases:
        files, made = files_of(work, case, label_of(work, case)), {}
        for way in WAYS:
            known = [made[other][0] for other in made if way == 'Sonata'] + ([before[way]] if way in before else [])
            made[way] = planned(work, files, way, known)
            rows.append(measure(work, case, files, way, made[way]))
        before = {way: entries for way, (entries, _, _) in made.items()} if case.setting else {}
        for name in (files.switch_name, files.queries_name):
            os.remove(name)
    return rows


def all_cases(count, items):
    """The cases, in lists each of which is worked through in order."""
    usual = tuple(items.items())
    alone = [[Case('alone', '', 0, (q,), usual)] for q in range(count)]
    together = [[Case('together', '', 0, tuple(range(k)), usual)] for k in range(1, count + 1)]
    settings = [[Case('settings', word, value, tuple(range(count)), tuple({**items, word: value}.items())) for value in values] for word, values in SETTINGS]
    return settings + together[::-1] + alone


# ---- cases that share plans

def plan_name(folder, row):
    """The file of a row's plan."""
    case = {'alone': row['queries'], 'together': str(len(row['queries'].split())), 'settings': '%s-%s' % (row['setting'], row['value'])}[row['figure']]
    return os.path.join(folder, 'plans', '%s-%s-%s.plan' % (row['figure'], case, row['way']))


def hand_on(folder, row, others):
    """Gives a row's plan to those of other rows that cost more."""
    for other in others:
        if row['cost'] < other['cost']:
            shutil.copyfile(plan_name(folder, row), plan_name(folder, other))
            other.update({name: row[name] for name in ('by', 'cost', 'sent', 'most')})


def share_plans(folder, rows, items):
    """Gives each case of all queries the cheapest plan that is known to fit its switch: one that was found for the same switch in another figure, or for one with less
    of a setting, since all settings that are changed are limits from above."""
    whole = max((row['queries'] for row in rows), key=len)
    for way in WAYS:
        some = sorted((row for row in rows if row['way'] == way and row['queries'] == whole and row['figure'] != 'alone'), key=lambda row: row['value'])
        usual = [row for row in some if row['figure'] == 'together' or str(row['value']) == items[row['setting']]]
        for _ in range(2):
            for word, _ in SETTINGS:
                chain = [row for row in some if row['setting'] == word]
                for small, large in zip(chain, chain[1:]):
                    hand_on(folder, small, [large])
            hand_on(folder, min(usual, key=lambda row: row['cost']), usual)


# ---- what the page claims

def by_way(rows):
    """The rows of each case, by way."""
    keyed = sorted(rows, key=lambda row: (row['figure'], row['queries'], row['setting'], row['value']))
    return [{row['way']: row for row in some} for _, some in itertools.groupby(keyed, key=lambda row: (row['figure'], row['queries'], row['setting'], row['value']))]


def case_name(case):
    row, names = case['Sonata'], case['Sonata']['queries'].split()
    setting = ', %s %s' % (row['setting'], row['value']) if row['setting'] else ''
    return (names[-1] if row['figure'] == 'alone' else '%d together' % len(names)) + setting


def unordered(cases):
    """Where a way that may do more costs more on the training capture."""
    pairs = [('All-SP', 'Filter-DP'), ('Filter-DP', 'Max-DP'), ('Max-DP', 'Sonata'), ('Fix-REF', 'Sonata')]
    return ['%s: %s costs more than %s' % (case_name(case), less, more) for case in cases for more, less in pairs if case[more]['cost'] < case[less]['cost']]


def falling(cases):
    """Where a larger switch costs more."""
    found = []
    for word, values in SETTINGS:
        some = [case for case in cases if case['Sonata']['setting'] == word]
        for small, large in zip(some, some[1:]):
            found += ['%s: more than %s %s' % (case_name(large), word, small['Sonata']['value']) for way in WAYS if large[way]['cost'] > small[way]['cost']]
    return found


def too_near(cases, given):
    """Where a plan sends more of the second capture than the page says that it does. Ratios go with the packets of a window, so they are tried at the usual sizes."""
    if (given.packets, given.window, given.queries) != (1200000, USUAL_WINDOW, 8):
        return []
    least = {'newly_opened': 1e4, 'port_scan': 1e4, 'superspreader': 10 ** 2.5, 'ddos': 10 ** 2.5}
    alone = {case['Sonata']['queries']: case for case in cases if case['Sonata']['figure'] == 'alone'}
    found = ['%s: All-SP sends less than %d times as much' % (name, least.get(name, 10 ** 1.5)) for name, case in alone.items()
             if case['All-SP']['sent'] < least.get(name, 10 ** 1.5) * case['Sonata']['sent']]
    eight = next(case for case in cases if case['Sonata']['figure'] == 'together' and len(case['Sonata']['queries'].split()) == 8)
    for way, times in (('All-SP', 50), ('Filter-DP', 30), ('Max-DP', 5), ('Fix-REF', 5)):
        if eight[way]['sent'] < times * eight['Sonata']['sent']:
            found.append('eight together: %s sends less than %d times as much' % (way, times))
    return found


# ---- all of it

def make_traffic(folder, given):
    """The two captures."""
    program = os.path.join(folder, 'backbone')
    done = subprocess.run([compiler(), '-O2', '-o', program, os.path.join(HERE, 'backbone.c'), '-lm'], capture_output=True, text=True)
    if done.returncode:
        sys.exit('%s: backbone.c is not compiled, %s' % (compiler(), (done.stderr.strip().splitlines() or ['status %d' % done.returncode])[-1]))
    for name, seed in (('train', 1), ('test', 2)):
        _, _, parties = answered([program, os.path.join(folder, name + '.pcap'), 'packets', str(given.packets), 'rate', str(given.window), 'seed', str(seed)])
        put(folder, name + '.parties', parties)
    os.remove(program)


def read(name):
    with open(os.path.join(HERE, name)) as file:
        return file.read()


def write_csv(name, rows):
    with open(name, 'w', newline='') as file:
        table = csv.DictWriter(file, FIELDS, lineterminator='\n')
        table.writeheader()
        table.writerows(rows)


def run_lists(work, lists, jobs):
    """The rows of all lists of cases. After a fault no list is begun."""
    rows = []
    with concurrent.futures.ProcessPoolExecutor(jobs) as pool:
        try:
            for done in concurrent.futures.as_completed([pool.submit(run_cases, work, cases) for cases in lists]):
                rows += done.result()
                print('%d of %d plans' % (len(rows), len(WAYS) * sum(map(len, lists))), flush=True)
        except BaseException:
            pool.shutdown(cancel_futures=True)
            raise
    return rows


def measured(folder, given):
    """All rows."""
    text = scaled(read('paper.query'), given.window / USUAL_WINDOW)
    names = re.findall(r'^query (\S+)', text, re.M)[:given.queries]
    text = chosen_queries(text, set(names))
    queries_name, switch_name = put(folder, 'paper.query', text), put(folder, 'paper.switch', read('paper.switch'))
    make_traffic(folder, given)
    _, entries, _ = answered([given.entries, switch_name, queries_name, os.path.join(folder, 'train.pcap')])
    work = Work(folder, given.sonata, text, table_of(entries, typed(text)), given.turns)
    put(folder, 'entries', entries)
    os.mkdir(os.path.join(folder, 'plans'))
    rows = run_lists(work, all_cases(given.queries, switch_items(read('paper.switch'))), given.jobs)
    share_plans(folder, rows, switch_items(read('paper.switch')))
    rows.sort(key=lambda row: place_of(row, names))
    return [{**row, 'packets': given.packets} for row in rows]


def place_of(row, names):
    """Where a row stands in the table of all numbers."""
    words, some = ['', *(word for word, _ in SETTINGS)], row['queries'].split()
    return FIGURES.index(row['figure']), words.index(row['setting']), row['value'], len(some), names.index(some[-1]), WAYS.index(row['way'])


def main():
    given = words_given()
    refuse_bad(given)
    with tempfile.TemporaryDirectory(prefix='paper-', dir=os.path.dirname(given.folder)) as beside:
        folder = os.path.join(beside, 'all')
        os.mkdir(folder)
        rows = measured(folder, given)
        write_csv(os.path.join(folder, 'paper.csv'), rows)
        for name, picture in figures.drawn(rows, given.window).items():
            put(folder, name, picture)
        os.rename(folder, given.folder)
    cases = by_way(rows)
    wrong = unordered(cases) + falling(cases) + too_near(cases, given)
    print('\n'.join(wrong) or 'each plan sends of the first capture what it costs, and all that docs/EVALUATION.md claims of this size holds')
    return 1 if wrong else 0


if __name__ == '__main__':
    try:
        sys.exit(main())
    except KeyboardInterrupt:
        sys.exit('stopped')
    except OSError as fault:
        sys.exit('%s: %s' % (fault.filename or 'paper.py', fault.strerror))
