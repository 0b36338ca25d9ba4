#!/usr/bin/env python3
"""Runs a command of `sonata`, and where it is refused says below its line in plain words which file is at fault, which word or byte, and what to do.

    why.py run tour.switch tour.query tour.plan today.pcap
    why.py plan tour.query tour.switch yesterday.pcap

    sonata: queries Expected line 2
    tour.query is given as SWITCH, which must be a switch text; it is a query text.
    tour.switch is given as QUERIES, which must be a query text; it is a switch text.
    Give them in this order: sonata plan tour.switch tour.query yesterday.pcap

What the command prints goes to standard output as it is, all words of this script to standard error, and the status is that of the command. --sonata names the
program, before the command. Needs nothing but Python and the program."""

import argparse
import itertools
import re
import subprocess
import sys

import kinds
import programs
from texts import costs, grammar, plans, switches, tokens, typing_rules

FILES = {'plain': 'QUERIES CAPTURE', 'plan': 'SWITCH QUERIES TRAIN', 'run': 'SWITCH QUERIES PLAN CAPTURE', 'emit': 'SWITCH QUERIES PLAN CAPTURE',
         'finish': 'QUERIES PLAN REPORTS', 'detect': 'QUERIES PLAN CAPTURE', 'many': 'SWITCH QUERIES PLAN CAPTURE CAPTURE',
         'check': 'SWITCH QUERIES TRAIN PLANTREE', 'live': 'SWITCH QUERIES TRAIN CAPTURE', 'replan': 'SWITCH QUERIES TRAIN CAPTURE', 'gen': '', 'job': ''}
OPTIONS = {'plan': '--nodes', 'run': '--csv', 'live': '--nodes --schedule --trace', 'replan': '--nodes'}
ROLE = {'queries': ('QUERIES',), 'switch': ('SWITCH',), 'plan': ('PLAN', 'PLANTREE'), 'tree': ('PLANTREE',), 'capture': ('TRAIN', 'CAPTURE'), 'reports': ('REPORTS',)}
KINDS = {
    'Lex': 'no word or sign of the language begins there: write `==` for `=`, numbers without letters or signs (a window is in microseconds: 1000000 for 1s), no quotes, and no byte order mark',
    'Expected': 'it can\'t stand there, or it is a number out of its range: look at it and at what stands before it, where a `;`, a `|` or a width may be missing',
    'TooMany': 'it is one more than may be: a ninth query, condition, column or key, a thirteenth operator, a fifth level, or a name of more than 32 bytes',
    'Twice': 'the same name stands twice in one list, or a word of the switch text a second time: rename one, or take one out',
    'UnknownField': 'up to the first map names are fields of packets, and one of these isn\'t: docs/FORMATS.md has the 30',
    'UnknownColumn': 'after the first map and after a join names are columns, and one of these isn\'t there: carry it through the maps before',
    'TooWide': 'a sum is narrower than its column, a column of more than 64 bits is folded, or a row has more than eight columns: widen the sum, or read less',
    'NoMap': 'a distinct or a reduce needs a map before it',
    'RefineLost': 'a refined query must carry its address: copy it in each map, and have it among the keys of each reduce and join',
    'RefineFilter': 'a filter reads the address by which the query is refined: take the filter or the refine line out',
    'Levels': 'levels rise, from 1 to 32 of ip.src or ip.dst, to 128 of ip6.src or ip6.dst, and each constant after `at` is of one of them',
    'JoinKeys': 'a key of the join isn\'t in both branches, or another name is: rename it in a map at the end of a branch',
    'Range': 'the number is out of its range, sizes don\'t rise, or there is a fifth one: docs/FORMATS.md, "Switch text"',
    'Missing': 'the text ends before all of stages, actions, bits, meta, chain and slots stood there'}
HEADERS = {'Short': 'has fewer than 24 bytes, so nothing was recorded in it: record again', 'Version': 'has another version than 2.4: `editcap -F pcap` converts it',
           'Link': 'has link type %d, which isn\'t read: docs/CAPTURES.md, "Converting"', 'Cut': 'ends in the midst of the record at byte %s; all before it was answered',
           'Bad': 'is damaged from the record at byte %s on; all before it was answered'}
PACKED = {'pcapng': 'editcap -F pcap %s OUT.pcap', 'gzip': 'gunzip -c %s > OUT.pcap', 'xz': 'xz -dc %s > OUT.pcap', 'zstd': 'zstd -dc %s > OUT.pcap',
          'bzip2': 'bunzip2 -c %s > OUT.pcap', 'zip': 'unzip -p %s > OUT.pcap'}
FITS = {
    'Cut': 'a piece of the plan cuts at %(got)s, and its branch can be cut at %(want)s at most',
    'Order': 'a register of the plan stands in stage %(got)s, and can\'t before %(want)s; or a piece lists %(got)s stages for %(want)s registers',
    'Stage': 'the tables of a piece reach to stage %(got)s, and the last one is %(want)s', 'Actions': 'a stage of the plan has %(got)s registers, and the switch has room for %(want)s',
    'Bits': 'the registers of a stage have %(got)s bits, and the switch has %(want)s', 'Meta': 'the plan\'s packets carry %(got)s bits of metadata, and the switch has %(want)s'}
TREES = {'Cost': 'the plan costs %(want)s on this capture with this switch, and the text says %(got)s: another training capture, another switch, or an edited text',
         'Bound': 'node %(node)s has the bound %(want)s and the text says %(got)s: another training capture, another switch, or an edited tree',
         'NotBroken': 'node %(node)s says that a limit is broken, and none is: another switch, or an edited tree',
         'Shape': 'node %(node)s can\'t stand there: the tree was cut or edited', 'NoPlan': 'no node of the tree is the plan: the tree was cut or edited'}
ANEW = 'To make one for these files: `sonata plan SWITCH QUERIES TRAIN > PLAN`.'


class Given:
    """A command as it was given: its files, each with its role and its kind."""

    def __init__(self, words):
        self.words, self.command = words, words[0]
        roles = FILES.get(self.command, '').split()
        names = [word for word in words[1:] if not word.startswith('-')]
        self.files = [(role, name, kinds.kind_of(name)) for role, name in zip(roles, names)]
        if self.command == 'many':
            self.files += [('CAPTURE', name, kinds.kind_of(name)) for name in names[len(roles):]]

    def first(self, *roles):
        """The first file of one of these roles."""
        return next((name for role, name, _ in self.files if role in roles), None)

    def strangers(self):
        """The files that aren't what their roles ask for. Of a pipe nothing is known, and a text of no kind is refused by its own line."""
        return [(role, name, kind) for role, name, kind in self.files
                if kind not in kinds.ROLES[role] + ('stream',) and not (kind == 'text' and role in ('QUERIES', 'SWITCH', 'PLAN', 'PLANTREE'))]


def ordered(given):
    """The command with its files in the order in which each has its role, where there is one."""
    roles = [role for role, _, _ in given.files]
    for some in itertools.permutations(given.files) if len(roles) <= 6 else []:
        if all(kind in kinds.ROLES[role] for role, (_, _, kind) in zip(roles, some)):
            rest = given.words[1 + len(roles):] if not given.words[1 + len(roles):] or given.words[1 + len(roles)].startswith('-') else []
            return 'Give them in this order: sonata %s' % ' '.join([given.command] + [name for _, name, _ in some] + rest)
    return None


def stranger_words(role, name, kind):
    """What a file is that isn't what its role asks for, and what to do."""
    line = '%s is given as %s, which must be %s; it is %s.' % (name, role, kinds.MEANT[role], kinds.words_of(kind))
    if kind in PACKED and role in ('TRAIN', 'CAPTURE'):
        line += ' `%s` makes one.' % (PACKED[kind] % name)
    elif kind == 'empty' and role in ('PLAN', 'PLANTREE'):
        line += ' A shell\'s `>` leaves such a file where `plan` wrote nothing, as after `sonata: budget`.'
    elif kind == 'plan' and role == 'PLANTREE':
        line += ' Give all that `plan` printed.'
    return line


def strangers(given):
    found = [stranger_words(*one) for one in given.strangers()]
    order = ordered(given) if found else None
    return found + ([order] if order else [])


def reader_of(role):
    return {'queries': grammar.Reader, 'switch': switches.SwitchReader, 'plan': plans.PlanReader, 'tree': costs.TreeReader}[role]


def token_at(role, text):
    """The word at which the reading of a text stops, as it is shown, where the fault is one of the text."""
    reader = reader_of(role)(text)
    try:
        {'queries': lambda: reader.file(), 'switch': lambda: reader.switch(), 'plan': lambda: reader.plan(), 'tree': lambda: (reader.plan(), reader.tree())}[role]()
    except tokens.Fault:
        return 'the end of the text' if reader.now.kind == 'end' else None if reader.now.value is None else '`%s`' % reader.now.value
    return None


def strange_word(line):
    """The first word of a line that is no token, or the first byte that is none."""
    for word in re.findall(rb'[A-Za-z0-9_][A-Za-z0-9_.]*|[=!<>]=|>>|\S', line.split(b'#')[0]):
        if word[:1].isdigit() and tokens.number_of(word) is None or not word[:1].isalnum() and word[:1] != b'_' and word.decode('latin-1') not in tokens.SYMBOLS:
            return '`%s`' % word.decode('latin-1')
    return None


def text_words(given, role, kind, line):
    """The line of a text at which it is refused, and why."""
    name = given.first(*ROLE[role])
    with open(name, 'rb') as file:
        text = file.read()
    lines = text.split(b'\n')
    shown = lines[int(line) - 1].decode(errors='replace').strip() if int(line) <= len(lines) else ''
    token = strange_word(shown.encode()) if kind == 'Lex' else token_at(role, text)
    return ['%s, line %s%s%s' % (name, line, ', at ' + token if token else '', ': ' + shown if shown else ''), kind + ': ' + KINDS[kind] + '.']


def path_words(given, entry):
    """Why an entry of a plan isn't of the query of its number."""
    with open(given.first('QUERIES'), 'rb') as file:
        _, queries = grammar.parse(file.read())
    typing_rules.check(queries)
    with open(given.first('PLAN', 'PLANTREE'), 'rb') as file:
        entries = plans.parse(file.read())
    names = given.first('PLAN', 'PLANTREE'), given.first('QUERIES')
    if entry >= len(entries) or entry >= len(queries):
        return ['%s has %d queries and %s %d: the plan is of another query file. %s' % (names[0], len(entries), names[1], len(queries), ANEW)]
    one, other = entries[entry], queries[entry]
    if one.name != other.name:
        return ['Query %d of %s is `%s` and of %s `%s`: the plan is of another query file. %s' % (entry, names[0], one.name, names[1], other.name, ANEW)]
    return ['Query `%s` may have the levels %s, and %s asks along %s with %d pieces: the refine line was changed after the plan was made, or the plan by hand. %s' % (
        one.name, ', '.join(map(str, plans.levels_of(other))), names[0], ', '.join(map(str, one.path)), len(one.pieces), ANEW)]


def slots_words(given, want, got):
    with open(given.first('SWITCH'), 'rb') as file:
        sizes = switches.parse(file.read()).slots
    if want == '0':
        return ['%s has a register of %s keys, and %s has the sizes %s alone. Give the plan\'s own switch. %s' % (
            given.first('PLAN', 'PLANTREE'), got, given.first('SWITCH'), ', '.join(map(str, sizes)), ANEW)]
    return ['A piece of %s lists %s sizes, and has %s distincts and reduces before its cut.' % (given.first('PLAN', 'PLANTREE'), got, want)]


def plan_words(given, kind, want, got):
    if kind == 'Path':
        return path_words(given, int(got))
    if kind == 'Slots':
        return slots_words(given, want, got)
    return ['%s doesn\'t fit: %s. Is it the plan of %s? %s' % (
        given.first('PLAN', 'PLANTREE'), FITS[kind] % {'want': want, 'got': got}, given.first('SWITCH') or given.first('QUERIES'), ANEW)]


def capture_words(given, kind, byte, number):
    """What is wrong with a capture. Of several the first is named that has this header or, by its number, the one that was reported."""
    files = [(name, found) for role, name, found in given.files if role in ('TRAIN', 'CAPTURE')]
    name = files[int(number) - 1][0] if number else files[-1][0]
    if kind == 'Link':
        name = next((one for one, found in files if found == 'capture' and kinds.link_of(one) not in kinds.LINKS), name)
        return ['%s ' % name + HEADERS[kind] % kinds.link_of(name) + '.']
    if kind == 'Magic':
        return ['%s isn\'t classic pcap: docs/CAPTURES.md, "Converting".' % name]
    return ['%s ' % name + (HEADERS[kind] % byte if '%' in HEADERS[kind] else HEADERS[kind]) + '.']


def read_words(given):
    found = [stranger_words(*one) for one in given.strangers() if one[2] in ('missing', 'folder', 'closed')]
    names = [name for _, name, _ in given.files]
    return found + ['%s stands twice, and a pipe can be read once.' % name for name in dict.fromkeys(names) if name.startswith('/dev/') and names.count(name) > 1]


def usage_words(given):
    """Which word spells no command."""
    command = given.command
    if command not in FILES:
        return ['`%s` is no command: one of %s. There is no --help; `man sonata` has the words.' % (command, ', '.join(FILES))]
    options = OPTIONS.get(command, '').split()
    strange = [word for word in given.words[1:] if word.startswith('-') and word not in options]
    if strange:
        has = 'has no option' if not options else 'has ' + ' and '.join(options)
        others = ' and '.join('`%s`' % name for name, some in OPTIONS.items() if strange[0] in some.split())
        hint = others + ' has it.' if others else 'A file of such a name is written `./%s`.' % strange[0]
        return ['`%s` %s, so `%s` can\'t stand there. %s' % (command, has, strange[0], hint)]
    number = ' NUMBER' if command in ('gen', 'job') else ' MOST' if command == 'replan' else ''
    more = ''.join(' [%s%s]' % (option, '' if option in ('--csv', '--trace') else ' N') for option in options)
    return ['`sonata %s%s%s%s`: these words in this order, options last; a number is one to ten decimal digits and in its range.' % (
        command, ' ' * bool(FILES[command]) + FILES[command], number, more)]


def other_words(given, line):
    """What a line says that names no file."""
    found = re.fullmatch(r'sonata: budget (\d+) bound (\d+)', line)
    if found:
        return ['The search would look into more than %s partial plans, so no plan was written (an output file is empty now). No plan costs less than %s. '
                'Give more by --nodes, leave out sizes that no stage can hold, or take view/some_plan.py: docs/PLANS.md, "Where the search doesn\'t end".' % found.groups()]
    found = re.fullmatch(r'sonata: reports (\w+) byte (\d+)', line)
    if found:
        return ['%s: the frame at byte %s is spoilt, cut or of another plan (%s); the windows before it were answered.' % (given.first('REPORTS'), found[2], found[1])]
    return {'sonata: write fault': ['Standard output took no more: a full disk, or a reader that ended.'],
            'sonata: memory': ['No memory: take a shorter window, or a smaller training capture.'],
            'sonata: too large': ['A limit of size: a text has at most 2^30 bytes, a training capture 2^30 and 4194304 records, a window 4194304 records. '
                                  'Train on a shorter time, or take a shorter window: docs/LIMITS.md.']}.get(line, [])


def explained(given, line):
    """The sentences below a line of the program."""
    if line == 'sonata: usage':
        return usage_words(given)
    if line == 'sonata: read fault':
        return read_words(given)
    found = re.fullmatch(r'sonata: (queries|switch|plan|tree) (\w+) line (\d+)', line)
    wrong = strangers(given)
    if wrong and not re.search('(Cut|Bad) byte', line):
        return wrong
    if found:
        return text_words(given, *found.groups())
    found = re.fullmatch(r'sonata: plan (\w+) want (\d+) got (\d+)', line)
    if found:
        return plan_words(given, *found.groups())
    found = re.fullmatch(r'sonata: tree (\w+) node (?P<node>\d+) want (?P<want>\d+) got (?P<got>\d+)', line)
    if found:
        return ['%s: %s.' % (given.first('PLANTREE'), TREES[found[1]] % found.groupdict())]
    found = re.fullmatch(r'sonata: capture (\w+) byte (\d+)(?: file (\d+))?', line)
    if found:
        return capture_words(given, *found.groups())
    return other_words(given, line)


def main():
    words = argparse.ArgumentParser(description=__doc__, formatter_class=argparse.RawDescriptionHelpFormatter)
    programs.add_option(words)
    words.add_argument('command', metavar='COMMAND')
    words.add_argument('words', nargs=argparse.REMAINDER, metavar='WORDS', help='the words of the command as they are given to `sonata`')
    asked = words.parse_args()
    with programs.opened([asked.sonata, asked.command, *asked.words], stderr=subprocess.PIPE, text=True) as running:
        line = running.stderr.read().rstrip('\n')
    if line:
        print(line, file=sys.stderr)
        for sentence in explained(Given([asked.command, *asked.words]), line):
            print(sentence, file=sys.stderr)
    return running.returncode if running.returncode >= 0 else 128 - running.returncode


if __name__ == '__main__':
    sys.exit(main())
