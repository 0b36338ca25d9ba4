#!/usr/bin/env python3
"""Asks view/lint.py of queries that are wrong, one for each of its findings, and of right ones beside them. Each must have just the findings that stand here,
which were worked out by hand. Then of the random query files of random_plans.py: of a refined query to which `detect` gives no bound the reading of its text must
have a reason, and of one with a bound none. Prints each query that is read otherwise. The status is 0 where none is. Needs the program."""

import os
import random
import re
import subprocess
import sys
import tempfile

import program
import random_plans

HERE = os.path.dirname(os.path.abspath(__file__))
sys.path.insert(0, os.path.join(HERE, '..', 'view'))
import lint  # noqa: E402
import texts  # noqa: E402

LINT = os.path.join(HERE, '..', 'view', 'lint.py')
COUNT = 'map ip.dst as d, 1 as n | reduce d: sum(n) width 32'
REFINED = 'refine ip.dst: 8, 16, 32; packets | filter ip.valid == 1 | '
JOINED = ('refine ip.dst: 8, 32; packets | filter ip.valid == 1 | map ip.dst as d, 1 as n | reduce d: sum(n) width 32; '
          'packets | filter ip.valid == 1 | map ip.dst as d, ip.len as b | reduce d: sum(b) width 48; join d')
# What the query has between its braces, the words of its findings in order, and what one of its lines says.
CASES = [
    (REFINED + COUNT + ' | filter n > 9;', ['late'], 'by at most 2 windows'),
    (REFINED + COUNT + ' | filter n > 9 at (8: 5, 16: 9);', ['late'], 'refine ip.dst: 32;'),
    (REFINED + COUNT + ' | filter n > 1000 at (8: 50000, 16: 50000);', ['NEVER'], 'at most 1000 for levels 8, 16'),
    (REFINED + COUNT + ' | filter n > 9 at (32: 5);', ['NEVER'], 'level 8 asks for n > 9 and level 32 for n > 5'),
    (REFINED + COUNT + ' | filter n >= 9 at (16: 10);', ['NEVER'], 'at most 9 for level 16'),
    (REFINED + COUNT + ' | filter n < 9;', ['NEVER'], '`n <`'),
    (REFINED + COUNT + ' | filter n == 9;', ['NEVER'], '`n ==`'),
    (REFINED + COUNT + ' | filter n & 4 > 3;', ['NEVER'], '`n &`'),
    (REFINED + 'map ip.dst as d, ip.len as n | reduce d: min(n) | filter n > 9;', ['NEVER'], '`min`'),
    (REFINED + 'map ip.dst as d, ip.len as n | reduce d: max(n) | filter n > 9;', ['late'], 'by at most'),
    (REFINED + 'map ip.dst as d, ip.src as s | distinct | map d as d, s as s, 1 as n | distinct | map d as d, n as n | reduce d: sum(n) width 32 | filter n > 9;',
     ['NEVER'], 'second distinct'),
    (REFINED + 'map ip.dst as d, ip.len as b | filter b > 9 at (8: 5) | map d as d, 1 as n | reduce d: sum(n) width 32 | filter n > 9;', ['NEVER'], 'before the reduce'),
    (REFINED + COUNT + ' | map d as d, n >> 1 as n | filter n > 9;', ['NEVER'], 'map stands after the reduce'),
    (REFINED + 'map ip.dst as d;', ['NEVER'], 'no reduce'),
    ('refine ip.dst: 32; packets | filter ip.valid == 1 | ' + COUNT + ' | filter n < 9;', [], ''),
    (JOINED + ' | map d as d, n * 1000 / b as r | filter r > 9;', ['NEVER'], 'a join'),
    (JOINED + ' | map d as d, n * 1000 / b as r | filter r > 9 at (8: 90);', ['NEVER'], 'level 8 asks for r > 90'),
    (JOINED + ' | filter n > 9, b > 99;', ['unproved'], 'by at most 1 window'),
    (JOINED + ' | filter n > 9, b > 99 at (8: 100);', ['NEVER'], 'at most 99 for level 8'),
    (JOINED + ' | filter n > 9, b < 99;', ['NEVER'], 'a join'),
    (JOINED.replace('width 48', 'width 48 | filter b > 99') + ';', ['unproved'], 'by at most 1 window'),
    (JOINED.replace('width 48', 'width 48 | filter b > 99 at (8: 200)') + ';', ['NEVER'], 'at most 99 for level 8'),
    (JOINED.replace('width 48', 'width 48 | filter b < 99') + ';', ['NEVER'], 'a join'),
    ('packets | filter tcp.flags == 2 | ' + COUNT + ' | filter n > 9;', ['header'], 'ip.valid == 1'),
    ('packets | filter ip.valid == 1, tcp.dport < 1024 | ' + COUNT + ' | filter n > 9;', ['header'], 'tcp.valid == 1'),
    ('packets | filter ip.valid == 1, udp.dport != 53 | ' + COUNT + ' | filter n > 9;', ['header'], 'udp.valid == 1'),
    ('packets | filter icmp.type == 8 | ' + COUNT + ' | filter n > 9;', [], ''),
    ('packets | filter ip.proto == 6 | ' + COUNT + ' | filter n > 9;', [], ''),
    ('packets | map ip6.dst as d, 1 as n | reduce d: sum(n) width 32;', ['header'], 'ip6.valid == 1'),
    ('packets | map pkt.len as n, 1 as d | reduce d: sum(n) width 48;', [], ''),
    ('packets | map pkt.len as n, 1 as d | reduce d: sum(n) width 32;', ['width'], '16,384 rows'),
    ('packets | filter ip.valid == 1 | map ip.dst as d, 1 as n | reduce d: sum(n) width 16;', ['width'], '65,536 rows'),
    ('packets | filter ip.valid == 1 | map ip.dst as d, 1 as n | reduce d: sum(n) width 22;', ['width'], 'write `width 23`'),
    ('packets | filter ip.valid == 1 | map ip.dst as d, 1 as n | reduce d: sum(n) width 23;', [], ''),
    ('packets | filter ip.valid == 1 | map ip.dst as d, ip.src as s | distinct;', ['distinct'], 'no reduce follows'),
    ('packets | filter ip.valid == 1 | map ip.dst as d, ip.src as s | distinct | map d as d, 1 as n | reduce d: sum(n) width 32;', [], ''),
]


def asked(executable, text):
    """The words of the findings of a query, and all that is said."""
    with tempfile.NamedTemporaryFile('w', suffix='.query') as file:
        file.write('window 1000000 query q { %s }\n' % text)
        file.flush()
        done = subprocess.run([sys.executable, LINT, file.name, '--sonata', executable], stdout=subprocess.PIPE, stderr=subprocess.STDOUT, text=True)
    words = re.findall(r'^q: (\w+)', done.stdout, re.M)
    status = 1 if any(word not in ('late', 'unproved') for word in words) else 0
    return words if done.returncode == status else ['status %d' % done.returncode], done.stdout


def read_otherwise(executable, seed, folder):
    """The refined queries of a random file, and those of them of which the reading of the text and `detect` say different things. None where the file is refused."""
    name = random_plans.write(folder, random_plans.files(random.Random(seed)))['queries']
    try:
        queries = texts.read_queries(name)
    except SystemExit:
        return None
    known = lint.bounds(executable, name, queries)
    refined = [query for query in queries if len(query.levels) > 1]
    return refined, [query.name for query in refined if bool(lint.never(query)) == known[query.name]]


def try_random(executable, cases):
    """How many random refined queries are read otherwise than `detect` says, each of which is printed."""
    count, bad = 0, 0
    with tempfile.TemporaryDirectory(prefix='sonata-lints-') as folder:
        for seed in range(cases):
            refined, names = read_otherwise(executable, seed, folder) or ([], [])
            count, bad = count + len(refined), bad + len(names)
            print(''.join('seed %d: %s\n' % (seed, name) for name in names), end='')
    print('%d of %d random refined queries are read as `detect` says' % (count - bad, count))
    return bad


def main():
    words = program.command_line(__doc__)
    words.add_argument('--cases', type=int, default=400, help='random query files (default 400)')
    given = words.parse_args()
    bad = 0
    for text, wanted, said in CASES:
        words, out = asked(given.sonata, text)
        if words != wanted or said not in out:
            bad += 1
            print('%s\n  wanted %s with %r, found %s' % (text, wanted, said, out))
    print('%d of %d queries have the findings that they should' % (len(CASES) - bad, len(CASES)))
    return 1 if try_random(given.sonata, given.cases) + bad else 0


if __name__ == '__main__':
    sys.exit(main())
