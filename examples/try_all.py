#!/usr/bin/env python3
"""Tries each query of the library on a capture of the attack that it looks for, and on a capture of peace.

Each recipe makes its capture in network namespaces of its own (it needs root, tcpdump, hping3, nmap, ncat and tcpreplay). An attack counts as found
where a row of the query begins with the addresses of the attack and ends with a number that the recipe allows. In peace no query may have a row.

Then the refined queries of refined/, on captures that recipes/written.py writes: the program must find the plans that stand there, check them, and find
each attack by them, no later than a window for each further level. Where the program has no plans, these are skipped. Then the days of turning/, on which
`run` and `live` must send what yesterday's plan sends, and `replan` what plans send that follow the traffic. Then the attacks that recipes/covered.py hides in
ordinary traffic: each query must find the one that it looks for, in each of the captures nothing else, and by a plan for each switch of eight/, which must be
checked. --only-refined needs no root."""

import argparse
import os
import subprocess
import sys
import tempfile

HERE = os.path.dirname(os.path.abspath(__file__))
REFINED = os.path.join(HERE, 'refined')
USUAL = os.path.join(HERE, '..', 'crates', 'sonata', 'out', 'sonata')

ATTACKER_6, VICTIM_6 = 'fd77:0000:0000:0000:0000:0000:0000:0001', 'fd77:0000:0000:0000:0000:0000:0000:0002'
# Query file, query, the columns with which the row of the attack begins, and the place, least and greatest value of a further column.
# The least is what the threshold asks for, and the greatest is what the recipe sends in all.
ATTACKS = [
    ('newly_opened', 'newly_opened', ['10.77.0.2'], 1, 401, 5000),
    ('syn_flood', 'syn_flood', ['10.77.0.2'], 1, 201, 5000),
    ('super_spreader', 'spreader', ['10.77.0.1'], 1, 301, 5000),
    ('port_scan', 'port_scan', ['10.77.0.1', '10.77.0.2'], 2, 101, 2000),
    ('host_scan', 'host_scan', ['10.77.0.1', '445'], 2, 51, 256),
    ('ssh_brute_force', 'ssh_brute_force', ['10.77.0.2', '10.77.0.1'], 2, 21, 60),
    ('slow_connections', 'slow_connections', ['10.77.0.2'], 1, 51, 200),
    ('dns_reflection', 'dns_reflection', ['10.77.0.2'], 1, 100001, 1500 * 1208),
    ('icmp_sweep', 'icmp_sweep', ['10.77.0.1'], 1, 31, 256),
    ('top_talkers', 'top_talkers', ['10.77.0.1'], 1, 1000001, 22000000),
    ('ip6_opened', 'ip6_opened', [VICTIM_6], 1, 401, 5000),
    ('ip6_spreader', 'ip6_spreader', [ATTACKER_6], 1, 301, 5000),
    ('ip6_scan', 'ip6_scan', [ATTACKER_6, 'fd88:0000:0000:0007:0000:0000:0000:00ff'], 2, 1, 2),
    ('ttl_anomalies', 'mixed_ttl', ['10.77.0.50', '64', '113'], 3, 176, 176),
    ('ttl_anomalies', 'low_ttl', ['10.77.0.1'], 1, 3, 15),
]

# Query file, the columns with which the rows of its hidden attack begin, and its first and last window.
COVERED = [('dns_tunnel', ['10.30.1.17', '10.30.0.53'], 17, 36), ('reflection', ['10.30.2.15', '11211'], 31, 41),
           ('ip6_fan', ['2001:0db8:0077:0000:0000:0000:0000:0005'], 23, 36), ('exfiltration', ['10.30.3.19', '198.51.100.77'], 1, 4)]

TURNING = os.path.join(HERE, 'turning')
# Switch, day, how many items may be too early, what yesterday's plan sends of today, what plans send that follow the traffic, and how many these are. The first
# day is counted by hand in examples/README.md, the second by the reading in checks/reference.
DAYS = [('few', 'few-', 3, 96, 78, 2), ('turning', '', 290, 4844, 3572, 2)]


def make(recipe, folder):
    """The capture of a recipe, made where it isn't there."""
    capture = os.path.join(folder, recipe + '.pcap')
    if not os.path.exists(capture):
        subprocess.run(['sh', os.path.join(HERE, 'recipes', recipe + '.sh'), capture], check=True, timeout=120)
    return capture


def output(program, *words):
    return subprocess.run([program, *words], capture_output=True, text=True, check=True).stdout


def answer(program, name, capture):
    return output(program, 'plain', os.path.join(HERE, 'queries', name + '.query'), capture)


def rows(text):
    """The rows of each query at the finest level that is printed, each with its window."""
    found, finest, window, query, level = {}, {}, None, None, None
    for words in (line.split(' ') for line in text.splitlines()):
        if words[0] == 'window':
            window = int(words[1])
        elif words[0] == 'query':
            query, level = words[1], int(words[3])
            found.setdefault((query, level), [])
            finest[query] = max(level, finest.get(query, 0))
        elif words[0] not in ('total', 'capture'):
            found[query, level].append((window, words))
    return {query: found[query, level] for query, level in finest.items()}


def lawful(found, query, key, place, least, greatest):
    """The rows of the attack as the recipe allows them, each with its window."""
    return [(window, row) for window, row in found[query] if row[:len(key)] == key and least <= int(row[place]) <= greatest]


def finding(found, attack):
    """The row of the attack with the greatest number, or None where no row is as the recipe allows."""
    return max((row for _, row in lawful(found, *attack[1:])), key=lambda row: int(row[attack[3]]), default=None)


def try_attack(program, attack, folder):
    name, query = attack[:2]
    row = finding(rows(answer(program, name, make(name, folder))), attack)
    print('%-17s %-17s %s' % (name, query, 'found: ' + ' '.join(row) if row else 'NOT FOUND'))
    return row is not None


def try_peace(program, name, folder):
    found = rows(answer(program, name, make('quiet', folder)))
    loud = [query for query in found if found[query]]
    print('%-17s %-17s %s' % ('quiet', name, 'ROWS of ' + ', '.join(loud) if loud else 'no row'))
    return not loud


def has_words(program, *words):
    """Whether the program has these words as a command. One without it answers them with status 2."""
    return subprocess.run([program, *words], capture_output=True).returncode != 2


def has_plans(program):
    """Whether the program has the commands around plans."""
    return all(has_words(program, name, *['no such file'] * files) for name, files in (('plan', 3), ('check', 4), ('run', 4)))


def refined(name, kind):
    """The switch and the refined query file of a name, and its plan on a capture of its attack or of peace."""
    switch = 'wide.switch' if name.startswith('ip6_') else 'small.switch'
    return os.path.join(REFINED, switch), os.path.join(REFINED, name + '.query'), os.path.join(REFINED, '%s.%s.plan' % (name, kind))


def try_plan(program, name, kind, capture):
    """Whether the program finds the plan that stands there, and says yes to it."""
    switch, queries, plan = refined(name, kind)
    with open(plan) as file:
        same = file.read() == output(program, 'plan', switch, queries, capture)
    said = output(program, 'check', switch, queries, capture, plan).strip()
    good = same and said.startswith('yes')
    print('%-17s %-17s %s' % (name, kind + ' plan', said if good else 'NOT AS IT STANDS'))
    return good


def delay(plan, query):
    """The windows that a plan may cost a query: one for each level of its path but the first."""
    with open(plan) as file:
        path = next(line for line in file if line.startswith('query %s path' % query))
    return path.count(',')


def try_planned_attack(program, attack, kind, capture):
    """Whether an attack is found by a plan, no later than its levels cost."""
    name, query = attack[:2]
    switch, queries, plan = refined(name, kind)
    first = lawful(rows(output(program, 'plain', queries, capture)), *attack[1:])[0][0]
    windows = [window for window, _ in lawful(rows(output(program, 'run', switch, queries, plan, capture)), *attack[1:])]
    good = bool(windows) and windows[0] <= first + delay(plan, query)
    print('%-17s %-17s %s' % (name, query, 'by the %s plan from window %s' % (kind, windows[0]) if good else 'NOT FOUND by the %s plan' % kind))
    return good


def try_refined(program, folder):
    """Try the refined queries, one after another, on captures that are written into a folder."""
    if not has_plans(program):
        print('refined queries: skipped, the program has not all commands for plans')
        return []
    subprocess.run([sys.executable, os.path.join(HERE, 'recipes', 'written.py'), folder], check=True)
    captures = {name: os.path.join(folder, name + '.pcap') for name in [attack[0] for attack in ATTACKS] + ['quiet']}
    good = [try_plan(program, name, kind, captures[name if kind == 'attack' else 'quiet'])
            for name in dict.fromkeys(attack[0] for attack in ATTACKS) for kind in ('quiet', 'attack')]
    return good + [try_planned_attack(program, attack, kind, captures[attack[0]]) for attack in ATTACKS for kind in ('quiet', 'attack')]


def try_day(program, folder, name, day, most, along, following, plans):
    """Whether `run`, `live` and `replan` send of a day what they should."""
    switch, queries, yesterday, today = (os.path.join(TURNING, name + '.switch'), os.path.join(TURNING, 'turning.query'),
                                         os.path.join(folder, day + 'yesterday.pcap'), os.path.join(folder, day + 'today.pcap'))
    plan = os.path.join(folder, name + '.plan')
    with open(plan, 'w') as file:
        file.write(output(program, 'plan', switch, queries, yesterday))
    found = {'run': output(program, 'run', switch, queries, plan, today), 'live': output(program, 'live', switch, queries, yesterday, today),
             'replan': output(program, 'replan', switch, queries, yesterday, today, str(most))}
    sent = {command: int(text.split()[-1]) for command, text in found.items()}
    epochs = sum(line.startswith('epoch ') for line in found['replan'].splitlines())
    good = sent == {'run': along, 'live': along, 'replan': following} and epochs == plans
    told = ', '.join('%s sends %d' % one for one in sent.items())
    print('%-17s %-17s %s' % ('turning', name, '%s along %d plans' % (told, epochs) if good else 'NOT AS IT STANDS: ' + told))
    return good


def try_turning(program, folder):
    """Try the days that turn, on captures that are written into a folder."""
    if not has_plans(program) or not has_words(program, 'replan', *['no such file'] * 4, '0'):
        print('days that turn: skipped, the program has no replan')
        return []
    subprocess.run([sys.executable, os.path.join(HERE, 'recipes', 'turning.py'), folder], check=True)
    return [try_day(program, folder, *day) for day in DAYS]


def try_covered(program, attack, captures):
    """Whether a query finds its hidden attack, and nothing in all captures else."""
    name, key, first, last = attack
    good = True
    for capture, path in captures.items():
        (found,) = rows(answer(program, name, path)).values()
        windows = [window for window, row in found if row[:len(key)] == key]
        good &= len(windows) == len(found) and (windows[:1] + windows[-1:] == [first, last] if capture == name else not found)
    print('%-17s %-17s %s' % ('covered', name, 'found in windows %d to %d, and nothing else' % (first, last) if good else 'NOT AS IT STANDS'))
    return good


def try_covered_plan(program, attack, switch, captures):
    """Whether a plan for a switch of eight/, made of ordinary traffic, is checked, and finds the hidden attack and nothing else."""
    name, key, _, last = attack
    texts = os.path.join(HERE, 'eight', switch + '.switch'), os.path.join(HERE, 'queries', name + '.query')
    with tempfile.NamedTemporaryFile('w', suffix='.plan') as plan:
        plan.write(output(program, 'plan', *texts, captures['ordinary']))
        plan.flush()
        said = output(program, 'check', *texts, captures['ordinary'], plan.name).strip()
        (found,) = rows(output(program, 'run', *texts, plan.name, captures[name])).values()
    good = said.startswith('yes') and bool(found) and all(row[:len(key)] == key for _, row in found) and found[-1][0] == last
    print('%-17s %-17s %s' % (switch + '.switch', name, '%s, found from window %d on' % (said, found[0][0]) if good else 'NOT AS IT STANDS'))
    return good


def try_all_covered(program, folder):
    """Try the hidden attacks, on captures that are written into a folder."""
    subprocess.run([sys.executable, os.path.join(HERE, 'recipes', 'covered.py'), folder], check=True)
    captures = {name: os.path.join(folder, name + '.pcap') for name in ['ordinary'] + [attack[0] for attack in COVERED]}
    good = [try_covered(program, attack, captures) for attack in COVERED]
    if has_plans(program):
        good += [try_covered_plan(program, attack, switch, captures) for attack in COVERED for switch in ('ordinary', 'large')]
    return good


def main():
    words = argparse.ArgumentParser(description=__doc__, formatter_class=argparse.RawDescriptionHelpFormatter)
    words.add_argument('--sonata', default=USUAL, help='the program (default: the one that this clone built)')
    words.add_argument('--captures', metavar='FOLDER', help='use the captures there, and leave those that are made')
    words.add_argument('--only-refined', action='store_true', help='try the refined queries, the days that turn and the hidden attacks alone')
    given = words.parse_args()
    with tempfile.TemporaryDirectory(prefix='sonata-examples-') as passing:
        folder, good = given.captures or passing, []
        if not given.only_refined:
            os.makedirs(folder, exist_ok=True)
            good += [try_attack(given.sonata, attack, folder) for attack in ATTACKS]
            good += [try_peace(given.sonata, name, folder) for name in dict.fromkeys(attack[0] for attack in ATTACKS)]
        good += try_refined(given.sonata, os.path.join(passing, 'written'))
        good += try_turning(given.sonata, os.path.join(passing, 'turning'))
        good += try_all_covered(given.sonata, os.path.join(passing, 'covered'))
    print('%d of %d as they should be' % (sum(good), len(good)))
    return 0 if all(good) else 1


if __name__ == '__main__':
    sys.exit(main())
