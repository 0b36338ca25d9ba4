#!/usr/bin/env python3
"""Asks of each definition that a reader must believe whether a call or a test would see that it is wrong, in specs and code alike, where no proof can see it.

    python3 checks/wrong.py [--work FOLDER] [CRATE ..]

checks/wrong/CRATE.wrong lists wrong definitions: paragraphs of lines `definition:` (the file and the name of the one that is contradicted), `says:` (what is
wrong), `file:`, `in:` (the function, where the words stand more than once in the file), `old:` and `new:`. All of them are put into one copy of the tree,
each under its number (checks/wrong_text.py), and the programs of tests are built there once, without proofs (checks/unproved.py; some minutes). Then each
program runs with each number in turn, until `--most` calls (2) answer otherwise than they are to.

Prints of each wrong definition the first calls that see it; then those that one call alone sees, those that none sees, and with --all the definitions to be
believed of which there is no wrong one. Status 0 only where each is seen, or stands in checks/wrong/equal.txt as `CRATE NUMBER: SENTENCE`, the sentence
showing that it answers as the right one does. With --work the copy, the programs and what was found stay in a folder, and what stands there isn't made anew.
"""

import argparse
import concurrent.futures
import contextlib
import glob
import json
import os
import random
import re
import resource
import shutil
import signal
import subprocess
import sys
import tempfile
import threading

import closure
import unproved
import wrong_text

TOP = os.path.dirname(os.path.dirname(os.path.abspath(__file__)))
LISTS = os.path.join(TOP, 'checks', 'wrong')
# The programs of tests, which print a line of each call or case that is answered otherwise.
PROGRAMS = ('sn_test_calls', 'sn_test_tables')
# What stands for the number in a program that was built, and where a number is written later.
MARKER = 0x5EED0FF5
# A run's longest time in seconds, of a processor and by the clock, and its most memory.
PROCESSOR, SECONDS, BYTES = 20, 300, 6 << 30
# A line of a call or a case that is answered otherwise: its name, and what differs.
DIFFERS = re.compile(r'(\S+) (?:text, line|status)|(\w+, case \d+) on line')
# A program can't be run while another thread's new process still has it open for writing.
ONE_AT_A_TIME = threading.Lock()
LIBRARY = '''//! Which wrong definition stands, in a copy of the crates that checks/wrong.py makes.
#![tactic(auto)]

/// Whether the wrong definition of this number stands.
pub fn is(number: u32) -> bool {
    number == 1_592_594_421
}
'''


def entries(names):
    """The wrong definitions of all lists or those of these crates, in order."""
    paths = sorted(glob.glob(os.path.join(LISTS, '*.wrong')))
    lacking = set(names) - {os.path.basename(path)[:-len('.wrong')] for path in paths}
    if lacking:
        sys.exit('checks/wrong has no list of %s' % ', '.join(sorted(lacking)))
    return [one for path in paths for one in wrong_text.read_list(path) if not names or one.crate in names]


def equals():
    """The names of those that answer as the right ones do, each with the sentence that shows it."""
    path = os.path.join(LISTS, 'equal.txt')
    if not os.path.exists(path):
        return {}
    with open(path, encoding='utf-8') as file:
        return dict(line.strip().split(': ', 1) for line in file if line.strip() and not line.startswith('#'))


def killed(run):
    """Ends a program, and what it started."""
    with contextlib.suppress(ProcessLookupError):
        os.killpg(run.pid, signal.SIGKILL)


def copy_tree(tree):
    """Copies the crates of the work tree, and adds the crate that has the number."""
    words = ['git', 'ls-files', '-z', '--cached', '--others', '--exclude-standard', '--', 'crates', 'crates.txt', 'HANDLES']
    for path in subprocess.run(words, cwd=TOP, stdout=subprocess.PIPE, check=True).stdout.decode().split('\0'):
        if os.path.isfile(os.path.join(TOP, path)):
            os.makedirs(os.path.dirname(os.path.join(tree, path)), exist_ok=True)
            shutil.copy(os.path.join(TOP, path), os.path.join(tree, path))
    os.makedirs(os.path.join(tree, 'crates', 'sn_wrong', 'src'))
    with open(os.path.join(tree, 'crates', 'sn_wrong', 'src', 'lib.rt'), 'w', encoding='utf-8') as file:
        file.write(LIBRARY)


def name_library(tree, crates):
    """Writes into crates.txt that these crates stand on the one that has the number."""
    path = os.path.join(tree, 'crates.txt')
    with open(os.path.join(TOP, 'crates.txt'), encoding='utf-8') as file:
        lines = file.read().split('\n')
    named = [line + ' sn_wrong' if line.partition(':')[0].strip() in crates and ':' in line else line for line in lines]
    with open(path, 'w', encoding='utf-8') as file:
        file.write('\n'.join(['sn_wrong:', *named]))


def write_files(tree, every, numbered):
    """Writes each file that has wrong definitions, with those in it that have a number."""
    name_library(tree, {one.crate for one in every})
    for crate, name in sorted({(one.crate, one.file) for one in every}):
        with open(os.path.join(TOP, 'crates', crate, name), encoding='utf-8') as file:
            text = file.read()
        variants = [(*wrong_text.variant(one, text), number) for number, one in numbered if (one.crate, one.file) == (crate, name)]
        with open(os.path.join(tree, 'crates', crate, name), 'w', encoding='utf-8') as file:
            file.write(wrong_text.put(text, variants))


def make_tree(tree, every, numbered):
    """Makes the copy with all wrong definitions. It has its name when it is whole."""
    part = tree + '.part'
    shutil.rmtree(part, ignore_errors=True)
    os.makedirs(part)
    copy_tree(part)
    write_files(part, every, numbered)
    os.rename(part, tree)


def patchable(kit, module, made):
    """Writes a module in words, in which the number is read from a place that can be written in the program."""
    subprocess.run([os.path.join(kit, 'toolchain', 'bin', 'clang'), '-S', '-emit-llvm', '-O0', '-Xclang', '-disable-O0-optnone', '-x', 'ir', module, '-o', made], check=True)
    with open(made, encoding='utf-8') as file:
        text = file.read()
    heads = re.findall(r'^define [^\n]*@("?[^\s(]*sn_wrong[^\s(]*is[^\s(]*)\(i32[^)%]*(%\w+)\)[^\n]*\{\n.*?^\}\n', text, re.M | re.S)
    if len(heads) != 1:
        raise unproved.Unbuilt('%d functions ask for the number' % len(heads))
    name, given = heads[0]
    body = ('@sn_wrong_number = global i32 %d\ndefine internal zeroext i1 @%s(i32 %s) noinline {\n  %%held = load volatile i32, ptr @sn_wrong_number\n'
            '  %%same = icmp eq i32 %%held, %s\n  ret i1 %%same\n}\n' % (MARKER, name, given, given))
    text = re.sub(r'^define [^\n]*@%s\(.*?^\}\n' % re.escape(name), lambda _: body, text, flags=re.M | re.S)
    with open(made, 'w', encoding='utf-8') as file:
        file.write(text)


def build(work, tree, name):
    """Builds a program of tests of the copy, in which a number can be written. It and its module have their names when they are whole."""
    made, kit = os.path.join(work, name), unproved.kit_folder()
    module, part = made + '.bc', made + '.part'
    if not os.path.exists(made):
        if not os.path.exists(module):
            unproved.module_of(kit, tree, name, part)
            os.replace(part, module)
        patchable(kit, module, made + '.ll')
        unproved.link(kit, made + '.ll', part, '-O1')
        os.replace(part, made)
    return made


def numbers_near(lines, place, column):
    """The last number before a place of a line, or else those in the next lines or the last ones that have any."""
    for near in (0, 1, 2, 3, -1, -2, -3):
        if 0 <= place + near < len(lines) and 'sn_wrong::is(' in lines[place + near]:
            line = lines[place + near]
            before = re.findall(r'sn_wrong::is\((\d+)\)', line[:column] if near == 0 else '')
            return {int(number) for number in before[-1:] or re.findall(r'sn_wrong::is\((\d+)\)', line)}
    return set()


def at_fault(said, tree):
    """The numbers that stand in or near the places that the compiler names."""
    found = set()
    for path, line, column in re.findall(r'(\S+\.rt):(\d+):(\d+)', said):
        if path.startswith(tree) and os.path.exists(path):
            with open(path, encoding='utf-8') as file:
                found |= numbers_near(file.read().split('\n'), int(line) - 1, int(column))
    return found


def limited():
    resource.setrlimit(resource.RLIMIT_AS, (BYTES, BYTES))
    resource.setrlimit(resource.RLIMIT_CPU, (PROCESSOR, PROCESSOR))
    resource.setrlimit(resource.RLIMIT_CORE, (0, 0))


def split_calls(data):
    """The calls of a list of sn_test_calls, each with its bytes."""
    at = begin = 0
    while at < len(data):
        end = data.index(b'\n', at)
        word, _, rest = data[at:end].partition(b' ')
        at = end + 1
        if word in (b'word', b'file', b'out', b'err'):
            at += sum(int(length) + 1 for length in rest.split(b' '))
        elif word == b'made':
            at += int(rest.split(b' ')[0]) + 1
        if word == b'err':
            yield data[begin:at]
            begin = at


def mix_calls(data, folder):
    """Writes the lists of calls anew, mixed, so that calls of all kinds come soon; those over large captures come last."""
    names = sorted(os.listdir(data))
    calls = []
    for name in names:
        with open(os.path.join(data, name), 'rb') as file:
            calls += split_calls(file.read())
    random.Random(1).shuffle(calls)
    calls.sort(key=lambda call: b'\nmade ' in call[:100000])
    os.makedirs(folder, exist_ok=True)
    for name in names:
        with open(os.path.join(folder, name), 'wb') as file:
            file.write(b''.join(calls) if name == 'calls' else b'')


class Program:
    """A program of tests, and the folder of its data."""

    def __init__(self, made, tree, name):
        self.name, self.folder = name, os.path.join(tree, 'crates', name, 'data')
        if name == 'sn_test_calls':
            mix_calls(self.folder, made + '.data')
            self.folder = made + '.data'
        with open(made, 'rb') as file:
            self.bytes = file.read()
        mark = MARKER.to_bytes(4, 'little')
        if self.bytes.count(mark) != 1:
            raise unproved.Unbuilt('%s: the number stands in %d places' % (name, self.bytes.count(mark)))
        self.at = self.bytes.index(mark)

    def numbered(self, number, path):
        """Writes the program with a number."""
        with open(path, 'wb') as file:
            file.write(self.bytes[:self.at] + number.to_bytes(4, 'little') + self.bytes[self.at + 4:])
        os.chmod(path, 0o755)

    def seen(self, number, most):
        """The first calls that see the wrong definition of a number, or how the program ended."""
        with tempfile.TemporaryDirectory(prefix='wrong-') as folder:
            path = os.path.join(folder, 'program')
            with ONE_AT_A_TIME:
                self.numbered(number, path)
                run = subprocess.Popen([path], cwd=self.folder, stdin=subprocess.DEVNULL, stdout=subprocess.PIPE, stderr=subprocess.DEVNULL,
                                       preexec_fn=limited, start_new_session=True)
            late = threading.Timer(SECONDS, killed, [run])
            late.start()
            found = []
            for line in run.stdout:
                differs = DIFFERS.match(line.decode(errors='replace'))
                if differs:
                    found.append(differs[1] or differs[2])
                if len(found) >= most:
                    killed(run)
            status = run.wait()
            was_late = not late.is_alive() or status == -signal.SIGXCPU
            late.cancel()
        if len(found) < most and (status < 0 or not found and status != 0):
            found += ['(it goes on)' if was_late else '(it ends with %d)' % status] * most
        return [self.name + ' ' + one for one in found[:most]]


def refused(work):
    """The names of the wrong definitions that the compiler refused before."""
    path = os.path.join(work, 'refused')
    if not os.path.exists(path):
        return set()
    with open(path, encoding='utf-8') as file:
        return set(file.read().split('\n'))


def without_refused(work, tree, every, numbered, unbuilt):
    """The wrong definitions without those that the compiler refuses, which it tells and writes down. Writes the files anew."""
    wrong = at_fault(str(unbuilt), tree)
    if not wrong:
        sys.exit('not compiled:\n%s' % unbuilt)
    print(str(unbuilt).strip().replace(tree + os.sep, ''), flush=True)
    with open(os.path.join(work, 'refused'), 'a', encoding='utf-8') as file:
        for number, one in numbered:
            if number in wrong:
                print('not compiled: %s, %s' % (one.name, one.says), flush=True)
                file.write(one.name + '\n')
    left = [(number, one) for number, one in numbered if number not in wrong]
    write_files(tree, every, left)
    return left


def built_programs(work, tree, every, numbered):
    """The programs of tests that there are; where the compiler refuses wrong definitions, without these."""
    names = [name for name in PROGRAMS if os.path.exists(os.path.join(tree, 'crates', name))]
    while True:
        try:
            return numbered, [Program(build(work, tree, name), tree, name) for name in names]
        except unproved.Unbuilt as unbuilt:
            numbered = without_refused(work, tree, every, numbered, unbuilt)


def answers(ask, asked, jobs):
    """What a function says of each of a list, as it comes, some side by side. After a fault none is begun."""
    with concurrent.futures.ThreadPoolExecutor(jobs) as pool:
        try:
            for done in concurrent.futures.as_completed([pool.submit(ask, one) for one in asked]):
                yield done.result()
        except BaseException:
            pool.shutdown(cancel_futures=True)
            raise


def try_all(programs, numbered, most, jobs, kept):
    """What sees each wrong definition, and writes it down as it is found."""
    def ask(pair):
        number, one = pair
        found = []
        for program in programs:
            found += program.seen(number, most - len(found)) if len(found) < most else []
        return one, found

    results = {}
    if os.path.exists(kept):
        with open(kept, encoding='utf-8') as file:
            results = dict(json.loads(line) for line in file)
    left = [pair for pair in numbered if pair[1].name not in results]
    with open(kept, 'a', encoding='utf-8') as file, contextlib.closing(answers(ask, left, jobs)) as pairs:
        for one, found in pairs:
            results[one.name] = found
            print('%s: %s' % (one.name, ', '.join(found) or 'seen by none'), flush=True)
            file.write(json.dumps([one.name, found]) + '\n')
            file.flush()
    return results


def without_any(every):
    """The definitions to be believed of the top call's contracts of which there is no wrong one."""
    named = {tuple(re.split('[/ ]', one.definition)) for one in every}
    return sorted(set(closure.reached(TOP)) - named)


def report(numbered, results, shows_all, every):
    """Prints the tables. Returns whether each is seen or equal."""
    equal = equals()
    single = [one for _, one in numbered if len(results[one.name]) == 1]
    unseen = [one for _, one in numbered if not results[one.name]]
    for title, found in (('seen by one call alone', single), ('seen by none', [one for one in unseen if one.name not in equal]),
                         ('equal, as a sentence shows', [one for one in unseen if one.name in equal])):
        print('\n%s: %d' % (title, len(found)))
        for one in found:
            print('  %s, %s: %s%s' % (one.name, one.definition, one.says, ' (%s)' % results[one.name][0] if results[one.name] else ''))
    named = {one.definition for one in every}
    lacking = without_any(every)
    print('\nwrong definitions: %d, of %d definitions; seen: %d' % (len(numbered), len(named), len(numbered) - len(unseen)))
    print('definitions to be believed without a wrong one: %d' % len(lacking))
    if shows_all:
        print('\n'.join('  %s/%s %s' % one for one in lacking))
    wrong_equals = [name for name in equal if results.get(name)]
    if wrong_equals:
        print('in equal.txt, and seen: %s' % ', '.join(wrong_equals))
    return not wrong_equals and all(one.name in equal for one in unseen)


def count(word):
    """A number of the command line that is at least 1."""
    if not word.isdecimal() or int(word) < 1:
        raise argparse.ArgumentTypeError('%s is no number of at least 1' % word)
    return int(word)


def words_given():
    parser = argparse.ArgumentParser(description=__doc__, formatter_class=argparse.RawDescriptionHelpFormatter)
    parser.add_argument('crates', metavar='CRATE', nargs='*', help='a crate that has a list in checks/wrong (all that have)')
    parser.add_argument('--work', help='a folder for the copy, the programs and what was found')
    parser.add_argument('--most', type=count, default=2, help='how many calls are to see one before the next is tried (2)')
    parser.add_argument('--jobs', type=count, default=os.cpu_count() or 1, help='how many run side by side (the processors)')
    parser.add_argument('--all', action='store_true', help='also list the definitions without a wrong one')
    return parser.parse_args()


def tried(given, work):
    """Whether each wrong definition of the lists is seen or equal."""
    every = entries(given.crates)
    numbered = [pair for pair in enumerate(every, 1) if pair[1].name not in refused(work)]
    tree = os.path.join(work, 'tree')
    if not os.path.exists(tree):
        make_tree(tree, every, numbered)
    numbered, programs = built_programs(work, tree, every, numbered)
    results = try_all(programs, numbered, given.most, given.jobs, os.path.join(work, 'found'))
    return report(numbered, results, given.all, every)


def main():
    given = words_given()
    work = os.path.abspath(given.work) if given.work else tempfile.mkdtemp(prefix='sonata-wrong-')
    try:
        sys.exit(0 if tried(given, work) else 1)
    except wrong_text.Bad as bad:
        sys.exit(str(bad))
    except unproved.ENDS as fault:
        sys.exit(unproved.why(fault))
    finally:
        if not given.work:
            shutil.rmtree(work, ignore_errors=True)


if __name__ == '__main__':
    main()
