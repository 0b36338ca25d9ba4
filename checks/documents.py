#!/usr/bin/env python3
"""Runs what stands in the documents. Of docs/QUERIES.md and docs/FORMATS.md the examples: each query with the answer that stands after it, and each refused text
with its error line. Of them, README.md and the documents around plans each `sh` block, one after another in a folder of its own as one shell would, with the `shows`
block that stands after it, where one does; a line `...` there stands for any lines. Blocks of other kinds, as `bash`, aren't run. Of answers that are
drawn each key must stand in the picture, and of stays each line, in the new one and in the one that the document shows. A document is left out
where the program hasn't all its commands; checks/planned.py has them (`documents.py --sonata checks/planned.py`). Without matplotlib and graphviz pictures
are left out, and without editcap, mergecap, psql, xxd, tcpdump, jq, systemd-analyze or Dask the blocks that use them, which is said of each; so are those that
 print a cost table, where `sonata_entries` (that this clone built, or that SONATA_ENTRIES names) or a C compiler isn't there."""

import os
import re
import shutil
import subprocess
import sys
import tempfile

import drawn_keys
import program

HERE = os.path.dirname(os.path.abspath(__file__))
TOP = os.path.dirname(HERE)
GENERATE = os.path.join(TOP, 'bench', 'generate.py')
PAIR = re.compile(r'```(query|refused)\n(.*?)```\n+```(answer|line)\n(.*?)```', re.S)
BLOCK = re.compile(r'```sh\n(.*?)```(?:\n+```shows\n(.*?)```)?', re.S)
# (the README, the queries, those around plans and the operator's day: blocks of other kinds than sh, as bash, aren't run)
SESSIONS = ['README.md', 'QUERIES.md', 'FORMATS.md', 'FAQ.md', 'PLANS.md', 'TOUR.md', 'SCALE.md', 'OPERATING.md', 'EVALUATION.md', 'CALLING.md', 'examples/README.md']
ENTRIES = os.environ.get('SONATA_ENTRIES', os.path.join(TOP, 'crates', 'sonata_entries', 'out', 'sonata_entries'))
TABLES = re.compile(r'\bsonata_entries |bench/paper\.py')
COMMAND = re.compile(r'\bsonata (plain|plan|run|emit|finish|detect|many|check|live|replan|gen|job) [^-|;&>\n]+( --csv)?')
TOOLS = re.compile(r'^(?:.*\| *)?(editcap|mergecap|reordercap|psql|xxd|jq|tcpdump|systemd-analyze) ', re.M)
DASK = re.compile(r'examples/scale/(?:parts|rest)\.py')
PICTURE = re.compile(r'^/usr/bin/python3 \S*view/(?:layout|tree|emitted|answers|report)\.py .*\n', re.M)


def document(name):
    with open(os.path.join(TOP, '' if name.endswith('README.md') else 'docs', name)) as file:
        return file.read()


def differs(text, wanted, found):
    """Tell an example that isn't as it stands, and whether it is one."""
    if found != wanted:
        print('this text:\n%swants %r\ngives %r\n' % (text, wanted, found))
    return found != wanted


def try_queries(executable, name):
    """How many examples of queries a document has, and how many differ."""
    pairs, bad = PAIR.findall(document(name)), 0
    with tempfile.NamedTemporaryFile(suffix='.pcap') as capture:
        subprocess.run([sys.executable, GENERATE, 'few', capture.name, '--packets', '5000'], check=True)
        for kind, text, _, expected in pairs:
            wanted = (0, expected, '') if kind == 'query' else (3, '', expected)
            bad += differs(text, wanted, program.run_text(executable, text, capture.name))
    return len(pairs), bad


def is_shown(shown, output):
    """Whether an output is what a block shows."""
    parts = [re.escape(part) for part in re.split(r'^\.\.\.\n', shown, flags=re.M)]
    return re.fullmatch('(?:.*\n)*'.join(parts), output) is not None


def draws():
    """Whether the pictures' packages are there."""
    python = subprocess.run(['/usr/bin/python3', '-c', 'import matplotlib'], stderr=subprocess.DEVNULL)
    return python.returncode == 0 and shutil.which('dot') is not None


def missing_tools(commands):
    """The tools that a block needs and that aren't there."""
    dask = DASK.search(commands) and subprocess.run(['/usr/bin/python3', '-c', 'import distributed, pandas'], stderr=subprocess.DEVNULL).returncode
    table = TABLES.search(commands) and not (os.access(ENTRIES, os.X_OK) and shutil.which(os.environ.get('CC', 'cc')))
    tools = sorted({tool for tool in TOOLS.findall(commands) if shutil.which(tool) is None})
    return ['Dask (distributed, pandas)'] * bool(dask) + ['sonata_entries and a C compiler'] * bool(table) + tools


def session_folder(executable, folder):
    """Make a folder in which the commands of a document find what a clone has, and the program. The environment for them."""
    for part in ('bench', 'checks', 'crates', 'docs', 'examples', 'view'):
        os.symlink(os.path.join(TOP, part), os.path.join(folder, part))
    os.makedirs(os.path.join(folder, 'bin'))
    os.symlink(os.path.abspath(executable), os.path.join(folder, 'bin', 'sonata'))
    os.symlink(os.path.abspath(ENTRIES), os.path.join(folder, 'bin', 'sonata_entries'))
    return dict(os.environ, PATH=os.path.join(folder, 'bin') + os.pathsep + os.environ['PATH'], PLACE=os.path.join(folder, '.place'))


def spoken(commands, place):
    """What a block of commands prints and its status, in the folder where the block before it ended."""
    whole = 'cd "$(cat "$PLACE")"\ntrap \'pwd > "$PLACE"\' EXIT\n' + commands
    done = subprocess.run(['bash', '-c', whole], env=place, stdout=subprocess.PIPE, stderr=subprocess.STDOUT, text=True, errors='replace')
    return done.returncode, done.stdout


def try_session(executable, name):
    """How many blocks of commands a document has, and how many don't do what stands after them."""
    blocks, bad, pictures = BLOCK.findall(document(name)), 0, draws()
    with tempfile.TemporaryDirectory(prefix='sonata-documents-') as folder:
        place = session_folder(executable, folder)
        with open(place['PLACE'], 'w') as file:
            file.write(folder)
        for commands, shown in blocks:
            missing = missing_tools(commands)
            if missing:
                print('%s: left out without %s: %s' % (name, ', '.join(missing), commands.splitlines()[0]))
                continue
            status, found = spoken(commands if pictures else PICTURE.sub('', commands), place)
            good = is_shown(shown, found) if shown else status == 0
            bad += good and lacks_keys(commands, place, name, pictures)
            bad += differs(commands, shown or 'status 0', shown or 'status 0' if good else found)
    return len(blocks), bad


def lacks_keys(commands, place, name, pictures):
    """Tell the keys of answers and the stays that aren't in the pictures that a block drew of them, and whether there are some."""
    with open(place['PLACE']) as file:
        folder = file.read().strip()
    shown = [os.path.join(TOP, 'docs', link) for link in drawn_keys.LINK.findall(document(name))]
    keys = (drawn_keys.missing(commands, folder, shown) if pictures else []) + drawn_keys.missing_stays(commands, folder, shown)
    for key in keys:
        print('%s: no key %s' % (name, key))
    return bool(keys)


def unbuilt(executable, name):
    """The commands of a document that the program hasn't."""
    blocks = ''.join(commands for commands, _ in BLOCK.findall(document(name)))
    return sorted({found.group(1) + (found.group(2) or '') for found in COMMAND.finditer(blocks)} - program.built(executable))


def main():
    words = program.command_line(__doc__)
    words.add_argument('documents', nargs='*', default=SESSIONS, help='of %s (default: all)' % ', '.join(SESSIONS))
    given = words.parse_args()
    found = []
    for path in given.documents:
        name = path if path in SESSIONS else os.path.basename(path)
        if name not in SESSIONS:
            words.error('%s is none of %s' % (path, ', '.join(SESSIONS)))
        missing = unbuilt(given.sonata, name)
        if missing:
            print('%s: left out, the program has no %s' % (name, ', '.join(missing)))
            continue
        for tried in [try_queries] * bool(PAIR.search(document(name))) + [try_session]:
            found.append(tried(given.sonata, name))
            print('%s: %d of %d examples as they stand' % (name, found[-1][0] - found[-1][1], found[-1][0]), flush=True)
    return 1 if any(bad for _, bad in found) else 0


if __name__ == '__main__':
    sys.exit(main())
