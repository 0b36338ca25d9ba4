"""Runs `sonata` for the commands that ask it something. Its refusals end them with its own line."""

import os
import shutil
import subprocess
import sys

BUILT = os.path.join(os.path.dirname(os.path.abspath(__file__)), '..', 'crates', 'sonata', 'out', 'sonata')


def usual():
    """The program that the shell finds, else the one that this clone built."""
    return shutil.which('sonata') or BUILT


def add_option(words):
    words.add_argument('--sonata', metavar='PROGRAM', default=usual(), help='the program (default: the one on the path, else that of this clone)')


def readable(*names):
    """Ends the command at the first file that can't be read."""
    for name in names:
        try:
            open(name, 'rb').close()
        except OSError as fault:
            sys.exit('%s: %s' % (name, fault.strerror))


def opened(words, **more):
    """A running command of the program."""
    try:
        return subprocess.Popen(words, **more)
    except OSError as fault:
        sys.exit('%s: %s; --sonata names the program' % (words[0], fault.strerror))


def answered(words, good=(0,)):
    """Status, standard output and the line on standard error. A status that isn't good ends the command with that line."""
    with opened(words, stdout=subprocess.PIPE, stderr=subprocess.PIPE) as running:
        text, line = running.communicate()
    if running.returncode not in good:
        sys.exit('%s: %s' % (words[1], line.decode(errors='replace').strip() or 'status %d' % running.returncode))
    return running.returncode, text.decode(), line.decode(errors='replace').strip()


def sent(program, switch, queries, plan, capture):
    """The number of items that a plan sends on a capture, as `run` tells it. Of a damaged capture the whole records count, as they do for `plan`."""
    _, text, line = answered([program, 'run', switch, queries, plan, capture], (0, 5))
    if not text:
        sys.exit('run: ' + line)
    return int(text.split()[-1])


def searched(program, switch, queries, capture, nodes):
    """What `plan` finds with a budget: its text or None, and the least that any plan that fits sends, as far as it is known."""
    status, text, line = answered([program, 'plan', switch, queries, capture, '--nodes', str(nodes)], (0, 8))
    if status == 0:
        return text, int(text.split('\ncost ')[1].split(';')[0])
    return None, int(line.split()[-1])


def priced(program, switch, queries, capture):
    """What the plan of `plan --prices` costs, and the least that any plan that fits costs, as far as its prices show it."""
    text = answered([program, 'plan', switch, queries, capture, '--prices'])[1]
    return tuple(int(text.split('\n%s ' % word)[1].split(';')[0]) for word in ('cost', 'least'))
