#!/usr/bin/env python3
"""Lets workers of Dask answer the parts of a capture that view/cut.py made, each by a `sonata` of its own, and joins the answers.

    cut.py today.pcap parts --window 1000000 --windows 60
    parts.py parts plain tour.query > whole.txt
    parts.py parts run tour.switch tour.query tour.plan --workers 4 > whole.txt

After the folder stand the words of the command without the capture. --kill-one ends one worker while its `sonata` answers the middle part: Dask asks another
one for what it had, and the answer is the same. How long it took, and by how many workers, goes to standard error."""

import argparse
import glob
import os
import shutil
import signal
import subprocess
import sys
import tempfile
import time

import cluster

HERE = os.path.dirname(os.path.abspath(__file__))
VIEW = os.path.join(HERE, '..', '..', 'view')
sys.path.insert(0, VIEW)
import programs  # noqa: E402


def end_once(mark, words, part):
    """End this worker's process in the midst of a part, the first time that it is asked for."""
    try:
        os.close(os.open(mark, os.O_CREAT | os.O_EXCL))
    except FileExistsError:
        return
    subprocess.Popen([*words, part], stdout=subprocess.PIPE).stdout.read(1)
    os.kill(os.getpid(), signal.SIGKILL)


def answer(words, part, mark=None):
    """What the program prints for a part, on a worker. A damaged end is answered up to there."""
    if mark:
        end_once(mark, words, part)
    done = subprocess.run([*words, part], stdout=subprocess.PIPE, stderr=subprocess.PIPE, text=True)
    if done.returncode not in (0, 5) or not done.stdout:
        raise RuntimeError('%s: %s' % (os.path.basename(part), done.stderr.strip()))
    return part, done.stdout


def processes(client):
    """The processes of the workers."""
    return set(client.run(os.getpid).values())


def joined(answers):
    """Write each part's answer beside it, and join them by join.py."""
    names = []
    for part, text in answers:
        names.append(os.path.splitext(part)[0] + '.txt')
        with open(names[-1], 'w') as file:
            file.write(text)
    return subprocess.run([sys.executable, os.path.join(VIEW, 'join.py'), *names]).returncode


def main():
    words = argparse.ArgumentParser(description=__doc__ + '\n\n' + cluster.PACKAGE, formatter_class=argparse.RawDescriptionHelpFormatter)
    words.add_argument('folder', help='the parts, part-*.pcap')
    words.add_argument('command', choices=('plain', 'run'))
    words.add_argument('files', nargs='+', help='the files of the command but the capture')
    words.add_argument('--kill-one', action='store_true', help='end a worker while it works')
    cluster.add_options(words)
    programs.add_option(words)
    given = words.parse_args()
    if given.kill_one and given.scheduler:
        words.error('--kill-one is for workers that are started here')
    parts = sorted(glob.glob(os.path.join(os.path.abspath(given.folder), 'part-*.pcap')))
    if not parts:
        sys.exit('%s: no parts' % given.folder)
    if not given.scheduler and not shutil.which(given.sonata):
        sys.exit('%s: no program; --sonata names it' % given.sonata)
    asked = [os.path.abspath(given.sonata), given.command, *map(os.path.abspath, given.files)]
    client = cluster.client(given)
    begun, before = time.monotonic(), processes(client)
    marked = parts[len(parts) // 2] if given.kill_one else None
    with tempfile.TemporaryDirectory(prefix='sonata-parts-') as folder:
        futures = [client.submit(answer, asked, part, os.path.join(folder, 'ended') if part == marked else None, pure=False) for part in parts]
        try:
            answers = client.gather(futures)
        except (RuntimeError, OSError) as fault:
            cluster.end(client)
            sys.exit(str(fault))
    lost = ', one lost while it answered %s' % os.path.basename(marked) if marked and before - processes(client) else ''
    print('%d parts, %d workers, %.1f seconds%s' % (len(parts), len(before), time.monotonic() - begun, lost), file=sys.stderr)
    status = joined(answers)
    cluster.end(client)
    return status


if __name__ == '__main__':
    sys.exit(main())
