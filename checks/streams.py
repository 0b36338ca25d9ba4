#!/usr/bin/env python3
"""Gives captures as files, on standard input and through named pipes, whole and in small pieces, and compares the answers. Needs nothing but
Python."""

import os
import subprocess
import sys
import tempfile
import threading

import program

HERE = os.path.dirname(os.path.abspath(__file__))
GENERATE = os.path.join(HERE, '..', 'bench', 'generate.py')
QUERY = 'window 1000000\nquery q { packets | filter tcp.flags == 2 | map ip.dst as d, 1 as n | reduce d : sum(n) width 32 | filter n > 1; }\n'
SECONDS = 60


def answer(sonata, words, given=None):
    """Status, text and error line of a run, with these bytes on its standard input."""
    ran = subprocess.run([sonata, 'plain'] + words, input=given, capture_output=True, timeout=SECONDS, check=False)
    return ran.returncode, ran.stdout, ran.stderr


def feed(path, content, piece):
    """Writes a capture into a named pipe, piece by piece. The reader may close it early."""
    try:
        with open(path, 'wb', buffering=0) as pipe:
            for at in range(0, len(content), piece):
                pipe.write(content[at:at + piece])
    except BrokenPipeError:
        pass


def through_pipe(sonata, folder, query, content, piece):
    """The answer over a named pipe."""
    path = os.path.join(folder, 'pipe')
    os.mkfifo(path)
    writer = threading.Thread(target=feed, args=(path, content, piece), daemon=True)
    writer.start()
    try:
        return answer(sonata, [query, path])
    finally:
        writer.join(SECONDS)
        os.remove(path)


def main():
    given = program.command_line(__doc__).parse_args()
    bad = tried = 0
    with tempfile.TemporaryDirectory() as folder:
        query = os.path.join(folder, 'q.query')
        whole = os.path.join(folder, 'whole.pcap')
        with open(query, 'w') as file:
            file.write(QUERY)
        subprocess.run([sys.executable, GENERATE, 'few', whole, '--packets', '5000'], check=True)
        with open(whole, 'rb') as file:
            content = file.read()
        for length in (0, 10, 24, 30, 40, 70, 100000, len(content)):
            front = content[:length]
            path = os.path.join(folder, 'front.pcap')
            with open(path, 'wb') as file:
                file.write(front)
            wanted = answer(given.sonata, [query, path])
            ways = [('standard input', answer(given.sonata, [query, '/dev/stdin'], front))]
            for piece in (997, 65536):
                ways.append(('a pipe in pieces of %d' % piece, through_pipe(given.sonata, folder, query, front, piece)))
            for way, found in ways:
                tried += 1
                if found != wanted:
                    bad += 1
                    print('%d bytes by %s: wanted %r, got %r' % (length, way, wanted, found))
    print('%d of %d captures answered alike' % (tried - bad, tried))
    return 1 if bad else 0


if __name__ == '__main__':
    sys.exit(main())
