#!/usr/bin/env python3
"""TCP connections for the recipes.

serve   accepts connections at a port for some seconds, and greets each with a line where one is given
guess   opens connections one after another, sends a line in each and closes it
slow    opens connections at once, holds them, and sends a short line in each every second"""

import argparse
import selectors
import socket
import time


def serve(given):
    family = socket.AF_INET6 if ':' in given.address else socket.AF_INET
    listener = socket.create_server((given.address, given.port), family=family, backlog=512)
    listener.setblocking(False)
    waiting = selectors.DefaultSelector()
    waiting.register(listener, selectors.EVENT_READ)
    end = time.monotonic() + given.seconds
    while time.monotonic() < end:
        for key, _ in waiting.select(0.2):
            take(key.fileobj, listener, waiting, given.line)


def take(ready, listener, waiting, line):
    """Accept a connection, or read from one until it ends."""
    if ready is listener:
        connection, _ = listener.accept()
        waiting.register(connection, selectors.EVENT_READ)
        if line:
            connection.sendall(line.encode() + b'\r\n')
    elif not ready.recv(4096):
        waiting.unregister(ready)
        ready.close()


def guess(given):
    for _ in range(given.count):
        with socket.create_connection((given.address, given.port), timeout=2) as connection:
            connection.sendall(given.line.encode() + b'\r\n')
            connection.recv(100)


def slow(given):
    held = [socket.create_connection((given.address, given.port), timeout=2) for _ in range(given.count)]
    end = time.monotonic() + given.seconds
    while time.monotonic() < end:
        for connection in held:
            connection.sendall(given.line.encode() + b'\r\n')
        time.sleep(1)
    for connection in held:
        connection.close()


def main():
    words = argparse.ArgumentParser(description=__doc__, formatter_class=argparse.RawDescriptionHelpFormatter)
    words.add_argument('what', choices=['serve', 'guess', 'slow'])
    words.add_argument('address')
    words.add_argument('port', type=int)
    words.add_argument('--count', type=int, default=60, help='connections to open')
    words.add_argument('--seconds', type=float, default=20)
    words.add_argument('--line', default='', help='the line to send')
    given = words.parse_args()
    {'serve': serve, 'guess': guess, 'slow': slow}[given.what](given)


if __name__ == '__main__':
    main()
