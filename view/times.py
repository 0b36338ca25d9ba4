"""Clock times of windows: the time of a capture's first record, and the length of a window."""

import datetime
import sys

import cut
import texts
from texts import grammar

EPOCH = datetime.datetime(1970, 1, 1, tzinfo=datetime.timezone.utc)


def first_record(name):
    """The time of a capture's first record in nanoseconds."""
    try:
        with sys.stdin.buffer if name == '-' else open(name, 'rb') as file:
            _, order, unit = cut.opened(file)
            for time, _ in cut.records(file, order, unit):
                return time
    except OSError as fault:
        sys.exit('%s: %s' % (name, fault.strerror))
    sys.exit('%s: no record, so no window has a time' % name)


def window_of(name):
    """The length of a query file's window in microseconds."""
    return texts.accepted(name, grammar.parse)[0]


def text(microseconds, local=False):
    """A time since 1970 as RFC 3339 writes it, with its zone."""
    time = EPOCH + datetime.timedelta(microseconds=microseconds)
    return (time.astimezone() if local else time).isoformat(timespec='microseconds').replace('+00:00', 'Z')


def add_options(words):
    words.add_argument('--capture', help='the capture that was answered: its first record begins window 0')
    words.add_argument('--first', type=float, metavar='SECONDS', help='the time of its first record instead, in seconds since 1970 (UTC)')
    words.add_argument('--queries', help='the query file, for the length of a window')
    words.add_argument('--window-us', type=int, metavar='N', help='the length of a window in microseconds instead')
    words.add_argument('--local', action='store_true', help='times of this place in place of UTC')


class Clock:
    """The times at which windows begin."""

    def __init__(self, given):
        if (given.capture is None) == (given.first is None) or given.queries is None and given.window_us is None:
            sys.exit('a clock needs --capture or --first, and --queries or --window-us')
        self.first = first_record(given.capture) // 1000 if given.first is None else round(given.first * 10**6)
        self.window = given.window_us or window_of(given.queries)
        self.local = given.local

    def at(self, number):
        """The time at which a window begins, as text with its zone."""
        return text(self.first + number * self.window, self.local)
