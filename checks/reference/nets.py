"""The events of `live --trace`: lanes, an engine and a window, as state; which event comes is drawn."""

from . import pipes, split

ROOM = 64


class Lane:
    """A piece: what it sends in the window at hand by packet, what is read out, and its frames on the way. A frame is counted, not held."""

    def __init__(self, query, q, j, piece):
        self.query, self.q, self.j, self.piece = query, q, j, piece
        self.begin([], [])

    def begin(self, sent, read):
        self.sent = {}
        for number, _ in sent:
            self.sent[number] = self.sent.get(number, 0) + 1
        self.unread, self.ended, self.frames, self.taken = len(read), False, [], False


class Net:
    """The state, with the windows of the capture that are still to come."""

    def __init__(self, queries, switch, entries, windows):
        self.queries, self.switch, self.entries = queries, switch, entries
        self.levels = split.Levels(queries, entries, switch.entries)
        self.lanes = [Lane(queries[q], q, entry.path.index(piece.level), piece) for q, entry in enumerate(entries) for piece in entry.pieces]
        self.coming = [(number, place) for number, tuples in windows for place in range(len(tuples))]
        self.windows, self.held, self.window, self.closed = dict(windows), None, None, False
        self.rows, self.emitted, self.answers = {}, 0, None

    # ---- the driver's calls

    def wants(self):
        return self.held is None

    def give(self):
        self.held = self.coming.pop(0) if self.coming else 'end'
        if self.window is None and self.held != 'end':
            self.begin(self.held[0])

    def take_answers(self):
        taken, self.answers = self.answers, None
        return taken

    def done(self):
        return self.held == 'end' and self.window is None and self.answers is None

    # ---- what happens

    def begin(self, number):
        """Begin a window: what each lane will send in it is known from its tuples and the answers of the window before."""
        self.window, self.closed = number, False
        passing, self.rows = self.levels.window(number, list(self.windows[number]))
        self.emitted = 0
        for lane in self.lanes:
            piece, tuples = lane.piece, passing[(lane.q, lane.j)]
            sent, read = pipes.items(lane.query, piece.branch, piece.level, tuples, piece.cut, self.switch.chain, piece.sizes)
            lane.begin(sent, read)
            self.emitted += len(sent) + len(read)

    def is_begun(self):
        return self.window is not None and not self.closed

    def reads(self):
        return self.is_begun() and self.held is not None and (self.held == 'end' or self.held[0] > self.window)

    def enabled(self):
        numbers = range(len(self.lanes))
        found = []
        holds = self.is_begun() and self.held not in (None, 'end') and self.held[0] == self.window
        if holds and all(len(lane.frames) < ROOM for lane in self.lanes):
            found.append(('packet',))
        found += [('read', n) for n in numbers if self.reads() and not self.lanes[n].ended and len(self.lanes[n].frames) < ROOM]
        found += [('deliver', n) for n in numbers if self.lanes[n].frames]
        if self.is_begun() and all(lane.taken for lane in self.lanes) and self.answers is None:
            found.append(('close',))
        return found + [('install',)] * (self.window is not None and self.closed)

    def step(self, event):
        lane = self.lanes[event[1]] if len(event) > 1 else None
        if event[0] == 'packet':
            for one in self.lanes:
                one.frames += ['item'] * one.sent.get(self.held[1], 0)
            self.held = None
        elif event[0] == 'read':
            lane.frames.append('item' if lane.unread else 'end')
            lane.ended, lane.unread = not lane.unread, max(0, lane.unread - 1)
        elif event[0] == 'deliver':
            lane.taken = lane.frames.pop(0) == 'end'
        elif event[0] == 'close':
            parts = [(self.queries[q], entry.path[j], self.rows[(q, j)]) for q, entry in enumerate(self.entries) for j in range(len(entry.path))]
            self.answers, self.closed = (self.window, self.emitted, parts), True
        elif self.held == 'end':
            self.window = None
        else:
            self.begin(self.held[0])


def draws(state):
    while True:
        state = (state * 6364136223846793005 + 1442695040888963407) % (1 << 64)
        yield state >> 33


def traced(window_us, queries, switch, entries, file, schedule):
    """The text of `run` with a line for each event, drawn from a number, and how the capture ends."""
    windows, ending = split.windows_of(window_us, file)
    net, draw, text, total = Net(queries, switch, entries, windows), draws(schedule), [], 0
    while not net.done():
        answers = net.take_answers()
        if answers:
            text.append(split.block(*answers))
            total += answers[1]
        if net.wants():
            net.give()
        events = net.enabled()
        if events:
            event = events[next(draw) % len(events)]
            net.step(event)
            text.append('event %s\n' % ' '.join(map(str, event)))
    if ending:
        text.append('capture %s at byte %d\n' % (ending[0].lower(), ending[1]))
    text.append('total windows %d emitted %d\n' % (len(windows), total))
    return ''.join(text).encode(), ending
