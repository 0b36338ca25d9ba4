"""Switch texts."""

from dataclasses import dataclass

from .grammar import Reader

RANGES = {'stages': (1, 32), 'actions': (1, 64), 'bits': (1, 4294967296), 'meta': (0, 65535), 'chain': (1, 4), 'slots': (1, 65536),
          'entries': (1, 4194304), 'weight': (0, 65536)}
OPTIONAL = {'entries', 'weight'}


@dataclass
class Switch:
    stages: int
    actions: int
    bits: int
    meta: int
    chain: int
    slots: list
    entries: int = None
    weight: int = 0


class SwitchReader(Reader):
    def ranged(self, least, most):
        if self.now.kind != 'number':
            self.fault('Expected')
        if not least <= self.now.value <= most:
            self.fault('Range')
        return self.step().value

    def sizes(self, least, most):
        """One to four strictly rising sizes."""
        found = [self.ranged(least, most)]
        while self.is_symbol(','):
            self.step()
            found.append(self.ranged(found[-1] + 1, most if len(found) < 4 else found[-1]))
        return found

    def switch(self):
        found = {}
        while self.now.kind != 'end':
            if not (self.now.kind == 'name' and self.now.value in RANGES):
                self.fault('Expected')
            if self.now.value in found:
                self.fault('Twice')
            word = self.step().value
            found[word] = (self.sizes if word == 'slots' else self.ranged)(*RANGES[word])
            self.symbol(';')
        if not set(RANGES) - OPTIONAL <= set(found):
            self.fault('Missing')
        return Switch(**found)


def parse(text):
    """The switch of a text. Raises the text's first fault."""
    return SwitchReader(text).switch()
