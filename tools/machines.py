"""A machine that is run by the library's calls."""
import sys

from images import MAP
from library import number


class Machine:
    """What a caller holds: registers, memory and both maps."""

    def __init__(self, library, registers, memory, reads=bytes(MAP), writes=bytes(MAP)):
        self.library, self.held = library, (registers, memory, reads, writes)

    def called(self, kind, *numbers):
        """What a step or a run on it answers: its refusal and stop, and its number. It holds what the call left."""
        registers, *rest = self.held
        answer, *left = self.library.call(kind, registers, *map(number, numbers), *rest)
        given = [left[0], *left[1 + len(numbers):]]
        if any(region[len(held):] != b"\xa5" * 8 for region, held in zip(given, self.held)):
            sys.exit("machines: a call wrote behind a region")
        self.held = tuple(region[:-8] for region in given)
        return answer >> 32, answer % 2**32

    def run(self, edition, budget):
        return self.called(b"n", edition, budget)

    def step(self, edition):
        return self.called(b"t", edition)

    def wake(self):
        """What a wake answers."""
        answer, left = self.library.call(b"k", self.held[0])
        self.held = (left[:-8], *self.held[1:])
        return answer
