"""How far a long work is, on standard error."""
from time import monotonic

from common import say

# How long a work is silent, and how long it is between two lines, in seconds.
SILENT = 2
BETWEEN = 2
# The clock is looked at once in so many steps.
STEPS = 512


class Progress:
    """Counts the steps of a work that has so many, and says how many are done where it takes long."""

    def __init__(self, what: str, steps: int) -> None:
        self.what, self.steps, self.done = what, steps, 0
        self.next = monotonic() + SILENT
        self.said = False

    def step(self) -> None:
        """One step more is done."""
        self.done += 1
        if self.done % STEPS == 0 and monotonic() >= self.next:
            self.say()
            self.next = monotonic() + BETWEEN

    def say(self) -> None:
        say('%s: %d of %d' % (self.what, self.done, self.steps))
        self.said = True

    def end(self) -> None:
        """The work is done, which is said where it took long."""
        if self.said:
            self.say()
