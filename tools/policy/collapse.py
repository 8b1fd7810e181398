"""Huge pages that are made in the background, as Linux's khugepaged makes them (mm/khugepaged.c)."""
from collections import Counter
from typing import Counter as Counts
from typing import Tuple

from policy.first_touch import HugePages
from policy.frames import EXTENT, start_of
from policy.machine import Machine
from policy.space import Space

Place = Tuple[int, int]


class Collapse(HugePages):
    """Pages get frames anywhere. Every so many accesses one extent of pages, of which at most so many are missing, is copied to an extent of frames, and
    mapped by a huge page."""

    def __init__(self, machine: Machine, every: int, most_missing: int):
        super().__init__(machine)
        self.every, self.least = every, EXTENT - most_missing
        # By space and first page, how many pages of an extent are resident.
        self.resident: Counts[Place] = Counter()
        # Which extent was looked at last, and how many accesses there were.
        self.last: Place = (-1, -1)
        self.accesses = 0

    def fill(self, space: Space, page: int) -> bool:
        filled = super().fill(space, page)
        self.resident[space.number, start_of(page)] += filled
        return filled

    def given(self, space: Space, page: int, frame: int) -> None:
        super().given(space, page, frame)
        self.resident[space.number, start_of(page)] -= 1

    def accessed(self, space: Space, page: int) -> None:
        self.accesses += 1
        if self.accesses % self.every == 0:
            self.collapse_next()

    def collapse_next(self) -> None:
        """Collapses the first extent behind the last one, round all spaces, that may be and for which frames are free."""
        if not self.machine.frames.has_extent():
            return
        behind = sorted(self.resident, key=lambda place: (place <= self.last, place))
        place = next((place for place in behind if self.may_collapse(place)), None)
        if place is not None:
            self.last = place
            self.collapse(self.machine.spaces[place[0]], place[1], self.machine.frames.take_extent())

    def may_collapse(self, place: Place) -> bool:
        """The extent isn't huge, may be, has enough resident pages, one at least, and none that is paged out."""
        space, first = self.machine.spaces[place[0]], place[1]
        if self.resident[place] < max(1, self.least) or first in space.superpages or not self.may_be_huge(space, first):
            return False
        return all(page in space.frames or page not in space.seen for page in range(first, first + EXTENT))

    def collapse(self, space: Space, first: int, frame: int) -> None:
        """Copies the resident pages to these frames, zeroes the others, and maps all by a huge page, which is as old as this."""
        for at, page in enumerate(range(first, first + EXTENT)):
            if page in space.frames:
                self.machine.move(space, page, frame + at)
            else:
                self.machine.put(space, page, frame + at)
                self.resident[space.number, first] += 1
        if any(page in space.dirty for page in range(first, first + EXTENT)):
            space.dirty.update(range(first, first + EXTENT))
        self.machine.make(space, first)
