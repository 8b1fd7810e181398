"""The best that could be had without untouched pages: superpages by what the whole trace will come to."""
from typing import Set, Tuple

from judging.values import Trace
from policy.machine import Counts, Machine, Policy
from policy.space import Space

# The superpages that there are, in pages, and how they are told: the space, the call that mapped the region, the first page, and how many pages.
LENGTHS = (8, 64, 512)
Extent = Tuple[int, int, int, int]


class Noting(Policy):
    """Base pages alone. Which extents are whole and uniform at some time is noted."""

    def __init__(self, machine: Machine):
        super().__init__(machine)
        self.found: Set[Extent] = set()

    def fill(self, space: Space, page: int) -> bool:
        filled = super().fill(space, page)
        if filled:
            self.note(space, page)
        return filled

    def changed(self, space: Space, page: int) -> None:
        super().changed(space, page)
        self.note(space, page)

    def note(self, space: Space, page: int) -> None:
        """Notes the extents round the page that are whole and uniform now. Round one that isn't, no larger one is."""
        for length in LENGTHS:
            extent = extent_of(space, page, length)
            if extent not in self.found:
                if not space.is_uniform(extent[2], length):
                    return
                self.found.add(extent)


class Best(Policy):
    """Each extent that was noted is mapped by a superpage from its first touch until its region is unmapped, whatever lies in which frames."""

    def __init__(self, machine: Machine, found: Set[Extent]):
        super().__init__(machine)
        self.found = found

    def fill(self, space: Space, page: int) -> bool:
        filled = super().fill(space, page)
        if filled and page not in space.superpages:
            extents = (extent_of(space, page, length) for length in reversed(LENGTHS))
            extent = next((extent for extent in extents if extent in self.found), None)
            if extent is not None:
                self.machine.make(space, *extent[2:])
        return filled

    def changed(self, space: Space, page: int) -> None:
        """No superpage is broken, nor leaves a TLB."""
        if page not in space.superpages:
            super().changed(space, page)

    def leaving(self, space: Space, page: int) -> None:
        """No superpage is broken."""

    def unmapping(self, space: Space, first: int, end: int) -> None:
        for page in range(first, end):
            self.machine.split(space, page)


def extent_of(space: Space, page: int, length: int) -> Extent:
    """The extent of so many pages round this one, in its region."""
    return space.number, space.mapped_by[space.flat.region_at(page).first], page - page % length, length


def best(trace: Trace) -> Counts:
    """The counts of a trace by the best superpages."""
    noting = Machine(trace, Noting)
    noting.run()
    return Machine(trace, Best, noting.policy.found).run()
