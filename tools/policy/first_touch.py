"""Huge pages at the first touch, as Linux makes them with /sys/kernel/mm/transparent_hugepage/enabled at `always`."""
from typing import List

from policy.frames import EXTENT, start_of
from policy.machine import Policy
from policy.space import Space


class HugePages(Policy):
    """What all huge pages of Linux have in common: one dirty flag, and that a change of a part splits them."""

    def may_be_huge(self, space: Space, first: int) -> bool:
        """The extent lies in one region, and has the same access rights all over."""
        return space.lies_in_region(first, EXTENT) and space.has_one_right(first, EXTENT)

    def sharing(self, space: Space, page: int) -> List[int]:
        first, length = space.translation(page)
        return list(range(first, first + length))


class FirstTouch(HugePages):
    """The first touch in an extent of pages takes a whole extent of frames, zeroes it, and maps it by a huge page."""

    def fill(self, space: Space, page: int) -> bool:
        first = start_of(page)
        frame = self.machine.frames.take_extent() if self.is_first(space, first) and self.may_be_huge(space, first) else None
        if frame is None:
            return super().fill(space, page)
        for at in range(EXTENT):
            self.machine.put(space, first + at, frame + at)
        self.machine.make(space, first)
        return True

    def is_first(self, space: Space, first: int) -> bool:
        """No page of the extent had a frame since its region was mapped, so that there is no table of base pages for it."""
        return not any(page in space.seen for page in range(first, first + EXTENT))
