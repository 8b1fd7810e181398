"""Which frames are free. Frames are numbered from 0, and an extent is 512 of them from a multiple of 512 on."""
from typing import List, Optional, Set

EXTENT = 512


def start_of(number: int) -> int:
    """The first page, or frame, of the extent round one."""
    return number - number % EXTENT


class Frames:
    """The free frames, by extents."""

    def __init__(self, count: int):
        self.count = count
        self.extents: List[Set[int]] = [set(range(first, first + EXTENT)) for first in range(0, count, EXTENT)]

    def has_extent(self) -> bool:
        """Whether an extent is all free."""
        return any(len(extent) == EXTENT for extent in self.extents)

    def take_one(self) -> Optional[int]:
        """A free frame: the lowest of the extent that has the fewest free ones, so that whole extents stay whole."""
        some = [extent for extent in self.extents if extent]
        if not some:
            return None
        extent = min(some, key=len)
        frame = min(extent)
        extent.discard(frame)
        return frame

    def take_extent(self) -> Optional[int]:
        """The first frame of the lowest extent that is all free, which is taken."""
        for number, extent in enumerate(self.extents):
            if len(extent) == EXTENT:
                extent.clear()
                return number * EXTENT
        return None

    def give(self, frame: int) -> None:
        """A frame is free again."""
        self.extents[frame // EXTENT].add(frame)
