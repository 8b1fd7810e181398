"""Regions of a long trace: which extents their frames are taken in, and which translations they have after a phase, by arithmetic.

A region begins at a multiple of 512 pages and is a row of aligned extents, the largest ones first, of the sizes that the trace has. Frames never run
short, so each extent is reserved whole when its first page is touched. What a phase touches it touches in the order of the pages.
"""
from typing import Dict, List, NamedTuple, Optional, Sequence, Set, Tuple

# How many translations a TLB has room for.
ROOM = 128
# The pages of a region that is swept: more than a TLB has room for by far, also without the last page of each smallest superpage.
SWEPT = 512


class Tile(NamedTuple):
    """A translation: the page that it begins at, counted from the region's first, and its size."""
    at: int
    size: int

    @property
    def pages(self) -> int:
        return 8 ** self.size


class Sizes:
    """The page sizes of a trace, ascending."""

    def __init__(self, word: str):
        self.word = word
        self.all: Tuple[int, ...] = tuple(map(int, word))
        # The pages of the smallest superpage; 0 where there is none.
        self.least = 8 ** self.all[1] if len(self.all) > 1 else 0

    def pieces(self, at: int, pages: int) -> List[Tile]:
        """So many pages, from an aligned one on, as the fewest translations: the largest first."""
        found: List[Tile] = []
        for size in reversed(self.all):
            count, pages = divmod(pages, 8 ** size)
            found += [Tile(at + n * 8 ** size, size) for n in range(count)]
            at += count * 8 ** size
        return found

    def parts(self, tile: Tile, page: int) -> List[Tile]:
        """The translations that a translation falls into where one of its pages is no longer like the others, in order."""
        if tile.size == 0:
            return [tile]
        size = max(k for k in self.all if k < tile.size)
        parts = [Tile(at, size) for at in range(tile.at, tile.at + tile.pages, 8 ** size)]
        whole = (page - tile.at) // 8 ** size
        return parts[:whole] + self.parts(parts[whole], page) + parts[whole + 1:]

    def between(self, size: int) -> int:
        """How many translations there may be, of the sizes below this one, while one of this size is being made."""
        below = [k for k in self.all if k <= size]
        return sum(8 ** (large - small) - 1 for small, large in zip(below, below[1:]))

    def made(self, tile: Tile) -> int:
        """How often there is a superpage more while a translation is made, page after page: at the last page of each smallest superpage."""
        return tile.pages // self.least if tile.size else 0


class Region:
    """A region and what is resident of it."""

    def __init__(self, space: int, first: int, extents: Sequence[Tile], writes: bool, swept: bool):
        self.space, self.first, self.extents, self.swept = space, first, list(extents), swept
        self.length = sum(extent.pages for extent in extents)
        # Its pages are first touched by stores; and whether all that are resident are dirty.
        self.writes = self.dirty = writes
        self.rights = 'write'
        # How many of its first pages are resident; without the last one of each smallest superpage, where it has holes.
        self.touched = 0
        self.has_holes = False
        # The page that isn't like the others, with the translation that it was of, and whether it is by a store.
        self.odd: Optional[Tuple[int, Tile, bool]] = None
        self.tiles: List[Tile] = []
        # Of each processor the translations that are in its TLB for certain.
        self.known: Dict[int, Set[Tile]] = {}

    def known_to(self, processor: int) -> Set[Tile]:
        """The translations that the processor's TLB has for certain."""
        return self.known.setdefault(processor, set())

    def change(self, tiles: Sequence[Tile]) -> None:
        """These are its translations now. Those that aren't the same as before are in no TLB."""
        stayed = set(tiles)
        self.tiles = list(tiles)
        for known in self.known.values():
            known &= stayed

    def lose(self, tiles: Sequence[Tile]) -> None:
        """These translations are in no TLB."""
        for known in self.known.values():
            known.difference_update(tiles)

    def tile_of(self, page: int) -> Tile:
        """The translation of a resident page."""
        return next(tile for tile in self.tiles if tile.at <= page < tile.at + tile.pages)

    def tiles_of_front(self, sizes: Sizes, pages: int) -> List[Tile]:
        """Its translations where so many of its first pages are resident."""
        return [tile for extent in self.extents for tile in sizes.pieces(extent.at, min(extent.pages, max(0, pages - extent.at)))]

    def holes(self, sizes: Sizes) -> List[int]:
        """The last page of each smallest superpage."""
        return list(range(sizes.least - 1, self.length, sizes.least)) if sizes.least else []

    def resident(self, sizes: Sizes) -> List[int]:
        """The pages that are resident."""
        holes = set(self.holes(sizes) if self.has_holes else [])
        return [page for page in range(self.touched) if page not in holes]

    def reserved(self, sizes: Sizes) -> int:
        """The frames that are reserved and unpopulated."""
        begun = sum(extent.pages for extent in self.extents if extent.at < self.touched)
        return begun - len(self.resident(sizes))
