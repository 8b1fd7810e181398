"""Tiles, what changes of them count as promotions and demotions, and the images of processors (Tiles.antt, Images.antt)."""
from typing import Dict, List, Optional, Set, Tuple

from .flat import Flat
from .values import IMAGE_ROOM, Sizes, Tile, extent_start, pages_of

Base = Dict[int, int]


def tile_if_eligible(flat: Flat, base: Base, size: int, first: int) -> Optional[Tile]:
    """The extent as a tile where it is eligible: all its pages are resident in one region, with one right and one dirty flag, and their
    frames, in the same order, are an extent of the same size. An extent of one page is eligible where the page is resident. (Tiles.antt)"""
    n = pages_of(size)
    frame = base.get(first)
    if frame is None or frame % n:
        return None
    region = flat.region_at(first)
    if region is None or region.end < first + n:
        return None
    own, usual, dirty = flat.own_rights, region.rights, first in flat.dirty
    rights = own.get(first, usual)
    same = all(base.get(p) == frame + p - first and own.get(p, usual) == rights and (p in flat.dirty) == dirty for p in range(first, first + n))
    return Tile(size, first, frame, rights, dirty) if same else None


def tile_of(flat: Flat, base: Base, sizes: Sizes, page: int) -> Optional[Tile]:
    """The tile of a page by these sizes is the largest eligible extent of one of them round it; a page has one exactly where it is resident.
    (Tiles.antt: tile_in)"""
    tiles = (tile_if_eligible(flat, base, k, extent_start(k, page)) for k in reversed(sizes))
    return next((tile for tile in tiles if tile), None)


def tiles_in(flat: Flat, base: Base, sizes: Sizes, first: int, length: int) -> List[Tile]:
    """The tiles of the pages of an extent round which no larger one is eligible, page after page."""
    found: List[Tile] = []
    page = first
    while page < first + length:
        tile = tile_of(flat, base, sizes, page)
        found += [tile] if tile else []
        page += pages_of(tile.size) if tile else 1
    return found


def lies_in(tile: Tile, others: List[Tile]) -> bool:
    """The tile's extent lies in the extent of one of the others."""
    end = tile.first + pages_of(tile.size)
    return any(o.first <= tile.first and end <= o.first + pages_of(o.size) for o in others)


def promotions(before: List[Tile], after: List[Tile]) -> int:
    """How many extents of size 1 or more are tiles after a change and lay in no tile before it. With the two the other way round these are
    the demotions. (Tiles.antt)"""
    return sum(not lies_in(tile, before) for tile in after if tile.size > 0 and tile not in before)


class Tiles:
    """The tiles of a space by these sizes, the image of each processor, and the counts of promotions and demotions."""

    def __init__(self, sizes: Sizes):
        self.sizes = sizes
        # The tile that begins at a page.
        self.begins: Dict[int, Tile] = {}
        self.images: Dict[int, List[Tile]] = {}
        self.promotions = 0
        self.demotions = 0

    def all(self) -> List[Tile]:
        """All tiles."""
        return list(self.begins.values())

    def tile_at(self, page: int) -> Optional[Tile]:
        """The tile that has the page, as the tiles are kept."""
        tiles = (self.begins.get(extent_start(k, page)) for k in self.sizes)
        return next((tile for tile in tiles if tile and page < tile.first + pages_of(tile.size)), None)

    def is_hit(self, processor: int, page: int) -> bool:
        """The tile of the page stands in the processor's image. (Images.antt)"""
        return self.tile_at(page) in self.images.get(processor, [])

    def touch(self, processor: int, page: int) -> None:
        """The tile of the page comes to the front of the processor's image, which has at most 128. (Images.antt)"""
        tile = self.tile_at(page)
        if tile is not None:
            image = [tile] + [t for t in self.images.get(processor, []) if t != tile]
            self.images[processor] = image[:IMAGE_ROOM]

    def settle(self, flat: Flat, base: Base, touched: Set[int]) -> None:
        """After a change of these pages: the tiles of the extents that it reaches are found anew, what is no tile any more leaves all images,
        and promotions and demotions are counted. (Tiles.antt, Images.antt)"""
        reached = {self.reach(flat, base, page) for page in touched}
        for first, n in sorted(reached, key=lambda extent: -extent[1]):
            before = [self.begins.pop(page) for page in range(first, first + n) if page in self.begins]
            after = tiles_in(flat, base, self.sizes, first, n)
            self.begins.update((tile.first, tile) for tile in after)
            self.promotions += promotions(before, after)
            self.demotions += promotions(after, before)
            self.forget(set(before) - set(after))

    def reach(self, flat: Flat, base: Base, page: int) -> Tuple[int, int]:
        """How far a change of a page reaches, as a first page and a length: the larger of the page's tiles before and after it. A larger extent
        round the page was eligible neither before nor after, and an extent without it is as eligible as it was."""
        tiles = (self.tile_at(page), tile_of(flat, base, self.sizes, page))
        size = max((tile.size for tile in tiles if tile), default=0)
        return extent_start(size, page), pages_of(size)

    def forget(self, gone: Set[Tile]) -> None:
        """What is no tile any more leaves all images. (Images.antt)"""
        for processor, image in self.images.items() if gone else ():
            self.images[processor] = [t for t in image if t not in gone]
