"""The images of docs/model.md, followed entry by entry: which translations of a space each processor has, and why one left."""
from collections import OrderedDict
from typing import Dict, List, NamedTuple, Optional, Tuple

from pictures.frames import pages_of
from pictures.spaces import Space, Tile
from pictures.words import SIZE_NAMES, run_of

# How many translations of a space a processor has at most.
ROOM = 128

# A processor and the space of its image.
Owner = Tuple[int, int]
Image = 'OrderedDict[int, Tile]'


class Left(NamedTuple):
    """A translation that left an image: whose image, its first page and size, the entry, whether it was put out for want of room, and why."""
    owner: Owner
    first: int
    size: int
    entry: int
    put_out: bool
    why: str


class Images:
    """The images of all processors and spaces, each its tiles by first page, the last used at the end."""

    def __init__(self, spaces: List[Space]) -> None:
        self.spaces = spaces
        self.images: Dict[Owner, Image] = {}
        # Of each image what left it last of each extent.
        self.gone: Dict[Owner, Dict[Tuple[int, int], Left]] = {}

    def image(self, owner: Owner) -> Image:
        return self.images.setdefault(owner, OrderedDict())

    def has(self, owner: Owner, page: int) -> bool:
        """Whether the translation of the page, as it was found last, is in the image."""
        found = self.spaces[owner[1]].tile_of(page)
        return found is not None and found[0] in self.image(owner)

    def leave(self, left: Left) -> Left:
        """Notes that a translation left an image."""
        self.gone.setdefault(left.owner, {})[left.first, left.size] = left
        return left

    def forget(self, entry: int, space: int, tiles: Dict[int, Optional[Tile]]) -> List[Left]:
        """What is no tile any more leaves all images: at these first pages is another tile, or none."""
        out = []
        for owner, image in self.images.items():
            shot = [first for first in tiles if first in image] if owner[1] == space else []
            out += [self.leave(Left(owner, first, image[first].size, entry, False, why_gone(self.spaces[space], first, image.pop(first))))
                    for first in shot]
        return out

    def use(self, entry: int, owner: Owner, page: int) -> List[Left]:
        """The tile of the page comes to the front, and where there is no room the one that was used longest ago is put out."""
        first, tile = self.spaces[owner[1]].tile_of(page)
        image = self.image(owner)
        image[first] = tile
        image.move_to_end(first)
        if len(image) <= ROOM:
            return []
        oldest, was = image.popitem(last=False)
        why = 'it was put out, as the one that was used longest ago, for that of page %d' % page
        return [self.leave(Left(owner, oldest, was.size, entry, True, why))]

    def why_missed(self, owner: Owner, page: int) -> str:
        """Why the image has no translation of the page."""
        gone = self.gone.get(owner, {})
        there = [gone[key] for key in ((page - page % length, size) for size, length in self.spaces[owner[1]].lengths) if key in gone]
        if not there:
            return 'Processor %d had no translation of page %d before.' % (owner[0], page)
        last = max(there, key=lambda left: left.entry)
        return 'The TLB had a translation of it, that of %s, up to entry %d: %s.' % (run_of('page', last.first, pages_of(last.size)), last.entry, last.why)


def why_gone(space: Space, first: int, was: Tile) -> str:
    """Why a tile is none any more."""
    if first not in space.frames:
        return 'page %d gave its frame up' % first
    now = space.tile_of(first)[1]
    if now.size > was.size:
        return 'its pages became a part of a translation of %s' % SIZE_NAMES[now.size]
    if now.size < was.size:
        return 'its pages lost their common translation'
    if now.rights != was.rights:
        return 'it got other rights'
    return 'it became dirty' if now.dirty else 'it was written to its copy'
