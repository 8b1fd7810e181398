"""What docs/model.md says of a space, followed entry by entry: its regions, rights, resident and dirty pages, and their tiles."""
from bisect import bisect_left, bisect_right
from typing import Dict, Iterator, List, NamedTuple, Optional, Sequence, Set, Tuple

from pictures.frames import LARGEST, begin_of, pages_of

BLOCK = pages_of(LARGEST)


class Region(NamedTuple):
    """A region: its first page, its length in pages, its kind, the rights that its pages had first, and whether a call pinned it."""
    first: int
    length: int
    kind: str
    rights: str
    pinned: bool = False

    @property
    def end(self) -> int:
        return self.first + self.length


class Kind(NamedTuple):
    """What the pages of a tile have in common: how far frames are from pages, the region's first page, the rights, and if they are dirty."""
    distance: int
    region: int
    rights: str
    dirty: bool


class Tile(NamedTuple):
    """A tile: its size, its first frame, and the rights and the dirty flag of its pages."""
    size: int
    frame: int
    rights: str
    dirty: bool


class Ranges:
    """A value for each page, as the runs of equal ones."""

    def __init__(self) -> None:
        self.begins, self.values = [0], [None]

    def at(self, page: int) -> Optional[str]:
        return self.values[bisect_right(self.begins, page) - 1]

    def cut(self, page: int) -> int:
        """Makes a run begin at the page, and answers its place in the list."""
        at = bisect_left(self.begins, page)
        if at == len(self.begins) or self.begins[at] != page:
            self.begins.insert(at, page)
            self.values.insert(at, self.values[at - 1])
        return at

    def fill(self, first: int, end: int, value: Optional[str]) -> None:
        """The pages from `first` to before `end` have the value."""
        at, behind = self.cut(first), self.cut(end)
        self.begins[at:behind], self.values[at:behind] = [first], [value]


class Moves(NamedTuple):
    """What an entry made of the tiles: what is at a first page now, a tile or none; and the first pages and sizes of what was promoted and demoted."""
    tiles: Dict[int, Optional[Tile]]
    promoted: List[Tuple[int, int]]
    demoted: List[Tuple[int, int]]


class Space:
    """A space after the entries that were told. `sizes` are the page sizes that there are, ascending."""

    def __init__(self, sizes: Sequence[int]) -> None:
        self.sizes = sizes
        # The sizes with their lengths in pages, the largest first.
        self.lengths = [(size, pages_of(size)) for size in reversed(sizes)]
        self.regions: List[Region] = []
        self.rights = Ranges()
        self.frames: Dict[int, int] = {}
        self.dirty: Set[int] = set()
        # By number of an extent of the largest size the kind of each of its pages, or None. Equal kinds are one object, so that comparing them is fast.
        self.kinds: Dict[int, List[Optional[Kind]]] = {}
        self.known: Dict[Kind, Kind] = {}
        # The tiles by first page, and the pages that changed since they were found.
        self.tiles: Dict[int, Tile] = {}
        self.touched: Set[int] = set()

    def region_of(self, page: int) -> Region:
        """The region that has the page; what was done has one."""
        return next(region for region in self.regions if region.first <= page < region.end)

    def map(self, region: Region) -> None:
        """The region is added."""
        self.regions.append(region)
        self.regions.sort()
        self.rights.fill(region.first, region.end, region.rights)

    def grow(self, page: int, by: int) -> None:
        """The region of the page is so many pages longer."""
        region = self.region_of(page)
        self.regions[self.regions.index(region)] = region._replace(length=region.length + by)
        self.rights.fill(region.end, region.end + by, region.rights)

    def unmap(self, page: int) -> None:
        """The region of the page goes; its pages gave their frames up before."""
        region = self.region_of(page)
        self.regions.remove(region)
        self.rights.fill(region.first, region.end, None)

    def pin(self, page: int, pinned: bool) -> None:
        """The region of the page is pinned, or isn't any more."""
        region = self.region_of(page)
        self.regions[self.regions.index(region)] = region._replace(pinned=pinned)

    def protect(self, first: int, length: int, rights: str) -> None:
        """The pages of the range have the rights."""
        self.rights.fill(first, first + length, rights)
        for page in self.resident(first, length):
            self.look(page)

    def resident(self, first: int, length: int) -> List[int]:
        """The resident pages of a range, ascending."""
        if length < len(self.frames):
            return [page for page in range(first, first + length) if page in self.frames]
        return sorted(page for page in self.frames if first <= page < first + length)

    def fill(self, page: int, frame: int) -> None:
        """The page gets a frame."""
        self.frames[page] = frame
        self.look(page)

    def remove(self, page: int) -> None:
        """The page has its frame no longer. It isn't dirty then: what was stored to it was written, or is given up."""
        del self.frames[page]
        self.dirty.discard(page)
        self.look(page)

    def set_dirty(self, page: int, dirty: bool) -> None:
        """The page is dirty, or equal to its copy."""
        (self.dirty.add if dirty else self.dirty.discard)(page)
        self.look(page)

    def look(self, page: int) -> None:
        """Notes what the page has in common with its neighbours now."""
        kind = None
        if page in self.frames:
            kind = Kind(self.frames[page] - page, self.region_of(page).first, self.rights.at(page), page in self.dirty)
            kind = self.known.setdefault(kind, kind)
        self.kinds.setdefault(page // BLOCK, [None] * BLOCK)[page % BLOCK] = kind
        self.touched.add(page)

    def new_tile(self, page: int) -> Optional[Tuple[int, Tile]]:
        """The largest eligible extent round the page as it is now, by first page, or None where the page isn't resident."""
        if page not in self.frames:
            return None
        kinds, place = self.kinds[page // BLOCK], page % BLOCK
        kind = kinds[place]
        for size, length in self.lengths:
            # The last page of an extent is looked at alone before the others are: an extent that is being filled mostly lacks it.
            last = place - place % length + length - 1
            if kinds[last] is kind and is_eligible(kinds, kind, last + 1 - length, length):
                break
        first = page - page % length
        return first, Tile(size, first + kind.distance, kind.rights, kind.dirty)

    def tile_of(self, page: int) -> Optional[Tuple[int, Tile]]:
        """The tile that has the page, by first page, as the tiles were found last."""
        for size, length in self.lengths:
            first = page - page % length
            tile = self.tiles.get(first)
            if tile is not None and tile.size >= size:
                return first, tile
        return None

    def moves(self) -> Moves:
        """Finds the tiles again where pages changed, and answers what became of them."""
        moves = Moves({}, [], [])
        reached = {extent for extent in (self.reach(page, moves) for page in self.touched) if extent is not None}
        # An extent comes before those that lie in it, in which nothing changes then.
        for first, size in sorted(reached, key=lambda extent: (extent[0], -extent[1])):
            self.move(first, first + pages_of(size), moves)
        self.touched.clear()
        return moves

    def reach(self, page: int, moves: Moves) -> Optional[Tuple[int, int]]:
        """How far a change of the page reaches: the larger of its tiles before and after it, as a first page and a size. Where that is the page alone
        it is settled at once."""
        old, new = self.tile_of(page), self.new_tile(page)
        size = max(old[1].size if old else 0, new[1].size if new else 0)
        if size > 0:
            return begin_of(size, page), size
        if old != new:
            moves.tiles[page] = new and new[1]
            self.tiles.pop(page, None)
            self.tiles.update([new] if new else [])
        return None

    def move(self, first: int, end: int, moves: Moves) -> None:
        """Finds the tiles of an extent again, and adds what became of them."""
        old = {page: self.tiles.pop(page) for page in range(first, end) if page in self.tiles}
        new = dict(self.tiles_in(first, end))
        self.tiles.update(new)
        moves.tiles.update({page: new.get(page) for page in old.keys() | new.keys() if old.get(page) != new.get(page)})
        moves.promoted.extend(outside(new, old))
        moves.demoted.extend(outside(old, new))

    def tiles_in(self, page: int, end: int) -> Iterator[Tuple[int, Tile]]:
        """The tiles of the pages of an extent round which no larger one is eligible, by first page."""
        while page < end:
            found = self.new_tile(page)
            if found is not None:
                yield found
            page += 1 if found is None else pages_of(found[1].size)


def is_eligible(kinds: List[Optional[Kind]], kind: Kind, at: int, length: int) -> bool:
    """Whether the pages of this extent of an extent of the largest size are all of the kind, and its frames are an extent too."""
    return kind.distance % length == 0 and kinds[at:at + length].count(kind) == length


def outside(some: Dict[int, Tile], others: Dict[int, Tile]) -> List[Tuple[int, int]]:
    """First page and size of the superpages among some tiles whose extents lie in none of the others."""
    superpages = ((first, tile.size) for first, tile in some.items() if tile.size > 0 and others.get(first) != tile)
    return [(first, size) for first, size in superpages if not lies_in(first, size, others)]


def lies_in(first: int, size: int, tiles: Dict[int, Tile]) -> bool:
    """Whether an extent lies in one of the tiles."""
    rounds = ((begin_of(larger, first), larger) for larger in range(size, LARGEST + 1))
    return any(begin in tiles and tiles[begin].size >= larger for begin, larger in rounds)
