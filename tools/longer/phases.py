"""The phases of a long trace, and what each adds to the counts.

A processor's TLB for a space has the 128 translations that it used last. So where the translations that it touched since some time, and that are there
still, were never more than 128, all of them are in it; and where as many others were touched since, one isn't. A phase is drawn only where one of the
two is certain of each of its accesses. A sweep goes over more translations than there is room for, in order, so that each is gone when its turn comes
again.
"""
from typing import Callable, Dict, Iterator, List, NamedTuple, Optional, Sequence, Tuple

from judging.drawing import Generator

from .regions import ROOM, SWEPT, Region, Sizes, Tile

PAGE = 8192
WORDS = 1024
# The pages of a space are dealt out to its regions in pieces of so many; the last one stays free.
PIECE = 4096
PIECES = 255
# How many regions there are in a space at most, how many extents of a size in one, and how many translations a region has at most when it is full.
REGIONS = 4
EXTENTS = 12
TILES = 24
# How many accesses of drawn pages are drawn at a time, how often they are made at most, and of how many of the pages of a sweep.
HITS = 2048
REPEATS = 100
WINDOW = 100
# How often a phase is drawn that can't be made, before the calls that are left are made without one.
TRIES = 60

Made = Optional[List[bytes]]


class Words(NamedTuple):
    """What a long trace is drawn by."""
    seed: int
    frames: int
    calls: int
    sizes: str
    processors: int
    spaces: int


class Counts:
    """What is counted of the calls so far."""

    def __init__(self) -> None:
        self.promotions = self.demotions = self.hits = self.misses = 0


class Phases:
    """A long trace, as it is drawn."""

    def __init__(self, words: Words):
        self.words, self.sizes = words, Sizes(words.sizes)
        self.g = Generator(words.seed)
        self.left = words.calls
        self.regions: List[Region] = []
        self.counts = Counts()
        # By processor and space, the swept region of which it used the last pages last.
        self.window: Dict[Tuple[int, int], Region] = {}

    # The text.

    def pieces(self) -> Iterator[bytes]:
        """The text of the trace, in pieces of many lines."""
        words = self.words
        yield b'trace 3 %d %d %d %s\n' % (words.frames, words.processors, words.spaces, words.sizes.encode())
        while self.left:
            yield from self.phase() or self.rest()
        yield b'end\n'

    def phase(self) -> Made:
        """The lines of the next phase, where one that can be made is drawn."""
        for _ in range(TRIES):
            kind = self.KINDS[self.g.draw(len(self.KINDS))]
            lines = kind(self, self.g.draw(self.words.processors))
            if lines is not None:
                return lines
        return None

    def rest(self) -> List[bytes]:
        """What is called where no phase has room: loads of a page that no region has, which change nothing."""
        count = min(self.left, HITS)
        self.left -= count
        return [b'0 load 0 %d\n' % (PIECES * PIECE * PAGE) * count]

    def has_calls(self, count: int) -> bool:
        """Takes so many of the calls that are left, where there are so many."""
        if count > self.left:
            return False
        self.left -= count
        return True

    # What a TLB has room for.

    def room(self, c: int, space: int) -> int:
        """How many translations more may be touched while all that are known to be in the processor's TLB stay there."""
        return ROOM - sum(len(region.known_to(c)) for region in self.regions if region.space == space)

    def flush(self, c: int, space: int) -> None:
        """So many translations were touched that no other is in the processor's TLB."""
        for region in self.regions:
            if region.space == space:
                region.known_to(c).clear()
        self.window.pop((c, space), None)

    def peak(self, tile: Tile, fresh: int) -> int:
        """How many translations there may be at most while so many pages of a translation are touched anew."""
        return min(fresh, 1 + self.sizes.between(tile.size))

    def fits(self, c: int, region: Region, touched: Sequence[Tuple[Tile, int]]) -> bool:
        """Whether it is certain what the TLB has while these translations are made, each by touching so many pages anew: each either leaves room for
        all that is known, or leaves nothing else there."""
        room = self.room(c, region.space)
        for tile, fresh in touched:
            peak = self.peak(tile, fresh)
            if peak > ROOM:
                room = ROOM
            elif peak > room:
                return False
            room -= 1
        return True

    def touch(self, c: int, region: Region, touched: Sequence[Tuple[Tile, int]]) -> None:
        """These translations were made."""
        self.window.pop((c, region.space), None)
        for tile, fresh in touched:
            if self.peak(tile, fresh) > ROOM:
                self.flush(c, region.space)
            region.known_to(c).add(tile)

    # Frames.

    def has_frames(self, region: Region) -> bool:
        """Whether each extent of a new region finds a free extent of its size, whatever is free: where there is no other region and it has no more
        pages than there are frames, or where there are more blocks of 512 frames than extents, so that one is free when an extent is wanted."""
        if not self.regions:
            return region.length <= self.words.frames
        return sum(len(r.extents) for r in self.regions) + len(region.extents) < self.words.frames // 512

    def drawn(self, wanted: Callable[[Region], bool]) -> Optional[Region]:
        """One of the regions that are wanted, where there is one."""
        found = [region for region in self.regions if wanted(region)]
        return found[self.g.draw(len(found))] if found else None

    # The kinds of phases. Each answers its lines, or nothing where it can't be made.

    def map(self, c: int) -> Made:
        """A region is mapped."""
        space = self.g.draw(self.words.spaces)
        here = [region for region in self.regions if region.space == space]
        swept = self.g.draw(4) == 0
        region = self.new_region(space, swept)
        taken = {r.first // PIECE for r in here}
        piece = self.g.draw(PIECES)
        if region is None or len(here) == REGIONS or piece in taken or not self.has_frames(region) or not self.has_calls(1):
            return None
        region.first = piece * PIECE
        self.regions.append(region)
        kind = b'wired' if self.g.draw(4) == 0 else b'fixed'
        return [b'%d map %d %d %d %s write\n' % (c, space, region.first, region.length, kind)]

    def new_region(self, space: int, swept: bool) -> Optional[Region]:
        """A region, of which the place isn't drawn yet."""
        writes = self.g.draw(2) == 1
        if swept:
            return Region(space, 0, self.sizes.pieces(0, SWEPT), writes, True)
        extents: List[Tile] = []
        above: Optional[int] = None
        at = 0
        for size in reversed(self.sizes.all):
            most = EXTENTS if above is None else min(EXTENTS, 8 ** (above - size) - 1)
            count = min(self.g.draw(most + 1), TILES - len(extents))
            extents += [Tile(at + n * 8 ** size, size) for n in range(count)]
            at, above = at + count * 8 ** size, size
        return Region(space, 0, extents, writes, False) if extents and at <= min(PIECE, self.words.frames) else None

    def unmap(self, c: int) -> Made:
        """A region is unmapped, with all its superpages."""
        region = self.drawn(lambda r: True)
        if region is None or self.g.draw(3) or not self.has_calls(1):
            return None
        self.counts.demotions += sum(tile.size > 0 for tile in region.tiles)
        self.regions.remove(region)
        self.window = {key: r for key, r in self.window.items() if r is not region}
        return [b'%d unmap %d %d\n' % (c, region.space, region.first)]

    def fill(self, c: int) -> Made:
        """The next pages of a region are touched, in order."""
        region = self.drawn(lambda r: not r.swept and r.odd is None and r.touched < r.length and (r.rights == 'write' or not r.writes)
                            and r.dirty == r.writes)
        if region is None:
            return None
        last = region.length if self.g.draw(2) else region.touched + 1 + self.g.draw(region.length - region.touched)
        pages = range(region.touched, last)
        tiles = region.tiles_of_front(self.sizes, last)
        touched = [(tile, min(tile.pages, tile.at + tile.pages - region.touched)) for tile in tiles if tile.at + tile.pages > region.touched]
        if not self.fits(c, region, touched) or not self.has_calls(len(pages)):
            return None
        self.counts.misses += len(pages)
        self.counts.promotions += sum(map(self.sizes.made, tiles)) - sum(map(self.sizes.made, region.tiles))
        region.touched = last
        region.change(tiles)
        self.touch(c, region, touched)
        return self.accesses(c, region, pages, region.writes)

    def accesses(self, c: int, region: Region, pages: Sequence[int], writes: bool) -> List[bytes]:
        """An access of each of these pages, at a drawn word."""
        word = self.g.draw(WORDS)
        start, kind = region.first * PAGE + 8 * word, b'%d store %d %%d 7\n' if writes else b'%d load %d %%d\n'
        line = kind % (c, region.space)
        return [b''.join([line % (start + page * PAGE) for page in pages])]

    def hits(self, c: int) -> Made:
        """Drawn pages of a region are touched again and again, each translation that isn't known to be in the TLB once before."""
        region = self.drawn(lambda r: not r.swept and r.touched > 0)
        if region is None:
            return None
        known = region.known_to(c)
        first = [tile.at for tile in region.tiles if tile not in known]
        count, repeats = self.lengths()
        if len(first) > self.room(c, region.space) or not self.has_calls(len(first) + count * repeats):
            return None
        self.counts.misses += len(first)
        self.counts.hits += count * repeats
        self.window.pop((c, region.space), None)
        known.update(region.tiles)
        block = self.drawn_accesses(c, region, region.resident(self.sizes), count)
        return self.accesses(c, region, first, False) + [block] * repeats

    def lengths(self) -> Tuple[int, int]:
        """How many accesses of drawn pages are drawn, and how often they are made: the more, the more calls there are."""
        count = 1 + self.g.draw(min(HITS, 1 + self.words.calls // 20))
        return count, 1 + self.g.draw(max(1, min(REPEATS, self.words.calls // 20 // count)))

    def drawn_accesses(self, c: int, region: Region, pages: Sequence[int], count: int) -> bytes:
        """So many accesses of drawn pages, of which some are stores where all are dirty and may be stored to."""
        draw, start, number = self.g.draw, region.first * PAGE, len(pages)
        load, store = b'%d load %d %%d\n' % (c, region.space), b'%d store %d %%d 9\n' % (c, region.space)
        kinds = (load, load, store, load) if region.dirty and region.odd is None and region.rights == 'write' else (load, load, load, load)
        return b''.join([kinds[n & 3] % (start + pages[draw(number)] * PAGE + 8 * draw(WORDS)) for n in range(count)])

    def store_one(self, c: int) -> Made:
        """A page of a region whose pages are clean is stored to, which demotes its superpage."""
        region = self.drawn(lambda r: not r.swept and r.touched > 0 and r.odd is None and not r.dirty and r.rights == 'write')
        if region is None or self.room(c, region.space) < 1 or not self.has_calls(1):
            return None
        page = self.g.draw(region.touched)
        tile = region.tile_of(page)
        hit = tile in region.known_to(c)
        self.counts.hits += hit
        self.counts.misses += not hit
        self.make_odd(region, page, tile, True)
        self.touch(c, region, [(Tile(page, 0), 1)])
        return self.accesses(c, region, [page], True)

    def make_odd(self, region: Region, page: int, tile: Tile, stored: bool) -> None:
        """A page isn't like the others any more, which demotes its superpage."""
        self.counts.demotions += tile.size > 0
        at = region.tiles.index(tile)
        region.change(region.tiles[:at] + self.sizes.parts(tile, page) + region.tiles[at + 1:])
        region.lose([Tile(page, 0)])
        region.odd = page, tile, stored

    def protect_one(self, c: int) -> Made:
        """A page of a region may only be read from now on, which demotes its superpage. Perhaps a store of it is refused."""
        region = self.drawn(lambda r: not r.swept and r.touched > 0 and r.odd is None and r.rights == 'write')
        refused = self.g.draw(3)
        if region is None or not self.has_calls(1 + refused):
            return None
        page = self.g.draw(region.touched)
        self.make_odd(region, page, region.tile_of(page), False)
        return [b'%d protect %d %d 1 read\n' % (c, region.space, region.first + page), *self.accesses(c, region, [page] * refused, True)]

    def mend(self, c: int) -> Made:
        """The page that isn't like the others is so again: it is written out, or may be written again. That makes its superpage anew."""
        region = self.drawn(lambda r: r.odd is not None)
        if region is None or not self.has_calls(1):
            return None
        page, tile, stored = region.odd
        self.counts.promotions += tile.size > 0
        before = [t for t in region.tiles if t.at < tile.at]
        region.change(before + [tile] + [t for t in region.tiles if t.at >= tile.at + tile.pages])
        region.lose([tile])
        region.odd = None
        words = (c, region.space, region.first + page)
        return [(b'%d sync %d %d\n' if stored else b'%d protect %d %d 1 write\n') % words]

    def protect_all(self, c: int) -> Made:
        """All pages of a region get other rights. Each superpage stays one, but in no TLB."""
        region = self.drawn(lambda r: not r.swept and r.odd is None)
        if region is None or not self.has_calls(1):
            return None
        region.rights = 'read' if region.rights == 'write' else 'write'
        region.lose(region.tiles)
        return [b'%d protect %d %d %d %s\n' % (c, region.space, region.first, region.length, region.rights.encode())]

    def store_all(self, c: int) -> Made:
        """All resident pages of a region whose pages are clean are stored to, in order. The first store to each smallest superpage demotes, and the
        last one makes a superpage anew."""
        region = self.drawn(lambda r: not r.swept and r.touched > 0 and r.odd is None and not r.dirty and r.rights == 'write')
        if region is None:
            return None
        touched = [(tile, tile.pages) for tile in region.tiles]
        known = set(region.known_to(c))
        if not self.fits(c, region, touched) or not self.has_calls(region.touched):
            return None
        moves = sum(map(self.sizes.made, region.tiles))
        hits = sum(tile in known for tile in self.found(region, touched))
        self.counts.promotions += moves
        self.counts.demotions += moves
        self.counts.hits += hits
        self.counts.misses += region.touched - hits
        region.dirty = True
        region.lose(region.tiles)
        self.touch(c, region, touched)
        return self.accesses(c, region, range(region.touched), True)

    def found(self, region: Region, touched: Sequence[Tuple[Tile, int]]) -> List[Tile]:
        """Of translations that are made anew one after another those at which the TLB has still what it had: the first, and each up to one that leaves
        nothing else there."""
        last = next((n for n, (tile, fresh) in enumerate(touched) if self.peak(tile, fresh) > ROOM), len(touched))
        return [tile for tile, _ in touched[:last + 1]]

    def sweep(self, c: int) -> Made:
        """More pages than a TLB has room for are touched in order, each some times: a miss each, and hits. The first sweep of a region makes its pages
        resident, but for the last of each smallest superpage."""
        region = self.drawn(lambda r: r.swept and (r.has_holes or r.touched == 0 or not self.sizes.least))
        times = 1 + self.g.draw(3)
        if region is None:
            return None
        holes = set(region.holes(self.sizes))
        pages = [page for page in range(region.length) if page not in holes]
        if not self.has_calls(len(pages) * times):
            return None
        self.counts.misses += len(pages)
        self.counts.hits += len(pages) * (times - 1)
        if region.touched == 0:
            region.touched, region.has_holes = region.length, bool(holes)
            region.change([Tile(page, 0) for page in pages])
        self.flush(c, region.space)
        self.window[c, region.space] = region
        return self.accesses(c, region, [page for page in pages for _ in range(times)], region.writes)

    def window_hits(self, c: int) -> Made:
        """The last pages of a sweep are touched again and again, right after it."""
        spaces = [space for processor, space in self.window if processor == c]
        if not spaces:
            return None
        region = self.window[c, spaces[self.g.draw(len(spaces))]]
        count, repeats = self.lengths()
        if not self.has_calls(count * repeats):
            return None
        self.counts.hits += count * repeats
        return [self.drawn_accesses(c, region, region.resident(self.sizes)[-WINDOW:], count)] * repeats

    def fill_holes(self, c: int) -> Made:
        """The pages that a sweep left out are touched, which makes superpages of all."""
        region = self.drawn(lambda r: r.has_holes)
        if region is None:
            return None
        holes = region.holes(self.sizes)
        touched = [(tile, tile.pages // self.sizes.least) for tile in region.extents]
        if not self.fits(c, region, touched) or not self.has_calls(len(holes)):
            return None
        self.counts.misses += len(holes)
        self.counts.promotions += len(holes)
        self.window = {key: r for key, r in self.window.items() if r is not region}
        region.has_holes = region.swept = False
        region.change(region.extents)
        self.touch(c, region, touched)
        return self.accesses(c, region, holes, region.writes)

    # Each as often as it is to be drawn; of many drawn ones nothing comes.
    KINDS = (map, map, map, unmap, fill, fill, fill, fill, hits, hits, hits, store_one, store_one, protect_one, mend, mend, protect_all, store_all,
             store_all, sweep, window_hits, window_hits, fill_holes)

    # The counts.

    def text_of_counts(self) -> str:
        """The counts, as the program prints them at the end."""
        counts, regions = self.counts, self.regions
        sizes = [tile.size for region in regions for tile in region.tiles]
        used = sum(len(region.resident(self.sizes)) for region in regions)
        reserved = sum(region.reserved(self.sizes) for region in regions)
        return ('tiles %d %d %d %d\npromotions %d\ndemotions %d\npreemptions 0\nimages %d %d\nframes %d %d %d\nend\n'
                % (*map(sizes.count, range(4)), counts.promotions, counts.demotions, counts.hits, counts.misses,
                   self.words.frames - used - reserved, reserved, used))
