"""Makes regions of what the changes told, and guesses the others."""
from bisect import bisect_left, insort
from heapq import heappop, heappush
from typing import Callable, Dict, Iterable, List, Optional, Sequence, Set, Tuple, TypeVar

from lackey.lines import GUESSED, READ, Access, Change
from lackey.lives import START, Life, Lives, Since, lives_of

# The most regions of a space, and the fewest untouched pages that split two guessed ones.
REGIONS = 64
GAP = 64

Item = TypeVar('Item')
# Pages from the first to the last.
Pages = Tuple[int, int]
Piece = Tuple[Pages, Life]
# What pages have since when, by pages.
History = Dict[Pages, List[Since]]


class Region:
    """A region of the trace: its pages, the times from when to before when it is mapped (for ever where that is nothing), what its pages
    have since when, and when it grows to which last page, the time of its map among them."""

    def __init__(self, history: History, birth: int, death: Optional[int], grows: Sequence[Tuple[int, int]] = ()) -> None:
        self.history = {pages: sorted(history[pages]) for pages in sorted(history)}
        self.first = next(iter(self.history))[0]
        self.last = max(last for _, last in self.history)
        self.birth = birth
        self.death = death
        self.grows = grows
        guesses = [one.needed for since in history.values() for one in since if one.rights == GUESSED]
        self.guess = max([READ] + guesses)

    def rights(self, since: Since) -> int:
        """The rights that the trace gives: those that changes told or that are guessed, and at least those that are needed."""
        return max(self.guess if since.rights == GUESSED else since.rights, since.needed)

    def pages_at(self, time: int, first: int, last: int) -> Optional[Pages]:
        """The first and the last of its pages that are mapped at this time and lie between these two, where there are such."""
        if time < self.birth or self.death is not None and self.death <= time or last < self.first or self.last < first:
            return None
        inside = [pages for pages, since in self.history.items() if first <= pages[0] and pages[1] <= last and since[0].time <= time]
        return (inside[0][0], inside[-1][1]) if inside else None

    def overlaps(self, other: 'Region') -> bool:
        """Whether the two have a page in common at a time at which both are mapped."""
        return self.first <= other.last and other.first <= self.last and \
            (self.death is None or other.birth < self.death) and (other.death is None or self.birth < other.death)


def runs(items: Iterable[Item], goes_on: Callable[[Item, Item], bool]) -> List[List[Item]]:
    """The items, split where one doesn't go on the one before."""
    found: List[List[Item]] = []
    for item in items:
        if found and goes_on(found[-1][-1], item):
            found[-1].append(item)
        else:
            found.append([item])
    return found


def region_of(pieces: List[Piece], grows: Sequence[Tuple[int, int]] = ()) -> Region:
    """The region of these pieces, which are mapped and unmapped together or grow."""
    return Region({pages: life.since for pages, life in pieces}, pieces[0][1].birth, pieces[0][1].death, grows)


def together(before: Piece, piece: Piece) -> bool:
    """Whether a piece lies behind another, and was mapped and unmapped, locked and unlocked with it."""
    (_, last), one = before
    (first, _), other = piece
    return last + 1 == first and (one.birth, one.death, one.locks) == (other.birth, other.death, other.locks)


def grown(before: Piece, piece: Piece) -> bool:
    """Whether a piece of the heap lies behind another, was mapped with it or later, and locked with it."""
    return before[0][1] + 1 == piece[0][0] and before[1].birth <= piece[1].birth and before[1].locks == piece[1].locks


def told_regions(lives: Lives) -> List[Region]:
    """The regions that changes mapped and of which a page is accessed."""
    pieces = [((stretch.first, stretch.last), life) for stretch in lives.stretches if not stretch.guessed() for life in stretch.lives]
    heap = [piece for piece in pieces if piece[1].grows and piece[1].death is None]
    other = [piece for piece in pieces if not piece[1].grows or piece[1].death is not None]
    other.sort(key=lambda piece: (piece[1].birth, piece[1].death or -1, piece[0]))
    regions = [(group, region_of(group)) for group in runs(other, together)]
    regions += [(group, region_of(group, list({life.birth: last for (_, last), life in group}.items()))) for group in runs(heap, grown)]
    return [region for group, region in regions if any(life.touched for _, life in group)]


def guessed_history(lives: Lives) -> History:
    """What those pages have that no change mapped before they were accessed: stretches of changes, and else the pages alone."""
    guessed = [stretch for stretch in lives.stretches if stretch.guessed()]
    history: History = {(stretch.first, stretch.last): stretch.always() for stretch in guessed}
    others = {page: needed for page, needed in lives.alone.items() if lives.at(page) not in guessed}
    history.update({(page, page): [Since(START, GUESSED, needed)] for page, needed in others.items()})
    return history


def splits_of(pages: List[Pages], told: List[Region]) -> Set[Pages]:
    """Before which of these pages a new region begins: where a told one lies between, and at the widest gaps; of equally wide ones at those
    of lower pages."""
    firsts = sorted(region.first for region in told)
    parted = {after for before, after in zip(pages, pages[1:]) if bisect_left(firsts, before[1]) != bisect_left(firsts, after[0])}
    gaps = ((before[1] - after[0] + 1, after) for before, after in zip(pages, pages[1:]) if after not in parted)
    widest = sorted(gap for gap in gaps if -gap[0] >= GAP)[:REGIONS - 1]
    return parted.union(after for _, after in widest)


def guessed_regions(lives: Lives, told: List[Region]) -> List[Region]:
    """The regions of what is accessed and no change mapped."""
    history = guessed_history(lives)
    pages = sorted(history)
    splits = splits_of(pages, told)
    groups = runs(pages, lambda _, after: after not in splits)
    return [Region({pages: history[pages] for pages in group}, START, None) for group in groups]


def joined(one: Region, other: Region) -> Region:
    """A region that has all pages of two and is mapped as long as one of them."""
    both = {**one.history, **other.history}
    history = {pages: one.history.get(pages, []) + other.history.get(pages, []) for pages in both}
    death = None if one.death is None or other.death is None else max(one.death, other.death)
    return Region(history, min(one.birth, other.birth), death)


class Mapped:
    """The regions that are mapped at a time, in the order of their pages."""

    def __init__(self) -> None:
        self.order: List[Tuple[int, int, Region]] = []
        self.deaths: List[Tuple[int, Tuple[int, int, Region]]] = []

    def add(self, number: int, region: Region) -> Optional[Tuple[Region, Region]]:
        """Maps one more region, and unmaps those that are unmapped by then. Answers two that have to be joined: where two overlap or
        there are too many, the nearest."""
        while self.deaths and self.deaths[0][0] <= region.birth:
            self.order.remove(heappop(self.deaths)[1])
        entry = (region.first, number, region)
        insort(self.order, entry)
        if region.death is not None:
            heappush(self.deaths, (region.death, entry))
        at = self.order.index(entry)
        near = [other for _, _, other in self.order[max(0, at - 1):at + 2] if other is not region]
        overlap = next((other for other in near if other.overlaps(region)), None)
        if overlap is not None:
            return overlap, region
        return self.nearest() if len(self.order) > REGIONS else None

    def nearest(self) -> Tuple[Region, Region]:
        """The two that lie nearest; of equally near ones those of higher pages."""
        regions = [region for _, _, region in self.order]
        _, _, one, other = min((after.first - before.last, -number, before, after)
                               for number, (before, after) in enumerate(zip(regions, regions[1:])))
        return one, other


def clash(regions: List[Region]) -> Optional[Tuple[Region, Region]]:
    """Two regions that have to be joined, where there are such."""
    mapped = Mapped()
    pairs = (mapped.add(number, region) for number, region in enumerate(sorted(regions, key=lambda region: (region.birth, region.first))))
    return next((pair for pair in pairs if pair is not None), None)


def regions_of(accesses: List[Access], changes: List[Change]) -> List[Region]:
    """The regions of the trace: at each time at most 64, and none overlaps another."""
    lives = lives_of(accesses, changes)
    told = told_regions(lives)
    regions = guessed_regions(lives, told) + told
    pair = clash(regions)
    while pair is not None:
        regions = [region for region in regions if region not in pair] + [joined(*pair)]
        pair = clash(regions)
    return regions
