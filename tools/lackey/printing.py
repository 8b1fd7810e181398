"""Lays the pages out in a space and prints the trace."""
from typing import Dict, Iterator, List, NamedTuple, Optional, Set, Tuple

from common import SIZE_SETS, Stopped

from lackey.lines import DISCARD, LOCK, PAGE, UNLOCK, Access, Change
from lackey.regions import Pages, Region, runs

# The pages of the space, and of the largest superpage.
SPACE = 1048576
LARGEST = 512
# How many loads and stores a processor makes before the next one does.
STRETCH = 100

RIGHTS = ('none', 'read', 'write')
# The order of calls that one change becomes.
UNMAPS, MAPS, GROWS, PROTECTS, PINS = range(5)
# A call: the time and the order in it, the first page, and the words behind the processor.
Call = Tuple[int, int, int, str]


def shortened(distance: int) -> int:
    """The distance of two pages in the space: no two that weren't side by side come to be so."""
    return distance if distance == 1 else (distance - 2) % LARGEST + 2


def lay_out(pages: List[int]) -> Dict[int, int]:
    """The page of the space for each page of the program; those are ascending."""
    places = {pages[0]: pages[0] % LARGEST}
    for before, page in zip(pages, pages[1:]):
        places[page] = places[before] + shortened(page - before)
    if places[pages[-1]] >= SPACE:
        raise Stopped('the %d touched pages have no room in a space of %d' % (len(pages), SPACE))
    return places


class Calls:
    """The calls of a region, its pages laid out at these places."""

    def __init__(self, region: Region, places: Dict[int, int]) -> None:
        self.region = region
        self.places = places
        self.pieces = list(region.history)

    def __iter__(self) -> Iterator[Call]:
        region, place = self.region, self.places[self.region.first]
        last = region.grows[0][1] if region.grows else region.last
        kind = 'growing' if region.grows else 'fixed'
        rights = self.rights_of_map()
        yield region.birth, MAPS, region.first, 'map 0 %d %d %s %s' % (place, self.places[last] - place + 1, kind, RIGHTS[rights])
        if region.death is not None:
            yield region.death, UNMAPS, region.first, 'unmap 0 %d' % place
        for (_, before), (time, after) in zip(region.grows, region.grows[1:]):
            yield time, GROWS, region.first, 'grow 0 %d %d' % (place, self.places[after] - self.places[before])
        yield from self.protects(rights)

    def at_first(self, pages: Pages) -> int:
        """The rights of these pages when the region is mapped."""
        since = self.region.history[pages]
        known = [one for one in since if one.time <= self.region.birth]
        return self.region.rights(known[-1] if known else since[0])

    def rights_of_map(self) -> int:
        """The rights that most pages have when the region is mapped; of equally many the most rights."""
        counts = [0] * len(RIGHTS)
        for first, last in self.pieces:
            counts[self.at_first((first, last))] += last - first + 1
        return max(range(len(RIGHTS)), key=lambda rights: (counts[rights], rights))

    def turns(self, pages: Pages, rights: int) -> List[Tuple[int, int]]:
        """When these pages get which other rights, where the region was mapped with these."""
        now = self.at_first(pages)
        later = [one for one in self.region.history[pages] if one.time > self.region.birth]
        after = [self.region.rights(one) for one in later]
        steps = [(self.region.birth, rights, now)] + [(one.time, old, new) for one, old, new in zip(later, [now] + after, after)]
        return [(time, new) for time, old, new in steps if old != new]

    def protects(self, rights: int) -> Iterator[Call]:
        """The changes of rights: one for pieces that lie behind each other and get the same."""
        turns = sorted((time, number, new) for number, pages in enumerate(self.pieces) for time, new in self.turns(pages, rights))
        for run in runs(turns, lambda before, turn: (before[0], before[1] + 1, before[2]) == turn):
            time, number, new = run[0]
            first, last = self.pieces[number][0], self.pieces[run[-1][1]][1]
            length = self.places[last] - self.places[first] + 1
            yield time, PROTECTS, first, 'protect 0 %d %d %s' % (self.places[first], length, RIGHTS[new])


class Head(NamedTuple):
    """What the first line tells: the frames, the processors, and the page sizes, where they are named."""
    frames: int
    processors: int
    sizes: Optional[str]

    def line(self, pins: bool) -> str:
        """The first line: of version 3 where calls discard or wire, of version 2 where it names its page sizes, and else of version 1."""
        if pins or self.sizes is not None:
            return 'trace %d %d %d 1 %s' % (3 if pins else 2, self.frames, self.processors, self.sizes or SIZE_SETS[-1])
        return 'trace 1 %d %d 1' % (self.frames, self.processors)


def pins_of(regions: List[Region], changes: List[Change], places: Dict[int, int]) -> Iterator[Call]:
    """The discards, wires and unwires. A region is wired while one of its pages is locked, since they are locked together where a call mapped it.
    Where it was guessed a discard in it is left out then, since it would be denied."""
    locked: Set[int] = set()
    for time, change in enumerate(changes):
        for number, region in enumerate(regions) if change.kind in (DISCARD, LOCK, UNLOCK) else ():
            pages = region.pages_at(time, change.first // PAGE, (change.end - 1) // PAGE)
            if pages is None:
                continue
            first, last = (places[page] for page in pages)
            if change.kind == DISCARD and number not in locked:
                yield time, PINS, pages[0], 'discard 0 %d %d' % (first, last - first + 1)
            elif change.kind != DISCARD and (number in locked) != (change.kind == LOCK):
                locked ^= {number}
                yield time, PINS, pages[0], '%s 0 %d' % ('wire' if change.kind == LOCK else 'unwire', first)


def trace_of(accesses: List[Access], changes: List[Change], regions: List[Region], head: Head) -> List[str]:
    """The lines of the trace: each call of a region before the access that its change came before."""
    edges = {page for region in regions for pages in region.history for page in pages}
    places = lay_out(sorted(edges.union(page for _, page, _ in accesses)))
    pins = list(pins_of(regions, changes, places))
    calls = sorted(pins + [call for region in regions for call in Calls(region, places)])
    waiting = [(0 if time < 0 else changes[time].at, words) for time, _, _, words in reversed(calls)]
    lines = [head.line(bool(pins))]
    for number, (stores, page, offset) in enumerate(accesses):
        processor = number // STRETCH % head.processors
        lines += due(waiting, number, processor)
        address = places[page] * PAGE + offset
        if stores:
            lines.append('%d store 0 %d %d' % (processor, address, len(lines) + 1))
        else:
            lines.append('%d load 0 %d' % (processor, address))
    return lines + due(waiting, len(accesses), 0) + ['end']


def due(waiting: List[Tuple[int, str]], number: int, processor: int) -> List[str]:
    """The calls that come before the access of this number, taken from the end of those that wait."""
    lines = []
    while waiting and waiting[-1][0] <= number:
        lines.append('%d %s' % (processor, waiting.pop()[1]))
    return lines
