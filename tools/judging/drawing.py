"""Drawn numbers, the trace that is made from a number (Schedules.antt; crates/trace_make/specs/Made.antt), and traces that are short of
frames."""
from typing import List, Optional, Tuple

from .trace_text import sizes_of
from .values import ALL_SIZES, Call, Daemon, Discard, Evict, Line, Load, Map, Protect, Store, Sync, Trace, Unwire, Wire

REGION = 4096
NEAR = 512
FRAMES = 512
# A page, by its space and its number there.
Place = Tuple[int, int]


class Generator:
    """Knuth's generator of MMIX: a state x goes to x * 6364136223846793005 + 1442695040888963407 modulo 2^64. (Schedules.antt)"""

    def __init__(self, state: int):
        self.state = state

    def word(self) -> int:
        """The next state."""
        self.state = (self.state * 6364136223846793005 + 1442695040888963407) % 2 ** 64
        return self.state

    def draw(self, n: int) -> int:
        """A number below n: the new state without its lowest 33 bits, modulo n."""
        return self.word() // 2 ** 33 % n


def made(number: int, calls: int, processors: int, spaces: int, frames: int) -> Trace:
    """The trace that is made from the number: a map of 4,096 pages of each space, and then calls that are drawn, most of them at the first 512
    pages. (Made.antt)"""
    g = Generator(number)
    lines = [Line(s % processors, Map(s, 0, REGION, 'fixed', 'write')) for s in range(spaces)]
    while len(lines) < calls:
        processor, space = g.draw(processors), g.draw(spaces)
        page = g.draw(NEAR if g.draw(8) else REGION)
        lines.append(Line(processor, drawn_call(g, space, page)))
    return Trace(1, frames, processors, spaces, ALL_SIZES, None, tuple(lines))


def drawn_call(g: Generator, space: int, page: int) -> Call:
    """In 64 draws 40 loads, 18 stores, two syncs, two evicts and two protects. (Made.antt)"""
    kind = g.draw(64)
    if kind < 58:
        address = page * 8192 + 8 * g.draw(1024)
        return Load(space, address) if kind < 40 else Store(space, address, g.word())
    if kind < 62:
        return Sync(space, page) if kind < 60 else Evict(space, page)
    rights = 'read' if kind == 62 and g.draw(2) == 0 else 'write'
    return Protect(space, page - page % 8, 8, rights)


def short(seed: int, beyond: int, sizes: Optional[str] = None, pins: bool = False) -> Trace:
    """A trace whose wired pages and processors, a daemon among them, are as many as its frames, or `beyond` more. A processor maps and loads
    its share of the wired pages, and has a few that aren't wired; then all make calls at those, and few frames are left for them. It names its
    page sizes where a word of them is given. Where it pins a share is wired by a call, and later calls unwire it, wire it again and discard
    pages."""
    g = Generator(seed)
    processors, spaces = 1 + g.draw(4), 1 + g.draw(3)
    daemon = Daemon(1 + g.draw(64), 100 + g.draw(1400)) if g.draw(2) else None
    wired = FRAMES - processors - (daemon is not None) + beyond
    ends = [0] * spaces
    rows: List[List[Line]] = []
    shares: List[Place] = []
    others: List[Place] = []
    for c in range(processors):
        share, kept = mapped(g, c, ends, wired // processors + (c < wired % processors), 'growing' if pins else 'wired')
        loads = [Line(c, Load(*at_word(g, place))) for place in kept]
        few, pages = mapped(g, c, ends, 4 + g.draw(37), 'growing' if g.draw(2) else 'fixed')
        rows.append([few, share, *([Line(c, Wire(*kept[0]))] if pins else []), *loads])
        shares += kept
        others += pages
    filling = [line for n in range(max(map(len, rows))) for row in rows for line in row[n:n + 1]]
    behind = [Line(g.draw(processors), later_call(g, shares if pins else [], others)) for _ in range(60 + 40 * processors)]
    version = 3 if pins else 1 if sizes is None else 2
    there = ALL_SIZES if sizes is None else sizes_of(sizes)
    return Trace(version, FRAMES, processors, spaces, there, daemon, tuple(filling + behind))


def mapped(g: Generator, processor: int, ends: List[int], length: int, kind: str) -> Tuple[Line, List[Place]]:
    """The map of a region behind the others of a space, and its pages. `ends` has where the last region of each space ends."""
    space = g.draw(len(ends))
    first = ends[space] + g.draw(200)
    ends[space] = first + length
    return Line(processor, Map(space, first, length, kind, 'write')), [(space, first + n) for n in range(length)]


def at_word(g: Generator, place: Place) -> Tuple[int, int]:
    """The space and the address of a word of a page."""
    return place[0], place[1] * 8192 + 8 * g.draw(1024)


def later_call(g: Generator, shares: List[Place], others: List[Place]) -> Call:
    """A call at one of the other pages, or, where there are shares that calls wire, as each fourth a call that pins or discards."""
    if not shares or g.draw(4):
        return call_at(g, others[g.draw(len(others))])
    kind, place = g.draw(8), shares[g.draw(len(shares))]
    if kind < 6:
        return Wire(*place) if kind < 4 else Unwire(*place)
    return Discard(*(place if kind == 6 else others[g.draw(len(others))]), 1 + g.draw(8))


def call_at(g: Generator, place: Place) -> Call:
    """In 32 draws 16 loads, 10 stores, two syncs, three evicts and a protect."""
    kind = g.draw(32)
    if kind < 16:
        return Load(*at_word(g, place))
    if kind < 26:
        return Store(*at_word(g, place), g.word())
    if kind < 31:
        return Sync(*place) if kind < 28 else Evict(*place)
    return Protect(*place, 1, 'write' if g.draw(4) else 'read')
