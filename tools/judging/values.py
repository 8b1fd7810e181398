"""What everything here is of: calls, replies, entries, traces and settings, as plain values.

A reply is a tuple of its word and its numbers, as ('done',), ('value', 7) or ('noframes', 3, 1, 0).
"""
from dataclasses import dataclass
from typing import List, NamedTuple, Optional, Sequence, Tuple, Union

PAGE_BYTES = 8192
SPACE_PAGES = 1048576
MOST_REGIONS = 64
IMAGE_ROOM = 128
MOST_CALLS = 262144
MOST_BYTES = 16777216
LAST_COUNT = 2 ** 64 - 1
# The largest number of a page, a frame or a space that an entry can tell, and the largest level.
LAST_NUMBER = 2 ** 32 - 1
MOST_LEVEL = 3
# Which page sizes there are: levels, ascending, and 0 is always one.
Sizes = Tuple[int, ...]
ALL_SIZES: Sizes = (0, 1, 2, 3)

Reply = Tuple
DONE: Reply = ('done',)
CLEAN: Reply = ('clean',)
WRITTEN: Reply = ('written',)
UNMAPPED: Reply = ('unmapped',)
DENIED: Reply = ('denied',)
NO_MEMORY: Reply = ('nomemory',)
# The replies for want of a frame, of a store or of memory, or because a frame is claimed, which change nothing.
WANTS = ('noframes', 'storefault', 'nomemory', 'busy')

value = dataclass(frozen=True)


def pages_of(size: int) -> int:
    """A page of size k is 8^k base pages. (Extents.antt)"""
    return 8 ** size


def extent_start(size: int, number: int) -> int:
    """The first number of the extent of size k round a number: 8^k numbers that begin at a multiple of 8^k. (Extents.antt)"""
    return number - number % pages_of(size)


@value
class Map:
    space: int
    page: int
    length: int
    kind: str
    rights: str


@value
class Grow:
    space: int
    page: int
    by: int


@value
class Unmap:
    space: int
    page: int


@value
class Protect:
    space: int
    page: int
    length: int
    rights: str


@value
class Load:
    space: int
    address: int


@value
class Store:
    space: int
    address: int
    word: int


@value
class Sync:
    space: int
    page: int


@value
class Evict:
    space: int
    page: int


@value
class Discard:
    space: int
    page: int
    length: int


@value
class Wire:
    space: int
    page: int


@value
class Unwire:
    space: int
    page: int


Call = Union[Map, Grow, Unmap, Protect, Load, Store, Sync, Evict, Discard, Wire, Unwire]


def page_of(address: int) -> int:
    """The page of an address: the address divided by 8192. (Flat.antt)"""
    return address // PAGE_BYTES


def word_of(address: int) -> int:
    """The number of the address's word in its page. (Flat.antt)"""
    return address % PAGE_BYTES // 8


def is_access(call: Call) -> bool:
    """The call loads or stores. (Order.antt)"""
    return isinstance(call, (Load, Store))


def page_of_call(call: Call) -> int:
    """The page of a call: that of its address, or the one that it names."""
    return page_of(call.address) if is_access(call) else call.page


def has_size(call: Call, reply: Reply) -> bool:
    """An answer has a hit and a size where a load found its word, and where a store was done. (SpaceStates.antt: served_page)"""
    return (isinstance(call, Load) and reply[0] == 'value') or (isinstance(call, Store) and reply == DONE)


@value
class Want:
    """Where a reservation for a page may lie, how many pages it may have, and whether the page's region is wired."""
    low: int
    high: int
    cap: int
    wired: bool


@value
class Need:
    """The page that a frame is claimed for, by a load or by a store."""
    page: int
    writing: bool


class Tile(NamedTuple):
    """An extent of pages that one translation maps."""
    size: int
    first: int
    frame: int
    rights: str
    dirty: bool


@value
class Answer:
    number: int
    call: Call
    reply: Reply
    hit: bool
    size: Optional[int]


@value
class Out:
    page: int
    written: bool


@value
class Failed:
    page: int
    writing: bool
    count: int


@value
class Take:
    page: int
    frame: int
    want: Want


@value
class Give:
    page: int
    frame: int


@value
class Clear:
    first: int
    length: int


@value
class Pin:
    first: int
    length: int
    wired: bool


@value
class Kept:
    first: int
    length: int
    page: int
    frame: int


@value
class Claim:
    space: int
    page: int
    frame: int
    need: Optional[Need]


@value
class UseHeld:
    page: int
    frame: int
    want: Want


@value
class DropHeld:
    frame: int


@value
class Got:
    frame: int


@value
class Unclaim:
    frame: int


@value
class Refused:
    wired: int
    claimed: int
    held: int


@value
class Rest:
    short: bool


What = Union[Answer, Out, Failed, Take, Give, Clear, Pin, Kept, Claim, UseHeld, DropHeld, Got, Unclaim, Refused, Rest]


@value
class Entry:
    """One atomic step of a processor: the space that it names, whether it names the frames, and what it is."""
    processor: int
    space: Optional[int]
    frames: bool
    what: What


@value
class Line:
    processor: int
    call: Call


@value
class Daemon:
    """A paging daemon: its low mark, and how many turns it makes."""
    low: int
    turns: int


@value
class Trace:
    version: int
    frames: int
    processors: int
    spaces: int
    sizes: Sizes
    daemon: Optional[Daemon]
    lines: Tuple[Line, ...]

    def calls_of(self, processor: int) -> List[Call]:
        """The processor's calls, in order. (Showing.antt)"""
        return [line.call for line in self.lines if line.processor == processor]


@value
class Setting:
    """What a history is legal for: how many frames and which page sizes there are; of each processor 0 where it makes calls, and a daemon's
    low mark; of each space whether its store tells its copies, and the store's count of faults at entry. (Settings.antt)"""
    frames: int
    sizes: Sizes
    marks: Tuple[int, ...]
    told: Tuple[bool, ...]
    faults: Tuple[int, ...]


def setting_of(trace: Trace, told: Optional[Sequence[bool]] = None, faults: Optional[Sequence[int]] = None) -> Setting:
    """The setting of a trace, with its page sizes, over stores that tell their copies and never failed where nothing else is said. A daemon
    is one processor more. (Showing.antt: daemon_marks)"""
    marks = (0,) * trace.processors + ((trace.daemon.low,) if trace.daemon else ())
    told = (True,) * trace.spaces if told is None else tuple(told)
    faults = (0,) * trace.spaces if faults is None else tuple(faults)
    return Setting(trace.frames, trace.sizes, marks, told, faults)
