"""The frames' state: which are free, which reservations there are, which of their places are used, who claims and holds frames; which entries
this allows, and what each does (FrameStates.antt, Layouts.antt, Records.antt, FreeBlocks.antt, PreferredSize.antt, Ages.antt)."""
from copy import copy
from itertools import islice
from typing import Collection, Dict, FrozenSet, Iterator, List, NamedTuple, Optional, Set, Tuple

from .values import (Answer, Claim, Clear, DropHeld, Entry, Evict, Give, Got, Kept, Pin, Refused, Rest, Sizes, Take, Unclaim, UseHeld, Want,
                     extent_start, pages_of)

# The largest free block has 2^9 frames, which is an extent of size 3.
LARGEST_ORDER = 9


class Reservation(NamedTuple):
    """An extent of pages of one space with an extent of frames of the same size: its place i joins page first + i and frame frame + i. Its
    stamp is the number of entries on the frames before its latest page allocation. Its used places are told by their numbers i. (Records.antt)"""
    space: int
    first: int
    size: int
    frame: int
    stamp: int
    used: FrozenSet[int]

    @property
    def length(self) -> int:
        """How many places it has."""
        return pages_of(self.size)

    @property
    def frames(self) -> range:
        """The frames of its places, used or not."""
        return range(self.frame, self.frame + self.length)

    def covers(self, space: int, page: int) -> bool:
        """It has the page of the space. (Layouts.antt)"""
        return self.space == space and self.first <= page < self.first + self.length


class Used(NamedTuple):
    """Of a used place its age, whether its page's region is wired, and the processor that claims it, if one does."""
    age: int
    wired: bool
    claim: Optional[int] = None


class Frames:
    """The frames' state. At first all frames are free. (FrameStates.antt: start_frames)"""

    def __init__(self, count: int, sizes: Sizes):
        self.count, self.sizes = count, sizes
        self.free: Set[int] = set(range(count))
        # The reservation that begins at a page of a space.
        self.begins: Dict[Tuple[int, int], Reservation] = {}
        self.used: Dict[int, Used] = {}
        self.held: Dict[int, int] = {}
        self.entries = 0
        self.preemptions = 0

    @property
    def reservations(self) -> Collection[Reservation]:
        return self.begins.values()

    def put(self, r: Reservation) -> None:
        """The reservation is there, in place of the one that began at its first page."""
        self.begins[r.space, r.first] = r

    def covering(self, space: int, page: int) -> Optional[Reservation]:
        """The reservation that has the page, where one has it: it begins where an extent of its size round the page does. (Layouts.antt)"""
        there = (self.begins.get((space, extent_start(k, page))) for k in self.sizes)
        return next((r for r in there if r and r.covers(space, page)), None)

    def frame_of(self, space: int, page: int) -> Optional[int]:
        """The frame that is the used place of the page, where there is one. (FrameStates.antt)"""
        r = self.covering(space, page)
        return r.frame + page - r.first if r is not None and page - r.first in r.used else None

    def used_pages(self) -> Dict[Tuple[int, int], int]:
        """Of each space and page that has a used place its frame."""
        return {(r.space, r.first + i): r.frame + i for r in self.reservations for i in r.used}

    def used_in(self, space: int, first: int, length: int) -> List[Tuple[int, int]]:
        """The pages of a range of a space that have a used place, ascending, each with its frame."""
        return sorted((page, frame) for (s, page), frame in self.used_pages().items() if s == space and first <= page < first + length)

    def claimed_by(self, processor: int) -> List[int]:
        """The frames that the processor claims."""
        return [frame for frame, u in self.used.items() if u.claim == processor]

    def has_nothing(self, processor: int) -> bool:
        """The processor neither holds a frame nor claims one. (FrameStates.antt: HasNothing)"""
        return processor not in self.held and not self.claimed_by(processor)

    def reserved_count(self) -> int:
        """How many unused places there are. (FrameStates.antt)"""
        return sum(r.length for r in self.reservations) - len(self.used)

    def is_short(self, mark: int) -> bool:
        """Free frames and unused places are fewer than a low mark. (FrameStates.antt)"""
        return len(self.free) + self.reserved_count() < mark

    def refusal(self) -> Refused:
        """The numbers of a refusal: the wired places, the claimed ones and the held frames. (FrameStates.antt: IsRefused)"""
        wired = sum(u.wired for u in self.used.values())
        claimed = sum(u.claim is not None for u in self.used.values())
        return Refused(wired, claimed, len(self.held))


def copy_of(state: Frames) -> Frames:
    """The same state, to try on it what a taking would do."""
    twin = copy(state)
    twin.free, twin.begins = set(state.free), dict(state.begins)
    twin.used, twin.held = dict(state.used), dict(state.held)
    return twin


def maximal_blocks(free: Set[int]) -> Iterator[List[int]]:
    """For each order n from 0 to 9 the first frames, ascending, of the maximal free blocks: aligned runs of 2^n free frames in no larger such
    run. Two free runs of one order are one of the next, where they are aligned to it. (FreeBlocks.antt)"""
    runs = free
    for n in range(LARGEST_ORDER + 1):
        wide = 2 ** (n + 1)
        larger = {f for f in runs if f % wide == 0 and f + 2 ** n in runs} if n < LARGEST_ORDER else set()
        yield sorted(f for f in runs if f - f % wide not in larger)
        runs = larger


def choice(free: Set[int], size: int) -> Optional[int]:
    """The choice for size k, by its first frame: the lowest 8^k frames of the lowest-numbered maximal free block of the least order that is
    at least 3k. (FreeBlocks.antt)"""
    return next((blocks[0] for blocks in islice(maximal_blocks(free), 3 * size, None) if blocks), None)


def yield_in(sizes: Sizes, r: Reservation) -> Optional[int]:
    """The yield of a reservation is the largest of these sizes of which an extent inside it has no used place; a full one has none.
    (Records.antt)"""
    def has_empty(size: int) -> bool:
        return len({i // pages_of(size) for i in r.used}) < pages_of(r.size - size)

    return next((k for k in reversed(sizes) if k <= r.size and has_empty(k)), None)


def to_break(state: Frames, size: int) -> Optional[Reservation]:
    """The reservation that is broken for an extent of this size: the oldest of the first list by age that isn't empty, from the list of this
    size up. The list of a yield is in order of stamp and then of first frame. (Ages.antt, Layouts.antt)"""
    yields = ((yield_in(state.sizes, r), r) for r in state.reservations)
    listed = ((k, r.stamp, r.frame, r) for k, r in yields if k is not None and k >= size)
    return min(listed, default=(None, None, None, None))[-1]


def settle(state: Frames, r: Reservation) -> None:
    """The reservation is there, where it has a used place; and else its frames are free."""
    if r.used:
        state.put(r)
    else:
        state.begins.pop((r.space, r.first), None)
        state.free.update(r.frames)


def split(state: Frames, r: Reservation) -> List[Reservation]:
    """The reservation becomes its parts of the next smaller size, which keep its stamp; those without a used place are free. All parts, in
    order. (Layouts.antt: split_layout)"""
    size = max(k for k in state.sizes if k < r.size)
    n = pages_of(size)
    parts = [Reservation(r.space, r.first + a, size, r.frame + a, r.stamp, frozenset(i - a for i in r.used if a <= i < a + n))
             for a in range(0, r.length, n)]
    for part in parts:
        settle(state, part)
    return parts


def break_reservation(state: Frames, r: Reservation) -> None:
    """A reservation that is broken becomes its parts. While no part was empty, the lowest part with its yield is broken in the same way.
    (Layouts.antt: break_layout; Records.antt: goes_on_at)"""
    wide = yield_in(state.sizes, r)
    parts = split(state, r)
    while all(p.used for p in parts):
        parts = split(state, next(p for p in parts if yield_in(state.sizes, p) == wide))


def is_full(state: Frames) -> bool:
    """No frame is free and every reservation is full. (Layouts.antt)"""
    return not state.free and all(len(r.used) == r.length for r in state.reservations)


def fits(state: Frames, space: int, page: int, want: Want, size: int) -> bool:
    """The extent round the page lies where the region allows, has at most as many pages as the region, and meets no reservation of the
    space. (PreferredSize.antt)"""
    first, n = extent_start(size, page), pages_of(size)
    free_of_others = not any(r.space == space and r.first < first + n and first < r.first + r.length for r in state.reservations)
    return want.low <= first and first + n <= want.high and n <= want.cap and free_of_others


def preferred_size(state: Frames, space: int, page: int, want: Want) -> int:
    """The preferred size: the largest of the sizes that there are whose extent round the page fits. (PreferredSize.antt)"""
    return max((k for k in state.sizes if k and fits(state, space, page, want, k)), default=0)


def extent_for(state: Frames, size: int) -> Optional[int]:
    """The choice for the size; where there is none, the choice after the reservation to break for it is broken. (Layouts.antt: extent_of)"""
    first = choice(state.free, size)
    if first is None:
        old = to_break(state, size)
        if old is not None:
            break_reservation(state, old)
            state.preemptions += 1
            first = choice(state.free, size)
    return first


def place(state: Frames, space: int, page: int, want: Want) -> Tuple[Reservation, int]:
    """The reservation and the place for a page that has none, where the frames aren't full: its place in the reservation that has the page,
    or else in a new one, of the largest size, from the preferred one down, for which an extent can be had. (Layouts.antt: placing)"""
    r = state.covering(space, page)
    if r is None:
        best = preferred_size(state, space, page, want)
        tried = ((k, extent_for(state, k)) for k in reversed(state.sizes) if k <= best)
        size, frame = next((k, f) for k, f in tried if f is not None)
        r = Reservation(space, extent_start(size, page), size, frame, state.entries, frozenset())
        state.free.difference_update(r.frames)
    return r, page - r.first


def take(state: Frames, space: int, page: int, want: Want) -> Optional[int]:
    """Taking a frame for a page: its place is used, and the reservation is as young as this taking. None where no frame can be had.
    (FrameStates.antt: take_frame)"""
    if state.covering(space, page) is None and is_full(state):
        return None
    r, i = place(state, space, page, want)
    state.put(r._replace(used=r.used | {i}, stamp=state.entries))
    state.used[r.frame + i] = Used(state.entries, want.wired)
    return r.frame + i


def give(state: Frames, space: int, page: int) -> None:
    """Giving a frame up: an unclaimed frame becomes an unused place, and a reservation without a used place is free. A claimed frame is
    carved out of its reservation, and its claimer then holds it. (FrameStates.antt: give_page)"""
    r = state.covering(space, page)
    frame = r.frame + page - r.first
    claim = state.used[frame].claim
    if claim is not None:
        r = carved_down_to(state, r, frame)
    del state.used[frame]
    settle(state, r._replace(used=r.used - {page - r.first}))
    if claim is not None:
        state.free.remove(frame)
        state.held[claim] = frame


def carved_down_to(state: Frames, r: Reservation, frame: int) -> Reservation:
    """The reservation is split into its parts of the next smaller size, and the part with the frame again, down to the frame.
    (Layouts.antt: carve_layout)"""
    while r.size > 0:
        r = next(p for p in split(state, r) if frame in p.frames)
    return r


def drop(state: Frames, processor: int) -> None:
    """The frame that the processor holds is free. (FrameStates.antt: dropped)"""
    state.free.add(state.held.pop(processor))


def victim(state: Frames) -> Optional[Tuple[int, int, int]]:
    """The victim is the used place of least age that is neither wired nor claimed: its space, its page and its frame.
    (FrameStates.antt: IsVictim)"""
    evictable = [frame for frame, u in state.used.items() if not u.wired and u.claim is None]
    if not evictable:
        return None
    frame = min(evictable, key=lambda f: state.used[f].age)
    r = next(r for r in state.reservations if frame in r.frames)
    return r.space, r.first + frame - r.frame, frame


def may_claim(state: Frames, mark: int) -> bool:
    """A processor that makes calls claims where no frame can be had, and a daemon where frames are short by its mark.
    (FrameStates.antt: MayClaim)"""
    return state.is_short(mark) if mark else is_full(state)


def taken_as(state: Frames, e: Entry) -> Optional[str]:
    """A taking, or the use of a held frame, which is dropped first: the page has no used place, and the frame is the one that the rule
    takes. (FrameStates.antt: FramesAllow)"""
    w, c = e.what, e.processor
    held = isinstance(w, UseHeld)
    if state.frame_of(e.space, w.page) is not None:
        return 'the page has a used place'
    if (c not in state.held) if held else not state.has_nothing(c):
        return 'the processor holds no frame' if held else 'the processor claims or holds a frame'
    if held:
        drop(state, c)
    frame = take(state, e.space, w.page, w.want)
    return None if frame == w.frame else 'the frame that is taken is %s' % frame


def given_as(state: Frames, e: Entry) -> Optional[str]:
    """A giving, or the answer of an evict that names the frames: the page has this used place, and gives it up.
    (FrameStates.antt: FramesAllow, AllowsAnswer)"""
    w = e.what
    if isinstance(w, Answer):
        if not isinstance(w.call, Evict) or state.frame_of(e.space, w.call.page) is None:
            return 'an answer that names the frames is of an evict whose page has a frame'
        give(state, e.space, w.call.page)
        return None
    if state.frame_of(e.space, w.page) != w.frame:
        return "the frame isn't the page's"
    give(state, e.space, w.page)
    return None


def cleared_as(state: Frames, e: Entry) -> Optional[str]:
    """Each page of a range that has a frame gives it up, ascending by page. (FrameStates.antt: give_range)"""
    for page, _ in state.used_in(e.space, e.what.first, e.what.length):
        give(state, e.space, page)
    return None


def lowest_claimed(state: Frames, space: int, first: int, length: int) -> Optional[Tuple[int, int]]:
    """The lowest page of a range whose used place is claimed, with its frame. (FrameStates.antt)"""
    used = state.used_in(space, first, length)
    return next(((page, frame) for page, frame in used if state.used[frame].claim is not None), None)


def pinned_as(state: Frames, e: Entry) -> Optional[str]:
    """Each used place of a range gets the wired flag, and none is claimed where that says wired; or the lowest that is claimed is told, and
    nothing changes. (FrameStates.antt: FramesAllow, pin_range)"""
    w = e.what
    claimed = lowest_claimed(state, e.space, w.first, w.length)
    if isinstance(w, Kept):
        return None if claimed == (w.page, w.frame) else 'the lowest claimed page and its frame are %s' % (claimed,)
    if w.wired and claimed:
        return 'page %d is claimed' % claimed[0]
    for _, frame in state.used_in(e.space, w.first, w.length):
        state.used[frame] = state.used[frame]._replace(wired=w.wired)
    return None


def claimed_as(state: Frames, e: Entry, mark: int) -> Optional[str]:
    """A claim is of the victim, by a processor that has nothing and may claim. (FrameStates.antt: FramesAllow)"""
    w = e.what
    if not state.has_nothing(e.processor):
        return 'the processor claims or holds a frame'
    if victim(state) != (w.space, w.page, w.frame):
        return 'the victim is %s' % (victim(state),)
    if not may_claim(state, mark):
        return 'frames are not short'
    state.used[w.frame] = state.used[w.frame]._replace(claim=e.processor)
    return None


def unclaimed_as(state: Frames, e: Entry) -> Optional[str]:
    """A claim's end: the frame is under a page of the space, and the processor claims it. (FrameStates.antt: FramesAllow)"""
    frame = e.what.frame
    if state.claimed_by(e.processor) != [frame] or not any(r.space == e.space and frame in r.frames for r in state.reservations):
        return 'the processor claims no such frame of this space'
    state.used[frame] = state.used[frame]._replace(claim=None)
    return None


def found_as(state: Frames, e: Entry, mark: int) -> Optional[str]:
    """What a processor finds: the frame in its hand, that no frame can be had, or how its turn ends. (FrameStates.antt: FramesAllow)"""
    w, c = e.what, e.processor
    if isinstance(w, (Got, DropHeld)):
        if state.held.get(c) != w.frame:
            return "the processor doesn't hold the frame"
        if isinstance(w, DropHeld):
            drop(state, c)
        return None
    if not state.has_nothing(c):
        return 'the processor claims or holds a frame'
    if isinstance(w, Refused):
        if not is_full(state) or victim(state) is not None:
            return 'a frame can be had, or claimed'
        return None if w == state.refusal() else 'the numbers are those of %s' % (state.refusal(),)
    short = mark > 0 and state.is_short(mark) and victim(state) is not None
    return None if mark > 0 and w.short == short else 'a turn ends with short %d' % short


def frames_after(state: Frames, mark: int, e: Entry) -> Optional[str]:
    """What is wrong where the frames don't allow the entry of a processor with this mark; else None, and the state is the one after it.
    (FrameStates.antt: FramesAllow, frames_after)"""
    w = e.what
    if isinstance(w, (Take, UseHeld)):
        wrong = taken_as(state, e)
    elif isinstance(w, (Give, Answer)):
        wrong = given_as(state, e)
    elif isinstance(w, Clear):
        wrong = cleared_as(state, e)
    elif isinstance(w, (Pin, Kept)):
        wrong = pinned_as(state, e)
    elif isinstance(w, Claim):
        wrong = claimed_as(state, e, mark)
    elif isinstance(w, Unclaim):
        wrong = unclaimed_as(state, e)
    elif isinstance(w, (Got, DropHeld, Refused, Rest)):
        wrong = found_as(state, e, mark)
    else:
        wrong = 'the frames have no such entry'
    state.entries += 1
    return wrong
