"""A slow machine: calls in progress, stepped by the table of docs/steps.md (crates/flight_core/specs/Rows.antt, Steps.antt), over stores in
memory that may fail. The words of resident pages are in their frames, so that what a load finds there can differ from what the flat memory
says; and each entry that a step makes is judged by the definitions as it is made.
"""
from typing import Collection, Dict, List, NamedTuple, Optional, Tuple

from . import flat as flats
from . import frames as fr
from .drawing import Generator
from .flat import Words
from .legal import Pager
from .showing import rows_of
from .spaces import Space, hit_and_size
from .values import (DONE, NO_MEMORY, WRITTEN, Answer, Call, Claim, Clear, Discard, DropHeld, Entry, Evict, Failed, Give, Got, Kept, Need, Out, Pin,
                     Refused, Reply, Rest, Store, Sync, Take, Trace, Unclaim, Unmap, Unwire, UseHeld, What, Wire, is_access, page_of_call, setting_of,
                     word_of)


class Failing(NamedTuple):
    """Which reads and writes of a store fail, and which writes find no memory where the page isn't kept yet, numbered from 1."""
    reads: Collection[int] = ()
    writes: Collection[int] = ()
    memory: Collection[int] = ()


class MemoryStore:
    """The copies of a space's pages, with a count of faults. (Stored.antt; crates/store_core/specs/MemoryState.antt)"""

    def __init__(self, failing: Failing = Failing()):
        self.failing = failing
        self.copies: Dict[int, Optional[Words]] = {}
        self.reads = self.writes = self.faults = 0

    def read(self, page: int) -> Optional[Words]:
        """The page's copy; None where the read fails."""
        self.reads += 1
        if self.reads in self.failing.reads:
            self.faults += 1
            return None
        return dict(self.copies.get(page) or {})

    def write(self, page: int, words: Words) -> str:
        """The page is written to its copy: 'done'; 'failed', which leaves the copy unknown; or 'nomemory', which changes nothing."""
        self.writes += 1
        if self.writes in self.failing.memory and page not in self.copies:
            return 'nomemory'
        if self.writes in self.failing.writes:
            self.copies[page] = None
            self.faults += 1
            return 'failed'
        self.copies[page] = dict(words)
        return 'done'

    def drop(self, first: int, length: int) -> None:
        """The copies of a range are zero."""
        self.copies = {p: words for p, words in self.copies.items() if not first <= p < first + length}


class SlotStore(MemoryStore):
    """Copies in so many slots of a device, which may fail. A page whose copy is unknown has no slot, nor has one without a copy. (Slots.antt;
    crates/swap_slots/specs/SlotState.antt)"""

    def __init__(self, slots: int, failing: Failing = Failing()):
        super().__init__(failing)
        self.slots = slots

    def read(self, page: int) -> Optional[Words]:
        return super().read(page) if self.copies.get(page) is not None else {}

    def write(self, page: int, words: Words) -> str:
        """The page is written to its slot, or to a free one. Where there is neither, its copy is unknown, and the device isn't asked."""
        placed = [p for p, copy in self.copies.items() if copy is not None]
        if page not in placed and len(placed) == self.slots:
            self.copies[page] = None
            self.faults += 1
            return 'failed'
        return super().write(page, words)


def store_of(slots: Optional[int], failing: Failing = Failing()) -> MemoryStore:
    """A new store of a space, in so many slots where a number is given."""
    return MemoryStore(failing) if slots is None else SlotStore(slots, failing)


class Flight:
    """A call in progress, or a daemon's turn, with what it found so far."""

    def __init__(self, processor: int, number: int, call: Optional[Call], mark: int):
        self.processor, self.number, self.call, self.mark = processor, number, call, mark
        self.phase = 'Start' if call else 'Look'
        self.keeps: Optional[int] = None
        self.victim: Tuple[int, int, int] = (0, 0, 0)
        self.fault: Tuple[int, int] = (0, 0)
        self.refused: Optional[Refused] = None
        self.cleared: Optional[Clear] = None
        self.claimed: Tuple[int, int] = (0, 0)
        self.copied: Optional[Reply] = None
        self.frame = 0
        self.evictions = 0
        self.after_unclaim = ''

    @property
    def space(self) -> Optional[int]:
        """The call's own space; a turn has none."""
        return self.call.space if self.call else None

    def under(self) -> Optional[int]:
        """The space that the next step is made under."""
        return self.victim[0] if self.phase in ('Out', 'Write', 'Hand', 'Unclaim') else self.space


class Machine:
    """The spaces, the frames, the stores and the flights of a trace."""

    def __init__(self, trace: Trace, stores: List[MemoryStore]):
        self.trace, self.stores = trace, stores
        self.pager = Pager(setting_of(trace, faults=[store.faults for store in stores]))
        # Of each space the words of its resident pages.
        self.content: List[Dict[int, Words]] = [{} for _ in range(trace.spaces)]
        self.calls = [trace.calls_of(c) for c in range(trace.processors)]
        self.made = [0] * len(self.pager.setting.marks)
        self.flights = [self.next_flight(c) for c in range(len(self.made))]

    def next_flight(self, c: int) -> Optional[Flight]:
        """The processor's next call, or the daemon's next turn, where one is left."""
        n, mark = self.made[c], self.pager.setting.marks[c]
        if mark:
            return Flight(c, n, None, mark) if n < self.trace.daemon.turns else None
        return Flight(c, n, self.calls[c][n], 0) if n < len(self.calls[c]) else None

    def begin(self, c: int, call: Call) -> None:
        """The processor's next call is one that stands in no list of its calls."""
        self.flights[c] = Flight(c, self.made[c], call, 0)

    def left(self) -> List[int]:
        """The processors that have a call left, ascending."""
        return [c for c, flight in enumerate(self.flights) if flight]

    def waits(self, c: int) -> bool:
        """Another processor's call keeps the space that the processor's next step needs."""
        space = self.flights[c].under()
        return space is not None and any(f and f.processor != c and f.keeps == space for f in self.flights)

    def turn(self, c: int) -> bool:
        """A turn of a processor is its next steps up to one that makes an entry. It makes none, and answers so,
        where it waits or has ended, or is no processor."""
        flight, before = self.flights[c] if c < len(self.flights) else None, len(self.pager.history)
        if flight is None or self.waits(c):
            return False
        while len(self.pager.history) == before:
            getattr(self, 'step_' + flight.phase.lower())(flight)
        if flight.phase == 'Ended':
            self.made[c] += 1
            self.flights[c] = self.next_flight(c)
        return True

    def add(self, flight: Flight, space: Optional[int], frames: bool, what: What) -> None:
        """The step makes this entry."""
        self.pager.add(Entry(flight.processor, space, frames, what))

    def answer(self, flight: Flight, reply: Reply, frames: bool = False) -> None:
        """The call is answered, and keeps no lock."""
        hit, size = hit_and_size(self.pager.spaces[flight.space], flight.processor, flight.call, reply)
        self.add(flight, flight.space, frames, Answer(flight.number, flight.call, reply, hit, size))
        flight.phase, flight.keeps = 'Ended', None

    def served(self, flight: Flight) -> Reply:
        """What an access to a resident page is answered, from the words in its frame, in which a store sets its own."""
        words, word = self.content[flight.space][page_of_call(flight.call)], word_of(flight.call.address)
        if isinstance(flight.call, Store):
            words[word] = flight.call.word
            return DONE
        return ('value', words.get(word, 0))

    def own_space(self, flight: Flight) -> Space:
        return self.pager.spaces[flight.space]

    def step_start(self, flight: Flight) -> None:
        """An answer without a frame; or what the call needs first: a frame, a clearing, a pinning, or that its page is copied."""
        space, call = self.own_space(flight), flight.call
        flight.keeps = flight.space
        asked = flats.reply_of(space.flat, call)
        if not flats.is_lawful(asked):
            self.answer(flight, asked)
        elif is_access(call) and page_of_call(call) not in space.base:
            flight.phase = 'Frame'
        elif is_access(call):
            self.answer(flight, self.served(flight))
        elif isinstance(call, (Unmap, Discard)):
            flight.cleared, flight.phase = Clear(*self.range_of(flight)), 'Clear'
        elif isinstance(call, (Wire, Unwire)):
            flight.phase = 'Pin'
        elif isinstance(call, (Sync, Evict)):
            self.copy(flight, asked)
        else:
            self.answer(flight, asked)

    def range_of(self, flight: Flight) -> Tuple[int, int]:
        """What the call is of: a discard's own range, and else the region of its page."""
        call = flight.call
        if isinstance(call, Discard):
            return call.page, call.length
        region = self.own_space(flight).flat.region_at(call.page)
        return region.first, region.length

    def copy(self, flight: Flight, asked: Reply) -> None:
        """A sync or an evict: the page is written where it was dirty, and then gives its frame up to an evict."""
        s, page = flight.space, flight.call.page
        wrote = self.stores[s].write(page, self.content[s][page]) if asked == WRITTEN else 'done'
        if wrote == 'failed':
            flight.fault = (s, self.stores[s].faults)
            self.add(flight, s, False, Failed(page, True, flight.fault[1]))
            flight.phase = 'Fault'
        elif wrote == 'nomemory':
            self.answer(flight, NO_MEMORY)
        elif isinstance(flight.call, Evict) and page in self.own_space(flight).base:
            flight.copied, flight.phase = asked, 'Evict'
        else:
            self.answer(flight, asked)

    def step_evict(self, flight: Flight) -> None:
        """The page gives its frame up with the answer."""
        self.answer(flight, flight.copied, frames=True)
        del self.content[flight.space][flight.call.page]

    def step_clear(self, flight: Flight) -> None:
        """The range's pages give their frames up, ascending."""
        self.add(flight, flight.space, True, flight.cleared)
        first, end = flight.cleared.first, flight.cleared.first + flight.cleared.length
        self.content[flight.space] = {p: words for p, words in self.content[flight.space].items() if not first <= p < end}
        flight.phase = 'Gone'

    def step_pin(self, flight: Flight) -> None:
        """The region's used places get the wired flag; or a wire is kept from it by the lowest that is claimed."""
        extent, wired = self.range_of(flight), isinstance(flight.call, Wire)
        claimed = fr.lowest_claimed(self.pager.frames, flight.space, *extent)
        if wired and claimed:
            flight.claimed, flight.phase = claimed, 'Busy'
            self.add(flight, flight.space, True, Kept(*extent, *claimed))
        else:
            self.add(flight, flight.space, True, Pin(*extent, wired))
            flight.phase = 'Gone'

    def step_busy(self, flight: Flight) -> None:
        """The page whose frame is claimed."""
        self.answer(flight, ('busy', flight.claimed[0]))

    def step_gone(self, flight: Flight) -> None:
        """The unmap, discard, wire or unwire is done. What was cleared has no copies any more."""
        if flight.cleared:
            self.stores[flight.space].drop(flight.cleared.first, flight.cleared.length)
        self.answer(flight, DONE)

    def step_frame(self, flight: Flight) -> None:
        """A frame is taken; or, where none can be, the victim's is claimed; or, where there is no victim, the call is refused."""
        page, frames = page_of_call(flight.call), self.pager.frames
        if frames.covering(flight.space, page) or not fr.is_full(frames):
            self.fill(flight, Take)
            return
        victim = fr.victim(frames)
        if victim is None:
            flight.refused, flight.phase = frames.refusal(), 'Short'
            self.add(flight, None, True, flight.refused)
            return
        flight.victim, flight.phase = victim, 'Out'
        self.add(flight, flight.space, True, Claim(*victim, Need(page, isinstance(flight.call, Store))))
        self.keep_own(flight)

    def keep_own(self, flight: Flight) -> None:
        """The flight keeps no lock, unless the victim's space is the call's own."""
        flight.keeps = flight.space if flight.victim[0] == flight.space else None

    def fill(self, flight: Flight, kind: type) -> None:
        """The page gets the frame that the rule takes, which a trial on a copy of the frames' state tells."""
        page, frames = page_of_call(flight.call), fr.copy_of(self.pager.frames)
        want = flats.wanted(self.own_space(flight).flat, page)
        if kind is UseHeld:
            fr.drop(frames, flight.processor)
        flight.frame = fr.take(frames, flight.space, page, want)
        self.add(flight, flight.space, True, kind(page, flight.frame, want))
        flight.phase = 'Fill'

    def step_short(self, flight: Flight) -> None:
        """No frame could be had."""
        self.answer(flight, ('noframes', flight.refused.wired, flight.refused.claimed, flight.refused.held))

    def step_fill(self, flight: Flight) -> None:
        """The copy is read in, and the access is answered; or the read failed."""
        s, page = flight.space, page_of_call(flight.call)
        words = self.stores[s].read(page)
        if words is None:
            flight.fault = (s, self.stores[s].faults)
            self.add(flight, s, False, Failed(page, False, flight.fault[1]))
            flight.phase = 'Unfill'
        else:
            self.content[s][page] = words
            self.answer(flight, self.served(flight))

    def step_unfill(self, flight: Flight) -> None:
        """The page whose read failed gives its frame up."""
        self.add(flight, flight.space, True, Give(page_of_call(flight.call), flight.frame))
        flight.phase = 'Fault'

    def step_out(self, flight: Flight) -> None:
        """The victim's page gave the frame up meanwhile, and it is held; or the page has it still."""
        flight.keeps = flight.victim[0]
        if flight.processor in self.pager.frames.held:
            self.add(flight, None, True, Got(flight.victim[2]))
            self.hold(flight)
        else:
            flight.phase = 'Write'

    def hold(self, flight: Flight) -> None:
        """The victim's frame is held: a call goes back to its space, and a turn drops the frame."""
        self.keep_own(flight)
        flight.phase = 'Back' if flight.call else 'Drop'

    def step_write(self, flight: Flight) -> None:
        """The victim's page was clean, or is written; or the write failed; or there was no memory to write it."""
        s, page, _ = flight.victim
        dirty = page in self.pager.spaces[s].flat.dirty
        wrote = self.stores[s].write(page, self.content[s][page]) if dirty else 'done'
        if wrote == 'done':
            self.add(flight, s, False, Out(page, dirty))
            flight.phase = 'Hand'
            return
        flight.phase, flight.after_unclaim = 'Unclaim', 'Lack'
        if wrote == 'failed':
            flight.fault, flight.after_unclaim = (s, self.stores[s].faults), 'Fault'
            self.add(flight, s, False, Failed(page, True, flight.fault[1]))

    def step_hand(self, flight: Flight) -> None:
        """The victim's page gives its frame up."""
        s, page, frame = flight.victim
        self.add(flight, s, True, Give(page, frame))
        del self.content[s][page]
        self.hold(flight)

    def step_unclaim(self, flight: Flight) -> None:
        """The frame is claimed no longer, which ends a turn."""
        self.add(flight, flight.victim[0], True, Unclaim(flight.victim[2]))
        self.keep_own(flight)
        flight.phase = flight.after_unclaim if flight.call else 'Ended'

    def step_back(self, flight: Flight) -> None:
        """The call looks again: it is refused now, or its page is resident now; or it is allowed, and the page isn't resident."""
        space, flight.keeps = self.own_space(flight), flight.space
        needs = flats.is_lawful(flats.reply_of(space.flat, flight.call)) and page_of_call(flight.call) not in space.base
        flight.phase = 'Use' if needs else 'Drop'

    def step_use(self, flight: Flight) -> None:
        """The held frame goes free, and one is taken."""
        self.fill(flight, UseHeld)

    def step_drop(self, flight: Flight) -> None:
        """The held frame goes free."""
        self.add(flight, None, True, DropHeld(flight.victim[2]))
        flight.evictions += 1
        flight.phase = 'Late' if flight.call else 'Look'

    def step_late(self, flight: Flight) -> None:
        """The call is answered as at its start."""
        asked = flats.reply_of(self.own_space(flight).flat, flight.call)
        self.answer(flight, self.served(flight) if flats.is_lawful(asked) else asked)

    def step_fault(self, flight: Flight) -> None:
        """The failed store's space and count."""
        self.answer(flight, ('storefault', *flight.fault))

    def step_lack(self, flight: Flight) -> None:
        """No memory."""
        self.answer(flight, NO_MEMORY)

    def step_look(self, flight: Flight) -> None:
        """A daemon's turn claims the victim's frame while frames are short and it has made fewer evictions than its mark; then it rests."""
        frames, victim = self.pager.frames, fr.victim(self.pager.frames)
        short = frames.is_short(flight.mark) and victim is not None
        if short and flight.evictions < flight.mark:
            flight.victim, flight.phase = victim, 'Out'
            self.add(flight, None, True, Claim(*victim, None))
        else:
            flight.phase = 'Ended'
            self.add(flight, None, True, Rest(short))

    def run_in_order(self) -> None:
        """Each line's call to its end, in the order of the lines."""
        for c in rows_of(self.trace):
            self.end_flight(c)

    def end_flight(self, c: int) -> None:
        """The processor's call, or turn, to its end."""
        made = self.made[c]
        while self.made[c] == made:
            self.turn(c)

    def run_in_turns(self, seed: int) -> None:
        """Before each entry one of the processors that have a call left is drawn, and the first in cyclic order that needn't wait makes it."""
        g = Generator(seed)
        while self.left():
            left = self.left()
            i = g.draw(len(left))
            next(c for c in left[i:] + left[:i] if self.turn(c))

    def run_by_schedule(self, schedule: List[int]) -> None:
        """The processors of the list have a turn each, and then the lowest that can."""
        for c in schedule:
            self.turn(c)
        self.end_all()

    def end_all(self) -> None:
        """The lowest processor that can has a turn, until none has a call left."""
        while self.left():
            next(c for c in self.left() if self.turn(c))
