"""The simulator: it makes a trace's calls in the order of the lines, and counts. What a policy decides it asks the policy."""
from collections import OrderedDict
from typing import Dict, List, NamedTuple, Tuple

from judging.flat import after_call, is_lawful, reply_of
from judging.values import Call, Discard, Evict, Load, Map, Protect, Store, Sync, Trace, Unmap, Unwire, Wire, page_of
from policy.frames import EXTENT, Frames
from policy.space import Space


class Counts(NamedTuple):
    """What a run under a policy came to."""
    misses: int
    made: int
    broken: int
    zeroed: int
    copied: int
    # Frames under a page at most, and how many of these were never touched while the page had them.
    used: int
    untouched: int
    paged_out: int
    # What the table doesn't have: accesses that were served, those that found no frame, and how often a page got one.
    served: int
    refused: int
    fills: int


class Policy:
    """Base pages alone: a page gets a frame when it is touched, and any frame will do. The other policies say what they do otherwise."""

    def __init__(self, machine: 'Machine'):
        self.machine = machine

    def fill(self, space: Space, page: int) -> bool:
        """Gives the touched page a frame; says so where it finds none."""
        frame = self.machine.frames.take_one()
        if frame is None:
            return False
        self.machine.put(space, page, frame)
        return True

    def given(self, space: Space, page: int, frame: int) -> None:
        """The page gave its frame up."""
        self.machine.frames.give(frame)

    def sharing(self, space: Space, page: int) -> List[int]:
        """The pages that have one dirty flag with this one."""
        return [page]

    def changed(self, space: Space, page: int) -> None:
        """The page's rights or dirty flag changed: its translation is another one, and a superpage that isn't uniform any more is broken."""
        space.forget(space.translation(page))
        if page in space.superpages and not space.is_uniform(*space.superpages[page]):
            self.machine.split(space, page)

    def leaving(self, space: Space, page: int) -> None:
        """The page is about to give its frame up: so its superpage is broken."""
        self.machine.split(space, page)

    def unmapping(self, space: Space, first: int, end: int) -> None:
        """The region of these pages, none of which has a frame any more, is unmapped."""

    def accessed(self, space: Space, page: int) -> None:
        """An access was served."""

    def reserved_count(self) -> int:
        """How many frames are kept for pages that don't have them yet."""
        return 0


class Machine:
    """Frames, spaces, and which page was filled when; and the counts so far."""

    def __init__(self, trace: Trace, policy: type, *knobs: object):
        self.trace = trace
        self.frames = Frames(trace.frames)
        self.spaces = [Space(number) for number in range(trace.spaces)]
        self.calls = self.hits = self.misses = self.refused = self.made = self.broken = self.zeroed = self.copied = self.paged_out = 0
        # The pages that may be paged out, the one that was filled first at the front; when each resident page was filled or copied; and by page, in
        # which fill it came to be resident.
        self.queue: 'OrderedDict[Tuple[int, int], None]' = OrderedDict()
        self.ages: Dict[Tuple[int, int], int] = {}
        self.clock = 0
        self.fills = self.resident = self.used = self.used_since = 0
        self.untouched: Dict[Tuple[int, int], int] = {}
        # Of pages that went untouched, their fill and the last fill before they went.
        self.never_touched: List[Tuple[int, int]] = []
        self.policy: Policy = policy(self, *knobs)

    def put(self, space: Space, page: int, frame: int) -> None:
        """The page has the frame from now on."""
        space.frames[page] = frame
        self.zeroed += page not in space.seen
        space.seen.add(page)
        self.fills += 1
        self.untouched[space.number, page] = self.fills
        self.grow_young(space, page)
        if not space.flat.region_at(page).wired:
            self.queue[space.number, page] = None
        self.resident += 1
        if self.resident > self.used:
            self.used, self.used_since = self.resident, self.fills

    def grow_young(self, space: Space, page: int) -> None:
        """The page was filled just now."""
        self.clock += 1
        self.ages[space.number, page] = self.clock

    def move(self, space: Space, page: int, frame: int) -> None:
        """The page is copied to the frame, and was filled just now."""
        self.frames.give(space.frames[page])
        space.frames[page] = frame
        self.grow_young(space, page)
        if (space.number, page) in self.queue:
            self.queue.move_to_end((space.number, page))
        self.copied += 1

    def make(self, space: Space, first: int, length: int = EXTENT) -> None:
        """These pages become a superpage."""
        space.make(first, length)
        self.made += 1

    def split(self, space: Space, page: int) -> None:
        """The page's superpage is broken, where it has one."""
        if page in space.superpages:
            space.split(space.superpages[page])
            self.broken += 1

    def give(self, space: Space, page: int) -> None:
        """The page gives its frame up, and isn't dirty any more."""
        self.policy.leaving(space, page)
        space.forget((page, 1))
        space.dirty.discard(page)
        self.queue.pop((space.number, page), None)
        self.ages.pop((space.number, page), None)
        filled = self.untouched.pop((space.number, page), None)
        if filled is not None:
            self.never_touched.append((filled, self.fills))
        self.resident -= 1
        self.policy.given(space, page, space.frames.pop(page))

    def page_out(self) -> bool:
        """The page that was filled first, of those that aren't wired, gives its frame up; says so where there is none."""
        if not self.queue:
            return False
        number, page = next(iter(self.queue))
        self.give(self.spaces[number], page)
        self.paged_out += 1
        return True

    def daemon_turn(self, low: int) -> None:
        """The paging daemon pages out while frames are few, at most as many pages as its low mark."""
        for _ in range(low):
            if self.frames.count - self.resident >= low or not self.page_out():
                return

    def set_dirty(self, space: Space, page: int, dirty: bool) -> None:
        """The page becomes dirty or clean, with those that share its flag."""
        if (page in space.dirty) != dirty:
            (space.dirty.update if dirty else space.dirty.difference_update)(self.policy.sharing(space, page))
            self.policy.changed(space, page)

    def access(self, processor: int, space: Space, page: int, stores: bool) -> None:
        """A load or a store, which has the right."""
        # A page that is read in again has a new translation, by whatever policy.
        read_in = page not in space.frames and page in space.seen
        while page not in space.frames and not self.policy.fill(space, page):
            if not self.page_out():
                self.refused += 1
                return
        if not read_in and space.translation(page) in space.tlbs[processor]:
            self.hits += 1
        else:
            self.misses += 1
        self.untouched.pop((space.number, page), None)
        if stores:
            self.set_dirty(space, page, True)
        space.use(processor, page)
        self.policy.accessed(space, page)

    def protect(self, space: Space, call: Protect) -> None:
        """Pages get other rights. A superpage of which a part gets them has changed once."""
        pages = [page for page in range(call.page, call.page + call.length) if page in space.frames and space.flat.rights_of(page) != call.rights]
        after_call(space.flat, call)
        for translation in sorted({space.translation(page) for page in pages}):
            self.policy.changed(space, translation[0])

    def unmap(self, space: Space, page: int) -> None:
        """The region of the page goes, and its pages give their frames up."""
        region = space.flat.region_at(page)
        self.clear(space, region.first, region.end)
        self.policy.unmapping(space, region.first, region.end)

    def clear(self, space: Space, first: int, end: int) -> None:
        """These pages give their frames up, and what they held: they are as if they had never had any."""
        for each in sorted(page for page in space.frames if first <= page < end):
            self.give(space, each)
        space.seen = {page for page in space.seen if not first <= page < end}

    def pin(self, space: Space, page: int, pinned: bool) -> None:
        """The pages of the region may not be paged out, or may again, by when they were filled."""
        region = space.flat.region_at(page)
        pages = {(space.number, page) for page in space.frames if region.first <= page < region.end}
        self.queue = OrderedDict.fromkeys(sorted(self.queue.keys() - pages if pinned else self.queue.keys() | pages, key=self.ages.__getitem__))

    def call(self, processor: int, call: Call) -> None:
        """Makes one call. What is refused changes nothing."""
        self.calls += 1
        space = self.spaces[call.space]
        if not is_lawful(reply_of(space.flat, call)):
            return
        if isinstance(call, (Load, Store)):
            self.access(processor, space, page_of(call.address), isinstance(call, Store))
        elif isinstance(call, Protect):
            self.protect(space, call)
        elif isinstance(call, Sync):
            self.set_dirty(space, call.page, False)
        elif isinstance(call, Evict):
            if call.page in space.frames:
                self.give(space, call.page)
        elif isinstance(call, Discard):
            self.clear(space, call.page, call.page + call.length)
        else:
            self.change_regions(space, call)

    def change_regions(self, space: Space, call: Call) -> None:
        """A map, a growth, an unmap, a wire or an unwire."""
        if isinstance(call, Map):
            space.mapped_by[call.page] = self.calls
        elif isinstance(call, Unmap):
            self.unmap(space, call.page)
        elif isinstance(call, (Wire, Unwire)) and space.flat.region_at(call.page).kind != 'wired':
            self.pin(space, call.page, isinstance(call, Wire))
        after_call(space.flat, call)

    def run(self) -> Counts:
        """Makes all calls of the trace, with a turn of its daemon before each while it has turns, and those that are left at the end."""
        daemon = self.trace.daemon
        turns = daemon.turns if daemon else 0
        for number, line in enumerate(self.trace.lines):
            if number < turns:
                self.daemon_turn(daemon.low)
            self.call(line.processor, line.call)
        for _ in range(len(self.trace.lines), turns):
            self.daemon_turn(daemon.low)
        return self.counts()

    def counts(self) -> Counts:
        """The counts so far. A frame that is untouched at the end was never touched."""
        spans = self.never_touched + [(filled, self.fills) for filled in self.untouched.values()]
        untouched = sum(filled <= self.used_since <= last for filled, last in spans)
        return Counts(self.misses, self.made, self.broken, self.zeroed, self.copied, self.used, untouched, self.paged_out, self.hits + self.misses,
                      self.refused, self.fills)
