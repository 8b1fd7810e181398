"""What a space's list of entries leads to, and which entries a space in that state allows (SpaceStates.antt)."""
from typing import Dict, Optional, Set, Tuple, Union

from . import flat as flats
from .flat import Flat
from .tiles import Tiles, tile_of
from .values import (DONE, LAST_COUNT, NO_MEMORY, WANTS, WRITTEN, Answer, Call, Claim, Clear, Discard, Entry, Evict, Failed, Give, Kept, Load, Out, Pin,
                     Protect, Reply, Sizes, Store, Sync, Take, Unclaim, Unmap, Unwire, UseHeld, Want, Wire, has_size, is_access, page_of,
                     page_of_call, word_of)


class Space:
    """The state of a space: its flat memory, the frame of each resident page, who makes the next entry, what answers said of words, the
    highest count of its store's faults, and its tiles and images. A space begins empty. (SpaceStates.antt: empty_state)"""

    def __init__(self, sizes: Sizes, told: bool, faults: int):
        self.flat = Flat()
        self.base: Dict[int, int] = {}
        # The processor that makes the next entry, where it isn't anyone, and what it just did to a range, which its answer ends.
        self.only: Optional[int] = None
        self.begun: Union[Clear, Pin, None] = None
        self.told = told
        # Of each page, each word: what the latest answer on it said since the page was filled.
        self.tied: Dict[int, Dict[int, int]] = {}
        self.highest = faults
        self.tiles = Tiles(sizes)

    def resident_in(self, first: int, length: int) -> Set[int]:
        """The resident pages of a range."""
        return {page for page in self.base if first <= page < first + length}

    def after(self, e: Entry) -> None:
        """The state becomes the one after the entry. (SpaceStates.antt: space_after)"""
        w = e.what
        touched = self.change(e)
        self.only, self.begun = next_after(e)
        if isinstance(w, Failed):
            self.highest = max(self.highest, w.count)
        self.tiles.settle(self.flat, self.base, touched)
        if isinstance(w, Answer) and has_size(w.call, w.reply):
            self.tiles.touch(e.processor, page_of(w.call.address))

    def change(self, e: Entry) -> Set[int]:
        """What an entry does to the flat memory and to the resident pages, and which pages' tiles that may change.
        (SpaceStates.antt: flat_after, base_after)"""
        w = e.what
        if isinstance(w, Answer):
            return self.answered(e.frames, w)
        if isinstance(w, Clear):
            gone = self.resident_in(w.first, w.length)
            for page in gone:
                del self.base[page]
            return gone
        if isinstance(w, (Take, UseHeld)):
            self.base[w.page] = w.frame
            self.tied[w.page] = {}
        elif isinstance(w, Give):
            self.base.pop(w.page, None)
        elif isinstance(w, Out):
            flats.out(self.flat, w.page)
        elif isinstance(w, Failed) and w.writing:
            flats.lost(self.flat, w.page)
        return {w.page} if isinstance(w, (Take, UseHeld, Give, Out)) else set()

    def answered(self, frames: bool, w: Answer) -> Set[int]:
        """An answer for want of a frame, of a store or of memory changes nothing, nor does one that a frame is claimed, and any other does
        what its call does; that of an evict which names the frames gives its page's frame up. (SpaceStates.antt: answered_flat,
        base_after_answer, tied_after)"""
        if w.reply[0] in WANTS:
            return set()
        call = w.call
        flats.after_call(self.flat, call)
        if has_size(call, w.reply):
            said = call.word if isinstance(call, Store) else w.reply[1]
            self.tied.setdefault(page_of(call.address), {})[word_of(call.address)] = said
        if isinstance(call, Evict) and frames:
            self.base.pop(call.page, None)
        if isinstance(call, Protect):
            return self.resident_in(call.page, call.length)
        return {page_of_call(call)} if isinstance(call, (Store, Sync, Evict)) else set()


def next_after(e: Entry) -> Tuple[Optional[int], Union[Clear, Pin, None]]:
    """Who makes the next entry of a space: after a taking, a paging out, a failed read and a claimed frame that keeps a region from being wired
    the same processor, after a clearing that processor's unmap or discard of the range, and after a pinning its wire or unwire; after any
    other entry anyone. (SpaceStates.antt: next_after)"""
    w = e.what
    if isinstance(w, (Clear, Pin)):
        return e.processor, w
    goes_on = isinstance(w, (Take, UseHeld, Out, Kept)) or (isinstance(w, Failed) and not w.writing)
    return (e.processor if goes_on else None), None


def may_go_on(space: Space, e: Entry) -> bool:
    """The processor may make the next entry of the space. (SpaceStates.antt: MayGoOn)"""
    w = e.what
    if space.only not in (None, e.processor):
        return False
    return space.begun is None or (isinstance(w, Answer) and w.reply == DONE and is_begun(space.begun, w.call))


def is_begun(begun: Union[Clear, Pin], call: Call) -> bool:
    """The range was cleared for the call, which is an unmap of one of its pages or a discard of the range; or it was pinned for it, which is a
    wire or an unwire of one of its pages. (SpaceStates.antt: IsClearingOf, IsPinningOf)"""
    if isinstance(begun, Clear) and isinstance(call, Discard):
        return begun == Clear(call.page, call.length)
    kind = Unmap if isinstance(begun, Clear) else Wire if begun.wired else Unwire
    return isinstance(call, kind) and begun.first <= call.page < begun.first + begun.length


def wrong_with(space: Space, e: Entry) -> Optional[str]:
    """What is wrong where the space doesn't allow the entry, else None. (SpaceStates.antt: SpaceAllows, WhatAllowed)"""
    w, base, flat = e.what, space.base, space.flat
    if not may_go_on(space, e):
        return 'another entry has to come next in the space'
    if isinstance(w, Answer):
        return wrong_with_answer(space, e)
    if isinstance(w, (Take, UseHeld)):
        return 'its page is resident' if w.page in base else wrong_with_want(w, flats.wanted(flat, w.page))
    if isinstance(w, Give):
        fine = base.get(w.page) == w.frame and w.page not in flat.dirty
    elif isinstance(w, (Clear, Pin, Kept)):
        fine = has_its_range(flat.region_at(w.first), w)
    elif isinstance(w, Out):
        fine = w.page in base and w.written == (w.page in flat.dirty)
    elif isinstance(w, Failed):
        rises = w.count > space.highest or w.count == LAST_COUNT
        fine = w.page in base and w.writing == (w.page in flat.dirty) and rises
    elif isinstance(w, Unclaim):
        fine = any(frame == w.frame and page in flat.dirty for page, frame in base.items())
    else:
        fine = isinstance(w, Claim) and is_needed(space, w)
    return None if fine else 'the space is in no state for it'


def wrong_with_want(w: Union[Take, UseHeld], wanted: Optional[Want]) -> Optional[str]:
    """Where a reservation for the page may lie, and whether its region is wired, is what the regions say. (SpaceStates.antt: WhatAllowed)"""
    if wanted is None:
        return 'no region has its page'
    return None if w.want == wanted else 'its LOW, HIGH, CAP and W should be %d %d %d %d' % tuple(vars(wanted).values())


def has_its_range(region: Optional[flats.Region], w: Union[Clear, Pin, Kept]) -> bool:
    """What is cleared lies in the region of its first page; what is pinned, or kept from it, is a region, whose kind isn't wired where the flag
    is taken from it. (SpaceStates.antt: WhatAllowed)"""
    if region is None:
        return False
    if isinstance(w, Clear):
        return w.first + w.length <= region.end
    unwired = isinstance(w, Pin) and not w.wired
    return (region.first, region.length) == (w.first, w.length) and not (unwired and region.kind == 'wired')


def is_needed(space: Space, w: Claim) -> bool:
    """The access that needs a frame has the right, and its page isn't resident. (SpaceStates.antt: IsNeeded)"""
    page, flat = w.need.page, space.flat
    return flat.region_at(page) is not None and flats.has_right(w.need.writing, flat.rights_of(page)) and page not in space.base


def wrong_with_answer(space: Space, e: Entry) -> Optional[str]:
    """The reply is allowed, the frames are named where a page gives its frame up, and a hit and a size are told of a load that found its word
    and of a store that was done: the hit as the tile was before, the size as it is then. (SpaceStates.antt: AnswerAllowed)"""
    w = e.what
    if not reply_allowed(space, e.processor, w.call, w.reply):
        return "its reply isn't allowed: the flat memory's is %s" % ' '.join(map(str, flats.reply_of(space.flat, w.call)))
    frees = isinstance(w.call, Evict) and flats.is_lawful(w.reply) and w.call.page in space.base
    if e.frames != frees:
        return 'an answer names the frames exactly where the resident page of an evict goes with it'
    hit, size = hit_and_size(space, e.processor, w.call, w.reply)
    if (w.hit, w.size) == (hit, size):
        return None
    return 'it should have no hit and size' if size is None else 'its hit and size should be %s %d' % ('hit' if hit else 'miss', size)


def hit_and_size(space: Space, processor: int, call: Call, reply: Reply) -> Tuple[bool, Optional[int]]:
    """Whether the page's tile, as it is before the access, stands in its processor's image; and the size of the tile as it is after it, where
    a store has made its page dirty. (SpaceStates.antt: is_hit, size_after)"""
    if not has_size(call, reply):
        return False, None
    page = page_of(call.address)
    hit = space.tiles.is_hit(processor, page)
    makes_dirty = isinstance(call, Store) and page not in space.flat.dirty
    if makes_dirty:
        space.flat.dirty.add(page)
    tile = tile_of(space.flat, space.base, space.tiles.sizes, page)
    if makes_dirty:
        space.flat.dirty.discard(page)
    return hit, None if tile is None else tile.size


def reply_allowed(space: Space, processor: int, call: Call, reply: Reply) -> bool:
    """A space allows: that no frame can be had, where the access is lawful and its page isn't resident; a fault or want of memory, where it
    may come; that a frame is claimed; and any other reply where the flat memory gives it and the call finds its pages.
    (SpaceStates.antt: ReplyAllowed)"""
    asked = flats.reply_of(space.flat, call)
    if reply[0] == 'noframes':
        return flats.is_lawful(asked) and is_access(call) and page_of(call.address) not in space.base
    if reply[0] == 'storefault' or reply == NO_MEMORY:
        return is_access(call) or (isinstance(call, (Sync, Evict)) and asked == WRITTEN)
    if reply[0] == 'busy':
        return True
    return is_asked(space, call, asked, reply) and (not flats.is_lawful(reply) or has_its_pages(space, processor, call))


def is_asked(space: Space, call: Call, asked: Reply, reply: Reply) -> bool:
    """The reply is the flat memory's. A word of a space that isn't told is bound by what answers said of it while its page stays, and by
    nothing where no answer did. (SpaceStates.antt: IsAsked, IsWord)"""
    if space.told or not isinstance(call, Load) or reply[0] != 'value':
        return reply == asked
    tied = space.tied.get(page_of(call.address), {}).get(word_of(call.address))
    return asked[0] == 'value' and tied in (None, reply[1])


def has_its_pages(space: Space, processor: int, call: Call) -> bool:
    """The page of an access is resident, no page of a discarded range is, and the region of an unmap was cleared just before by its processor,
    as that of a wire or unwire was pinned. (SpaceStates.antt: HasItsPages)"""
    if is_access(call):
        return page_of(call.address) in space.base
    if isinstance(call, Discard):
        return not space.resident_in(call.page, call.length)
    if not isinstance(call, (Unmap, Wire, Unwire)):
        return True
    region = space.flat.region_at(call.page)
    extent = region.first, region.length
    just_before = Clear(*extent) if isinstance(call, Unmap) else Pin(*extent, isinstance(call, Wire))
    is_absent = not isinstance(call, Unmap) or not space.resident_in(*extent)
    return space.only == processor and space.begun == just_before and is_absent
