"""Which histories are legal, and what a legal one keeps (Legal.antt, Entries.antt, Agreement.antt, Laws.antt, Headline.antt)."""
from typing import List, Optional

from . import frames as fr
from .frames import Frames, Reservation
from .order import Victim, at_rest, is_whole, progress_after
from .spaces import Space, wrong_with
from .values import (Answer, Claim, Clear, DropHeld, Entry, Failed, Give, Got, Kept, Out, Pin, Refused, Rest, Setting, Take, Unclaim, UseHeld)


class Illegal(Exception):
    """Which entry may not come next, and why."""


def names_its_parts(e: Entry) -> bool:
    """An entry names its parts: an answer its call's space, and where an evict's page goes the frames; a paging out and a failure a space
    alone; what a processor does with a held frame, a refusal and a turn's end the frames alone; a claim for no access too; and each other
    both. (Entries.antt)"""
    w, on_space = e.what, e.space is not None
    if isinstance(w, Answer):
        return e.space == w.call.space
    if isinstance(w, (Out, Failed)):
        return on_space and not e.frames
    if isinstance(w, (Take, Give, Clear, Pin, Kept, UseHeld, Unclaim)):
        return on_space and e.frames
    if isinstance(w, Claim):
        return e.frames and on_space == (w.need is not None)
    return isinstance(w, (DropHeld, Got, Refused, Rest)) and e.frames and not on_space


class Pager:
    """What stands after a legal history: the state of each space and of the frames, and each processor's progress. (Legal.antt)"""

    def __init__(self, setting: Setting):
        self.setting = setting
        self.spaces = [Space(setting.sizes, told, faults) for told, faults in zip(setting.told, setting.faults)]
        self.frames = Frames(setting.frames, setting.sizes)
        self.progress = [at_rest(mark, 0) for mark in setting.marks]
        self.history: List[Entry] = []

    def add(self, e: Entry) -> None:
        """The history goes on by this entry, which may follow it: each part that it names allows it after the part's entries before it, and
        it keeps its processor's order. (Legal.antt: MayFollow)"""
        wrong = self.wrong_with(e)
        if wrong is not None:
            raise Illegal('entry %d: %s' % (len(self.history), wrong))
        if e.space is not None:
            self.spaces[e.space].after(e)
        self.history.append(e)

    def wrong_with(self, e: Entry) -> Optional[str]:
        """What is wrong where the entry may not follow; else None, and the frames and the processor's progress are those after it."""
        g = self.setting
        if e.processor >= len(g.marks) or (e.space is not None and e.space >= len(g.told)):
            return 'there is no such processor or space'
        if not names_its_parts(e):
            return 'it names other parts than its own'
        wrong = None if e.space is None else wrong_with(self.spaces[e.space], e)
        if wrong is None and e.frames:
            wrong = fr.frames_after(self.frames, g.marks[e.processor], e)
        if wrong is not None:
            return wrong
        there = progress_after(self.progress[e.processor], e)
        if there is None:
            return "it breaks its processor's order"
        self.progress[e.processor] = there
        return None

    def is_whole(self) -> bool:
        """Every processor's list is whole. (Legal.antt)"""
        return all(is_whole(mark, p) for mark, p in zip(self.setting.marks, self.progress))


def after_history(setting: Setting, history: List[Entry], laws: bool = False) -> Pager:
    """What stands after a history; `Illegal` where it isn't legal, and where `laws` are asked for, also where it doesn't keep them at each of
    its places, or preempts another reservation than the oldest. (Legal.antt: IsLegal; Laws.antt: KeepsLawsAllAlong)"""
    pager = Pager(setting)
    for e in history:
        before = fr.copy_of(pager.frames) if laws else None
        pager.add(e)
        broken = broken_law(pager, before, e) if laws else None
        if broken:
            raise Illegal('entry %d: the law of %s is broken after it' % (len(pager.history) - 1, broken))
    return pager


def broken_law(pager: Pager, before: Frames, e: Entry) -> Optional[str]:
    """The name of a law that doesn't hold after an entry, or None. (Laws.antt: KeepsLaws)"""
    laws = {
        'copies': all(keeps_copies(space) for space in pager.spaces),
        'frames': is_partition(pager.frames) and keeps_frames(pager.frames),
        'owners': all(owns(pager.frames, c, p) for c, p in enumerate(pager.progress)),
        'agreement': agrees(pager),
        'wires': keeps_wires(pager),
        'rest': not pager.is_whole() or not (pager.frames.held or pager.frames.refusal().claimed),
        'preemptions': preempts_oldest(before, pager.frames, e),
    }
    return next((name for name, holds in laws.items() if not holds), None)


def preempts_oldest(before: Frames, after: Frames, e: Entry) -> bool:
    """Each reservation that a taking preempted was the oldest of its list. It is one that stood, and none of its size begins at its first frame
    any more. (Headline.antt: PreemptsOldest)"""
    if not isinstance(e.what, (Take, UseHeld)):
        return True
    sizes = {r.frame: r.size for r in after.reservations}
    return all(is_oldest(before, r) for r in before.reservations if sizes.get(r.frame) != r.size)


def is_oldest(state: Frames, r: Reservation) -> bool:
    """Every other reservation of its yield, by the sizes that there are, has a later stamp, or the same stamp and a later first frame.
    (Headline.antt: IsOldest)"""
    size = fr.yield_in(state.sizes, r)
    others = [q for q in state.reservations if fr.yield_in(state.sizes, q) == size]
    return size is not None and min((q.stamp, q.frame) for q in others) == (r.stamp, r.frame)


def keeps_copies(space: Space) -> bool:
    """A page that isn't dirty equals its copy, which is known; and a dirty page is resident, unless it was just cleared.
    (Laws.antt: KeepsCopies)"""
    flat, cleared = space.flat, space.begun if isinstance(space.begun, Clear) else None

    def words(kept) -> dict:
        return {i: word for i, word in kept.items() if word}

    def is_clean(page: int) -> bool:
        copy = flat.copy_of(page)
        return copy is not None and words(copy) == words(flat.words_of(page))

    clean = all(is_clean(page) for page in {*flat.words, *flat.copies} - flat.dirty)
    return clean and all(p in space.base or (cleared and cleared.first <= p < cleared.first + cleared.length) for p in flat.dirty)


def is_partition(state: Frames) -> bool:
    """Each frame is exactly one of free, an unused place of one reservation, a used place of one reservation, and held by one processor.
    (Agreement.antt: IsPartition)"""
    places = [r.frame + i for r in state.reservations for i in range(r.length)]
    roles = sorted([*state.free, *places, *state.held.values()])
    used = {r.frame + i for r in state.reservations for i in r.used}
    return roles == list(range(state.count)) and used == set(state.used)


def keeps_frames(state: Frames) -> bool:
    """Every reservation has a used place; no page of a space is in two; no two used places are of one age; and a processor claims at most one
    frame, and holds none while it does. (Laws.antt: KeepsFrames)"""
    pages = [(r.space, r.first + i) for r in state.reservations for i in range(r.length)]
    ages = [u.age for u in state.used.values()]
    owners = [u.claim for u in state.used.values() if u.claim is not None] + list(state.held)
    return all(r.used for r in state.reservations) and all(len(set(row)) == len(row) for row in (pages, ages, owners))


def owns(state: Frames, processor: int, p) -> bool:
    """Where a processor's place in its order says that it claims or holds a frame it does, and elsewhere it claims and holds nothing.
    (Agreement.antt: OwnsBy)"""
    victim: Optional[Victim] = p.place.victim
    if victim is None:
        return state.has_nothing(processor)
    if state.held.get(processor) == victim.frame:
        return True
    claims = state.claimed_by(processor) == [victim.frame] and state.frame_of(victim.space, victim.page) == victim.frame
    return claims and p.place.name != 'Holding'


def agrees(pager: Pager) -> bool:
    """Spaces and frames agree on which page has which frame. (Agreement.antt)"""
    resident = {(s, page): frame for s, space in enumerate(pager.spaces) for page, frame in space.base.items()}
    return resident == pager.frames.used_pages()


def keeps_wires(pager: Pager) -> bool:
    """A used place is wired exactly where its page's region is, or as a pinning says whose call isn't answered yet; and none is both wired and
    claimed. (Laws.antt: KeepsWires)"""
    used = pager.frames.used
    pages = pager.frames.used_pages().items()
    wired = all(used[frame].wired == is_wired(pager.spaces[s], page) for (s, page), frame in pages)
    return wired and not any(u.wired and u.claim is not None for u in used.values())


def is_wired(space: Space, page: int) -> bool:
    """The page's region is wired, or is to be by the pinning that has the page. (Laws.antt: is_wired_by)"""
    begun = space.begun
    if isinstance(begun, Pin) and begun.first <= page < begun.first + begun.length:
        return begun.wired
    region = space.flat.region_at(page)
    return region is not None and region.wired
