"""The order of a processor's entries: places in the sequence of a call or in a daemon's turn, where each entry leads from each place, and which
space's lock belongs to it (Order.antt, Locks.antt)."""
from typing import Callable, Dict, NamedTuple, Optional, Union

from .values import (DENIED, DONE, NO_MEMORY, UNMAPPED, WANTS, Answer, Call, Claim, Clear, Discard, DropHeld, Entry, Evict, Failed, Give, Got, Kept, Out,
                     Pin, Refused, Reply, Rest, Store, Sync, Take, Unclaim, Unmap, Unwire, UseHeld, Wire, is_access, page_of, value)


@value
class Access:
    """A load or a store at a page of a space, and whether it is a store, where its entries have told that."""
    space: int
    page: int
    writing: Optional[bool]


@value
class Turn:
    """A daemon's turn, of this low mark, with so many evictions made in it."""
    mark: int
    evictions: int


@value
class Victim:
    """The page whose frame is claimed."""
    space: int
    page: int
    frame: int


@value
class Place:
    """A place by its name; what is done there, for an access or a turn; and the numbers that its next entry must have."""
    name: str
    purpose: Union[Access, Turn, None] = None
    victim: Optional[Victim] = None
    space: int = 0
    page: int = 0
    frame: int = 0
    count: int = 0
    refused: Optional[Refused] = None
    range: Union[Clear, Pin, Kept, None] = None


IDLE = Place('Idle')


class Progress(NamedTuple):
    """How many calls a processor has answered, or turns it has made, and its place in the next one."""
    made: int
    place: Place


def at_rest(mark: int, made: int) -> Progress:
    """So many calls, or turns of a daemon with this mark, are made, and none is begun. (Order.antt)"""
    return Progress(made, Place('Looking', Turn(mark, 0)) if mark else IDLE)


def is_whole(mark: int, p: Progress) -> bool:
    """Each call or turn that was begun has ended. (Order.antt)"""
    return p == at_rest(mark, p.made)


def is_plain(reply: Reply) -> bool:
    """The reply needs no other entry of the call before it. (Order.antt)"""
    return reply[0] not in WANTS


def is_answered_alone(call: Call, reply: Reply) -> bool:
    """One entry answers the call: an unmap or a wire only where no region has its page, a discard or an unwire where it is denied too, and want
    of memory comes only to those that write a copy. (Order.antt)"""
    if isinstance(call, (Unmap, Wire)):
        return reply == UNMAPPED
    if isinstance(call, (Discard, Unwire)):
        return reply in (UNMAPPED, DENIED)
    return is_plain(reply) or (isinstance(call, (Sync, Evict)) and reply == NO_MEMORY)


def is_access_at(a: Access, call: Call) -> bool:
    """The call is this access. (Order.antt)"""
    return is_access(call) and (call.space, page_of(call.address)) == (a.space, a.page) and a.writing in (None, isinstance(call, Store))


# Which replies to an access end it at a place that is reached for one.
ENDS_ACCESS: Dict[str, Callable[[Place, Reply], bool]] = {
    'Filling': lambda place, reply: reply == DONE or reply[0] == 'value',
    'Late': lambda place, reply: is_plain(reply),
    'Faulted': lambda place, reply: reply == ('storefault', place.space, place.count),
    'Lacking': lambda place, reply: reply == NO_MEMORY,
}


# The reply that ends a call whose range was cleared or pinned, or kept from being pinned.
ENDS_RANGE: Dict[str, Callable[[Place], Reply]] = {
    'Cleared': lambda place: DONE,
    'Pinned': lambda place: DONE,
    'Blocked': lambda place: ('busy', place.range.page),
}


def is_of_range(w: Union[Clear, Pin, Kept], call: Call) -> bool:
    """What was done to a range is of this call: an unmap's or a wire's range has its page, and a discard's is its own. (Order.antt)"""
    if isinstance(w, Clear) and isinstance(call, Discard):
        return (call.page, call.length) == (w.first, w.length)
    kind = Unmap if isinstance(w, Clear) else Unwire if isinstance(w, Pin) and not w.wired else Wire
    return isinstance(call, kind) and w.first <= call.page < w.first + w.length


def may_answer(place: Place, call: Call, reply: Reply) -> bool:
    """The answer ends the call at its processor's place. (Order.antt)"""
    name = place.name
    if name == 'Idle':
        return is_answered_alone(call, reply)
    if name in ENDS_RANGE:
        return call.space == place.space and reply == ENDS_RANGE[name](place) and is_of_range(place.range, call)
    if name == 'Uncopied':
        is_copying = isinstance(call, (Sync, Evict)) and (call.space, call.page) == (place.space, place.page)
        return is_copying and reply == ('storefault', place.space, place.count)
    if name == 'Refusing':
        return is_access(call) and reply == ('noframes', place.refused.wired, place.refused.claimed, place.refused.held)
    return name in ENDS_ACCESS and is_access_at(place.purpose, call) and ENDS_ACCESS[name](place, reply)


def begun(space: Optional[int], w) -> Optional[Place]:
    """Where the first entry of a call leads, where it isn't the answer. (Order.antt)"""
    if isinstance(w, Take):
        return Place('Filling', Access(space, w.page, None), frame=w.frame)
    if isinstance(w, (Clear, Pin, Kept)):
        return Place({Clear: 'Cleared', Pin: 'Pinned', Kept: 'Blocked'}[type(w)], space=space, range=w)
    if isinstance(w, Failed) and w.writing:
        return Place('Uncopied', space=space, page=w.page, count=w.count)
    if isinstance(w, Refused):
        return Place('Refusing', refused=w)
    if isinstance(w, Claim) and w.need is not None:
        return Place('Claiming', Access(space, w.need.page, w.need.writing), Victim(w.space, w.page, w.frame))
    return None


def filled(place: Place, space: Optional[int], w) -> Optional[Place]:
    """From a page that has its frame: its read may fail, and then it gives the frame up. (Order.antt)"""
    a = place.purpose
    if getattr(w, 'page', None) != a.page or space != a.space:
        return None
    if place.name == 'Filling' and isinstance(w, Failed) and not w.writing:
        return Place('Unfilling', a, frame=place.frame, count=w.count)
    if place.name == 'Unfilling' and isinstance(w, Give) and w.frame == place.frame:
        return Place('Faulted', a, space=a.space, count=place.count)
    return None


def paged(place: Place, space: Optional[int], w) -> Optional[Place]:
    """From a claim on: the victim's page is paged out and gives its frame up, or it did so meanwhile, or its write failed. (Order.antt)"""
    name, victim = place.name, place.victim
    of_victim = (space, getattr(w, 'page', None)) == (victim.space, victim.page)
    if name == 'Claiming' and isinstance(w, Out) and of_victim:
        return Place('Emptied', place.purpose, victim)
    if name == 'Claiming' and isinstance(w, Failed) and w.writing and of_victim:
        return Place('Unwritten', place.purpose, victim, count=w.count)
    if name == 'Claiming' and isinstance(w, Got) and w.frame == victim.frame:
        return Place('Holding', place.purpose, victim)
    if name == 'Emptied' and isinstance(w, Give) and of_victim and w.frame == victim.frame:
        return Place('Holding', place.purpose, victim)
    return None


def given_back(place: Place, space: Optional[int], w) -> Optional[Place]:
    """An access's claim ends: for want of memory or with the store's fault; or the held frame is used, or dropped. (Order.antt)"""
    a, victim = place.purpose, place.victim
    if isinstance(w, Unclaim) and (space, w.frame) == (victim.space, victim.frame):
        if place.name == 'Unwritten':
            return Place('Faulted', a, space=space, count=place.count)
        return Place('Lacking', a, space=space) if place.name == 'Claiming' else None
    if place.name == 'Holding' and isinstance(w, UseHeld) and (space, w.page) == (a.space, a.page):
        return Place('Filling', a, frame=w.frame)
    if place.name == 'Holding' and isinstance(w, DropHeld) and w.frame == victim.frame:
        return Place('Late', a)
    return None


def turned(p: Progress, space: Optional[int], w) -> Optional[Progress]:
    """A turn of a daemon is a row of evictions, at most as many as its mark. It ends with a rest, which is short only after as many as its
    mark, or with the end of a claim that can't be gone on with. (Order.antt)"""
    place, turn = p.place, p.place.purpose
    if place.name == 'Looking' and isinstance(w, Claim) and w.need is None and turn.evictions < turn.mark:
        return Progress(p.made, Place('Claiming', turn, Victim(w.space, w.page, w.frame)))
    if place.name == 'Looking' and isinstance(w, Rest) and (not w.short or turn.evictions == turn.mark):
        return at_rest(turn.mark, p.made + 1)
    victim = place.victim
    if victim is None:
        return None
    if place.name == 'Holding' and isinstance(w, DropHeld) and w.frame == victim.frame:
        return Progress(p.made, Place('Looking', Turn(turn.mark, turn.evictions + 1)))
    if place.name in ('Claiming', 'Unwritten') and isinstance(w, Unclaim) and (space, w.frame) == (victim.space, victim.frame):
        return at_rest(turn.mark, p.made + 1)
    there = paged(place, space, w)
    return None if there is None else Progress(p.made, there)


def progress_after(p: Progress, e: Entry) -> Optional[Progress]:
    """Where an entry leads, or None where it breaks the order. (Order.antt)"""
    place, w = p.place, e.what
    if isinstance(place.purpose, Turn):
        return turned(p, e.space, w)
    if isinstance(w, Answer):
        return Progress(p.made + 1, IDLE) if w.number == p.made and may_answer(place, w.call, w.reply) else None
    if place.name == 'Idle':
        there = begun(e.space, w)
    elif place.victim is not None:
        there = paged(place, e.space, w) or given_back(place, e.space, w)
    else:
        there = filled(place, e.space, w) if place.name in ('Filling', 'Unfilling') else None
    return None if there is None else Progress(p.made, there)


def own_if(own: Optional[int], space: int) -> Optional[int]:
    """The space, where it is the call's own: what goes on in another one after this keeps no lock between. (Locks.antt)"""
    return own if own == space else None


def under(own: Optional[int], place: Place) -> Optional[int]:
    """The space whose lock the next step from a place is made under: the victim's while its page is paged out, and else the call's own. A
    turn has none of its own. (Locks.antt)"""
    return place.victim.space if place.name in ('Claiming', 'Emptied', 'Unwritten') else own


def keeps(own: Optional[int], place: Place) -> Optional[int]:
    """The space whose lock is kept until the next step from a place. (Locks.antt)"""
    if place.name in ('Emptied', 'Unwritten'):
        return place.victim.space
    if place.name in ('Claiming', 'Holding'):
        return own_if(own, place.victim.space)
    if place.name in ('Uncopied', 'Faulted', 'Lacking'):
        return own_if(own, place.space)
    return None if place.name in ('Idle', 'Looking') else own
