"""Follows the changes of regions: when each page is mapped and with which rights, and what accesses need."""
from bisect import bisect_right
from typing import Dict, List, NamedTuple, Optional, Tuple

from lackey.lines import DISCARD, GROW, GUESSED, LOCK, NONE, PAGE, PROTECT, READ, SMALL, UNLOCK, UNMAP, WRITE, Access, Change

# The time before the first change; times are the numbers of changes, from 0 on.
START = -1
# A small page that isn't mapped.
ABSENT = -1


class Since(NamedTuple):
    """From this time on pages have these rights, and accesses until the next time need these."""
    time: int
    rights: int
    needed: int


class Life:
    """How long the pages of a stretch are mapped: from a time to before another one, for ever where that is nothing."""

    def __init__(self, birth: int, rights: int, grows: bool) -> None:
        self.birth = birth
        self.death: Optional[int] = None
        self.grows = grows
        self.touched = False
        self.since = [Since(birth, rights, NONE)]
        # When its pages are locked in memory (true) or unlocked.
        self.locks: List[Tuple[int, bool]] = []

    def turn(self, time: int, rights: int) -> None:
        """Has these rights from this time on."""
        if rights != self.since[-1].rights:
            self.since.append(Since(time, rights, NONE))

    def need(self, rights: int) -> None:
        """Is accessed with these rights."""
        self.touched = True
        if rights > self.since[-1].needed:
            self.since[-1] = self.since[-1]._replace(needed=rights)


class Stretch:
    """Pages side by side to which the same happens, from the first to the last: the lives, and the rights that accesses without a life
    need. A page is two halves, of which a change may be of one. Then the stretch is that page alone; else both halves of all pages are
    alike."""

    def __init__(self, first: int, last: int) -> None:
        self.first = first
        self.last = last
        self.halves = [ABSENT, ABSENT]
        self.lives: List[Life] = []
        self.alone = NONE

    def life(self) -> Optional[Life]:
        """The life that the pages have now."""
        return self.lives[-1] if self.halves != [ABSENT, ABSENT] else None

    def change(self, time: int, change: Change) -> None:
        """Follows a change of some of the halves."""
        starts = (self.first * PAGE, self.last * PAGE + SMALL)
        changed = [half for half in (0, 1) if change.first <= starts[half] < change.end]
        present = [half for half in (0, 1) if self.halves[half] != ABSENT]
        if change.kind in (LOCK, UNLOCK):
            self.lock(time, change.kind == LOCK)
        elif change.kind == PROTECT:
            self.protect(time, change.rights, changed, present)
        elif change.kind != DISCARD:
            self.replace(time, change, changed, present)

    def lock(self, time: int, locked: bool) -> None:
        """Locks or unlocks the pages, also where it is told of one half of a page."""
        life = self.life()
        if life is not None:
            life.locks.append((time, locked))

    def replace(self, time: int, change: Change, changed: List[int], present: List[int]) -> None:
        """Maps or unmaps these halves. Pages are others when all that was mapped of them is changed, or the first half is mapped anew."""
        life = self.life()
        anew = change.kind != UNMAP and 0 in changed and 0 in present
        if life is not None and (anew or set(present) <= set(changed)):
            life.death = time
            life = None
        for half in changed:
            self.halves[half] = ABSENT if change.kind == UNMAP else change.rights
        if life is not None:
            life.turn(time, max(self.halves))
        elif change.kind != UNMAP:
            self.lives.append(Life(time, max(self.halves), change.kind == GROW))

    def protect(self, time: int, rights: int, changed: List[int], present: List[int]) -> None:
        """Gives these halves rights. Pages that no change mapped were there from the start."""
        if not self.lives:
            self.lives.append(Life(START, GUESSED, False))
            self.halves = [GUESSED, GUESSED]
            present = [0, 1]
        for half in set(changed) & set(present):
            self.halves[half] = rights
        life = self.life()
        if life is not None:
            life.turn(time, max(self.halves))

    def guessed(self) -> bool:
        """Whether pages that are accessed were there before the changes tell of them, or after."""
        touched = any(life.touched for life in self.lives)
        if self.lives and self.lives[0].birth == START:
            return touched or self.alone != NONE
        return touched and self.alone != NONE

    def always(self) -> List[Since]:
        """What the pages have since when, where they are there always: what nothing tells is guessed, for the accesses without a life."""
        births = {life.birth for life in self.lives}
        guessed = {START, *(life.death for life in self.lives if life.death is not None)} - (births - {START})
        since = [one for life in self.lives for one in life.since if one.time not in guessed]
        return sorted(since + [Since(time, GUESSED, max(self.alone, self.needed_at(time))) for time in guessed])

    def needed_at(self, time: int) -> int:
        """The rights that accesses of a life need from this time on."""
        return max((one.needed for life in self.lives for one in life.since if one.time == time), default=NONE)


class Lives:
    """The stretches of the pages that changes are made of, and what is accessed without a life: page and rights needed."""

    def __init__(self, changes: List[Change]) -> None:
        edges = [edge for change in changes for page in (change.first // PAGE, (change.end - 1) // PAGE) for edge in (page, page + 1)]
        self.cuts = sorted(set(edges))
        self.stretches = [Stretch(first, end - 1) for first, end in zip(self.cuts, self.cuts[1:])]
        self.alone: Dict[int, int] = {}

    def at(self, page: int) -> Optional[Stretch]:
        """The stretch that has a page."""
        number = bisect_right(self.cuts, page) - 1
        return self.stretches[number] if 0 <= number < len(self.stretches) else None

    def change(self, time: int, change: Change) -> None:
        """Follows a change."""
        first = bisect_right(self.cuts, change.first // PAGE) - 1
        last = bisect_right(self.cuts, (change.end - 1) // PAGE) - 1
        for stretch in self.stretches[first:last + 1]:
            stretch.change(time, change)

    def access(self, access: Access) -> None:
        """Follows an access."""
        stores, page, _ = access
        rights = WRITE if stores else READ
        stretch = self.at(page)
        life = None if stretch is None else stretch.life()
        if life is not None:
            life.need(rights)
            return
        self.alone[page] = max(rights, self.alone.get(page, NONE))
        if stretch is not None:
            stretch.alone = max(rights, stretch.alone)


def lives_of(accesses: List[Access], changes: List[Change]) -> Lives:
    """What the accesses and the changes between them tell of each page."""
    lives = Lives(changes)
    read = 0
    for time, change in enumerate(changes):
        follow(lives, accesses[read:change.at])
        read = change.at
        lives.change(time, change)
    follow(lives, accesses[read:])
    return lives


def follow(lives: Lives, accesses: List[Access]) -> None:
    """Follows these accesses."""
    for access in accesses:
        lives.access(access)
