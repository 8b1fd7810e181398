"""The frames' state of docs/model.md, followed entry by entry: free blocks, reservations, used places, claims and held frames."""
import heapq
from collections import Counter
from typing import Callable, Dict, List, NamedTuple, Optional, Sequence, Tuple

# The largest size: a page of size k has 8**k base pages.
LARGEST = 3
# The order of the largest free block: 2**9 frames.
LARGEST_ORDER = 9

# What a frame is. A role's code is this and, times 16, the space, or of a held frame the processor.
FREE, UNUSED, USED, WIRED, CLAIMED, HELD = range(6)


def coded(role: int, owner: int = 0) -> int:
    """One number for a role and the space or processor that the frame is of."""
    return role + 16 * owner


def pages_of(size: int) -> int:
    """How many base pages a page of this size has."""
    return 8 ** size


def begin_of(size: int, number: int) -> int:
    """The first number of the extent of this size round a page or frame."""
    return number - number % pages_of(size)


class Astray(Exception):
    """The history says another thing than the rules."""


class Want(NamedTuple):
    """Where a reservation for a page may lie: from page `low` to before page `high`, with `cap` pages at most; and if the page is wired."""
    low: int
    high: int
    cap: int
    wired: bool


class Reservation:
    """An extent of pages of a space joined to one of frames: place i joins page `first + i` and frame `frame + i`. `sizes` are those that there
    are, ascending, up to its own."""

    def __init__(self, space: int, first: int, sizes: Sequence[int], frame: int, stamp: int, used: bytes) -> None:
        self.space, self.first, self.sizes, self.size, self.frame, self.stamp = space, first, sizes, sizes[-1], frame, stamp
        # For each of these sizes how many places of each part are used.
        self.used = {k: [sum(used[at:at + pages_of(k)]) for at in range(0, len(used), pages_of(k))] for k in sizes}

    def add(self, place: int, by: int) -> None:
        """The place becomes used (1) or unused (-1)."""
        for size, parts in self.used.items():
            parts[place // pages_of(size)] += by

    def is_empty(self) -> bool:
        return self.used[self.size][0] == 0

    def give_back(self) -> Optional[int]:
        """The yield: the largest size of a part without a used place, or None where every place is used."""
        return next((size for size in reversed(self.sizes) if 0 in self.used[size]), None)

    def parts(self) -> List['Reservation']:
        """The parts of the next smaller size, with the same stamp."""
        sizes, used = self.sizes[:-1], bytes(self.used[0])
        length = pages_of(sizes[-1])
        return [Reservation(self.space, self.first + at, sizes, self.frame + at, self.stamp, used[at:at + length])
                for at in range(0, len(used), length)]


class FreeBlocks:
    """The maximal free blocks: aligned runs of 2**n free frames, n at most 9, each in no larger such run."""

    def __init__(self) -> None:
        self.blocks: List[set] = [set() for _ in range(LARGEST_ORDER + 1)]
        # Their first frames, lowest first; what is in no block any more is dropped when it is met.
        self.heaps: List[List[int]] = [[] for _ in self.blocks]

    def put(self, frame: int, order: int) -> None:
        """An aligned run of 2**order frames becomes free, and one with the free run beside it."""
        while order < LARGEST_ORDER and frame ^ 1 << order in self.blocks[order]:
            self.blocks[order].remove(frame ^ 1 << order)
            frame &= ~(1 << order)
            order += 1
        self.blocks[order].add(frame)
        heapq.heappush(self.heaps[order], frame)

    def lowest(self, order: int) -> Optional[int]:
        """The lowest block of this order."""
        heap = self.heaps[order]
        while heap and heap[0] not in self.blocks[order]:
            heapq.heappop(heap)
        return heap[0] if heap else None

    def take(self, size: int) -> Optional[int]:
        """Takes the choice for this size: the lowest frames of the lowest block of the least order that is large enough."""
        least = 3 * size
        order = next((order for order in range(least, LARGEST_ORDER + 1) if self.lowest(order) is not None), None)
        if order is None:
            return None
        frame = heapq.heappop(self.heaps[order])
        self.blocks[order].remove(frame)
        for smaller in range(least, order):
            self.put(frame + (1 << smaller), smaller)
        return frame


class Broken(NamedTuple):
    """A reservation that was broken: its first frame, its size, its stamp, its yield, and how many others its list had."""
    frame: int
    size: int
    stamp: int
    gives: int
    others: int


class Taken(NamedTuple):
    """How a page got its frame: the reservation that has it, if that was made for it, and what was broken before."""
    reservation: Reservation
    made: bool
    broken: Optional[Broken]


class Frames:
    """The frames' state. `sizes` are those that there are, ascending. What becomes of a run of frames is told to `paint`: its first frame,
    length and code. What reservation begins at a frame from now on, or that none does, is told to `outline`."""

    def __init__(self, count: int, sizes: Sequence[int], paint: Callable[[int, int, int], None],
                 outline: Callable[[int, Optional[Reservation]], None]) -> None:
        self.sizes, self.paint, self.outline = sizes, paint, outline
        self.free = FreeBlocks()
        # Reservations by space, size and first page.
        self.reservations: Dict[Tuple[int, int, int], Reservation] = {}
        # Those that give something back, by how much.
        self.partial: List[set] = [set() for _ in range(LARGEST)]
        # How many reservations begin in each extent of pages that is larger than they: by space, size and first page.
        self.inside: Counter = Counter()
        # The frame that a processor claims, the frames with a wired page, and the frame that a processor holds.
        self.claimed: Dict[int, int] = {}
        self.wired: set = set()
        self.held: Dict[int, int] = {}
        for frame in range(0, count, 1 << LARGEST_ORDER):
            self.free.put(frame, LARGEST_ORDER)

    def has(self, space: int, page: int) -> Optional[Reservation]:
        """The reservation that has the page."""
        keys = ((space, size, begin_of(size, page)) for size in range(LARGEST + 1))
        return next((self.reservations[key] for key in keys if key in self.reservations), None)

    def file(self, r: Reservation, by: int) -> None:
        """Enters the reservation in its list, or (-1) takes it out, before and after what is used of it changes."""
        size = r.give_back()
        if size is not None and size < LARGEST:
            (self.partial[size].add if by > 0 else self.partial[size].discard)(r)

    def enter(self, r: Reservation, by: int) -> None:
        """The reservation comes to be, or (-1) is none any more."""
        key = (r.space, r.size, r.first)
        if by > 0:
            self.reservations[key] = r
        else:
            del self.reservations[key]
        for size in range(r.size + 1, LARGEST + 1):
            self.inside[r.space, size, begin_of(size, r.first)] += by
        self.outline(r.frame, r if by > 0 else None)
        self.file(r, by)

    def fall_free(self, frame: int, size: int) -> None:
        """An extent of frames becomes free."""
        self.free.put(frame, 3 * size)
        self.paint(frame, pages_of(size), coded(FREE))

    def split(self, r: Reservation) -> List[Reservation]:
        """The reservation becomes its parts, and those without a used place become free. Answers all parts."""
        self.enter(r, -1)
        parts = r.parts()
        self.keep(parts)
        return parts

    def keep(self, parts: List[Reservation]) -> None:
        """Parts with a used place are reservations from now on, and the others are free."""
        for part in parts:
            if part.is_empty():
                self.fall_free(part.frame, part.size)
            else:
                self.enter(part, 1)

    def break_up(self, r: Reservation) -> Broken:
        """Breaks the reservation: where no part is empty, the lowest part that gives as much back is broken in the same way."""
        gives = r.give_back()
        broken = Broken(r.frame, r.size, r.stamp, gives, len(self.partial[gives]) - 1)
        parts = self.split(r)
        while not any(part.is_empty() for part in parts):
            parts = self.split(next(part for part in parts if part.give_back() == gives))
        return broken

    def oldest(self, size: int) -> Optional[Reservation]:
        """The oldest of the first list, from that of this size up, that has a reservation."""
        rows = (row for row in self.partial[size:] if row)
        return min(next(rows, ()), key=lambda r: (r.stamp, r.frame), default=None)

    def fits(self, space: int, page: int, want: Want, size: int) -> bool:
        """Whether a reservation of this size may have the page, which none has."""
        first, pages = begin_of(size, page), pages_of(size)
        met = self.inside[space, size, first] or (space, size, first) in self.reservations
        return want.low <= first and first + pages <= want.high and pages <= want.cap and not met

    def tried(self, space: int, page: int, want: Want) -> Sequence[int]:
        """The sizes up to the preferred one, ascending, for a page that no reservation has. A base page fits always."""
        preferred = max(size for size in self.sizes if size == 0 or self.fits(space, page, want, size))
        return self.sizes[:self.sizes.index(preferred) + 1]

    def take(self, stamp: int, space: int, page: int, frame: int, want: Want) -> Taken:
        """The page gets a frame by the rules, which has to be the one that is told."""
        r = self.has(space, page)
        taken = self.reserve(stamp, space, page, want) if r is None else Taken(r, False, None)
        r = taken.reservation
        place = page - r.first
        if r.frame + place != frame or r.used[0][place]:
            raise Astray('page %d of space %d gets frame %d, and by the rules %d' % (page, space, frame, r.frame + place))
        self.file(r, -1)
        r.add(place, 1)
        r.stamp = stamp
        self.file(r, 1)
        self.outline(r.frame, r)
        if want.wired:
            self.wired.add(frame)
        self.paint(frame, 1, coded(WIRED if want.wired else USED, space))
        return taken

    def reserve(self, stamp: int, space: int, page: int, want: Want) -> Taken:
        """Makes a reservation for the page, of the preferred size or the next that can be had."""
        sizes, broken = self.tried(space, page, want), None
        while sizes:
            size = sizes[-1]
            frame = self.free.take(size)
            if frame is None:
                oldest = self.oldest(size)
                if oldest is None:
                    sizes = sizes[:-1]
                    continue
                broken = self.break_up(oldest)
                frame = self.free.take(size)
            r = Reservation(space, begin_of(size, page), sizes, frame, stamp, bytes(pages_of(size)))
            self.enter(r, 1)
            self.paint(frame, pages_of(size), coded(UNUSED, space))
            return Taken(r, True, broken)
        raise Astray('page %d of space %d gets a frame, and by the rules there is none' % (page, space))

    def give(self, space: int, page: int) -> Optional[int]:
        """The page gives its frame up. Answers the processor that claimed the frame and holds it now."""
        r = self.has(space, page)
        if r is None or not r.used[0][page - r.first]:
            raise Astray('page %d of space %d gives a frame up, and has none' % (page, space))
        frame = r.frame + page - r.first
        claimer = next((c for c, claimed in self.claimed.items() if claimed == frame), None)
        self.wired.discard(frame)
        self.file(r, -1)
        r.add(page - r.first, -1)
        self.file(r, 1)
        if claimer is not None:
            self.carve(r, frame, claimer)
        elif r.is_empty():
            self.enter(r, -1)
            self.fall_free(r.frame, r.size)
        else:
            self.paint(frame, 1, coded(UNUSED, space))
            self.outline(r.frame, r)
        return claimer

    def carve(self, r: Reservation, frame: int, claimer: int) -> None:
        """The claimed frame leaves its reservation, which is split down to it, and its claimer holds it."""
        self.enter(r, -1)
        while r.size > 0:
            parts = r.parts()
            r = parts.pop((frame - r.frame) // pages_of(parts[0].size))
            self.keep(parts)
        del self.claimed[claimer]
        self.held[claimer] = frame
        self.paint(frame, 1, coded(HELD, claimer))

    def claim(self, processor: int, space: int, page: int, frame: int) -> None:
        """The processor claims the frame of the page."""
        r = self.has(space, page)
        if r is None or r.frame + page - r.first != frame or not r.used[0][page - r.first]:
            raise Astray('frame %d of page %d of space %d is claimed, and the page has another or none' % (frame, page, space))
        self.claimed[processor] = frame
        self.paint(frame, 1, coded(CLAIMED, space))

    def unclaim(self, processor: int, space: int) -> None:
        """The processor claims its frame no longer."""
        frame = self.claimed.pop(processor)
        self.paint(frame, 1, coded(USED, space))

    def pin(self, space: int, page: int, wired: bool) -> None:
        """The frame of the page is wired from now on, or isn't."""
        r = self.has(space, page)
        if r is None or not r.used[0][page - r.first]:
            raise Astray('page %d of space %d is pinned, and has no frame' % (page, space))
        frame = r.frame + page - r.first
        if frame in self.claimed.values():
            raise Astray('page %d of space %d is pinned, and its frame is claimed' % (page, space))
        (self.wired.add if wired else self.wired.discard)(frame)
        self.paint(frame, 1, coded(WIRED if wired else USED, space))

    def drop(self, processor: int) -> None:
        """The frame that the processor holds becomes free."""
        self.fall_free(self.held.pop(processor), 0)
