"""Reservations of one large size, in one queue, as FreeBSD's sys/vm/vm_reserv.c keeps them."""
from collections import OrderedDict
from typing import Dict, Optional, Tuple

from policy.frames import EXTENT, start_of
from policy.machine import Machine, Policy
from policy.space import Space

Place = Tuple[int, int]


class Reservation:
    """An extent of frames for an extent of pages, and how many of these have their frame."""

    def __init__(self, frame: int):
        self.frame = frame
        self.populated = 0


class Reservations(Policy):
    """The first touch in an extent of pages reserves an extent of frames, and later touches populate it. Where no frame is free, the partly populated
    reservation is broken whose population changed longest ago."""

    def __init__(self, machine: Machine):
        super().__init__(machine)
        # By space and first page.
        self.reservations: Dict[Place, Reservation] = {}
        # Those that are partly populated, the one that changed longest ago at the front.
        self.queue: 'OrderedDict[Place, Reservation]' = OrderedDict()

    def fill(self, space: Space, page: int) -> bool:
        place = space.number, start_of(page)
        if place not in self.reservations and self.may_reserve(space, place[1]):
            self.reserve(place)
        frame = self.frame_for(place, page)
        if frame is None:
            return False
        self.machine.put(space, page, frame)
        self.promote(space, place)
        return True

    def may_reserve(self, space: Space, first: int) -> bool:
        """The extent lies in the region, and none of its pages is resident."""
        return space.lies_in_region(first, EXTENT) and not any(page in space.frames for page in range(first, first + EXTENT))

    def reserve(self, place: Place) -> None:
        """Keeps an extent of frames, where one is free."""
        frame = self.machine.frames.take_extent()
        if frame is not None:
            self.reservations[place] = Reservation(frame)

    def frame_for(self, place: Place, page: int) -> Optional[int]:
        """The frame that is reserved for the page, or else a free one, for which a reservation is broken where there is none."""
        reservation = self.reservations.get(place)
        if reservation is not None:
            self.change(place, 1)
            return reservation.frame + page - place[1]
        frame = self.machine.frames.take_one()
        if frame is None and self.queue:
            self.break_oldest()
            frame = self.machine.frames.take_one()
        return frame

    def change(self, place: Place, by: int) -> None:
        """One page more, or fewer, of the reservation has its frame: it goes to the end of the queue, or leaves it."""
        reservation = self.reservations[place]
        reservation.populated += by
        self.queue.pop(place, None)
        if reservation.populated == 0:
            self.free(place)
        elif reservation.populated < EXTENT:
            self.queue[place] = reservation

    def free(self, place: Place) -> None:
        """The reservation goes, and the frames of its pages that have none are free."""
        reservation = self.reservations.pop(place)
        for at in range(EXTENT):
            if place[1] + at not in self.machine.spaces[place[0]].frames:
                self.machine.frames.give(reservation.frame + at)

    def break_oldest(self) -> None:
        """Breaks the reservation at the front of the queue."""
        self.free(self.queue.popitem(last=False)[0])

    def promote(self, space: Space, place: Place) -> None:
        """Maps the extent by a superpage where its reservation is fully populated and it is uniform."""
        reservation = self.reservations.get(place)
        full = reservation is not None and reservation.populated == EXTENT
        if full and place[1] not in space.superpages and space.is_uniform(place[1], EXTENT):
            self.machine.make(space, place[1])

    def changed(self, space: Space, page: int) -> None:
        """A superpage that isn't uniform any more is broken. At a first store, which is a fault, the extent may be promoted again."""
        super().changed(space, page)
        if page in space.dirty:
            self.promote(space, (space.number, start_of(page)))

    def given(self, space: Space, page: int, frame: int) -> None:
        """The frame stays reserved for the page, where it was."""
        place = space.number, start_of(page)
        if place in self.reservations:
            self.change(place, -1)
        else:
            super().given(space, page, frame)

    def reserved_count(self) -> int:
        return sum(EXTENT - reservation.populated for reservation in self.reservations.values())
