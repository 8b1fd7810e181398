"""A space as a policy sees it: its regions and rights, the frame of each resident page, superpages and TLBs."""
from collections import OrderedDict, defaultdict
from typing import DefaultDict, Dict, Set, Tuple

from judging.flat import Flat

# How many translations a TLB holds.
ROOM = 128
# What one translation maps: its first page and how many pages. A base page is one.
Translation = Tuple[int, int]


class Space:
    """One address space. Of its pages it is known which had a frame since their region was mapped, and which are dirty."""

    def __init__(self, number: int) -> None:
        self.number = number
        # Regions and rights, and which calls are refused.
        self.flat = Flat()
        # By its first page, which call mapped a region.
        self.mapped_by: Dict[int, int] = {}
        self.frames: Dict[int, int] = {}
        self.seen: Set[int] = set()
        self.dirty: Set[int] = set()
        # The superpage of each page that has one.
        self.superpages: Dict[int, Translation] = {}
        # The TLB of each processor, the translation that was used last at the end.
        self.tlbs: DefaultDict[int, 'OrderedDict[Translation, None]'] = defaultdict(OrderedDict)

    def translation(self, page: int) -> Translation:
        """What maps the page."""
        return self.superpages.get(page, (page, 1))

    def forget(self, translation: Translation) -> None:
        """The translation leaves all TLBs: it isn't there any more, or is another one."""
        for tlb in self.tlbs.values():
            tlb.pop(translation, None)

    def use(self, processor: int, page: int) -> None:
        """The page's translation is the one that the processor used last."""
        tlb, translation = self.tlbs[processor], self.translation(page)
        tlb[translation] = None
        tlb.move_to_end(translation)
        if len(tlb) > ROOM:
            tlb.popitem(last=False)

    def make(self, first: int, length: int) -> None:
        """These pages become a superpage."""
        for page in range(first, first + length):
            self.forget(self.translation(page))
            self.superpages[page] = first, length

    def split(self, superpage: Translation) -> None:
        """Each page of the superpage has a translation of its own again."""
        first, length = superpage
        self.forget(superpage)
        for page in range(first, first + length):
            del self.superpages[page]

    def lies_in_region(self, first: int, length: int) -> bool:
        """Whether these pages lie in one region."""
        region = self.flat.region_at(first)
        return region is not None and first + length <= region.end

    def has_one_right(self, first: int, length: int) -> bool:
        """Whether these pages, which lie in one region, have the same access rights."""
        own, usual = self.flat.own_rights, self.flat.region_at(first).rights
        rights = own.get(first, usual)
        return all(own.get(page, usual) == rights for page in range(first, first + length))

    def is_uniform(self, first: int, length: int) -> bool:
        """Whether these pages are all resident, in one region, with the same access rights and one dirty flag: a superpage may map them."""
        pages, dirty = range(first, first + length), first in self.dirty
        alike = all(page in self.frames and (page in self.dirty) == dirty for page in pages)
        return alike and self.lies_in_region(first, length) and self.has_one_right(first, length)
