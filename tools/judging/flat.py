"""The flat memory, which knows no frames and no superpages, and by which each answer is measured (Flat.antt, Regions.antt).

What is kept is sparse: a word that isn't there is zero, a copy that isn't there is zero, and a page without rights of its own has those of its
region.
"""
from typing import Dict, List, Optional, Set

from .values import (CLEAN, DENIED, DONE, MOST_REGIONS, SPACE_PAGES, UNMAPPED, WRITTEN, Call, Discard, Evict, Grow, Load, Map, Protect, Reply,
                     Store, Sync, Unmap, Unwire, Want, Wire, page_of, page_of_call, word_of)

Words = Dict[int, int]


class Region:
    """A first page, a length, a kind, first rights, and whether a call pinned it."""

    def __init__(self, first: int, length: int, kind: str, rights: str):
        self.first, self.length, self.kind, self.rights, self.pinned = first, length, kind, rights, False

    @property
    def end(self) -> int:
        """The first page after it."""
        return self.first + self.length

    @property
    def wired(self) -> bool:
        """Its pages keep their frames: by its kind, or because it is pinned. (Regions.antt)"""
        return self.kind == 'wired' or self.pinned

    def meets(self, first: int, length: int) -> bool:
        """It has one of the pages of the range."""
        return self.first < first + length and first < self.end


class Flat:
    """Regions, and of each page its rights, words, copy and dirty flag."""

    def __init__(self):
        self.regions: List[Region] = []
        self.own_rights: Dict[int, str] = {}
        self.words: Dict[int, Words] = {}
        # A copy is None where it is unknown.
        self.copies: Dict[int, Optional[Words]] = {}
        self.dirty: Set[int] = set()

    def region_at(self, page: int) -> Optional[Region]:
        """The region that has the page, where one has it. (Regions.antt)"""
        return next((r for r in self.regions if r.first <= page < r.end), None)

    def rights_of(self, page: int) -> str:
        """The rights of a page of a region."""
        own = self.own_rights.get(page)
        return self.region_at(page).rights if own is None else own

    def words_of(self, page: int) -> Words:
        return self.words.get(page, {})

    def copy_of(self, page: int) -> Optional[Words]:
        return self.copies.get(page, {})


def has_right(writing: bool, rights: str) -> bool:
    """The right to write includes the right to read. (SpaceStates.antt)"""
    return rights == 'write' or (rights == 'read' and not writing)


def reply_of(flat: Flat, call: Call) -> Reply:
    """What a call is answered. Refusals are looked at in a stated order. (Flat.antt)"""
    if isinstance(call, Map):
        return map_reply(flat, call)
    region = flat.region_at(page_of_call(call))
    if region is None:
        return UNMAPPED
    if isinstance(call, Grow):
        return grow_reply(flat, region, call)
    if isinstance(call, (Protect, Discard)) and call.page + call.length > region.end:
        return UNMAPPED
    if isinstance(call, (Load, Store)):
        return access_reply(flat, call)
    if isinstance(call, (Evict, Discard)) and region.wired or isinstance(call, Unwire) and region.kind == 'wired':
        return DENIED
    if isinstance(call, (Sync, Evict)):
        return WRITTEN if call.page in flat.dirty else CLEAN
    return DONE


def map_reply(flat: Flat, call: Map) -> Reply:
    """A map: out of space, overlap, 64 regions; otherwise done. (Regions.antt)"""
    if call.page + call.length > SPACE_PAGES:
        return ('outofspace',)
    if any(r.meets(call.page, call.length) for r in flat.regions):
        return ('overlap',)
    return ('regionsfull',) if len(flat.regions) >= MOST_REGIONS else DONE


def grow_reply(flat: Flat, region: Region, call: Grow) -> Reply:
    """A growth of a region: not growing, out of space, overlap; otherwise done. (Regions.antt)"""
    if region.kind != 'growing':
        return ('notgrowing',)
    if region.end + call.by > SPACE_PAGES:
        return ('outofspace',)
    return ('overlap',) if any(r.meets(region.end, call.by) for r in flat.regions) else DONE


def access_reply(flat: Flat, call: Call) -> Reply:
    """A load or store of a page of a region: denied without the right; otherwise the word, or done. (Flat.antt)"""
    page = page_of(call.address)
    if not has_right(isinstance(call, Store), flat.rights_of(page)):
        return DENIED
    return DONE if isinstance(call, Store) else ('value', flat.words_of(page).get(word_of(call.address), 0))


def is_lawful(reply: Reply) -> bool:
    """The reply is no refusal. (Flat.antt)"""
    return reply[0] in ('done', 'value', 'clean', 'written')


def after_call(flat: Flat, call: Call) -> None:
    """The memory becomes that after the call. A refusal changes nothing. (Flat.antt)"""
    if not is_lawful(reply_of(flat, call)):
        return
    if isinstance(call, Map):
        flat.regions.append(Region(call.page, call.length, call.kind, call.rights))
    elif isinstance(call, Grow):
        flat.region_at(call.page).length += call.by
    elif isinstance(call, Unmap):
        unmap(flat, flat.region_at(call.page))
    elif isinstance(call, Discard):
        forget(flat, range(call.page, call.page + call.length))
    elif isinstance(call, (Wire, Unwire)):
        flat.region_at(call.page).pinned = isinstance(call, Wire)
    elif isinstance(call, Protect):
        flat.own_rights.update((p, call.rights) for p in range(call.page, call.page + call.length))
    elif isinstance(call, Store):
        page = page_of(call.address)
        flat.words.setdefault(page, {})[word_of(call.address)] = call.word
        flat.dirty.add(page)
    elif isinstance(call, (Sync, Evict)):
        out(flat, call.page)


def unmap(flat: Flat, region: Region) -> None:
    """The region goes, and what its pages held: the pages of a later region are new. (Flat.antt)"""
    flat.regions.remove(region)
    pages = range(region.first, region.end)
    forget(flat, pages)
    for p in [p for p in flat.own_rights if p in pages]:
        del flat.own_rights[p]


def forget(flat: Flat, pages: range) -> None:
    """The pages are zero, equal to their copies and clean; their rights stay. (Flat.antt)"""
    for p in [p for table in (flat.words, flat.copies, flat.dirty) for p in table if p in pages]:
        flat.words.pop(p, None)
        flat.copies.pop(p, None)
        flat.dirty.discard(p)


def out(flat: Flat, page: int) -> None:
    """The page is written to its copy, and isn't dirty. (Flat.antt)"""
    flat.copies[page] = dict(flat.words_of(page))
    flat.dirty.discard(page)


def lost(flat: Flat, page: int) -> None:
    """A failed write leaves the copy unknown, and the page as it is. (Flat.antt)"""
    flat.copies[page] = None


def wanted(flat: Flat, page: int) -> Optional[Want]:
    """Where a reservation for the page may lie: within a fixed or wired region, and up to the next region round a growing one; with no more
    pages than the region has now. Whether the region is pinned changes none of these. (Regions.antt)"""
    region = flat.region_at(page)
    if region is None:
        return None
    above = min((r.first for r in flat.regions if r.first >= region.end), default=SPACE_PAGES)
    return Want(region.first, above if region.kind == 'growing' else region.end, region.length, region.wired)
