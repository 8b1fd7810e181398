"""Which extent of frames could be emptied by the fewest evictions, and of which pages (Emptying.antt, PlanText.antt)."""
from typing import List, NamedTuple, Optional, Tuple

from .frames import Frames
from .printed import line_of
from .values import pages_of


class Planned(NamedTuple):
    """The first frame of an extent, and the spaces and pages of its used frames, ascending by frame."""
    first: int
    pages: List[Tuple[int, int]]


def may_be_emptied(state: Frames, extent: range) -> bool:
    """None of the extent's frames is wired, claimed or held. (Emptying.antt: MayBeEmptied)"""
    used = [state.used[frame] for frame in extent if frame in state.used]
    return not any(u.wired or u.claim is not None for u in used) and not any(frame in extent for frame in state.held.values())


def cost_of(state: Frames, extent: range) -> int:
    """An eviction for each used frame. (Emptying.antt: cost_of)"""
    return sum(frame in state.used for frame in extent)


def planned(state: Frames, size: int) -> Optional[Planned]:
    """The extent of a size that costs least among those that may be emptied, the lowest of equal ones; or None where none may be. (Emptying.antt:
    IsPlanned)"""
    extents = [range(first, first + pages_of(size)) for first in range(0, state.count, pages_of(size))]
    loose = [extent for extent in extents if may_be_emptied(state, extent)]
    if not loose:
        return None
    cheapest = min(loose, key=lambda extent: (cost_of(state, extent), extent.start))
    pages = {frame: page for page, frame in state.used_pages().items()}
    return Planned(cheapest.start, [pages[frame] for frame in cheapest if frame in pages])


def plan_text(plan: Optional[Planned]) -> str:
    """The extent and its cost, or that there is none; a line for each page; and the end. (PlanText.antt)"""
    if plan is None:
        return line_of(['plan', 'none']) + line_of(['end'])
    return line_of(['plan', plan.first, len(plan.pages)]) + ''.join(map(line_of, plan.pages)) + line_of(['end'])
