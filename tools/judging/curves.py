"""The misses of images of each capacity, with the tiles of a run and with base pages alone (crates/miss_curves/specs/Curves.antt,
crates/lru_stack/specs/Followers.antt, crates/report_text/specs/CurveText.antt).

An image is walked for each capacity, by the rule of an image with another number in place of 128.
"""
from collections import OrderedDict
from typing import Iterable, List, NamedTuple, Optional, Sequence, Set, Tuple

from .printed import line_of
from .spaces import Space
from .tiles import Tiles
from .values import Answer, Entry, Sizes, Tile, Trace, has_size, page_of

# The capacities of the form `curve`, and those of a stream's.
CAPACITIES = range(1, 1025)
STREAMED_CAPACITIES = range(1, 4097)
BASE_ALONE = (0,)


class Step(NamedTuple):
    """What an entry does to the images of its space: these tiles went; and where a page was used, its tile before the entry and after it."""
    gone: Set[Tile]
    before: Optional[Tile]
    after: Optional[Tile]


class Noting(Tiles):
    """The tiles of a space, which note what went and keep no image."""

    def __init__(self, sizes: Sizes):
        super().__init__(sizes)
        self.gone: Set[Tile] = set()

    def forget(self, gone: Set[Tile]) -> None:
        self.gone |= gone


def page_used(e: Entry) -> Optional[int]:
    """The page of an answer of processor 0 with a size. (Curves.antt)"""
    w = e.what
    is_use = isinstance(w, Answer) and e.processor == 0 and has_size(w.call, w.reply)
    return page_of(w.call.address) if is_use else None


def steps_of(sizes: Sizes, entries: Iterable[Entry]) -> List[Step]:
    """What the entries of a space do to its images, with tiles by these sizes."""
    space, steps = Space(sizes, True, 0), []
    for e in entries:
        tiles, page = Noting(sizes), page_used(e)
        tiles.begins = space.tiles.begins
        space.tiles = tiles
        before = None if page is None else tiles.tile_at(page)
        space.after(e)
        steps.append(Step(tiles.gone, before, None if page is None else tiles.tile_at(page)))
    return steps


def misses(steps: Sequence[Step], capacity: int) -> Tuple[int, bool]:
    """A use is a miss where the page's tile, as it was before the entry, isn't in the image. Then what is no tile any more leaves the image,
    and the tile that the page has now comes to its front, here the end. The image is cut to its capacity; whether it ever was is told too.
    (Curves.antt)"""
    image: 'OrderedDict[Tile, None]' = OrderedDict()
    missed, was_cut = 0, False
    for step in steps:
        missed += step.after is not None and step.before not in image
        for tile in step.gone:
            image.pop(tile, None)
        if step.after is not None:
            image[step.after] = None
            image.move_to_end(step.after)
        if len(image) > capacity:
            image.popitem(last=False)
            was_cut = True
    return missed, was_cut


def curve_of(steps: Sequence[Step], capacities: Iterable[int]) -> List[int]:
    """The misses at each of these capacities, which ascend. An image that was never cut is that of every larger capacity too."""
    curve, missed, was_cut = [], 0, True
    for capacity in capacities:
        if was_cut:
            missed, was_cut = misses(steps, capacity)
        curve.append(missed)
    return curve


def curve_by(trace: Trace, history: Sequence[Entry], sizes: Sizes, capacities: Sequence[int]) -> List[int]:
    """The misses of a history at each capacity, over all spaces, with tiles by these sizes. (Curves.antt: misses_by)"""
    curves = [curve_of(steps_of(sizes, [e for e in history if e.space == s]), capacities) for s in range(trace.spaces)]
    return [sum(column) for column in zip(*curves)]


def curves_text(trace: Trace, history: Sequence[Entry], sizes: Sizes, capacities: Sequence[int] = CAPACITIES) -> str:
    """A line for each capacity, with the misses by the tiles of the run and by base pages alone; and the end. (CurveText.antt)"""
    rows = zip(capacities, curve_by(trace, history, sizes, capacities), curve_by(trace, history, BASE_ALONE, capacities))
    return ''.join(map(line_of, rows)) + line_of(['end'])
