"""A run as lines of text: each call with its reply, and the tile sizes of the pages of small spaces behind it."""
from itertools import groupby
from typing import Dict, Iterator, List, NamedTuple, Set, Tuple

from pictures.following import Change, Run, State
from pictures.frames import LARGEST
from pictures.spaces import Region
from pictures.words import sizes_said

# The most pages of small regions that a line shows of a space, and the most pages of others.
MOST = 64
MOST_APART = 16
NO_FRAME, UNMAPPED = '-', '.'


def runs_of(numbers: List[int]) -> List[Tuple[int, int]]:
    """The runs of consecutive numbers among ascending ones: first and last."""
    groups = (list(group) for _, group in groupby(enumerate(numbers), lambda pair: pair[1] - pair[0]))
    return [(group[0][1], group[-1][1]) for group in groups]


def runs_text(numbers: List[int]) -> str:
    """Ascending numbers as `0-3,7`."""
    return ','.join(str(first) if first == last else '%d-%d' % (first, last) for first, last in runs_of(numbers))


class Shown(NamedTuple):
    """The pages of a space that a line shows, and if these are all that are resident once."""
    pages: List[int]
    all: bool


def shown_of(regions: Set[Region], resident: Set[int]) -> Shown:
    """Shows the pages of small regions, and of the others those that are resident once, where they are few."""
    small = {page for region in regions if region.length <= MOST for page in range(region.first, region.end)}
    others = resident - small
    if len(small) > MOST:
        return Shown([], False)
    return Shown(sorted(small | others), True) if len(others) <= MOST_APART else Shown(sorted(small), False)


def shown_pages(run: Run, changes: List[Change]) -> List[Shown]:
    """What a line shows of each space."""
    spaces = range(run.spaces)
    regions = [{region for change in changes for region in change.regions.get(space, ())} for space in spaces]
    resident = [{first for change in changes for first in change.tiles.get(space, ())} for space in spaces]
    return [shown_of(*pair) for pair in zip(regions, resident)]


def row_text(state: State, space: int, shown: Shown) -> str:
    """The pages of a space: the size of each one's tile, and which are dirty; and where others are resident how many tiles there are of each size."""
    tiles = state.tiles[space]
    marks: Dict[int, str] = {page: NO_FRAME for region in state.regions[space] for page in shown.pages if region.first <= page < region.end}
    covered = {page: tile for page, tile in ((page, state.tile_of(space, page)) for page in shown.pages) if tile is not None}
    marks.update({page: str(tile.size) for page, tile in covered.items()})
    parts = [' '.join(''.join(marks.get(page, UNMAPPED) for page in range(first, last + 1)) for first, last in runs_of(shown.pages))]
    dirty = [page for page in shown.pages if page in covered and covered[page].dirty]
    sizes = [tile.size for tile in tiles.values()]
    parts += ['dirty ' + runs_text(dirty)] * (dirty != [])
    parts += ['tiles ' + ' '.join(str(sizes.count(size)) for size in range(LARGEST + 1))] * (not shown.all)
    return '  '.join(part for part in parts if part)


def calls_and_rows(run: Run, changes: List[Change], shown: List[Shown]) -> Iterator[Tuple[str, str, str]]:
    """For each answer the call, the reply, and the pages of its space and of those that changed since the answer before."""
    state, changed = State(run), set()
    for change in changes:
        state.apply(change)
        changed.update(change.tiles)
        _, _, part, kind, *rest = change.line.split(' ')
        if kind == 'answer':
            changed.add(int(part[1:].split('+')[0]))
            name = 's%d ' if run.spaces > 1 else ''
            rows = [(name % space if name else '') + row_text(state, space, shown[space]) for space in sorted(changed)]
            yield change.call, ' '.join(rest[1:]), '; '.join(rows)
            changed.clear()


def legend(run: Run, shown: List[Shown]) -> List[str]:
    """What the last column is, and which page sizes there are where they aren't all."""
    out = ['Behind each call and its reply: the size of the translation of each page, worked out from the history; %s no frame, %s unmapped.'
           % (NO_FRAME, UNMAPPED)]
    said = sizes_said(run.sizes)
    out += [said[:1].upper() + said[1:]] * (said != '')
    for space, (pages, everything) in enumerate(shown):
        parts = ['pages ' + runs_text(pages)] * (pages != []) + ['how many translations (tiles) have 1, 8, 64 and 512 pages'] * (not everything)
        out.append('Space %d: %s' % (space, ', and '.join(parts) or 'no page'))
    return out


def text(run: Run, changes: List[Change]) -> str:
    """The lines: what is shown, the calls, and the counts as the program printed them."""
    shown = shown_pages(run, changes)
    rows = list(calls_and_rows(run, changes, shown))
    wide = [max((len(row[at]) for row in rows), default=0) for at in (0, 1)]
    lines = [('%-*s  %-*s  %s' % (wide[0], call, wide[1], reply, pages)).rstrip() for call, reply, pages in rows]
    counts = [' '.join([name] + [str(number) for number in numbers]) for name, numbers in run.counts.items() if numbers]
    return '\n'.join(legend(run, shown) + [''] + lines + [''] + counts + [''])
