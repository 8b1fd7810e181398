"""Where the frames and pages of a run are drawn, and in which colours; for the page and for the still picture."""
from typing import Dict, Iterable, List, NamedTuple, Set, Tuple

from pictures.following import Change, Run
from pictures.frames import CLAIMED, FREE, HELD, UNUSED, USED, WIRED
from pictures.spaces import Region
from pictures.words import SIZE_NAMES, pages, run_of

# Frames and pages a row: a page of size 2 is a row, and one of size 3 eight rows.
ROW = 64
BOX = 512
# The most rows of pages that are drawn.
MOST_ROWS = 1024
# How wide a column of boxes may be in all, and the room round a box and above it for its title, in pixels.
WIDTH = 836
GAP = 12
TITLE = 15
# The sides of a cell, in pixels: the largest one that a drawing of so many rows may have comes first.
CELLS = ((24, 2), (13, 24), (6, 160), (3, 10 ** 9))

# One colour for each space, and how a role changes it: how much of the other colour, white or black, is in it.
SPACES = ('#2f6db3', '#d9822b', '#2f9e68', '#8d5cc2', '#b8437a', '#1592a5', '#94812a', '#5d6d7e',
          '#5877e0', '#b5622f', '#5f9e2f', '#6a4fa3', '#d06a9b', '#2a7f7f', '#c2a21c', '#7d8a98')
ROLES = {FREE: '#e3e7ed', CLAIMED: '#d62828', HELD: '#16181d'}
TINTS = {UNUSED: ('#ffffff', 0.72), USED: ('#ffffff', 0.0), WIRED: ('#000000', 0.45)}
# What a role is called: in a still picture, and where it is another on a page.
NAMES = {FREE: 'free', UNUSED: 'unused place of a reservation', USED: 'under a page', WIRED: 'under a wired page',
         CLAIMED: 'under a page, and claimed', HELD: 'held by processor'}
PAGE_NAMES = {**NAMES, UNUSED: 'reserved and unpopulated'}
TILES = ('#fbe08a', '#86cf8b', '#3f9fb0', '#3f4f9a')
TILE_NAMES = tuple('%s (%s)' % (pages(8 ** size), name) for size, name in enumerate(SIZE_NAMES))
MAPPED = '#ffffff'
UNMAPPED = '#e3e7ed'
BORDER = '#aab4bf'
GRID = '#d5dae0'
DIRTY = '#c8102e'
OUTLINE = '#1d2733'
FOCUS = '#e6007e'


class Box(NamedTuple):
    """A grid of cells: what it is of (a space, or -1 for the frames), its first number, its cells and those of a row, and its place in pixels."""
    space: int
    first: int
    count: int
    columns: int
    x: int
    y: int
    title: str


class Grid(NamedTuple):
    """Boxes with the side of a cell, and their width and height in all, in pixels."""
    cell: int
    boxes: List[Box]
    width: int
    height: int


def mixed(colour: str, other: str, share: float) -> str:
    """A colour with this share of another one."""
    channels = ((int(colour[at:at + 2], 16), int(other[at:at + 2], 16)) for at in (1, 3, 5))
    return '#' + ''.join('%02x' % round(one + (two - one) * share) for one, two in channels)


def colour_of(code: int) -> str:
    """The colour of a frame by its role and space."""
    role = code % 16
    return ROLES[role] if role in ROLES else mixed(SPACES[code // 16], *TINTS[role])


def name_of(code: int, spaces: int, names: Dict[int, str] = NAMES) -> str:
    """The name of a frame's role, with its space where there are several."""
    role, owner = code % 16, code // 16
    if role == HELD:
        return '%s %d' % (names[role], owner)
    return names[role] + (', of space %d' % owner if spaces > 1 and role != FREE else '')


def cell_for(rows: int, columns: int) -> int:
    """The side of a cell where so many rows are drawn."""
    return next(cell for cell, most in CELLS if rows <= most and columns * cell <= WIDTH)


def placed(boxes: List[Box]) -> Grid:
    """The boxes side by side, from left to right and then below."""
    cell = cell_for(sum(-(-box.count // box.columns) for box in boxes), max((box.columns for box in boxes), default=1))
    x = y = wide = high = 0
    out = []
    for box in boxes:
        width, height = max(box.columns * cell, 7 * len(box.title)), -(-box.count // box.columns) * cell + TITLE
        if x and x + width > WIDTH:
            x, y, high = 0, y + high + GAP, 0
        out.append(box._replace(x=x, y=y + TITLE))
        x, high, wide = x + width + GAP, max(high, height), max(wide, x + width)
    return Grid(cell, out, wide, y + high)


def frame_grid(run: Run) -> Grid:
    """The frames, in boxes of 512: a reservation of 8, 64 or 512 is a part of a row, a row, or a box."""
    return placed([Box(-1, first, BOX, ROW, 0, 0, run_of('frame', first, BOX)) for first in range(0, run.frames, BOX)])


class Drawn:
    """The pages that are drawn: the rows with a page that is resident once, and those where a region begins."""

    def __init__(self) -> None:
        self.rows: Set[Tuple[int, int]] = set()
        self.regions: Set[Tuple[int, Region]] = set()

    def add(self, change: Change) -> None:
        """What an entry changes is drawn too."""
        self.rows.update((space, page // ROW) for space, tiles in change.tiles.items() for page in tiles)
        self.regions.update((space, region) for space, regions in change.regions.items() for region in regions)

    def boxes(self) -> Dict[Tuple[int, int], Set[int]]:
        """By space and box the rows that are drawn."""
        out: Dict[Tuple[int, int], Set[int]] = {}
        for space, row in self.rows | {(space, region.first // ROW) for space, region in self.regions}:
            out.setdefault((space, row * ROW // BOX), set()).add(row)
        return out

    def lengths(self) -> Dict[Tuple[int, int], int]:
        """By space and row how far into it regions reach."""
        reach: Dict[Tuple[int, int], int] = {}
        for space, region in self.regions:
            row = region.first // ROW
            reach[space, row] = max(reach.get((space, row), 0), min(ROW, region.end - row * ROW))
        return reach


def drawn_of(changes: Iterable[Change]) -> Drawn:
    """What is drawn of these entries."""
    drawn = Drawn()
    for change in changes:
        drawn.add(change)
    return drawn


def page_grid(drawn: Drawn) -> Tuple[Grid, int]:
    """The pages that are drawn, in boxes of rows of one extent of 512 pages; and how many boxes are left out."""
    boxes, rows_left, reach = [], MOST_ROWS, drawn.lengths()
    rows = drawn.boxes()
    for (space, _), some in sorted(rows.items()):
        low, count = min(some), max(some) - min(some) + 1
        rows_left -= count
        if rows_left < 0:
            break
        columns = ROW if count > 1 else -(-reach.get((space, low), ROW) // 8) * 8
        title = 'space %d: %s' % (space, run_of('page', low * ROW, (count - 1) * ROW + columns))
        boxes.append(Box(space, low * ROW, (count - 1) * ROW + columns, columns, 0, 0, title))
    return placed(boxes), len(rows) - len(boxes)
