"""A still picture of the frames and pages after an entry, as one SVG file."""
import textwrap
from html import escape
from typing import Iterable, List, Tuple

from pictures import layout
from pictures.following import Change, Run, State, state_after
from pictures.frames import pages_of
from pictures.layout import Box, Grid
from pictures.words import pages

MARGIN = 14
LINE = 17
# How many letters of a sentence a line takes, and how wide a letter is at most, in pixels.
LETTERS = 120
LETTER = 6.8

STYLE = ('text{font:12px sans-serif;fill:#1d2733}.t{font-size:11px;fill:#5a6572}.h{font-size:15px;font-weight:bold}'
         '.n{font-size:9px;text-anchor:middle}'
         'path{fill:none}.l{stroke:#fff}.g{stroke:%s}.b,.k{stroke:%s}.o{stroke:%s;stroke-width:1.6}.f{stroke:%s;stroke-width:2.6}'
         % (layout.GRID, layout.BORDER, layout.OUTLINE, layout.FOCUS))


def text(x: float, y: float, said: str, kind: str = '') -> str:
    return '<text x="%g" y="%g"%s>%s</text>' % (x, y, ' class="%s"' % kind if kind else '', escape(said))


def rect(x: float, y: float, wide: float, high: float, colour: str) -> str:
    return '<rect x="%g" y="%g" width="%g" height="%g" fill="%s"/>' % (x, y, wide, high, colour)


def runs(colours: List[str]) -> Iterable[Tuple[int, int, str]]:
    """The runs of one colour in a row: where they begin, how long they are, and the colour."""
    begin = 0
    for at in range(1, len(colours) + 1):
        if at == len(colours) or colours[at] != colours[begin]:
            yield begin, at - begin, colours[begin]
            begin = at


def cells(box: Box, cell: int, colours: List[str], high: float = 1.0) -> List[str]:
    """The cells of a box, of this share of their height from below; a colour may be missing."""
    out, inset = [], cell * (1 - high)
    for at in range(0, box.count, box.columns):
        y = box.y + at // box.columns * cell + inset
        row = runs(colours[at:at + box.columns])
        out += [rect(box.x + first * cell, y, length * cell, cell - inset, colour) for first, length, colour in row if colour]
    return out


def lines(box: Box, cell: int, kind: str) -> str:
    """The lines between the cells of a box, and round it."""
    rows = -(-box.count // box.columns)
    down = ''.join('M%d %dv%d' % (box.x + at * cell, box.y, rows * cell) for at in range(1, box.columns))
    across = ''.join('M%d %dh%d' % (box.x, box.y + at * cell, box.columns * cell) for at in range(1, rows))
    return '<path class="%s" d="%s"/><path class="b" d="%s"/>' % (kind, down + across, extent(box, cell, box.first, box.count))


def extent(box: Box, cell: int, first: int, count: int) -> str:
    """The path round an extent of numbers, which is a part of a row, or rows."""
    at = first - box.first
    wide, high = min(count, box.columns), max(1, count // box.columns)
    return 'M%g %gh%dv%dh-%dz' % (box.x + at % box.columns * cell, box.y + at // box.columns * cell, wide * cell, high * cell, wide * cell)


def outlines(grid: Grid, space: int, extents: Iterable[Tuple[int, int]], kind: str = 'o') -> str:
    """The outlines of extents, each a first number and how many, of the frames (-1) or of a space."""
    boxes = [box for box in grid.boxes if box.space == space]
    paths = [extent(box, grid.cell, first, count) for first, count in extents for box in boxes if box.first <= first < box.first + box.count]
    return '<path class="%s" d="%s"/>' % (kind, ''.join(paths)) if paths else ''


def frames_of(grid: Grid, state: State) -> List[str]:
    """The frames, coloured by role, and the outlines of reservations."""
    out = []
    for box in grid.boxes:
        out += [text(box.x, box.y - 4, box.title, 't')]
        out += cells(box, grid.cell, [layout.colour_of(code) for code in state.codes[box.first:box.first + box.count]])
        out += [lines(box, grid.cell, 'l')]
    return out + [outlines(grid, -1, [(frame, pages_of(r.size)) for frame, r in sorted(state.outlines.items())])]


def mapped(box: Box, state: State) -> List[str]:
    """The colour of each page of a box without a frame."""
    colours = [layout.UNMAPPED] * box.count
    for region in state.regions[box.space]:
        low, high = max(0, region.first - box.first), min(box.count, region.end - box.first)
        colours[low:max(low, high)] = [layout.MAPPED] * max(0, high - low)
    return colours


def page_colours(box: Box, state: State) -> Tuple[List[str], List[str]]:
    """The colour of each page of a box, by its tile, and the colour of its mark where it is dirty."""
    colours, marks = mapped(box, state), [''] * box.count
    for at in range(box.count):
        tile = state.tile_of(box.space, box.first + at)
        if tile is not None:
            colours[at], marks[at] = layout.TILES[tile.size], layout.DIRTY * tile.dirty
    return colours, marks


def pages_drawn(grid: Grid, state: State) -> List[str]:
    """The pages, coloured by the size of their tiles, with a mark where they are dirty, and the outlines of tiles."""
    out = []
    for box in grid.boxes:
        colours, marks = page_colours(box, state)
        out += [text(box.x, box.y - 4, box.title, 't')] + cells(box, grid.cell, colours)
        out += [lines(box, grid.cell, 'g')] + cells(box, grid.cell, marks, 0.2)
        if grid.cell >= 24:
            out += [text(box.x + (at % box.columns + 0.5) * grid.cell, box.y + (at // box.columns + 0.6) * grid.cell, str(box.first + at), 'n')
                    for at in range(box.count)]
    tiles = [(space, [(first, pages_of(tile.size)) for first, tile in sorted(some.items())]) for space, some in enumerate(state.tiles)]
    return out + [outlines(grid, space, extents) for space, extents in tiles]


def legend(entries: List[Tuple[str, str]], y: int) -> Tuple[List[str], int]:
    """Colours with their names, in rows, and how far down they reach. No colour is an outline."""
    out, x = [], 0
    for colour, name in entries:
        wide = 17 + LETTER * len(name) + 20
        if x and x + wide > layout.WIDTH:
            x, y = 0, y + LINE
        kind = 'k' if colour else 'o'
        out += [rect(x, y, 12, 12, colour)] * (colour != '')
        out += ['<path class="%s" d="M%g %dh12v12h-12z"/>' % (kind, x, y), text(x + 17, y + 10, name)]
        x += wide
    return out, y + LINE


def roles_seen(state: State) -> List[Tuple[str, str]]:
    """The colours of the frames with their names, of those that are there."""
    return [(layout.colour_of(code), layout.name_of(code, len(state.tiles))) for code in sorted(set(state.codes))] + [('', 'reservation')]


def tiles_seen(state: State) -> List[Tuple[str, str]]:
    """The colours of the pages with their names, of those that are there."""
    sizes = {tile.size for tiles in state.tiles for tile in tiles.values()}
    out = [(layout.MAPPED, 'mapped, without a frame'), (layout.UNMAPPED, 'unmapped')]
    out += [(layout.TILES[size], 'translation of ' + layout.TILE_NAMES[size]) for size in sorted(sizes)]
    dirty = any(tile.dirty for tiles in state.tiles for tile in tiles.values())
    return out + [(layout.DIRTY, 'dirty')] * dirty + [('', 'extent of one translation')]


def focus(state: State, change: Change, frames: Grid, some: Grid) -> Tuple[str, str]:
    """The outlines round the frame and the page that an entry is about."""
    frame, page = [], ''
    if change.paints and change.paints[-1][1] == 1:
        frame = [change.paints[-1][:2]]
    if change.page is not None:
        space, number = change.page
        page = outlines(some, space, [(number, 1)], 'f')
        frame = frame or [(tile.frame + number - first, 1) for first, tile in state.tiles[space].items() if 0 <= number - first < pages_of(tile.size)]
    return outlines(frames, -1, frame, 'f'), page


def counts_text(state: State) -> str:
    """The counts so far, in a line."""
    names = ('hits', 'misses', 'promotions', 'demotions', 'preemptions', 'claims', 'frames free', 'unused places', 'under a page')
    return ', '.join('%s %d' % pair for pair in zip(names, state.counts + state.shares()))


def sentences(change: Change) -> List[str]:
    """What an entry means. What served an access stands behind its call; the page says that in words of its own."""
    if not change.used:
        return change.meaning
    hit, size = change.line.split(' ')[-2:]
    found = 'A hit: its image had the translation' if hit == 'hit' else 'A miss: its image had no translation of the page'
    return [change.meaning[0], '%s. The page has one of %s now.' % (found, pages(pages_of(int(size)))), *change.meaning[1:]]


def heading(name: str, changes: List[Change], entries: int) -> Tuple[List[str], int]:
    """The title, and what the last entry means; and how high they are."""
    title, said = '%s, before entry 0' % name, ['All frames are free.']
    if entries:
        title, said = '%s, after entry %d (the last is %d)' % (name, entries - 1, len(changes) - 1), sentences(changes[entries - 1])
    wrapped = [line for sentence in said for line in textwrap.wrap(sentence, LETTERS)]
    head = [text(0, 14, title, 'h')] + [text(0, 36 + LINE * at, line) for at, line in enumerate(wrapped)]
    return head, 36 + LINE * len(wrapped)


def drawing(run: Run, changes: List[Change], name: str, entries: int) -> str:
    """The SVG text of the picture after so many entries."""
    state = state_after(run, changes, entries)
    frames, (some, left) = layout.frame_grid(run), layout.page_grid(layout.drawn_of(changes))
    marks = focus(state, changes[entries - 1], frames, some) if entries else ('', '')
    roles, tiles = legend(roles_seen(state), frames.height + 9), legend(tiles_seen(state), some.height + 9)
    last = [text(0, 8, counts_text(state), 't')] + [text(0, 24, 'Boxes of pages that are not drawn: %d' % left, 't')] * (left > 0)
    parts = [heading(name, changes, entries), (frames_of(frames, state) + [marks[0]] + roles[0], roles[1] + 12),
             (pages_drawn(some, state) + [marks[1]] + tiles[0], tiles[1] + 12), (last, 14 + LINE * (left > 0))]
    body, y = [], MARGIN
    for drawn, high in parts:
        body += ['<g transform="translate(%d %d)">' % (MARGIN, y)] + drawn + ['</g>']
        y += high
    size = (2 * MARGIN + layout.WIDTH, y + MARGIN)
    start = '<svg xmlns="http://www.w3.org/2000/svg" viewBox="0 0 %d %d" width="%d" height="%d">' % (size * 2)
    return '\n'.join([start, '<style>%s</style>' % STYLE, rect(0, 0, *size, '#fff')] + [part for part in body if part] + ['</svg>', ''])
