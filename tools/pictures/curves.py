"""The miss curves of a run: as lines of text, as one SVG file, and as a page on which a capacity is chosen."""
import json
import re
from html import escape
from math import ceil, log2
from typing import List, NamedTuple, Tuple

from common import Stopped, output_of
from pictures import layout
from pictures.page import part
from pictures.still import LINE, MARGIN, rect, text

# The largest capacity, and that of a processor's image.
MOST = 1024
USUAL = 128
# The capacities that have a line of text, or of the page's table.
CHOSEN = tuple(2 ** n for n in range(11))
NAMES = ("with the run's translations", 'with base pages alone')
COLOURS = ('#3f4f9a', '#d9822b')
# Where the curves are drawn, in pixels.
LEFT, TOP, HIGH = 62, 34, 300
WIDE = layout.WIDTH - LEFT - 8
# How many lines there are across at most, but for that of 0, and how long the longest bar of the text is.
ACROSS = 5
BAR = 50
# What is the same of all pages: the line at the capacity that is chosen, and where the curves are drawn.
HERE = '<path id="here" stroke="%s" stroke-width="1.6"/>' % layout.FOCUS
PLACES = {'left': LEFT + MARGIN, 'margin': MARGIN, 'wide': WIDE, 'top': TOP, 'high': HIGH, 'most': MOST, 'usual': USUAL}

STYLE = ('text{font:12px sans-serif;fill:#1d2733}.t{font-size:11px;fill:#5a6572}.h{font-size:15px;font-weight:bold}'
         '.m{text-anchor:middle}.e{text-anchor:end}'
         'path{fill:none}.g{stroke:%s}.u{stroke:%s;stroke-dasharray:4 3}.c0{stroke:%s;stroke-width:2}.c1{stroke:%s;stroke-width:4}'
         % (layout.GRID, layout.OUTLINE, *COLOURS))


class Curves(NamedTuple):
    """By capacity from 1 on the misses, with the run's translations and with base pages alone; and the first capacity of which the trace tells."""
    tiles: List[int]
    pages: List[int]
    known: int = 1


def run(program: str, trace: bytes, known: int) -> Curves:
    """The curves that the program prints of a trace, which tells of capacities from this one on."""
    return read(output_of(program, ['curve'], trace), known)


def read(text: str, known: int = 1) -> Curves:
    """The curves of such a text."""
    rows = [line.split(' ') for line in text.splitlines()]
    try:
        found = Curves([int(row[1]) for row in rows[:-1]], [int(row[2]) for row in rows[:-1]], known)
    except (ValueError, IndexError):
        found = Curves([], [])
    if len(found.tiles) != MOST or rows[-1] != ['end']:
        raise Stopped('what the program prints are no curves')
    return found


def bar(one: int, other: int) -> str:
    """A bar up to the smaller number, and on to the larger one."""
    return '#' * min(one, other) + ('-' if one < other else '+') * abs(other - one)


def lines(curves: Curves) -> str:
    """The lines of text: the misses at some capacities, with bars."""
    top = most_of(curves)
    out = ['Misses at some capacities, as the program counts them; the usual capacity is %d.' % USUAL,
           'The bars: # as many as %s, - the further ones %s, + where these are fewer.' % NAMES]
    out += ['Below capacity %d the trace tells nothing, since it was folded.' % curves.known] * (curves.known > 1)
    out += ['', 'capacity    misses   with base pages']
    for k in capacities_of(curves):
        numbers = curves.tiles[k - 1], curves.pages[k - 1]
        out.append('%8d  %8d  %16d  %s' % (k, *numbers, bar(*(round(BAR * number / top) for number in numbers))))
    return '\n'.join(out + [''])


def most_of(curves: Curves) -> int:
    """The most misses at a capacity of which the trace tells, or 1."""
    return max(curves.pages[curves.known - 1:] + curves.tiles[curves.known - 1:]) or 1


def capacities_of(curves: Curves) -> List[int]:
    """The capacities that have a line of text, or of the page's table: those of which the trace tells."""
    return [k for k in CHOSEN if k >= curves.known]


def step_of(top: int) -> int:
    """How far the lines across are apart: one, two or five times a power of ten."""
    steps = (digit * 10 ** power for power in range(20) for digit in (1, 2, 5))
    return next(step for step in steps if step * ACROSS >= top)


def place_of(capacity: int) -> float:
    """How far right a capacity is: as far again for each that is twice as large."""
    return LEFT + WIDE * log2(capacity) / log2(MOST)


def height_of(misses: int, top: int) -> float:
    return TOP + HIGH * (1 - misses / top)


def path(curve: List[int], top: int, known: int) -> str:
    """The line of a curve from a capacity on, which changes at one and stays up to the next."""
    out = 'M%g %.1f' % (place_of(known), height_of(curve[known - 1], top))
    for at in range(known, MOST):
        if curve[at] != curve[at - 1]:
            out += 'H%.1fV%.1f' % (place_of(at + 1), height_of(curve[at], top))
    return out + 'H%g' % place_of(MOST)


def across(top: int, step: int) -> List[str]:
    """The lines across, with their numbers."""
    out = []
    for misses in range(0, top + 1, step):
        y = height_of(misses, top)
        out += ['<path class="g" d="M%d %.1fh%d"/>' % (LEFT, y, WIDE), text(LEFT - 6, y + 4, str(misses), 't e')]
    return out


def upright() -> List[str]:
    """The capacities below the curves, and a line at the usual one."""
    out = [text(place_of(k), TOP + HIGH + LINE, str(k), 't m') for k in CHOSEN]
    out += ['<path class="u" d="M%g %dV%d"/>' % (place_of(USUAL), TOP - 6, TOP + HIGH)]
    return out + [text(place_of(USUAL), TOP - 10, '%d, the usual capacity' % USUAL, 't m')]


def legend(curves: Curves) -> List[str]:
    """The colours of the curves, with their misses at the usual capacity."""
    out, y = [], TOP + HIGH + 3 * LINE + 6
    for at, (name, curve) in enumerate(zip(NAMES, curves)):
        x = LEFT + at * WIDE // 2
        said = '%s: %d misses at %d' % (name, curve[USUAL - 1], USUAL)
        out += ['<path class="c%d" d="M%d %dh24"/>' % (at, x, y - 4), text(x + 30, y, said)]
    return out


def scale_of(curves: Curves) -> Tuple[int, int]:
    """The misses at the upper end of the drawing, and how far the lines across are apart."""
    most = most_of(curves)
    step = step_of(most)
    return step * ceil(most / step), step


def untold(curves: Curves) -> List[str]:
    """What stands where the trace tells nothing."""
    if curves.known == 1:
        return []
    x = place_of(curves.known)
    return [rect(LEFT, TOP, x - LEFT, HIGH, layout.GRID), text((LEFT + x) / 2, TOP + HIGH / 2, 'below %d: folded' % curves.known, 't m')]


def beginning() -> List[str]:
    """What an SVG text of curves begins with, line by line."""
    wide, high = 2 * MARGIN + layout.WIDTH, TOP + HIGH + 3 * LINE + 18 + 2 * MARGIN
    start = '<svg xmlns="http://www.w3.org/2000/svg" viewBox="0 0 %d %d" width="%d" height="%d">' % (wide, high, wide, high)
    return [start, '<style>%s</style>' % STYLE, rect(0, 0, wide, high, '#fff'), '<g transform="translate(%d %d)">' % (MARGIN, MARGIN)]


def drawing(curves: Curves, name: str, more: str = '') -> str:
    """The SVG text of the curves. What is more is drawn over them."""
    top, step = scale_of(curves)
    body = [text(0, 14, '%s: misses at each capacity' % name, 'h')] + untold(curves) + across(top, step) + upright()
    # That of base pages lies below, and is wider, so that it is seen where both are the same.
    body += ['<path class="c%d" d="%s"/>' % (at, path(curves[at], top, curves.known)) for at in (1, 0)] + legend(curves)
    body += [text(LEFT + WIDE / 2, TOP + HIGH + 2 * LINE, 'capacity: how many translations an image holds', 't m'), more]
    return '\n'.join(beginning() + [it for it in body if it] + ['</g>', '</svg>', ''])


def table(curves: Curves) -> str:
    """The rows of the page's table."""
    return '\n'.join('<tr><td>%d</td><td>%d</td><td>%d</td></tr>' % (k, curves.tiles[k - 1], curves.pages[k - 1])
                     for k in capacities_of(curves))


def page(curves: Curves, name: str) -> str:
    """The text of the page."""
    data = {'curves': curves[:2], 'known': curves.known, **PLACES}
    parts = {'TITLE': escape(name), 'SVG': drawing(curves, name, HERE), 'ROWS': table(curves), 'DATA': json.dumps(data, separators=(',', ':'))}
    return re.sub('TITLE|SVG|ROWS|DATA', lambda found: parts[found.group()], part('curves.html'))
