"""A run as one self-contained HTML file: page.html, with its style, its scripts, and what each entry of the run changes."""
import os
import re
from html import escape
from typing import Any, Dict, Set

from pictures import layout
from pictures.following import CLAIMS, COUNTS, DEMOTIONS, PREEMPTIONS, PROMOTIONS, Change, Run, Walk
from pictures.frames import FREE
from pictures.images import ROOM
from pictures.layout import Grid
from pictures.packing import Packer, to_json

FOLDER = os.path.dirname(os.path.abspath(__file__))
SCRIPTS = ('state.js', 'drawing.js', 'reasons.js', 'page.js', 'asking.js', 'controls.js')
# The most places of one mark below the slider.
MOST_MARKS = 2048
# The colours of the counts that are marked below the slider. The rarest come last, over the others.
MARKS = {PROMOTIONS: '#2f9e44', DEMOTIONS: '#d62828', CLAIMS: '#f08c00', PREEMPTIONS: '#16181d'}


def grid(some: Grid) -> Dict[str, Any]:
    return {'cell': some.cell, 'width': some.width, 'height': some.height, 'boxes': some.boxes}


class Seen:
    """What the page says once of all entries: which pages and which codes of frames are drawn, and what is marked below the slider."""

    def __init__(self, run: Run) -> None:
        self.drawn = layout.Drawn()
        self.codes = {FREE}
        self.marks: Dict[int, Set[int]] = {place: set() for place in MARKS}
        # A mark stands for so many entries.
        self.wide = -(-len(run.history) // MOST_MARKS) or 1

    def add(self, at: int, change: Change) -> None:
        """Adds what an entry of this number changes."""
        self.drawn.add(change)
        self.codes.update(code for _, _, code in change.paints)
        for place in set(change.counts).intersection(MARKS):
            self.marks[place].add(at // self.wide * self.wide)


def fixed() -> Dict[str, Any]:
    """What is the same in all pages."""
    return {
        'tiles': list(zip(layout.TILES, layout.TILE_NAMES)), 'mapped': layout.MAPPED, 'unmapped': layout.UNMAPPED, 'dirty': layout.DIRTY,
        'outline': layout.OUTLINE, 'focus': layout.FOCUS, 'border': layout.BORDER, 'lattice': layout.GRID,
        'names': COUNTS, 'room': ROOM,
    }


def data_of(run: Run, name: str, about: str) -> Dict[str, Any]:
    """What the page's scripts are told of the run."""
    walk, seen = Walk(run), Seen(run)
    packer = Packer(walk)
    for at, change in enumerate(walk):
        packer.add(change)
        seen.add(at, change)
    packer.end()
    pages, left = layout.page_grid(seen.drawn)
    codes = {code: [layout.colour_of(code), layout.name_of(code, run.spaces, layout.PAGE_NAMES)] for code in sorted(seen.codes)}
    return {
        **fixed(), 'name': name, 'about': about, 'count': run.frames, 'spaces': run.spaces, 'sizes': run.sizes, 'entries': len(run.history),
        'frames': grid(layout.frame_grid(run)), 'pages': grid(pages), 'omitted': 'Boxes of pages that are not drawn: %d.' % left if left else '',
        'codes': codes, 'legend': list(codes.values()),
        'marks': [(colour, sorted(seen.marks[place])) for place, colour in MARKS.items()],
        'sentences': list(packer.sentences.kinds), 'chunks': packer.chunks,
    }


def page(run: Run, name: str, about: str) -> str:
    """The text of the page."""
    # No text in it may end the element that it stands in.
    data = to_json(data_of(run, name, about)).replace('<', '\\u003c')
    parts = {'TITLE': escape(name), 'STYLE': part('page.css'), 'SCRIPT': '\n'.join(map(part, SCRIPTS)), 'DATA': data}
    return re.sub('TITLE|STYLE|SCRIPT|DATA', lambda found: parts[found.group()], part('page.html'))


def part(name: str) -> str:
    """A file beside this one."""
    with open(os.path.join(FOLDER, name), encoding='utf-8') as source:
        return source.read()
