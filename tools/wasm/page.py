"""The page with the program in it: page.html of this folder, with its scripts, the module, the traces, and what its pictures are made of."""
import os
import re
from base64 import b64encode
from html import escape
from typing import Any, Dict, List, Tuple

from pictures import curves, layout, words
from pictures import page as picture
from pictures.frames import CLAIMED, FREE, HELD, UNUSED, USED, WIRED, coded
from pictures.packing import to_json

FOLDER = os.path.dirname(os.path.abspath(__file__))
# What follows a run and draws it, in this order, and behind it what runs the program.
FOLLOWING = ('frames.js', 'spaces.js', 'follow.js', 'drawn.js', 'curves.js')
RUNNING = ('program.js',)
# A trace has at most so many spaces and processors; a daemon is one more.
OWNERS = 16


def part(name: str) -> str:
    """A file beside this one."""
    with open(os.path.join(FOLDER, name), encoding='utf-8') as source:
        return source.read()


def codes() -> List[int]:
    """The codes that a frame may have."""
    of_spaces = [coded(role, space) for role in (UNUSED, USED, WIRED, CLAIMED) for space in range(OWNERS)]
    return [coded(FREE)] + of_spaces + [coded(HELD, processor) for processor in range(OWNERS + 1)]


def constants() -> str:
    """What the scripts take from tools/pictures: what is the same in all its pages, its words, and its colours and places."""
    named = [{code: layout.name_of(code, spaces, layout.PAGE_NAMES) for code in codes()} for spaces in (1, 2)]
    tables = {
        'FIXED': picture.fixed(),
        'WORDS': {'calls': words.CALLS, 'replies': words.REPLIES, 'rights': words.RIGHTS, 'cleared': words.CLEARED, 'pinned': words.PINNED,
                  'sizes': words.SIZE_NAMES},
        'LAYOUT': {'cells': layout.CELLS, 'width': layout.WIDTH, 'gap': layout.GAP, 'title': layout.TITLE, 'rows': layout.MOST_ROWS,
                   'marks': picture.MOST_MARKS, 'colours': list(picture.MARKS.items()), 'named': named[0], 'namedOfMany': named[1],
                   'coloured': {code: layout.colour_of(code) for code in codes()}},
        'CURVES': {'left': curves.LEFT, 'top': curves.TOP, 'high': curves.HIGH, 'wide': curves.WIDE, 'most': curves.MOST, 'usual': curves.USUAL,
                   'line': curves.LINE, 'across': curves.ACROSS, 'chosen': curves.CHOSEN, 'names': curves.NAMES, 'here': curves.HERE,
                   'begin': '\n'.join(curves.beginning()), 'data': curves.PLACES},
    }
    return ''.join('const %s = %s;\n' % (name, to_json(table)) for name, table in tables.items())


def script() -> str:
    """All scripts of the page but the last, which is for a browser alone."""
    return constants() + '\n'.join(map(part, FOLLOWING + RUNNING))


def picture_page() -> str:
    """A page of tools/picture without a run: where its title and its data stand, TITLE and DATA stand still."""
    parts = {'STYLE': picture.part('page.css'), 'SCRIPT': '\n'.join(map(picture.part, picture.SCRIPTS))}
    return re.sub('STYLE|SCRIPT', lambda found: parts[found.group()], picture.part('page.html'))


def page(module: bytes, traces: List[Tuple[str, str]]) -> str:
    """The text of the page with this module, and these traces by their names."""
    # No text in it may end the element that it stands in.
    data: Dict[str, Any] = {'traces': traces, 'picture': picture_page(), 'curves': picture.part('curves.html')}
    parts = {
        'STYLE': part('page.css'), 'DATA': to_json(data).replace('<', '\\u003c'), 'MODULE': b64encode(module).decode(),
        'SCRIPT': '%s\n%s' % (script(), part('page.js')), 'TITLE': escape('superpager in this page'),
    }
    return re.sub('TITLE|STYLE|DATA|MODULE|SCRIPT', lambda found: parts[found.group()], part('page.html'))
