"""What each entry of a run changes, as compact texts for a page: in chunks, each with the state that it begins in, so that no other is needed."""
import re
import zlib
from base64 import b85encode
from functools import lru_cache
from itertools import groupby
from json import JSONEncoder
from typing import Any, Dict, List, Optional, Tuple

from pictures.following import Change, Outline, Walk
from pictures.spaces import Tile
from pictures.words import PAGE_BYTES

# A chunk has as many entries as make it about so many times as long as its first state, where an entry has about so many letters; and so many at least.
SHARE = 12
LETTERS = 100
LEAST = 1024
# How hard a chunk is packed, from 1 to 9.
EFFORT = 7
NUMBERS = re.compile('([0-9]+)')
# A number from REFERRED on that stands in its entry's line or call is told by its place there, as -1 for the first: so entries of a kind are told alike.
REFERRED = 16
# Numbers from here on stand as text, since they are not exact in JavaScript; and no address is so large.
INEXACT, NO_ADDRESS = 10 ** 15, 10 ** 10

# The places of an entry's numbers in its line and its call.
Places = Dict[int, int]

to_json = JSONEncoder(separators=(',', ':')).encode


class Sentences:
    """Sentences as their words and their numbers: the words of each kind stand once in the page, with a # for each number."""

    def __init__(self) -> None:
        self.kinds: Dict[str, int] = {}

    @lru_cache(maxsize=1 << 12)
    def parts(self, sentence: str) -> Tuple[int, List[int]]:
        """The number of the sentence's words, and its numbers."""
        parts = NUMBERS.split(sentence)
        return self.kinds.setdefault('#'.join(parts[::2]), len(self.kinds)), list(map(int, parts[1::2]))

    def coded(self, sentence: str, places: Places) -> List[Any]:
        """The same, with places in place of numbers that the entry has."""
        kind, numbers = self.parts(sentence)
        return [kind] + [places[number] if number in places else number if number < INEXACT else str(number) for number in numbers]


def places_of(number: int, line: str, call: str) -> Places:
    """The places of the numbers of an entry: those of its line and of its call, then the pages of the addresses among them, and its own number."""
    numbers = list(map(int, NUMBERS.findall(line + call)))
    numbers += [one // PAGE_BYTES for one in numbers if one < NO_ADDRESS]
    numbers.append(number)
    # Of several equal ones the first counts.
    return {one: at - len(numbers) for at, one in enumerate(reversed(numbers)) if one >= REFERRED}


def tile_row(first: int, tile: Optional[Tile], places: Places) -> List[Any]:
    """What begins at a page: a tile, or none."""
    first = places.get(first, first)
    return [first] if tile is None else [first, tile.size, places.get(tile.frame, tile.frame), int(tile.dirty), tile.rights]


def outline_row(frame: int, r: Optional[Outline], places: Places) -> List[Any]:
    """What begins at a frame: a reservation, or none."""
    frame = places.get(frame, frame)
    return [frame] if r is None else [frame, r.size, r.space, places.get(r.first, r.first), places.get(r.stamp, r.stamp), r.gives]


def line_of(change: Change) -> str:
    """An entry's line without its number, and an answer's without the number of the call."""
    words = change.line.split(' ')
    return ' '.join(words[1:4] + words[4 + (words[3] == 'answer'):])


def start(walk: Walk) -> Dict[str, Any]:
    """The state that a chunk begins in. An image is the first pages of its tiles, the last used first."""
    state = walk.state
    return {
        'codes': [[len(list(run)), code] for code, run in groupby(state.codes)],
        'outlines': [outline_row(*pair, {}) for pair in state.outlines.items()],
        'tiles': [[tile_row(*pair, {}) for pair in tiles.items()] for tiles in state.tiles],
        'regions': [state.regions[space] for space in range(walk.run.spaces)],
        'counts': state.counts, 'answered': walk.follower.answered,
        'images': [[*owner, list(reversed(image))] for owner, image in walk.follower.images.images.items()],
    }


class Packer:
    """The chunks of a run that is walked over: the number of the first entry of each, and its text."""

    def __init__(self, walk: Walk) -> None:
        self.walk, self.sentences = walk, Sentences()
        self.chunks: List[Tuple[int, str]] = []
        self.first = 0
        self.begin()

    def begin(self) -> None:
        """A chunk begins with the next entry."""
        self.start = to_json(start(self.walk))
        self.lines: List[str] = []
        self.calls: List[str] = []
        self.rows: List[List[Any]] = []
        self.most = max(LEAST, SHARE * len(self.start) // LETTERS)
        # The call of each processor that was named last.
        self.named: Dict[str, str] = {}

    def add(self, change: Change) -> None:
        """The next entry, which is walked over already."""
        line = line_of(change)
        processor = line.split(' ', 1)[0]
        self.lines.append(line)
        self.calls.append('' if self.named.get(processor) == change.call else change.call)
        self.named[processor] = change.call
        self.rows.append(self.row(change, places_of(self.first + len(self.rows), line, ' ' + change.call)))
        if len(self.rows) == self.most:
            self.end()

    def row(self, change: Change, places: Places) -> List[Any]:
        """What an entry changes, without the empty parts behind the last that isn't."""
        meaning = [self.sentences.coded(sentence, places) for sentence in change.meaning]
        page = 0 if change.page is None else [change.page[0], places.get(change.page[1], change.page[1])]
        seldom = self.seldom(change, places)
        while seldom and not seldom[-1]:
            seldom.pop()
        return [meaning, page, change.counts or 0, int(change.used)] + [part or 0 for part in seldom]

    def seldom(self, change: Change, places: Places) -> List[Any]:
        """The parts that few entries have."""
        coded = self.sentences.coded
        return [
            [coded(sentence, places) for sentence in change.why],
            [[places.get(first, first), length, code] for first, length, code in change.paints],
            [outline_row(frame, r, places) for frame, r in change.outlines.items()],
            [[space, [tile_row(first, tile, places) for first, tile in tiles.items()]] for space, tiles in change.tiles.items()],
            # A tile that was put out is the last one of its image.
            [[*left.owner, None if left.put_out else places.get(left.first, left.first), left.size, coded(left.why, places)] for left in change.left],
            list(change.regions.items()), change.broken or 0,
        ]

    def end(self) -> None:
        """The chunk is whole, and another one begins."""
        text = '{"start":%s,"lines":%s,"calls":%s,"rows":%s}' % (self.start, to_json('\n'.join(self.lines)), to_json('\n'.join(self.calls)),
                                                                 to_json(self.rows))
        # In place of the one letter that may not stand in a page's data stands one that base 85 hasn't.
        self.chunks.append((self.first, b85encode(zlib.compress(text.encode(), EFFORT)).decode().replace('<', ',')))
        self.first += len(self.rows)
        self.begin()
