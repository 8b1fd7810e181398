"""A run of the program, and what each entry of its history changes, worked out by the rules of docs/model.md and docs/steps.md."""
from typing import Callable, Dict, Iterator, List, NamedTuple, Optional, Tuple

from common import SIZE_SETS, Stopped, output_of
from pictures import words
from pictures.frames import CLAIMED, FREE, LARGEST, UNUSED, USED, WIRED, Astray, Broken, Frames, Reservation, Want, begin_of
from pictures.images import Images, Left
from pictures.progress import Progress
from pictures.spaces import Region, Space, Tile

# What is counted; of a run, how many of each.
COUNTS = ('hits', 'misses', 'promotions', 'demotions', 'preemptions', 'claims')
HITS, MISSES, PROMOTIONS, DEMOTIONS, PREEMPTIONS, CLAIMS = range(len(COUNTS))


class Outline(NamedTuple):
    """A reservation as it is drawn: its size, its space and first page, the entry of its latest taking, and its yield."""
    size: int
    space: int
    first: int
    stamp: int
    gives: Optional[int]


class Run(NamedTuple):
    """A trace and what the program printed of it: the page sizes, ascending, the calls of each processor, the lines of the history, and the counts by
    their names."""
    frames: int
    spaces: int
    sizes: List[int]
    calls: List[List[str]]
    history: List[str]
    counts: Dict[str, List[int]]


class Change(NamedTuple):
    """An entry: its line, the call that it is a step of, what it means, and what is another from it on.

    `page` is the space and the page that it is about; `paints` are runs of frames with their code, a later one over an earlier one; `outlines`
    tells of first frames which reservation begins there, and `tiles` of spaces and first pages which tile does; `regions` are all regions of
    spaces; `counts` has the place in COUNTS of each thing that is counted; `why` are more sentences, of what the images and the lists of
    reservations led to; `used` is whether the entry uses its processor's image; `left` is what left the images; and `broken` is the reservation that
    the entry broke.
    """
    line: str
    call: str
    meaning: List[str]
    why: List[str]
    page: Optional[Tuple[int, int]]
    paints: List[Tuple[int, int, int]]
    outlines: Dict[int, Optional[Outline]]
    tiles: Dict[int, Dict[int, Optional[Tile]]]
    regions: Dict[int, List[Region]]
    counts: List[int]
    used: bool
    left: List[Left]
    broken: Optional[Broken]


def run(program: str, order: List[str], trace: bytes) -> Run:
    """Runs the program on the trace in this order of its calls."""
    text = output_of(program, order + ['--history'], trace)
    try:
        return read(trace.decode(), text)
    except (ValueError, IndexError, StopIteration):
        raise Stopped('what the program prints is no text of a run with its history') from None


def read(trace: str, text: str) -> Run:
    """A trace that the program took, and what it printed of it."""
    lines = trace.split('\n')[:-2]
    _, _, frames, processors, spaces, *named = lines[0].split(' ')
    # A daemon is one processor more, which makes no calls.
    daemons = sum(line.startswith('daemon ') for line in lines[1:2])
    calls: List[List[str]] = [[] for _ in range(int(processors) + daemons)]
    for line in lines[1 + daemons:]:
        processor, call = line.split(' ', 1)
        calls[int(processor)].append(call)
    # An answer for each call comes first.
    printed = text.split('\n')[sum(map(len, calls)):]
    end = next(at for at, line in enumerate(printed) if line.startswith('tiles '))
    counts = {line.split(' ')[0]: [int(word) for word in line.split(' ')[1:]] for line in printed[end:] if line}
    # Where the first line names no sizes there are all.
    sizes = list(map(int, named[0] if named else SIZE_SETS[-1]))
    return Run(int(frames), int(spaces), sizes, calls, printed[:end], counts)


def page_of(call: List[str]) -> int:
    """The page that a call names, or that its address lies in."""
    return int(call[2]) // (words.PAGE_BYTES if call[0] in ('load', 'store') else 1)


class Follower:
    """The frames and spaces of a run, after the entries so far."""

    def __init__(self, run: Run) -> None:
        self.calls = run.calls
        self.frames = Frames(run.frames, run.sizes, lambda *painted: self.paints.append(painted), self.outline)
        self.spaces = [Space(run.sizes) for _ in range(run.spaces)]
        self.images = Images(self.spaces)
        self.answered = [0] * len(run.calls)
        # What follows an entry of each kind.
        self.made: Dict[str, Callable[[int, int, Optional[int], List[str]], None]] = {
            'answer': self.answer, 'take': self.take, 'use': self.use, 'give': self.give, 'clear': self.clear, 'pin': self.pin, 'kept': self.kept,
            'out': self.out, 'failed': self.failed, 'claim': self.claim, 'got': self.got, 'drop': self.drop, 'unclaim': self.unclaim,
            'refused': self.refused, 'rest': self.rest}
        self.begin()

    def begin(self) -> None:
        """Nothing changed yet."""
        self.paints: List[Tuple[int, int, int]] = []
        self.outlines: Dict[int, Optional[Outline]] = {}
        self.regions: Dict[int, List[Region]] = {}
        self.meaning: List[str] = []
        self.why: List[str] = []
        self.page: Optional[Tuple[int, int]] = None
        self.counts: List[int] = []
        # The size that an access told, where the entry is its answer.
        self.size: Optional[int] = None
        self.broken: Optional[Broken] = None

    def outline(self, frame: int, r: Optional[Reservation]) -> None:
        self.outlines[frame] = None if r is None else Outline(r.size, r.space, r.first, r.stamp, r.give_back())

    def entry(self, line: str) -> Change:
        """Follows an entry."""
        self.begin()
        number, processor, part, kind, *rest = line.split(' ')
        c, space = int(processor), int(part[1:].split('+')[0]) if part[0] == 's' else None
        call = self.calls[c][self.answered[c]] if self.answered[c] < len(self.calls[c]) else ''
        try:
            self.made[kind](int(number), c, space, rest)
            tiles = self.moved()
            left = self.imaged(int(number), c, tiles)
        except (Astray, KeyError, IndexError, StopIteration, ValueError) as fault:
            raise Stopped("entry %s of the history doesn't follow from those before it: %s" % (line, fault))
        return Change(line, '%d %s' % (c, call) if call else '', self.meaning, self.why, self.page, self.paints, self.outlines, tiles, self.regions,
                      self.counts, self.size is not None, left, self.broken)

    def moved(self) -> Dict[int, Dict[int, Optional[Tile]]]:
        """The tiles that changed, by space."""
        tiles = {}
        for space, one in enumerate(self.spaces):
            if one.touched:
                moves = one.moves()
                tiles[space] = moves.tiles
                self.counts += [PROMOTIONS] * len(moves.promoted) + [DEMOTIONS] * len(moves.demoted)
                self.meaning += words.moved(space, moves.promoted, moves.demoted)
        return {space: some for space, some in tiles.items() if some}

    def imaged(self, number: int, c: int, tiles: Dict[int, Dict[int, Optional[Tile]]]) -> List[Left]:
        """What left the images, by the tiles that changed and by the access that is answered."""
        left = [one for space, some in tiles.items() for one in self.images.forget(number, space, some)]
        if self.size is not None:
            space, page = self.page
            found = self.spaces[space].tile_of(page)
            if found is None or found[1].size != self.size:
                raise Astray('by the tiles the size is %s' % ('none' if found is None else found[1].size))
            left += self.images.use(number, (c, space), page)
        return left

    def answer(self, _: int, c: int, space: int, rest: List[str]) -> None:
        call = self.calls[c][self.answered[c]].split(' ')
        self.answered[c] += 1
        reply = rest[1:]
        if reply[-2:-1] in (['hit'], ['miss']):
            self.access((c, space), page_of(call), reply[-2] == 'hit', int(reply[-1]))
            reply = reply[:-2]
        if call[0] in ('load', 'store', 'sync', 'evict'):
            self.page = (space, page_of(call))
        if reply[0] in ('done', 'written', 'clean'):
            self.does(self.spaces[space], space, call[0], page_of(call), call[3:])
        self.meaning.append(words.answered(words.Answered(c, call, reply)))

    def access(self, owner: Tuple[int, int], page: int, hit: bool, size: int) -> None:
        """An access that was done told a hit, which has to be one by the images, and a size."""
        if self.images.has(owner, page) != hit:
            raise Astray('by the images it is %s' % ('a miss' if hit else 'a hit'))
        self.size = size
        self.counts.append(HITS if hit else MISSES)
        self.why += [self.images.why_missed(owner, page)] * (not hit)

    def does(self, one: Space, space: int, name: str, page: int, more: List[str]) -> None:
        """What a call that was done changes in its space, and of the frames where it evicts a resident page."""
        if name == 'map':
            one.map(Region(page, int(more[0]), more[1], more[2]))
        elif name == 'grow':
            one.grow(page, int(more[0]))
        elif name == 'unmap':
            one.unmap(page)
        elif name == 'protect':
            one.protect(page, int(more[0]), more[1])
        elif name == 'store':
            one.set_dirty(page, True)
        elif name == 'sync' and page in one.frames:
            one.set_dirty(page, False)
        elif name == 'evict' and page in one.frames:
            self.lose(space, page)
        elif name in ('wire', 'unwire'):
            one.pin(page, name == 'wire')
        if name in ('map', 'grow', 'unmap', 'wire', 'unwire'):
            self.regions[space] = list(one.regions)

    def lose(self, space: int, page: int) -> None:
        """The page gives its frame up."""
        self.page = (space, page)
        frame = self.spaces[space].frames[page]
        self.spaces[space].remove(page)
        holder = self.frames.give(space, page)
        went = 'becomes free, or stays reserved and unpopulated' if holder is None else 'goes to processor %d, which had claimed it' % holder
        self.meaning.append('Page %d of space %d gives frame %d up, which %s.' % (page, space, frame, went))

    def take(self, number: int, c: int, space: int, rest: List[str]) -> None:
        page, frame, low, high, cap, wired = map(int, rest)
        how = self.frames.take(number, space, page, frame, Want(low, high, cap, wired == 1))
        self.broken = how.broken
        if how.broken is not None:
            self.counts.append(PREEMPTIONS)
            self.why.append(words.oldest(how.broken))
        self.spaces[space].fill(page, frame)
        self.page = (space, page)
        self.meaning += words.taken(space, page, frame, how)

    def use(self, number: int, c: int, space: int, rest: List[str]) -> None:
        self.meaning.append('The frame that processor %d held goes free, and a page takes one by the rules.' % c)
        self.frames.drop(c)
        self.take(number, c, space, rest)

    def give(self, _: int, c: int, space: int, rest: List[str]) -> None:
        self.lose(space, int(rest[0]))

    def clear(self, _: int, c: int, space: int, rest: List[str]) -> None:
        first, length = map(int, rest)
        pages = self.spaces[space].resident(first, length)
        for page in pages:
            self.spaces[space].remove(page)
            self.frames.give(space, page)
        self.meaning.append(words.CLEARED[self.calls[c][self.answered[c]].split(' ')[0]] % (
            words.run_of('page', first, length), space, words.given_up(len(pages))))

    def pin(self, _: int, c: int, space: int, rest: List[str]) -> None:
        first, length, wired = map(int, rest)
        pages = self.spaces[space].resident(first, length)
        for page in pages:
            self.frames.pin(space, page, wired == 1)
        with_it = ', and no page of it has a frame' if not pages else words.PINNED[wired] % words.pages(len(pages))
        self.meaning.append('The region of %s of space %d is %s%s.' % (
            words.run_of('page', first, length), space, 'wired' if wired else 'wired no longer', with_it))

    def kept(self, _: int, c: int, space: int, rest: List[str]) -> None:
        first, length, page, frame = map(int, rest)
        self.page = (space, page)
        self.meaning.append('The region of %s of space %d is not wired: frame %d, of page %d, is claimed.' % (
            words.run_of('page', first, length), space, frame, page))

    def out(self, _: int, c: int, space: int, rest: List[str]) -> None:
        page = int(rest[0])
        self.page = (space, page)
        self.spaces[space].set_dirty(page, False)
        self.meaning.append('Page %d of space %d is about to be paged out: it %s.' % (page, space, {
            'written': 'is written to its copy', 'clean': 'is equal to its copy'}[rest[1]]))

    def failed(self, _: int, c: int, space: int, rest: List[str]) -> None:
        self.meaning.append("The store of space %d failed at a %s of page %s." % (space, rest[1], rest[0]))

    def claim(self, _: int, c: int, space: Optional[int], rest: List[str]) -> None:
        other, page, frame = map(int, rest[:3])
        self.frames.claim(c, other, page, frame)
        self.page = (other, page)
        self.counts.append(CLAIMS)
        why, what_for = 'Frames are short', ''
        if space is not None:
            why, what_for = 'No frame is free, nor reserved and unpopulated', ', for page %s of space %d' % (rest[4], space)
        self.meaning.append('%s. Processor %d claims frame %d, of page %d of space %d, which was filled first%s.' % (
            why, c, frame, page, other, what_for))

    def rest(self, _: int, c: int, space: Optional[int], rest: List[str]) -> None:
        self.meaning.append('Processor %d, the daemon, rests: %s.' % (c, {
            '0': 'frames are not short, or no page can give one up', '1': 'it has evicted as many pages as its mark says'}[rest[0]]))

    def got(self, _: int, c: int, space: Optional[int], rest: List[str]) -> None:
        self.meaning.append('Processor %d finds frame %s, which it claimed, in its hand.' % (c, rest[0]))

    def drop(self, _: int, c: int, space: Optional[int], rest: List[str]) -> None:
        self.frames.drop(c)
        self.meaning.append('Processor %d needs frame %s no longer, which is free now.' % (c, rest[0]))

    def unclaim(self, _: int, c: int, space: int, rest: List[str]) -> None:
        self.frames.unclaim(c, space)
        self.meaning.append('Processor %d claims frame %s no longer.' % (c, rest[0]))

    def refused(self, _: int, c: int, space: Optional[int], rest: List[str]) -> None:
        self.meaning.append('No frame can be had, nor claimed: %s are wired, %s claimed, and %s held.' % tuple(rest))


class State:
    """What is drawn: the code of each frame, reservations by first frame, tiles and regions by space, and the counts."""

    def __init__(self, run: Run) -> None:
        self.codes = [FREE] * run.frames
        self.outlines: Dict[int, Outline] = {}
        self.tiles: List[Dict[int, Tile]] = [{} for _ in range(run.spaces)]
        self.regions: Dict[int, List[Region]] = {space: [] for space in range(run.spaces)}
        self.counts = [0] * len(COUNTS)

    def apply(self, change: Change) -> None:
        """The state after one entry more."""
        self.paint(change.paints)
        replace(self.outlines, change.outlines)
        for space, tiles in change.tiles.items():
            replace(self.tiles[space], tiles)
        self.regions.update(change.regions)
        for place in change.counts:
            self.counts[place] += 1

    def paint(self, paints: List[Tuple[int, int, int]]) -> None:
        """The frames of these runs have these codes."""
        for first, length, code in paints:
            self.codes[first:first + length] = [code] * length

    def tile_of(self, space: int, page: int) -> Optional[Tile]:
        """The tile that has the page."""
        found = ((size, self.tiles[space].get(begin_of(size, page))) for size in range(LARGEST + 1))
        return next((tile for size, tile in found if tile is not None and tile.size >= size), None)

    def shares(self) -> List[int]:
        """How many frames are free, unused places, and under a page."""
        roles = [code % 16 for code in self.codes]
        return [roles.count(FREE), roles.count(UNUSED), sum(roles.count(role) for role in (USED, WIRED, CLAIMED))]

    def sizes(self) -> List[int]:
        """How many tiles there are of each size."""
        sizes = [tile.size for tiles in self.tiles for tile in tiles.values()]
        return [sizes.count(size) for size in range(LARGEST + 1)]


def replace(table: Dict, by: Dict) -> None:
    """What is there by these keys from now on; None takes it away."""
    for key, value in by.items():
        if value is None:
            table.pop(key, None)
        else:
            table[key] = value


def state_after(run: Run, changes: List[Change], entries: int) -> State:
    """The state after so many entries."""
    state = State(run)
    for change in changes[:entries]:
        state.apply(change)
    return state


class Walk:
    """A run, followed entry by entry: what is walked over are its changes. At the end it has to come to the counts that the program printed."""

    def __init__(self, run: Run) -> None:
        self.run, self.follower, self.state = run, Follower(run), State(run)

    def __iter__(self) -> Iterator[Change]:
        progress = Progress('entries followed', len(self.run.history))
        for line in self.run.history:
            change = self.follower.entry(line)
            self.state.apply(change)
            progress.step()
            yield change
        progress.end()
        self.check()

    def check(self) -> None:
        """Compares what the history led to with what the program printed."""
        counts = self.state.counts
        found = {'tiles': self.state.sizes(), 'promotions': [counts[PROMOTIONS]], 'demotions': [counts[DEMOTIONS]],
                 'preemptions': [counts[PREEMPTIONS]], 'images': [counts[HITS], counts[MISSES]], 'frames': self.state.shares(), 'end': []}
        for name, numbers in self.run.counts.items():
            if found.get(name) != numbers:
                raise Stopped("the history leads to `%s %s`, and the program printed `%s %s`" % (
                    name, ' '.join(map(str, found.get(name, []))), name, ' '.join(map(str, numbers))))


def follow(run: Run) -> List[Change]:
    """What each entry changes."""
    return list(Walk(run))
