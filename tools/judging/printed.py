"""What a run prints: the answers, the history and the counts; and the history of a printed text, read again (PrintedText.antt, Counts.antt)."""
from typing import Callable, Dict, List, Optional, Sequence, Tuple

from .legal import Pager
from .trace_text import number_of
from .values import (LAST_COUNT, LAST_NUMBER, MOST_LEVEL, Answer, Claim, Clear, DropHeld, Entry, Failed, Give, Got, Kept, Need, Out, Pin, Refused,
                     Rest, Take, Trace, Unclaim, UseHeld, Want, What)


class BadLine(Exception):
    """A line that is none of a history."""


def answered_words(w: Answer) -> List[object]:
    """The reply, and behind it a hit or a miss and the size, where it has one. (PrintedText.antt)"""
    return [*w.reply] + ([] if w.size is None else ['hit' if w.hit else 'miss', w.size])


def what_words(w: What) -> List[object]:
    """The kind of an entry, and what the kind tells. (PrintedText.antt)"""
    if isinstance(w, Answer):
        return ['answer', w.number, *answered_words(w)]
    if isinstance(w, Out):
        return ['out', w.page, 'written' if w.written else 'clean']
    if isinstance(w, Failed):
        return ['failed', w.page, 'write' if w.writing else 'read', w.count]
    if isinstance(w, (Take, UseHeld)):
        want = w.want
        return ['take' if isinstance(w, Take) else 'use', w.page, w.frame, want.low, want.high, want.cap, int(want.wired)]
    if isinstance(w, Claim):
        need = [] if w.need is None else ['for', w.need.page, 'write' if w.need.writing else 'read']
        return ['claim', w.space, w.page, w.frame, *need]
    if isinstance(w, Rest):
        return ['rest', int(w.short)]
    if isinstance(w, Pin):
        return ['pin', w.first, w.length, int(w.wired)]
    names = {Give: 'give', Clear: 'clear', Kept: 'kept', DropHeld: 'drop', Got: 'got', Unclaim: 'unclaim', Refused: 'refused'}
    return [names[type(w)], *vars(w).values()]


def part_word(e: Entry) -> str:
    """The parts that an entry names: `s3` for space 3, `f` for the frames, `s3+f` for both. (PrintedText.antt)"""
    if e.space is None:
        return 'f'
    return 's%d+f' % e.space if e.frames else 's%d' % e.space


def line_of(words: Sequence[object]) -> str:
    """Words apart by one space, and a line feed. (TraceText.antt)"""
    return ' '.join(map(str, words)) + '\n'


def answers_text(history: List[Entry]) -> str:
    """For each processor, ascending, a line for each of its answers. (PrintedText.antt)"""
    rows = sorted((e.processor, e.what.number, n) for n, e in enumerate(history) if isinstance(e.what, Answer))
    return ''.join(line_of([c, number, *answered_words(history[n].what)]) for c, number, n in rows)


def history_text(history: List[Entry]) -> str:
    """For each entry, ascending, a line of its number, its processor, the parts that it names, and what it is. (PrintedText.antt)"""
    return ''.join(line_of([n, e.processor, part_word(e), *what_words(e.what)]) for n, e in enumerate(history))


def hits_in(history: List[Entry]) -> Tuple[int, int]:
    """How many answers of a history have a hit, and how many a miss. (Counts.antt)"""
    hits = [e.what.hit for e in history if isinstance(e.what, Answer) and e.what.size is not None]
    return hits.count(True), hits.count(False)


def counts_text(pager: Pager, hits: int, misses: int) -> str:
    """The counts of a whole history: of tiles by size, and of frames, those at its end; of promotions, demotions, preemptions, hits and misses
    those of all entries. (Counts.antt, PrintedText.antt)"""
    tiles = [tile.size for space in pager.spaces for tile in space.tiles.all()]
    frames = pager.frames
    return ''.join(map(line_of, [
        ['tiles', *(tiles.count(size) for size in range(4))],
        ['promotions', sum(space.tiles.promotions for space in pager.spaces)],
        ['demotions', sum(space.tiles.demotions for space in pager.spaces)],
        ['preemptions', frames.preemptions],
        ['images', hits, misses],
        ['frames', len(frames.free), frames.reserved_count(), len(frames.used)],
        ['end']]))


def text_of_run(pager: Pager, with_history: bool) -> str:
    """The whole text. (PrintedText.antt: out_text)"""
    return answers_text(pager.history) + (history_text(pager.history) if with_history else '') + counts_text(pager, *hits_in(pager.history))


class Words:
    """The words of a line, read one after another."""

    def __init__(self, line: bytes):
        self.words = line.split(b' ')

    def number(self, most: int = LAST_NUMBER) -> int:
        """The next word, which is a number up to this one."""
        n = number_of(self.words.pop(0)) if self.words else None
        if n is None or n > most:
            raise BadLine
        return n

    def one_of(self, *words: str) -> int:
        """Which one of these the next word is, counted from 0."""
        word = self.words.pop(0).decode('latin-1') if self.words else ''
        if word not in words:
            raise BadLine
        return words.index(word)

    def end(self) -> None:
        """No word is left."""
        if self.words:
            raise BadLine


def read_flag(words: Words) -> bool:
    return bool(words.one_of('0', '1'))


def read_want(words: Words) -> Want:
    return Want(words.number(), words.number(), words.number(), read_flag(words))


def read_claim(words: Words) -> Claim:
    space, page, frame = words.number(), words.number(), words.number()
    if not words.words:
        return Claim(space, page, frame, None)
    words.one_of('for')
    return Claim(space, page, frame, Need(words.number(), bool(words.one_of('read', 'write'))))


READERS: Dict[str, Callable[[Words], What]] = {
    'out': lambda words: Out(words.number(), not words.one_of('written', 'clean')),
    'failed': lambda words: Failed(words.number(), bool(words.one_of('read', 'write')), words.number(LAST_COUNT)),
    'take': lambda words: Take(words.number(), words.number(), read_want(words)),
    'use': lambda words: UseHeld(words.number(), words.number(), read_want(words)),
    'give': lambda words: Give(words.number(), words.number()),
    'clear': lambda words: Clear(words.number(), words.number()),
    'pin': lambda words: Pin(words.number(), words.number(), read_flag(words)),
    'kept': lambda words: Kept(words.number(), words.number(), words.number(), words.number()),
    'claim': read_claim,
    'drop': lambda words: DropHeld(words.number()),
    'got': lambda words: Got(words.number()),
    'unclaim': lambda words: Unclaim(words.number()),
    'refused': lambda words: Refused(words.number(), words.number(), words.number()),
    'rest': lambda words: Rest(read_flag(words)),
}
# The replies, with the most that each of their numbers may be.
REPLIES: Dict[str, Sequence[int]] = {
    'done': (), 'value': (LAST_COUNT,), 'clean': (), 'written': (), 'unmapped': (), 'denied': (), 'overlap': (), 'outofspace': (), 'notgrowing': (),
    'regionsfull': (), 'noframes': (LAST_NUMBER,) * 3, 'storefault': (LAST_NUMBER, LAST_COUNT), 'nomemory': (), 'busy': (LAST_NUMBER,)}


def read_answer(words: Words, calls: list) -> Answer:
    """An answer, whose call is the processor's of this number. (PrintedText.antt)"""
    number = words.number()
    name = list(REPLIES)[words.one_of(*REPLIES)]
    reply = (name, *(words.number(most) for most in REPLIES[name]))
    hit, size = False, None
    if words.words:
        hit, size = not words.one_of('hit', 'miss'), words.number(MOST_LEVEL)
    if number >= len(calls):
        raise BadLine
    return Answer(number, calls[number], reply, hit, size)


def read_part(words: Words, spaces: int) -> Tuple[Optional[int], bool]:
    """The space that an entry names, and whether it names the frames. (PrintedText.antt)"""
    parts = ['f'] + ['s%d' % s for s in range(spaces)] + ['s%d+f' % s for s in range(spaces)]
    n = words.one_of(*parts)
    return (None, True) if n == 0 else ((n - 1) % spaces, n > spaces)


def read_entry(line: bytes, number: int, trace: Trace, calls: List[list]) -> Entry:
    """The entry of a line of a history. (PrintedText.antt: history_line)"""
    words = Words(line)
    processors = len(calls) + (trace.daemon is not None)
    if words.number(LAST_COUNT) != number:
        raise BadLine
    c = words.number()
    if c >= processors:
        raise BadLine
    space, frames = read_part(words, trace.spaces)
    kind = ['answer', *READERS][words.one_of('answer', *READERS)]
    what = READERS[kind](words) if kind in READERS else read_answer(words, calls[c] if c < len(calls) else [])
    words.end()
    return Entry(c, space, frames, what)


def history_in(trace: Trace, text: bytes) -> List[Entry]:
    """The history in a text that was printed with it: the lines between those of the answers and those of the counts. `BadLine` tells what is
    missing, or the number of a line that is no entry."""
    lines = text.split(b'\n')
    end = next((n for n, line in enumerate(lines) if line.startswith(b'tiles ')), None)
    if end is None:
        raise BadLine('the text has no counts')
    if end < len(trace.lines):
        raise BadLine('the text has fewer answers than the trace has calls')
    if end == len(trace.lines) and (trace.lines or trace.daemon):
        raise BadLine('the text has no history: it is printed with --history')
    calls = [trace.calls_of(c) for c in range(trace.processors)]
    history: List[Entry] = []
    for n, line in enumerate(lines[len(trace.lines):end], len(trace.lines) + 1):
        try:
            history.append(read_entry(line, len(history), trace, calls))
        except BadLine:
            raise BadLine('line %d of the text is no entry of a history' % n)
    return history
