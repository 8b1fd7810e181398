"""The text of a trace (TraceText.antt), and why a text is none (crates/trace_reader/specs/Refusals.antt,
crates/trace_lines/specs/Forms.antt)."""
from dataclasses import replace
from typing import Callable, List, Optional, Sequence, Union

from .values import (ALL_SIZES, LAST_COUNT, MOST_BYTES, MOST_CALLS, SPACE_PAGES, Call, Daemon, Discard, Evict, Grow, Line, Load, Map, Protect, Sizes,
                     Store, Sync, Trace, Unmap, Unwire, Wire)

# A place of a form is a word, one of some words, or a number with its range.
Place = Union[bytes, Sequence[bytes], Callable[[int], bool]]
Form = List[Place]

KINDS = (b'fixed', b'growing', b'wired')
RIGHTS = (b'none', b'read', b'write')
# The words of page sizes: the digits of their levels, ascending.
SIZE_SETS = (b'0', b'01', b'02', b'03', b'012', b'013', b'023', b'0123')
LAST_ADDRESS = SPACE_PAGES * 8192 - 8
CALLS = {b'map': Map, b'grow': Grow, b'unmap': Unmap, b'protect': Protect, b'load': Load, b'store': Store, b'sync': Sync, b'evict': Evict,
         b'discard': Discard, b'wire': Wire, b'unwire': Unwire}


class Refusal(Exception):
    """Why a text is no trace's, in the program's words."""


def between(least: int, most: int) -> Callable[[int], bool]:
    return lambda n: least <= n <= most


FRAMES: Place = lambda n: n % 512 == 0 and 512 <= n <= 32768
ADDRESS: Place = lambda n: n % 8 == 0 and n <= LAST_ADDRESS
PAGE: Place = between(0, SPACE_PAGES - 1)
LENGTH: Place = between(1, SPACE_PAGES)
SIXTEEN: Place = between(1, 16)
# Version 1 has all four page sizes, and versions 2 and 3 name their own.
FIRSTS: List[Form] = [[b'trace', between(1, 1), FRAMES, SIXTEEN, SIXTEEN], [b'trace', between(2, 3), FRAMES, SIXTEEN, SIXTEEN, SIZE_SETS]]
DAEMON: Form = [b'daemon', between(1, 64), between(1, 4096)]
END: Form = [b'end']


def call_forms(version: int, processors: int, spaces: int) -> List[Form]:
    """The forms of a call's line in a trace of this version. (Forms.antt)"""
    c, s = between(0, processors - 1), between(0, spaces - 1)
    later = [[c, b'discard', s, PAGE, LENGTH], [c, b'wire', s, PAGE], [c, b'unwire', s, PAGE]]
    return [[c, b'map', s, PAGE, LENGTH, KINDS, RIGHTS], [c, b'grow', s, PAGE, LENGTH], [c, b'unmap', s, PAGE],
            [c, b'protect', s, PAGE, LENGTH, RIGHTS], [c, b'load', s, ADDRESS], [c, b'store', s, ADDRESS, between(0, LAST_COUNT)],
            [c, b'sync', s, PAGE], [c, b'evict', s, PAGE], *(later if version >= 3 else [])]


def number_of(word: bytes) -> Optional[int]:
    """The number that a word is: decimal, without a sign or leading zeros, of at most 64 bits. (TraceText.antt)"""
    digits = word.isdigit() and word.isascii()
    leading = len(word) > 1 and word.startswith(b'0')
    return int(word) if digits and not leading and len(word) <= 20 and int(word) <= LAST_COUNT else None


def has_form(words: List[bytes], form: Form) -> bool:
    """So many words, with these words where no number stands. (Refusals.antt)"""
    def fits(word: bytes, place: Place) -> bool:
        return callable(place) or (word == place if isinstance(place, bytes) else word in place)

    return len(words) == len(form) and all(map(fits, words, form))


def cause_of(words: List[bytes], forms: List[Form]) -> Optional[str]:
    """The cause for which a line is refused: form; or the leftmost number's place at fault, which holds no number or one out of its range.
    (Refusals.antt: line_fault)"""
    form = next((f for f in forms if has_form(words, f)), None)
    if form is None:
        return 'form'
    numbers = [(number_of(word), place) for word, place in zip(words, form) if callable(place)]
    faults = ('number' if n is None else 'range' for n, place in numbers if n is None or not place(n))
    return next(faults, None)


def call_of(words: List[bytes]) -> Line:
    """The line of a call."""
    rest = [int(w) if w.isdigit() else w.decode() for w in words[2:]]
    return Line(int(words[0]), CALLS[words[1]](*rest))


def trace_of(text: bytes) -> Trace:
    """The trace that has this text; `Refusal` where there is none. Too many bytes are told before all else, and then the first line that is
    refused decides. (Refusals.antt: refusal_of)"""
    if len(text) > MOST_BYTES:
        raise Refusal('trace too long')
    *lines, rest = text.split(b'\n')
    if not lines:
        raise Refusal('no end')
    words = lines[0].split(b' ')
    refuse(1, cause_of(words, FIRSTS))
    daemon = daemon_line(lines[1]) if len(lines) > 1 else None
    plan = plan_of(words, daemon)
    first = 1 if daemon is None else 2
    last = end_behind(lines, first, call_forms(plan.version, plan.processors, plan.spaces))
    if len(lines) > last + 1 or rest:
        raise Refusal('line %d: after' % (last + 2))
    return replace(plan, lines=tuple(call_of(line.split(b' ')) for line in lines[first:last]))


def plan_of(words: List[bytes], daemon: Optional[Daemon]) -> Trace:
    """The trace without a call whose first line has these words, with this daemon."""
    version, frames, processors, spaces = map(int, words[1:5])
    sizes = ALL_SIZES if version == 1 else sizes_of(words[5].decode())
    return Trace(version, frames, processors, spaces, sizes, daemon, ())


def sizes_of(word: str) -> Sizes:
    """The page sizes that a word names."""
    return tuple(map(int, word))


def sizes_word(sizes: Sizes) -> str:
    """The word of page sizes. (TraceText.antt)"""
    return ''.join(map(str, sizes))


def refuse(number: int, cause: Optional[str]) -> None:
    """The line of this number is refused, where it has a cause."""
    if cause:
        raise Refusal('line %d: %s' % (number, cause))


def daemon_line(line: bytes) -> Optional[Daemon]:
    """The daemon of the second line, where it has one."""
    words = line.split(b' ')
    if not has_form(words, DAEMON):
        return None
    refuse(2, cause_of(words, [DAEMON]))
    return Daemon(int(words[1]), int(words[2]))


def end_behind(lines: List[bytes], first: int, forms: List[Form]) -> int:
    """The place of the line `end`, where no line before it is refused. (Refusals.antt: calls_refusal)"""
    for n, line in enumerate(lines[first:], first):
        if line == b'end':
            return n
        refuse(n + 1, cause_of(line.split(b' '), forms))
        if n - first == MOST_CALLS:
            raise Refusal('too many calls')
    raise Refusal('no end')


def words_of(call: Call) -> List[object]:
    """The words of a call's line behind its processor. (TraceText.antt: call_words)"""
    return [type(call).__name__.lower(), *vars(call).values()]


def text_of(trace: Trace) -> str:
    """The trace's one text. (TraceText.antt)"""
    sizes = [] if trace.version == 1 else [sizes_word(trace.sizes)]
    first = ['trace', trace.version, trace.frames, trace.processors, trace.spaces, *sizes]
    daemon = [['daemon', trace.daemon.low, trace.daemon.turns]] if trace.daemon else []
    rows = [first, *daemon, *([line.processor, *words_of(line.call)] for line in trace.lines), ['end']]
    return ''.join(' '.join(map(str, row)) + '\n' for row in rows)
