"""Histories for a drawn trace, damaged in one place, and texts that are damaged in one byte."""
import os
import random
import re
import sys
from typing import Callable, Dict, Iterator, List, NamedTuple, Optional, Tuple

from common import TOP

from .drawing import short
from .machine import Failing, Machine, store_of
from .printed import history_text
from .trace_text import SIZE_SETS, text_of, trace_of

sys.path.insert(0, os.path.join(TOP, 'examples', 'drawn'))
from random_trace import write_trace  # noqa: E402: it stands beside the examples

SIZES = tuple(sizes.decode() for sizes in SIZE_SETS)
# The words of an entry's line behind its number.
Words = List[str]
Damage = Callable[[random.Random, List[Words]], bool]


class Base(NamedTuple):
    """A trace, and the lines of a history of it, whose entries number themselves."""
    trace: str
    lines: List[Words]


class Damaged(NamedTuple):
    """What was done to a history, and the text that `check` reads."""
    how: str
    text: bytes


def trace_for(r: random.Random) -> str:
    """Of eight traces two are short of frames, in one pages are evicted that are just claimed, and one has few frames left; the others are small:
    two by some page sizes, and two with calls that pin. Of those that are short or pin half have a daemon."""
    kind = r.randrange(8)
    if kind == 0:
        return contended(r)
    if kind < 3:
        return text_of(short(r.randrange(10000), r.randrange(2), r.choice((None, *SIZES)), bool(r.randrange(2))))
    loads = 530 if kind == 3 else 0
    sizes = r.choice(SIZES) if kind in (4, 5) else None
    lines = write_trace(r.randrange(10000), r.randrange(10, 90), 512, r.randrange(1, 5), r.randrange(1, 4), loads, sizes, kind >= 5)
    return ''.join(line + '\n' for line in lines)


def contended(r: random.Random) -> str:
    """A trace in which all frames are under pages, and while processors claim the next ones to go others evict and discard these."""
    lines = ['trace 3 512 6 2 ' + r.choice(SIZES), '0 map 0 0 512 fixed write', '0 map 1 0 512 fixed write']
    lines += ['%d load 0 %d' % (page % 6, 8192 * page) for page in range(512)]
    for n in range(120):
        gone = r.choice(('evict 0 %d', 'discard 0 %d 3')) % r.randrange(n, n + 6)
        lines.append('%d %s' % (r.randrange(6), 'load 1 %d' % (8192 * n) if r.randrange(5) else gone))
    return ''.join(line + '\n' for line in [*lines, 'end'])


def failing(r: random.Random) -> Failing:
    """Of every other store each seventh read, write or write of a new page fails, or so."""
    def some() -> List[int]:
        return [n for n in range(1, 200) if r.randrange(7) == 0] if r.randrange(4) == 0 else []

    return Failing(some(), some(), some())


def base_of(seed: int) -> Base:
    """A trace and its history, in drawn turns, over stores that may fail or be full."""
    r = random.Random(seed)
    text = trace_for(r)
    trace = trace_of(text.encode())
    slots = r.choice((None, None, 2, 8))
    machine = Machine(trace, [store_of(slots, failing(r)) for _ in range(trace.spaces)])
    machine.run_in_turns(r.randrange(1000))
    lines = history_text(machine.pager.history).splitlines()
    return Base(text, [line.split(' ')[1:] for line in lines])


def text_with(base: Base, lines: List[Words]) -> bytes:
    """The trace with these entries behind it, numbered from 0."""
    rows = [' '.join([str(n), *words]) for n, words in enumerate(lines)]
    return (base.trace + ''.join(row + '\n' for row in [*rows, 'end'])).encode()


def place_in(r: random.Random, lines: List[Words]) -> int:
    """The place of an entry, as often of a rare kind as of a frequent one."""
    kinds: Dict[str, List[int]] = {}
    for n, words in enumerate(lines):
        kinds.setdefault(' '.join(words[2:3] + (words[4:5] if words[2] == 'answer' else [])), []).append(n)
    return r.choice(kinds[r.choice(sorted(kinds))])


def leave_out(r: random.Random, lines: List[Words]) -> bool:
    del lines[place_in(r, lines)]
    return True


def double(r: random.Random, lines: List[Words]) -> bool:
    n = place_in(r, lines)
    lines.insert(n, lines[n])
    return True


def exchange(r: random.Random, lines: List[Words]) -> bool:
    """An entry and the next one: of two processors that may be a history too."""
    n = place_in(r, lines)
    lines[n:n + 2] = lines[n:n + 2][::-1]
    return n + 1 < len(lines)


def move(r: random.Random, lines: List[Words]) -> bool:
    """An entry stands a few places away."""
    n = place_in(r, lines)
    there = max(0, n + r.randrange(-6, 7))
    lines.insert(there, lines.pop(n))
    return there != n


def cut_short(r: random.Random, lines: List[Words]) -> bool:
    del lines[r.choice((place_in(r, lines), len(lines) - r.randrange(1, 4))):]
    return True


def with_word(lines: List[Words], n: int, at: int, word: str) -> bool:
    """One word of an entry is another one. Whether it is another."""
    is_other = lines[n][at] != word
    lines[n] = [*lines[n][:at], word, *lines[n][at + 1:]]
    return is_other


def change_number(r: random.Random, lines: List[Words]) -> bool:
    """A number of an entry is another one: near it, far from it, or that of another entry."""
    n = place_in(r, lines)
    places = [at for at, word in enumerate(lines[n]) if at > 2 and word.isdigit()]
    if not places:
        return False
    at = r.choice(places)
    number = int(lines[n][at])
    near = [number + r.choice((-8, -1, 1, 1, 8, 64)), number ^ 1 << r.randrange(12)]
    far = [0, 1048575, 1048576, 2 ** 32 - 1, 2 ** 32, 2 ** 64 - 1]
    others = [int(word) for word in lines[place_in(r, lines)] if word.isdigit()]
    return with_word(lines, n, at, str(max(0, r.choice((r.choice(near), r.choice(near), r.choice(far), r.choice(others))))))


def change_processor(r: random.Random, lines: List[Words]) -> bool:
    n = place_in(r, lines)
    return with_word(lines, n, 0, r.choice([words[0] for words in lines] + ['16', str(1 + int(lines[n][0]))]))


def change_part(r: random.Random, lines: List[Words]) -> bool:
    """An entry names the frames where it didn't, no more where it did, or another space."""
    n = place_in(r, lines)
    part = lines[n][1]
    parts = ['f', part.partition('+')[0], part.partition('+')[0] + '+f', 's%d' % r.randrange(4), 's%d+f' % r.randrange(4), r.choice(lines)[1]]
    return with_word(lines, n, 1, r.choice(parts))


def change_victim(r: random.Random, lines: List[Words]) -> bool:
    """A claim is of the frame of another page, which got it before."""
    claims = [n for n, words in enumerate(lines) if words[2] == 'claim']
    if not claims:
        return False
    n = r.choice(claims)
    _, part, _, page, frame = r.choice([words for words in lines[:n] if words[2] in ('take', 'use')])[:5]
    claim = lines[n]
    lines[n] = [*claim[:3], part.strip('s+f'), page, frame, *claim[6:]]
    return lines[n] != claim


# What stands in place of a flag's or a kind's word.
TURNED = {'hit': 'miss', 'miss': 'hit', 'written': 'clean', 'clean': 'written', 'read': 'write', 'write': 'read'}
OTHER_KINDS = {'take': 'use', 'use': 'take', 'got': 'drop', 'drop': 'got', 'unclaim': 'got', 'clear': 'give', 'give': 'clear'}
# The kinds whose last word is a flag.
WITH_FLAG = ('take', 'use', 'pin', 'rest')


def turn_flag(r: random.Random, lines: List[Words]) -> bool:
    """A hit is a miss, a page that was clean is written, and so on."""
    n = place_in(r, lines)
    if lines[n][2] in WITH_FLAG:
        return with_word(lines, n, len(lines[n]) - 1, '0' if lines[n][-1] == '1' else '1')
    places = [at for at, word in enumerate(lines[n]) if at > 2 and word in TURNED]
    return bool(places) and with_word(lines, n, places[-1], TURNED[lines[n][places[-1]]])


def change_kind(r: random.Random, lines: List[Words]) -> bool:
    """An entry is of another kind with the same numbers; or a claim is for no page, or an answer has no size."""
    n = place_in(r, lines)
    words = lines[n]
    if words[2] in OTHER_KINDS:
        return with_word(lines, n, 2, OTHER_KINDS[words[2]])
    if 'for' in words or words[-2] in ('hit', 'miss'):
        lines[n] = words[:-3] if 'for' in words else words[:-2]
        return True
    return False


REPLIES = ('done', 'value 0', 'clean', 'written', 'unmapped', 'denied', 'overlap', 'outofspace', 'notgrowing', 'regionsfull', 'noframes 0 0 0',
           'storefault 0 1', 'nomemory', 'busy 0', 'done miss 0', 'done hit 0', 'value 0 hit 0', 'value 0 miss 3')


def change_reply(r: random.Random, lines: List[Words]) -> bool:
    n = place_in(r, [words for words in lines if words[2] == 'answer'])
    answers = [at for at, words in enumerate(lines) if words[2] == 'answer']
    words = lines[answers[n]]
    lines[answers[n]] = [*words[:4], *r.choice(REPLIES).split(' ')]
    return lines[answers[n]] != words


def put_in(r: random.Random, lines: List[Words]) -> bool:
    """One more entry, of any kind."""
    rows = ('f got 0', 'f drop 0', 'f refused 0 0 0', 'f rest 0', 'f rest 1', 's0+f unclaim 0', 's0+f give 0 0', 's0+f clear 0 8', 's0+f pin 0 8 1',
            's0+f pin 0 8 0', 's0+f kept 0 8 0 0', 's0 out 0 clean', 's0 out 0 written', 's0 failed 0 read 1', 's0 failed 0 write 1',
            'f claim 0 0 0', 's0+f claim 0 0 0 for 1 read', 's0+f take 0 0 0 8 8 0', 's0+f use 0 0 0 8 8 0')
    n = place_in(r, lines)
    lines.insert(n, [r.choice(lines)[0], *r.choice(rows).split(' ')])
    return True


DAMAGES: Dict[str, Damage] = {
    'left out': leave_out, 'doubled': double, 'exchanged with the next': exchange, 'moved': move, 'cut short': cut_short,
    'another victim': change_victim, 'another number': change_number, 'another processor': change_processor, 'another part': change_part,
    'a flag turned': turn_flag, 'another kind': change_kind, 'another reply': change_reply, 'one more': put_in}


def other_trace(r: random.Random, trace: str) -> Tuple[str, bool]:
    """The trace with other frames, page sizes or turns of a daemon, or without its last call; and whether it is another."""
    first, _, rest = trace.partition('\n')
    words, kind = first.split(' '), r.randrange(4)
    if kind == 0:
        words[2] = '1024'
    elif kind == 1:
        words = ['trace', words[1] if words[1] == '3' else '2', *words[2:5], r.choice(SIZES)]
    elif kind == 2:
        rest = re.sub(r'^(daemon \d+) (\d+)', lambda found: '%s %d' % (found[1], int(found[2]) + 1), rest)
    else:
        rest = re.sub(r'[^\n]*\nend\n$', 'end\n', rest)
    other = ' '.join(words) + '\n' + rest
    return other, other != trace


def damaged(base: Base, r: random.Random) -> Damaged:
    """A history with one damage, or of another trace."""
    while True:
        how = r.choice([*DAMAGES, 'another number', 'a flag turned', 'of another trace'])
        if how == 'of another trace':
            trace, is_other = other_trace(r, base.trace)
            if is_other:
                return Damaged(how, text_with(base._replace(trace=trace), base.lines))
        else:
            lines = list(base.lines)
            if DAMAGES[how](r, lines):
                return Damaged(how, text_with(base, lines))


# A trace, and behind it a line of each kind of entry and reply, which is no legal history.
EVERY_TRACE = b"""\
trace 3 512 2 3 0123
daemon 64 4096
0 map 0 0 8 fixed read
1 load 2 8
end
"""
EVERY_LINE = b"""\
0 0 s0 answer 0 done
1 1 s1 answer 0 value 18446744073709551615 hit 3
2 0 s2+f answer 0 clean
3 0 f answer 0 written miss 0
4 0 s0 answer 0 unmapped
5 0 s0 answer 0 denied
6 0 s0 answer 0 overlap
7 0 s0 answer 0 outofspace
8 0 s0 answer 0 notgrowing
9 0 s0 answer 0 regionsfull
10 0 s0 answer 0 noframes 4294967295 0 10
11 0 s0 answer 0 storefault 4294967295 18446744073709551615
12 0 s0 answer 0 nomemory
13 0 s0 answer 0 busy 4294967295
14 2 s1 out 4294967295 written
15 2 s1 out 0 clean
16 1 s2 failed 7 read 18446744073709551615
17 1 s2 failed 4294967295 write 1
18 0 s0+f take 0 4294967295 0 4294967295 8 0
19 1 s0+f use 1 2 3 4 5 1
20 0 s0+f give 10 20
21 0 s0+f clear 4294967295 0
22 0 s0+f pin 0 8 1
23 0 s0+f pin 4294967295 1 0
24 0 s0+f kept 4294967295 0 9 100
25 0 s0+f claim 4294967295 1048576 511 for 4294967295 read
26 1 s0+f claim 0 0 0 for 0 write
27 2 f claim 2 4294967295 0
28 0 f got 511
29 0 f drop 4294967295
30 0 s2+f unclaim 9
31 0 f refused 1 2 4294967295
32 2 f rest 0
33 2 f rest 1
end
"""


def texts_of_bytes(r: random.Random) -> Iterator[Tuple[str, bytes]]:
    """The text with a line of each kind; behind each of its bytes cut off; and each byte left out, doubled, and in place of it another one."""
    others = b' \n+-0123456789abcdefhmorstw\r\t\0\xff'
    yield 'as it is', EVERY_TRACE + EVERY_LINE
    for at in range(len(EVERY_LINE)):
        before, byte, behind = EVERY_LINE[:at], EVERY_LINE[at:at + 1], EVERY_LINE[at + 1:]
        yield 'cut off before byte %d' % at, EVERY_TRACE + before
        yield 'byte %d left out' % at, EVERY_TRACE + before + behind
        yield 'byte %d doubled' % at, EVERY_TRACE + before + byte * 2 + behind
        for other in (b' ', b'\n', b'%d' % r.randrange(10), bytes([r.choice(others)]), bytes([r.choice(others)])):
            if other != byte:
                yield '%r in place of byte %d' % (other, at), EVERY_TRACE + before + other + behind
