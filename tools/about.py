"""What a trace was made of, in a file beside it: NAME.about beside NAME. Its lines are a key and a value, apart by one space."""
import binascii
import os
from typing import Dict, List, NamedTuple, Optional

# How the input ended: with the program that it tells of; without a word of how that ended; before it ended; or it was left there.
ENDS = ('program', 'input', 'cut', 'left')


class About(NamedTuple):
    """What was read, folded and left out. The keys of the file are these names, with - for _."""
    # Of which lines of the input the accesses were taken, counted from 1.
    first_line: int
    last_line: int
    # The bytes of the input that were read, and all of them, where that is known.
    bytes_read: int
    bytes_there: Optional[int]
    # One of ENDS.
    end: str
    # The accesses of these lines, how many of them were folded, and by how many pages.
    accesses: int
    folded: int
    fold: int
    # The lines of instructions that were left out, and those of which nothing was understood.
    instructions_left_out: int
    lines_skipped: int
    # Of the trace's lines behind the first, so that it is known if the file is of another trace.
    check: int

    def is_cut(self) -> bool:
        """Whether the trace has a part of the program's accesses."""
        return self.first_line > 1 or self.end in ('cut', 'left')

    def least_image(self) -> int:
        """The fewest translations of an image of which the trace tells: one of fewer may have missed what --fold N left out."""
        return max(1, self.fold)

    def share(self) -> str:
        """How much of the input was read, where that is known."""
        return ', %d %% of it' % (100 * self.bytes_read // self.bytes_there) if self.bytes_there else ''

    def part(self) -> str:
        """Of which part of the input the trace is, in words."""
        why = {'cut': '; the input ends before the program', 'left': '; more stands behind them'}.get(self.end, '')
        return 'lines %d to %d of the input%s%s' % (self.first_line, self.last_line, self.share() if self.end == 'left' else '', why)

    def said(self) -> List[str]:
        """What there is to know of a picture of the trace, in sentences."""
        folded = 'Not in the trace are %d of %d accesses, folded by --fold %d.' % (self.folded, self.accesses, self.fold)
        return ['A part of the program: %s.' % self.part()] * self.is_cut() + [folded] * (self.folded > 0)


def check_of(trace: bytes) -> int:
    """What tells a trace from others. Its first line may be changed, for other frames or page sizes."""
    return binascii.crc32(trace.partition(b'\n')[2])


def text_of(about: About) -> str:
    """The lines of the file."""
    return ''.join('%s %s\n' % (name.replace('_', '-'), '-' if value is None else value) for name, value in zip(about._fields, about))


def about_in(text: str) -> Optional[About]:
    """What the lines of a file tell; nothing where they are none of such a file. Keys that aren't known are passed over."""
    told: Dict[str, str] = dict(line.split(' ', 1) for line in text.splitlines() if ' ' in line)
    words: List[Optional[str]] = [told.get(name.replace('_', '-')) for name in About._fields]
    numbers = [None if word == '-' else word if word in ENDS else int(word) if word and word.isdigit() and word.isascii() else '' for word in words]
    return None if '' in numbers else About(*numbers)


def about_trace(path: str, trace: bytes) -> Optional[About]:
    """What the file beside a trace tells of it; nothing where there is none, or it is of another trace."""
    beside = path + '.about'
    if path == '-' or not os.path.isfile(beside):
        return None
    with open(beside, encoding='utf-8', errors='replace') as source:
        about = about_in(source.read())
    return about if about is not None and about.check == check_of(trace) else None
