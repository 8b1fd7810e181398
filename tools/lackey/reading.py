"""Reads the input to accesses and changes of regions, and counts all else."""
import argparse
import functools
import os
import stat
import time
from array import array
from typing import BinaryIO, Dict, List, Optional, Tuple

from common import say
from lackey.lines import EXIT, FORMS, MESSAGE, PAGE, SYSTEM_CALL, Access, Changes, Told

# How many lines are kept with what they tell: most are met again.
KEPT = 1 << 16
# How often --progress looks at the clock, in lines, and tells, in seconds.
LOOKS = 1 << 16
SECONDS = 3.0


class Latest:
    """The pages that were accessed last, the latest at the end, each with whether it was stored to since it is one of them."""

    def __init__(self, most: int) -> None:
        self.most = most
        self.stored: Dict[int, bool] = {}

    def has(self, access: Access) -> bool:
        """Whether the access may be folded. Its page is the latest afterwards."""
        stores, page, _ = access
        was = self.stored.pop(page, None)
        self.stored[page] = was or stores
        if was is None and len(self.stored) > self.most:
            del self.stored[next(iter(self.stored))]
        return was is not None and (was or not stores)

    def forget(self, first: int, last: int) -> None:
        """Forgets the pages from the first to the last: a change was made of them."""
        for page in [page for page in self.stored if first <= page <= last]:
            del self.stored[page]


class Reading:
    """What was read: the accesses that become calls, the changes between them, and the counts of all else."""

    def __init__(self, options: argparse.Namespace, size: Optional[int]) -> None:
        self.options = options
        self.size = size
        self.accesses: List[Access] = []
        # How many lines, and how many bytes, were read to the end of the line that each access is of.
        self.lines_of = array('Q')
        self.bytes_of = array('Q')
        # How many accesses were folded before that line.
        self.folded_of = array('Q')
        self.changes = Changes()
        self.latest = Latest(options.fold)
        self.told = functools.lru_cache(KEPT)(FORMS[options.form])
        self.lines = self.bytes = self.messages = self.skipped = self.folded = self.instructions = self.system_calls = 0
        # Whether the message was met by which lackey ends.
        self.exited = False
        # Where the input is left, if that isn't its end: behind so many lines and bytes.
        self.left: Optional[Tuple[int, int]] = None
        self.progressed = time.monotonic()

    def read(self, source: BinaryIO) -> None:
        """Reads the lines, until there would be more accesses than are wanted. Of the first lines, as --skip says, the changes alone."""
        skip, progress = self.options.skip, self.options.progress
        for line in source:
            told = self.told(line) if self.lines >= skip else None
            if not (self.other(line) if told is None else self.access(told, len(line))):
                self.left = self.lines, self.bytes
                break
            self.lines += 1
            self.bytes += len(line)
            if progress and self.lines % LOOKS == 0:
                self.progress()

    def other(self, line: bytes) -> bool:
        """Takes a line that begins with no access, or one of the first. Whether there is room for the access that may stand in it."""
        if line.startswith(SYSTEM_CALL) and self.options.form == 'lackey':
            return self.system_call(line)
        if line.startswith(MESSAGE):
            self.messages += 1
            self.exited = self.exited or EXIT.fullmatch(line) is not None
        elif self.lines >= self.options.skip:
            self.skipped += 1
        return True

    def system_call(self, line: bytes) -> bool:
        """Takes a line of system calls, and the access that may stand behind them."""
        known = len(self.changes.made)
        rest = self.changes.read(len(self.accesses), line)
        self.system_calls += 1
        for change in self.changes.made[known:]:
            self.latest.forget(change.first // PAGE, (change.end - 1) // PAGE)
        told = self.told(rest) if self.lines >= self.options.skip else None
        return told is None or self.access(told, len(line))

    def access(self, told: Told, length: int) -> bool:
        """Takes the accesses of a line, but for what is folded, unless they are more than are wanted."""
        accesses, instructions = told
        if instructions and self.options.no_instructions:
            accesses = accesses[instructions:]
            self.instructions += 1
        has = self.latest.has
        kept = [access for access in accesses if not has(access)] if self.latest.most else accesses
        if kept:
            if len(self.accesses) + len(kept) > self.options.calls:
                return False
            self.accesses += kept
            self.lines_of.extend([self.lines + 1] * len(kept))
            self.bytes_of.extend([self.bytes + length] * len(kept))
            self.folded_of.extend([self.folded] * len(kept))
        self.folded += len(accesses) - len(kept)
        return True

    def end(self) -> str:
        """How the input ended: a word of ENDS. Told to be quiet, Valgrind writes no message."""
        if self.left:
            return 'left'
        return 'program' if self.exited else 'cut' if self.messages and self.options.form == 'lackey' else 'input'

    def cut(self, most: int) -> None:
        """Leaves at most so many accesses, all of a line's or none, and the changes before the first that is left out."""
        while most > 0 and self.lines_of[most] == self.lines_of[most - 1]:
            most -= 1
        self.left = self.lines_of[most] - 1, self.bytes_of[most]
        self.folded = self.folded_of[most]
        del self.accesses[most:], self.lines_of[most:], self.bytes_of[most:], self.folded_of[most:]
        self.changes.made = [change for change in self.changes.made if change.at < most]

    def share(self, lines: int, count: int) -> str:
        """How much of the input so many lines and bytes are."""
        return '%d lines' % lines + (', %d %% of the input' % (100 * count // self.size) if self.size else '')

    def progress(self) -> None:
        """Tells how much of the input was read, where that was some seconds ago."""
        if time.monotonic() - self.progressed >= SECONDS:
            self.progressed = time.monotonic()
            say(self.share(self.lines, self.bytes))


def size_of(source: BinaryIO) -> Optional[int]:
    """How many bytes are to be read, where it is known."""
    about = os.fstat(source.fileno())
    return about.st_size - os.lseek(source.fileno(), 0, os.SEEK_CUR) if stat.S_ISREG(about.st_mode) else None


def reading_of(source: BinaryIO, options: argparse.Namespace) -> Reading:
    """What the input tells."""
    got = Reading(options, size_of(source))
    got.read(source)
    return got
