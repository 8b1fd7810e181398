"""Runs of the program by `stream`, of traces that are too long to be kept, and the counts that it prints."""
import re
import shutil
import subprocess
from typing import BinaryIO, NamedTuple, Optional

from common import OWN_NAME, Stopped, with_first_line
from refusals import LONGEST_LINE

COUNTS = re.compile(r'tiles [\d ]+\npromotions (\d+)\ndemotions (\d+)\npreemptions (\d+)\nimages (\d+) (\d+)\nframes (\d+) (\d+) (\d+)\nend\n\Z')
AFTER = re.compile(r'^after (\d+(?: \d+){10})$', re.MULTILINE)
# How many bytes are read at a time.
PIECE = 1 << 20


class Counts(NamedTuple):
    """The counts of a text that `stream` printed."""
    promotions: int
    demotions: int
    preemptions: int
    hits: int
    misses: int
    free: int
    reserved: int
    used: int
    # As they were at the last line of counts; nothing where there is none.
    evictions: Optional[int]
    unserved: Optional[int]
    # The most frames that were used at a time: at the end, or at a line of counts.
    most_used: int


def counts_of(text: str) -> Optional[Counts]:
    """The counts of a text; nothing where it has no end."""
    counts = COUNTS.search(text)
    if counts is None:
        return None
    after = [line.split() for line in AFTER.findall(text)]
    evictions, unserved = (int(after[-1][6]), int(after[-1][10])) if after else (None, None)
    used = [int(line[9]) for line in after] + [int(counts[8])]
    return Counts(*map(int, counts.groups()), evictions, unserved, max(used))


def lines_of(source: BinaryIO) -> int:
    """How many line feeds are left in a source."""
    return sum(piece.count(b'\n') for piece in iter(lambda: source.read(PIECE), b''))


def calls_of(path: str) -> int:
    """How many calls the trace of a file has, where it is one."""
    with open(path, 'rb') as source:
        heads = [source.readline(LONGEST_LINE + 1) for _ in range(2)]
        source.seek(0)
        return lines_of(source) - 2 - heads[1].startswith(b'daemon ')


class Stream(NamedTuple):
    """A trace that is run line by line: its file and how many calls it has."""
    path: str
    calls: int

    def first_line(self, frames: Optional[int], sizes: Optional[str]) -> bytes:
        """The first line, with another number of frames and other page sizes, where they are given."""
        with open(self.path, 'rb') as source:
            return with_first_line(source.readline(LONGEST_LINE + 1), frames, sizes)

    def feed(self, first: bytes, sink: BinaryIO) -> None:
        """Writes the trace, with this first line."""
        with open(self.path, 'rb') as source, sink:
            source.readline(LONGEST_LINE + 1)
            sink.write(first)
            shutil.copyfileobj(source, sink, PIECE)

    def counts(self, program: str, first: bytes) -> Counts:
        """The counts of a run of the trace, with this first line."""
        every = str(max(1, self.calls))
        run = subprocess.Popen([program, 'stream', every], stdin=subprocess.PIPE, stdout=subprocess.PIPE, stderr=subprocess.PIPE)
        with run:
            try:
                self.feed(first, run.stdin)
            except BrokenPipeError:
                # The program refused a line, or couldn't go on, and says so.
                pass
            out, said = run.stdout.read().decode(errors='backslashreplace'), run.stderr.read().decode(errors='backslashreplace')
        counts = counts_of(out)
        if run.returncode or counts is None:
            why = OWN_NAME.sub('', said.partition('see: ')[0].strip())
            raise Stopped(why or 'the program ended with status %d' % run.returncode)
        return counts
