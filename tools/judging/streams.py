"""Runs of a trace that is read a line at a time, of which the counts alone are kept (docs/formats.md, "Streams").

Nothing of a run is kept but what the next call needs: the history of a call is counted when the call is answered, and then forgotten. But where curves
are asked for, they are those of the whole history, which is kept here.
"""
from typing import BinaryIO, Callable, Iterator, List, Optional, Tuple

from .curves import STREAMED_CAPACITIES, curves_text
from .legal import Pager
from .machine import Machine, MemoryStore
from .printed import counts_text, line_of
from .trace_text import FIRSTS, Refusal, call_forms, call_of, cause_of, daemon_line, plan_of, refuse
from .values import WANTS, Answer, Daemon, Entry, Evict, Line, Out, Trace

# The most calls of a stream, and the most bytes of a line, its line feed not counted.
MOST_STREAMED = 2 ** 32 - 1
LONGEST_LINE = 4095


class ReadFault(Exception):
    """A read of the source failed."""


class Lines:
    """The lines of a source, as they come."""

    def __init__(self, source: BinaryIO):
        self.source = source
        # That of the line that was read last, counted from 1.
        self.number = 0

    def next(self) -> bytes:
        """The next line, without its line feed. One that is too long is refused before it is read to its end, and a rest without a line feed is no
        line."""
        self.number += 1
        line = self.read(self.source.readline, LONGEST_LINE + 1)
        if len(line.rstrip(b'\n')) > LONGEST_LINE:
            raise Refusal('line %d: long' % self.number)
        if not line.endswith(b'\n'):
            raise Refusal('no end')
        return line[:-1]

    def end(self) -> None:
        """No byte stands behind the line that was read last."""
        if self.read(self.source.read, 1):
            raise Refusal('line %d: after' % (self.number + 1))

    def read(self, how: Callable[[int], bytes], most: int) -> bytes:
        """At most so many bytes of the source."""
        try:
            return how(most)
        except OSError:
            raise ReadFault

    def refuse(self, cause: Optional[str]) -> None:
        """The line that was read last is refused, where it has a cause."""
        refuse(self.number, cause)


class Counts:
    """What is counted of entries since the start of a run."""

    def __init__(self):
        self.calls = self.hits = self.misses = self.evictions = self.unserved = 0

    def add(self, e: Entry) -> None:
        """One entry more."""
        w = e.what
        if isinstance(w, Answer):
            self.calls += 1
            self.hits += w.size is not None and w.hit
            self.misses += w.size is not None and not w.hit
            self.unserved += w.reply[0] in WANTS
        self.evictions += gives_up(e)

    def line(self, pager: Pager) -> str:
        """The line of counts after a call: with the moves of all entries, and with frames as they are."""
        tiles, frames = [space.tiles for space in pager.spaces], pager.frames
        moves = [sum(t.promotions for t in tiles), sum(t.demotions for t in tiles), frames.preemptions]
        return line_of(['after', self.calls, self.hits, self.misses, *moves, self.evictions, len(frames.free), frames.reserved_count(), len(frames.used),
                        self.unserved])


def gives_up(e: Entry) -> bool:
    """A page that is evicted gives its frame up: it is paged out, or an evict is answered by an entry that names the frames."""
    w = e.what
    return isinstance(w, Out) or (isinstance(w, Answer) and isinstance(w.call, Evict) and e.frames)


class Stream:
    """A run, call by call, of a trace of which the first lines are known."""

    def __init__(self, plan: Trace, stores: List[MemoryStore], keeps: bool = False):
        self.machine = Machine(plan, stores)
        self.counts = Counts()
        # The entries so far, where they are kept.
        self.kept: Optional[List[Entry]] = [] if keeps else None

    def call(self, line: Line) -> None:
        """The daemon has a turn, where it has one left, and then the call is made to its end."""
        self.turn()
        self.machine.begin(line.processor, line.call)
        self.end_flight(line.processor)

    def turn(self) -> bool:
        """A turn of the daemon, where it has one left."""
        machine = self.machine
        left = machine.trace.daemon is not None and machine.flights[-1] is not None
        if left:
            self.end_flight(machine.trace.processors)
        return left

    def end_flight(self, c: int) -> None:
        """The processor's call, or turn, to its end. Its entries are counted, and forgotten or kept."""
        history = self.machine.pager.history
        self.machine.end_flight(c)
        for e in history:
            self.counts.add(e)
        if self.kept is not None:
            self.kept += history
        history.clear()

    def line(self) -> str:
        """The line of counts as they are."""
        return self.counts.line(self.machine.pager)

    def end(self) -> str:
        """The daemon has the turns that are left. What is printed then."""
        while self.turn():
            pass
        pager = self.machine.pager
        if self.kept is not None:
            return curves_text(self.machine.trace, self.kept, pager.setting.sizes, STREAMED_CAPACITIES)
        return counts_text(pager, self.counts.hits, self.counts.misses)


def calls_in(lines: Lines, line: bytes, plan: Trace) -> Iterator[Line]:
    """The calls, from this line up to the line `end`, behind which nothing may stand. (Refusals.antt)"""
    forms, calls = call_forms(plan.version, plan.processors, plan.spaces), 0
    while line != b'end':
        words = line.split(b' ')
        lines.refuse(cause_of(words, forms))
        if calls == MOST_STREAMED:
            raise Refusal('too many calls')
        calls += 1
        yield call_of(words)
        line = lines.next()
    lines.end()


def opened(lines: Lines) -> Tuple[Trace, bytes]:
    """What the lines before the calls say, and the line behind them."""
    first = lines.next().split(b' ')
    lines.refuse(cause_of(first, FIRSTS))
    line = lines.next()
    daemon: Optional[Daemon] = daemon_line(line)
    return plan_of(first, daemon), line if daemon is None else lines.next()


def streamed(source: BinaryIO, every: Optional[int], stores_of: Callable[[Trace], List[MemoryStore]]) -> Iterator[str]:
    """What a stream prints, as it comes: a line of counts after each so many calls, and at the end the counts of the whole. `Refusal` where a line is
    refused, and `ReadFault` where a read fails; what stands before was run, and its lines are out."""
    lines = Lines(source)
    plan, line = opened(lines)
    stream = Stream(plan, stores_of(plan))
    for call in calls_in(lines, line, plan):
        stream.call(call)
        if every is not None and stream.counts.calls % every == 0:
            yield stream.line()
    yield stream.end()


def streamed_curves(source: BinaryIO, stores_of: Callable[[Trace], List[MemoryStore]]) -> str:
    """What a stream prints that is asked for curves. It is `Refusal` too where there are several processors."""
    lines = Lines(source)
    plan, line = opened(lines)
    if plan.processors > 1:
        raise Refusal('curve of %d processors' % plan.processors)
    stream = Stream(plan, stores_of(plan), keeps=True)
    for call in calls_in(lines, line, plan):
        stream.call(call)
    return stream.end()
