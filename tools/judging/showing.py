"""Which histories are of a trace, and in which orders its calls were made (Showing.antt, Schedules.antt)."""
from typing import List, Optional, Tuple

from .drawing import Generator
from .legal import Pager
from .order import Place, at_rest, is_whole, keeps, progress_after, under
from .values import Answer, Entry, Trace, setting_of


def wrong_with_answers(trace: Trace, pager: Pager) -> Optional[str]:
    """What is wrong where the history isn't of the trace: each processor's answers are its calls, in order, and each call that was begun is
    answered; a daemon has made all its turns. (Showing.antt: Shows)"""
    for c in range(trace.processors):
        answered = [e.what.call for e in pager.history if e.processor == c and isinstance(e.what, Answer)]
        if answered != trace.calls_of(c):
            return 'the answers of processor %d are not its calls' % c
    if not pager.is_whole():
        return 'a call is not answered'
    if trace.daemon and pager.progress[-1].made != trace.daemon.turns:
        return 'the daemon has made %d turns' % pager.progress[-1].made
    return None


def rows_of(trace: Trace) -> List[int]:
    """The processors of the lines, in order. A daemon makes a turn before each line while it has one left, and the others at the end."""
    turns = trace.daemon.turns if trace.daemon else 0
    rows: List[int] = []
    for n, line in enumerate(trace.lines):
        rows += [trace.processors, line.processor] if n < turns else [line.processor]
    return rows + [trace.processors] * (turns - len(trace.lines))


class Standings:
    """Where each processor is in its calls, and a daemon in its turns, as entries come. (Schedules.antt: standing_at)"""

    def __init__(self, trace: Trace):
        self.calls = [trace.calls_of(c) for c in range(trace.processors)]
        self.daemon = trace.daemon
        self.marks = setting_of(trace).marks
        self.progress = [at_rest(mark, 0) for mark in self.marks]

    def standing(self, c: int) -> Optional[Tuple[Optional[int], Place]]:
        """The space of the processor's call and its place in it, where it has a call left; a turn has no space of its own."""
        if c >= len(self.progress):
            return None
        p = self.progress[c]
        if c == len(self.calls):
            return (None, p.place) if p.made < self.daemon.turns else None
        return (self.calls[c][p.made].space, p.place) if p.made < len(self.calls[c]) else None

    def rests(self, c: int) -> bool:
        """It is between two calls, or between two turns."""
        return is_whole(self.marks[c], self.progress[c])

    def left(self) -> List[int]:
        """The processors that have a call left, ascending. (Schedules.antt: left_of)"""
        return [c for c in range(len(self.progress)) if self.standing(c)]

    def can_step(self, c: int) -> bool:
        """It has a call left, and no other processor keeps the space that its next step is made under. (Schedules.antt)"""
        if self.standing(c) is None:
            return False
        space = under(*self.standing(c))
        return space is None or all(keeps(*self.standing(d)) != space for d in self.left() if d != c)

    def after(self, e: Entry) -> None:
        """The entry is made."""
        self.progress[e.processor] = progress_after(self.progress[e.processor], e)

    def picked(self, drawn: int) -> int:
        """The first in cyclic order, from a drawn place on, of the processors that have a call left and can step. (Schedules.antt)"""
        left = self.left()
        return next(c for c in left[drawn:] + left[:drawn] if self.can_step(c))

    def lowest(self) -> int:
        """The lowest processor that can step. (Schedules.antt: AreLowest)"""
        return next(c for c in self.left() if self.can_step(c))


def wrong_with_filing(trace: Trace, history: List[Entry]) -> Optional[str]:
    """What is wrong where a history of the trace isn't made of one sequence for each line, in the order of the lines. (Showing.antt: IsFiled)"""
    standings, rows, c = Standings(trace), iter(rows_of(trace)), None
    for n, e in enumerate(history):
        if c is None or standings.rests(c):
            c = next(rows)
        if e.processor != c:
            return 'entry %d is of processor %d, and the next line is of %d' % (n, e.processor, c)
        standings.after(e)
    return None


def wrong_with_turns(trace: Trace, seed: int, history: List[Entry]) -> Optional[str]:
    """What is wrong where the history isn't drawn from the seed: before each entry one of the processors that have a call left is drawn, and
    the entry is of the first in cyclic order from there that needn't wait. (Schedules.antt: IsSeeded)"""
    g, standings = Generator(seed), Standings(trace)
    for n, e in enumerate(history):
        picked = standings.picked(g.draw(len(standings.left())))
        if picked != e.processor:
            return 'entry %d is of processor %d, and %d was drawn' % (n, e.processor, picked)
        standings.after(e)
    return None


def wrong_with_schedule(trace: Trace, schedule: List[int], history: List[Entry]) -> Optional[str]:
    """What is wrong where the history doesn't follow the list: its numbers are taken in order, one gives the next entry where that processor
    can step and none otherwise, and each entry after them is of the lowest that can step. (Schedules.antt: IsScheduled)"""
    standings, numbers = Standings(trace), iter(schedule)
    for n, e in enumerate(history):
        wanted = next((c for c in numbers if standings.can_step(c)), None)
        wanted = standings.lowest() if wanted is None else wanted
        if wanted != e.processor:
            return 'entry %d is of processor %d in place of %d' % (n, e.processor, wanted)
        standings.after(e)
    return None
