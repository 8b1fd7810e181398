"""A trace and a history behind it, as `check` reads them, and its verdict (crates/history_text/specs/HistoryText.antt, Refusals.antt)."""
import subprocess
from typing import List, NamedTuple, Optional, Tuple

from .legal import Illegal, Pager
from .printed import BadLine, read_entry
from .showing import wrong_with_answers
from .trace_text import Refusal, trace_of
from .values import Entry, Trace, setting_of

# The most bytes of a trace and a history behind it.
MOST_CHECKED = 67108864
END = b'end\n'


class BadHistory(Exception):
    """Why what stands behind a trace is no history of it, in the program's words."""


class Verdict(NamedTuple):
    """The number of the first entry that isn't legal, or of all entries where they are legal but don't show the trace, and why; no number where
    the history is legal and shows it."""
    entry: Optional[int]
    why: str

    def text(self) -> str:
        """What is printed of it."""
        return 'yes' if self.entry is None else 'no %d' % self.entry


def cut(data: bytes) -> int:
    """How many bytes there are up to the first line `end`, this line among them; all where there is none. What is cut off is a trace's text
    where it is one, since no line of it but the last is `end`."""
    if data.startswith(END):
        return len(END)
    at = data.find(b'\n' + END)
    return len(data) if at < 0 else at + 1 + len(END)


def parts_of(data: bytes) -> Tuple[Trace, bytes]:
    """The trace that the bytes begin with, and what stands behind it; `Refusal` where they begin with none, or are too many."""
    if len(data) > MOST_CHECKED:
        raise Refusal('trace too long')
    end = cut(data)
    return trace_of(data[:end]), data[end:]


def history_of(trace: Trace, text: bytes) -> List[Entry]:
    """The history of the trace that has this text: a line for each entry, then the line `end`, and nothing behind it. `BadHistory` tells the first
    line, counted from 1, that can't stand there, or a rest behind `end`; or that the text ends before that line. (Refusals.antt)"""
    calls = [trace.calls_of(c) for c in range(trace.processors)]
    *lines, rest = text.split(b'\n')
    history: List[Entry] = []
    for n, line in enumerate(lines, 1):
        if line == b'end':
            if len(lines) > n or rest:
                raise BadHistory('history line %d' % (n + 1))
            return history
        try:
            history.append(read_entry(line, len(history), trace, calls))
        except BadLine:
            raise BadHistory('history line %d' % n)
    raise BadHistory('history without end')


def verdict(trace: Trace, history: List[Entry]) -> Verdict:
    """The verdict, over stores that tell their copies and never failed at entry."""
    pager = Pager(setting_of(trace))
    try:
        for e in history:
            pager.add(e)
    except Illegal as fault:
        return Verdict(len(pager.history), str(fault))
    wrong = wrong_with_answers(trace, pager)
    return Verdict(None, '') if wrong is None else Verdict(len(history), wrong)


def by_model(text: bytes) -> str:
    """What is said of a trace and a history behind it: the verdict, or why one of them is refused."""
    try:
        trace, behind = parts_of(text)
        return verdict(trace, history_of(trace, behind)).text()
    except (Refusal, BadHistory) as refusal:
        return str(refusal)


def by_program(program: str, text: bytes) -> str:
    """What the program says of it."""
    ran = subprocess.run([program, 'check'], input=text, stdout=subprocess.PIPE, stderr=subprocess.PIPE)
    out, message = ran.stdout.decode(errors='backslashreplace'), ran.stderr.decode(errors='backslashreplace')
    if ran.returncode == 0 and not message and out.count('\n') == 1 and out.endswith('\n'):
        return out[:-1]
    told = message.partition('see: ')[0]
    if ran.returncode == 3 and not out and told.startswith('superpager: ') and told.endswith('\n'):
        return told[len('superpager: '):-1]
    return 'status %d, %r, %r' % (ran.returncode, out, message)
