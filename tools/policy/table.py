"""The rows of a trace, one for each policy, and the table of them."""
import csv
import sys
from typing import List, NamedTuple, Optional

from common import Program
from judging.trace_text import trace_of
from policy.best import best
from policy.collapse import Collapse
from policy.first_touch import FirstTouch
from policy.machine import Counts, Machine
from policy.program import counts_of
from policy.reservations import Reservations

# The policies whose numbers are the program's own, each with its page sizes. The last is what the others are measured by.
BASE = 'base pages'
PROGRAMS = (('this pager', '0123'), ('this pager 8K 4M', '03'), (BASE, '0'))
COLUMNS = ('trace', 'frames', 'policy', 'misses', 'saved', 'made', 'broken', 'zeroed', 'copied', 'used', 'untouched', 'paged out')
# The columns that are words.
WORDS = (0, 2)


class Knobs(NamedTuple):
    """After how many accesses khugepaged copies an extent, and how many of its pages may be missing."""
    collapse_every: int
    max_ptes_none: int


class Row(NamedTuple):
    """What a trace came to under a policy, and which share of the misses with base pages that saves."""
    policy: str
    counts: Counts
    saved: Optional[float]


class Group(NamedTuple):
    """The rows of one trace and number of frames."""
    trace: str
    frames: int
    rows: List[Row]


def rows_of(program: Program, name: str, text: bytes, knobs: Knobs) -> List[Row]:
    """The rows of a trace of this name."""
    found = [(policy, counts_of(program, name, text, sizes)) for policy, sizes in PROGRAMS]
    trace = trace_of(text)
    found += [('FreeBSD reservations', Machine(trace, Reservations).run()), ('Linux first touch', Machine(trace, FirstTouch).run()),
              ('Linux khugepaged', Machine(trace, Collapse, *knobs).run()), ('the best', best(trace))]
    base = dict(found)[BASE].misses
    return [Row(policy, counts, 1 - counts.misses / base if base else None) for policy, counts in found]


def fields_of(group: Group, row: Row, saved: Optional[object]) -> List[object]:
    """What stands in the columns."""
    return [group.trace, group.frames, row.policy, row.counts.misses, saved, *row.counts[1:8]]


def percent(share: Optional[float]) -> str:
    """A share as the table has it."""
    return '-' if share is None else '%.1f %%' % (100 * share)


def as_csv(groups: List[Group]) -> None:
    """Prints the rows with commas between the fields, and the names of these first."""
    lines = csv.writer(sys.stdout, lineterminator='\n')
    lines.writerow(name.replace(' ', '_') for name in COLUMNS)
    lines.writerows(fields_of(group, row, None if row.saved is None else round(row.saved, 4)) for group in groups for row in group.rows)


def as_table(groups: List[Group]) -> None:
    """Prints the rows side by side in columns."""
    cells = [[str(field) for field in fields_of(group, row, percent(row.saved))] for group in groups for row in group.rows]
    widths = [max(map(len, column)) for column in zip(COLUMNS, *cells)]
    rule = ['-' * width if at in WORDS else '-' * (width - 1) + ':' for at, width in enumerate(widths)]
    for line in [list(COLUMNS), rule] + cells:
        told = (cell.ljust(width) if at in WORDS else cell.rjust(width) for at, (cell, width) in enumerate(zip(line, widths)))
        print('| %s |' % ' | '.join(told))
