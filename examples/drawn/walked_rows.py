"""Says which rows of the table of steps in docs/steps.md the drawn runs of run_tests don't walk: each is to be walked where a call has no
victim or one in its own space, and where its victim is in another space, if it can be.

    python3 examples/drawn/walked_rows.py

A row shows in two entries of a call that come one behind the other; one that makes no entry shows in the entry that comes next.
"""
import os
import re
import sys

RUNS = os.path.join(os.path.dirname(__file__), '..', '..', 'crates', 'run_tests', 'src', 'tests', 'machine', 'drawn.rt')

# The kinds of two entries, and the rows that lead from the first to the second.
WALKS = """\
start: answer done, answer value, answer clean, answer written, answer unmapped, answer denied, answer overlap: Start, answered
start: answer outofspace, answer notgrowing, answer regionsfull, answer nomemory: Start, answered
start: failed write: Start, write failed
start: evicted clean, evicted written: Start to Evict; Evict
start: clear: Start to Clear; Clear
clear: answer done: Gone
start: pin: Start to Pin; Pin, pinned
pin: answer done: Gone
start: kept: Start to Pin; Pin, kept
kept: answer busy: Busy
start: take: Start to Frame; Frame, taken
start: claim: Start to Frame; Frame, claimed
start: refused: Start to Frame; Frame, refused
refused: answer noframes: Short
take: answer value, answer done: Fill, answered
take: failed read: Fill, read failed
claim: got: Out, given up
claim: out clean, out written: Out to Write; Write, done
claim: failed write: Out to Write; Write, failed
claim: unclaim: Out to Write; Write, no memory; Unclaim to Lack
failed write: unclaim: Unclaim to Fault
out clean: give: Hand
out written: give: Hand
give: use: Back to Use; Use
got: use: Back to Use; Use
give: drop: Back to Drop; Drop
got: drop: Back to Drop; Drop
drop: answer value, answer done, answer unmapped, answer denied: Late
use: answer value, answer done: Fill, answered
use: failed read: Fill, read failed
failed read: give: Unfill
give: answer storefault: Fault
failed write: answer storefault: Fault
unclaim: answer storefault: Fault
unclaim: answer nomemory: Lack"""

# Elsewhere they can't be walked: a flight takes a victim late, or keeps the lock of its own space.
OWN = ('Start, answered; Start, write failed; Start to Evict; Start to Clear; Start to Pin; Start to Frame; Evict; Clear; Pin, pinned; Pin, '
       'kept; Busy; Gone; Frame, taken; Frame, claimed; Frame, refused; Short; Fill, answered; Fill, read failed; Unfill; Out to Write; '
       'Write, done; Write, failed; Write, no memory; Hand; Unclaim to Fault; Unclaim to Lack; Back to Use; Use; Fault; Lack')
OTHER = ('Start to Frame; Frame, claimed; Fill, answered; Fill, read failed; Unfill; Out, given up; Out to Write; Write, done; Write, failed; '
         'Write, no memory; Hand; Unclaim to Fault; Unclaim to Lack; Back to Drop; Back to Use; Drop; Late; Use; Fault; Lack')


def rows_by_pair():
    """The rows of each pair of kinds."""
    rows = {}
    for line in WALKS.split('\n'):
        first, kinds, names = line.split(': ')
        for kind in kinds.split(', '):
            rows[first, kind] = names.split('; ')
    return rows


def kind_of(words):
    """The kind of an entry: its word, and of an answer the reply's, of a failure or a paging out how it was."""
    part, name, how = words[2], words[3], words[5:6]
    if name == 'answer' and part.endswith('+f'):
        name = 'evicted'
    return ' '.join([name] + how) if name in ('answer', 'evicted', 'out', 'failed') else name


def walked(report, rows):
    """The rows that a run walks, each with whether the call's victim was in another space."""
    places = {}
    for words in (line.split() for line in report.split('; ')):
        if words[0].isdigit():
            processor = words[1]
            first, other = places.get(processor, ('start', False))
            # a claim names the space of its call in its part, behind an s, and that of its victim first
            other = other or words[3] == 'claim' and words[2][1] != words[4]
            kind = kind_of(words)
            for row in rows[first, kind]:
                yield row, other
            ends = kind.startswith(('answer', 'evicted'))
            places[processor] = ('start', False) if ends else (kind, other)


def main():
    rows = rows_by_pair()
    text = re.sub(r'\\\n', '', open(RUNS, encoding='utf-8').read())
    found = {row for report in re.findall(r'^report: (.*)$', text, re.M) for row in walked(report, rows)}
    wanted = {(row, False) for row in OWN.split('; ')} | {(row, True) for row in OTHER.split('; ')}
    for row, other in sorted(wanted - found):
        print('not walked: %s, by a call whose victim is in %s' % (row, 'another space' if other else 'its own space or which has none'))
    for row, other in sorted(found - wanted):
        print('not to be walked: %s, by a call whose victim is in %s' % (row, 'another space' if other else 'its own space or which has none'))
    return int(wanted != found)


if __name__ == '__main__':
    sys.exit(main())
