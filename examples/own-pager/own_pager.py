"""A pager of one's own: base pages alone, one processor, and a trace of maps of fixed regions, loads and stores.

    own_pager.py [--lru] TRACE

It prints the trace, and behind it the history of what it did, for `superpager check` to judge. Where each frame is under a page it pages out the
page that got its frame first; by --lru the one that was used longest ago.
"""
import sys
from collections import OrderedDict

by_lru = '--lru' in sys.argv
text = open(sys.argv[-1]).read()
first_line, *calls, _ = [line.split() for line in text.splitlines()]
frames, spaces = int(first_line[2]), int(first_line[4])
regions = [[] for _ in range(spaces)]  # of each space: first page, end, rights
tlbs = [OrderedDict() for _ in range(spaces)]  # of each space: the pages that have a translation, the one used longest ago first
resident = OrderedDict()  # the frame of each (space, page), the next one to be paged out first
words, dirty, entries = {}, set(), []


def entry(part, *what):
    """One more line of the history, of processor 0."""
    entries.append(' '.join(map(str, (len(entries), 0, part, *what))))


def page_out(space, page, purpose):
    """A page gives its frame up, for a page of a space that is to be read or written. The frame."""
    (s, p), frame = next(iter(resident.items()))
    entry('s%d+f' % space, 'claim', s, p, frame, 'for', page, purpose)
    entry('s%d' % s, 'out', p, 'written' if (s, p) in dirty else 'clean')
    entry('s%d+f' % s, 'give', p, frame)
    del resident[s, p]
    dirty.discard((s, p))
    tlbs[s].pop(p, None)
    return frame


def touch(space, page):
    """The page's translation is used, and comes in where it is missing: a hit or a miss, of size 0."""
    tlb = tlbs[space]
    found = 'hit 0' if page in tlb else 'miss 0'
    tlb[page] = True
    tlb.move_to_end(page)
    if len(tlb) > 128:
        tlb.popitem(last=False)
    return found


def access(space, address, word=None):
    """A load, or a store of a word: its reply."""
    page, purpose = address // 8192, 'read' if word is None else 'write'
    first, end, rights = next((r for r in regions[space] if r[0] <= page < r[1]), (0, 0, None))
    if rights is None:
        return 'unmapped'
    if rights == 'none' or (rights == 'read' and purpose == 'write'):
        return 'denied'
    if (space, page) not in resident:
        kind = 'take' if len(resident) < frames else 'use'
        resident[space, page] = len(resident) if kind == 'take' else page_out(space, page, purpose)
        entry('s%d+f' % space, kind, page, resident[space, page], first, end, end - first, 0)
    elif by_lru:
        resident.move_to_end((space, page))
    if word is None:
        return 'value %s %s' % (words.get((space, address), 0), touch(space, page))
    words[space, address] = word
    dirty.add((space, page))
    return 'done ' + touch(space, page)


for number, (_, name, space, place, *rest) in enumerate(calls):
    reply = 'done'
    if name == 'map':
        regions[int(space)].append((int(place), int(place) + int(rest[0]), rest[2]))
    else:
        reply = access(int(space), int(place), *rest)
    entry('s' + space, 'answer', number, reply)
print(text + '\n'.join(entries + ['end']))
