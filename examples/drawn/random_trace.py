#!/bin/sh
''':'
. "$(dirname "$0")/../../tools/start.sh"
'''
# Prints a random trace in which every call has its turn and frames soon run short. `random_trace.py --help` says how.
import argparse
import os
import random
import sys

sys.path.insert(0, os.path.join(os.path.dirname(os.path.abspath(__file__)), os.pardir, os.pardir, 'tools'))
from common import end, number_in  # noqa: E402: it stands beside the tools

HELP = """\
Prints a random trace in which every call has its turn and frames soon run short.

    examples/drawn/random_trace.py [--pins] SEED CALLS FRAMES PROCESSORS SPACES LOADS [SIZES] >random.trace

It begins with LOADS loads of as many pages, so that few frames are left, and has CALLS more calls, and a few beyond them where the last
draw is a run of loads. Equal words give equal bytes. CALLS and LOADS are at most 130000 each, so that there are no more calls than a trace
may have. With SIZES the trace names these page sizes, as 03 for those of 1 and of 512 base pages. Where it begins with loads then, a region
has a page of the largest of them at least, and of half the traces the loads are first at every eighth page, and then between.
With --pins the trace is of version 3, with all page sizes where none are named, and some calls are discards, wires, unwires and growths. Half
of these traces have a daemon.
"""

PAGE = 8192
PAGES = 700
REGION = 60
SIZES = ('0', '01', '02', '03', '012', '013', '023', '0123')
# Where the region begins that grows, if calls pin.
GROWING = 1500
LAST_PAGE = 1048575
# The most calls, and the most loads before them: with the maps, they are fewer than a trace may have.
MOST = 130000


def first_line(frames, processors, spaces, sizes, pins):
    """The first line: of version 1, or of version 2, which names the page sizes, or of version 3, which has calls that pin too."""
    numbers = '%d %d %d' % (frames, processors, spaces)
    return 'trace 1 ' + numbers if sizes is None else 'trace %d %s %s' % (3 if pins else 2, numbers, sizes)


def write_trace(seed, calls, frames, processors, spaces, loads, sizes, pins=False):
    """The lines of the trace that these words draw."""
    r = random.Random(seed)
    sizes = SIZES[-1] if pins and sizes is None else sizes
    lines = [first_line(frames, processors, spaces, sizes, pins)]
    lines += pinned_beginning(r, processors, spaces) if pins else maps(r, processors, spaces, loads, sizes)
    step = 1 if sizes is None else r.choice((1, 8))
    lines += ['0 load %d %d' % (i % spaces, nth_page(i // spaces, step) * PAGE) for i in range(loads)]
    wanted = len(lines) + calls
    while len(lines) < wanted:
        draw = pinning_calls if pins and r.randrange(3) == 0 else some_calls
        lines += draw(r, r.randrange(processors), r.randrange(spaces))
    return lines + ['end']


def maps(r, processors, spaces, loads, sizes):
    """The regions of each space, of one kind."""
    lines = []
    small = REGION if sizes is None else max(REGION, 8 ** int(sizes[-1]))
    for s in range(spaces):
        length = r.choice((PAGES, 600, 300))
        kind = r.choice(('fixed', 'growing', 'fixed', 'wired'))
        # Where frames are to be few, small regions, so that an unmap doesn't free most of them.
        size = small if loads else length
        for first in range(0, length, size):
            lines.append('%d map %d %d %d %s write' % (s % processors, s, first, min(size, length - first), kind))
    return lines


def pinned_beginning(r, processors, spaces):
    """Where calls pin: a daemon in half of the traces; and of each space regions of several kinds, and a small one that grows."""
    lines = ['daemon %d %d' % (r.randrange(1, 65), r.randrange(1, 400))] if r.choice((True, False)) else []
    for s in range(spaces):
        size = r.choice((REGION, 64, 128, 512))
        for first in range(0, PAGES, size):
            kind = r.choice(('fixed', 'growing', 'fixed', 'growing', 'fixed', 'wired'))
            lines.append('%d map %d %d %d %s write' % (s % processors, s, first, min(size, PAGES - first), kind))
        lines.append('%d map %d %d 8 growing write' % (s % processors, s, GROWING))
    return lines


def pinning_calls(r, processor, space):
    """A call of this processor in this space that discards pages, or that pins, unpins or grows a region, or a load of the one that grows."""
    what = r.randrange(100)
    page = r.choice((r.randrange(PAGES), r.randrange(64), GROWING + r.randrange(64)))
    if what < 30:
        length = r.choice((1, 8, r.randrange(1, 65), 512))
        return ['%d discard %d %d %d' % (processor, space, page - page % min(length, 8), length)]
    if what < 75:
        return ['%d %s %d %d' % (processor, 'wire' if what < 53 else 'unwire', space, page)]
    if what < 85:
        return ['%d grow %d %d %d' % (processor, space, GROWING, r.randrange(1, 30))]
    return ['%d load %d %d' % (processor, space, (GROWING + r.randrange(64)) * PAGE)]


def nth_page(n, step):
    """The page of a load: of each 512 pages first every one at this step, and then those beside them."""
    i = n % 512
    return n - i + i * step % 512 + i * step // 512


def some_calls(r, processor, space):
    """One call of this processor in this space, or a run of loads that fills frames."""
    what = r.randrange(100)
    page = r.choice((r.randrange(PAGES), r.randrange(64), r.randrange(PAGES)))

    def call(name, *numbers):
        return ' '.join(map(str, (processor, name, space) + numbers))

    if what < 50:
        return [call('load', page * PAGE + 8 * r.choice((0, 1, 1023)))]
    if what < 78:
        return [call('store', page * PAGE + 8 * r.choice((0, 1)), r.randrange(100))]
    if what < 83:
        return [call('sync', page)]
    if what < 88:
        return [call('evict', page)]
    if what < 91:
        return [call('protect', page, r.randrange(1, 9), r.choice(('none', 'read', 'write', 'write')))]
    if what < 93:
        kinds = ('fixed', 'growing', 'wired')
        return [call('map', r.randrange(1200), r.randrange(1, 80), r.choice(kinds), r.choice(('read', 'write')))]
    if what < 94:
        return [call('unmap', page)]
    if what < 95:
        return [call('grow', page, r.randrange(1, 30))]
    first = r.randrange(PAGES)
    return [call('load', min(first + i, LAST_PAGE) * PAGE) for i in range(r.randrange(8, 60))]


def main():
    """Prints the trace that the words draw."""
    parser = argparse.ArgumentParser('random_trace.py', description=HELP, formatter_class=argparse.RawDescriptionHelpFormatter)
    parser.add_argument('seed', metavar='SEED', type=number_in(0, 2 ** 64 - 1))
    parser.add_argument('calls', metavar='CALLS', type=number_in(0, MOST))
    parser.add_argument('frames', metavar='FRAMES', type=number_in(512, 32768, 512))
    parser.add_argument('processors', metavar='PROCESSORS', type=number_in(1, 16))
    parser.add_argument('spaces', metavar='SPACES', type=number_in(1, 16))
    parser.add_argument('loads', metavar='LOADS', type=number_in(0, MOST))
    parser.add_argument('sizes', metavar='SIZES', nargs='?', choices=SIZES)
    parser.add_argument('--pins', action='store_true', help='draw discards, wires and unwires too')
    words = parser.parse_args()
    print('\n'.join(write_trace(**vars(words))))
    return 0


if __name__ == '__main__':
    end(main)
