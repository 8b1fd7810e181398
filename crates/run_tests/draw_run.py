"""Prints a part of the run that a seed draws: calls of several processors where few frames are left, over stores that may fail.

    python3 crates/run_tests/draw_run.py 17 trace >run.trace
    python3 crates/run_tests/draw_run.py 17 turns
    python3 crates/run_tests/draw_run.py 17 faults
    python3 crates/run_tests/draw_run.py 17 trace --daemon
    python3 crates/run_tests/draw_run.py 17 trace --wires

The trace begins with lines of processor 0 that use most of the 512 frames or all of them, and the turns with as many of processor 0 as
these lines have steps. The faults are each space's reads and writes that fail and the writes that find no memory, counted from 1. With
--daemon a daemon keeps frames free beside the processors, and fewer pages are wired. With --wires there are discards, wires and unwires too.
Equal seeds give equal bytes.
"""
import argparse
import json
import random

FRAMES = 512
PAGE = 8192


def fill(r, daemon):
    """The regions of space 0 that use the frames: how many, of how many pages each, and their kind."""
    left = r.randrange(1, 4)
    if daemon:
        return r.choices(([(1, FRAMES, 'fixed')], [(1, FRAMES - left, 'wired'), (1, left, 'fixed')]), (3, 1))[0]
    return r.choices((
        [(1, FRAMES - left, 'wired')],
        [(1, FRAMES - left, 'wired'), (1, left, r.choice(('fixed', 'growing')))],
        [(1, FRAMES, 'fixed')],
        [(63, 8, 'wired'), (1, 8, 'fixed')],
    ), (6, 6, 3, 1))[0]


def fill_lines(regions, stored):
    """Maps of the regions, and an access to each page, of which the first may be a store. And how many pages there are."""
    lines, first = [], 0
    for count, length, kind in regions:
        for _ in range(count):
            lines.append('0 map 0 %d %d %s write' % (first, length, kind))
            first += length
    lines.append('0 store 0 0 5' if stored else '0 load 0 0')
    return lines + ['0 load 0 %d' % (page * PAGE) for page in range(1, first)], first


def maps(r, spaces):
    """One or two small regions of each space, mapped by processor 0, and pages of them."""
    lines, pages = [], []
    for space in range(spaces):
        first = 0 if space else FRAMES
        for _ in range(r.choice((1, 1, 2))):
            length = r.choice((1, 2, 3, 8))
            kind = r.choice(('fixed', 'fixed', 'fixed', 'growing', 'wired'))
            rights = r.choice(('write', 'write', 'write', 'read'))
            lines.append('0 map %d %d %d %s %s' % (space, first, length, kind, rights))
            pages += [(space, first), (space, first + r.randrange(length))]
            first += length + r.randrange(8)
    return lines, pages


def call(r, processor, pages, wires):
    """One call of the processor on one of the pages."""
    space, page = r.choice(pages)
    names = ('load', 'store', 'evict', 'sync', 'unmap', 'protect', 'map', 'grow') + (('discard', 'wire', 'unwire') if wires else ())
    name = r.choices(names, (30, 30, 9, 6, 7, 9, 4, 4) + ((9, 20, 9) if wires else ()))[0]
    rest = {
        'load': [page * PAGE],
        'store': [page * PAGE, r.randrange(1, 100)],
        'protect': [page, 1, r.choice(('none', 'read', 'write'))],
        'map': [r.choice((page, page + 3, 1048575)), 2, 'fixed', 'write'],
        'grow': [page, r.choice((1, 9))],
        'discard': [page, r.choice((1, 2))] if wires else [],
    }.get(name, [page])
    return ' '.join(map(str, [processor, name, space] + rest))


def numbers(r):
    """Some of the first numbers, or none."""
    return sorted(r.sample(range(1, 5), r.choice((0, 0, 1, 2))))


def draw(seed, daemon=False, wires=False):
    """The run as a dictionary."""
    r = random.Random(seed)
    run = {'processors': r.randrange(2, 5), 'spaces': r.randrange(1, 4), 'fill': fill(r, daemon)}
    run['stored'] = run['fill'][0][2] == 'fixed' and r.random() < 0.5
    lines, pages = maps(r, run['spaces'])
    filled = sum(count * length for count, length, kind in run['fill'])
    pages.append((0, r.choice((0, filled - 1, 600))))
    if wires:
        pages += [(0, filled - 1)] * 3
    actors = run['processors'] + (1 if daemon else 0)
    run['turns'] = '0' * len(lines) + ''.join(str(r.randrange(actors)) for _ in range(r.randrange(20, 45)))
    run['lines'] = lines + [call(r, r.randrange(run['processors']), pages, wires) for _ in range(r.randrange(6, 16))]
    run['full'] = r.random() < 0.15
    run['reads'], run['writes'] = ([], []) if run['full'] else (numbers(r), numbers(r))
    run['head'] = 'trace 3 %d %d %d 0123' if wires else 'trace 1 %d %d %d'
    run['daemon'] = (r.choice((1, 1, 2, 3, 64)), r.randrange(1, 6)) if daemon else None
    return run


def trace(run):
    """The lines of the trace, and how many entries those that use the frames make."""
    first, filled = fill_lines(run['fill'], run['stored'])
    head = [run['head'] % (FRAMES, run['processors'], run['spaces'])]
    if run['daemon']:
        head.append('daemon %d %d' % run['daemon'])
    return head + first + run['lines'] + ['end'], len(first) + filled


def faults(run):
    """The faults of each space's store. Those of the first are counted behind the reads that fill the frames."""
    filled = sum(count * length for count, length, kind in run['fill'])
    refused = list(range(1, 100)) if run['full'] else []
    return {str(space): {'reads': [n + (0 if space else filled) for n in run['reads']], 'writes': run['writes'], 'nomem': refused}
            for space in range(run['spaces'])}


if __name__ == '__main__':
    words = argparse.ArgumentParser(description=__doc__, formatter_class=argparse.RawDescriptionHelpFormatter)
    words.add_argument('seed', type=int)
    words.add_argument('part', choices=('trace', 'turns', 'faults'))
    words.add_argument('--daemon', action='store_true', help='a daemon beside the processors')
    words.add_argument('--wires', action='store_true', help='discards, wires and unwires too')
    words = words.parse_args()
    drawn = draw(words.seed, words.daemon, words.wires)
    lines, before = trace(drawn)
    print({
        'trace': '\n'.join(lines),
        'turns': ' '.join('0' * before + drawn['turns']),
        'faults': json.dumps(faults(drawn)),
    }[words.part])
