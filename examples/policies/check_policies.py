#!/bin/sh
''':'
. "$(dirname "$0")/../../tools/start.sh"
'''
# Tries the simulator of tools/policies on random traces and on examples. `check_policies.py --help` says how.
import argparse
import glob
import os
import runpy
import sys
from typing import Iterator, List, Tuple

EXAMPLES = os.path.dirname(os.path.abspath(__file__))
TOOLS = os.path.join(EXAMPLES, os.pardir, os.pardir, 'tools')
sys.path.insert(0, TOOLS)
from common import Program, end, number_in, program_at, read_file  # noqa: E402: it stands beside the tools
from judging.trace_text import trace_of  # noqa: E402
from judging.values import Trace  # noqa: E402
from policy.best import Best, Noting  # noqa: E402
from policy.collapse import Collapse  # noqa: E402
from policy.first_touch import FirstTouch  # noqa: E402
from policy.machine import Counts, Machine, Policy  # noqa: E402
from policy.program import counts_of  # noqa: E402
from policy.reservations import Reservations  # noqa: E402
from policy.space import ROOM, Space  # noqa: E402

HELP = """\
Runs the simulator of tools/policies on random traces, by each policy, and says
where it breaks a rule that they all keep; where base pages alone come to other
counts than the program's; and where the best misses more than a policy that
maps no page that wasn't touched. Base pages alone run on the short traces of
examples/lesson and examples/runs too.

    examples/policies/check_policies.py [--seeds N] [PROGRAM]

The last line is `N passed, M failed`, and the status is 1 where a run failed."""

write_trace = runpy.run_path(os.path.join(EXAMPLES, os.pardir, 'drawn', 'random_trace.py'))['write_trace']
# Of each random trace the calls, frames, processors, spaces, first loads and page sizes, and the daemon's line: with ample frames, with few, and with a
# daemon.
KINDS = ((500, 2048, 4, 1, 0, None, None), (150, 512, 3, 1, 520, '03', None), (150, 1024, 2, 2, 1030, '03', None),
         (150, 512, 1, 1, 520, '03', 'daemon 16 200'))
POLICIES: Tuple[Tuple[type, Tuple[int, ...]], ...] = ((Policy, ()), (Reservations, ()), (FirstTouch, ()), (Collapse, (16, 511)), (Collapse, (16, 64)))
# Traces of the examples are run where they have no more bytes.
MOST = 8000
# A run is looked at behind each call of this step.
STEP = 20


def text_of(seed: int, pins: bool) -> bytes:
    """The random trace of a seed; one that pins has its own daemon, or none."""
    *numbers, daemon = KINDS[seed % len(KINDS)]
    first, *lines = write_trace(seed, *numbers, pins)
    return ('\n'.join([first] + [daemon] * (daemon is not None and not pins) + lines) + '\n').encode()


def wrong_with_frames(machine: Machine) -> Iterator[str]:
    """A frame is under one page at most, and each is free, reserved or under a page."""
    used = [frame for space in machine.spaces for frame in space.frames.values()]
    free = set().union(*machine.frames.extents)
    if len(set(used)) < len(used):
        yield 'a frame is under two pages'
    if free & set(used):
        yield 'a frame is free and under a page'
    if len(used) + len(free) + machine.policy.reserved_count() != machine.frames.count:
        yield 'the frames are %d under pages, %d free and %d reserved' % (len(used), len(free), machine.policy.reserved_count())
    if machine.resident != len(used):
        yield '%d pages are counted as resident, and %d are' % (machine.resident, len(used))


def wrong_with_superpage(space: Space, first: int, length: int) -> Iterator[str]:
    """A superpage begins at a multiple of its length, and its pages have one right and an extent of frames in the same order."""
    start = space.frames.get(first, -1)
    if first % length or start % length:
        yield 'the superpage of page %d is not aligned' % first
    if any(space.frames.get(first + at) != start + at for at in range(length)):
        yield 'the superpage of page %d lies in no extent of frames' % first
    elif not space.is_uniform(first, length):
        yield 'the superpage of page %d is not uniform' % first


def wrong_with_space(machine: Machine, space: Space) -> Iterator[str]:
    """Superpages are extents, and TLBs hold translations that there are. The best superpages lie in no frames."""
    best = isinstance(machine.policy, Best)
    for first, length in [] if best else set(space.superpages.values()):
        yield from wrong_with_superpage(space, first, length)
    for tlb in space.tlbs.values():
        if len(tlb) > ROOM:
            yield 'a TLB holds %d translations' % len(tlb)
        for translation in tlb:
            if space.translation(translation[0]) != translation or translation[1] == 1 and translation[0] not in space.frames:
                yield 'a TLB holds %s, which is no translation' % (translation,)
    if not space.dirty <= set(space.frames) or not set(space.frames) <= space.seen:
        yield 'a page is dirty and not resident, or resident and was never filled'


def wrong_with(machine: Machine) -> Iterator[str]:
    """What is wrong now."""
    yield from wrong_with_frames(machine)
    for space in machine.spaces:
        yield from wrong_with_space(machine, space)
    superpages = sum(len(set(space.superpages.values())) for space in machine.spaces)
    if machine.made - machine.broken != superpages:
        yield '%d superpages were made and %d broken, and there are %d' % (machine.made, machine.broken, superpages)


class Watched(Machine):
    """A run that is looked at now and then."""

    def __init__(self, trace: Trace, policy: type, *knobs: object):
        super().__init__(trace, policy, *knobs)
        self.wrong: List[str] = []

    def call(self, processor: int, call: object) -> None:
        super().call(processor, call)
        if self.calls % STEP == 0 or self.calls == len(self.trace.lines):
            self.wrong += ['behind call %d %s' % (self.calls, wrong) for wrong in wrong_with(self)]


def run(trace: Trace, policy: type, *knobs: object) -> Tuple[Machine, Counts, List[str]]:
    """The run of a trace by a policy, its counts, and what is wrong with it."""
    machine = Watched(trace, policy, *knobs)
    counts = machine.run()
    wrong = machine.wrong + ['%d untouched of %d' % (counts.untouched, counts.used)] * (counts.untouched > counts.used)
    return machine, counts, ['%s: %s' % (policy.__name__, what) for what in wrong]


def wrong_with_counts(program: List[Counts], found: List[Counts], best: Counts) -> Iterator[str]:
    """What is wrong with the counts of one trace: by the program with all sizes, two and one, by the policies, and by the best."""
    base, reservations = found[:2]
    if base != program[2]:
        yield 'base pages come to %s, and by the program to %s' % (base, program[2])
    if reservations[3:] != base[3:]:
        yield 'reservations fill other pages than base pages do: %s, %s' % (reservations, base)
    if any(counts.served + counts.refused != base.served + base.refused for counts in found + [best]):
        yield 'the policies make other accesses'
    if any(best.misses > counts.misses for counts in program + [base, reservations]):
        yield 'the best misses %d times, and others %s' % (best.misses, [counts.misses for counts in program + [base, reservations]])


def wrong_with_seed(program: str, seed: int, pins: bool) -> List[str]:
    """What is wrong with the runs of the trace of a seed."""
    text = text_of(seed, pins)
    trace = trace_of(text)
    runs = [run(trace, policy, *knobs) for policy, knobs in POLICIES]
    noting = Machine(trace, Noting)
    noting.run()
    _, best, wrong = run(trace, Best, noting.policy.found)
    counts = [counts_of(Program(program), 'seed %d' % seed, text, sizes) for sizes in ('0123', '03', '0')]
    return [what for _, _, whats in runs for what in whats] + wrong + list(wrong_with_counts(counts, [counts for _, counts, _ in runs], best))


def examples() -> List[str]:
    """The traces of the lesson and of the other runs that are short."""
    paths = (path for room in ('lesson', 'runs') for path in glob.glob(os.path.join(EXAMPLES, os.pardir, room, '*.trace')))
    return sorted(path for path in paths if os.path.getsize(path) <= MOST)


def wrong_with_example(program: str, path: str) -> List[str]:
    """What is wrong with base pages alone on an example."""
    text = read_file(path)
    _, found, wrong = run(trace_of(text), Policy)
    expected = counts_of(Program(program), path, text, '0')
    return wrong + ['base pages come to %s, and by the program to %s' % (found, expected)] * (found != expected)


def main() -> int:
    """Tries all traces, and answers the status."""
    parser = argparse.ArgumentParser('check_policies.py', description=HELP, formatter_class=argparse.RawDescriptionHelpFormatter)
    parser.add_argument('--seeds', type=number_in(1, 10000), default=8, metavar='N',
                        help='try the seeds from 0 to before N, 8 where nothing is said, each without and with calls that pin')
    parser.add_argument('program', metavar='PROGRAM', nargs='?', help='without it crates/superpager/out/superpager')
    options = parser.parse_args()
    program = program_at(options.program)
    seeds = range(options.seeds)
    wrong = {'seed %d%s' % (seed, ' with pins' * pins): wrong_with_seed(program, seed, pins) for pins in (False, True) for seed in seeds}
    wrong.update((path, wrong_with_example(program, path)) for path in examples())
    for name in wrong:
        for what in wrong[name][:3]:
            print('%s: %s' % (name, what))
    failed = sum(map(bool, wrong.values()))
    print('%d passed, %d failed' % (len(wrong) - failed, failed))
    return 1 if failed else 0


if __name__ == '__main__':
    end(main)
