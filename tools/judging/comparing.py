"""Comparing the program's texts with the checker's, on traces that examples/drawn/random_trace.py draws, or that are short of frames."""
import io
import multiprocessing
import os
import signal
import subprocess
import sys
from collections import Counter
from typing import Dict, Iterator, List, NamedTuple, Optional

from common import TOP, Stopped

from .curves import curves_text
from .drawing import short
from .legal import Illegal, after_history
from .machine import Machine, MemoryStore, store_of
from .plans import plan_text, planned
from .printed import BadLine, history_in, text_of_run
from .showing import wrong_with_answers, wrong_with_filing, wrong_with_turns
from .streams import streamed, streamed_curves
from .trace_text import Refusal, text_of, trace_of
from .values import Trace, setting_of

sys.path.insert(0, os.path.join(TOP, 'examples', 'drawn'))
from random_trace import write_trace  # noqa: E402: it stands beside the examples

FORMS = ('order', 'turns', 'replay')
IN_ONE_THREAD = ('order', 'turns')
# The form `plan`, by its size.
PLANS = {'plan1': 1, 'plan2': 2, 'plan3': 3}
CURVE = 'curve'
STREAM = 'stream'
STREAM_CURVE = 'streamcurve'
# The forms that are of one processor.
CURVES = (CURVE, STREAM_CURVE)
MOVES = ('promotions', 'demotions', 'preemptions')
REFUSED = 'noframes'
# The kinds of entries that are counted.
COUNTED = {'claim': 'claims', 'pin': 'pins', 'kept': 'kept'}
# The forms that print no history.
WITHOUT_HISTORY = (*PLANS, *CURVES, STREAM)
# The first seeds draw traces over frames enough, and those above them traces in which few frames are left.
LAST_WITH_FRAMES = 250
SECONDS = 600


class Job(NamedTuple):
    """One run: of the trace of a seed, by a form of the program, with the copies of each space in so many slots where a number is given. Where
    `beyond` is a number the trace is one short of frames, whose wired pages and processors are so many more than its frames. Where `sizes` is
    a word of page sizes the trace names them. Where `pins` is set it has discards, wires and unwires."""
    program: str
    seed: int
    form: str
    swap: Optional[int]
    laws: bool
    turns: int
    beyond: Optional[int] = None
    sizes: Optional[str] = None
    pins: bool = False


class Outcome(NamedTuple):
    """Of a run how many lines it printed, how often there was what is counted, and what is wrong, if something is."""
    job: Job
    lines: int
    counts: Dict[str, int]
    wrong: Optional[str]


def sized_words(seed: int) -> List[int]:
    """The words of a trace that names its page sizes: it is shorter than one that doesn't. Of every fourth seed few frames are left, and of
    every other fourth most are reserved and few are used."""
    calls, processors, spaces = 60 + 37 * seed % 100, 1 + seed // 4 % 3, 1 + seed // 8 % 2
    if seed % 4 == 0:
        return [seed, calls, 512, processors, spaces, 512 + 8 * (seed // 16 % 3)]
    if seed % 4 == 1:
        return [seed, calls, 512 + 512 * (seed // 4 % 2), processors, spaces, 64 + seed % 64]
    return [seed, calls, 512, 1 + seed % 3, 1 + seed // 4 % 3, 0]


def trace_words(seed: int, form: str) -> List[int]:
    """The words of examples/drawn/random_trace.py for a seed: the seed, how many calls, frames, processors and spaces, and how many loads come
    first. A curve is of one processor, and of every second seed few frames are left."""
    spaces, frames = 1 + seed // 4 % 3, 1024 if seed % 5 == 4 else 512
    if form in CURVES:
        return [seed, 200 + 37 * seed % 601, frames, 1, spaces, 560 * (seed % 2)]
    if seed <= LAST_WITH_FRAMES:
        return [seed, 150 + 37 * seed % 350, frames, 1 + seed % 4, spaces, 0]
    return [seed, 100 + 37 * seed % 200, 512, 2 + seed % 3, spaces, 560]


def output_of(words: List[str], text: bytes) -> bytes:
    """What a command prints for this input; `Stopped` where it fails, or doesn't end."""
    try:
        done = subprocess.run(words, input=text, stdout=subprocess.PIPE, stderr=subprocess.PIPE, timeout=SECONDS)
    except subprocess.TimeoutExpired:
        raise Stopped('%s has not ended after %d s' % (' '.join(words), SECONDS))
    if done.returncode != 0:
        message = done.stderr.decode('utf-8', 'replace').strip()
        raise Stopped('%s ended with status %d: %s' % (' '.join(words), done.returncode, message))
    return done.stdout


def every_of(job: Job) -> int:
    """After each how many calls a stream prints its counts."""
    return 1 + job.seed % 60


def streamed_text(text: bytes, job: Job) -> bytes:
    """What the slow machine prints of a stream."""
    def stores(plan: Trace) -> List[MemoryStore]:
        return [store_of(job.swap) for _ in range(plan.spaces)]

    source = io.BytesIO(text)
    return (streamed_curves(source, stores) if job.form == STREAM_CURVE else ''.join(streamed(source, every_of(job), stores))).encode()


def checked_text(trace: Trace, job: Job) -> bytes:
    """The text that the slow machine prints: of a run with its history, or what is planned after it, or its curves."""
    machine = Machine(trace, [store_of(job.swap) for _ in range(trace.spaces)])
    if job.form == 'turns':
        machine.run_in_turns(job.turns)
    else:
        machine.run_in_order()
    if job.form in PLANS:
        return plan_text(planned(machine.pager.frames, PLANS[job.form])).encode()
    if job.form == CURVE:
        return curves_text(trace, machine.pager.history, machine.pager.setting.sizes).encode()
    return text_of_run(machine.pager, True).encode()


def first_difference(expected: bytes, text: bytes) -> Optional[str]:
    """The first line in which the text isn't the expected one, or None."""
    if expected == text:
        return None
    wanted, got = expected.split(b'\n'), text.split(b'\n')
    n = next((n for n, (a, b) in enumerate(zip(wanted, got)) if a != b), min(len(wanted), len(got)))
    lines = [(rows[n] if n < len(rows) else b'(nothing)').decode('utf-8', 'replace') for rows in (got, wanted)]
    return 'line %d is `%s` and should be `%s`' % (n + 1, *lines)


def wrong_with_text(trace: Trace, form: str, seed: int, text: bytes, laws: bool) -> Optional[str]:
    """What is wrong with a text that was printed with its history, or None: the history is legal, of the trace and in the order of the form,
    and the text is that of the history and its counts. Where `laws` are asked for they hold at each place of the history."""
    try:
        pager = after_history(setting_of(trace), history_in(trace, text), laws)
    except (BadLine, Illegal) as fault:
        return str(fault)
    wrong = wrong_with_answers(trace, pager)
    if wrong is None and form == 'order':
        wrong = wrong_with_filing(trace, pager.history)
    if wrong is None and form == 'turns':
        wrong = wrong_with_turns(trace, seed, pager.history)
    return wrong or first_difference(text_of_run(pager, True).encode(), text)


def words_of(job: Job) -> List[str]:
    """The words by which the program makes a run, with its history where it prints one."""
    words = [] if job.swap is None else ['--swap', str(job.swap)]
    if job.form in PLANS:
        return [*words, 'plan', str(PLANS[job.form])]
    if job.form == CURVE:
        return [*words, CURVE]
    if job.form == STREAM:
        return [*words, STREAM, str(every_of(job))]
    if job.form == STREAM_CURVE:
        return [*words, STREAM, CURVE]
    return [*words, job.form, *([str(job.turns)] if job.form == 'turns' else []), '--history']


def trace_text(job: Job) -> bytes:
    """The text of a run's trace."""
    if job.beyond is not None:
        return text_of(short(job.seed, job.beyond, job.sizes, job.pins)).encode()
    words = trace_words(job.seed, job.form) if job.sizes is None or job.form in CURVES else sized_words(job.seed)
    lines = write_trace(*words, job.sizes, job.pins)
    return ''.join(line + '\n' for line in lines).encode()


def wrong_with_run(job: Job, text: bytes, printed: bytes) -> Optional[str]:
    """What is wrong with what the program printed for a trace's text, or None."""
    if job.form in (STREAM, STREAM_CURVE):
        return first_difference(streamed_text(text, job), printed)
    trace = trace_of(text)
    if job.form == 'replay' or (job.laws and job.form not in WITHOUT_HISTORY):
        return wrong_with_text(trace, job.form, job.turns, printed, job.laws)
    return first_difference(checked_text(trace, job), printed)


def run(job: Job) -> Outcome:
    """One run, compared: by `replay` its history is judged, and by the other forms its text is that of the slow machine. No access is refused
    for want of a frame where wired pages and processors are known to be no more than the frames."""
    text = trace_text(job)
    try:
        printed = output_of([job.program, *words_of(job)], text)
        wrong = wrong_with_run(job, text, printed)
    except (Stopped, Refusal, Illegal) as fault:
        return Outcome(job, 0, {}, str(fault))
    counts = counted(printed.decode())
    if wrong is None and job.beyond == 0 and counts[REFUSED]:
        wrong = '%d accesses are refused for want of a frame' % counts[REFUSED]
    return Outcome(job, printed.count(b'\n'), counts, wrong)


def counted(printed: str) -> Dict[str, int]:
    """How often a run promoted, demoted and preempted, which it prints; how many accesses it refused for want of a frame; how many frames were
    claimed, and regions pinned or kept from it; and how many accesses hit by a translation of each size from 1 on. With its history a run prints
    each answer twice, and a line of the history has the answer behind four words."""
    counts: Dict[str, int] = Counter({REFUSED: 0})
    for line in printed.splitlines():
        words = line.split(' ')
        if words[0] in MOVES:
            counts[words[0]] += int(words[1])
        elif words[2:3] == [REFUSED]:
            counts[REFUSED] += 1
        elif words[3:4] and words[3] in COUNTED:
            counts[COUNTED[words[3]]] += 1
        elif words[3:4] == ['answer'] and words[-2] == 'hit' and words[-1] != '0':
            counts['hits of size ' + words[-1]] += 1
    return counts


def ignore_interrupts() -> None:
    """An interrupt is for the process that gave out the work, which then ends the others."""
    signal.signal(signal.SIGINT, signal.SIG_IGN)


def outcomes(jobs: List[Job], processes: int) -> Iterator[Outcome]:
    """What the runs come to, as they end, so many side by side."""
    with multiprocessing.Pool(processes, ignore_interrupts) as pool:
        yield from pool.imap_unordered(run, jobs)


def name_of(job: Job) -> str:
    """What a run is called where it differs."""
    form = 'turns %d' % job.turns if job.form == 'turns' else job.form
    beyond = '' if job.beyond is None else ' with %d beyond' % job.beyond
    sizes = '' if job.sizes is None else ' of sizes %s' % job.sizes
    return 'seed %d%s%s%s, %s' % (job.seed, sizes, beyond, ' with pins' * job.pins, form)


def compare(jobs: List[Job], processes: int) -> List[Outcome]:
    """Runs and compares, prints a line for each run that differs, and answers what the runs came to. Where standard error is a terminal the
    count so far is shown there."""
    found: List[Outcome] = []
    shows = sys.stderr.isatty()
    for outcome in outcomes(jobs, processes):
        found.append(outcome)
        if outcome.wrong:
            print('%s: %s' % (name_of(outcome.job), outcome.wrong), flush=True)
        if shows:
            print('\r%d of %d runs' % (len(found), len(jobs)), end='\n' if len(found) == len(jobs) else '', file=sys.stderr, flush=True)
    return found
