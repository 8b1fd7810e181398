"""A program's run under lackey, whose accesses go through the pager as they come, by several sets of page sizes at once.

Nothing of the accesses is kept: lackey writes into a pipe, the converter reads it and writes the trace into another, and what comes out of that is
passed on to a run of the pager for each set of page sizes, with another first line.
"""
import io
import os
import subprocess
import time
from contextlib import ExitStack
from typing import BinaryIO, Iterator, List, NamedTuple, Sequence, Tuple

from common import Stopped, with_first_line

from .programs import environment, found

Process = subprocess.Popen
# How many bytes of a trace are passed on at a time.
PIECE = 1 << 20
# The form by which the pager counts the misses at each capacity, and the name of its text.
CURVE = 'curve'
LACKEY = ('--tool=lackey', '--trace-mem=yes', '--trace-syscalls=yes', '--basic-counts=no')


class Run(NamedTuple):
    """A run of the pager: the name of its text, the page sizes of its trace, and its words."""
    name: str
    sizes: str
    words: List[str]


class Pipeline(NamedTuple):
    """What traces, converts and runs, and how."""
    program: str
    from_lackey: str
    frames: int
    sizes: Sequence[str]
    every: int
    instructions: bool
    curve: bool

    def runs(self) -> List[Run]:
        """The runs that go side by side."""
        counted = [Run(sizes, sizes, ['stream', str(self.every)]) for sizes in self.sizes]
        return counted + [Run(CURVE, self.sizes[-1], ['stream', CURVE])] * self.curve

    def converter(self) -> List[str]:
        """The words by which the converter runs."""
        return [self.from_lackey, '--frames', str(self.frames), '--sizes', self.sizes[0], *([] if self.instructions else ['--no-instructions'])]


class Measured(NamedTuple):
    """What is known of a run besides its texts."""
    seconds: float
    calls: int


def pieces_of(source: io.BufferedReader) -> Iterator[bytes]:
    """The bytes of a source, in pieces as they come."""
    return iter(lambda: source.read1(PIECE), b'')


def give(pager: Process, text: bytes) -> None:
    """Passes a piece on to a run of the pager, whose pipe may take it in parts."""
    left = memoryview(text)
    try:
        while left:
            left = left[pager.stdin.write(left):]
    except BrokenPipeError:
        # It ended before its trace did, and said why.
        raise Stopped('the pager ended with status %d' % pager.wait())


def pass_on(source: io.BufferedReader, pagers: Sequence[Tuple[Run, Process]]) -> int:
    """Passes a trace on to all runs, to each with the first line of its page sizes, and answers how many lines stood behind it."""
    first = source.readline()
    for run, pager in pagers:
        give(pager, with_first_line(first, None, run.sizes))
    lines = 0
    for piece in pieces_of(source):
        for _, pager in pagers:
            give(pager, piece)
        lines += piece.count(b'\n')
    return lines


def text_path(folder: str, name: str) -> str:
    """Where the text of the run of this name is kept."""
    return os.path.join(folder, name + '.text')


def kill(process: Process) -> None:
    """Ends a process that hasn't ended."""
    if process.poll() is None:
        process.kill()
    process.wait()


def started(stack: ExitStack, words: Sequence[str], **how) -> Process:
    """A process that doesn't outlive the run."""
    try:
        process = subprocess.Popen(words, **how)
    except OSError as why:
        raise Stopped("%s can't be started: %s" % (words[0], why.strerror))
    stack.callback(kill, process)
    return process


def traced(stack: ExitStack, command: Sequence[str], folder: str) -> Tuple[Process, BinaryIO]:
    """The program under lackey, and what lackey tells of it."""
    read, write = os.pipe()
    told = stack.enter_context(open(read, 'rb', buffering=0))
    with open(write, 'wb'), open(os.path.join(folder, 'stderr'), 'wb') as errors:
        lackey = started(stack, [found('valgrind'), *LACKEY, '--log-fd=%d' % write, *command], stdin=subprocess.DEVNULL, stdout=subprocess.DEVNULL,
                         stderr=errors, pass_fds=(write,), env=environment(folder))
    return lackey, told


def begun(stack: ExitStack, program: str, run: Run, folder: str) -> Process:
    """A run of the pager that has begun, whose text is written to a file of this folder."""
    with open(text_path(folder, run.name), 'wb') as out:
        return started(stack, [program, *run.words], stdin=subprocess.PIPE, stdout=out, bufsize=0)


def measure(pipeline: Pipeline, command: Sequence[str], folder: str) -> Measured:
    """Runs a program once, and keeps what the pager printed by each set of page sizes in this folder."""
    start = time.monotonic()
    with ExitStack() as stack:
        lackey, told = traced(stack, command, folder)
        converter = started(stack, pipeline.converter(), stdin=told, stdout=subprocess.PIPE)
        told.close()
        pagers = [(run, begun(stack, pipeline.program, run, folder)) for run in pipeline.runs()]
        lines = pass_on(converter.stdout, pagers)
        for _, pager in pagers:
            pager.stdin.close()
        check_ends('the converter', [converter.wait()])
        check_ends('the pager', [pager.wait() for _, pager in pagers])
        check_ends(command[0], [lackey.wait()])
    return Measured(time.monotonic() - start, lines)


def check_ends(name: str, statuses: Sequence[int]) -> None:
    """Stops where one of what has this name ended otherwise than with status 0."""
    wrong = [status for status in statuses if status]
    if wrong:
        raise Stopped('%s ended with status %d' % (name, wrong[0]))
