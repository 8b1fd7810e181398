"""What the tools share: which program runs a trace, the numbers of their words, and how a tool ends that can't go on."""
from early import NO_MEMORY, say  # Before all else: it says so where there is no memory for what follows.
import argparse
import os
import re
import signal
import subprocess
import sys
from typing import BinaryIO, Callable, List, NamedTuple, NoReturn, Optional, Sequence, TypeVar

from refusals import SIZE_SETS, why_no_trace

T = TypeVar('T')
TOP = os.path.dirname(os.path.dirname(os.path.abspath(__file__)))
PROGRAM = os.path.join(TOP, 'crates', 'superpager', 'out', 'superpager')
# The reference model, which reads and prints the same, slowly.
MODEL = os.path.join(TOP, 'tools', 'judge')
# The most calls of a trace that the model runs in place of a program that isn't built.
MODEL_CALLS = 20000
BUILD = '`cd crates/superpager && rt run -- order <../../examples/lesson/preempted.trace`'
# The converter that turns a log of lackey's into a trace as it reads it.
FROM_LACKEY = os.path.join(TOP, 'crates', 'from_lackey', 'out', 'from_lackey')
BUILD_FROM_LACKEY = '`cd crates/from_lackey && rt run </dev/null`'
# What the program, the model and the converter begin a message with.
OWN_NAME = re.compile('^(superpager|judge|from_lackey): ')

# The least and the most frames that a trace may have, and what their number is a multiple of.
FRAMES = (512, 32768, 512)
# The first words of a trace's first line, and what stands behind its numbers of frames, processors and spaces.
FIRST_LINES = [([b'trace', b'1'], [])] + [([b'trace', version], [sizes.encode()]) for version in (b'2', b'3') for sizes in SIZE_SETS]


class Stopped(Exception):
    """What a tool says on standard error before it ends with status 1."""


class Program(NamedTuple):
    """What runs traces, and how many calls one may have, where it is the reference model in place of the built program."""
    path: str
    most: Optional[int] = None

    def is_model(self) -> bool:
        return self.most is not None

    def refuse_long(self, name: str, trace: bytes) -> None:
        """Stops where the trace of this name has more calls."""
        self.refuse_calls(name, trace.count(b'\n') - 2)

    def refuse_calls(self, name: str, calls: int) -> None:
        """Stops where the trace of this name, of so many calls, has more."""
        if self.most is not None and calls > self.most:
            raise Stopped('%s has %d calls, and the slow reference model runs at most %d here. Build the program: %s. '
                          '(`--program tools/judge` runs it however long it takes)' % (name, calls, self.most, BUILD))


def program_at(given: Optional[str] = None) -> str:
    """The path of the program that is given, or else of the built one."""
    return executable_at(given, PROGRAM, 'program', BUILD)


def converter_at(given: Optional[str] = None) -> str:
    """The path of the converter that is given, or else of the built one."""
    return executable_at(given, FROM_LACKEY, 'converter', BUILD_FROM_LACKEY)


def executable_at(given: Optional[str], built: str, what: str, build: str) -> str:
    """The path that is given, or else that of what this command builds, where it is an executable file."""
    path = built if given is None else given
    if not os.path.exists(path):
        raise Stopped('no %s at %s%s' % (what, shown(path), '. Build it: ' + build if given is None else ''))
    if os.path.isdir(path):
        raise Stopped('%s is a folder, and no %s' % (path, what))
    if not os.access(path, os.X_OK):
        raise Stopped("%s isn't executable, so it is no %s" % (path, what))
    return os.path.abspath(path)


def program_or_model(given: Optional[str]) -> Program:
    """The program that is given, or else the built one, or else, which is said, the reference model."""
    if given is not None and not os.path.exists(given):
        raise Stopped('no program at %s: leave `--program` out to use the built one, or where none is built the model' % shown(given))
    if given is not None or os.path.exists(PROGRAM):
        return Program(program_at(given))
    say('by the slow reference model (README.md says how to build the program, which the lesson does not need)')
    return Program(program_at(MODEL), MODEL_CALLS)


def output_of(program: str, words: Sequence[str], trace: bytes) -> str:
    """What a program prints of a trace by these words. `Stopped`, which says why, where it refuses the trace or ends otherwise than with status 0."""
    ran = subprocess.run([program, *words], input=trace, stdout=subprocess.PIPE, stderr=subprocess.PIPE)
    if ran.returncode == 0:
        return ran.stdout.decode(errors='backslashreplace')
    said = OWN_NAME.sub('', ran.stderr.decode(errors='backslashreplace').partition('see: ')[0].strip())
    raise Stopped('; '.join(why_no_trace(trace)) or said or 'the program ended with status %d' % ran.returncode)


def printed(program: str, words: Sequence[str], trace: bytes, name: str) -> str:
    """The same of the trace of this name, which is said too."""
    try:
        return output_of(program, words, trace)
    except Stopped as why:
        raise Stopped('%s: %s' % (name, why))


def read_by(path: str, how: Callable[[BinaryIO], T]) -> T:
    """What is read so of a file, or of standard input where the path is -."""
    try:
        with open(0 if path == '-' else path, 'rb', closefd=path != '-') as source:
            return how(source)
    except OSError as fault:
        raise Stopped("%s can't be read: %s" % (shown(path), fault.strerror))


def read_file(path: str, most: int = -1) -> bytes:
    """The bytes of a file, or of standard input where the path is -; at most so many, or all where that is negative."""
    return read_by(path, lambda source: source.read(most))


def write_file(path: str, text: str) -> None:
    """Writes a text to a file."""
    try:
        with open(path, 'w', encoding='utf-8') as out:
            out.write(text)
    except OSError as fault:
        raise Stopped("%s can't be written: %s" % (shown(path), fault.strerror))


def shown(path: str) -> str:
    """A path as it is told: one that is no UTF-8 has escapes."""
    return os.fsencode(path).decode(errors='backslashreplace')


def is_number(text: str, low: int, high: int, step: int = 1) -> bool:
    """Whether a word is a number of this range, and a multiple of the step."""
    return bool(re.fullmatch('0|[1-9][0-9]{0,19}', text)) and low <= int(text) <= high and int(text) % step == 0


def number_in(low: int, high: int, step: int = 1) -> Callable[[str], int]:
    """Reads a number among the words, for argparse: one of this range, and a multiple of the step."""
    kind = 'a number' if step == 1 else 'a multiple of %d' % step

    def number(text: str) -> int:
        if not is_number(text, low, high, step):
            raise argparse.ArgumentTypeError('%r is not %s from %d to %d' % (text, kind, low, high))
        return int(text)
    return number


def seeds_in(text: str) -> range:
    """Reads a range of seeds among the words."""
    first, dots, last = text.partition('..')
    number = number_in(0, 10 ** 9)
    seeds = range(number(first), number(last if dots else first) + 1)
    if not seeds:
        raise argparse.ArgumentTypeError('%r has no seed' % text)
    return seeds


def sizes_in(text: str) -> str:
    """Reads a set of page sizes among the words, for argparse."""
    if text not in SIZE_SETS:
        raise argparse.ArgumentTypeError('%r is none of %s' % (text, ', '.join(SIZE_SETS)))
    return text


def size_sets_in(text: str) -> List[str]:
    """Reads sets of page sizes among the words, for argparse."""
    return [sizes_in(word) for word in text.split(',')]


def with_first_line(trace: bytes, frames: Optional[int], sizes: Optional[str]) -> bytes:
    """The trace with another number of frames and other page sizes, where they are given. What has no first line, or one with no number of frames, is
    left for the program to refuse."""
    first, line_feed, rest = trace.partition(b'\n')
    words = first.split(b' ')
    if len(words) < 5 or (words[:2], words[5:]) not in FIRST_LINES or not is_number(words[2].decode('latin-1'), *FRAMES):
        return trace
    if frames is not None:
        words[2] = b'%d' % frames
    if sizes is not None:
        words = [b'trace', max(b'2', words[1]), *words[2:5], sizes.encode()]
    return b' '.join(words) + line_feed + rest


def cause_of(why: Exception) -> str:
    """What is said where the system refused something, without the system's number of it, or where a command failed."""
    if isinstance(why, OSError) and why.strerror:
        return why.strerror if why.filename is None else '%s: %r' % (why.strerror, why.filename)
    if isinstance(why, subprocess.CalledProcessError):
        return '%s ended with status %d' % (why.cmd[0], why.returncode)
    return NO_MEMORY if isinstance(why, MemoryError) else str(why)


def status_of(main: Callable[[], int]) -> int:
    """The status of `main`, or that which argparse ended it with: 1 with a message where it stopped, and 130 where it was interrupted."""
    try:
        signal.signal(signal.SIGINT, signal.default_int_handler)
        return main()
    except SystemExit as ended:
        if ended.code is None or isinstance(ended.code, int):
            return ended.code or 0
        say(ended.code)
        return 1
    except (Stopped, OSError, subprocess.SubprocessError, MemoryError) as why:
        say(cause_of(why))
        return 1
    except KeyboardInterrupt:
        say('interrupted')
        return 130


def end(main: Callable[[], int]) -> NoReturn:
    """Ends with the status of `main`, or with 1 and a message where its output is closed or can't be written."""
    if sys.stdout is None:
        say('the output is closed')
        sys.exit(1)
    # By PYTHONUNBUFFERED what is printed goes to the file as it is, and of a write that the system makes in part Python doesn't tell.
    sys.stdout = open(sys.stdout.fileno(), 'w', encoding=sys.stdout.encoding, errors=sys.stdout.errors, closefd=False)
    status = status_of(main)
    try:
        sys.stdout.flush()
    except OSError as why:
        if status == 0:
            say(cause_of(why))
            status = 1
        # The interpreter must not try again to write what couldn't be written.
        os.dup2(os.open(os.devnull, os.O_WRONLY), sys.stdout.fileno())
    sys.exit(status)
