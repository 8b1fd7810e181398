"""What is there before all else of a tool, also where memory is short: what it says on standard error, and how it ends before `end` of `common`
calls its main function."""
import signal
import sys
from types import TracebackType

NO_MEMORY = 'not enough memory'

# Until `end` calls a tool's main function an interrupt ends it without a word: Python would tell which module it was reading. One that came while
# Python started has waited (start.sh), and ends it here.
signal.signal(signal.SIGINT, signal.SIG_DFL)
signal.pthread_sigmask(signal.SIG_UNBLOCK, [signal.SIGINT])


def tool_name() -> str:
    """The name that the tool was called by, without its folder."""
    return sys.argv[0].rpartition('/')[2]


def say(why: object) -> None:
    """Says something on standard error, where that is open."""
    if sys.stderr is not None:
        try:
            print('%s: %s' % (tool_name(), why), file=sys.stderr)
        except OSError:
            pass


def say_unread(kind: type, why: BaseException, where: TracebackType) -> None:
    """Says in one line that a module couldn't be read; a fault of the tool's own is told as Python tells it."""
    if issubclass(kind, MemoryError):
        say(NO_MEMORY)
    elif issubclass(kind, (ImportError, OSError)):
        say(why)
    else:
        sys.__excepthook__(kind, why, where)


sys.excepthook = say_unread
