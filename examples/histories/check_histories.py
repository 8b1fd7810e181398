#!/bin/sh
''':'
. "$(dirname "$0")/../../tools/start.sh"
'''
# Tries the texts of `grammar` and some long ones by `check` of the built program. `check_histories.py --help` says how.
import argparse
import os
import runpy
import sys
from typing import Iterator, List, Optional, Tuple

ROOM = os.path.dirname(os.path.abspath(__file__))
EXAMPLES = os.path.dirname(ROOM)
sys.path.insert(0, os.path.join(os.path.dirname(EXAMPLES), 'tools'))
from common import end, program_at  # noqa: E402: it stands beside the tools
from judging.histories import MOST_CHECKED, by_model, by_program  # noqa: E402
from judging.values import MOST_BYTES  # noqa: E402

HELP = """\
Runs `check` of the built program on texts by the grammar and against it, and
compares what it says.

    examples/histories/check_histories.py [PROGRAM]

The texts are those of `grammar`; a trace with its history, cut off behind each
of its bytes; and texts that are as long as one may be, or longer. What is said of
each but the long ones has to be what tools/judge says too.

A line is printed for each text that goes otherwise. The last line is
`N passed, M failed`, and the status is 1 where a text failed."""

rows_of = runpy.run_path(os.path.join(EXAMPLES, 'refused', 'check_grammar.py'))['rows_of']

# What is said of a text, and the text.
Row = Tuple[str, bytes]
TRACE = b'trace 1 512 1 1\n0 map 0 0 8 fixed read\n0 load 0 0\nend\n'
HISTORY = b'0 0 s0 answer 0 done\n1 0 s0+f take 0 0 0 8 8 0\n2 0 s0 answer 1 value 0 miss 0\nend\n'


def cut_texts() -> Iterator[Row]:
    """A trace with its history, and all that they begin with."""
    yield 'yes', TRACE + HISTORY
    for length in range(len(TRACE)):
        yield 'no end', TRACE[:length]
    for length in range(len(HISTORY)):
        yield 'history without end', TRACE + HISTORY[:length]


def long_texts() -> Iterator[Row]:
    """Texts of as many bytes as one may have, and of more."""
    longest = (TRACE + b'x\n').ljust(MOST_CHECKED, b'x')
    yield 'history line 1', longest
    yield 'trace too long', longest + b'\n'
    yield 'trace too long', b'trace 1 512 1 1\n'.ljust(MOST_BYTES + 1, b'x')
    yield 'trace too long', b'trace 1 512 1 1\n'.ljust(MOST_BYTES, b'x') + b'\nend\nend\n'
    yield 'line 2: form', b'trace 1 512 1 1\n'.ljust(MOST_BYTES - 5, b'x') + b'\nend\nend\n'


def wrong_with(program: str, said: str, text: bytes, by_both: bool) -> Optional[str]:
    """What is said otherwise than a row says, or nothing."""
    says = {'the program': by_program(program, text), **({'tools/judge': by_model(text)} if by_both else {})}
    return ', '.join('%s says `%s`' % (name, word) for name, word in says.items() if word != said) or None


def main() -> int:
    """Tries all texts, and answers the status."""
    parser = argparse.ArgumentParser('check_histories.py', description=HELP, formatter_class=argparse.RawDescriptionHelpFormatter)
    parser.add_argument('program', metavar='PROGRAM', nargs='?', help='without it crates/superpager/out/superpager')
    program = program_at(parser.parse_args().program)
    rows = [(row, True) for row in [*rows_of(os.path.join(ROOM, 'grammar')), *cut_texts()]] + [(row, False) for row in long_texts()]
    found: List[Optional[str]] = []
    for (said, text), by_both in rows:
        found.append(wrong_with(program, said, text, by_both))
        if found[-1]:
            print('%s, and not `%s`, of the text %r' % (found[-1], said, text[:200]))
    failed = len(found) - found.count(None)
    print('%d passed, %d failed' % (len(found) - failed, failed))
    return 1 if failed else 0


if __name__ == '__main__':
    end(main)
