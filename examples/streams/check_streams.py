#!/bin/sh
''':'
. "$(dirname "$0")/../../tools/start.sh"
'''
# Tries texts by the grammar and against it by `stream` of the built program. `check_streams.py --help` says how.
import argparse
import io
import os
import runpy
import subprocess
import sys
from typing import Iterator, List, Optional, Tuple

ROOM = os.path.dirname(os.path.abspath(__file__))
EXAMPLES = os.path.dirname(ROOM)
sys.path.insert(0, os.path.join(os.path.dirname(EXAMPLES), 'tools'))
from common import OWN_NAME, end, program_at  # noqa: E402: it stands beside the tools
from judging.machine import store_of  # noqa: E402
from judging.streams import LONGEST_LINE, streamed  # noqa: E402
from judging.trace_text import Refusal  # noqa: E402

HELP = """\
Runs the built program by `stream 1` on texts by the grammar and against it, and
compares what it says and prints with what tools/judge does.

    examples/streams/check_streams.py [PROGRAM]

The texts are those of ../refused/grammar; a trace, and the same cut off behind
each of its bytes; and texts with a line of as many bytes as one may have, or of
more.

A line is printed for each text that goes otherwise. The last line is
`N passed, M failed`, and the status is 1 where a text failed."""

grammar = runpy.run_path(os.path.join(EXAMPLES, 'refused', 'check_grammar.py'))

# What is said of a text, and the text.
Row = Tuple[str, bytes]
DONE = 'done'


def long_lines() -> Iterator[Row]:
    """Texts with a line, or a rest, of as many bytes as one may have, and of one more, in each place of a text."""
    for before in (b'', b'trace 1 512 1 1\n', b'trace 1 512 1 1\ndaemon 1 1\n', b'trace 1 512 1 1\n0 map 0 0 8 fixed read\n'):
        number = before.count(b'\n') + 1
        yield 'line %d: form' % number, before + b'x' * LONGEST_LINE + b'\nend\n'
        yield 'line %d: long' % number, before + b'x' * (LONGEST_LINE + 1) + b'\nend\n'
        yield 'no end', before + b'x' * LONGEST_LINE
        yield 'line %d: long' % number, before + b'x' * (LONGEST_LINE + 1)
    for length in (1, LONGEST_LINE, LONGEST_LINE + 1, 2 * LONGEST_LINE):
        yield 'line 3: after', b'trace 1 512 1 1\nend\n' + b'x' * length
    # No word is as long as a line, so a number of so many digits is none.
    yield 'line 2: number', b'trace 1 512 1 1\n0 load 0 ' + b'1' * (LONGEST_LINE - len('0 load 0 ')) + b'\nend\n'


def judged(text: bytes) -> Row:
    """What tools/judge says of a text, and prints."""
    printed: List[str] = []
    try:
        for part in streamed(io.BytesIO(text), 1, lambda plan: [store_of(None) for _ in range(plan.spaces)]):
            printed.append(part)
    except Refusal as refusal:
        return str(refusal), ''.join(printed).encode()
    return DONE, ''.join(printed).encode()


def told(program: str, text: bytes) -> Row:
    """What the program says of a text, and prints."""
    run = subprocess.run([program, 'stream', '1'], input=text, stdout=subprocess.PIPE, stderr=subprocess.PIPE)
    message = OWN_NAME.sub('', run.stderr.decode('utf-8', 'replace').partition('see: ')[0])
    said = {0: DONE + message, 3: message.rstrip('\n')}.get(run.returncode, 'status %d: %s' % (run.returncode, message))
    return said, run.stdout


def wrong_with(program: str, said: str, text: bytes) -> Optional[str]:
    """What goes otherwise than a row says, or nothing."""
    expected, found = judged(text), told(program, text)
    says = {'tools/judge': expected[0], 'the program': found[0]}
    wrong = ['%s says `%s`' % (who, word) for who, word in says.items() if word != said]
    if not wrong and expected[1] != found[1]:
        wrong = ['the program prints %r in place of %r' % (found[1], expected[1])]
    return ', '.join(wrong) or None


def main() -> int:
    """Tries all texts, and answers the status."""
    parser = argparse.ArgumentParser('check_streams.py', description=HELP, formatter_class=argparse.RawDescriptionHelpFormatter)
    parser.add_argument('program', metavar='PROGRAM', nargs='?', help='without it crates/superpager/out/superpager')
    program = program_at(parser.parse_args().program)
    rows = [*grammar['rows_of'](os.path.join(EXAMPLES, 'refused', 'grammar')), *grammar['cut_texts'](), *long_lines()]
    found: List[Optional[str]] = []
    for said, text in rows:
        found.append(wrong_with(program, said, text))
        if found[-1]:
            print('%s, and not `%s`, of the text %r' % (found[-1], said, text[:200]))
    failed = len(found) - found.count(None)
    print('%d passed, %d failed' % (len(found) - failed, failed))
    return 1 if failed else 0


if __name__ == '__main__':
    end(main)
