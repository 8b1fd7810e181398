#!/bin/sh
''':'
. "$(dirname "$0")/../../tools/start.sh"
'''
# Tries the texts of `grammar` and some long ones on the built program. `check_grammar.py --help` says how.
import argparse
import codecs
import os
import runpy
import subprocess
import sys
from typing import Iterator, List, Optional, Tuple

EXAMPLES = os.path.dirname(os.path.abspath(__file__))
TOOLS = os.path.join(EXAMPLES, os.pardir, os.pardir, 'tools')
sys.path.insert(0, TOOLS)
from common import end, program_at  # noqa: E402: it stands beside the tools
from judging.machine import Machine, store_of  # noqa: E402
from judging.printed import text_of_run  # noqa: E402
from judging.trace_text import Refusal, trace_of  # noqa: E402
from judging.values import MOST_BYTES, MOST_CALLS  # noqa: E402

HELP = """\
Runs the built program on texts by the grammar and against it, and compares
what it says and prints.

    examples/refused/check_grammar.py [PROGRAM]

The texts are those of `grammar`; a trace, and the same cut off behind each of
its bytes; and texts that are as long as one may be, or longer. What is said of
each but the long ones has to be what tools/judge and tools/explain say too.

A line is printed for each text that goes otherwise. The last line is
`N passed, M failed`, and the status is 1 where a text failed."""

explained = runpy.run_path(os.path.join(TOOLS, 'explain'))['refusal_of']

# What is said of a text, and the text.
Row = Tuple[str, bytes]
DONE = 'done'
# A trace of which nothing but the whole is one.
WHOLE = b"""\
trace 1 512 1 1
daemon 64 4096
0 map 0 0 16 fixed read
0 map 0 8 8 fixed write
0 map 0 1048575 2 fixed write
0 grow 0 0 1
0 unmap 0 16
0 store 0 0 1
0 protect 0 8 9 write
0 evict 0 15
end
"""


def rows_of(table: str) -> Iterator[Row]:
    """The rows of a table of texts."""
    place = '_'
    with open(table) as lines:
        for line in lines:
            first, bar, text = line.rstrip('\n').partition('|')
            if bar and not line.startswith('#'):
                yield first.strip(), codecs.decode(place.replace('_', text.strip()), 'unicode_escape').encode('latin-1')
            elif line.startswith('in '):
                place = line[3:].strip()


def cut_texts() -> Iterator[Row]:
    """A trace, and all that it begins with."""
    yield DONE, WHOLE
    for length in range(len(WHOLE)):
        yield 'no end', WHOLE[:length]


def long_texts() -> Iterator[Row]:
    """Texts of as many bytes and of as many calls as one may have, and of more."""
    longest = b'trace 1 512 1 1\nbad\n'.ljust(MOST_BYTES, b'x')
    yield 'line 2: form', longest
    yield 'trace too long', longest + b'\n'
    full = b'trace 1 512 1 1\ndaemon 1 1\n' + b'0 store 0 0 1\n' * MOST_CALLS
    yield 'no end', full
    yield 'too many calls', full + b'0 load 0 0\nbad\n'
    yield 'line %d: range' % (MOST_CALLS + 3), full + b'0 load 0 1\n0 load 0 0\n'


def judged(text: bytes) -> Row:
    """What tools/judge says of a text, and prints of its run where it is a trace."""
    try:
        trace = trace_of(text)
    except Refusal as refusal:
        return str(refusal), b''
    machine = Machine(trace, [store_of(None) for _ in range(trace.spaces)])
    machine.run_in_order()
    return DONE, text_of_run(machine.pager, True).encode()


def told(program: str, text: bytes) -> Row:
    """What the program says of a text, and prints."""
    run = subprocess.run([program, 'order', '--history'], input=text, stdout=subprocess.PIPE, stderr=subprocess.PIPE)
    message = run.stderr.decode('utf-8', 'replace').partition('see: ')[0]
    if run.returncode == 0 and not message:
        return DONE, run.stdout
    if run.returncode == 3 and message.startswith('superpager: ') and message.endswith('\n'):
        return message[len('superpager: '):-1], run.stdout
    return 'status %d: %s' % (run.returncode, message), run.stdout


def wrong_with(program: str, said: str, text: bytes) -> Optional[str]:
    """What goes otherwise than a row says, or nothing."""
    refusal, _ = explained(text)
    expected = judged(text)
    says = {'tools/judge': expected[0], 'tools/explain': refusal.told if refusal else DONE}
    wrong = ['%s says `%s`' % (tool, word) for tool, word in says.items() if word != said]
    return ', '.join(wrong) or wrong_with_run(program, (said, expected[1]), text)


def wrong_with_run(program: str, expected: Row, text: bytes) -> Optional[str]:
    """What the program does otherwise, or nothing."""
    found = told(program, text)
    if found[0] != expected[0]:
        return 'the program says `%s`' % found[0]
    return None if found[1] == expected[1] else 'the program prints another text'


def wrong_rows(program: str) -> Iterator[Tuple[Row, Optional[str]]]:
    """Each row, and what is wrong with it."""
    for said, text in [*rows_of(os.path.join(EXAMPLES, 'grammar')), *cut_texts()]:
        yield (said, text), wrong_with(program, said, text)
    for said, text in long_texts():
        yield (said, text), wrong_with_run(program, (said, b''), text)


def main() -> int:
    """Tries all texts, and answers the status."""
    parser = argparse.ArgumentParser('check_grammar.py', description=HELP, formatter_class=argparse.RawDescriptionHelpFormatter)
    parser.add_argument('program', metavar='PROGRAM', nargs='?', help='without it crates/superpager/out/superpager')
    program = program_at(parser.parse_args().program)
    found: List[Optional[str]] = []
    for (said, text), wrong in wrong_rows(program):
        found.append(wrong)
        if wrong:
            print('%s, and not `%s`, of the text %r' % (wrong, said, text[:200]))
    failed = len(found) - found.count(None)
    print('%d passed, %d failed' % (len(found) - failed, failed))
    return 1 if failed else 0


if __name__ == '__main__':
    end(main)
