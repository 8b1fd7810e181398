"""The program in the page beside the examples, and the page's pictures beside those of tools/picture: by node, one run after another."""
import glob
import json
import os
import re
import shlex
import subprocess
import tempfile
from base64 import b64decode
from typing import Any, Iterator, List, NamedTuple, Optional, Tuple

from common import TOP, Stopped, read_file, write_file
from pictures import curves, following
from pictures import page as picture
from pictures.packing import to_json
from wasm import page
from wasm.module import need

HERE = os.path.dirname(os.path.abspath(__file__))
EXAMPLES = os.path.join(TOP, 'examples')
# The folders of examples with runs in `cases`, and those whose traces are also run by `order`, and drawn.
ROOMS = ('lesson', 'runs', 'refused', 'streams', 'histories')
IN_ORDER = ('lesson', 'runs', 'tools')
# What is drawn of each trace, and of one with one processor.
DRAWN = (['order'], ['turns', '3'])
CURVES = (['curve'],)
# The status by words that aren't taken.
USAGE = 2
# The lines of a message that the examples leave out.
MORE_SAID = re.compile(rb'^(usage: superpager |see: ).*\n', re.M)


class Case(NamedTuple):
    """A run as the examples have it: its words and the file that it reads, and what is printed and said, with the status."""
    name: str
    words: List[str]
    read: str
    status: int
    printed: bytes
    said: bytes


class Node:
    """The page's scripts in node, with the program's module: check.mjs, which is told a task a line."""

    def __init__(self, module: bytes, folder: str) -> None:
        script, path = os.path.join(folder, 'script.js'), os.path.join(folder, 'superpager.wasm')
        write_file(script, page.script())
        with open(path, 'wb') as out:
            out.write(module)
        state = os.path.join(TOP, 'tools', 'pictures', 'state.js')
        words = [need('node', 'nodejs'), os.path.join(HERE, 'check.mjs'), script, state, path]
        self.process = subprocess.Popen(words, stdin=subprocess.PIPE, stdout=subprocess.PIPE)

    def does(self, *task: Any) -> Any:
        """What comes of a task."""
        try:
            self.process.stdin.write(to_json(task).encode() + b'\n')
            self.process.stdin.flush()
            told = self.process.stdout.readline()
        except BrokenPipeError:
            told = b''
        if not told:
            raise Stopped('node ended at %s' % json.dumps(task[:2])[:100])
        return json.loads(told)

    def ran(self, words: List[str], path: str) -> Tuple[int, bytes, bytes]:
        """The status of a run, and what it printed and said."""
        status, printed, said = self.does(words, path)
        return status, b64decode(printed), b64decode(said)

    def close(self) -> None:
        self.process.stdin.close()
        self.process.wait()


def text_at(path: str) -> bytes:
    """The bytes of a file, or none where there is none."""
    return read_file(path) if os.path.exists(path) else b''


def case_of(room: str, line: str) -> Optional[Case]:
    """The run of a line of `cases`, or None where it needs threads, files, a word that isn't one here, or another output or input than a text."""
    name, words, read, output, status, said = (part.strip() for part in line.split('|'))
    # By words that aren't taken nothing is run. Where nothing is read, a closed input is as good as an empty one.
    is_run = int(status) != USAGE
    is_unread = not is_run or words.split(' ')[0] in ('make', 'large')
    path = os.path.join(EXAMPLES, room, os.devnull if read == 'closed' and is_unread else read)
    is_text = os.path.isfile(path) or path == os.devnull
    if output != 'told' or not is_text or '$' in words or (is_run and re.search(r'\breplay\b|--folder', words)):
        return None
    printed = text_at(os.path.join(EXAMPLES, room, name + '.text'))
    return Case('%s/%s' % (room, name), shlex.split(words), path, int(status), printed, said.encode() + b'\n' if said else b'')


def lines_of(room: str) -> Iterator[str]:
    """The lines of a room's `cases` that tell of a run of the program."""
    lines = text_at(os.path.join(EXAMPLES, room, 'cases')).decode().split('\n')
    return (line for line in lines if line and not line.startswith('#'))


def traces_in_order() -> List[str]:
    """The traces that the examples run by `order`, each with its text beside it."""
    return [path for room in IN_ORDER for path in sorted(glob.glob(os.path.join(EXAMPLES, room, '*.trace')))
            if os.path.exists(os.path.splitext(path)[0] + '.text')]


def case_in_order(path: str) -> Case:
    name = os.path.splitext(path)[0]
    return Case(os.path.relpath(name, EXAMPLES), ['order'], path, 0, text_at(name + '.text'), b'')


def wrong_of(case: Case, node: Node) -> str:
    """What is other than the example has it, in words."""
    status, printed, said = node.ran(case.words, case.read)
    parts = ('status %d in place of %d' % (status, case.status), status != case.status), ('another output', printed != case.printed), (
        'another message', MORE_SAID.sub(b'', said) != case.said)
    return '; '.join(text for text, is_wrong in parts if is_wrong)


def differs(path: str, order: List[str], node: Node) -> Optional[str]:
    """What is other in the page's picture of a run than in that of tools/picture, in words."""
    trace, (_, printed, _) = read_file(path).decode(), node.ran(order + ['--history'], path)
    run = following.read(trace, printed.decode())
    return node.does('picture', trace, printed.decode(), picture.data_of(run, 'picture', 'about'))


def processors_of(path: str) -> int:
    """How many processors a trace has, by its first line."""
    return int(read_file(path).split(b' ', 4)[3])


def curves_differ(path: str, node: Node) -> Optional[str]:
    """Whether the page's curves of a trace are others than those of tools/picture, in words."""
    _, printed, _ = node.ran(['curve'], path)
    found = node.does('curves', printed.decode(), picture.part('curves.html'))
    return None if found == curves.page(curves.read(printed.decode()), 'curves') else 'another page'


def compare(module: bytes) -> int:
    """Compares all, says what differs and how much was compared, and answers the status."""
    found = [case_of(room, line) for room in ROOMS for line in lines_of(room)]
    cases = [case_in_order(path) for path in traces_in_order()] + [case for case in found if case is not None]
    drawn = [(path, order) for path in traces_in_order() for order in DRAWN + CURVES[processors_of(path) != 1:]]
    failed = 0
    with tempfile.TemporaryDirectory() as folder:
        node = Node(module, folder)
        for case in cases:
            wrong = wrong_of(case, node)
            failed += bool(wrong)
            print('%s by %s: %s\n' % (case.name, ' '.join(case.words), wrong) if wrong else '', end='')
        for path, order in drawn:
            wrong = curves_differ(path, node) if order == ['curve'] else differs(path, order, node)
            failed += bool(wrong)
            print('picture of %s by %s: %s\n' % (os.path.relpath(path, EXAMPLES), ' '.join(order), wrong) if wrong else '', end='', flush=True)
        node.close()
    print('runs: %d, pictures: %d; left out, since they need files, threads or streams of the system: %d' % (
        len(cases), len(drawn), found.count(None)))
    print('%d passed, %d failed' % (len(cases) + len(drawn) - failed, failed))
    return 1 if failed else 0
