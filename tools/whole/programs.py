"""The programs of the table, and what they work on."""
import os
import shutil
import subprocess
from typing import Callable, Dict, List, NamedTuple, Optional

from common import TOP, Stopped
from judging.drawing import Generator

SOURCES = os.path.join(TOP, 'examples', 'programs')
# By these two, programs that order their tables by a drawn number do the same in each run.
ENVIRONMENT = {'PERL_HASH_SEED': '0', 'PERL_PERTURB_KEYS': '0', 'PYTHONHASHSEED': '0', 'LC_ALL': 'C'}
# How many KB the texts have that are packed, sorted, and counted by perl and by Python; and a text where it is to be small.
PACKED, SORTED, BY_PERL, BY_PYTHON, SMALL = 200, 1000, 100, 50, 30
SYLLABLES = ('ba', 'ce', 'di', 'fo', 'gu', 'ha', 'je', 'ki', 'lo', 'mu', 'na', 'pe', 'ri', 'so', 'tu', 'va')

PERL = 'my %count; while (<>) { $count{$_}++ for split } print "$_ $count{$_}\\n" for sort { $count{$b} <=> $count{$a} || $a cmp $b } keys %count'
PYTHON = """\
import sys
count = {}
for line in open(sys.argv[1]):
    for word in line.split():
        count[word] = count.get(word, 0) + 1
print(sorted(count.items(), key=lambda row: (-row[1], row[0]))[:10])
"""
SQL = """\
WITH RECURSIVE n(i) AS (SELECT 1 UNION ALL SELECT i + 1 FROM n WHERE i < %d)
INSERT INTO t SELECT i, i * 7919 %% 10007, 'row ' || i FROM n;
CREATE INDEX by_key ON t(key);
SELECT count(*), sum(a.id) FROM t a JOIN t b ON a.key = b.key + 1;
"""


class Program(NamedTuple):
    """A program of the table: its name, and what makes its command line, and its input in a folder, for its usual size or a small one."""
    name: str
    command: Callable[[str, bool], List[str]]


def found(name: str) -> str:
    """The path of a program of the system."""
    path = shutil.which(name)
    if path is None:
        raise Stopped("there is no %s on this machine" % name)
    return path


def said_by(words: List[str]) -> str:
    """What a command prints."""
    try:
        return subprocess.run(words, stdout=subprocess.PIPE, stderr=subprocess.DEVNULL, check=True).stdout.decode().strip()
    except (OSError, subprocess.CalledProcessError):
        raise Stopped('%s fails' % ' '.join(words))


def written(folder: str, name: str, text: str) -> str:
    """The path of a file of this text."""
    path = os.path.join(folder, name)
    with open(path, 'w') as out:
        out.write(text)
    return path


def text(kilobytes: int) -> str:
    """Lines of words, some of which come often, of about so many KB."""
    g = Generator(kilobytes)
    words = [''.join(SYLLABLES[g.draw(16)] for _ in range(1 + g.draw(4))) for _ in range(4000)]
    lines: List[str] = []
    size = 0
    while size < 1000 * kilobytes:
        lines.append(' '.join(words[g.draw(1 + g.draw(len(words)))] for _ in range(4 + g.draw(9))) + '\n')
        size += len(lines[-1])
    return ''.join(lines)


def source(lines: int) -> str:
    """A source in C of about so many lines: functions with loops, which call each other."""
    parts = ['struct row { int key; long sum; struct row *next; };\n\nlong f0(struct row *r, int n) { return r->sum + n; }\n']
    for n in range(1, lines // 15):
        parts.append("""
static long table%(n)d[%(room)d];

long f%(n)d(struct row *r, int n)
{
    long sum = n * %(n)d;
    for (struct row *at = r; at; at = at->next) {
        if (at->key %% %(odd)d == 0)
            sum += f%(before)d(at, n - 1);
        else
            table%(n)d[at->key & %(mask)d] += sum;
        at->sum ^= sum >> (n & 7);
    }
    return sum + table%(n)d[n & %(mask)d];
}
""" % {'n': n, 'before': n - 1, 'odd': 3 + n % 5, 'room': 64, 'mask': 63})
    return ''.join(parts)


def over_text(kilobytes: int, *words: str) -> Callable[[str, bool], List[str]]:
    """A command over a text of so many KB, or over a small one."""
    def command(folder: str, small: bool) -> List[str]:
        return [found(words[0]), *words[1:], written(folder, 'text', text(SMALL if small else kilobytes))]
    return command


def cc1(folder: str, small: bool) -> List[str]:
    """The compiler itself, which gcc starts, over a source of 1,000 lines, or of 60."""
    compiler = said_by([found('gcc'), '-print-prog-name=cc1'])
    return [compiler, '-quiet', '-O0', '-o', os.devnull, written(folder, 'source.c', source(60 if small else 1000))]


def python(folder: str, small: bool) -> List[str]:
    """Python, by the path of the program itself: a wrapper would be traced in its place."""
    path = said_by([found('python3'), '-c', 'import sys; print(sys.executable)'])
    return [path, '-S', written(folder, 'count.py', PYTHON), written(folder, 'text', text(SMALL if small else BY_PYTHON))]


def sqlite(folder: str, small: bool) -> List[str]:
    """A table in memory, its index, and a join."""
    return [found('sqlite3'), ':memory:', 'CREATE TABLE t(id INTEGER PRIMARY KEY, key INT, name TEXT);\n' + SQL % (200 if small else 4000)]


def built(name: str, usual: int, small_size: int) -> Program:
    """A program of examples/programs, compiled anew."""
    def command(folder: str, small: bool) -> List[str]:
        out = os.path.join(folder, name)
        said_by([found('cc'), '-O2', '-o', out, os.path.join(SOURCES, name + '.c')])
        return [out, str(small_size if small else usual)]
    return Program(name, command)


PROGRAMS = (
    Program('gzip', over_text(PACKED, 'gzip', '-c')),
    Program('bzip2', over_text(PACKED, 'bzip2', '-c')),
    Program('sort', over_text(SORTED, 'sort', '--parallel=1')),
    Program('cc1', cc1),
    Program('perl', over_text(BY_PERL, 'perl', '-e', PERL)),
    Program('python3', python),
    Program('sqlite3', sqlite),
    built('transpose', 1500, 150),
    built('rotate', 2000, 200),
    built('fft', 17, 11),
    built('raytrace', 150, 1),
)
BY_NAME: Dict[str, Program] = {program.name: program for program in PROGRAMS}


def own(name: str, words: List[str]) -> Program:
    """A program of the user's own."""
    return Program(name, lambda folder, small: words)


def environment(folder: Optional[str]) -> Dict[str, str]:
    """The environment that the programs run in: that of the tool, but for what makes two runs differ."""
    return {**os.environ, **ENVIRONMENT, **({'TMPDIR': folder} if folder else {})}
