"""The program's own numbers of a trace, from the history that it prints."""
import re
from typing import Dict, Set, Tuple

from common import Program, Stopped, printed, with_first_line
from policy.machine import Counts

# Five of the seven lines of counts.
COUNTS = re.compile(r'^tiles [\d ]+\npromotions (\d+)\ndemotions (\d+)\npreemptions \d+\nimages (\d+) (\d+)\nframes [\d ]+\nend\n', re.MULTILINE)


class Filled:
    """Which pages are resident, how many at most, and how many were zeroed, entry by entry."""

    def __init__(self, evicts: Dict[Tuple[str, str], int]):
        # By processor and the number of the call, the page of an evict.
        self.evicts = evicts
        self.resident: Set[Tuple[str, int]] = set()
        self.seen: Set[Tuple[str, int]] = set()
        self.used = self.zeroed = self.fills = self.paged_out = self.refused = 0

    def line(self, line: str) -> None:
        """One entry more."""
        _, processor, part, kind, *fields = line.split(' ')
        space = part.partition('+')[0]
        if kind in ('take', 'use'):
            self.fill((space, int(fields[0])))
        elif kind == 'out':
            self.paged_out += 1
        elif kind == 'give':
            self.resident.discard((space, int(fields[0])))
        elif kind == 'answer' and part.endswith('+f'):
            self.resident.discard((space, self.evicts[processor, fields[0]]))
        elif kind == 'answer' and fields[1] == 'noframes':
            self.refused += 1
        elif kind == 'clear':
            self.clear(space, int(fields[0]), int(fields[0]) + int(fields[1]))

    def fill(self, page: Tuple[str, int]) -> None:
        self.resident.add(page)
        self.used = max(self.used, len(self.resident))
        self.zeroed += page not in self.seen
        self.seen.add(page)
        self.fills += 1

    def clear(self, space: str, first: int, end: int) -> None:
        """These pages are unmapped or discarded."""
        for pages in (self.resident, self.seen):
            pages -= {page for page in pages if page[0] == space and first <= page[1] < end}


def evicts_of(text: bytes) -> Tuple[Dict[Tuple[str, str], int], int]:
    """The page of each evict, by processor and the number of the call; and how many calls there are, which are as many lines of answers."""
    numbers: Dict[str, int] = {}
    evicts: Dict[Tuple[str, str], int] = {}
    for words in (line.split(' ') for line in text.decode().splitlines()[1:-1]):
        if words[0] != 'daemon':
            number = numbers.get(words[0], 0)
            numbers[words[0]] = number + 1
            if words[1] == 'evict':
                evicts[words[0], str(number)] = int(words[3])
    return evicts, sum(numbers.values())


def counts_of(program: Program, name: str, trace: bytes, sizes: str) -> Counts:
    """The counts of the trace of this name with these page sizes."""
    text = with_first_line(trace, None, sizes)
    output = printed(program.path, ['order', '--history'], text, name)
    found = COUNTS.search(output)
    if found is None:
        raise Stopped('%s: %s printed no counts' % (name, program.path))
    promotions, demotions, hits, misses = map(int, found.groups())
    evicts, calls = evicts_of(text)
    filled = Filled(evicts)
    # The entries stand behind the answers.
    for line in output[:found.start()].splitlines()[calls:]:
        filled.line(line)
    return Counts(misses, promotions, demotions, filled.zeroed, 0, filled.used, 0, filled.paged_out, hits + misses, filled.refused, filled.fills)

