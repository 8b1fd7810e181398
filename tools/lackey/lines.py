"""What a line of the input tells: accesses, and system calls that change regions."""
import re
from typing import Dict, List, NamedTuple, Optional, Tuple

PAGE = 8192
WORD = 8
# The program's own pages, by which it maps and protects.
SMALL = 4096

# Whether it is a store, and its word: the page in the program, and the place in the page in bytes. (Tuples, since there are millions.)
Access = Tuple[bool, int, int]
# The accesses that a line becomes, those of instructions first, and how many these are.
Told = Tuple[Tuple[Access, ...], int]

# Lackey writes an address with eight digits or more, and no access has more than 512 bytes.
LACKEY = re.compile(rb'(I | [LSM]) ([0-9a-f]{8,16}),([1-9][0-9]{0,2})\r?\n')
PLAIN = re.compile(rb'(?:(?:0x)?([0-9a-fA-F]{1,16}): *)?([RWIrwi012]) +(?:0x)?([0-9a-fA-F]{1,16})(?: +([1-9][0-9]{0,2}))?\r?\n')
MOST_BYTES = 512
INSTRUCTIONS = (b'I ', b'I', b'i', b'2')
# Whether the accesses that a line of each kind becomes are stores.
STORES: Dict[bytes, Tuple[bool, ...]] = {b' S': (True,), b' M': (False, True), b'W': (True,), b'w': (True,), b'1': (True,)}

SYSTEM_CALL = b'SYSCALL['
# A message of Valgrind's, and that by which lackey ends: without it the program was still running, or Valgrind was killed.
MESSAGE = b'=='
EXIT = re.compile(rb'==[0-9]+== Exit code: +[0-9]+\r?\n')
CHANGE = re.compile(rb'SYSCALL\[[0-9]+,[0-9]+\]\([^)]*\) sys_(mmap2?|munmap|mprotect|mremap|brk|madvise|mlock2?|munlock) \( ([0-9a-fx, ]{1,200}) \)'
                    rb'(?:\[sync\] -->| --> \[pre-success\]) Success\(0x([0-9a-f]{1,16})\)')
# A call that may wait is told twice: what its thread asks, and in a later line of the same thread what came of it.
BEGUN = re.compile(rb'SYSCALL\[([0-9]+,[0-9]+)\]\([^)]*\) sys_(madvise|mlock2?|munlock) \( ([0-9a-fx, ]{1,200}) \) --> \[async\]')
ENDED = re.compile(rb'SYSCALL\[([0-9]+,[0-9]+)\]\([^)]*\) \.\.\. \[async\] --> (?:Success\(0x([0-9a-f]{1,16})\))?')

# Rights: none, to read, and to write; and those that nothing tells.
NONE, READ, WRITE, GUESSED = range(4)
MAP, UNMAP, PROTECT, GROW, DISCARD, LOCK, UNLOCK = range(7)
# The advice by which a program gives up what pages hold.
DONTNEED = 4


class Change(NamedTuple):
    """What a system call changes: after so many accesses, at the bytes from the first to before the end, which are multiples of SMALL."""
    at: int
    kind: int
    first: int
    end: int
    rights: int


def accesses_at(stores: Tuple[bool, ...], address: int, size: int) -> List[Access]:
    """Accesses of the address's word, and of the next page's first word where they go on there."""
    page, offset = divmod(address, PAGE)
    accesses = [(store, page, offset // WORD * WORD) for store in stores]
    if offset + size > PAGE:
        accesses += [(store, page + 1, 0) for store in stores]
    return accesses


def told_of(instruction: Optional[bytes], kind: bytes, address: bytes, size: int) -> Optional[Told]:
    """What these words of a line tell, an instruction that made the access among them."""
    if size > MOST_BYTES:
        return None
    before = [] if instruction is None else accesses_at((False,), int(instruction, 16), 1)
    accesses = accesses_at(STORES.get(kind, (False,)), int(address, 16), size)
    return tuple(before + accesses), len(before) + len(accesses) * (kind in INSTRUCTIONS)


def told_by_lackey(line: bytes) -> Optional[Told]:
    """What a line of lackey's tells, or nothing where it is none."""
    found = LACKEY.fullmatch(line)
    return found and told_of(None, found[1], found[2], int(found[3]))


def told_plainly(line: bytes) -> Optional[Told]:
    """What a line of the plain form tells, or nothing where it is none."""
    found = PLAIN.fullmatch(line)
    return found and told_of(found[1], found[2], found[3], int(found[4] or b'1'))


FORMS = {'lackey': told_by_lackey, 'plain': told_plainly}


def rounded(address: int) -> int:
    """The address, or the next one at which a small page begins."""
    return -(-address // SMALL) * SMALL


def rights_of(protection: int) -> int:
    """The rights that the bits of a system call give; what may be executed may be read."""
    return WRITE if protection & 2 else READ if protection & 5 else NONE


class Changes:
    """The changes that system calls made, in order."""

    def __init__(self) -> None:
        self.made: List[Change] = []
        # Where the heap ends, at the most; nothing before a call of brk told it.
        self.top: Optional[int] = None
        # By thread the name and the words of a call that has begun.
        self.begun: Dict[bytes, Tuple[bytes, bytes]] = {}

    def add(self, at: int, kind: int, first: int, end: int, rights: int) -> None:
        """Adds a change, where it is of any page."""
        first, end = first // SMALL * SMALL, rounded(end)
        if first < end:
            self.made.append(Change(at, kind, first, end, rights))

    def rights_at(self, address: int) -> int:
        """The rights that were given last at an address."""
        gave = (change.rights for change in reversed(self.made) if change.kind in (MAP, PROTECT, GROW) and change.first <= address < change.end)
        return next(gave, WRITE)

    def take(self, at: int, name: bytes, words: List[int], result: int) -> None:
        """Takes what a system call of this name, these words and this result changed, after so many accesses."""
        if name == b'brk':
            if self.top is not None:
                self.add(at, GROW, rounded(self.top), result, WRITE)
            self.top = max(self.top or 0, result)
        elif name in (b'mmap', b'mmap2'):
            self.add(at, MAP, result, result + words[1], rights_of(words[2]))
        elif name == b'munmap':
            self.add(at, UNMAP, words[0], words[0] + words[1], NONE)
        elif name == b'mprotect':
            self.add(at, PROTECT, words[0], words[0] + words[1], rights_of(words[2]))
        elif name in (b'mlock', b'mlock2', b'munlock'):
            self.add(at, UNLOCK if name == b'munlock' else LOCK, words[0], words[0] + words[1], NONE)
        elif name == b'madvise':
            self.advise(at, words[0], words[0] + words[1], words[2])
        else:
            self.move(at, words[0], rounded(words[1]), result, rounded(words[2]))

    def move(self, at: int, old: int, old_length: int, new: int, new_length: int) -> None:
        """Takes a call of mremap: what stays in its place is left, and all else is unmapped and mapped."""
        rights = self.rights_at(old)
        stays = min(old_length, new_length) if old == new else 0
        self.add(at, UNMAP, old + stays, old + old_length, NONE)
        self.add(at, MAP, new + stays, new + new_length, rights)

    def advise(self, at: int, first: int, end: int, advice: int) -> None:
        """Takes a call of madvise: a page whose two halves are given up is discarded."""
        if advice == DONTNEED:
            self.add(at, DISCARD, -(-first // PAGE) * PAGE, rounded(end) // PAGE * PAGE, NONE)

    def read(self, at: int, line: bytes) -> bytes:
        """Takes the calls in a line, and answers what stands behind them: another thread's access may."""
        for name, words, result in CHANGE.findall(line):
            self.told(at, name, words, result)
        for thread, result in ENDED.findall(line):
            name, words = self.begun.pop(thread, (b'', b''))
            if name and result:
                self.told(at, name, words, result)
        self.begun.update((thread, (name, words)) for thread, name, words in BEGUN.findall(line))
        return line.rpartition(b') ')[2]

    def told(self, at: int, name: bytes, words: bytes, result: bytes) -> None:
        """Takes a call that was done, where its words are numbers, and enough."""
        numbers = numbers_of(words)
        if numbers is not None and len(numbers) >= WORDS[name]:
            self.take(at, name, numbers, int(result, 16))


# How many words of a call are looked at.
WORDS = {b'brk': 1, b'mmap': 3, b'mmap2': 3, b'munmap': 2, b'mprotect': 3, b'mremap': 3, b'madvise': 3, b'mlock': 2, b'mlock2': 2, b'munlock': 2}


def numbers_of(words: bytes) -> Optional[List[int]]:
    """The numbers of a call below 2^64, or nothing where one is none."""
    parts = words.split(b', ')
    if not all(re.fullmatch(rb'0x[0-9a-f]{1,16}|[0-9]{1,20}', part) for part in parts):
        return None
    return [int(part, 16) if part.startswith(b'0x') else int(part) for part in parts]
