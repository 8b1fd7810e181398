"""Why the program refuses a text, or a stream: its cause, the word at fault, and what may stand there."""
import difflib
import io
import re
from typing import BinaryIO, Dict, Iterator, List, NamedTuple, Optional, Sequence, Tuple, Union

# The sets of page sizes that a trace may name, each the digits of its levels: a page of level k is 8**k base pages.
SIZE_SETS = ('0', '01', '02', '03', '012', '013', '023', '0123')
MOST_BYTES = 16777216
MOST_CALLS = 262144
# The most calls of a stream, and the most bytes of a line of one, its line feed not counted.
MOST_STREAMED = 2 ** 32 - 1
LONGEST_LINE = 4095
# How much of a word is shown.
LONGEST = 40


class Number(NamedTuple):
    """A number's place: a multiple of the step, from the least to the most. A most of '' is told by the first line."""
    name: str
    what: str
    least: int
    most: int
    step: int = 1


class Choice(NamedTuple):
    """A place of one of these words."""
    name: str
    what: str
    words: Tuple[str, ...]


class Word(NamedTuple):
    """A place of this word alone."""
    name: str

Place = Union[Number, Choice, Word]


class Form(NamedTuple):
    """A line's form, from a version of the trace on. Its first and its last possible line are counted from 1; 0 is no last one."""
    first: int
    last: int
    places: Tuple[Place, ...]
    version: int = 1


def call(name: str, *places: Place, version: int = 1) -> Form:
    """The form of a call: a processor, the name, a space, and these places."""
    return Form(2, 0, (PROCESSOR, Word(name), SPACE) + places, version)


# The most of a processor and of a space are those of 16; the first line of a text makes them less.
PROCESSOR = Number('C', 'a processor', 0, 15)
SPACE = Number('S', 'a space', 0, 15)
PAGE = Number('PAGE', 'a page', 0, 1048575)
LENGTH = Number('LEN', 'a number of pages', 1, 1048576)
ADDRESS = Number('ADDR', 'an address', 0, 8589934584, 8)
KIND = Choice('KIND', 'a kind of region', ('fixed', 'growing', 'wired'))
RIGHTS = Choice('RIGHTS', 'a right', ('none', 'read', 'write'))
END = Form(2, 0, (Word('end'),))
# What stands behind the version of a first line, and what more in one that names its page sizes.
COUNTS = (Number('F', 'a number of frames', 512, 32768, 512), Number('P', 'a number of processors', 1, 16), Number('S', 'a number of spaces', 1, 16))
SIZES = Choice('SIZES', 'the page sizes', SIZE_SETS)
# The version of a first line is told by how many words it has.
VERSIONS = (Number('1', 'the version of a line of five words', 1, 1), Number('2', 'the version of a line of six words', 2, 3))
FIRST, SIZED = (Form(1, 1, (Word('trace'), version) + COUNTS + more) for version, more in zip(VERSIONS, ((), (SIZES,))))
FORMS = (
    FIRST,
    SIZED,
    Form(2, 2, (Word('daemon'), Number('LOW', 'a low mark', 1, 64), Number('TURNS', 'a number of turns', 1, 4096))),
    call('map', PAGE, LENGTH, KIND, RIGHTS),
    call('grow', PAGE, LENGTH._replace(name='BY')),
    call('unmap', PAGE),
    call('protect', PAGE, LENGTH, RIGHTS),
    call('load', ADDRESS),
    call('store', ADDRESS, Number('WORD', 'a word', 0, 2 ** 64 - 1)),
    call('sync', PAGE),
    call('evict', PAGE),
    call('discard', PAGE, LENGTH, version=3),
    call('wire', PAGE, version=3),
    call('unwire', PAGE, version=3),
    END,
)
# The first version of the calls that not each version has, by their names.
LATER = {form.places[1].name.encode(): form.version for form in FORMS if form.version > 1}

# What is wrong with a word where a number must stand, the first that it is.
NO_NUMBERS = (
    (r'', 'is empty'),
    (r'0+[0-9]+', 'has a zero in front'),
    (r'[+-][0-9]+', 'has a sign'),
    (r'0[xX][0-9a-fA-F]*|[0-9]*[a-fA-F][0-9a-fA-F]*', 'is no decimal number'),
    (r'[0-9]+', 'is more than 18446744073709551615'),
    (r'.*', 'is no number'),
)
# What is wrong with the version of the other form.
OTHER_VERSION = {
    VERSIONS[0]: 'the version is 1 in a line of five words: version 2 names its page sizes',
    VERSIONS[1]: 'the version is 2 or 3 in a line of six words: version 1 names no page sizes',
}
# What takes longer texts.
LONGER = '`superpager stream` runs a text of any length with up to %d calls, which `tools/explain --stream` explains' % MOST_STREAMED
# The usual slips of a line, and what to do.
SLIPS = (
    (rb'\xef\xbb\xbf.*', 'the line begins with a byte order mark; a text has none'),
    (rb'[ \t\r]*', 'a blank line; `tools/explain --strip` takes such out'),
    (rb'.*(#|//).*', 'a comment; a text has none, and `tools/explain --strip` takes them out'),
    (rb'.*\r', 'the line ends with a carriage return (CRLF); a line ends with a line feed alone: `tr -d "\\r"` takes them out'),
    (rb'.*\t.*', 'a tab; words are apart by one space'),
    (rb'.*  .*| .*|.* ', 'a space too many; words are apart by one space, and none stands at an end'),
)


class Limits(NamedTuple):
    """The most calls of a text, and the most bytes of a line, where a line has a limit."""
    calls: int
    line: Optional[int] = None


TEXT = Limits(MOST_CALLS)
STREAM = Limits(MOST_STREAMED, LONGEST_LINE)


class Refusal(NamedTuple):
    """What the program tells, and what it is about: the line's number (0 where it is about none) and bytes."""
    told: str
    number: int = 0
    line: bytes = b''
    forms: Tuple[Form, ...] = ()
    limits: Limits = TEXT


def text_of(word: bytes) -> str:
    """A word as it is shown."""
    text = word.decode('utf-8', 'backslashreplace')
    shown_whole = ''.join(c if c.isprintable() else ascii(c)[1:-1] for c in text[:LONGEST])
    return shown_whole + '...' * (len(text) > LONGEST)


def number_of(word: bytes) -> Optional[int]:
    """The number that a word is, or nothing."""
    if not re.fullmatch(rb'0|[1-9][0-9]{0,19}', word) or int(word) >= 2 ** 64:
        return None
    return int(word)


def may_stand(place: Place, word: bytes) -> bool:
    """Whether a word may stand at a place, a number left aside."""
    if isinstance(place, Word):
        return word == place.name.encode()
    return isinstance(place, Number) or word in (choice.encode() for choice in place.words)


def number_fault(place: Place, word: bytes) -> Optional[str]:
    """The cause where a number's place is at fault."""
    if not isinstance(place, Number):
        return None
    number = number_of(word)
    if number is None:
        return 'number'
    return None if place.least <= number <= place.most and number % place.step == 0 else 'range'


def fits(form: Form, words: List[bytes]) -> bool:
    """Whether a line has as many words as the form, and each may stand at its place."""
    return len(form.places) == len(words) and all(map(may_stand, form.places, words))


def form_of(forms: Sequence[Form], words: List[bytes]) -> Optional[Form]:
    """The form that a line of these words fits; no line fits two."""
    return next((form for form in forms if fits(form, words)), None)


def cause_of(form: Optional[Form], words: List[bytes]) -> Optional[str]:
    """The cause why a line that fits this form, or none, is refused, or nothing."""
    if form is None:
        return 'form'
    return next((fault for fault in map(number_fault, form.places, words) if fault), None)


def narrowed(form: Form, mosts: Dict[Place, int]) -> Form:
    """The form with other mosts at some places."""
    return form._replace(places=tuple(place._replace(most=mosts[place]) if place in mosts else place for place in form.places))


def forms_behind(first: bytes, number: int) -> Tuple[Form, ...]:
    """The forms of the line of this number, behind this first line."""
    words = first.split(b' ')
    mosts: Dict[Place, int] = {} if number == 1 else {PROCESSOR: int(words[3]) - 1, SPACE: int(words[4]) - 1}
    version = 1 if number == 1 else int(words[1])
    there = (form for form in FORMS if form.version <= version and form.first <= number and (not form.last or number <= form.last))
    return tuple(narrowed(form, mosts) for form in there)


def unread(number: int, text: bytes, limits: Limits) -> Optional[Refusal]:
    """Why the line of this number is refused before it is looked at, or nothing: it is too long, or a rest without a line feed."""
    if limits.line is not None and len(text.rstrip(b'\n')) > limits.line:
        return Refusal('line %d: long' % number, number, text, limits=limits)
    return None if text.endswith(b'\n') else Refusal('no end', number, text)


def refusal_of_lines(lines: Iterator[bytes], limits: Limits) -> Tuple[Optional[Refusal], int]:
    """Why the lines, which end with their line feeds, are refused; else how many calls there are. No line is read behind one that is refused."""
    calls, first = 0, b''
    forms: Tuple[Form, ...] = ()
    for number, text in enumerate(lines, 1):
        refusal, line = unread(number, text, limits), text[:-1]
        if refusal:
            return refusal, calls
        first = first or line
        forms = forms_behind(first, number) if number <= 3 else forms
        words = line.split(b' ')
        form = form_of(forms, words)
        cause = cause_of(form, words)
        if form is None or cause is not None:
            return Refusal('line %d: %s' % (number, cause), number, line, forms), calls
        if form == END:
            return refusal_behind(number, next(lines, None)), calls
        calls += form.places[0].name == PROCESSOR.name
        if calls > limits.calls:
            return Refusal('too many calls', limits=limits), calls
    return Refusal('no end'), calls


def refusal_behind(number: int, rest: Optional[bytes]) -> Optional[Refusal]:
    """Why the line behind the last one, which has this number, is refused, where there is such a line."""
    return None if rest is None else Refusal('line %d: after' % (number + 1), number + 1, rest.rstrip(b'\n'))


def refusal_of(data: bytes) -> Tuple[Optional[Refusal], int]:
    """Why the text is refused; else how many calls it has."""
    return (Refusal('trace too long'), 0) if len(data) > MOST_BYTES else refusal_of_lines(iter(io.BytesIO(data)), TEXT)


def refusal_of_stream(source: BinaryIO) -> Tuple[Optional[Refusal], int]:
    """Why `stream` refuses what a source has, which is read line by line; else how many calls there are."""
    return refusal_of_lines(iter(lambda: source.readline(LONGEST_LINE + 1), b''), STREAM)


def shown(form: Form, version: Optional[bytes] = None) -> str:
    """The form as the documents write it; a first line is shown with this version, where it may have it."""
    names = [place.name for place in form.places]
    if form == SIZED and version == b'3':
        names[1] = '3'
    return '`%s`' % ' '.join(names)


def listed(words: Sequence[str], last: str = 'or') -> str:
    """The words as a sentence lists them."""
    return words[0] if len(words) == 1 else '%s %s %s' % (', '.join(words[:-1]), last, words[-1])


def wanted(place: Place) -> str:
    """What may stand at a place."""
    if isinstance(place, Word):
        return '`%s`' % place.name
    if isinstance(place, Choice):
        return '%s: %s' % (place.what, listed(['`%s`' % word for word in place.words]))
    if place.least == place.most:
        return '%s: %d' % (place.what, place.least)
    step = '' if place.step == 1 else 'a multiple of %d ' % place.step
    return '%s: %sfrom %d to %d' % (place.what, step, place.least, place.most)


def number_text(place: Number, word: bytes) -> str:
    """What is wrong with a word at a number's place."""
    number = number_of(word)
    if number is None:
        why = next(why for pattern, why in NO_NUMBERS if re.fullmatch(pattern, word.decode('latin-1'), re.DOTALL))
        return '%s %s; here stands %s' % ('`%s`' % text_of(word) if word else 'the word', why, wanted(place))
    if place in OTHER_VERSION and number in (1, 2):
        return OTHER_VERSION[place]
    if number % place.step:
        return '%d is no multiple of %d, %s' % (number, place.step, place.what)
    side = 'less than %d' % place.least if number < place.least else 'more than %d' % place.most
    return '%d is %s; here stands %s' % (number, side, wanted(place))


def form_text(form: Form, words: List[bytes]) -> Tuple[int, str]:
    """The first word that this form doesn't take, counted from 1, and what is wrong with it."""
    at = next((at for at, (place, word) in enumerate(zip(form.places, words)) if not may_stand(place, word)), None)
    if at is not None:
        return at + 1, '`%s` stands in place of %s' % (text_of(words[at]), wanted(form.places[at]))
    count = min(len(words), len(form.places))
    if len(words) > count:
        return count + 1, '`%s` is a word too many' % text_of(words[count])
    return count + 1, 'the word is missing; here stands %s' % wanted(form.places[count])


def keyword_of(form: Form) -> Tuple[int, str]:
    """The place of the word that tells a form from the others, from 0 on, and this word."""
    return next((at, place.name) for at, place in enumerate(form.places) if isinstance(place, Word))


def first_meant(words: List[bytes]) -> Form:
    """The form that a first line is most likely meant to have: that of its version, or else of its number of words."""
    version = words[1:2]
    return SIZED if version in ([b'2'], [b'3']) or version != [b'1'] and len(words) > len(FIRST.places) else FIRST


def meant(forms: Sequence[Form], words: List[bytes]) -> Optional[Form]:
    """The form that the line is most likely meant to have: the one that has its keyword."""
    if FIRST in forms:
        return first_meant(words)
    return next((form for form in forms for at, word in [keyword_of(form)] if words[at:at + 1] == [word.encode()]), None)


def guess(word: bytes, names: List[str]) -> str:
    """Asks whether one of these words is meant, where one is near."""
    near = difflib.get_close_matches(text_of(word).lower(), names, 1)
    return '. Is `%s` meant?' % near[0] if near else ''


def ordered(word: bytes) -> str:
    """Asks whether the page sizes of these digits are meant, where they are some."""
    sizes = '0' + ''.join(digit for digit in '123' if digit in text_of(word))
    return '. Is `%s` meant?' % sizes if re.fullmatch(rb'[0-3]+', word) else ''


def unfit(words: List[bytes]) -> Optional[Tuple[int, str]]:
    """The first word that may stand nowhere, counted from 1, and what is wrong with it."""
    at = next((at for at, word in enumerate(words) if not word or min(word) < 33), None)
    if at is None:
        return None
    return at + 1, '`%s` has a tab or another control character' % text_of(words[at]) if words[at] else 'the word is empty'


def unknown_text(forms: Sequence[Form], words: List[bytes]) -> Tuple[int, str]:
    """The word at fault of a line that has no form's keyword, and what is wrong with it."""
    names = [word for at, word in map(keyword_of, forms) if at == 1]
    if text_of(words[0]) in names:
        return 1, '`%s` stands in place of %s; a call begins with it' % (text_of(words[0]), wanted(PROCESSOR))
    if words[1:2] and words[1] in LATER:
        version = LATER[words[1]]
        return 2, '`%s` is a call from version %d on; the first line is `trace %d F P S SIZES` then' % (text_of(words[1]), version, version)
    if len(words) == 1:
        return 1, '`%s` is no call, nor `end`%s' % (text_of(words[0]), guess(words[0], ['end']))
    return 2, '`%s` is no call; here stands %s%s' % (text_of(words[1]), listed(['`%s`' % name for name in names]), guess(words[1], names))


def fault_text(refusal: Refusal) -> Tuple[int, str]:
    """The word at fault, counted from 1, and what is wrong with it."""
    words = refusal.line.split(b' ')
    form = form_of(refusal.forms, words)
    if form is not None:
        at, place = next((at, place) for at, place in enumerate(form.places) if number_fault(place, words[at]))
        return at + 1, number_text(place, words[at])
    form = meant(refusal.forms, words)
    if form is None:
        return unfit(words) or unknown_text(refusal.forms, words)
    at, what = unfit(words) or form_text(form, words)
    known = shown(form, *words[1:2]) if form != FIRST or words[1:2] == [b'1'] else '%s or %s' % (shown(FIRST), shown(SIZED))
    more = ordered(words[at - 1]) if form == SIZED and at == len(SIZED.places) == len(words) else ''
    return at, '%s. The form is %s%s' % (what, known, more)


def whole_text(refusal: Refusal) -> str:
    """What a refusal that is about no word of a line means."""
    if refusal.told == 'trace too long':
        return 'a text has at most %d bytes; %s' % (MOST_BYTES, LONGER)
    if refusal.told == 'too many calls':
        return 'a stream has at most %d calls' % MOST_STREAMED if refusal.limits == STREAM else 'a text has at most %d calls; %s' % (MOST_CALLS, LONGER)
    if refusal.told.endswith('long'):
        return 'line %d: it has more than %d bytes, and no line of a trace has so many. Is it a trace, with a line feed behind each line?' % (
            refusal.number, LONGEST_LINE)
    if refusal.told.endswith('after'):
        return 'line %d: nothing may stand behind `end` and its line feed' % refusal.number
    if refusal.line == b'end':
        return 'line %d: no line feed stands behind `end`' % refusal.number
    if refusal.number:
        return 'line %d: no line feed stands behind it, and no line `end` follows' % refusal.number
    return 'the last line must be `end`'


def explanation(refusal: Refusal) -> List[str]:
    """The lines of what is said of a refusal."""
    if refusal.forms:
        lines = ['line %d, word %d: %s' % ((refusal.number,) + fault_text(refusal))]
    else:
        lines = [whole_text(refusal)]
    if refusal.number and (refusal.line or refusal.forms or refusal.told.endswith('after')):
        slips = [slip for pattern, slip in SLIPS if re.fullmatch(pattern, refusal.line, re.DOTALL)]
        lines += ['line %d: %s' % (refusal.number, slip) for slip in slips[:1]]
    return [refusal.told] + lines


def why_no_trace(data: bytes) -> List[str]:
    """The program's cause and what explains it, where the text is no trace; else nothing."""
    refusal, _ = refusal_of(data)
    return [] if refusal is None else explanation(refusal)
