"""What an entry of a history means, in sentences."""
from typing import List, NamedTuple, Tuple

from pictures.frames import Broken, Taken, pages_of

PAGE_BYTES = 8192
SIZE_NAMES = ('8 KiB', '64 KiB', '512 KiB', '4 MiB')

CALLS = {
    'map': 'maps PAGES',
    'grow': 'lets the region of PAGES grow',
    'unmap': 'unmaps the region of PAGES',
    'protect': 'lets PAGES be used',
    'load': 'loads a word of PAGES',
    'store': 'stores to PAGES',
    'sync': 'wants PAGES to be equal to its copy',
    'evict': 'wants PAGES to give its frame up',
    'discard': 'gives up what PAGES hold',
    'wire': 'wants the region of PAGES to keep its frames',
    'unwire': 'lets the region of PAGES give frames up again',
}

# What a clearing is for, by its call.
CLEARED = {'unmap': 'The region of %s of space %d is unmapped: %s.', 'discard': 'What stood in %s of space %d is given up: %s.'}
# What a pinning says of frames: where it unwires a region, and where it wires one.
PINNED = (', nor are the frames of %s', ', with the frames of %s')

RIGHTS = {'none': 'without any right', 'read': 'for reading', 'write': 'for reading and writing'}

REPLIES = {
    'unmapped': 'no region has the page, or the whole range',
    'outofspace': 'the range ends past the last page of the space',
    'overlap': 'another region has a page of the range',
    'regionsfull': 'the space has 64 regions',
    'notgrowing': "the region isn't a growing one",
    'denied': "the page's rights don't allow it, or that its region is wired",
    'clean': 'the page was equal to its copy',
    'written': 'the page was written to its copy',
    'noframes': 'no frame could be had',
    'storefault': "the backing store failed",
    'busy': "another processor claims the frame of this page of the region",
    'nomemory': 'there was no memory to write a page to its copy',
}


class Answered(NamedTuple):
    """An answer: the processor, the words of its call behind the processor, and those of the reply, without a hit and a size."""
    processor: int
    call: List[str]
    reply: List[str]


def run_of(name: str, first: int, count: int) -> str:
    """A run of pages or frames: `page 3`, `pages 0 to 7`."""
    return '%s %d' % (name, first) if count == 1 else '%ss %d to %d' % (name, first, first + count - 1)


def sizes_said(sizes: List[int]) -> str:
    """The page sizes, where they aren't all."""
    return '' if len(sizes) == len(SIZE_NAMES) else 'page sizes: %s' % ', '.join(SIZE_NAMES[size] for size in sizes)


def called(words: List[str]) -> str:
    """What a call asks for."""
    name, space, numbers = words[0], words[1], words[2:]
    page = int(numbers[0]) // (PAGE_BYTES if name in ('load', 'store') else 1)
    count = int(numbers[1]) if name in ('map', 'protect', 'discard') else 1
    asks = CALLS[name].replace('PAGES', '%s of space %s' % (run_of('page', page, count), space))
    if name == 'grow':
        return '%s by %s' % (asks, pages(int(numbers[1])))
    if name == 'map':
        return '%s as a %s region %s' % (asks, numbers[2], RIGHTS[numbers[3]])
    return asks if name != 'protect' else '%s %s from now on' % (asks, RIGHTS[numbers[2]])


def pages(count: int) -> str:
    return '%d page%s' % (count, '' if count == 1 else 's')


def given_up(count: int) -> str:
    """How many pages give their frames up."""
    if count == 1:
        return '1 page gives its frame up'
    return 'no page has a frame to give up' if count == 0 else '%s give their frames up' % pages(count)


def answered(answer: Answered) -> str:
    """The call and its answer."""
    told = answer.reply[0]
    if told == 'value':
        reply = 'it is %s' % answer.reply[1]
    else:
        reply = 'done' if told == 'done' else '%s (%s)' % (' '.join(answer.reply), REPLIES[told])
    return 'Processor %d %s: %s.' % (answer.processor, called(answer.call), reply)


def taken(space: int, page: int, frame: int, how: Taken) -> List[str]:
    """How a page got its frame."""
    said, r = [], how.reservation
    if how.broken is not None:
        said.append('No free block is large enough, so the oldest reservation that gives as much back is broken: %s.'
                    % run_of('frame', how.broken.frame, pages_of(how.broken.size)))
    gets = 'Page %d of space %d gets frame %d' % (page, space, frame)
    count = pages_of(r.size)
    if not how.made:
        said.append(gets + ', its place in the reservation that has the page.')
    elif count == 1:
        said.append(gets + ' alone.')
    else:
        said.append('%s: %s are reserved for %s.' % (gets, run_of('frame', r.frame, count), run_of('page', r.first, count)))
    return said


def oldest(broken: Broken) -> str:
    """Why this reservation is broken and no other."""
    others = ['it is alone there', 'the other one got its last page no earlier'][broken.others] if broken.others < 2 else (
        'none of the %d others got its last page earlier' % broken.others)
    return 'What was broken was the first in the list of those that can give %s: its last page came at entry %d, and %s.' % (
        pages(pages_of(broken.gives)), broken.stamp, others)


def moved(space: int, promoted: List[Tuple[int, int]], demoted: List[Tuple[int, int]]) -> List[str]:
    """Promotions and demotions."""
    said = ['Promotion: %s of space %d are one translation of %s now.'
            % (run_of('page', first, pages_of(size)), space, SIZE_NAMES[size]) for first, size in promoted]
    return said + ['Demotion: %s of space %d have no common translation any more.'
                   % (run_of('page', first, pages_of(size)), space) for first, size in demoted]
