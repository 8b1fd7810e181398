"""A page with bars: of each trace, for each policy the misses, the frames that it used, and the pages that it zeroed and copied."""
import os
import re
from html import escape
from typing import List, NamedTuple, Tuple

from policy.machine import Counts
from policy.table import Group, Row, percent

FOLDER = os.path.dirname(os.path.abspath(__file__))


class Chart(NamedTuple):
    """A column of bars: its title, and the parts of a bar, each a class of the style and the count that it shows."""
    title: str
    parts: Tuple[Tuple[str, str], ...]


CHARTS = (Chart('misses', (('misses', 'misses'),)), Chart('frames used at most', (('used', 'touched'), ('untouched', 'untouched'))),
          Chart('pages zeroed, copied and paged out', (('zeroed', 'zeroed'), ('copied', 'copied'), ('out', 'paged_out'))))


def count_of(counts: Counts, name: str) -> int:
    """A count that a bar shows."""
    return counts.used - counts.untouched if name == 'touched' else getattr(counts, name)


def bar(chart: Chart, row: Row, most: int) -> str:
    """The bar of a row, as long as its share of the most of the trace, with its numbers behind."""
    counts = [(kind, count_of(row.counts, name)) for kind, name in chart.parts]
    parts = ''.join('<i class="%s" style="width:%.2f%%" title="%s: %d"></i>' % (kind, 50 * count / most, kind, count) for kind, count in counts if count)
    told = ' + '.join(str(count) for _, count in counts if count) or '0'
    more = ' <small>%s</small>' % percent(row.saved) if chart is CHARTS[0] else ''
    return '<td>%s<span>%s%s</span></td>' % (parts, told, more)


def table(group: Group) -> str:
    """The section of a trace."""
    mosts = [max(sum(count_of(row.counts, name) for _, name in chart.parts) for row in group.rows) or 1 for chart in CHARTS]
    heads = ''.join('<th>%s</th>' % title for title in ['', *(chart.title for chart in CHARTS), 'made, broken'])
    lines = ['<tr><th>%s</th>%s<td>%d, %d</td></tr>' % (escape(row.policy), ''.join(bar(chart, row, most) for chart, most in zip(CHARTS, mosts)),
                                                        row.counts.made, row.counts.broken) for row in group.rows]
    title = '%s <small>%d frames</small>' % (escape(group.trace), group.frames)
    return '<section><h2>%s</h2><table><tr>%s</tr>\n%s\n</table></section>' % (title, heads, '\n'.join(lines))


def page_of(groups: List[Group]) -> str:
    """The text of the page."""
    with open(os.path.join(FOLDER, 'page.html'), encoding='utf-8') as source:
        return re.sub('TABLES', lambda _: '\n'.join(map(table, groups)), source.read())
