"""The edits of a session as one picture, an SVG: what lies around, what was there before, and what
is there now.
"""

import html
import math
import re
from typing import Dict, Iterator, List, Optional, Tuple

from yoke.review import shown
from yoke.review.around import Around
from yoke.review.items import Edits
from yoke.review.shown import Item

WIDE, HIGH = 1200, 800  # pixels of the picture without its legend
EDGE = 30  # pixels around the edits
LEGEND = 36  # pixels of the legend below
MOST_NAMES = 60  # edits up to which each has its key beside it
LEAST = 2e-7  # of the whole map's width: the least part that a picture shows, some 8 m
MARK = b'<!-- made by yoke diff'
AROUND = {
    'building': 'fill="#e9e3da" stroke="#c9bfb2"',
    'highway': 'fill="none" stroke="#d2cbbc" stroke-width="3"',
    'water': 'fill="none" stroke="#a9cbe0"',
    'other': 'fill="none" stroke="#dcd8d0"',
}
COLORS = {
    'new': '#00805d',
    'changed': '#0072b2',
    'moved': '#0072b2',
    'deleted': '#d55e00',
    'conflict': '#a03a86',
}
WORDS = [
    ('new', 'new'),
    ('changed', 'changed'),
    ('deleted', 'deleted'),
    ('conflict', 'in conflict'),
]

Point = Tuple[float, float]
Box = Tuple[float, float, float, float]


def _plane(lon: float, lat: float) -> Point:
    """A place on a map of the world by Mercator that is 1 wide."""
    bounded = max(-85.0, min(85.0, lat))
    return (lon + 180) / 360, 0.5 - math.log(math.tan(math.pi / 4 + math.radians(bounded) / 2)) / (
        2 * math.pi
    )


class View:
    """The part of the map that a picture shows: all edits, with an edge."""

    def __init__(self, items: List[Item]):
        places = [place for item in items for place in _places(item)]
        points = [_plane(*place) for place in places] or [(0.5, 0.5)]
        columns, rows = zip(*points)
        wide, high = max(columns) - min(columns), max(rows) - min(rows)
        self.scale = min((WIDE - 2 * EDGE) / max(wide, LEAST), (HIGH - 2 * EDGE) / max(high, LEAST))
        self.middle = ((max(columns) + min(columns)) / 2, (max(rows) + min(rows)) / 2)
        lons, lats = zip(*places) if places else ((0.0,), (0.0,))
        more = 40 / self.scale * 360  # degrees beside the edits from which things are drawn
        ratio = WIDE / self.scale * 360 / 2, HIGH / self.scale * 360 / 2
        lon, lat = (max(lons) + min(lons)) / 2, (max(lats) + min(lats)) / 2
        self.box: Box = (
            lon - ratio[0] - more,
            lat - ratio[1] - more,
            lon + ratio[0] + more,
            lat + ratio[1] + more,
        )

    def at(self, lon: float, lat: float) -> str:
        """A place in the picture, as SVG has it."""
        x, y = _plane(lon, lat)
        column = (x - self.middle[0]) * self.scale + WIDE / 2
        row = (y - self.middle[1]) * self.scale + HIGH / 2
        return f'{column:.1f},{row:.1f}'

    def line(self, flat: List[float]) -> str:
        """The points of a line."""
        return ' '.join(self.at(*place) for place in zip(flat[::2], flat[1::2]))


def _places(item: Item) -> Iterator[Point]:
    for side in (item['before'], item['after'], item.get('theirs')):
        for flat in [*side['lines'], side['points']] if side else ():
            yield from zip(flat[::2], flat[1::2])


def document(found: Edits, title: str) -> str:
    """The picture of a session's edits."""
    items = shown.items_of(found)
    view = View(items)
    lines = [
        f'<svg xmlns="http://www.w3.org/2000/svg" viewBox="0 0 {WIDE} {HIGH + LEGEND}" '
        f'font-family="sans-serif" font-size="12" role="img">',
        f'{MARK.decode()} -->',
        f'<title>{_text(title)}</title>',
        f'<rect width="{WIDE}" height="{HIGH + LEGEND}" fill="#f3f1ec"/>',
        f'<clipPath id="map"><rect width="{WIDE}" height="{HIGH}"/></clipPath>',
        '<g clip-path="url(#map)">',
        *_around(found, view),
    ]
    for item in items:
        lines += _item(item, view, len(items) <= MOST_NAMES)
    return '\n'.join([*lines, '</g>', *_legend(items), '</svg>', ''])


def _around(found: Edits, view: View) -> Iterator[str]:
    for kind, _, *flat in Around(found.table).within(view.box)['shapes']:
        if kind == 'node':
            column, row = view.at(flat[0], flat[1]).split(',')
            yield f'<circle cx="{column}" cy="{row}" r="2" fill="#8f887c"/>'
        else:
            yield f'<polyline {AROUND[kind]} points="{view.line(flat)}"/>'


def _item(item: Item, view: View, is_named: bool) -> Iterator[str]:
    edit = 'conflict' if item['conflict'] else item['edit']
    yield f'<g><title>{_text(": ".join(filter(None, [item["key"], item["kind"], item["title"]])))}</title>'
    if item['before'] and item['after'] and _differs(item):
        yield from _side(item['before'], view, COLORS['deleted'], 'stroke-dasharray="7 5"', 6)
    side: Optional[Dict[str, List[List[float]]]] = (
        item['after'] or item['before'] or item.get('theirs')
    )
    dash = 'stroke-dasharray="7 5"' if edit == 'deleted' else ''
    if side:
        yield from _side(side, view, COLORS[edit], dash, 4)
        first = next(
            (place for place in _places({**item, 'before': None, 'theirs': None, 'after': side})),
            None,
        )
        if is_named and first:
            column, row = view.at(*first).split(',')
            yield f'<text x="{float(column) + 7:.1f}" y="{float(row) - 6:.1f}" fill="{COLORS[edit]}" stroke="#fff" stroke-width="3" paint-order="stroke">{_text(item["key"])}</text>'
    yield '</g>'


def _differs(item: Item) -> bool:
    return bool(item['before'] != item['after'])


def _side(side: Item, view: View, color: str, dash: str, size: float) -> Iterator[str]:
    for flat in side['lines']:
        yield f'<polyline fill="none" stroke="{color}" stroke-width="3" {dash} points="{view.line(flat)}"/>'
    points: List[float] = side['points']
    for place in zip(points[::2], points[1::2]):
        column, row = view.at(*place).split(',')
        fill = 'none' if dash else color
        yield f'<circle cx="{column}" cy="{row}" r="{size}" fill="{fill}" stroke="{color}" stroke-width="2"/>'


def _legend(items: List[Item]) -> Iterator[str]:
    edits = ['conflict' if item['conflict'] else item['edit'] for item in items]
    column = 20
    for name, word in WORDS:
        count = sum(edit == name or (edit, name) == ('moved', 'changed') for edit in edits)
        dash = ' stroke-dasharray="7 5"' if name == 'deleted' else ''
        row = HIGH + LEGEND // 2
        yield f'<line x1="{column}" x2="{column + 30}" y1="{row}" y2="{row}" stroke="{COLORS[name]}" stroke-width="4"{dash}/>'
        yield f'<text x="{column + 38}" y="{row + 4}" fill="#1f2328">{count} {word}</text>'
        column += 60 + 8 * len(f'{count} {word}')


def _text(text: str) -> str:
    """A text as XML can have it, in one line."""
    return html.escape(
        re.sub(
            '[\x00-\x1f\x7f-\x9f\u200e\u200f\u202a-\u202e\u2066-\u2069\ud800-\udfff\ufffe\uffff]',
            '?',
            text,
        )
    )
