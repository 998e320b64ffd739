"""A file of features for `yoke conflate` over a random town, with the truth of each row, and what
has to come of it.
"""
import random
from typing import Dict, Iterable, List, NamedTuple, Optional

from yoke.testing.elements import Element, degrees
from yoke.testing.ledger import Failed, Known, Parts, Session, difference, parts

MARK = 'feature'  # the tag by which a row is known again once its object is on the server
RULES = 'against Tshop=*\nwithin 10\nsame shop\ntake phone\n'
COLUMNS = 'shop,name,phone,' + MARK
METRE = 90  # units of 10^-7 degree, at most as long as a metre


class Row(NamedTuple):
    """A row of the file: the key of the shop that it is, or an empty text where it is a new one;
    its place and tags.
    """

    shop: str
    lon: int
    lat: int
    tags: Dict[str, str]


def rows_of(session: Session, picks: random.Random, name: str) -> List[Row]:
    """Some of the shops of a session, each moved by at most three metres, and some new ones."""
    shops = [
        (key, known.mine)
        for key, known in session.items()
        if known.mine is not None
        and known.conflict == 'none'
        and key[0] == 'n'
        and known.mine.tags.keys() >= {'shop', 'name'}
    ]
    rows: List[Row] = []
    for key, shop in picks.sample(shops, min(len(shops), picks.randint(0, 6))):
        number = f'{name}-{len(rows)}'
        rows.append(
            Row(
                key,
                (shop.lon or 0) + picks.randint(-2, 2) * METRE,
                (shop.lat or 0) + picks.randint(-2, 2) * METRE,
                {
                    'shop': shop.tags['shop'],
                    'name': shop.tags['name'],
                    'phone': '+49 ' + number,
                    MARK: number,
                },
            )
        )
    for _ in range(picks.randint(1, 4)):
        number = f'{name}-{len(rows)}'
        rows.append(
            Row(
                '',
                130_000_000 + picks.randint(0, 79_999),
                520_000_000 + picks.randint(0, 59_999),
                {
                    'shop': 'kiosk',
                    'name': ''.join(picks.choices('bcdfghjklmpqrstvwxz', k=12)),
                    'phone': '+49 ' + number,
                    MARK: number,
                },
            )
        )
    picks.shuffle(rows)
    return rows


def table(rows: List[Row]) -> str:
    """The rows as CSV, with the byte order mark that spreadsheet programs put in front."""

    def cell(text: str) -> str:
        return '"{}"'.format(text.replace('"', '""'))

    keys = COLUMNS.split(',')
    lines = [','.join(['lon', 'lat', *keys])]
    lines += [
        ','.join([degrees(row.lon), degrees(row.lat), *(cell(row.tags[key]) for key in keys)])
        for row in rows
    ]
    return '\ufeff' + '\r\n'.join(lines) + '\r\n'


def check(rows: List[Row], before: Session, after: Session) -> int:
    """Failed where the script of a conflation did anything else than to set a phone that was
    missing, at the shop of its row, or to make a row's object; gives how many objects it changed.
    """
    by_shop = {row.shop: row for row in rows if row.shop}
    new = {row.tags[MARK]: row for row in rows if not row.shop}
    changed = 0
    for key in {**before, **after}:
        old, now = _mine(before.get(key)), _mine(after.get(key))
        made = difference(old, now)
        if not made:
            continue
        changed += 1
        row = by_shop.get(key) if old else new.pop(now.get('tag ' + MARK, ''), None)
        if row is None:
            raise Failed(f'a conflation changed {key} by {made}, which no row of its own says')
        told: Parts = (
            {'tag phone': row.tags['phone']}
            if old
            else {
                'there': True,
                'place': (row.lon, row.lat),
                **{'tag ' + key: value for key, value in row.tags.items()},
            }
        )
        if made != told or old.get('tag phone'):
            raise Failed(f'a conflation changed {key} by {made}, and its row says {told}')
    return changed


def _mine(known: Optional[Known]) -> Parts:
    return parts(known.mine) if known is not None else {}


def check_once(living: Iterable[Element]) -> None:
    """Failed where two elements that are there were made of one row."""
    seen: Dict[str, str] = {}
    for element in living:
        number = element.tags.get(MARK)
        if number is not None:
            if number in seen:
                raise Failed(
                    'the row {} is there twice, as {} and {}'.format(
                        number, seen[number], element.key
                    )
                )
            seen[number] = element.key
