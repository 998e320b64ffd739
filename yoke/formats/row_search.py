"""Finds the objects that the rows of a table mean, by their tags and by how near they lie.

A row means an object if each condition holds: a tag of the object is what the row has. A condition
is `KEY=VALUE`, where VALUE is put together of texts and columns as in a rule
(`formats/mapping.py`), or `KEY=*` for any value.
"""
import math
import unicodedata
from collections import Counter
from dataclasses import dataclass, field
from decimal import Decimal, InvalidOperation
from typing import Dict, Iterable, List, Mapping as MappingOf, Optional, Sequence, Tuple

from yoke import opl
from yoke.formats import features
from yoke.formats.drawing import METRES
from yoke.formats.mapping import Rule, rule_of
from yoke.table import Table
from yoke.trouble import Usage

ANY = '*'
Point = Tuple[float, float]  # longitude and latitude in degrees


@dataclass(frozen=True)
class Search:
    """What rows and objects have to have in common: conditions, and how many metres apart they may
    lie, or None.
    """

    rules: Tuple[Rule, ...] = ()
    present: Tuple[str, ...] = ()  # keys of tags that have to be there, whatever their values
    metres: Optional[float] = None

    @property
    def keys(self) -> Tuple[str, ...]:
        """The keys of all conditions."""
        return tuple(rule.key for rule in self.rules) + self.present

    @property
    def columns(self) -> List[str]:
        """The columns that conditions name."""
        return [name for rule in self.rules for name in rule.properties]

    def query(self, among: str = '') -> str:
        """The query that finds all objects that a row may mean."""
        parts = [f'T{opl.quote(key)}=*' for key in self.keys]
        return (
            ' and '.join(parts + ([f'( {among} )'] if among else [])) or 'node or way or relation'
        )


@dataclass(frozen=True)
class Found:
    """The objects that a row means, by rank, and of a row that means none those that are only spelt
    otherwise.
    """

    keys: List[str]
    near: List[str] = field(default_factory=list)
    problem: str = ''


def search_of(conditions: Iterable[str], metres: Optional[float]) -> Search:
    """The search of the words of a command line; Usage where one is no condition."""
    rules: List[Rule] = []
    present: List[str] = []
    for text in conditions:
        key, sign, value = map(str.strip, text.partition('='))
        if not key or not sign or not value or key in [rule.key for rule in rules] + present:
            raise Usage(
                f'--where wants KEY=VALUE, such as addr:street={{Street}}, each key once, and not {text}'
            )
        try:
            if value == ANY:
                present.append(key)
            else:
                rules.append(rule_of(key, value))
        except ValueError as error:
            raise Usage(f'--where {text}: {error}') from None
    if metres is not None and not metres > 0:
        raise Usage('--within wants a number of metres, such as 50')
    return Search(tuple(rules), tuple(present), metres)


class Index:
    """Objects by the values of the tags that conditions name."""

    def __init__(self, search: Search, table: Table, keys: Iterable[str]):
        self.search, self.table = search, table
        self.exact: Dict[Tuple[str, ...], List[str]] = {}
        self.folded: Dict[Tuple[str, ...], List[str]] = {}
        for key in keys:
            thing = table.mine(key)
            if thing is None:
                continue
            values = tuple(thing.tags.get(rule.key, '') for rule in search.rules)
            self.exact.setdefault(values, []).append(key)
            self.folded.setdefault(tuple(map(fold, values)), []).append(key)

    def find(self, fields: MappingOf[str, str], place: Optional[Point]) -> Found:
        """The objects that a row means."""
        wanted = []
        for rule in self.search.rules:
            value = rule.value(fields, Counter())
            if not value:
                return Found(
                    [],
                    problem=f'{" and ".join(rule.properties) or rule.key} is empty, which --where needs',
                )
            wanted.append(value)
        if self.search.metres is not None and place is None:
            return Found([], problem='it has no longitude and latitude, which --within needs')
        keys = self._near(self.exact.get(tuple(wanted), []), place)
        return Found(
            keys, [] if keys else self._near(self.folded.get(tuple(map(fold, wanted)), []), place)
        )

    def _near(self, keys: Sequence[str], place: Optional[Point]) -> List[str]:
        if self.search.metres is None or place is None:
            return list(keys)
        return [key for key in keys if distance(self.table, key, place) <= self.search.metres]


def fold(text: str) -> str:
    """A text without what spellings differ in: case, accents, blanks, hyphens and dots; `str` for
    `straße`.
    """
    plain = unicodedata.normalize('NFKD', text.casefold().replace('ß', 'ss'))
    return ''.join(char for char in plain if char.isalnum()).replace('strasse', 'str')


def place_of_row(
    fields: MappingOf[str, str], columns: Optional[Tuple[str, str]], sign: str
) -> Optional[Point]:
    """The longitude and latitude of a row; None where it has none."""
    if columns is None:
        return None
    try:
        lon, lat = (features.number_of(fields[name], sign) for name in columns)
    except (InvalidOperation, KeyError):
        return None
    return (float(lon), float(lat)) if abs(lon) <= 180 and abs(lat) <= 90 else None


# ---- distances ----


def distance(table: Table, key: str, place: Point) -> float:
    """How many metres an object is away from a place; 0 inside of an area, infinite where it has no
    place.
    """
    lines = _lines(table, key, set())
    return min((_to_line(line, place) for line in lines), default=math.inf)


def _lines(table: Table, key: str, seen: 'set[str]') -> List[List[Point]]:
    """The points and lines of an object, of a relation those of all its members."""
    thing = table.mine(key)
    if thing is None or key in seen:
        return []
    if key[0] == 'n':
        return (
            []
            if thing.lon is None or thing.lat is None
            else [[(float(thing.lon), float(thing.lat))]]
        )
    if key[0] == 'w':
        nodes = [table.mine(node) for node in thing.nodes]
        line = [
            (float(node.lon), float(node.lat))
            for node in nodes
            if node and node.lon is not None and node.lat is not None
        ]
        return [line] if line else []
    return [line for member, _ in thing.members for line in _lines(table, member, seen | {key})]


def _to_line(line: Sequence[Point], place: Point) -> float:
    """Metres from a place to a line, or into the area of a ring."""
    scale = math.cos(math.radians(place[1]))
    flat = [((lon - place[0]) * scale * METRES, (lat - place[1]) * METRES) for lon, lat in line]
    if len(flat) > 3 and flat[0] == flat[-1] and _is_inside(flat):
        return 0.0
    return min(
        (_to_segment(one, other) for one, other in zip(flat, flat[1:])),
        default=math.hypot(*flat[0]),
    )


def _to_segment(one: Point, other: Point) -> float:
    """How far the origin is from a segment."""
    across, up = other[0] - one[0], other[1] - one[1]
    length = across * across + up * up
    part = 0.0 if length == 0 else min(1.0, max(0.0, -(one[0] * across + one[1] * up) / length))
    return math.hypot(one[0] + part * across, one[1] + part * up)


def _is_inside(ring: Sequence[Point]) -> bool:
    """Whether the origin lies in a ring."""
    inside = False
    for (x, y), (other_x, other_y) in zip(ring, ring[1:]):
        if (y > 0) != (other_y > 0) and 0 < x + (other_x - x) * -y / (other_y - y):
            inside = not inside
    return inside


def metres_between(one: Tuple[Decimal, Decimal], other: Tuple[Decimal, Decimal]) -> float:
    """Metres between two places, which are near each other."""
    return _to_line([(float(one[0]), float(one[1]))], (float(other[0]), float(other[1])))
