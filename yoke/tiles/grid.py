"""Tiles of the map, and which of them owns an object.

Each object has one owner, which alone edits it. A node belongs to the tile in which it lies; a way
to the tile of its first node. West and south sides belong to a tile, and the tiles at the border of
the grid reach to the end of the map. Relations belong to no tile: a session of their own edits
them.
"""
from __future__ import annotations

import re
from collections.abc import Callable, Iterable, Mapping
from dataclasses import dataclass
from decimal import Decimal

from yoke import opl
from yoke.trouble import Usage

MOST_TILES = 10_000
WORLD = (Decimal(-180), Decimal(-90), Decimal(180), Decimal(90))
SEVENTH = Decimal('0.0000001')


@dataclass(frozen=True)
class Box:
    """A box in degrees, of which the west and the south side belong to it; `last_column` and
    `last_row` have the others too.
    """

    west: Decimal
    south: Decimal
    east: Decimal
    north: Decimal
    last_column: bool = False
    last_row: bool = False

    def has(self, lon: Decimal | None, lat: Decimal | None) -> bool:
        """Whether a place lies in the box."""
        if lon is None or lat is None:
            return False
        return (
            self.west <= lon
            and (lon < self.east or self.last_column)
            and self.south <= lat
            and (lat < self.north or self.last_row)
        )

    def text(self) -> str:
        """West, south, east and north with commas between them."""
        return ','.join(map(str, (self.west, self.south, self.east, self.north)))


@dataclass(frozen=True)
class Grid:
    """Tiles in rows from the south, each row from the west, numbered from 0."""

    columns: tuple[Decimal, ...]  # west sides, rising
    rows: tuple[Decimal, ...]  # south sides, rising

    @classmethod
    def over(cls, box: tuple[Decimal, Decimal, Decimal, Decimal], wide: int, high: int) -> Grid:
        """A grid of so many columns and rows over a box."""
        west, south, east, north = box
        return cls(_sides(west, east, wide, WORLD[0]), _sides(south, north, high, WORLD[1]))

    def __len__(self) -> int:
        return len(self.columns) * len(self.rows)

    def box(self, number: int) -> Box:
        """The box of a tile."""
        row, column = divmod(number, len(self.columns))
        is_east, is_north = column + 1 == len(self.columns), row + 1 == len(self.rows)
        return Box(
            self.columns[column],
            self.rows[row],
            WORLD[2] if is_east else self.columns[column + 1],
            WORLD[3] if is_north else self.rows[row + 1],
            is_east,
            is_north,
        )

    def tile(self, lon: Decimal, lat: Decimal) -> int:
        """The number of the tile in which a place lies."""
        column = max(at for at, side in enumerate(self.columns) if side <= lon)
        row = max(at for at, side in enumerate(self.rows) if side <= lat)
        return row * len(self.columns) + column

    def owner(self, thing: opl.Object, there: Mapping[str, opl.Object]) -> int | None:
        """The tile that owns an object; None of a relation, and where no place is known. `there`
        has the nodes of ways.
        """
        place = place_of(thing, there.get)
        return None if place is None else self.tile(*place)


def _sides(first: Decimal, last: Decimal, count: int, end: Decimal) -> tuple[Decimal, ...]:
    step = (last - first) / count
    return (end,) + tuple((first + step * at).quantize(SEVENTH) for at in range(1, count))


def place_of(
    thing: opl.Object, node_of: Callable[[str], opl.Object | None]
) -> tuple[Decimal, Decimal] | None:
    """The place of a node, or of the first node of a way; None where there is none."""
    node = thing if thing.key[0] == 'n' else node_of(thing.nodes[0]) if thing.nodes else None
    if node is None or node.lon is None or node.lat is None:
        return None
    return node.lon, node.lat


def read(text: str) -> tuple[int, int]:
    """The columns and rows that `4x3` names; Usage where it is none."""
    found = re.fullmatch('([1-9][0-9]{0,3})x([1-9][0-9]{0,3})', text)
    if not found or int(found[1]) * int(found[2]) > MOST_TILES:
        raise Usage(
            f'--grid wants columns and rows such as 4x3, {MOST_TILES:,} tiles at most, and not {text}'
        )
    return int(found[1]), int(found[2])


def reading_box(texts: Iterable[str]) -> tuple[Decimal, Decimal, Decimal, Decimal]:
    """The smallest box round boxes that osmium prints as `(west,south,east,north)`; ValueError
    where there is none.
    """
    boxes = [
        tuple(map(Decimal, text.strip().strip('()').split(','))) for text in texts if text.strip()
    ]
    boxes = [
        box
        for box in boxes
        if len(box) == 4 and box[0] <= box[2] and box[1] <= box[3] and abs(box[0]) <= 180
    ]
    if not boxes:
        raise ValueError('no box')
    return (
        min(box[0] for box in boxes),
        min(box[1] for box in boxes),
        max(box[2] for box in boxes),
        max(box[3] for box in boxes),
    )
