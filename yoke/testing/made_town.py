"""A made town of blocks for trials: streets, buildings with addresses, shops, trees, bus routes,
turn restrictions, and slips.

    python3 -m yoke.testing.made_town BLOCKS FILE.opl [--seed N] [--slips] [--towns NxM]

Streets cross at shared nodes. `--towns` makes a country of copies of the town, side by side. With
`--slips` there are repeated nodes, doubled nodes, rings that aren't closed, and old tags.
"""
from __future__ import annotations

import argparse
import itertools
import math
import random
from collections.abc import Iterable, Iterator
from dataclasses import dataclass, field

from yoke import opl

WEST, SOUTH = 13.0, 52.0  # degrees of the first corner
WIDE, HIGH = 0.0013, 0.0009  # degrees of a block: some 90 by 100 m
NAMES = (
    'Adler Anker Berg Bär Bach Brunnen Dom Eiche Falken Fichten Garten Hafen Hirsch Insel Jäger Kirch Krone Linden Löwen '
    'Markt Mühlen Nord Ost Park Quell Rathaus Rosen Schloss Schwan See Sonnen Stern Süd Tal Tannen Ufer Weiden West '
    'Wiesen Ziegel'
).split()
SHOPS = [
    ('shop', 'bakery'),
    ('amenity', 'pharmacy'),
    ('amenity', 'restaurant'),
    ('shop', 'hairdresser'),
    ('amenity', 'cafe'),
    ('shop', 'butcher'),
    ('amenity', 'bank'),
    ('shop', 'florist'),
    ('amenity', 'doctors'),
    ('shop', 'books'),
]
FAMILIES = 'Müller Schmidt Schneider Fischer Weber Meyer Wagner Becker Schulz Hoffmann Koch Richter Klein Wolf Schröder'.split()
STREET_NODES = 9  # of one way of a street, before the next one goes on

Tags = dict[str, str]


@dataclass
class Town:
    """The objects of a town, as they are made: ids rise from 1 in each kind."""

    dice: random.Random
    slips: bool
    nodes: list[tuple[float, float, Tags]] = field(default_factory=list)
    ways: list[tuple[list[int], Tags]] = field(default_factory=list)
    relations: list[tuple[list[tuple[str, int, str]], Tags]] = field(default_factory=list)
    streets: dict[str, list[int]] = field(default_factory=dict)

    def node(self, lon: float, lat: float, tags: Tags | None = None) -> int:
        self.nodes.append((lon, lat, tags or {}))
        return len(self.nodes)

    def way(self, refs: list[int], tags: Tags) -> int:
        self.ways.append((refs, tags))
        return len(self.ways)

    def now_and_then(self, share: float) -> bool:
        """Whether a slip happens, of which there is such a share."""
        return self.slips and self.dice.random() < share

    def __len__(self) -> int:
        return len(self.nodes) + len(self.ways) + len(self.relations)


def make(blocks: int, seed: int = 1, slips: bool = False) -> Town:
    """A town of so many blocks, in a square."""
    town = Town(random.Random(seed), slips)
    side = math.ceil(math.sqrt(blocks))
    corners = {
        (x, y): town.node(WEST + x * WIDE, SOUTH + y * HIGH)
        for y in range(side + 1)
        for x in range(side + 1)
    }
    _streets(town, side, corners)
    for y in range(side):
        for x in range(side):
            _block(town, x, y)
    _routes(town)
    return town


def _name(number: int, ending: str) -> str:
    return (
        NAMES[number % len(NAMES)]
        + (str(number // len(NAMES)) if number >= len(NAMES) else '')
        + ending
    )


def _streets(town: Town, side: int, corners: dict[tuple[int, int], int]) -> None:
    # a corner at which a street has a node of its own, at the same place: the two streets don't
    # meet there
    doubled = {
        place: town.node(*town.nodes[node - 1][:2])
        for place, node in corners.items()
        if town.now_and_then(0.05)
    }
    for at in range(side + 1):
        _street(town, _name(at, 'straße'), [corners[x, at] for x in range(side + 1)], at)
        _street(
            town,
            _name(at, 'weg'),
            [doubled.get((at, y), corners[at, y]) for y in range(side + 1)],
            at,
        )


def _street(town: Town, name: str, points: list[int], number: int) -> None:
    for at in range(0, len(points) - 1, STREET_NODES - 1):
        refs = points[at : at + STREET_NODES]
        if len(refs) < 2:
            continue
        if town.now_and_then(0.02):
            refs = refs[:2] + refs[1:]  # a node twice side by side
        tags = {'highway': 'tertiary' if number % 5 == 0 else 'residential', 'name': name}
        if town.dice.random() < 0.5:
            tags['maxspeed'] = '30'
        if town.now_and_then(0.1):
            tags['created_by'] = 'JOSM'
        town.streets.setdefault(name, []).append(town.way(refs, tags))


def _block(town: Town, x: int, y: int) -> None:
    west, south = WEST + x * WIDE, SOUTH + y * HIGH
    for house in range(6):
        _house(
            town,
            west + WIDE * (0.12 + 0.27 * (house % 3)),
            south + HIGH * (0.15 + 0.4 * (house // 3)),
            _name(y + house // 3, 'straße'),
            1 + x * 6 + house,
        )
    for shop in range(4):
        key, value = town.dice.choice(SHOPS)
        tags = {key: value, 'name': f'{value.title()} {town.dice.choice(FAMILIES)}'}
        if town.dice.random() < 0.4:
            tags['opening_hours'] = 'Mo-Fr 08:00-18:00'
        if town.now_and_then(0.1):
            tags['created_by'] = 'iD'
        town.node(
            west + WIDE * (0.1 + 0.22 * shop + town.dice.random() * 0.05),
            south + HIGH * (0.43 + town.dice.random() * 0.08),
            tags,
        )
    for _ in range(3):
        town.node(west + WIDE * town.dice.random(), south + HIGH * 0.05, {'natural': 'tree'})


def _house(town: Town, west: float, south: float, street: str, number: int) -> None:
    east, north = west + WIDE * 0.2, south + HIGH * 0.25
    refs = [
        town.node(west, south),
        town.node(east, south),
        town.node(east, north),
        town.node(west, north),
    ]
    end = town.node(west, south) if town.now_and_then(0.01) else refs[0]  # a ring that isn't closed
    if town.now_and_then(0.01):
        refs = refs[:1] + refs
    tags = {'building': 'house', 'addr:street': street, 'addr:housenumber': str(number)}
    if town.now_and_then(0.1):
        tags['created_by'] = 'Potlatch'
    town.way(refs + [end], tags)


def _routes(town: Town) -> None:
    """A bus route along some streets, and a turn restriction at some crossings."""
    for name, ways in list(town.streets.items())[::3]:
        town.relations.append(
            ([('w', way, '') for way in ways], {'type': 'route', 'route': 'bus', 'ref': name[:3]})
        )
    of_node: dict[int, list[int]] = {}
    for number, (refs, tags) in enumerate(town.ways, 1):
        for ref in refs if 'highway' in tags else ():
            of_node.setdefault(ref, []).append(number)
    crossings = [(node, ways) for node, ways in of_node.items() if len(set(ways)) > 1]
    for node, ways in crossings[::7]:
        town.relations.append(
            (
                [('w', ways[0], 'from'), ('n', node, 'via'), ('w', ways[-1], 'to')],
                {'type': 'restriction', 'restriction': 'no_left_turn'},
            )
        )


def lines(town: Town, wide: int = 1, high: int = 1) -> Iterator[str]:
    """The town as lines of OPL; with `wide` or `high` a country of so many columns and rows of it,
    of which no more than one town is held in memory. The ids of each town go on from those of the
    one before, in rows from the south.
    """
    copies = [(x, y) for y in range(high) for x in range(wide)]
    side = (
        round((max(lon for lon, _, _ in town.nodes) - WEST) / WIDE) + 1
    )  # blocks, with one between two towns
    nodes = [
        (_head(number, tags), _units(lon), _units(lat))
        for number, (lon, lat, tags) in enumerate(town.nodes, 1)
    ]
    for copy, (x, y) in enumerate(copies):
        east, north, ids = _units(x * side * WIDE), _units(y * side * HIGH), copy * len(nodes)
        for number, (head, lon, lat) in enumerate(nodes, ids + 1):
            yield f'n{number}{head} x{_degrees(lon + east)} y{_degrees(lat + north)}'
    ways = [(_head(number, tags), refs) for number, (refs, tags) in enumerate(town.ways, 1)]
    for copy in range(len(copies)):
        for number, (head, refs) in enumerate(ways, copy * len(ways) + 1):
            yield f'w{number}{head} N{",".join([f"n{copy * len(nodes) + ref}" for ref in refs])}'
    more = {'n': len(nodes), 'w': len(ways)}
    for copy in range(len(copies)):
        for number, (members, tags) in enumerate(town.relations, 1):
            listed = ','.join(
                f'{kind}{copy * more[kind] + ref}@{role}' for kind, ref, role in members
            )
            yield f'r{copy * len(town.relations) + number}{_head(number, tags)} M{listed}'


def _head(number: int, tags: Tags) -> str:
    """What stands between the id and the place, the nodes or the members."""
    return f' v{1 + number % 4} dV c1 t2024-05-06T07:10:00Z i23 umapper T{opl.tags(tags)}'


def _units(degrees: float) -> int:
    """Degrees in units of a ten-millionth."""
    return round(degrees * 10_000_000)


def _degrees(units: int) -> str:
    """Such units, none below zero, as degrees."""
    whole, part = divmod(units, 10_000_000)
    return f'{whole}.{part:07}'.rstrip('0').rstrip('.')


def has(path: str, wanted: Iterable[str]) -> bool:
    """Whether a file has these lines, and no others."""
    with open(path, encoding='utf-8', errors='replace') as file:
        return all(one == other for one, other in itertools.zip_longest(file, wanted))


def main() -> None:
    words = argparse.ArgumentParser(
        description=__doc__, formatter_class=argparse.RawDescriptionHelpFormatter
    )
    words.add_argument('blocks', type=int)
    words.add_argument('file')
    words.add_argument('--seed', type=int, default=1)
    words.add_argument('--slips', action='store_true')
    words.add_argument(
        '--towns',
        metavar='NxM',
        default='1x1',
        help='columns and rows of copies of the town (%(default)s)',
    )
    said = words.parse_args()
    wide, high = map(int, said.towns.split('x'))
    town = make(said.blocks, said.seed, said.slips)
    try:
        with open(said.file, 'x', encoding='utf-8') as file:
            file.writelines(line + '\n' for line in lines(town, wide, high))
    except FileExistsError:
        if not has(said.file, (line + '\n' for line in lines(town, wide, high))):
            words.error(f'{said.file} is there, and is another file: name another one')
    print(len(town) * wide * high, 'objects')


if __name__ == '__main__':
    main()
