"""Features as new objects for an `import`: each comes whole or not at all, and corners at one place
are one node.

Places are pairs of longitude and latitude in whole numbers of 10^-7 degree, the finest that the map
has; a place with more digits is rounded to the nearest.

| geometry | becomes |
|---|---|
| Point | a node |
| LineString | a way |
| MultiLineString | a way for each line, all with the tags |
| Polygon of one ring | a closed way |
| Polygon with holes, MultiPolygon | a relation `type=multipolygon` with the tags, and a way without tags for each ring, as `outer` and `inner` |

A MultiPoint, MultiPolygon or MultiLineString of one part is what the part is. Rings are closed
where they aren't, and keep their direction and their first corner. A place that stands twice side
by side is taken once.
"""
import contextlib
import math
from collections import Counter, defaultdict
from dataclasses import dataclass, field
from decimal import Decimal
from typing import Any, Callable, Dict, Iterator, List, Mapping as MappingOf, Optional, Tuple

from yoke import opl
from yoke.conflate.shapes import apart
from yoke.formats.features import Feature
from yoke.formats.mapping import Left, Mapping
from yoke.table import Table
from yoke.trouble import Refused

UNITS = 10**7  # of a place in a degree
MOST_NODES = 2000  # of a way
MOST_MEMBERS = 32000  # of a relation
WORLD = (-180 * UNITS, -90 * UNITS, 180 * UNITS, 90 * UNITS)
NEAR = 1.0  # metres within which an object with the same tags is the same
METRES = 111_319.49  # in a degree of latitude
SESSION = '='  # before the key of a new object of the session, which a drawing has too
SINGLE = {'MultiPoint': 'Point', 'MultiLineString': 'LineString', 'MultiPolygon': 'Polygon'}

Place = Tuple[int, int]
Shape = Tuple[
    str, str, Tuple
]  # the kind of a geometry, its places, and the tags: what is alike in all of them is the same
Box = Tuple[int, int, int, int]  # west, south, east, north
Frame = Tuple[int, ...]  # a box, or a box and a place in it: longitudes and latitudes by turns
Tags = Tuple[Tuple[str, str], ...]  # sorted


@dataclass
class Drawing:
    """New objects, whose keys mean something in this drawing alone.

    `within` is the box in which all places lie; `latitude_first` tells that the file has latitudes
    before longitudes. `nodes_there` are the keys of nodes that the session has, by their places;
    corners there are these nodes. `there` are the keys of objects that the session has, by their
    `Shape`: what is the same is left out; so is what `near` finds, and what `earlier` finds among
    the features of the file before it. `known` says of a feature why it was taken before, or
    nothing, and `taken_places` why nothing may be drawn at a place. `left` has what was left out:
    where it stands, and why. `notes` counts what else a reader ought to know.
    """

    mapping: Mapping = field(default_factory=Mapping)
    within: Box = WORLD
    latitude_first: bool = False
    nodes_there: MappingOf[Place, str] = field(default_factory=dict)
    there: MappingOf[Shape, str] = field(default_factory=dict)
    near: Optional['Near'] = None
    earlier: Optional['Earlier'] = None
    known: Callable[[Feature], str] = lambda feature: ''
    taken_places: MappingOf[Place, str] = field(default_factory=dict)
    read: int = 0
    left: List[Tuple[str, str]] = field(default_factory=list)
    notes: 'Counter[str]' = field(default_factory=Counter)
    tags: List[Dict[str, str]] = field(default_factory=list)  # those of each feature that was taken
    nodes: Dict[str, Tuple[Place, Dict[str, str]]] = field(default_factory=dict)
    ways: Dict[str, Tuple[List[str], Dict[str, str]]] = field(default_factory=dict)
    relations: Dict[str, Tuple[List[Tuple[str, str]], Dict[str, str]]] = field(default_factory=dict)
    made: List['Made'] = field(default_factory=list)
    _corners: Dict[Place, str] = field(default_factory=dict)
    _known: Dict[Shape, str] = field(default_factory=dict)
    _used: List[str] = field(default_factory=list)  # the corners of the feature that is being drawn

    def add(self, feature: Feature):
        """Takes a feature in whole, or leaves it out and keeps why."""
        self.read += 1
        notes = Counter()
        try:
            if feature.problem:
                raise Left(feature.problem)
            before = self.known(feature)
            if before:
                self._keep_earlier(feature)
                raise Left(before)
            tags = self.mapping.tags(feature.properties, notes)
            if not tags:
                raise Left('it has no tags')
            kind, shape = self._shape(feature)
            self._add_once(feature, kind, shape, tags)
        except Left as why:
            self.left.append((feature.where, str(why)))
        else:
            self.notes += notes
            self.tags.append(tags)

    def _keep_earlier(self, feature: Feature) -> None:
        """Keeps where a feature lies that was taken before: what is the same as it isn't made
        either.
        """
        with contextlib.suppress(Left):
            tags = self.mapping.tags(feature.properties, Counter())
            if self.earlier:
                self.earlier.add(*self._shape(feature), tags, feature.where)

    def _add_once(self, feature: Feature, kind: str, shape: Any, tags: Dict[str, str]) -> None:
        same = shape_of(kind, shape, tags)
        if same in self._known:
            raise Left(f'it is the same as {self._known[same]}')
        parts = (
            [shape_of('LineString', line, tags) for line in shape]
            if kind == 'MultiLineString'
            else [same]
        )
        if all(part in self.there for part in parts):
            raise Left(
                'the session has it already, as {}'.format(
                    ','.join(self.there[part] for part in parts)
                )
            )
        found = self.near.find(kind, shape, tags) if self.near else None
        if found:
            raise Left('the session has it already, {:.1f} m away, as {}'.format(*found))
        if self.earlier:
            double = self.earlier.find(kind, shape, tags)
            if double:
                raise Left('it is the same as {1}, {0:.2f} m away'.format(*double))
            self.earlier.add(kind, shape, tags, feature.where)
        for place in places_in(shape):
            if place in self.taken_places:
                raise Left(self.taken_places[place])
        self._used = []
        keys = {
            'Point': self._point,
            'LineString': self._line,
            'MultiLineString': self._lines,
            'Polygon': self._area,
        }[kind](shape, tags)
        self._known[same] = feature.where
        self.made.append(Made(feature, tuple(keys.split(',')), tuple(dict.fromkeys(self._used))))

    # ---- shapes: all places of a feature are looked at before anything is made ----

    def _shape(self, feature: Feature):
        """The kind of a feature's geometry, and its places: one, a list, or lists of lists."""
        kind, found = feature.kind, feature.coordinates
        if kind in SINGLE and isinstance(found, list) and len(found) == 1:
            kind, found = SINGLE[kind], found[0]
        if kind == 'Point':
            return kind, self._place(found)
        if kind == 'LineString':
            return kind, self._path(found)
        if kind == 'MultiLineString':
            return kind, [self._path(line) for line in _list(found)]
        if kind == 'Polygon':
            return kind, [self._rings(found)]
        if kind == 'MultiPolygon':
            return 'Polygon', [self._rings(polygon) for polygon in _list(found)]
        raise Left(
            'it has several points, and an object of the map is at one'
            if kind == 'MultiPoint'
            else f'the geometry {kind[:40]} is none that is taken'
        )

    def _place(self, position) -> Place:
        numbers = position[:2] if isinstance(position, list) else []
        if len(numbers) < 2 or any(
            isinstance(one, bool)
            or not isinstance(one, (int, Decimal))
            or not Decimal(one).is_finite()
            for one in numbers
        ):
            raise Left(f'a place is none: {str(position)[:40]}')
        if any(abs(one) > 1000 for one in numbers):
            raise Left('it lies off the map, at {} and {}: are these degrees?'.format(*numbers))
        lon, lat = (
            int((Decimal(one) * UNITS).to_integral_value())
            for one in (numbers[::-1] if self.latitude_first else numbers)
        )
        if not _is_in(lon, lat, self.within):
            raise Left(self._outside(lon, lat))
        return lon, lat

    def _outside(self, lon: int, lat: int) -> str:
        text = 'it lies {}, at longitude {} and latitude {}'.format(
            'outside the bounds' if _is_in(lon, lat, WORLD) else 'off the map',
            degrees(lon),
            degrees(lat),
        )
        return text + (
            ': exchanged they would lie in them'
            if self.within != WORLD and _is_in(lat, lon, self.within)
            else ''
        )

    def _path(self, positions) -> List[Place]:
        places = [self._place(position) for position in _list(positions)]
        path = [place for at, place in enumerate(places) if at == 0 or places[at - 1] != place]
        if len(path) < 2:
            raise Left('a line of fewer than two places')
        return _fitting(path)

    def _rings(self, rings) -> List[List[Place]]:
        return [self._ring(ring) for ring in _list(rings)]

    def _ring(self, positions) -> List[Place]:
        path = self._path(positions)
        path = path if path[0] == path[-1] else path + path[:1]
        if len(set(path)) < 3:
            raise Left('a ring of fewer than three places')
        return _fitting(path)

    # ---- objects ----

    def _key(self, letter: str) -> str:
        return f'{letter}-{len(self.nodes) + len(self.ways) + len(self.relations) + 1}'

    def _point(self, place: Place, tags: Dict[str, str]) -> str:
        """A node; where an untagged corner lies, that corner."""
        key = self._corners.get(place)
        if key in self.nodes and not self.nodes[key][1]:
            self.nodes[key] = place, tags
            self.notes['points that lie at a corner of another feature, and are that corner'] += 1
            return key
        if key or place in self.nodes_there:
            self.notes['points that lie where another node lies, and stay apart'] += 1
        key = self._key('n')
        self.nodes[key] = place, tags
        self._corners.setdefault(place, key)
        return key

    def _corner(self, place: Place) -> str:
        key = self._corners.get(place) or of_session(self.nodes_there.get(place))
        if key is None:
            key = self._key('n')
            self.nodes[key] = place, {}
        elif place not in self._corners:
            self.notes['corners that are nodes of the session'] += 1
        else:
            self.notes['corners that are shared'] += 1
        self._corners[place] = key
        self._used.append(key)
        return key

    def _line(self, path: List[Place], tags: Dict[str, str]) -> str:
        nodes = [self._corner(place) for place in path[:-1]]
        nodes.append(nodes[0] if path[-1] == path[0] else self._corner(path[-1]))
        key = self._key('w')
        self.ways[key] = nodes, tags
        return key

    def _lines(self, paths: List[List[Place]], tags: Dict[str, str]) -> str:
        return ','.join(self._line(path, tags) for path in paths)

    def _area(self, polygons: List[List[List[Place]]], tags: Dict[str, str]) -> str:
        if len(polygons) == 1 and len(polygons[0]) == 1:
            return self._line(polygons[0][0], tags)
        if 'type' in tags:
            raise Left('the tag type={} is in the way of type=multipolygon'.format(tags['type']))
        if sum(map(len, polygons)) > MOST_MEMBERS:
            raise Left(
                'it has {} rings, and a relation takes {} members'.format(
                    sum(map(len, polygons)), MOST_MEMBERS
                )
            )
        members = [
            (self._line(ring, {}), 'inner' if at else 'outer')
            for rings in polygons
            for at, ring in enumerate(rings)
        ]
        key = self._key('r')
        self.relations[key] = members, {'type': 'multipolygon', **tags}
        return key

    # ---- what comes of it ----

    @property
    def taken(self) -> int:
        """How many features were taken."""
        return self.read - len(self.left)

    def lines(self) -> Iterator[str]:
        """The lines of a file for `import`: nodes, ways, relations, each with the keys of this
        drawing.

        Refused where a corner is a new object of the session, which such a file can't name: `steps`
        can.
        """
        if self.refers_to_new():
            raise Refused(
                'corners are nodes of the session that no server has yet, and a file can\'t name these: send them first'
            )
        for key, (place, tags) in self.nodes.items():
            yield '{} T{} x{} y{}'.format(key, opl.tags(tags), *map(degrees, place))
        for key, (nodes, tags) in self.ways.items():
            yield '{} T{} N{}'.format(key, opl.tags(tags), ','.join(nodes))
        for key, (members, tags) in self.relations.items():
            yield f'{key} T{opl.tags(tags)} M{opl.members(members)}'

    def refers_to_new(self) -> bool:
        """Whether a corner is a new object of the session."""
        return any(node.startswith(SESSION) for nodes, _ in self.ways.values() for node in nodes)

    def keys(self, next_new: int) -> Dict[str, str]:
        """The keys that the objects get in a session, by those that they have here; `next_new` is
        the session's next number.
        """
        found = [*self.nodes, *self.ways, *self.relations]
        return {key: f'{key[0]}-{number}' for number, key in enumerate(found, next_new)}

    def steps(self, next_new: int) -> Iterator[str]:
        """The lines of a script that makes the objects in a session, in one group."""
        keys = self.keys(next_new)
        yield 'begin'
        for place, tags in self.nodes.values():
            yield 'node x{} y{} T{}'.format(*map(degrees, place), opl.tags(tags))
        for nodes, tags in self.ways.values():
            yield 'way T{} N{}'.format(
                opl.tags(tags), ','.join(named(node, keys) for node in nodes)
            )
        for members, tags in self.relations.values():
            yield 'relation T{} M{}'.format(
                opl.tags(tags), opl.members([(named(key, keys), role) for key, role in members])
            )
        yield 'end'

    def report(self) -> Iterator[str]:
        """What was taken and made, what else there is to know, and of each feature that was left
        out why.
        """
        yield 'features: {} read, {} taken, {} left out'.format(
            self.read, self.taken, len(self.left)
        )
        yield 'objects: {} nodes, {} ways, {} relations'.format(
            len(self.nodes), len(self.ways), len(self.relations)
        )
        for note, count in self.notes.items():
            yield f'note: {note}: {count}'
        for where, why in self.left:
            yield f'left out: {where}: {why}'


@dataclass(frozen=True)
class Made:
    """What a feature became: the keys of its objects with tags, and those of its corners, as they
    are in the drawing.
    """

    feature: Feature
    keys: Tuple[str, ...]
    corners: Tuple[str, ...]


def of_session(key: Optional[str]) -> Optional[str]:
    """The key of a node of the session, marked where it is new there, since a drawing has keys like
    it.
    """
    return SESSION + key if key and key[1] == '-' else key


def named(key: str, keys: MappingOf[str, str]) -> str:
    """The key that an object of a drawing has in the session."""
    return key[len(SESSION) :] if key.startswith(SESSION) else keys.get(key, key)


def places_in(shape: Any) -> Iterator[Place]:
    """The places of a shape: one, a list, or lists of lists."""
    if isinstance(shape, tuple):
        yield shape
    else:
        for part in shape:
            yield from places_in(part)


class Near:
    """Objects with tags by where they lie: nodes, and areas of one ring by the middle of their box."""

    def __init__(self, found: Table):
        self.cells: Dict[Place, List[Tuple[Box, str, Dict[str, str]]]] = defaultdict(list)
        for key, known in found.things.items():
            thing = known.mine
            if thing is None or not thing.tags or key[0] == 'r':
                continue
            if key[0] == 'w':
                nodes = (
                    [found.mine(node) for node in thing.nodes]
                    if thing.nodes[:1] == thing.nodes[-1:]
                    else []
                )
                places = [place_of(node) for node in nodes if node]
            else:
                places = [place_of(thing)]
            whole = [place for place in places if place]
            if whole and len(whole) == len(places):
                box = box_round(whole)
                self.cells[_cell(box)].append((box, key, thing.tags))

    def find(self, kind: str, shape: Any, tags: MappingOf[str, str]) -> Optional[Tuple[float, str]]:
        """An object that has these tags and others, at a point or an area but a metre away, and how
        many metres that is.
        """
        if kind not in ('Point', 'Polygon'):
            return None
        box = box_round(list(places_in(shape)))
        for cell in _cells(box):
            for other, key, theirs in self.cells.get(cell, ()):
                away = _away(box, other)
                if (
                    away <= NEAR
                    and (key[0] == 'n') == (kind == 'Point')
                    and all(theirs.get(name) == value for name, value in tags.items())
                ):
                    return away, key
        return None


class Earlier:
    """Features of a file by where they lie, with their tags: what has the same tags a metre away is
    the same.

    Two areas in one box may lie side by side in it, as two triangles, so the middle of their
    corners has to agree too. Of lines each place of one has to lie by the other.
    """

    def __init__(self) -> None:
        self.cells: Dict[Tuple[str, Tags, Place], List[Tuple[Frame, str]]] = defaultdict(list)
        self.lines: Dict[Tuple[Tags, Place], List[Tuple[Box, List[Place], str]]] = defaultdict(list)

    def add(self, kind: str, shape: Any, tags: MappingOf[str, str], where: str) -> None:
        """Adds a feature; `where` says where it stands in the file."""
        same = tuple(sorted(tags.items()))
        for line in _lines_of(kind, shape):
            box = box_round(line)
            self.lines[same, _cell(box)].append((box, line, where))
        if kind in ('Point', 'Polygon'):
            frame = _frame(shape)
            self.cells[kind, same, _cell(frame)].append((frame, where))

    def find(self, kind: str, shape: Any, tags: MappingOf[str, str]) -> Optional[Tuple[float, str]]:
        """How many metres away a feature with these tags is, a metre at most, and where it stands;
        of several lines the farthest, if each of them has one.
        """
        same = tuple(sorted(tags.items()))
        if kind not in ('Point', 'Polygon'):
            doubles = [self._line(line, same) for line in _lines_of(kind, shape)]
            return max((one for one in doubles if one), default=None) if all(doubles) else None
        frame = _frame(shape)
        found = (
            (_away(frame, other), where)
            for cell in _cells(frame)
            for other, where in self.cells.get((kind, same, cell), ())
        )
        return min((one for one in found if one[0] <= NEAR), default=None)

    def _line(self, line: List[Place], same: Tags) -> Optional[Tuple[float, str]]:
        """How many metres away a line with these tags is, a metre at most, and where it stands."""
        box, path = box_round(line), _in_degrees(line)
        near = (
            one
            for cell in _cells(box)
            for one in self.lines.get((same, cell), ())
            if _away(box, one[0]) <= NEAR
        )
        found = ((apart(path, _in_degrees(other)), where) for _, other, where in near)
        return min((one for one in found if one[0] <= NEAR), default=None)


def _lines_of(kind: str, shape: Any) -> List[List[Place]]:
    """The lines of a geometry; none where it is a point or an area."""
    return {'LineString': [shape], 'MultiLineString': shape}.get(kind, [])


def _in_degrees(line: List[Place]) -> List[Tuple[float, float]]:
    return [(lon / UNITS, lat / UNITS) for lon, lat in line]


def _frame(shape: Any) -> Frame:
    """The sides of the box round a shape, and the middle of its corners."""
    corners = list(set(places_in(shape)))
    lons, lats = zip(*corners)
    return (*box_round(corners), sum(lons) // len(lons), sum(lats) // len(lats))


def box_round(places: List[Place]) -> Box:
    """The box round places."""
    lons, lats = zip(*places)
    return min(lons), min(lats), max(lons), max(lats)


def _cell(box: Frame) -> Place:
    """The cell in which the middle of a box lies: its sides are longer than NEAR up to 85 degrees
    of latitude.
    """
    high = int(NEAR / METRES * UNITS) + 1
    return (box[0] + box[2]) // 2 // (12 * high), (box[1] + box[3]) // 2 // high


def _cells(box: Frame) -> Iterator[Place]:
    """The cell of a box, and those about it."""
    x, y = _cell(box)
    return ((x + across, y + up) for across in (-1, 0, 1) for up in (-1, 0, 1))


def _away(box: Frame, other: Frame) -> float:
    """How far two boxes or frames are from each other, in metres: the most of what their sides are,
    longitudes and latitudes by turns.
    """
    scales = (math.cos(math.radians(box[1] / UNITS)), 1.0)
    return max(
        abs(one - two) / UNITS * METRES * scales[at % 2]
        for at, (one, two) in enumerate(zip(box, other))
    )


def shape_of(kind: str, places, tags: MappingOf[str, str]) -> Shape:
    """A geometry and its tags as something to compare. Places are one, a list, or lists of lists,
    as the kind has them.
    """
    return kind, repr(places), tuple(sorted(tags.items()))


def shapes_of(found: Table) -> Dict[Shape, str]:
    """The keys of a session's objects by their shapes, where they are such as an import makes, and
    have tags.
    """
    paths, shapes = {}, {}
    for key, known in found.things.items():
        thing = known.mine
        if thing is None:
            continue
        if key[0] == 'w':
            paths[key] = [place_of(node) if node else None for node in map(found.mine, thing.nodes)]
        for kind, places in _forms(thing, paths) if thing.tags else ():
            shapes.setdefault(shape_of(kind, places, _without_type(thing)), key)
    return shapes


def _forms(thing: opl.Object, paths: MappingOf[str, List[Place]]) -> Iterator[Tuple[str, object]]:
    """The geometries that an import would make this object of."""
    if thing.key[0] == 'n':
        yield 'Point', place_of(thing)
    elif thing.key[0] == 'w':
        yield 'LineString', paths[thing.key]
        if thing.nodes[:1] == thing.nodes[-1:]:
            yield 'Polygon', [[paths[thing.key]]]
    elif thing.tags.get('type') == 'multipolygon' and all(key in paths for key, _ in thing.members):
        polygons = []
        for key, role in thing.members:
            if role == 'outer' or not polygons:
                polygons.append([])
            polygons[-1].append(paths[key])
        yield 'Polygon', polygons


def _without_type(thing: opl.Object) -> Dict[str, str]:
    """The tags, of a multipolygon those that its feature had."""
    return (
        {
            key: value
            for key, value in thing.tags.items()
            if (key, value) != ('type', 'multipolygon')
        }
        if thing.key[0] == 'r'
        else thing.tags
    )


def box_of(text: str) -> Box:
    """A box of west, south, east and north in degrees, with commas between them, in units of 10^-7;
    ValueError where it is none.
    """
    try:
        west, south, east, north = (
            int((Decimal(side.strip()) * UNITS).to_integral_value()) for side in text.split(',')
        )
    except (ValueError, ArithmeticError):
        raise ValueError(f'{text} is no box: WEST,SOUTH,EAST,NORTH in degrees') from None
    if not (
        _is_in(west, south, WORLD)
        and _is_in(east, north, WORLD)
        and west <= east
        and south <= north
    ):
        raise ValueError(f'{text} is no box on the map: WEST,SOUTH,EAST,NORTH in degrees')
    return west, south, east, north


def degrees(units: int) -> str:
    """A coordinate of units of 10^-7 degree, as OPL has it."""
    return opl.degrees(Decimal(units) / UNITS)


def place_of(node: opl.Object) -> Optional[Place]:
    """The place of a node in units of 10^-7 degree; None where it has none."""
    return None if node.lon is None else (int(node.lon * UNITS), int(node.lat * UNITS))


def _is_in(lon: int, lat: int, box: Box) -> bool:
    return box[0] <= lon <= box[2] and box[1] <= lat <= box[3]


def _list(found) -> list:
    if not isinstance(found, list) or not found:
        raise Left('its coordinates are none')
    return found


def _fitting(path: List[Place]) -> List[Place]:
    if len(path) > MOST_NODES:
        raise Left(f'a line of {len(path)} places, and a way takes {MOST_NODES}')
    return path
