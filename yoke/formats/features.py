"""GeoJSON and CSV read as features: a geometry and properties, each with the place where it stands
in its file.

What concerns the file as a whole is a ValueError; what concerns one feature alone becomes its
`problem`, so that the others can be taken.
"""
import csv
import io
import json
import re
from dataclasses import dataclass, field, replace
from decimal import Decimal, InvalidOperation
from typing import Any, Dict, Iterable, Iterator, List, Optional, Sequence, Tuple

from yoke.formats.encodings import text_of

LON = (
    'lon',
    'lng',
    'long',
    'longitude',
    'x',
    '@lon',
)  # names of columns, in the order in which they are looked for
LAT = ('lat', 'latitude', 'y', '@lat')  # those with @ are of Overpass
SIGNS = (',', ';', '\t', '|')  # between the fields of a CSV
DEGREES = ('CRS84', ':4326', '::4326', 'EPSG:4326')


@dataclass(frozen=True)
class Feature:
    """A feature of a file: where it stands, its geometry as GeoJSON has it, and its properties.

    `coordinates` are numbers as they stand in the file, with all their digits. `problem` is why it
    can't be taken, else empty. `number` is its place in the file, from 1, and `id` the name that
    its author gave it, else empty.
    """

    where: str
    kind: str = ''
    coordinates: Any = None
    properties: Dict[str, Any] = field(default_factory=dict)
    problem: str = ''
    number: int = 0
    id: str = ''


def numbered(found: Iterable[Feature]) -> List[Feature]:
    """Features with their places in the file."""
    return [replace(one, number=number) for number, one in enumerate(found, 1)]


def names_of(found: Iterable[Feature]) -> List[str]:
    """The names of all properties, in the order in which they come first."""
    return list(dict.fromkeys(name for one in found for name in one.properties))


# ---- GeoJSON ----


class Twice(Dict[str, Any]):
    """A JSON object in which a name stands twice; `name` is the first such."""

    name = ''


def read_geojson(data: bytes, encoding: Optional[str] = None) -> List[Feature]:
    """The features of a FeatureCollection, of one Feature or geometry, or of lines with one of
    these each.

    ValueError if the file is none. `encoding` is one that the user named.
    """
    return numbered(_read_geojson(text_of(data, encoding)))


def _read_geojson(text: str) -> List[Feature]:
    try:
        found = _json(text)
    except ValueError as error:
        lines = [line.lstrip('\x1e') for line in text.split('\n') if line.strip('\x1e \t\r')]
        try:
            parts = [_json(line) for line in lines] if len(lines) > 1 else []
        except ValueError:
            parts = []
        if not parts:
            raise ValueError(f'it is no JSON: {error}') from None
    else:
        if not isinstance(found, dict) or not isinstance(found.get('type'), str):
            raise ValueError('it is no GeoJSON: a "type" is missing')
        parts = [found]
    return [_feature(f'feature {number}', one) for number, one in enumerate(_flat(parts), 1)]


def _flat(parts: List[Any]) -> Iterator[Any]:
    """The features of parts of a file, in their order; a FeatureCollection stands for its features,
    within another one too.
    """
    left = parts[::-1]
    while left:
        one = left.pop()
        if isinstance(one, dict):
            _check_degrees(one)
        if not isinstance(one, dict) or one.get('type') != 'FeatureCollection':
            yield one
        elif isinstance(one.get('features'), list):
            left += reversed(one['features'])
        else:
            raise ValueError('it is no GeoJSON: a FeatureCollection without "features"')


def _json(text: str) -> Any:
    """Numbers keep all their digits; NaN and Infinity, which JSON doesn't have, become null."""
    try:
        return json.loads(
            text, parse_float=Decimal, parse_constant=lambda name: None, object_pairs_hook=_object
        )
    except RecursionError:
        raise ValueError('it is nested too deeply') from None


def _object(pairs: List[Tuple[str, Any]]) -> Dict[str, Any]:
    found = dict(pairs)
    if len(found) == len(pairs):
        return found
    twice = Twice(found)
    names = [name for name, _ in pairs]
    twice.name = next(name for name in names if names.count(name) > 1)
    return twice


def _check_degrees(found: Dict[str, Any]) -> None:
    """ValueError where the file says that its coordinates are others than degrees."""
    system = found.get('crs')
    properties = system.get('properties') if isinstance(system, dict) else None
    name = str(properties.get('name', '')) if isinstance(properties, dict) else ''
    if name and not name.endswith(DEGREES):
        raise ValueError(
            'its coordinates are those of {}, and degrees are wanted (ogr2ogr -t_srs EPSG:4326 makes them)'.format(
                name
            )
        )


def _feature(where: str, found: Any) -> Feature:
    """A feature, or a bare geometry, as a Feature."""
    if not isinstance(found, dict):
        return Feature(where, problem='it is no feature')
    if found.get('type') != 'Feature':
        found = {'geometry': found, 'properties': {}}
    properties, geometry = found.get('properties') or {}, found.get('geometry')
    if not isinstance(properties, dict):
        return Feature(where, problem='its properties are no names with values')
    if isinstance(properties, Twice):
        return Feature(where, problem=f'the property {properties.name} stands twice')
    if geometry is None:
        return Feature(where, problem='it has no geometry', properties=properties)
    if not isinstance(geometry, dict) or not isinstance(geometry.get('type'), str):
        return Feature(where, problem='its geometry is none')
    name = found.get('id')
    known = (
        name
        if isinstance(name, str)
        else str(name)
        if isinstance(name, int) and not isinstance(name, bool)
        else ''
    )
    kind, coordinates, problem = _geometry(geometry)
    return Feature(where, kind, coordinates, properties, problem, id=known)


def _geometry(found: Dict[str, Any]) -> Tuple[str, Any, str]:
    """The kind of a geometry, its places, and why it can't be taken, else nothing. A collection of
    one geometry is that geometry.
    """
    while found['type'] == 'GeometryCollection':
        parts = found.get('geometries')
        if not isinstance(parts, list) or not parts:
            return found['type'], None, ''
        if len(parts) > 1:
            return (
                found['type'],
                None,
                f'its geometry is a collection of {len(parts)}: make a feature of each of them',
            )
        found = parts[0]
        if not isinstance(found, dict) or not isinstance(found.get('type'), str):
            return 'GeometryCollection', None, 'its geometry is none'
    return found['type'], found.get('coordinates'), ''


# ---- CSV ----


def read_csv(
    data: bytes,
    lon: Optional[str] = None,
    lat: Optional[str] = None,
    encoding: Optional[str] = None,
) -> List[Feature]:
    """The rows of a CSV as points; its first line has the names of the columns.

    `lon` and `lat` name the columns of degrees; without them the usual names are looked for. A
    comma as the point of a number is taken where it isn't the sign between fields. ValueError if
    the file is none.
    """
    return points(*read_rows(data, encoding), lon, lat)


def points(
    names: List[str],
    rows: Sequence[Tuple[int, List[str]]],
    sign: str,
    lon: Optional[str] = None,
    lat: Optional[str] = None,
) -> List[Feature]:
    """The rows of a table as points; ValueError where it has no columns of degrees."""
    x, y = place_columns(names, lon, lat)
    return numbered(_row(f'line {line}', names, row, x, y, sign) for line, row in rows)


def read_rows(
    data: bytes, encoding: Optional[str] = None
) -> Tuple[List[str], List[Tuple[int, List[str]]], str]:
    """The names of the columns of a CSV, its rows, each with the number of its line, and the sign
    between fields.

    That sign is the one of `,`, `;`, tab and `|` which the first line has most of outside of
    quotes, or the one that a line `sep=;` before it names. ValueError where the file is none.
    """
    text = text_of(data, encoding)
    named = re.match('[\r\n]*sep=(.)(?:\r\n|\r|\n)', text)
    sign = named[1] if named else max(SIGNS, key=_first_line(text).count)
    rows = csv.reader(io.StringIO(text, newline=''), delimiter=sign, strict=True)
    try:
        numbered_rows = [(rows.line_num, row) for row in rows if any(row)]
    except csv.Error as error:
        raise ValueError(f'line {rows.line_num}: {error}') from None
    if named:
        del numbered_rows[0]
    if not numbered_rows:
        raise ValueError('it is empty')
    names = [name.strip() for name in numbered_rows[0][1]]
    twice = next((name for name in names if name and names.count(name) > 1), None)
    if twice:
        raise ValueError(f'the column {twice} stands twice')
    return names, numbered_rows[1:], sign


def _first_line(text: str) -> str:
    """The first line that isn't empty, without what stands in quotes."""
    found = re.match('[\r\n]*((?:"(?:[^"]|"")*"|[^"\r\n])*)', text)
    return re.sub('"(?:[^"]|"")*"', '', found[1] if found else '')


def place_columns(
    names: Sequence[str], lon: Optional[str] = None, lat: Optional[str] = None
) -> Tuple[int, int]:
    """Which columns have the longitude and the latitude; ValueError if there are none."""
    return _column(names, lon, LON, 'longitude', '--lon'), _column(
        names, lat, LAT, 'latitude', '--lat'
    )


def _column(
    names: Sequence[str], given: Optional[str], usual: Sequence[str], what: str, option: str
) -> int:
    low = [name.lower() for name in names]
    found = [given] if given else [name for name in usual if name in low]
    if given and given not in names or not found:
        raise ValueError(
            'there is no column {}: it has {}'.format(
                given or f'of the {what}, which {option} names', ', '.join(names)
            )
        )
    return names.index(given) if given else low.index(found[0])


def _row(where: str, names: List[str], row: List[str], x: int, y: int, sign: str) -> Feature:
    if len(row) != len(names):
        return Feature(
            where,
            problem=f'it has {len(row)} fields, and the first line has {len(names)}',
        )
    properties = {
        name: value for at, (name, value) in enumerate(zip(names, row)) if at not in (x, y) and name
    }
    try:
        return Feature(where, 'Point', [number_of(row[at], sign) for at in (x, y)], properties)
    except InvalidOperation:
        return Feature(
            where,
            problem='{} {} is no place'.format(
                names[x] + ' ' + (row[x] or '(nothing)'), names[y] + ' ' + (row[y] or '(nothing)')
            ),
            properties=properties,
        )


def number_of(text: str, sign: str) -> Decimal:
    """The number of a field, of a CSV with this sign between fields; InvalidOperation if it is
    none.
    """
    text = text.strip()
    return Decimal(text if sign == ',' else text.replace(',', '.'))
