"""Boxes of degrees: read, cut in two, and written.

A box is west, south, east and north in whole units of 10^-7 degree, the finest that the map has,
so halves meet exactly.
"""
from decimal import Decimal
from typing import Any, Dict, List, Tuple

from yoke import opl
from yoke.formats import drawing
from yoke.formats.drawing import UNITS, Box

HALF = 180 * UNITS


def read(text: str) -> List[Box]:
    """The boxes that `W,S,E,N` means: one, or two if west is greater than east, because such a box
    lies across the 180th meridian. ValueError if the text is no box, or one without an area."""
    sides = text.split(',')
    if len(sides) == 4 and is_crossing(sides):
        west, south, east, north = sides
        return [*read(f'{west},{south},180,{north}'), *read(f'-180,{south},{east},{north}')]
    box = drawing.box_of(text)
    if box[0] == box[2] or box[1] == box[3]:
        raise ValueError(f'{text} has no area: WEST,SOUTH,EAST,NORTH in degrees')
    return [box]


def is_crossing(sides: List[str]) -> bool:
    """Whether west is greater than east, and both are on the map."""
    try:
        west, east = Decimal(sides[0]), Decimal(sides[2])
    except ArithmeticError:
        return False
    return west.is_finite() and east.is_finite() and -180 < east < west < 180


def area(box: Box) -> Decimal:
    """Square degrees."""
    west, south, east, north = box
    return Decimal((east - west) * (north - south)) / UNITS**2


def halves(box: Box) -> Tuple[Box, Box]:
    """The two halves of a box, cut across its longer side."""
    west, south, east, north = box
    if east - west >= north - south:
        middle = (west + east) // 2
        return (west, south, middle, north), (middle, south, east, north)
    middle = (south + north) // 2
    return (west, south, east, middle), (west, middle, east, north)


def words(box: Box) -> str:
    """A box as `W,S,E,N` in degrees."""
    return ','.join(map(drawing.degrees, box))


def geojson(boxes: List[Box]) -> Dict[str, Any]:
    """Boxes as a GeoJSON feature with one MultiPolygon."""
    rings = []
    for box in boxes:
        west, south, east, north = (float(Decimal(side) / UNITS) for side in box)
        rings.append([[[west, south], [east, south], [east, north], [west, north], [west, south]]])
    return {
        'type': 'Feature',
        'properties': {},
        'geometry': {'type': 'MultiPolygon', 'coordinates': rings},
    }


def holds(box: Box, thing: opl.Object) -> bool:
    """Whether a node lies in a box, its sides included."""
    place = drawing.place_of(thing)
    return place is not None and box[0] <= place[0] <= box[2] and box[1] <= place[1] <= box[3]
