"""What lies around the edits: the objects of a session as the server has them, by cells, for the
background of a map.
"""

import array
import math
from typing import Any, Dict, Iterator, List, Set, Tuple

from yoke import opl
from yoke.table import Table

CELL = 0.005  # degrees of the side of a cell
MOST = 4000  # objects that are given for one box: of more the nodes go first, then what says least
RANKS = {'highway': 0, 'water': 1, 'building': 2, 'other': 3, 'node': 4}
MOST_CELLS = 20000  # of a box; of a larger one nothing is given
LONGEST = 50  # cells in each direction that one way is noted in

Box = Tuple[float, float, float, float]  # west, south, east, north, in degrees
Shape = Tuple[str, str, Any]  # the kind, the name, and longitudes and latitudes in turn


class Around:
    """The ways and the nodes with tags of a session by cells."""

    def __init__(self, table: Table):
        self.shapes: List[Shape] = []
        self._cells: Dict[Tuple[int, int], List[int]] = {}
        places: Dict[str, Tuple[float, float]] = {}
        for key, known in table.things.items():
            thing = known.there
            if thing is None:
                continue
            if key[0] == 'n' and thing.lon is not None and thing.lat is not None:
                places[key] = (float(thing.lon), float(thing.lat))
                if thing.tags:
                    self._add(thing, [places[key]])
            elif key[0] == 'w':
                line = [places[node] for node in thing.nodes if node in places]
                if len(line) > 1:
                    self._add(thing, line)

    def _add(self, thing: opl.Object, line: List[Tuple[float, float]]) -> None:
        number = len(self.shapes)
        flat = array.array('d', [part for place in line for part in place])
        self.shapes.append((kind_of(thing), thing.tags.get('name', '')[:60], flat))
        columns = _cells(min(place[0] for place in line), max(place[0] for place in line))
        rows = _cells(min(place[1] for place in line), max(place[1] for place in line))
        for column in columns[:LONGEST]:
            for row in rows[:LONGEST]:
                self._cells.setdefault((column, row), []).append(number)

    def within(self, box: Box) -> Dict[str, Any]:
        """The objects that touch a box, as [kind, name, lon, lat, ..], and whether there are more
        than were given.
        """
        west, south, east, north = box
        if not all(map(math.isfinite, box)):
            raise ValueError('a box has four numbers')
        if (east - west) / CELL * ((north - south) / CELL) > MOST_CELLS:
            return {'shapes': [], 'cut': True}
        found: Set[int] = set()
        for column in _cells(west, east):
            for row in _cells(south, north):
                found.update(self._cells.get((column, row), ()))
        some = sorted(found, key=lambda number: (RANKS[self.shapes[number][0]], number))[:MOST]
        return {'shapes': list(self._given(some)), 'cut': len(found) > len(some)}

    def _given(self, numbers: List[int]) -> Iterator[List[Any]]:
        for number in numbers:
            kind, name, flat = self.shapes[number]
            yield [kind, name, *(round(part, 7) for part in flat)]


def _cells(least: float, most: float) -> range:
    return range(int(least // CELL), int(most // CELL) + 1)


def kind_of(thing: opl.Object) -> str:
    """How an object is drawn in the background: `node`, `building`, `highway`, `water` or `other`."""
    if thing.key[0] == 'n':
        return 'node'
    tags = thing.tags
    if 'building' in tags:
        return 'building'
    if 'highway' in tags or 'railway' in tags:
        return 'highway'
    return 'water' if 'waterway' in tags or tags.get('natural') == 'water' else 'other'
