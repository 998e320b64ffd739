"""Points, lines and outlines: how far they are from each other, and how much of them agrees.

Places are in metres about a place, so that the 180th meridian is no border. Outlines are compared
by shapely where it is installed, else by a raster of points, which is exact to some percent.
"""
import math
from collections import defaultdict
from dataclasses import dataclass
from typing import Any, Dict, List, Sequence, Tuple

LAT_METRES, LON_METRES = 110_574.0, 111_320.0  # of a degree; of longitude at the equator
MOST_CELLS = 400  # of one shape; a larger one is compared with each feature
RASTER = 24  # points along a side of the raster
SAMPLES = 40  # places of a line that are compared

Point = Tuple[float, float]


@dataclass(frozen=True)
class Thing:
    """A feature or an object of the session: its name, tags and places in degrees."""

    name: str
    tags: Dict[str, str]
    path: Sequence[Point]
    is_area: bool = False

    @property
    def middle(self) -> Point:
        """A place for it: of a line or an outline the middle of its corners."""
        if len(self.path) == 1:
            return self.path[0]
        path = self.path[:-1] if self.path[0] == self.path[-1] else self.path
        first = path[0]
        lon = first[0] + sum(turned(x - first[0]) for x, _ in path) / len(path)
        return turned(lon), sum(y for _, y in path) / len(path)


def turned(lon: float) -> float:
    """A longitude, or a difference of two, from -180 to 180."""
    return (lon + 180) % 360 - 180


def local(path: Sequence[Point], about: Point) -> List[Point]:
    """Places in metres about a place."""
    wide = LON_METRES * max(0.01, math.cos(math.radians(about[1])))
    return [(turned(x - about[0]) * wide, (y - about[1]) * LAT_METRES) for x, y in path]


def from_origin(points: Sequence[Point], is_area: bool) -> float:
    """Metres from the origin to a shape: 0 within an outline."""
    if len(points) == 1:
        return math.hypot(*points[0])
    least = math.inf
    for (ax, ay), (bx, by) in zip(points, points[1:]):
        dx, dy = bx - ax, by - ay
        part = max(0.0, min(1.0, -(ax * dx + ay * dy) / (dx * dx + dy * dy or 1.0)))
        least = min(least, math.hypot(ax + part * dx, ay + part * dy))
    return 0.0 if is_area and holds(points, (0.0, 0.0)) else least


def holds(ring: Sequence[Point], place: Point) -> bool:
    """Whether a place lies in a ring."""
    x, y = place
    inside = False
    for (ax, ay), (bx, by) in zip(ring, ring[1:]):
        if (ay > y) != (by > y) and ax + (y - ay) * (bx - ax) / (by - ay) > x:
            inside = not inside
    return inside


def metres(place: Point, thing: Thing) -> float:
    """How far a place is from a thing."""
    return from_origin(local(thing.path, place), thing.is_area)


def shapely() -> Any:
    """The module shapely.geometry; None if it isn't installed."""
    try:
        import shapely.geometry as found  # pylint: disable=import-outside-toplevel
    except ImportError:
        return None
    return found


def overlap(one: Thing, other: Thing, within: float, both: bool = False) -> float:
    """Which share of two outlines or lines agrees, 0 to 1. Of outlines it is their intersection by
    their union; of lines the share of the one with the larger share that lies by the other.

    Of two lines with `both` the one with the smaller share counts: a short line by a long one
    isn't that line then.
    """
    about = one.middle
    first, second = local(one.path, about), local(other.path, about)
    if one.is_area and other.is_area:
        return of_outlines(first, second)
    shares = share_near(first, second, within), share_near(second, first, within)
    return min(shares) if both else max(shares)


def apart(one: Sequence[Point], other: Sequence[Point]) -> float:
    """How many metres two lines are apart at most, in either direction: at their ends, unless both
    are closed, and at each corner and each middle between two corners of either. Infinite where
    that is more than a quarter of one of them: such short lines may follow each other.
    """
    first, second = local(one, one[0]), local(other, one[0])
    ends = (
        0.0
        if one[0] == one[-1] and other[0] == other[-1]
        else min(
            max(math.dist(first[0], begin), math.dist(first[-1], end))
            for begin, end in ((second[0], second[-1]), (second[-1], second[0]))
        )
    )
    found = max(ends, _farthest(first, second), _farthest(second, first))
    shorter = min(sum(map(math.dist, line, line[1:])) for line in (first, second))
    return found if found <= shorter / 4 else math.inf


def _farthest(line: Sequence[Point], other: Sequence[Point]) -> float:
    """How far the corners of a line, and the middles between them, are from another line at most."""
    middles = [((ax + bx) / 2, (ay + by) / 2) for (ax, ay), (bx, by) in zip(line, line[1:])]
    return max(
        from_origin([(x - px, y - py) for x, y in other], False) for px, py in [*line, *middles]
    )


def of_outlines(first: Sequence[Point], second: Sequence[Point]) -> float:
    """The intersection of two outlines by their union."""
    library = shapely()
    if library is None:
        return by_raster(first, second)
    shapes = [library.Polygon(ring) for ring in (first, second)]
    shapes = [shape if shape.is_valid else shape.buffer(0) for shape in shapes]
    union = shapes[0].union(shapes[1]).area
    return float(shapes[0].intersection(shapes[1]).area / union) if union else 0.0


def by_raster(first: Sequence[Point], second: Sequence[Point]) -> float:
    """The same, by points of a raster."""
    xs, ys = zip(*first, *second)
    west, south, wide, high = min(xs), min(ys), max(xs) - min(xs), max(ys) - min(ys)
    both = either = 0
    for column in range(RASTER):
        for row in range(RASTER):
            place = west + wide * (column + 0.5) / RASTER, south + high * (row + 0.5) / RASTER
            found = holds(first, place), holds(second, place)
            both, either = both + all(found), either + any(found)
    return both / either if either else 0.0


def share_near(line: Sequence[Point], other: Sequence[Point], within: float) -> float:
    """The share of a line that lies within so many metres of another one."""
    places = sampled(line)
    near = sum(
        from_origin([(x - px, y - py) for x, y in other], False) <= within for px, py in places
    )
    return near / len(places)


def sampled(line: Sequence[Point]) -> List[Point]:
    """Places of a line at even distances."""
    parts = [math.dist(a, b) for a, b in zip(line, line[1:])]
    whole = sum(parts)
    if not whole:
        return [line[0]]
    found, done, at = [], 0.0, 0
    for number in range(SAMPLES):
        wanted = whole * (number + 0.5) / SAMPLES
        while at < len(parts) - 1 and done + parts[at] < wanted:
            done += parts[at]
            at += 1
        share = (wanted - done) / parts[at] if parts[at] else 0.0
        (ax, ay), (bx, by) = line[at], line[at + 1]
        found.append((ax + share * (bx - ax), ay + share * (by - ay)))
    return found


class Grid:
    """Things by cells that are at least as wide as a search; the columns go round the earth."""

    def __init__(self, things: Sequence[Thing], within: float, lat: float):
        self.high = within / LAT_METRES
        wide = within / (LON_METRES * max(0.01, math.cos(math.radians(min(89.0, lat)))))
        self.columns = max(1, math.floor(360 / wide))
        self.wide = 360 / self.columns
        self.cells: Dict[Tuple[int, int], List[Thing]] = defaultdict(list)
        self.large: List[
            Tuple[Thing, int, int, int, int]
        ] = []  # with west, east, south, north in cells
        for thing in things:
            self._put(thing)

    def _put(self, thing: Thing) -> None:
        first = thing.path[0][0]
        steps = [turned(x - first) for x, _ in thing.path]
        west, east = self._x(first + min(steps)), self._x(first + max(steps))
        rows = [self._y(y) for _, y in thing.path]
        if (east - west + 1) * (max(rows) - min(rows) + 1) > MOST_CELLS:
            self.large.append((thing, west, east, min(rows), max(rows)))
            return
        for x in range(west, east + 1):
            for y in range(min(rows), max(rows) + 1):
                self.cells[x % self.columns, y].append(thing)

    def _x(self, lon: float) -> int:
        return math.floor((lon + 180) / self.wide)

    def _y(self, lat: float) -> int:
        return math.floor(lat / self.high)

    def near(self, place: Point) -> List[Thing]:
        """What may be within the search of a place."""
        x, y = self._x(place[0]), self._y(place[1])
        found = {
            id(thing): thing
            for dx in (-1, 0, 1)
            for dy in (-1, 0, 1)
            for thing in self.cells.get(((x + dx) % self.columns, y + dy), ())
        }
        large = [
            thing
            for thing, west, east, south, north in self.large
            if south - 1 <= y <= north + 1 and (x - west + 1) % self.columns <= east - west + 2
        ]
        return [*found.values(), *large]
