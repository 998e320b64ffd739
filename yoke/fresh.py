"""Whether data is fresh enough: what stands at the server where new objects are to go, and of when
an extract is.

A new object has no version, so no server can tell that somebody drew the same thing meanwhile. So
before new objects go out `send` asks the server for what is around them, by as few calls of `map`
as hold them, and names each object that may be the same thing:

| the new object and the one there | within |
|---|---|
| have the same house number, and the same street or place | 50 m |
| are of the same kind (such as shop=bakery) and have the same name | 50 m |
| are of the same kind, and their names are as alike as `conflate` wants it | 30 m |
| have the same tags, apart from those about the edit | 3 m |
| are outlines of the same kind, and the middle of one lies in the other | |
| are lines of the same kind, with the same ends | 3 m |

Names, streets and places are the same where `conflate` reads them as the same: in any case, with or
without accents and dots, and with `str.` for `straße`.

What this session edits or deletes is no candidate, since its user knows of it; nor is what the new
object uses.

Of an extract it is asked of which moment it is: what its header says, else the time of its newest
object. `start` tells what is suspicious: see `suspicions`.
"""
import json
import math
import os
import pathlib
import re
import shutil
import subprocess
from collections import defaultdict
from dataclasses import asdict, dataclass, field
from typing import Any, Callable, Dict, Iterable, Iterator, List, Mapping, Optional, Sequence
from typing import Set, Tuple

from yoke import opl, osc
from yoke.api import Server
from yoke.conflate.names import Names, plain
from yoke.conflate.rules import Rules
from yoke.day import Day
from yoke.extracts import boxes, header
from yoke.formats.drawing import UNITS, Box
from yoke.table import Table
from yoke.trouble import Refused, ServerRefused

MARGIN = 60  # metres around new objects that are asked for
CELL = UNITS // 50  # 0.02 degrees: new objects in one cell are asked for by one call
MOST_CALLS = 200  # of one look
NEAR = 50  # metres: of things with one address, or one name
ALIKE = Rules()  # from how alike on names are one, and within how many metres
SAME = 3  # metres: of things with the same tags
METRES = 111_320  # of a degree of latitude
SMALLEST = 1000  # units of 10^-7 degree: a box as narrow as that isn't cut further
KINDS = (
    'building',
    'highway',
    'shop',
    'amenity',
    'tourism',
    'leisure',
    'office',
    'craft',
    'healthcare',
    'emergency',
    'historic',
    'man_made',
    'natural',
    'landuse',
    'barrier',
    'railway',
    'waterway',
    'power',
    'public_transport',
    'place',
    'aeroway',
    'entrance',
    'playground',
    'advertising',
)
ABOUT_THE_EDIT = re.compile('(source|created_by|note|fixme|check_date|survey:date)(:.*)?')
TOO_MUCH = ('too many nodes', 'bbox size', 'too large')

Place = Tuple[float, float]  # longitude and latitude, in degrees


# ---- things with their places ----


@dataclass
class Thing:
    """An object with a place: of a way the places of its nodes."""

    thing: opl.Object
    path: Tuple[Place, ...]

    @property
    def middle(self) -> Place:
        """The middle of its box."""
        lons, lats = [place[0] for place in self.path], [place[1] for place in self.path]
        return (min(lons) + max(lons)) / 2, (min(lats) + max(lats)) / 2

    @property
    def is_outline(self) -> bool:
        """Whether it is a closed way."""
        return len(self.path) > 3 and self.path[0] == self.path[-1]


def metres(one: Place, other: Place) -> float:
    """How far two places are from each other; right for what is near."""
    east = (one[0] - other[0]) * math.cos(math.radians(one[1]))
    return math.hypot(east, one[1] - other[1]) * METRES


def is_inside(place: Place, outline: Sequence[Place]) -> bool:
    """Whether a place lies within an outline."""
    inside = False
    for one, other in zip(outline, outline[1:]):
        if (one[1] > place[1]) != (other[1] > place[1]):
            lon = one[0] + (place[1] - one[1]) / (other[1] - one[1]) * (other[0] - one[0])
            inside ^= place[0] < lon
    return inside


def thing_of(found: Mapping[str, Optional[opl.Object]], key: str) -> Optional[Thing]:
    """An object with its places; None where it or one of its nodes isn't there, or where it is a
    relation.
    """
    one = found.get(key)
    if one is None or key[0] == 'r':
        return None
    path: List[Place] = []
    nodes: List[Optional[opl.Object]] = [one]
    if key[0] == 'w':
        nodes = [found.get(node) for node in one.nodes]
    for node in nodes:
        if node is None or node.lon is None or node.lat is None:
            return None
        path.append((float(node.lon), float(node.lat)))
    return Thing(one, tuple(path)) if path else None


# ---- the same thing? ----


def main_kind(tags: Mapping[str, str]) -> Optional[Tuple[str, str]]:
    """The key by which one sees what an object is, and its value, such as shop=bakery."""
    return next(((key, tags[key]) for key in KINDS if key in tags), None)


def address(tags: Mapping[str, str]) -> Optional[Tuple[str, str]]:
    """The house number, and the street or place, in one spelling; None where one isn't there."""
    number = tags.get('addr:housenumber')
    where = tags.get('addr:street') or tags.get('addr:place')
    if not number or not where:
        return None
    return ' '.join(number.casefold().split()), plain(where)


def own_tags(tags: Mapping[str, str]) -> Dict[str, str]:
    """The tags that aren't about the edit."""
    return {key: value for key, value in tags.items() if not ABOUT_THE_EDIT.fullmatch(key)}


def why_same(new: Thing, there: Thing, names: Names) -> str:
    """Why two objects may be the same thing, in a few words; empty where nothing says so. `names`
    are those of all objects, by which it is known which words are rare.
    """
    mine, theirs = new.thing.tags, there.thing.tags
    far = metres(new.middle, there.middle)
    kind = main_kind(mine)
    is_same_kind = kind is not None and kind == main_kind(theirs)
    if far <= NEAR and address(mine) is not None and address(mine) == address(theirs):
        return 'the same address'
    name, other = mine.get('name'), theirs.get('name')
    if far <= NEAR and is_same_kind and name and other:
        if plain(name) == plain(other):
            return 'the same kind and name'
        if far <= ALIKE.within and names.alike(name, other) >= ALIKE.unlike:
            return 'the same kind and a like name'
    if kind is not None and new.is_outline and there.is_outline and kind[0] in theirs:
        if is_inside(new.middle, there.path) or is_inside(there.middle, new.path):
            return 'an outline at the same place'
    if far <= SAME and own_tags(mine) and own_tags(mine) == own_tags(theirs):
        return 'the same tags'
    if is_same_kind and len(new.path) > 1 and len(there.path) > 1 and _same_ends(new, there):
        return 'a line with the same ends'
    return ''


def _same_ends(new: Thing, there: Thing) -> bool:
    ends = new.path[0], new.path[-1]
    pairs = ((there.path[0], there.path[-1]), (there.path[-1], there.path[0]))
    return any(all(metres(one, other) <= SAME for one, other in zip(ends, pair)) for pair in pairs)


@dataclass(frozen=True)
class Candidate:
    """A new object, and one at the server that may be the same thing."""

    key: str
    there: opl.Object
    why: str
    metres: float


@dataclass
class Look:
    """What a look at the server found: how many new objects and calls, the candidates, and the
    newest time of what is there.
    """

    new: int = 0
    calls: int = 0
    candidates: List[Candidate] = field(default_factory=list)
    newest: str = ''


def new_things(found: Table, keys: Optional[Iterable[str]] = None) -> List[Thing]:
    """The new objects with tags that have a place, by rank; only those among `keys`, if given."""
    wanted = None if keys is None else set(keys)
    mine = _Mine(found)
    things = []
    for key in found.new():
        known = found.mine(key)
        if known is not None and (wanted is None or key in wanted):
            thing = thing_of(mine, key) if own_tags(known.tags) else None
            if thing is not None:
                things.append(thing)
    return things


class _Mine(Mapping[str, Optional[opl.Object]]):
    """The objects of a session as they are here."""

    def __init__(self, found: Table):
        self._found = found

    def __getitem__(self, key: str) -> Optional[opl.Object]:
        return self._found.mine(key)

    def __iter__(self) -> Iterator[str]:
        return iter(self._found.things)

    def __len__(self) -> int:
        return len(self._found.things)


def look(
    server: Server, found: Table, note: Callable[[str], Any], keys: Optional[Iterable[str]] = None
) -> Look:
    """Asks the server for what is around new objects, and compares; Refused where that takes too
    many calls.
    """
    new = new_things(found, keys)
    if not new:
        return Look()
    area, waiting = Look(len(new)), list(around(new))
    there: Dict[str, opl.Object] = {}
    while waiting:
        if area.calls + len(waiting) > MOST_CALLS:
            raise Refused(
                f'a look at what stands there already would take more than {MOST_CALLS} calls: send a '
                f'part by --only, or look by yourself and pass --unseen'
            )
        box = waiting.pop()
        area.calls += 1
        part = _map(server, box)
        if part is None:
            waiting += boxes.halves(box)
        else:
            there.update((thing.key, thing) for thing in part)
    if len(new) > 1000 or area.calls > 10:
        note(f'looked at what stands around {len(new)} new objects already: {area.calls} calls')
    area.newest = max((thing.time for thing in there.values()), default='')
    area.candidates = candidates(new, there, found)
    return area


def _map(server: Server, box: Box) -> Optional[List[opl.Object]]:
    """The objects of a box; None where it has to be cut."""
    try:
        text = server.look('/map?bbox=' + boxes.words(box))
    except ServerRefused as refused:
        is_full = refused.status in (400, 413) and any(words in refused.text for words in TOO_MUCH)
        if not is_full or min(box[2] - box[0], box[3] - box[1]) <= SMALLEST:
            raise
        return None
    things: List[opl.Object] = server._read(osc.things, text)
    return things


def around(new: Iterable[Thing]) -> List[Box]:
    """The boxes that hold new objects and what is near them, one for each cell of the map."""
    cells: Dict[Tuple[int, int], List[int]] = {}
    for thing in new:
        lon, lat = thing.middle
        cell = int(lon * UNITS) // CELL, int(lat * UNITS) // CELL
        high = MARGIN / METRES
        wide = high / max(0.01, math.cos(math.radians(lat)))
        sides = [
            min(place[0] for place in thing.path) - wide,
            min(place[1] for place in thing.path) - high,
            max(place[0] for place in thing.path) + wide,
            max(place[1] for place in thing.path) + high,
        ]
        box = [round(side * UNITS) for side in sides]
        known = cells.get(cell)
        cells[cell] = (
            box
            if known is None
            else [
                min(known[0], box[0]),
                min(known[1], box[1]),
                max(known[2], box[2]),
                max(known[3], box[3]),
            ]
        )
    limits = (-180 * UNITS, -90 * UNITS, 180 * UNITS, 90 * UNITS)
    return [
        (
            max(box[0], limits[0]),
            max(box[1], limits[1]),
            min(box[2], limits[2]),
            min(box[3], limits[3]),
        )
        for _, box in sorted(cells.items())
    ]


def candidates(
    new: Sequence[Thing], there: Mapping[str, opl.Object], found: Table
) -> List[Candidate]:
    """The nearest candidate of each new object that has any."""
    cells: Dict[Tuple[int, int], List[Thing]] = defaultdict(list)
    for key, one in there.items():
        known = found.things.get(key)
        if (
            one.deleted
            or not one.tags
            or known is not None
            and (known.edit or known.conflict != 'none')
        ):
            continue
        thing = thing_of(there, key)
        if thing is not None:
            for cell in _cells(thing):
                cells[cell].append(thing)
    names = Names(
        one.tags['name']
        for one in (*there.values(), *(mine.thing for mine in new))
        if 'name' in one.tags
    )
    result = []
    for mine in new:
        uses, best = set(mine.thing.references), None
        near = {one.thing.key: one for cell in _cells(mine) for one in cells.get(cell, ())}
        for other in near.values():
            why = '' if other.thing.key in uses else why_same(mine, other, names)
            far = metres(mine.middle, other.middle)
            if why and (best is None or far < best.metres):
                best = Candidate(mine.thing.key, other.thing, why, far)
        if best is not None:
            result.append(best)
    return result


GRID = (
    0.001  # degrees of a cell in which what is near is looked for; wider than NEAR but at the poles
)


def _cells(thing: Thing) -> Set[Tuple[int, int]]:
    """The cells of the boxes around a thing: what is near enough has one in common."""
    lons, lats = [place[0] for place in thing.path], [place[1] for place in thing.path]
    west, east = math.floor(min(lons) / GRID), math.floor(max(lons) / GRID) + 1
    south, north = math.floor(min(lats) / GRID), math.floor(max(lats) / GRID) + 1
    if (east - west) * (north - south) > 10_000:  # of something as large as that the middle tells
        lon, lat = thing.middle
        west, south = math.floor(lon / GRID), math.floor(lat / GRID)
        east, north = west + 1, south + 1
    return {(x, y) for x in range(west, east + 1) for y in range(south, north + 1)}


# ---- extracts ----


@dataclass(frozen=True)
class Extract:
    """What an extract was when it was taken: its moment, as `2026-12-02T04:13:00Z` or empty, and
    how many objects it had.
    """

    moment: str
    objects: int


def moment_of(extract: str, as_opl: str) -> str:
    """Of which moment an extract is; empty where nothing tells. `as_opl` is the OPL file with what
    it has.
    """
    if extract != as_opl:
        found = _of_header(extract)
        if found:
            return found
    return header.moment_of(as_opl) or newest(as_opl)


def _of_header(extract: str) -> str:
    """The moment that the header of a file has, read by osmium; empty where it has none."""
    osmium = shutil.which('osmium')
    if osmium is None or not os.path.isfile(extract):
        return ''
    done = subprocess.run(
        [osmium, 'fileinfo', '-j', extract], stdout=subprocess.PIPE, stderr=subprocess.DEVNULL
    )
    try:
        options = json.loads(done.stdout)['header']['option'] if done.returncode == 0 else {}
    except (ValueError, KeyError, TypeError):
        return ''
    found = options.get('timestamp') or options.get('osmosis_replication_timestamp') or ''
    return found if header.is_stamp(found) else ''


TIME = re.compile(rb' t(2[0-9]{3}-[0-9]{2}-[0-9]{2}T[0-9]{2}:[0-9]{2}:[0-9]{2}Z)')


def newest(path: str) -> str:
    """The time of the newest object of an OPL file; empty where none has a time."""
    latest = b''
    with open(path, 'rb') as lines:
        for line in lines:
            found = TIME.search(line)
            if found and found[1] > latest:
                latest = found[1]
    return latest.decode('ascii')


def is_cut(path: str) -> bool:
    """Whether an OPL file ends in the middle of a line, as one that wasn't copied to its end."""
    with open(path, 'rb') as file:
        file.seek(0, os.SEEK_END)
        if not file.tell():
            return False
        file.seek(-1, os.SEEK_END)
        return file.read(1) != b'\n'


FEWER = 0.5  # of the objects that an extract had before: one with fewer is suspicious
NOTE = 'extracts'  # a file of the day: what its extracts were
MOST_DAYS = 200  # other days that are looked at


def scan(extract: str, as_opl: str) -> Extract:
    """What an extract is; `as_opl` is the OPL file with what it has."""
    with open(as_opl, 'rb') as lines:
        count = sum(line[:1] in (b'n', b'w', b'r') for line in lines)
    return Extract(moment_of(extract, as_opl), count)


def note_extracts(day: Day, extracts: Mapping[str, Extract]) -> None:
    """Notes of a day with which extracts it began."""
    found = {os.path.abspath(path): asdict(extract) for path, extract in extracts.items()}
    day.write(NOTE, json.dumps(found) + '\n')


def extracts_of(folder: pathlib.Path) -> Dict[str, Extract]:
    """The extracts with which the day in a folder began, by their paths; none where nothing says
    so.
    """
    try:
        found = json.loads((folder / NOTE).read_text(encoding='utf-8'))
        return {
            path: Extract(str(one['moment']), int(one['objects'])) for path, one in found.items()
        }
    except (OSError, ValueError, KeyError, TypeError, AttributeError):
        return {}


def last_send(folder: pathlib.Path) -> str:
    """The moment when a server last answered to a document of the day in a folder; empty where
    none did.
    """
    times = [path.stat().st_mtime for path in folder.glob('*.answers')]
    return header.stamp(max(times)) if times else ''


def other_days(folder: pathlib.Path) -> List[pathlib.Path]:
    """The folders of the days beside the one in a folder, the one that began last first."""
    try:
        beside = [path for path in folder.resolve().parent.iterdir() if path != folder.resolve()]
        notes = [(path / NOTE).stat().st_mtime for path in beside if (path / NOTE).is_file()]
    except OSError:
        return []
    days = [path for path in beside if (path / NOTE).is_file()]
    return [path for _, path in sorted(zip(notes, days), reverse=True)][:MOST_DAYS]


def suspicions(folder: pathlib.Path, path: str, extract: Extract) -> List[str]:
    """What seems wrong with an extract, compared with the last day beside this one that began with
    it.
    """
    found, where = [], os.path.abspath(path)
    for other in other_days(folder):
        before = extracts_of(other).get(where)
        if before is None:
            continue
        if extract.objects < before.objects * FEWER:
            found.append(
                f'{path} has {extract.objects} objects, and had {before.objects} for {other.name}'
            )
        if extract.moment and before.moment > extract.moment:
            found.append(
                f'{path} is of {extract.moment}, and was of {before.moment} for {other.name}'
            )
        break
    return found


def warnings(folder: pathlib.Path, path: str, extract: Extract) -> List[str]:
    """What a user ought to know of an extract: whether it is older than what went out from a day
    beside this one.
    """
    sends = [(last_send(other), other.name) for other in other_days(folder)]
    last, name = max(sends, default=('', ''))
    if not extract.moment or not extract.moment < last:
        return []
    return [
        f'{path} is of {extract.moment}, and {name} sent edits at {last}: they may not be in it, '
        f'and what was new would go out a second time'
    ]


def old_downloads(day: Day, lines: Iterable[str]) -> List[str]:
    """What to say of files that a script downloads and that are older than what went out from this
    day.
    """
    last = last_send(day.folder)
    found = []
    for line in lines if last else ():
        words = re.split('[ \t]+', line)
        if words[0] == 'download' and len(words) > 1:
            path = opl.unescape(words[1])
            moment = moment_of(path, path) if os.path.isfile(path) else ''
            if moment and moment < last:
                found.append(
                    f'{path} is of {moment}, older than what went out from this day at {last}'
                )
    return found


def told(day: Day, area: Look) -> List[str]:
    """What to say of the extracts of a day after a look at the server: whether what stands there
    is newer.
    """
    moments = [extract.moment for extract in extracts_of(day.folder).values() if extract.moment]
    if not moments or not area.newest or area.newest <= max(moments):
        return []
    return [
        f'around the new objects the server has things as new as {area.newest}, and the extract is of '
        f'{max(moments)}: a fresh extract shows them'
    ]
