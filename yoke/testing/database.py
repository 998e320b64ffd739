"""What the strict server keeps, and the rules by which API 0.6 lets it be read and changed.

The texts of refusals are written after those of the live server. Nothing here knows of HTTP: a
refusal is a `Refusal` with its status.
"""
import dataclasses
import math
import re
import time
from collections import deque
from decimal import Decimal
from typing import Callable, Deque, Dict, Iterable, List, NamedTuple, Optional, Set, Tuple
from xml.etree import ElementTree

from yoke.testing.elements import KINDS, UNITS, Element, Member, as_xml, degrees, rank, units

NOT_CARRIED = re.compile('[\x00-\x08\x0b\x0c\x0e-\x1f\x7f\ufffe\uffff]')
FIRST_TIME = '2005-05-01T00:00:00Z'  # of elements whose file doesn't say when they were made
VERBS = ('create', 'modify', 'delete')
HOUR = 3600  # seconds
WHOLE_NUMBER = re.compile('-?[0-9]+')
ATTRIBUTION = {
    'copyright': 'OpenStreetMap and contributors',
    'attribution': 'http://www.openstreetmap.org/copyright',
    'license': 'http://opendatacommons.org/licenses/odbl/1-0/',
}


class Refusal(Exception):
    """What the server answers in place of what was asked for: a status of HTTP, a text (or none)
    and headers.
    """

    def __init__(self, status: int, text: str = '', headers: Optional[Dict[str, str]] = None):
        super().__init__(f'{status} {text}')
        self.status, self.text, self.headers = status, text, headers or {}


@dataclasses.dataclass
class Limits:
    """What the server takes at most. None means that there is no limit."""

    changeset_elements: int = 10_000  # changes of a changeset
    way_nodes: int = 2_000  # nodes of a way
    relation_members: int = 32_000  # members of a relation
    text: int = 255  # characters of a key, a value or a role
    area: str = '0.25'  # square degrees of a box of `map`
    map_nodes: int = 50_000  # nodes within a box of `map`
    user_changes: Optional[int] = None  # changes of a user in all, before a 429
    changes_per_hour: Optional[int] = None  # changes of a user within the last hour, before a 429
    changeset_extent: Optional[
        str
    ] = None  # degrees: width plus height of a changeset's bounding box
    map_bytes: Optional[int] = None  # bytes that `map` answers in all, before a 509
    says_what_is_gone: bool = True  # whether a 410 has a text; some have none
    retry_after: Optional[
        int
    ] = 1  # seconds in the header Retry-After of a 429 and a 509; None for no header


class User(NamedTuple):
    """Who a token stands for."""

    number: int
    name: str


class Box(NamedTuple):
    """A bounding box, in units of 10^-7 degree."""

    west: int
    south: int
    east: int
    north: int

    @property
    def extent(self) -> int:
        """Its width plus its height, which is what the live server limits."""
        return self.east - self.west + self.north - self.south

    def joined(self, other: Optional['Box']) -> 'Box':
        """The smallest box around both."""
        if other is None:
            return self
        return Box(
            min(self.west, other.west),
            min(self.south, other.south),
            max(self.east, other.east),
            max(self.north, other.north),
        )


@dataclasses.dataclass
class Changeset:
    """A changeset: whose it is, its tags, how many changes it has, when it was opened and closed in
    seconds since 1970, and the bounding box of its changes.
    """

    number: int
    user: User
    tags: Dict[str, str]
    created_at: float
    closed_at: Optional[float] = None
    changes: int = 0
    box: Optional[Box] = None


@dataclasses.dataclass(frozen=True)
class Change:
    """A change that was taken: its number from 1 on, the verb, what the element is since, and the
    id that the document had.
    """

    number: int
    verb: str
    element: Element
    old_id: int

    @property
    def user(self) -> str:
        """The name of the user who made it."""
        return self.element.user


def stamp(seconds: float) -> str:
    """A time as elements have it."""
    return time.strftime('%Y-%m-%dT%H:%M:%SZ', time.gmtime(seconds))


def closed_text(changeset: Changeset, now: float) -> str:
    """The text of the refusal of a changeset that is closed, or full by now."""
    closed = now if changeset.closed_at is None else changeset.closed_at
    return 'The changeset {} was closed at {}'.format(
        changeset.number, time.strftime('%Y-%m-%d %H:%M:%S UTC', time.gmtime(closed))
    )


def document(name: str, children: Iterable[ElementTree.Element], **words: str) -> bytes:
    """A document of the API."""
    root = ElementTree.Element(
        name, dict(version='0.6', generator='OpenStreetMap server', **ATTRIBUTION, **words)
    )
    root.extend(children)
    return (
        b'<?xml version="1.0" encoding="UTF-8"?>\n'
        + ElementTree.tostring(root, encoding='utf-8')
        + b'\n'
    )


def too_fast(seconds: Optional[int]) -> Refusal:
    """The refusal of an upload by somebody who uploads too much. With None it doesn't say when to
    try again.
    """
    return Refusal(
        429,
        'Upload has been blocked due to rate limiting. Please try again later.',
        retry_after(seconds),
    )


def too_much(seconds: Optional[int]) -> Refusal:
    """The refusal of a download by somebody who downloads too much."""
    when = 'later' if seconds is None else f'in {seconds} seconds'
    return Refusal(
        509,
        f'You have downloaded too much data. Please try again {when}.',
        retry_after(seconds),
    )


def retry_after(seconds: Optional[int]) -> Dict[str, str]:
    """The header that says when to try again, if anything says it."""
    return {} if seconds is None else {'Retry-After': str(seconds)}


def too_many(count: int, limits: Limits) -> Refusal:
    """The refusal of a document with more changes than a changeset takes."""
    return Refusal(
        413,
        'The upload has {} changes, and a changeset takes {}'.format(
            count, limits.changeset_elements
        ),
    )


def too_wide() -> Refusal:
    """The refusal of a document by which the bounding box of its changeset would grow beyond the
    limit.
    """
    return Refusal(413, 'Changeset bounding box size limit exceeded.')


def parsed(text: bytes, model: str) -> ElementTree.Element:
    """The root of an XML document; 400 where it is none."""
    try:
        return ElementTree.fromstring(text)
    except ElementTree.ParseError as error:
        raise Refusal(
            400,
            'Cannot parse valid {} from xml string {}. {}'.format(
                model, text.decode('utf-8', 'replace')[:200], error
            ),
        )


class Database:
    """The elements of a server in all their versions, its changesets, and what was changed in which
    order.
    """

    def __init__(
        self,
        elements: Iterable[Element] = (),
        limits: Optional[Limits] = None,
        first_id: int = 1,
        clock: Callable[[], float] = time.time,
    ):
        self.limits, self.clock = limits or Limits(), clock
        self.uploaded: Dict[User, int] = {}  # how many changes each user has uploaded
        self.lately: Dict[
            User, Deque[Tuple[float, int]]
        ] = {}  # the same of the last hour: when, and how many
        self.redacted: Set[Tuple[str, int]] = set()  # keys and versions that nobody may read
        self.map_bytes = 0  # how many bytes `map` has answered
        self.last: Dict[str, int] = {}  # the highest id of each kind
        self.versions: Dict[str, List[Element]] = {}
        self.users_of: Dict[str, Set[str]] = {}  # the keys of those that refer to a key now
        self.changesets: Dict[int, Changeset] = {}
        self.history: List[Change] = []  # each change that was taken, in its order
        for element in sorted(elements, key=lambda element: (rank(element.key), element.version)):
            self.put(
                element if element.timestamp else dataclasses.replace(element, timestamp=FIRST_TIME)
            )
        self.last = {
            kind: max([first_id - 1] + [int(key[1:]) for key in self.versions if key[0] == kind[0]])
            for kind in KINDS
        }
        self._last_changeset = max(
            [versions[-1].changeset for versions in self.versions.values()] or [0]
        )

    # ---- what is there ----

    def current(self, key: str) -> Optional[Element]:
        """The last version of an element, which may be deleted; None where there never was one."""
        return self.versions[key][-1] if key in self.versions else None

    def is_there(self, key: str) -> bool:
        """Whether there is such an element, and it isn't deleted."""
        return key in self.versions and self.versions[key][-1].visible

    def all(self) -> List[Element]:
        """The last version of each element, the deleted ones too, nodes before ways before
        relations.
        """
        return [self.versions[key][-1] for key in sorted(self.versions, key=rank)]

    def referring(self, key: str, letter: str) -> List[int]:
        """The ids of the ways or the relations that refer to an element, rising."""
        return sorted(int(user[1:]) for user in self.users_of.get(key, ()) if user[0] == letter)

    def put(self, element: Element) -> None:
        """Puts a version at the end of those of its element."""
        versions = self.versions.setdefault(element.key, [])
        self._note(versions[-1] if versions else None, element)
        versions.append(element)

    def take_back(self, key: str) -> None:
        """Takes the last version of an element away."""
        versions = self.versions[key]
        gone = versions.pop()
        self._note(gone, versions[-1] if versions else None)
        if not versions:
            del self.versions[key]

    def _note(self, before: Optional[Element], after: Optional[Element]) -> None:
        """Keeps who refers to whom where an element becomes another one."""
        for key in set(before.references) if before else ():
            self.users_of[key].discard(before.key)
        for key in set(after.references) if after else ():
            self.users_of.setdefault(key, set()).add(after.key)

    # ---- changesets ----

    def create_changeset(self, user: User, text: bytes) -> int:
        """Opens a changeset and gives its id."""
        found = parsed(text, 'changeset').find('changeset')
        if found is None:
            raise Refusal(
                400,
                'Cannot parse valid changeset from xml string {}. XML doesn\'t contain an osm/changeset element.'.format(
                    text.decode('utf-8', 'replace')[:200]
                ),
            )
        tags = self.tags_of(found, 'Changeset', 0)
        self._last_changeset += 1
        self.changesets[self._last_changeset] = Changeset(
            self._last_changeset, user, tags, self.clock()
        )
        return self._last_changeset

    def changeset(self, number: int) -> Changeset:
        """A changeset; 404 where there is none."""
        if number not in self.changesets:
            raise Refusal(404)
        return self.changesets[number]

    def open_changeset(self, number: int, user: User) -> Changeset:
        """A changeset that the user may put changes into; 404 or 409 where there is none."""
        changeset = self.changeset(number)
        if changeset.user != user:
            raise Refusal(409, 'The user doesn\'t own that changeset')
        if changeset.closed_at is not None:
            raise Refusal(409, closed_text(changeset, self.clock()))
        return changeset

    def close_changeset(self, number: int, user: User) -> None:
        """Closes a changeset of the user that is open."""
        self.open_changeset(number, user).closed_at = self.clock()

    def changeset_document(self, number: int) -> bytes:
        """A changeset as `GET changeset/N` gives it."""
        changeset = self.changeset(number)
        words = {
            'id': str(number),
            'created_at': stamp(changeset.created_at),
            'open': 'true' if changeset.closed_at is None else 'false',
            'comments_count': '0',
            'changes_count': str(changeset.changes),
            'uid': str(changeset.user.number),
            'user': changeset.user.name,
        }
        if changeset.closed_at is not None:
            words['closed_at'] = stamp(changeset.closed_at)
        if changeset.box:
            words.update(
                zip(('min_lon', 'min_lat', 'max_lon', 'max_lat'), map(degrees, changeset.box))
            )
        xml = ElementTree.Element('changeset', words)
        for key, value in changeset.tags.items():
            ElementTree.SubElement(xml, 'tag', k=key, v=value)
        return document('osm', [xml])

    def download(self, number: int) -> bytes:
        """The changes of a changeset as an osmChange document, by time and version, each in a block
        of its own.

        Within a second the order isn't that of the uploads, as it isn't on the live server.
        Redacted versions are left out.
        """
        self.changeset(number)
        found = [
            element
            for key in sorted(self.versions, key=rank)
            for element in self.versions[key]
            if element.changeset == number and (key, element.version) not in self.redacted
        ]
        blocks = []
        for element in sorted(found, key=lambda element: (element.timestamp, element.version)):
            verb = 'create' if element.version == 1 else 'modify' if element.visible else 'delete'
            blocks.append(ElementTree.Element(verb))
            blocks[-1].append(as_xml(element))
        return document('osmChange', blocks)

    # ---- uploads ----

    def upload(self, number: int, user: User, text: bytes) -> bytes:
        """Takes an osmChange document whole and gives the diffResult; or raises a Refusal, and then
        nothing of it is taken.
        """
        changeset = self.open_changeset(number, user)
        root = parsed(text, 'osmChange')
        if root.tag != 'osmChange':
            raise Refusal(400, 'Document element should be \'osmChange\'.')
        self._check_size(changeset, user, sum(len(block) for block in root))
        upload = Upload(self, changeset, stamp(self.clock()))
        try:
            results = [upload.take(block, change) for block in root for change in block]
            for block in root:
                upload.check_verb(block)
            self._check_extent(upload.box)
        except Refusal:
            upload.take_back()
            raise
        changeset.box = upload.box
        self._count(changeset, upload.changes)
        return document('diffResult', results)

    def _check_size(self, changeset: Changeset, user: User, count: int) -> None:
        """Raises a Refusal where so many changes are too many for a changeset, for what is left of
        this one, or for the user.
        """
        if count > self.limits.changeset_elements:
            raise too_many(count, self.limits)
        if changeset.changes + count > self.limits.changeset_elements:
            raise Refusal(409, closed_text(changeset, self.clock()))
        if (
            self.limits.user_changes is not None
            and self.uploaded.get(user, 0) + count > self.limits.user_changes
        ):
            raise too_fast(self.limits.retry_after)
        if self.limits.changes_per_hour is not None:
            self._check_hour(user, count, self.limits.changes_per_hour)

    def _check_hour(self, user: User, count: int, most: int) -> None:
        """429 where so many changes are too many for a user's last hour; its Retry-After, where the
        limits have one, says when there is room for them, or for as many as ever there is.
        """
        now, lately = self.clock(), self.lately.setdefault(user, deque())
        while lately and lately[0][0] <= now - HOUR:
            lately.popleft()
        left = sum(changes for _, changes in lately)
        if left + count <= most:
            return
        seconds = 1
        for when, changes in lately:
            if left + count <= most:
                break
            left, seconds = left - changes, max(1, math.ceil(when + HOUR - now))
        raise too_fast(None if self.limits.retry_after is None else seconds)

    def _check_extent(self, box: Optional[Box]) -> None:
        """413 where the bounding box of a changeset is too large."""
        most = self.limits.changeset_extent
        if box is not None and most is not None and box.extent > units(most):
            raise too_wide()

    def _count(self, changeset: Changeset, changes: List[Change]) -> None:
        """Counts what was taken; a changeset that is full is closed."""
        self.history.extend(changes)
        changeset.changes += len(changes)
        if changeset.changes >= self.limits.changeset_elements:
            changeset.closed_at = self.clock()
        self.uploaded[changeset.user] = self.uploaded.get(changeset.user, 0) + len(changes)
        if self.limits.changes_per_hour is not None:
            self.lately.setdefault(changeset.user, deque()).append((self.clock(), len(changes)))

    def tags_of(self, xml: ElementTree.Element, model: str, number: int) -> Dict[str, str]:
        """The tags of an element of a document; 400 where the server doesn't take them."""
        tags: Dict[str, str] = {}
        for tag in xml.findall('tag'):
            key, value = tag.get('k'), tag.get('v')
            if key is None or value is None:
                raise bad_xml(
                    model, xml, 'tag is missing {}'.format('key' if key is None else 'value')
                )
            if key in tags:
                raise Refusal(
                    400,
                    'Element {}/{} has duplicate tags with key {}'.format(
                        model.lower(), number, key
                    ),
                )
            self.check_text(key, 'Key', model, number)
            self.check_text(value, 'Value', model, number)
            if not key:
                raise Refusal(400, f'Key may not be empty in {model} {number}')
            tags[key] = value
        return tags

    def check_text(self, text: str, what: str, model: str, number: int) -> None:
        """400 where a text is too long or has characters that the server doesn't keep."""
        if len(text) > self.limits.text:
            raise Refusal(
                400,
                '{} has more than {} unicode characters in {} {}'.format(
                    what, self.limits.text, model, number
                ),
            )
        if NOT_CARRIED.search(text):
            raise Refusal(400, f'{what} contains invalid characters in {model} {number}')

    # ---- reading ----

    def read(self, key: str) -> Element:
        """An element; 404 where there never was one, 410 where it is deleted."""
        element = self.current(key)
        if element is None:
            raise Refusal(404)
        if not element.visible:
            raise Refusal(410)
        return element

    def read_version(self, key: str, version: int) -> Element:
        """A version of an element, which may be the one by which it was deleted; 404 where there is
        none, 403 where it is redacted.
        """
        for element in self.versions.get(key, ()):
            if element.version == version:
                if (key, version) in self.redacted:
                    raise Refusal(403)
                return element
        raise Refusal(404)

    def redact(self, key: str, version: int) -> None:
        """Hides a version, as a moderator does; 400 where it is the last one, which can't be
        hidden, and 404 where there is none.
        """
        if self.read_version(key, version) is self.current(key):
            raise Refusal(
                400,
                'Cannot redact current version of element, only historical versions may be redacted.',
            )
        self.redacted.add((key, version))

    def read_history(self, key: str) -> List[Element]:
        """All versions of an element but the redacted ones; 404 where there never was one."""
        if key not in self.versions:
            raise Refusal(404)
        return [
            element for element in self.versions[key] if (key, element.version) not in self.redacted
        ]

    def read_many(self, kind: str, words: Optional[str]) -> List[Element]:
        """The elements of a list of ids, some with `v` and a version, each once, rising; 404 where
        one of them never was.
        """
        if words is None:
            raise Refusal(
                400,
                'The parameter {0}s is required, and must be of the form {0}s=id[,id[,id...]]'.format(
                    kind
                ),
            )
        asked = [re.fullmatch('([0-9]+)(?:v([0-9]+))?', word) for word in words.split(',') if word]
        if not asked or None in asked:
            raise Refusal(400, f'No {kind}s were given to search for')
        found = {}
        for word in asked:
            key = kind[0] + str(int(word[1]))
            element = self.current(key) if word[2] is None else self.read_version(key, int(word[2]))
            if element is None:
                raise Refusal(404)
            found[rank(key), element.version] = element
        return [found[place] for place in sorted(found)]

    def read_full(self, key: str) -> List[Element]:
        """A way with its nodes, or a relation with its members and the nodes of its ways; 404 and
        410 as for `read`.
        """
        element = self.read(key)
        keys = {key, *element.references}
        for member in element.references if element.kind == 'relation' else ():
            if member[0] == 'w' and self.is_there(member):
                keys.update(self.current(member).references)
        return [self.current(found) for found in sorted(keys, key=rank) if self.is_there(found)]

    def read_users(self, key: str, letter: str) -> List[Element]:
        """The ways or the relations that refer to an element, by rising ids; none where there is no
        such element.
        """
        return [self.current(letter + str(number)) for number in self.referring(key, letter)]

    def map(self, words: Optional[str]) -> bytes:
        """What `map` answers for a box: its nodes, their ways with all nodes, and the relations of
        both and of those relations.
        """
        west, south, east, north = self._box(words)
        inside = {
            key
            for key, versions in self.versions.items()
            if key[0] == 'n'
            and versions[-1].visible
            and west <= versions[-1].lon <= east
            and south <= versions[-1].lat <= north
        }
        if len(inside) > self.limits.map_nodes:
            raise Refusal(
                400,
                'You requested too many nodes (limit is {}). Either request a smaller area, or use planet.osm'.format(
                    self.limits.map_nodes
                ),
            )
        ways = {user for key in inside for user in self.users_of.get(key, ()) if user[0] == 'w'}
        keys = inside | ways | {node for way in ways for node in self.current(way).references}
        relations = {user for key in keys for user in self.users_of.get(key, ()) if user[0] == 'r'}
        relations |= {
            user for key in relations for user in self.users_of.get(key, ()) if user[0] == 'r'
        }
        found = [
            self.current(key) for key in sorted(keys | relations, key=rank) if self.is_there(key)
        ]
        bounds = ElementTree.Element(
            'bounds',
            minlat=degrees(south),
            minlon=degrees(west),
            maxlat=degrees(north),
            maxlon=degrees(east),
        )
        answer = document('osm', [bounds] + [as_xml(element) for element in found])
        self._count_bytes(len(answer))
        return answer

    def _count_bytes(self, count: int) -> None:
        """Counts the bytes of an answer of `map`; 509 where they were too many."""
        if self.limits.map_bytes is not None and self.map_bytes + count > self.limits.map_bytes:
            raise too_much(self.limits.retry_after)
        self.map_bytes += count

    def _box(self, words: Optional[str]) -> Tuple[int, int, int, int]:
        """The west, south, east and north of a box, in units; 400 where it is none or too large."""
        try:
            west, south, east, north = (units(word) for word in (words or '').split(','))
        except ValueError:
            raise Refusal(
                400,
                'The parameter bbox is required, and must be of the form min_lon,min_lat,max_lon,max_lat',
            )
        if not (
            -180 * UNITS <= west < east <= 180 * UNITS
            and -90 * UNITS <= south < north <= 90 * UNITS
        ):
            raise Refusal(
                400,
                'The latitudes must be between -90 and 90, longitudes between -180 and 180 and the minima must be less than the maxima.',
            )
        if (east - west) * (north - south) > Decimal(self.limits.area) * UNITS * UNITS:
            raise Refusal(
                400,
                'The maximum bbox size is {}, and your request was too large. Either request a smaller area, or use planet.osm'.format(
                    self.limits.area
                ),
            )
        return west, south, east, north

    def capabilities(self) -> bytes:
        """What `GET /api/capabilities` answers, with the limits."""
        api = ElementTree.Element('api')
        for name, words in [
            ('version', {'minimum': '0.6', 'maximum': '0.6'}),
            ('area', {'maximum': self.limits.area}),
            ('waynodes', {'maximum': str(self.limits.way_nodes)}),
            ('relationmembers', {'maximum': str(self.limits.relation_members)}),
            ('changesets', {'maximum_elements': str(self.limits.changeset_elements)}),
            ('timeout', {'seconds': '300'}),
            ('status', {'database': 'online', 'api': 'online', 'gpx': 'online'}),
        ]:
            ElementTree.SubElement(api, name, words)
        return document('osm', [api])


def bad_xml(model: str, xml: ElementTree.Element, why: str) -> Refusal:
    """The refusal of an element of a document that isn't as it has to be."""
    return Refusal(
        400,
        'Cannot parse valid {} from xml string {}. {}'.format(
            model.lower(), ElementTree.tostring(xml, encoding='unicode').strip(), why
        ),
    )


class Upload:
    """The changes of one document, taken one after the other, so that they can be taken back."""

    def __init__(self, database: Database, changeset: Changeset, timestamp: str):
        self.database, self.changeset, self.timestamp = database, changeset, timestamp
        self.names: Dict[str, int] = {}  # the ids that placeholders have got
        self.changes: List[Change] = []
        self.box = changeset.box  # of the changeset, with these changes

    def take_back(self) -> None:
        """Takes all of it back; ids that were given stay given, as on the live server."""
        for change in reversed(self.changes):
            self.database.take_back(change.element.key)

    @staticmethod
    def check_verb(block: ElementTree.Element) -> None:
        """400 where a block is none that the API knows."""
        if block.tag not in VERBS:
            raise Refusal(400, f'Unknown action {block.tag}, choices are create, modify, delete')

    def take(self, block: ElementTree.Element, xml: ElementTree.Element) -> ElementTree.Element:
        """Does a change, and gives its part of the diffResult."""
        self.check_verb(block)
        if xml.tag not in KINDS:
            raise Refusal(
                400, f'Unexpected element type {xml.tag}, expected node, way or relation.'
            )
        old_id = self._number(xml, 'id', 'ID is required')
        self._check_changeset(xml)
        if block.tag == 'create':
            return self._create(xml, old_id)
        number = self.names.get(xml.tag[0] + str(old_id), old_id)
        if number == 0:
            raise Refusal(400, f'ID of {xml.tag} cannot be zero when updating.')
        old = self.database.current(xml.tag[0] + str(number))
        if block.tag == 'modify':
            return self._modify(xml, old_id, old)
        return self._delete(xml, old_id, old, block.get('if-unused') is not None)

    @staticmethod
    def _number(xml: ElementTree.Element, name: str, why: str) -> int:
        """A whole number that an element of a document has to have."""
        text = xml.get(name) or ''
        if not WHOLE_NUMBER.fullmatch(text):
            raise bad_xml(xml.tag, xml, why)
        return int(text)

    def _check_changeset(self, xml: ElementTree.Element) -> None:
        """409 where an element names another changeset than that of the upload."""
        named = self._number(xml, 'changeset', 'Changeset id is missing')
        if named != self.changeset.number:
            raise Refusal(
                409,
                'Changeset mismatch: Provided {} but only {} is allowed'.format(
                    named, self.changeset.number
                ),
            )

    def _create(self, xml: ElementTree.Element, old_id: int) -> ElementTree.Element:
        key = xml.tag[0] + str(old_id)
        if key in self.names:
            raise Refusal(400, 'Placeholder IDs must be unique for created elements.')
        new = self._read(xml, old_id)
        self._check_references(new, None, old_id)
        self.database.last[xml.tag] += 1
        new = dataclasses.replace(new, number=self.database.last[xml.tag], version=1)
        self.names[key] = new.number
        self._put('create', new, old_id)
        return result(xml.tag, old_id, new)

    def _modify(
        self, xml: ElementTree.Element, old_id: int, old: Optional[Element]
    ) -> ElementTree.Element:
        new = self._read(xml, old_id)
        if old is None:
            raise Refusal(404)
        self._check_version(self._number(xml, 'version', 'Version is required when updating'), old)
        new = dataclasses.replace(new, number=old.number, version=old.version + 1)
        self._check_references(new, old, old.number)
        self._put('modify', new, old_id)
        return result(xml.tag, old_id, new)

    def _delete(
        self, xml: ElementTree.Element, old_id: int, old: Optional[Element], if_unused: bool
    ) -> ElementTree.Element:
        if old is None:
            raise Refusal(404)
        try:
            self._check_deletion(xml, old, old_id < 0)
        except Refusal as why:
            if if_unused and why.status in (410, 412):
                return result(xml.tag, old_id, old)
            raise
        self._put('delete', Element(old.kind, old.number, old.version + 1, False), old_id)
        return result(xml.tag, old_id, None)

    def _check_deletion(self, xml: ElementTree.Element, old: Element, is_placeholder: bool) -> None:
        """410, 409 or 412 where an element can't be deleted."""
        if not old.visible:
            text = f'The {old.kind} with the id {old.number} has already been deleted'
            raise Refusal(410, text if self.database.limits.says_what_is_gone else '')
        if not is_placeholder:
            self._check_version(
                self._number(xml, 'version', 'Version is required when updating'), old
            )
        ways, relations = (self.database.referring(old.key, letter) for letter in 'wr')
        if ways:
            raise unmet(
                'Node {} is still used by ways {}.'.format(old.number, ','.join(map(str, ways)))
            )
        if relations and old.kind == 'relation':
            raise unmet(f'The relation {old.number} is used in relation {relations[0]}.')
        if relations:
            raise unmet(
                '{} {} is still used by relations {}.'.format(
                    old.kind.capitalize(), old.number, ','.join(map(str, relations))
                )
            )

    @staticmethod
    def _check_version(provided: int, old: Element) -> None:
        if provided != old.version:
            raise Refusal(
                409,
                'Version mismatch: Provided {}, server had: {} of {} {}'.format(
                    provided, old.version, old.kind.capitalize(), old.number
                ),
            )

    def _read(self, xml: ElementTree.Element, old_id: int) -> Element:
        """What a change makes of an element, with the ids of what it refers to; 400 where the
        server doesn't take it.
        """
        model = xml.tag.capitalize()
        lon, lat = self._place(xml) if xml.tag == 'node' else (None, None)
        nodes = (
            tuple(
                self._reference(
                    'node', self._number(node, 'ref', 'ref is missing'), xml.tag, old_id
                )
                for node in xml.findall('nd')
            )
            if xml.tag == 'way'
            else ()
        )
        members = (
            tuple(self._member(member, old_id) for member in xml.findall('member'))
            if xml.tag == 'relation'
            else ()
        )
        return Element(
            xml.tag,
            old_id,
            tags=self.database.tags_of(xml, model, old_id),
            lon=lon,
            lat=lat,
            nodes=nodes,
            members=members,
        )

    @staticmethod
    def _place(xml: ElementTree.Element) -> Tuple[int, int]:
        """The place of a node, in units; 400 where it has none or where it isn't on the earth."""
        place = []
        for name in ('lat', 'lon'):
            if xml.get(name) is None:
                raise bad_xml('node', xml, f'{name} missing')
            try:
                place.append(units(xml.get(name)))
            except ValueError:
                raise bad_xml('node', xml, f'{name} not a number')
        lat, lon = place
        if abs(lat) > 90 * UNITS or abs(lon) > 180 * UNITS:
            raise Refusal(400, 'The node is outside this world')
        return lon, lat

    def _member(self, xml: ElementTree.Element, old_id: int) -> Member:
        """A member of a relation, with the id that its placeholder got."""
        kind, role = xml.get('type'), xml.get('role') or ''
        if kind not in KINDS:
            raise bad_xml(
                'relation',
                xml,
                f'The {kind} is not allowed only, ["node", "way", "relation"] allowed',
            )
        self.database.check_text(role, 'Relation Role', 'Relation', old_id)
        return Member(
            kind,
            self._reference(kind, self._number(xml, 'ref', 'ref is missing'), 'relation', old_id),
            role,
        )

    def _reference(self, kind: str, number: int, user: str, old_id: int) -> int:
        """The id for which a reference stands; 400 where it is a placeholder of nothing that was
        created before.
        """
        if number >= 0:
            return number
        if kind[0] + str(number) not in self.names:
            what = kind if user == 'way' else kind.capitalize()
            raise Refusal(
                400,
                'Placeholder {} not found for reference {} in {} {}{}'.format(
                    what, number, user, old_id, '' if user == 'way' else '.'
                ),
            )
        return self.names[kind[0] + str(number)]

    def _check_references(self, new: Element, old: Optional[Element], number: int) -> None:
        """400 or 412 where a way or a relation refers to too much, to nothing, or anew to what
        isn't there.
        """
        limits, before = self.database.limits, set(old.references) if old else set()
        if new.kind == 'way' and not new.nodes:
            raise unmet(
                'Cannot {}: data is invalid.'.format(
                    f'update way {number}' if old else 'create way'
                )
            )
        if len(new.nodes) > limits.way_nodes:
            raise Refusal(
                400,
                'You tried to add {} nodes to way {}, however only {} are allowed'.format(
                    len(new.nodes), number, limits.way_nodes
                ),
            )
        if len(new.members) > limits.relation_members:
            raise Refusal(
                400,
                'You tried to add {} members to relation {}, however only {} are allowed'.format(
                    len(new.members), number, limits.relation_members
                ),
            )
        missing = sorted(
            {
                key
                for key in new.references
                if key not in before and not self.database.is_there(key)
            },
            key=rank,
        )
        if missing and new.kind == 'way':
            raise unmet(
                'Way {} requires the nodes with id in ({}), which either do not exist, or are not visible.'.format(
                    number, ','.join(key[1:] for key in missing)
                )
            )
        if missing:
            first = next(
                member for member in new.members if member.kind[0] + str(member.number) in missing
            )
            raise unmet(
                'Relation {} requires the {} with id {}, which either does not exist, or is not visible.'.format(
                    number, first.kind, first.number
                )
            )

    def _boxes(self, before: Optional[Element], after: Element) -> Iterable[Box]:
        """The boxes by which that of the changeset grows with a change, of what was there before
        and of what is there after.
        """
        if after.kind == 'relation':
            for member in moved_members(before, after):
                if member.kind != 'relation':
                    yield from self._boxes_of(
                        self.database.current(member.kind[0] + str(member.number))
                    )
        else:
            yield from self._boxes_of(before)
            yield from self._boxes_of(after)

    def _boxes_of(self, element: Optional[Element]) -> Iterable[Box]:
        """The boxes of a node, or of the nodes of a way."""
        if element is not None and element.lon is not None and element.lat is not None:
            yield box_of(element.lon, element.lat)
        for number in element.nodes if element is not None else ():
            node = self.database.current(f'n{number}')
            if node is not None and node.lon is not None and node.lat is not None:
                yield box_of(node.lon, node.lat)

    def _put(self, verb: str, element: Element, old_id: int) -> None:
        """Takes a change, in the name of the changeset's user."""
        user = self.changeset.user
        element = dataclasses.replace(
            element,
            changeset=self.changeset.number,
            timestamp=self.timestamp,
            uid=user.number,
            user=user.name,
        )
        before = self.database.current(element.key)
        for box in self._boxes(before, element):
            self.box = box.joined(self.box)
        self.database.put(element)
        self.changes.append(
            Change(len(self.database.history) + len(self.changes) + 1, verb, element, old_id)
        )


def box_of(lon: int, lat: int) -> Box:
    """The box of a place."""
    return Box(lon, lat, lon, lat)


def moved_members(before: Optional[Element], after: Element) -> List[Member]:
    """The members whose places count for the box of a changeset: all where a tag or a member that
    is a relation changed, else those that went or came.
    """
    old, new = (before.members if before else ()), after.members
    changed = [member for member in (*old, *new) if (member in old) != (member in new)]
    tags_changed = before is None or before.tags != after.tags
    if tags_changed or any(member.kind == 'relation' for member in changed):
        return [*old, *new]
    return changed


def unmet(text: str) -> Refusal:
    """The refusal of a change for what refers to it, or for what it refers to."""
    return Refusal(412, 'Precondition failed: ' + text)


def result(kind: str, old_id: int, new: Optional[Element]) -> ElementTree.Element:
    """What the diffResult says of a change; of what was deleted it says no new id."""
    words = {'old_id': str(old_id)}
    if new is not None:
        words.update(new_id=str(new.number), new_version=str(new.version))
    return ElementTree.Element(kind, words)
