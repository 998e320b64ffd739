"""OSM XML as JOSM saves it, and osmChange as other tools write it: read and written.

JOSM marks what was done to an object by an attribute `action`. osmChange has the objects in parts
named `create`, `modify` and `delete`. Both become `Told`.

What `josm_lines` writes carries two marks that JOSM keeps when it saves a file again:

- the `origin` of the `<bounds>` names the state of the session that was written, as `yoke 5-0a1b2c3d`;
- each new object of the session has a `user` such as `yoke n-1`, which is its key in the session. JOSM gives new objects
  other ids whenever it opens a file, so their ids tell nothing. The user of a new object is never sent to a server.
"""
import re
from dataclasses import dataclass, replace
from decimal import Decimal, InvalidOperation
from typing import Dict, Iterable, Iterator, List, Optional, Tuple
from xml.etree import ElementTree
from xml.etree.ElementTree import Element
from xml.sax.saxutils import quoteattr

from yoke import opl
from yoke.table import Table

SEVENTH = Decimal('0.0000001')  # degrees: the finest step that the map has
LIMITS = {'lon': 180, 'lat': 90}  # degrees
ORIGIN = re.compile('yoke ([0-9a-z-]{1,40})')
MARK = re.compile('yoke ([nwr]-[0-9]{1,19})')
NO_XML = re.compile('[^\t\n\r -\ud7ff\ue000-\ufffd\U00010000-\U0010ffff]')


@dataclass(frozen=True)
class Told:
    """An object of a document, and what the document says was done to it: `create`, `modify`,
    `delete`, or nothing.

    `thing` has the key of the document; its version is 0 where the document names none. `mark` is
    the key that the session has for a new object that `josm_lines` wrote, else empty.
    """

    thing: opl.Object
    action: str
    mark: str = ''

    @property
    def session_key(self) -> Optional[str]:
        """The key that the session has for the object; None of one under a negative id of the
        document, which it can't know.
        """
        return self.mark or (None if self.thing.key[1] == '-' else self.thing.key)


@dataclass(frozen=True)
class Drawn:
    """A document of JOSM: its objects, in its order, and the name of the session's state that it
    was drawn over, else empty.
    """

    told: Tuple[Told, ...]
    state: str = ''


# ---- reading ----


def read_josm(data: bytes) -> Drawn:
    """The objects of a file that JOSM saved; ValueError where it is none."""
    root = _root(data, 'osm')
    states = {
        found[1]
        for found in (ORIGIN.fullmatch(box.get('origin') or '') for box in root.iter('bounds'))
        if found
    }
    if len(states) > 1:
        raise ValueError(
            'it was drawn over several states of a session: {}'.format(', '.join(sorted(states)))
        )
    told = tuple(
        one
        for one in (_josm_told(element) for element in root if element.tag in opl.LETTERS)
        if not _came_and_went(one)
    )
    _each_once([one.thing.key for one in told])
    _each_once([one.mark for one in told if one.mark])
    return Drawn(told, ''.join(states))


def read_osc(data: bytes) -> List[Told]:
    """The changes of an osmChange document, one for each object; ValueError where it is none.

    Where an object stands more than once, the last content counts, over the version that the first
    names.
    """
    changes: Dict[str, Optional[Told]] = {}
    for part in _root(data, 'osmChange'):
        if part.tag not in ('create', 'modify', 'delete'):
            raise ValueError(f'<{part.tag}> is no part of an osmChange document')
        for element in part:
            thing = _thing(element, part.tag == 'delete')
            changes[thing.key] = _joined(changes.get(thing.key), Told(thing, part.tag))
    return [told for told in changes.values() if told]


def _joined(before: Optional[Told], told: Told) -> Optional[Told]:
    """Two changes of one object as one; None where it was made and deleted again."""
    if before is None:
        return told
    thing = replace(told.thing, version=before.thing.version)
    if before.action == 'create':
        return None if told.action == 'delete' else Told(thing, 'create')
    return Told(thing, told.action)


def _josm_told(element: Element) -> Told:
    action = element.get('action') or ''
    if action not in ('', 'modify', 'delete'):
        raise ValueError('{} {} has the action {!r}'.format(element.tag, element.get('id'), action))
    thing = _thing(element, action == 'delete')
    mark = MARK.fullmatch(thing.user)
    if mark and mark[1][0] != thing.key[0]:
        raise ValueError(f'{thing.key} is marked as {mark[1]}')
    is_new = thing.key[1] == '-'
    return Told(
        thing,
        'create' if is_new and action != 'delete' else action,
        mark[1] if mark and is_new else '',
    )


def _came_and_went(told: Told) -> bool:
    """Whether an object was made in JOSM and deleted there again."""
    return told.action == 'delete' and told.thing.key[1] == '-' and not told.mark


def _root(data: bytes, name: str) -> Element:
    try:
        root = ElementTree.fromstring(data)
    except ElementTree.ParseError as error:
        raise ValueError(f'it is no XML: {error}') from None
    if root.tag != name:
        raise ValueError(f'it begins with <{root.tag}>, and <{name}> is wanted')
    return root


def _thing(element: Element, deleted: bool) -> opl.Object:
    """The object of an element; of a deleted one only its key and version are asked."""
    if element.tag not in opl.LETTERS:
        raise ValueError(f'<{element.tag}> is no object of the map')
    key = opl.LETTERS[element.tag] + _whole(element, 'id')
    if key[1:] == '0':
        raise ValueError(f'a {element.tag} has the id 0')
    version = int(_whole(element, 'version')) if element.get('version') else 0
    if deleted:
        return opl.Object(key, version, True, user=element.get('user') or '')
    lon, lat = (
        (_degrees(element, key, name) for name in ('lon', 'lat')) if key[0] == 'n' else (None, None)
    )
    return opl.Object(
        key,
        version,
        False,
        user=element.get('user') or '',
        tags=_tags(element, key),
        lon=lon,
        lat=lat,
        nodes=tuple('n' + _whole(node, 'ref') for node in element.findall('nd')),
        members=tuple(_member(member) for member in element.findall('member')),
    )


def _tags(element: Element, key: str) -> Dict[str, str]:
    tags: Dict[str, str] = {}
    for tag in element.findall('tag'):
        name = tag.get('k') or ''
        if not name or name in tags:
            raise ValueError(
                '{} has {}'.format(key, f'two tags {name}' if name else 'a tag without a key')
            )
        tags[name] = tag.get('v') or ''
    return tags


def _member(element: Element) -> Tuple[str, str]:
    kind = element.get('type')
    if kind is None or kind not in opl.LETTERS:
        raise ValueError(f'a member has the type {kind!r}')
    return opl.LETTERS[kind] + _whole(element, 'ref'), element.get('role') or ''


def _whole(element: Element, name: str) -> str:
    text = element.get(name) or ''
    if not re.fullmatch('-?[0-9]{1,19}', text):
        raise ValueError(f'a {element.tag} has the {name} {text!r}')
    return str(int(text))


def _degrees(element: Element, key: str, name: str) -> Decimal:
    """A coordinate, rounded to 10^-7 degree: JOSM writes more digits of what it moved."""
    try:
        value = Decimal(element.get(name) or '').quantize(SEVENTH)
        if not value.is_finite():
            raise InvalidOperation
    except InvalidOperation:
        raise ValueError(f'{key} has the {name} {element.get(name)!r}') from None
    if abs(value) > LIMITS[name]:
        raise ValueError(f'{key} has the {name} {opl.degrees(value)}, which lies off the map')
    return value


def _each_once(keys: Iterable[str]) -> None:
    seen: set[str] = set()
    for key in keys:
        if key in seen:
            raise ValueError(f'{key} stands twice')
        seen.add(key)


# ---- writing ----


def josm_lines(table: Table, state: str) -> Iterator[str]:
    """The lines of a file for JOSM: the session's data, with what was changed, made and deleted
    here marked as JOSM marks it.

    `state` is a name for the session's state, of small letters, digits and `-`. The file says that
    it isn't to be uploaded from JOSM: the session sends what it holds, and would not know what JOSM
    sent. ValueError where a text can't stand in XML.
    """
    yield "<?xml version='1.0' encoding='UTF-8'?>"
    yield "<osm version='0.6' upload='never' generator='yoke'>"
    yield from _bounds(table, state)
    for known in table.things.values():
        if known.mine is not None:
            yield from _element(known.mine, known.base, 'modify' if known.edit else '')
        elif known.there is not None:
            yield from _element(known.there, known.base, 'delete')
    yield '</osm>'


def _bounds(table: Table, state: str) -> Iterator[str]:
    """The box of all nodes, the deleted ones too."""
    places = [
        (thing.lon, thing.lat)
        for known in table.things.values()
        for thing in (known.there, known.mine)
        if thing and thing.lon is not None
    ]
    if places:
        lons, lats = zip(*places)
        yield "  <bounds minlat='{}' minlon='{}' maxlat='{}' maxlon='{}' origin='yoke {}' />".format(
            *map(opl.degrees, (min(lats), min(lons), max(lats), max(lons))), state
        )


def _element(thing: opl.Object, base: Optional[opl.Object], action: str) -> Iterator[str]:
    attributes = (
        [('id', thing.key[1:])] + ([('action', action)] if action else []) + _metadata(thing, base)
    )
    if thing.key[0] == 'n':
        attributes += [
            ('lat', opl.degrees(opl.place(thing)[1])),
            ('lon', opl.degrees(opl.place(thing)[0])),
        ]
    yield f'  <{thing.kind} {_attributes(thing.key, attributes)}>'
    if action != 'delete':
        for node in thing.nodes:
            yield f'    <nd ref={quoteattr(node[1:])} />'
        for key, role in thing.members:
            yield '    <member {} />'.format(
                _attributes(
                    thing.key, [('type', opl.KINDS[key[0]]), ('ref', key[1:]), ('role', role)]
                )
            )
    for key, value in thing.tags.items():
        yield '    <tag {} />'.format(_attributes(thing.key, [('k', key), ('v', value)]))
    yield f'  </{thing.kind}>'


def _metadata(thing: opl.Object, base: Optional[opl.Object]) -> List[Tuple[str, str]]:
    """The attributes of the server's version; of a new object the mark by which it is known again."""
    if base is None:
        return [('user', 'yoke ' + thing.key), ('visible', 'true')]
    known = [
        ('timestamp', base.time),
        ('uid', str(base.uid or '')),
        ('user', base.user if base.uid else ''),
    ]
    return (
        [(name, value) for name, value in known if value]
        + [('visible', 'true'), ('version', str(base.version))]
        + ([('changeset', str(base.changeset))] if base.changeset else [])
    )


def _attributes(key: str, pairs: Iterable[Tuple[str, str]]) -> str:
    for _, value in pairs:
        found = NO_XML.search(value)
        if found:
            raise ValueError(f'{key} has a text with U+{ord(found[0]):04X}, which XML can\'t carry')
    return ' '.join(
        '{}={}'.format(name, quoteattr(value, {'\n': '&#10;', '\r': '&#13;', '\t': '&#9;'}))
        for name, value in pairs
    )
