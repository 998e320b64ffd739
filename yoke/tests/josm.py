"""A layer of JOSM, as far as `yoke to-josm` and `yoke josm` meet it: what it makes of a file, and
what it saves.

Written from the form of the files that JOSM saves:

- attributes stand in apostrophes, in the order id, action, timestamp, uid, user, visible, version, changeset, lat, lon; a node
  without tags is one element without content;
- nodes stand before ways before relations, each by rising ids, so that new objects come first;
- a new object gets another id whenever a file is opened; it keeps its `user`, and has neither version nor changeset;
- places have up to eleven digits after the point; tags are sorted by their keys; a line feed is `&#xA;`;
- what is deleted keeps its tags and its place, and has no nodes or members; what was made and deleted isn't saved;
- the bounds keep their origin, and the file what it says of uploads.
"""
import re
from dataclasses import dataclass, field
from decimal import Decimal
from typing import Dict, List, Optional, Tuple
from xml.etree import ElementTree

KINDS = ('node', 'way', 'relation')
SIGNS = {
    '<': '&lt;',
    '>': '&gt;',
    '"': '&quot;',
    "'": '&apos;',
    '&': '&amp;',
    '\n': '&#xA;',
    '\r': '&#xD;',
    '\t': '&#x9;',
}
METADATA = ('timestamp', 'uid', 'user', 'visible', 'version', 'changeset')


@dataclass
class Primitive:
    """An object of the layer; `nodes` and `members` name others by kind and id."""

    kind: str
    number: int
    words: Dict[str, str] = field(default_factory=dict)
    tags: Dict[str, str] = field(default_factory=dict)
    lat: Optional[Decimal] = None
    lon: Optional[Decimal] = None
    nodes: List[int] = field(default_factory=list)
    members: List[Tuple[str, int, str]] = field(default_factory=list)
    modified: bool = False
    deleted: bool = False


class Layer:
    """The objects of a layer by kind and id."""

    def __init__(self, data: bytes, next_id: int = -101_752):
        root = ElementTree.fromstring(data)
        self.upload, self.next_id = root.get('upload'), next_id
        self.bounds = [box.attrib for box in root.iter('bounds')]
        self.things: Dict[Tuple[str, int], Primitive] = {}
        numbers = {
            (one.tag, int(one.get('id'))): self._number(int(one.get('id')))
            for one in root
            if one.tag in KINDS
        }
        for one in root:
            if one.tag in KINDS:
                thing = _read(one, numbers)
                self.things[thing.kind, thing.number] = thing

    def _number(self, number: int) -> int:
        """The id that an object of the file gets."""
        if number > 0:
            return number
        self.next_id -= 1
        return self.next_id + 1

    # ---- what a mapper does ----

    def add(self, kind: str, **what) -> int:
        """A new object; gives its id."""
        number = self._number(-1)
        self.things[kind, number] = Primitive(
            kind, number, {'visible': 'true'}, modified=True, **what
        )
        return number

    def change(self, kind: str, number: int, **what) -> None:
        """Changes parts of an object."""
        thing = self.things[kind, number]
        for name, value in what.items():
            setattr(thing, name, value)
        thing.modified = True

    def delete(self, kind: str, number: int) -> None:
        """Deletes an object; of a way the nodes too that nothing else uses and that have no tags.
        What refers to it loses it.
        """
        thing = self.things[kind, number]
        nodes = list(thing.nodes)
        for other in self.living():
            if kind == 'node' and number in other.nodes:
                self.change(
                    'way', other.number, nodes=[node for node in other.nodes if node != number]
                )
            if any(member[:2] == (kind, number) for member in other.members):
                self.change(
                    'relation',
                    other.number,
                    members=[member for member in other.members if member[:2] != (kind, number)],
                )
        thing.nodes, thing.members, thing.deleted, thing.modified = [], [], True, True
        for node in dict.fromkeys(nodes):
            found = self.things.get(('node', node))
            if found and not found.deleted and not found.tags and not self.uses('node', node):
                self.delete('node', node)

    def uses(self, kind: str, number: int) -> List[Primitive]:
        """What refers to an object."""
        return [
            one
            for one in self.living()
            if kind == 'node'
            and number in one.nodes
            or any(member[:2] == (kind, number) for member in one.members)
        ]

    def living(self) -> List[Primitive]:
        return [one for one in self.things.values() if not one.deleted]

    # ---- the file ----

    def save(self) -> bytes:
        """What JOSM writes."""
        lines = [
            "<?xml version='1.0' encoding='UTF-8'?>",
            "<osm version='0.6'{} generator='JOSM'>".format(
                f" upload='{self.upload}'" if self.upload else ''
            ),
        ]
        for box in self.bounds:
            lines.append(
                '  <bounds {} />'.format(
                    _words(
                        [
                            (name, box[name])
                            for name in ('minlat', 'minlon', 'maxlat', 'maxlon', 'origin')
                            if name in box
                        ]
                    )
                )
            )
        for kind in KINDS:
            for thing in sorted(
                (one for one in self.things.values() if one.kind == kind),
                key=lambda one: one.number,
            ):
                if thing.number > 0 or not thing.deleted:
                    lines += _lines(thing)
        return '\n'.join(lines + ['</osm>', '']).encode()


def _read(one, numbers) -> Primitive:
    def name(kind, number):
        return numbers.get((kind, number), number)

    action = one.get('action')
    return Primitive(
        one.tag,
        name(one.tag, int(one.get('id'))),
        {word: one.get(word) for word in METADATA if one.get(word)},
        {tag.get('k'): tag.get('v') for tag in one.iter('tag')},
        one.get('lat') and Decimal(one.get('lat')),
        one.get('lon') and Decimal(one.get('lon')),
        [name('node', int(node.get('ref'))) for node in one.iter('nd')],
        [
            (
                member.get('type'),
                name(member.get('type'), int(member.get('ref'))),
                member.get('role') or '',
            )
            for member in one.iter('member')
        ],
        action in ('modify', 'delete'),
        action == 'delete',
    )


def _lines(thing: Primitive) -> List[str]:
    pairs = [('id', str(thing.number))] + (
        [('action', 'delete' if thing.deleted else 'modify')] if thing.modified else []
    )
    pairs += [(word, thing.words[word]) for word in METADATA if word in thing.words]
    if thing.kind == 'node':
        pairs += [('lat', _degrees(thing.lat)), ('lon', _degrees(thing.lon))]
    inner = [f"    <nd ref='{node}' />" for node in thing.nodes]
    inner += [
        f"    <member type='{kind}' ref='{number}' role='{_escaped(role)}' />"
        for kind, number, role in thing.members
    ]
    inner += [
        f"    <tag k='{_escaped(key)}' v='{_escaped(value)}' />"
        for key, value in sorted(thing.tags.items())
    ]
    if thing.kind == 'node' and not inner:
        return [f'  <node {_words(pairs)} />']
    return [f'  <{thing.kind} {_words(pairs)}>'] + inner + [f'  </{thing.kind}>']


def _words(pairs) -> str:
    return ' '.join(f"{name}='{_escaped(value)}'" for name, value in pairs)


def _escaped(text: str) -> str:
    return re.sub('[<>"\'&\n\r\t]', lambda found: SIGNS[found[0]], text)


def _degrees(number: Decimal) -> str:
    text = f'{number:.11f}'.rstrip('0')
    return text + '0' if text.endswith('.') else text
