"""Nodes, ways and relations as the strict server keeps them, read from OPL and OSM XML, and written
as both.

A place is kept in whole units of 10^-7 degree, as the live server's database keeps it.
"""
import dataclasses
import re
from decimal import ROUND_HALF_UP, Decimal
from typing import Dict, Iterable, Iterator, List, NamedTuple, Optional, Tuple
from xml.etree import ElementTree

KINDS = ('node', 'way', 'relation')
KIND_OF_LETTER = {kind[0]: kind for kind in KINDS}
UNITS = 10**7


class Member(NamedTuple):
    """A member of a relation: the kind and the id of what it names, and its role."""

    kind: str
    number: int
    role: str


@dataclasses.dataclass(frozen=True)
class Element:
    """One version of a node, a way or a relation; a deleted one has neither tags nor nodes nor
    members.
    """

    kind: str
    number: int
    version: int = 1
    visible: bool = True
    changeset: int = 0
    timestamp: str = ''
    uid: int = 0
    user: str = ''
    tags: Dict[str, str] = dataclasses.field(default_factory=dict)
    lon: Optional[int] = None
    lat: Optional[int] = None
    nodes: Tuple[int, ...] = ()
    members: Tuple[Member, ...] = ()

    @property
    def key(self) -> str:
        """The letter of the kind and the id, such as `n5`."""
        return self.kind[0] + str(self.number)

    @property
    def references(self) -> List[str]:
        """The keys of its nodes or members, each as often as it stands there."""
        return [f'n{node}' for node in self.nodes] + [
            member.kind[0] + str(member.number) for member in self.members
        ]

    @property
    def content(self) -> tuple:
        """All but the version and who made it when: what an edit changes."""
        return self.visible, self.tags, self.lon, self.lat, self.nodes, self.members


def rank(key: str) -> Tuple[int, int]:
    """The place of a key where nodes stand before ways before relations, with rising ids."""
    return 'nwr'.index(key[0]), int(key[1:])


def units(text: str) -> int:
    """Decimal degrees as units of 10^-7 degree, rounded to the nearest, halves away from zero;
    ValueError where the text is no number.
    """
    try:
        number = Decimal(text)
        if not number.is_finite():
            raise ValueError(f'no number: {text!r}')
        return int((number * UNITS).to_integral_value(ROUND_HALF_UP))
    except ArithmeticError:
        raise ValueError(f'no number: {text!r}')


def degrees(number: int) -> str:
    """Units of 10^-7 degree as decimal degrees with seven digits, as the live server writes them."""
    return '{}{}.{:07d}'.format(
        '-' if number < 0 else '', abs(number) // UNITS, abs(number) % UNITS
    )


# ---- OPL ----


def unquoted(text: str) -> str:
    """A text of OPL without its escapes."""
    return re.sub('%([0-9a-fA-F]+)%', lambda escape: chr(int(escape[1], 16)), text)


def quoted(text: str) -> str:
    """A text as OPL has it: blanks, the signs of the format and all beyond Latin letters as
    escapes.
    """
    return ''.join(
        f'%{ord(c):x}%' if c <= ' ' or c in '%,=@' or '\x7f' <= c <= '\xa0' or c >= '\u0600' else c
        for c in text
    )


def of_opl(line: str) -> Element:
    """The element of a line of OPL, whatever the order of its fields; ValueError where the line is
    none.
    """
    words = line.split()
    if not words or words[0][0] not in KIND_OF_LETTER:
        raise ValueError(f'no line of OPL: {line[:80]!r}')
    fields = {word[0]: word[1:] for word in words[1:]}
    visible = fields.get('d') != 'D'
    pairs = [pair.split('=', 1) for pair in fields.get('T', '').split(',') if pair]
    members = [member.split('@', 1) for member in fields.get('M', '').split(',') if member]
    place = [units(fields[letter]) if fields.get(letter) else None for letter in 'xy']
    return Element(
        KIND_OF_LETTER[words[0][0]],
        int(words[0][1:]),
        int(fields.get('v') or 1),
        visible,
        int(fields.get('c') or 0),
        fields.get('t', ''),
        int(fields.get('i') or 0),
        unquoted(fields.get('u', '')),
        {unquoted(key): unquoted(value) for key, value in pairs},
        place[0],
        place[1],
        tuple(int(node.split('x')[0][1:]) for node in fields.get('N', '').split(',') if node),
        tuple(
            Member(KIND_OF_LETTER[key[0]], int(key[1:]), unquoted(role)) for key, role in members
        ),
    )


def opl(element: Element) -> str:
    """The element as a line of OPL, without its end."""
    line = '{} v{} d{} c{} t{} i{} u{} T{}'.format(
        element.key,
        element.version,
        'V' if element.visible else 'D',
        element.changeset,
        element.timestamp,
        element.uid,
        quoted(element.user),
        ','.join(f'{quoted(key)}={quoted(value)}' for key, value in element.tags.items()),
    )
    if element.kind == 'node':
        return line + (
            f' x{degrees(element.lon)} y{degrees(element.lat)}' if element.visible else ' x y'
        )
    if element.kind == 'way':
        return line + ' N' + ','.join(f'n{node}' for node in element.nodes)
    return (
        line
        + ' M'
        + ','.join(
            f'{member.kind[0]}{member.number}@{quoted(member.role)}' for member in element.members
        )
    )


# ---- OSM XML ----


def of_xml(xml: ElementTree.Element) -> Element:
    """The element of a file in OSM XML."""
    place = [units(xml.get(name)) if xml.get(name) else None for name in ('lon', 'lat')]
    return Element(
        xml.tag,
        int(xml.get('id')),
        int(xml.get('version') or 1),
        xml.get('visible') != 'false',
        int(xml.get('changeset') or 0),
        xml.get('timestamp') or '',
        int(xml.get('uid') or 0),
        xml.get('user') or '',
        {tag.get('k'): tag.get('v') for tag in xml.iter('tag')},
        place[0],
        place[1],
        tuple(int(node.get('ref')) for node in xml.iter('nd')),
        tuple(
            Member(member.get('type'), int(member.get('ref')), member.get('role') or '')
            for member in xml.iter('member')
        ),
    )


def as_xml(element: Element) -> ElementTree.Element:
    """The element as the live server writes it: a deleted one has no more than its metadata."""
    words = {
        'id': str(element.number),
        'visible': 'true' if element.visible else 'false',
        'version': str(element.version),
        'changeset': str(element.changeset),
        'timestamp': element.timestamp,
    }
    if element.user:  # nobody knows who the others were
        words.update(user=element.user, uid=str(element.uid))
    if element.visible and element.lon is not None:
        words.update(lat=degrees(element.lat), lon=degrees(element.lon))
    xml = ElementTree.Element(element.kind, words)
    for node in element.nodes:
        ElementTree.SubElement(xml, 'nd', ref=str(node))
    for member in element.members:
        ElementTree.SubElement(
            xml, 'member', type=member.kind, ref=str(member.number), role=member.role
        )
    for key, value in element.tags.items():
        ElementTree.SubElement(xml, 'tag', k=key, v=value)
    return xml


# ---- files ----


def lines_of_opl(lines: Iterable[str]) -> Iterator[Element]:
    """The elements of lines of OPL; empty lines, comments and changesets are passed over."""
    for line in lines:
        if line.strip() and line[0] not in '#c':
            yield of_opl(line)


def read_file(path) -> List[Element]:
    """The elements of a file, which is OSM XML where its name ends in `.osm`, and OPL else."""
    if str(path).endswith('.osm'):
        return [of_xml(xml) for xml in ElementTree.parse(path).getroot() if xml.tag in KINDS]
    with open(path, encoding='utf-8', newline='\n') as lines:
        return list(lines_of_opl(lines))
