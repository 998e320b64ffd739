"""Objects of the map as OPL lines have them, and the texts of scripts: read, and written.

The grammar is docs/OPL.md. What is read here was written by `editor`, or is about to be read by it,
so nothing is tested beyond what is needed to take a line apart: `editor` refuses what is wrong.
"""
import re
from dataclasses import dataclass, field
from decimal import Decimal, InvalidOperation
from typing import Callable, Dict, Iterable, List, Mapping, Optional, Tuple, Union

KINDS = {'n': 'node', 'w': 'way', 'r': 'relation'}  # by the letter of a key
LETTERS = {name: letter for letter, name in KINDS.items()}
LONGEST = 255  # characters of a key, a value or a role
KEY = re.compile('[nwr]-?[0-9]{1,19}')
ESCAPED = re.compile('[\x00-\x20\x7f-\xa0\xad%,=@\u0600-\U0010ffff]')


@dataclass(frozen=True)
class Object:
    """An object: its key, such as `n1` or `w-2`, its metadata, and its content.

    `lon` and `lat` are degrees of a node, and None where there is no place; `nodes` are keys of a
    way's nodes; `members` are pairs of key and role. A deleted object has no content.
    """

    key: str
    version: int = 0
    deleted: bool = False
    changeset: int = 0
    time: str = ''
    uid: int = 0
    user: str = ''
    tags: Dict[str, str] = field(default_factory=dict)
    lon: Optional[Decimal] = None
    lat: Optional[Decimal] = None
    nodes: Tuple[str, ...] = ()
    members: Tuple[Tuple[str, str], ...] = ()

    @property
    def kind(self) -> str:
        """`node`, `way` or `relation`."""
        return KINDS[self.key[0]]

    @property
    def content(self) -> Tuple[object, ...]:
        """What an edit can change: tags, place, nodes and members. Two objects are alike where
        these are equal.
        """
        return self.tags, self.lon, self.lat, self.nodes, self.members

    @property
    def references(self) -> Tuple[str, ...]:
        """The keys of all to which it refers, in order, as often as they stand."""
        return self.nodes + tuple(key for key, _ in self.members)


def is_digits(text: str) -> bool:
    """Whether a text is a number in the digits 0 to 9 alone: `isdigit` takes other signs too, such
    as `²`.
    """
    return text.isascii() and text.isdigit()


def rank(key: str) -> Tuple[int, bool, int]:
    """Sorts keys as `print` does: nodes, ways, relations; within a kind positive ids rising, and
    then -1, -2 and on.
    """
    number = int(key[1:])
    return 'nwr'.index(key[0]), number < 0, abs(number)


def escape(text: str) -> str:
    """A text of any length as it stands in OPL and in a script, such as a file's name; ValueError
    if it has U+0000.
    """
    if '\0' in text:
        raise ValueError('a text with U+0000')
    return ESCAPED.sub(lambda found: f'%{ord(found[0]):02x}%', text)


def unescape(text: str) -> str:
    """The text that an OPL text stands for."""
    return re.sub('%([0-9a-fA-F]{1,6})%', lambda found: chr(int(found[1], 16)), text)


def quote(text: str) -> str:
    """A key, a value or a role as it stands in OPL; ValueError if it is longer than the map takes."""
    if len(text) > LONGEST:
        raise ValueError(f'{len(text)} characters, and the map takes {LONGEST}: {text[:40]}...')
    return escape(text)


def degrees(number: Union[Decimal, float]) -> str:
    """Degrees as OPL has them: at most seven digits after the point. Takes a Decimal, a float or an
    int.
    """
    text = f'{number:.7f}'.rstrip('0').rstrip('.')
    return '0' if text in ('-0', '') else text


def place(node: Object) -> Tuple[Decimal, Decimal]:
    """The longitude and the latitude of a node that has a place, in degrees."""
    assert node.lon is not None and node.lat is not None
    return node.lon, node.lat


def tags(pairs: Mapping[str, str], text: Callable[[str], str] = quote) -> str:
    """Tags as they stand after a `T`, in the order of the mapping."""
    return ','.join(f'{text(key)}={text(value)}' for key, value in pairs.items())


def members(pairs: Iterable[Tuple[str, str]], text: Callable[[str], str] = quote) -> str:
    """Members, pairs of key and role, as they stand after an `M`."""
    return ','.join(f'{key}@{text(role)}' for key, role in pairs)


def content_words(thing: Object) -> List[str]:
    """The fields of an object's content, as `T..`, `x..`, `y..`, `N..`, `M..`, for its kind; texts
    of any length.
    """
    words = ['T' + tags(thing.tags, escape)]
    if thing.key[0] == 'n':
        words += [
            letter + ('' if number is None else degrees(number))
            for letter, number in (('x', thing.lon), ('y', thing.lat))
        ]
    if thing.key[0] == 'w':
        words.append('N' + ','.join(thing.nodes))
    if thing.key[0] == 'r':
        words.append('M' + members(thing.members, escape))
    return words


def line(thing: Object) -> str:
    """An object as a line of OPL, without a line feed; a deleted one has no content."""
    metadata = [
        f'v{thing.version}',
        'dD' if thing.deleted else 'dV',
        f'c{thing.changeset}',
        't' + thing.time,
        f'i{thing.uid}',
        'u' + escape(thing.user),
    ]
    return ' '.join([thing.key] + metadata + ([] if thing.deleted else content_words(thing)))


def parse(text: str) -> Object:
    """The object of an OPL line, whatever the order of its fields; ValueError where it isn't one."""
    first, *rest = re.split('[ \t]+', text.strip(' \t\r\n'))
    if not KEY.fullmatch(first):
        raise ValueError('no object: ' + text[:60])
    fields = {word[0]: word[1:] for word in rest}
    deleted = fields.get('d') == 'D'
    try:
        return Object(
            first,
            int(fields.get('v') or 0),
            deleted,
            int(fields.get('c') or 0),
            fields.get('t', ''),
            int(fields.get('i') or 0),
            unescape(fields.get('u', '')),
            _pairs(fields.get('T', ''), '='),
            _number(fields.get('x')),
            _number(fields.get('y')),
            tuple(node.split('x')[0] for node in fields.get('N', '').split(',') if node),
            tuple(_member(member) for member in fields.get('M', '').split(',') if member),
        )
    except (ValueError, InvalidOperation, IndexError):
        raise ValueError('no object: ' + text[:60]) from None


def _pairs(text: str, sign: str) -> Dict[str, str]:
    pairs = (pair.split(sign, 1) for pair in text.split(',') if pair)
    return {unescape(key): unescape(value) for key, value in pairs}


def _member(text: str) -> Tuple[str, str]:
    key, role = text.split('@', 1)
    return key, unescape(role)


def _number(text: Optional[str]) -> Optional[Decimal]:
    return Decimal(text) if text else None
