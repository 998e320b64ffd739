"""The XML of API 0.6: osmChange documents, what a server answers to them, and its elements as
objects.

A change is a pair of a verb (`create`, `modify` or `delete`) and an `opl.Object`; of a `delete`
only key and version count.
"""
import re
from decimal import Decimal, InvalidOperation
from itertools import groupby
from typing import Any, Container, Dict, Iterable, List, Mapping, Optional, Sequence, Tuple
from xml.etree import ElementTree
from xml.etree.ElementTree import Element
from xml.sax.saxutils import quoteattr

from yoke import opl

VERBS = ('create', 'modify', 'delete')
NOT_CARRIED = re.compile(
    '[^\t\n\r -~\x80-\ud7ff\ue000-\ufffd\U00010000-\U0010ffff]'
)  # of XML, and U+007F, which the API refuses


Change = Tuple[str, opl.Object]


class NotThere(ValueError):
    """A changeset has none of the changes: they weren't taken."""


class NoXml(ValueError):
    """A text isn't the document that it is taken for: cut off, or another one."""


# ---- written ----


def document(changes: Iterable[Tuple[str, opl.Object]], changeset: str) -> str:
    """The osmChange document of changes that go into a changeset, in their order. ValueError where
    the API doesn't take a text.
    """
    lines = ['<osmChange version="0.6" generator="yokeorange">']
    for verb, group in groupby(changes, key=lambda change: change[0]):
        lines.append(f'  <{verb}>')
        for _, thing in group:
            lines += element_lines(thing, changeset, verb)
        lines.append(f'  </{verb}>')
    return '\n'.join(lines + ['</osmChange>']) + '\n'


def element_lines(thing: opl.Object, changeset: str, verb: str) -> List[str]:
    """The lines of an object in an osmChange document."""
    carried(thing)
    words = [
        f'id="{thing.key[1:]}"',
        f'version="{thing.version}"',
        f'changeset="{changeset}"',
    ]
    if verb == 'delete':
        return ['    <{} {}/>'.format(thing.kind, ' '.join(words))]
    if thing.lon is not None and thing.lat is not None:
        words += [
            f'lat="{opl.degrees(thing.lat)}"',
            f'lon="{opl.degrees(thing.lon)}"',
        ]
    inner = [f'      <nd ref="{node[1:]}"/>' for node in thing.nodes]
    inner += [
        '      <member type="{}" ref="{}" role={}/>'.format(
            opl.KINDS[key[0]], key[1:], attribute(role)
        )
        for key, role in thing.members
    ]
    inner += [
        f'      <tag k={attribute(key)} v={attribute(value)}/>' for key, value in thing.tags.items()
    ]
    return ['    <{} {}>'.format(thing.kind, ' '.join(words))] + inner + [f'    </{thing.kind}>']


def carried(thing: opl.Object) -> None:
    """ValueError where a text of an object has a character that the API doesn't take, such as
    U+0001.
    """
    found = NOT_CARRIED.search(
        ' '.join([*thing.tags, *thing.tags.values(), *(role for _, role in thing.members)])
    )
    if found:
        raise ValueError(
            '{}: a text has U+{:04X}, which the API doesn\'t take: take it out by tag or members'.format(
                thing.key, ord(found[0])
            )
        )


def attribute(text: str) -> str:
    """A text as the value of an attribute, in quotes; line feeds and tabs stay what they are."""
    return quoteattr(text, {'\n': '&#10;', '\r': '&#13;', '\t': '&#9;'})


def changeset(tags: Mapping[str, str]) -> str:
    """The document that opens a changeset with these tags."""
    inner = [f'    <tag k={attribute(key)} v={attribute(value)}/>' for key, value in tags.items()]
    return '\n'.join(['<osm>', '  <changeset>'] + inner + ['  </changeset>', '</osm>']) + '\n'


# ---- read ----


def root_of(text: str, *names: str) -> Element:
    """The root element of a document, whose name has to be one of these; NoXml where it isn't."""
    try:
        root = ElementTree.fromstring(text)
    except ElementTree.ParseError:
        raise NoXml('it is no whole XML: ' + ' '.join(text[:80].split())) from None
    if root.tag not in names:
        raise NoXml('it is <{}>, and no <{}>'.format(root.tag, '> or <'.join(names)))
    return root


def thing(element: Element) -> opl.Object:
    """The object of an element `<node>`, `<way>` or `<relation>`; NoXml where it is none. Places
    have seven digits after the point.
    """
    try:
        key = opl.LETTERS[element.tag] + element.attrib['id']
        deleted = element.get('visible') == 'false'
        has_place = not deleted and element.tag == 'node' and element.get('lon') is not None
        lon, lat = (
            Decimal(opl.degrees(Decimal(element.attrib[name]))) if has_place else None
            for name in ('lon', 'lat')
        )
        return opl.Object(
            key,
            int(element.get('version') or 0),
            deleted,
            int(element.get('changeset') or 0),
            element.get('timestamp') or '',
            int(element.get('uid') or 0),
            element.get('user') or '',
            {tag.attrib['k']: tag.attrib['v'] for tag in element.iter('tag')},
            lon,
            lat,
            tuple('n' + node.attrib['ref'] for node in element.iter('nd')),
            tuple(
                (
                    opl.LETTERS[member.attrib['type']] + member.attrib['ref'],
                    member.get('role') or '',
                )
                for member in element.iter('member')
            ),
        )
    except (KeyError, TypeError, ValueError, InvalidOperation):
        raise NoXml('<{} id="{}"> is no object'.format(element.tag, element.get('id'))) from None


def things(text: str) -> List[opl.Object]:
    """The objects of an `<osm>` document, deleted ones too, in its order."""
    return [thing(element) for element in root_of(text, 'osm') if element.tag in opl.LETTERS]


def changes(text: str) -> List[Change]:
    """The changes of an osmChange document, in its order."""
    found = []
    for part in root_of(text, 'osmChange'):
        if part.tag not in VERBS:
            raise NoXml(f'<{part.tag}> is no change')
        found += [(part.tag, thing(element)) for element in part]
    return found


def changeset_of(text: str) -> str:
    """The id of the changeset that an osmChange document of ours is made for."""
    found = re.search(' changeset="([0-9]+)"', text)
    if not found:
        raise NoXml('it names no changeset')
    return found[1]


# ---- answers ----


def answers(sent: Iterable[Change], text: str) -> List[str]:
    """The lines of an answer file for `confirm`, of the diffResult that a server answered to
    changes.

    ValueError where it doesn't answer each of them, in its own version, and no other.
    """
    results = {}
    for line in root_of(text, 'diffResult'):
        place = (
            opl.LETTERS.get(line.tag, '?') + (line.get('old_id') or ''),
            line.get('new_id') is None,
        )
        if place[0][0] == '?' or place in results:
            raise NoXml(
                '<{} old_id="{}"> is the result of no change, or a second one'.format(
                    line.tag, line.get('old_id')
                )
            )
        results[place] = line
    lines = []
    for verb, one in sent:
        result = results.pop((one.key, verb == 'delete'), None)
        if result is None:
            raise NoXml(f'{verb} {one.key} has no result')
        lines.append(answer(verb, one, result))
    if results:
        raise NoXml(f'{next(iter(results))[0]} has a result, and isn\'t among what was sent')
    return lines


def answer(verb: str, one: opl.Object, result: Element) -> str:
    """The answer to one change, of its line in a diffResult."""
    if verb == 'delete':
        return f'delete {one.key} v{one.version + 1}'
    key, version = one.key[0] + (result.get('new_id') or ''), result.get('new_version')
    if (
        version != str(one.version + 1)
        or not re.fullmatch('[nwr][1-9][0-9]*', key)
        or verb == 'modify'
        and key != one.key
    ):
        raise NoXml(f'{verb} {one.key} is {key} in version {version} now')
    return f'create {one.key} {key} v1' if verb == 'create' else f'modify {key} v{version}'


def result(sent: Iterable[Change]) -> str:
    """The diffResult of changes and deletions that were taken, made here where the server's own
    never came.
    """
    return result_of(f'{verb} {one.key} v{one.version + 1}' for verb, one in sent)


def result_of(lines: Iterable[str]) -> str:
    """The diffResult that says the same as lines of an answer file."""
    found = ['<diffResult version="0.6" generator="yoke">']
    for line in lines:
        verb, old, *_ = words = line.split(' ')
        new = words[2] if verb == 'create' else old
        rest = '' if verb == 'delete' else f' new_id="{new[1:]}" new_version="{words[-1][1:]}"'
        found.append(f'  <{opl.KINDS[old[0]]} old_id="{old[1:]}"{rest}/>')
    return '\n'.join(found + ['</diffResult>']) + '\n'


def looked_up(sent: Sequence[Change], text: str, given: Container[str] = ()) -> List[str]:
    """The lines of an answer file, of what a changeset has (`GET changeset/ID/download`), where no
    diffResult came.

    `given` are keys that the changeset gave to earlier changes: they answer none of these. A new
    object is the one with the same tags and the same place, nodes or members; of several alike the
    first gets the first id. NotThere where the changeset has none of the changes, ValueError where
    it has some of them alone, which no server does.
    """
    found = matched(sent, text, given)
    lines = [line for line in found if line]
    missing = [change for change, line in zip(sent, found) if line is None]
    if missing and lines:
        raise ValueError(
            'it has some of the changes and not others: not {} {}, and {}'.format(
                missing[0][0], missing[0][1].key, lines[0]
            )
        )
    if missing:
        raise NotThere('it has none of the changes')
    return lines


def matched(
    sent: Iterable[Tuple[str, opl.Object]], text: str, given: Container[str] = ()
) -> List[Optional[str]]:
    """The same line by line: None for each change that the changeset doesn't show."""
    there: Dict[Tuple[str, str, int], opl.Object] = {}
    made: Dict[Tuple[Any, ...], List[str]] = {}
    for verb, one in changes(text):
        if verb == 'create' and one.key not in given:
            made.setdefault(body(one, {}), []).append(one.key)
        there[verb, one.key, one.version] = one
    for keys in made.values():
        keys.sort(key=opl.rank, reverse=True)
    lines: List[Optional[str]] = []
    names: Dict[str, str] = {}
    for verb, one in sent:
        if verb == 'create':
            left = made.get(body(one, names))
            line = f'create {one.key} {left[-1]} v1' if left else None
            if left:
                names[one.key] = left.pop()
        else:
            found = there.get((verb, one.key, one.version + 1))
            alike = found is not None and (verb == 'delete' or body(found, {}) == body(one, names))
            line = f'{verb} {one.key} v{one.version + 1}' if alike else None
        lines.append(line)
    return lines


def body(one: opl.Object, names: Mapping[str, str]) -> Tuple[object, ...]:
    """What an object has but for its id, as something to compare; `names` are the keys that new
    objects got.
    """
    return (
        one.key[0],
        tuple(sorted(one.tags.items())),
        one.lon,
        one.lat,
        tuple(names.get(key, key) for key in one.nodes),
        tuple((names.get(key, key), role) for key, role in one.members),
    )
