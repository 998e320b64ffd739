"""What a query finds at an Overpass server.

An answer that is cut off looks like a whole one: Overpass says so only by a `remark` at its end.
So an answer with a remark is refused, and one whose objects lack what an edit needs.
"""
import os
import re
from typing import Callable, Optional, Tuple
from xml.etree import ElementTree

from yoke import api, opl, osc, transport, web, words
from yoke.extracts import boxes, header
from yoke.extracts.parts import Parts
from yoke.extracts.whole import Whole
from yoke.trouble import NoAnswer, Refused, ServerRefused, Trouble

WAITS = (5, 30, 60)  # seconds before a busy server is asked again, if it doesn't say
BUSY = (429, 503, 504)
BBOX = '{{bbox}}'
IGNORED = ('note', 'meta', 'bounds')
DATE = re.compile(r'\[\s*date\s*:\s*"([^"]*)"\s*\]')
NOT_XML = re.compile(r'\[\s*out\s*:\s*(?!xml\s*\])')
PAST = re.compile(r'\[\s*a?diff\s*:')


def query_of(text: str, bbox: Optional[str]) -> str:
    """The query of a file, with the box in the place of `{{bbox}}`. Refused if its answer couldn't
    be used."""
    if NOT_XML.search(text):
        raise Refused('the query asks for another form than XML: take [out:..] out of it')
    if PAST.search(text):
        raise Refused('the query asks for a difference, and an extract is of one moment')
    if BBOX in text:
        if not bbox:
            raise Refused('the query has {{bbox}}: say which one by --bbox')
        found = boxes.read(bbox)
        if len(found) > 1:
            raise Refused('a box across the 180th meridian is two queries for Overpass')
        west, south, east, north = boxes.words(found[0]).split(',')
        text = text.replace(BBOX, ','.join((south, west, north, east)))
    elif bbox:
        raise Refused('--bbox is given, and the query has no {{bbox}} in it')
    if not text.strip():
        raise Refused('the query is empty')
    return text


def fetch(address: str, query: str, parts: Parts, note: Callable[[str], None]) -> str:
    """The path of a file with the answer, which is whole XML or not: `read` looks."""
    path = parts.path('answer')
    if path.exists():
        return str(path)
    for wait in (*WAITS, None):
        answer = web.post_form(address, {'data': query}, most=transport.MOST)
        if answer.status == 200:
            new = path.with_suffix('.new')
            with open(new, 'wb') as file:
                file.write(answer.body)
                file.flush()
                os.fsync(file.fileno())
            note(f'{len(answer.body)} bytes came from {web.host(address)}')
            os.replace(new, path)
            return str(path)
        text = plain(answer.body)
        if answer.status not in BUSY or wait is None:
            raise refused(address, answer.status, text)
        told = answer.headers.get('retry-after')
        wait = min(api.seconds(told) or wait, api.PATIENCE)
        note(f'{web.host(address)} is busy ({answer.status}); asked again in {wait} s')
        api.pause(wait)
    raise AssertionError('the last wait is None')


def plain(data: bytes) -> str:
    """The text of a page of HTML."""
    text = re.sub(
        '<(style|script)[^>]*>.*?</\\1>', ' ', data.decode('utf-8', 'replace'), flags=re.S
    )
    return str(words.cut(' '.join(re.sub('<[^>]*>', ' ', text).split()), 300))


def refused(address: str, status: int, text: str) -> Trouble:
    """What to raise for an answer other than 200."""
    message = f'{web.host(address)} answers {status}: {text or "nothing else"}'
    if status == 400:
        return ServerRefused(message + '; mend the query', status, text)
    return NoAnswer(message + '; try again later, or with a smaller query')


def read(path: str, query: str) -> Tuple[Whole, Optional[str]]:
    """The objects of an answer, and of which moment they are. NoAnswer if it is cut off, Refused if
    its objects can't be edited."""
    whole, moment, depth = Whole(), None, 0
    root: Optional[ElementTree.Element] = None
    try:
        for event, element in ElementTree.iterparse(path, events=('start', 'end')):
            depth += 1 if event == 'start' else -1
            if event == 'start':
                root = element if root is None else root
            elif depth == 1 and root is not None:
                if element.tag == 'meta':
                    moment = element.get('osm_base')
                take(element, whole)
                root.clear()
    except ElementTree.ParseError as error:
        raise NoAnswer(f'the answer is no whole XML ({error}): it was cut off') from None
    if root is None or root.tag != 'osm':
        raise NoAnswer('the answer is no <osm> document')
    date = DATE.search(query)
    moment = date[1] if date else moment
    return whole, moment if header.is_stamp(moment) else None


def take(element: ElementTree.Element, whole: Whole) -> None:
    """Takes an element of an answer in."""
    if element.tag == 'remark':
        said = words.cut(' '.join((element.text or '').split()), 200)
        raise NoAnswer(
            f'Overpass cut its answer off: {said}; ask for less, or allow more '
            'by [timeout:..] and [maxsize:..]'
        )
    if element.tag in IGNORED:
        return
    if element.tag not in opl.LETTERS:
        raise Refused(
            f'the answer has <{words.cut(element.tag, 40)}>, which is no object: '
            'end the query in `out meta;`'
        )
    try:
        thing = osc.thing(element)
    except osc.NoXml as fault:
        raise NoAnswer(f'the answer has an object that is none: {fault}') from None
    if not thing.version:
        raise Refused(
            f'{thing.key} has no version, so it can\'t be edited: ' 'end the query in `out meta;`'
        )
    has_body = (
        thing.lon is not None if thing.key[0] == 'n' else bool(thing.nodes) or thing.key[0] == 'r'
    )
    if not has_body:
        raise Refused(
            f'{thing.key} came without its {"place" if thing.key[0] == "n" else "nodes"}:'
            ' write `out meta;`, and not `out tags` or `out ids`'
        )
    whole.add(thing)
