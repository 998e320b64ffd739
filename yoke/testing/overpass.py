"""A strict Overpass server in memory, for tests, on the loopback address alone.

    with StrictServer(read_file('town.opl')) as server:
        with StrictOverpass(server.database) as overpass:
            client(overpass.address)

It answers a small part of Overpass QL over the data of a strict server, as the live one does: a
query that it doesn't know is a 400 with a page of HTML; too many elements end the answer early, and
only a `remark` says so; a busy one answers 429 or 504. `faults` are answers that come first, as
`429`, `504`, `half` (cut off), `remark` and `redirect`.

    [out:xml][timeout:25][date:"2026-01-01T00:00:00Z"];
    ( node["amenity"="bench"](S,W,N,E); way(S,W,N,E); relation(5); );
    (._; >; ); out meta;
"""
import http.server
import re
import threading
import urllib.parse
from typing import Any, Callable, Dict, Iterable, List, Optional, Set, Tuple
from xml.etree import ElementTree

from yoke.testing.database import Database, document
from yoke.testing.elements import UNITS, Element, as_xml, rank, units

BASE = '2026-06-01T00:00:00Z'
TOKEN = re.compile(r'\s*("(?:[^"\\]|\\.)*"|[A-Za-z_][A-Za-z_0-9]*|-?[0-9.]+|[\[\](){};:,=.><~!])')
KINDS = {'node': 'n', 'way': 'w', 'rel': 'r', 'relation': 'r', 'nwr': 'nwr'}
OUTPUTS = ('meta', 'body', 'ids', 'tags', 'skel', 'center', 'bb', 'qt', 'asc', 'count')
TIMED_OUT = 'runtime error: Query timed out in "query" at line 1 after 26 seconds. '


class Unknown(Exception):
    """The query is none."""


class Query:
    """A query, run statement by statement over a database."""

    def __init__(self, text: str, database: Database):
        self.database, self.at, self.words = database, 0, []  # type: Database, int, List[str]
        place = 0
        text = re.sub(r'//[^\n]*|/\*.*?\*/', ' ', text, flags=re.S)
        while text[place:].strip():
            found = TOKEN.match(text, place)
            if not found:
                raise Unknown(text[place : place + 20].strip())
            self.words.append(found[1])
            place = found.end()
        self.current: Set[str] = set()
        self.output: List[Tuple[str, str]] = []  # keys, and how they are written

    def run(self) -> None:
        """Runs all statements; `output` has what they write."""
        while self._peek() == '[':
            self._setting()
        self._take(';', optional=not self.at)
        while self.at < len(self.words):
            self.current = self._statement()

    def _peek(self) -> str:
        return self.words[self.at] if self.at < len(self.words) else ''

    def _take(self, word: str = '', optional: bool = False) -> str:
        found = self._peek()
        if word and found != word:
            if optional:
                return ''
            raise Unknown(f'"{word}" expected - "{found}" found.')
        self.at += 1
        return found

    def _setting(self) -> None:
        self._take('[')
        name = self._take()
        if name not in ('out', 'timeout', 'date', 'maxsize', 'bbox'):
            raise Unknown(f'Unknown setting {name}')
        self._take(':')
        while self._peek() not in (']', ''):
            self._take()
        self._take(']')

    def _statement(self) -> Set[str]:
        word = self._take()
        if word == '(':
            found: Set[str] = set()
            before = self.current
            while self._peek() != ')':
                found |= self._statement()
                self.current = before
            self._take(')')
            self._take(';')
            return found
        if word == '.':
            self._take('_')
            self._take(';')
            return self.current
        if word == '>':
            self._take(';')
            return self._below(self.current)
        if word == 'out':
            self._out()
            return self.current
        if word in KINDS:
            found = self._select(KINDS[word])
            self._take(';')
            return found
        raise Unknown(f'Unknown type "{word}"')

    def _out(self) -> None:
        how = 'body'
        while self._peek() != ';':
            word = self._take()
            if word not in OUTPUTS:
                raise Unknown(f'"{word}" is no output')
            how = word if word in ('meta', 'body', 'ids', 'tags', 'skel', 'count') else how
        self._take(';')
        self.output += [(key, how) for key in sorted(self.current, key=rank)]

    def _select(self, letters: str) -> Set[str]:
        tests: List[Callable[[Element], bool]] = []
        while self._peek() in ('[', '('):
            tests.append(self._tag() if self._peek() == '[' else self._place())
        if not tests:
            raise Unknown('a query without a filter')
        return {
            element.key
            for element in self.database.all()
            if element.visible and element.key[0] in letters and all(t(element) for t in tests)
        }

    def _tag(self) -> Callable[[Element], bool]:
        self._take('[')
        key = self._take().strip('"')
        value = self._take().strip('"') if self._take('=', optional=True) else None
        self._take(']')
        return lambda element: key in element.tags and value in (None, element.tags[key])

    def _place(self) -> Callable[[Element], bool]:
        self._take('(')
        numbers = [self._take()]
        while self._take(',', optional=True):
            numbers.append(self._take())
        self._take(')')
        if len(numbers) == 1:
            return lambda element: str(element.number) == numbers[0]
        if len(numbers) != 4:
            raise Unknown('a box has four numbers')
        south, west, north, east = (units(number) for number in numbers)
        if not -90 * UNITS <= south <= north <= 90 * UNITS:
            raise Unknown('the box is none')

        def is_in(element: Element) -> bool:
            if element.kind == 'node':
                return west <= (element.lon or 0) <= east and south <= (element.lat or 0) <= north
            members = map(self.database.current, element.references)
            return any(
                one is not None and one.visible and one.kind != 'relation' and is_in(one)
                for one in members
            )

        return is_in

    def _below(self, keys: Iterable[str]) -> Set[str]:
        """Nodes of ways, members of relations and nodes of these members."""
        found: Set[str] = set()
        for key in keys:
            one = self.database.current(key)
            found.update(one.references if one else ())
        for key in [key for key in found if key[0] == 'w']:
            one = self.database.current(key)
            found.update(one.references if one else ())
        return {key for key in found if self.database.is_there(key)}


class StrictOverpass:
    """The server, which listens in a thread of its own while it is used as a context."""

    def __init__(self, database: Database, most: int = 1_000_000):
        self.database, self.most = database, most
        self.faults: List[str] = []
        self.queries: List[str] = []
        self.agents: List[str] = []
        self.headers: List[Dict[str, str]] = []
        self._http = Listener(('127.0.0.1', 0), Handler)
        self._http.owner = self
        self._thread = threading.Thread(
            target=self._http.serve_forever, kwargs={'poll_interval': 0.02}, daemon=True
        )

    def __enter__(self) -> 'StrictOverpass':
        self._thread.start()
        return self

    def __exit__(self, *why: Any) -> None:
        self._http.shutdown()
        self._http.server_close()
        self._thread.join()

    @property
    def address(self) -> str:
        """The address of the interpreter."""
        return f'http://127.0.0.1:{self._http.server_address[1]}/api/interpreter'

    def answer(self, text: str) -> Tuple[int, bytes]:
        """The status and the body of the answer to a query."""
        query = Query(text, self.database)
        try:
            query.run()
        except Unknown as why:
            return 400, page(f'line 1: parse error: {why}')
        children = [ElementTree.Element('note'), ElementTree.Element('meta', osm_base=BASE)]
        children[0].text = 'The data included in this document is from www.openstreetmap.org.'
        found = [shown(self.database.current(key), how) for key, how in query.output]
        children += found[: self.most]
        if len(found) > self.most or 'remark' in self.faults[:1]:
            remark = ElementTree.Element('remark')
            remark.text = TIMED_OUT
            children.append(remark)
        return 200, document('osm', children)


def shown(element: Optional[Element], how: str) -> ElementTree.Element:
    """An element as `out` writes it."""
    assert element is not None
    xml = as_xml(element)
    del xml.attrib['visible']
    if how != 'meta':
        for name in ('version', 'changeset', 'timestamp', 'user', 'uid'):
            xml.attrib.pop(name, None)
    if how in ('ids', 'tags'):
        for child in list(xml):
            if how == 'ids' or child.tag != 'tag':
                xml.remove(child)
        xml.attrib.pop('lat', None)
        xml.attrib.pop('lon', None)
    if how == 'count':
        xml = ElementTree.Element('count')
    return xml


def page(text: str) -> bytes:
    """A page of HTML, as the live server has for errors."""
    text = text.replace('&', '&amp;').replace('<', '&lt;')
    return (
        '<!DOCTYPE html><html><head><title>OSM3S Response</title><style>p {color: red}</style>'
        f'</head><body><p><strong style="color:#FF0000">Error</strong>: {text} </p></body></html>'
    ).encode()


class Listener(http.server.ThreadingHTTPServer):
    """What listens for the server."""

    daemon_threads = True
    block_on_close = False
    owner: StrictOverpass


class Handler(http.server.BaseHTTPRequestHandler):
    """Reads queries, and answers them or as the faults say."""

    server: Listener

    def log_message(self, format: str, *words: Any) -> None:  # pylint: disable=redefined-builtin
        """Keeps no log."""

    def do_POST(self) -> None:  # pylint: disable=invalid-name
        """Answers a query."""
        owner = self.server.owner
        body = self.rfile.read(int(self.headers.get('Content-Length') or 0)).decode('utf-8')
        fields = dict(urllib.parse.parse_qsl(body, keep_blank_values=True))
        owner.headers.append({name.lower(): value for name, value in self.headers.items()})
        owner.agents.append(self.headers.get('User-Agent') or '')
        if self.path != '/api/interpreter' or list(fields) != ['data']:
            return self._send(404, page('there is no such page'))
        if '/' not in owner.agents[-1]:
            return self._send(406, page('say by User-Agent which program this is'))
        owner.queries.append(fields['data'])
        fault = owner.faults[0] if owner.faults else ''
        try:
            status, data = owner.answer(fields['data'])
        except Unknown as why:
            status, data = 400, page(f'line 1: parse error: {why}')
        if fault:
            del owner.faults[:1]
        if fault.startswith(('429', '504', '500')):
            status, wait = int(fault[:3]), fault[4:]
            return self._send(
                status,
                page('The server is probably too busy to handle your request.'),
                {'Retry-After': wait} if wait else {},
            )
        if fault == 'redirect':
            return self._send(302, b'', {'Location': owner.address})
        if fault == 'half':
            return self._send(status, data, half=True)
        return self._send(status, data)

    def _send(
        self, status: int, data: bytes, headers: Optional[Dict[str, str]] = None, half: bool = False
    ) -> None:
        self.send_response(status)
        self.send_header('Content-Type', 'application/osm3s+xml')
        self.send_header('Content-Length', str(len(data)))
        for name, value in (headers or {}).items():
            self.send_header(name, value)
        self.end_headers()
        self.wfile.write(data[: len(data) // 2] if half else data)
