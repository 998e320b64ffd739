"""A strict server of the OpenStreetMap API 0.6 in memory, for tests, on the loopback address alone.

    python3 -m yoke.testing.server [--port N] [--changeset-elements N] DATA.opl|DATA.osm

prints its address and serves until it is ended. In a test:

    with StrictServer(read_file('town.opl')) as server:
        server.faults.once('drop-after', 'upload')
        server.before('upload', 2, lambda: server.edit('modify', 'n1', tags={'name': 'theirs'}))
        client(server.address, token=TOKEN)
        assert server.created_twice() == []

It has the rules of API 0.6 that are written in `database.py` and here, and no others: it was made
from what is known of the live server, and not compared with it. `TOKEN` is the token of the user
who is tried; `server.edit` changes the data as somebody else. Each operation has a name, by which
faults and hooks find it: `capabilities`, `permissions`, `details`, `create`, `changeset`, `close`,
`upload`, `download`, `map`, `element`, `version`, `history`, `full`, `many` and `users`.

`server.scopes` says what a token may do, and `server.blocks` which account may do nothing. Answers
are compressed for who asks for it, and `server.connections` counts how many connections were
opened.

Another process sets the same by `POST /control/faults`, `/control/edit`, `/control/limits`,
`/control/account` and `/control/redact`, each with a JSON object of the arguments, and reads `GET
/control/history` and `GET /control/elements`. `/control/edit` may have `before_upload`, the number
of the upload before which it is to happen.
"""
import argparse
import gzip
import http.server
import json
import os
import re
import socket
import sys
import threading
import urllib.parse
from collections import Counter
from http import HTTPStatus
from typing import Any, Callable, Dict, Iterable, List, NamedTuple, Optional, Tuple
from xml.etree import ElementTree

from yoke.testing.authorisation import PATHS, Authorisation
from yoke.testing.database import (
    Change,
    Database,
    Limits,
    Refusal,
    User,
    document,
    stamp,
    too_fast,
    too_many,
    too_much,
    too_wide,
)
from yoke.testing.elements import KIND_OF_LETTER, Element, Member, as_xml, opl, read_file, units
from yoke.testing.faults import Faults

TOKEN = 'token-of-the-mapper'
MAPPER = User(1001, 'mapper')
SOMEBODY = User(1002, 'somebody')
USERS = {TOKEN: MAPPER, 'token-of-somebody': SOMEBODY}
SCOPES = (
    'read_prefs',
    'write_prefs',
    'write_api',
)  # what a token may do, unless the server says otherwise
BLOCKS = {  # the texts by which an account is told that it may do nothing, by their causes
    'block': 'Your access to the API has been blocked. Please log-in to the web interface to find out more.',
    'message': 'You have an urgent message on the OpenStreetMap web site. You need to read the message before you will be able to '
    'save your edits.',
    'terms': 'Your access to the API is temporarily suspended. Please log-in to the web interface to view the Contributor Terms. '
    'You do not need to agree, but you must view them.',
}
NO_SCOPE = (
    {  # the texts by which a token is told that it may not do something, by the scope that it lacks
        'write_api': 'You have not granted the modify map permission',
        'read_prefs': 'You have not permitted the application access to this facility',
    }
)
MOST_BYTES = 64 * 1024 * 1024  # of a request
KIND = '(node|way|relation)'


class Answer(NamedTuple):
    """An answer of HTTP."""

    status: int
    body: bytes = b''
    type: str = 'text/plain; charset=utf-8'
    headers: Tuple[Tuple[str, str], ...] = ()


class Request(NamedTuple):
    """A request: what stands in its path at the places of the route, its query, its body, whose it
    is, if anybody's, and what its token may do.
    """

    parts: Tuple[str, ...]
    query: Dict[str, str]
    body: bytes
    user: Optional[User]
    scopes: Tuple[str, ...] = ()


class Hook(NamedTuple):
    """What is called before or after the request of an operation with a number."""

    when: str
    operation: str
    number: int
    call: Callable[[], Any]


class Late:
    """A request that is done later, although its connection is closed, and how many requests come
    before that.
    """

    def __init__(self, route: 'Route', request: Request, requests: int):
        self.route, self.request, self.requests = route, request, requests


def xml(body: bytes) -> Answer:
    """An answer that is a document."""
    return Answer(200, body, 'application/xml; charset=utf-8')


def elements(found: Iterable[Element]) -> Answer:
    """An answer that is a document of elements."""
    return xml(document('osm', [as_xml(element) for element in found]))


def refused(why: Refusal) -> Answer:
    """The answer of a refusal: its text stands in the header `Error` too, as the live server has
    it.
    """
    line = ' '.join(why.text.split()).encode('ascii', 'replace').decode('ascii')
    return Answer(
        why.status,
        why.text.encode('utf-8'),
        headers=tuple(why.headers.items()) + ((('Error', line),) if why.text else ()),
    )


# ---- the operations ----


def capabilities(database: Database, request: Request) -> Answer:
    return xml(database.capabilities())


def permissions(database: Database, request: Request) -> Answer:
    found = ElementTree.Element('permissions')
    for scope in request.scopes:
        ElementTree.SubElement(found, 'permission', name='allow_' + scope)
    return xml(document('osm', [found]))


def details(database: Database, request: Request) -> Answer:
    user = request.user
    found = ElementTree.Element(
        'user', id=str(user.number), display_name=user.name, account_created=stamp(0)
    )
    ElementTree.SubElement(
        found,
        'changesets',
        count=str(sum(one.user == user for one in database.changesets.values())),
    )
    return xml(document('osm', [found]))


def create(database: Database, request: Request) -> Answer:
    return Answer(200, str(database.create_changeset(request.user, request.body)).encode())


def changeset(database: Database, request: Request) -> Answer:
    return xml(database.changeset_document(int(request.parts[0])))


def close(database: Database, request: Request) -> Answer:
    database.close_changeset(int(request.parts[0]), request.user)
    return Answer(200)


def upload(database: Database, request: Request) -> Answer:
    return xml(database.upload(int(request.parts[0]), request.user, request.body))


def download(database: Database, request: Request) -> Answer:
    return xml(database.download(int(request.parts[0])))


def map_of_box(database: Database, request: Request) -> Answer:
    return xml(database.map(request.query.get('bbox')))


def many(database: Database, request: Request) -> Answer:
    kind = request.parts[0]
    return elements(database.read_many(kind, request.query.get(kind + 's')))


def element(database: Database, request: Request) -> Answer:
    return elements([database.read(key_of(request))])


def version(database: Database, request: Request) -> Answer:
    return elements([database.read_version(key_of(request), int(request.parts[2]))])


def history(database: Database, request: Request) -> Answer:
    return elements(database.read_history(key_of(request)))


def full(database: Database, request: Request) -> Answer:
    return elements(database.read_full(key_of(request)))


def users(database: Database, request: Request) -> Answer:
    return elements(database.read_users(key_of(request), request.parts[2][0]))


def key_of(request: Request) -> str:
    return request.parts[0][0] + str(int(request.parts[1]))


class Route(NamedTuple):
    """A method and a path with the operation that it names; some need a user whose token has a
    scope.
    """

    method: str
    path: str
    operation: str
    act: Callable[[Database, Request], Answer]
    scope: str = ''


ROUTES = [
    Route('GET', '/api/capabilities', 'capabilities', capabilities),
    Route('GET', '/api/0.6/capabilities', 'capabilities', capabilities),
    Route('GET', '/api/0.6/permissions', 'permissions', permissions),
    Route('GET', '/api/0.6/user/details', 'details', details, 'read_prefs'),
    Route('PUT', '/api/0.6/changeset/create', 'create', create, 'write_api'),
    Route('GET', '/api/0.6/changeset/([0-9]+)', 'changeset', changeset),
    Route('PUT', '/api/0.6/changeset/([0-9]+)/close', 'close', close, 'write_api'),
    Route('POST', '/api/0.6/changeset/([0-9]+)/upload', 'upload', upload, 'write_api'),
    Route('GET', '/api/0.6/changeset/([0-9]+)/download', 'download', download),
    Route('GET', '/api/0.6/map', 'map', map_of_box),
    Route('GET', '/api/0.6/' + KIND + 's', 'many', many),
    Route('GET', '/api/0.6/' + KIND + '/([0-9]+)', 'element', element),
    Route('GET', '/api/0.6/' + KIND + '/([0-9]+)/([0-9]+)', 'version', version),
    Route('GET', '/api/0.6/' + KIND + '/([0-9]+)/history', 'history', history),
    Route('GET', '/api/0.6/(way|relation)/([0-9]+)/full', 'full', full),
    Route('GET', '/api/0.6/(node)/([0-9]+)/(ways)', 'users', users),
    Route('GET', '/api/0.6/' + KIND + '/([0-9]+)/(relations)', 'users', users),
]


def route_of(method: str, path: str) -> Tuple[Route, Tuple[str, ...]]:
    """The route of a request and what stands at its places; 404 where there is none, 405 where the
    method isn't meant.
    """
    found = [
        (route, match.groups())
        for route in ROUTES
        for match in [re.fullmatch(route.path, path)]
        if match
    ]
    for route, parts in found:
        if route.method == method:
            return route, parts
    if found:
        raise Refusal(
            405,
            f'Only method {found[0][0].method} is supported on this URI',
            {'Allow': found[0][0].method},
        )
    raise Refusal(404)


# ---- the server ----


class StrictServer:
    """The server, which listens in a thread of its own while it is used as a context; without that
    its data can be used all the same.

    `users` are the users by their tokens. With `first_id` the next id of a new node, way or
    relation is this one, or the one after the highest that is there where that is higher.
    """

    def __init__(
        self,
        elements: Iterable[Element] = (),
        port: int = 0,
        limits: Optional[Limits] = None,
        users: Optional[Dict[str, User]] = None,
        first_id: int = 1,
    ):
        self.database = Database(elements, limits, first_id)
        self.users = dict(USERS if users is None else users)
        self.scopes: Dict[
            str, Tuple[str, ...]
        ] = {}  # what tokens may do; SCOPES where a token isn't in it
        self.blocks: Dict[
            str, str
        ] = {}  # names of users who may do nothing, each with a cause, which is a key of BLOCKS
        self.connections = 0  # how many were opened
        self.authorisation: Optional[
            Authorisation
        ] = None  # answers below /oauth2 where it is there
        self.faults = Faults()
        self.requests: List[str] = []  # the operations asked for, in their order
        self.answers: Counter = (
            Counter()
        )  # how many answers of each status were made, faults apart, such as `upload 409`
        self.lock = threading.RLock()  # held while an operation is done, so that each is done whole
        self.watch: Optional[
            Callable[[str, str], Any]
        ] = None  # called with `before` or `after`, and the operation
        self._hooks: List[Hook] = []
        self._late: List[Late] = []
        self._port = port
        self._http: Optional[Listener] = None
        self._thread: Optional[threading.Thread] = None

    def __enter__(self) -> 'StrictServer':
        self._http = Listener(('127.0.0.1', self._port), self)
        self._thread = threading.Thread(
            target=self._http.serve_forever, kwargs={'poll_interval': 0.02}, daemon=True
        )
        self._thread.start()
        return self

    def __exit__(self, *why) -> None:
        self._http.shutdown()
        self._http.server_close()
        self._thread.join()

    @property
    def address(self) -> str:
        """The address without a path, such as `http://127.0.0.1:8080`, while it listens."""
        return f'http://127.0.0.1:{self._http.server_address[1]}'

    @property
    def api(self) -> str:
        """The address of API 0.6."""
        return self.address + '/api/0.6'

    @property
    def limits(self) -> Limits:
        """What the server takes at most, which may be changed while it runs."""
        return self.database.limits

    # ---- what was done ----

    @property
    def history(self) -> List[Change]:
        """Each change that was taken, in its order."""
        with self.lock:
            return list(self.database.history)

    def created_by(self, user: str = MAPPER.name) -> List[Element]:
        """What a user created, in its first version."""
        return [
            change.element
            for change in self.history
            if change.verb == 'create' and change.user == user
        ]

    def created_twice(self, user: str = MAPPER.name) -> List[Tuple[Element, Element]]:
        """Pairs of what a user created with the same kind, tags, place, nodes and members."""
        first: Dict[tuple, Element] = {}
        twice = []
        for element in self.created_by(user):
            place = (
                element.kind,
                tuple(sorted(element.tags.items())),
                element.lon,
                element.lat,
                element.nodes,
                element.members,
            )
            if place in first:
                twice.append((first[place], element))
            first.setdefault(place, element)
        return twice

    def elements(self) -> List[Element]:
        """The last version of each element, the deleted ones too, nodes before ways before
        relations.
        """
        with self.lock:
            return self.database.all()

    def opl(self) -> str:
        """The same as a file in OPL."""
        return ''.join(opl(element) + '\n' for element in self.elements())

    # ---- what others do ----

    def before(self, operation: str, number: int, call: Callable[[], Any]) -> None:
        """Calls something before the request of an operation with a number, from 1 on, is done."""
        self._hooks.append(Hook('before', operation, number, call))

    def after(self, operation: str, number: int, call: Callable[[], Any]) -> None:
        """Calls something when the request of an operation with a number was done, before it is
        answered.
        """
        self._hooks.append(Hook('after', operation, number, call))

    def close_idle(self) -> None:
        """Closes all changesets that are open, as the live server does with those in which nothing
        came for an hour.
        """
        with self.lock:
            for changeset in self.database.changesets.values():
                if changeset.closed_at is None:
                    changeset.closed_at = self.database.clock()

    def edit(
        self,
        verb: str,
        key: str,
        user: User = SOMEBODY,
        tags: Optional[Dict[str, str]] = None,
        place: Optional[Tuple[str, str]] = None,
        nodes: Optional[Iterable[int]] = None,
        members: Optional[Iterable[Tuple[str, int, str]]] = None,
    ) -> str:
        """Changes the data as another user, in a changeset of its own, and gives the key; Refusal
        where the API doesn't let it.

        What isn't named stays. A place is a longitude and a latitude in degrees, a member a kind,
        an id and a role. A new element has a key with a negative id.
        """
        with self.lock:
            database = self.database
            old = database.current(key) or Element(KIND_OF_LETTER[key[0]], int(key[1:]), version=0)
            lon, lat = (
                (units(degree) for degree in place) if place is not None else (old.lon, old.lat)
            )
            number = database.create_changeset(user, b'<osm><changeset/></osm>')
            new = Element(
                old.kind,
                old.number,
                old.version,
                True,
                number,
                '',
                0,
                '',
                dict(old.tags if tags is None else tags),
                lon,
                lat,
                old.nodes if nodes is None else tuple(nodes),
                old.members if members is None else tuple(Member(*member) for member in members),
            )
            block = ElementTree.Element(verb)
            block.append(as_xml(new))
            database.upload(number, user, document('osmChange', [block]))
            database.changesets[number].closed_at = database.clock()
            return database.history[-1].element.key

    # ---- one request ----

    def answer(self, method: str, target: str, headers, body: bytes) -> Tuple[str, Answer]:
        """The fault that a request meets, or an empty text, and the answer that it would have
        without.
        """
        path, _, query = target.partition('?')
        try:
            if self.authorisation is not None and path.startswith(PATHS):
                with self.lock:
                    found = self.authorisation.answer(method, target, headers, body)
                return '', Answer(found.status, found.body, found.type, found.headers)
            if path.startswith('/control/'):
                return '', self._control(method, path[len('/control/') :], body)
            route, parts = route_of(method, path)
            words = dict(urllib.parse.parse_qsl(query, keep_blank_values=True))
            user, scopes = self._user(route, headers)
            return self._operate(route, Request(parts, words, body, user, scopes))
        except Refusal as why:
            return '', refused(why)

    def _user(self, route: Route, headers) -> Tuple[Optional[User], Tuple[str, ...]]:
        """Whose request it is, and what the token may do; 401 where the operation needs a user and
        there is none, 403 where the account is blocked or the token may not do it.
        """
        found = re.fullmatch('[Bb]earer +(.+)', headers.get('Authorization') or '')
        token = found[1].strip() if found else ''
        user = self.users.get(token)
        if user is None:
            if route.scope:
                raise Refusal(
                    401,
                    'Couldn\'t authenticate you',
                    {'WWW-Authenticate': 'Bearer realm="Web Password"'},
                )
            return None, ()
        scopes = self.scopes.get(token, SCOPES)
        if user.name in self.blocks and (route.scope or route.operation == 'permissions'):
            raise Refusal(403, BLOCKS[self.blocks[user.name]])
        if route.scope and route.scope not in scopes:
            raise Refusal(403, NO_SCOPE[route.scope])
        return user, scopes

    def _operate(self, route: Route, request: Request) -> Tuple[str, Answer]:
        """Does an operation, but where a fault comes before, and gives that fault and the answer."""
        fault = self.faults.next(route.operation)
        with self.lock:
            self._do_late()
            self.requests.append(route.operation)
            number = self.requests.count(route.operation)
        self._call('before', route.operation, number)
        if fault.startswith('late-'):
            self._late.append(Late(route, request, int(fault[len('late-') :])))
        if fault.startswith('late-') or fault.endswith('-before'):
            return fault, self._faulty(fault)
        answer = self._act(route, request)
        self._call('after', route.operation, number)
        return (
            fault,
            self._faulty(fault) if fault in ('500-after', '504-after', '302-after') else answer,
        )

    def _act(self, route: Route, request: Request) -> Answer:
        """Does an operation, and gives its answer."""
        with self.lock:
            try:
                answer = route.act(self.database, request)
            except Refusal as why:
                answer = refused(why)
            self.answers[f'{route.operation} {answer.status}'] += 1
            return answer

    def _do_late(self) -> None:
        """Does what was to be done before this request."""
        for late in list(self._late):
            late.requests -= 1
            if late.requests == 0:
                self._late.remove(late)
                self._act(late.route, late.request)

    def _call(self, when: str, operation: str, number: int) -> None:
        """Calls the hooks of a request."""
        if self.watch is not None:
            self.watch(when, operation)
        for hook in list(self._hooks):
            if hook[:3] == (when, operation, number):
                hook.call()

    def _faulty(self, fault: str) -> Answer:
        """The answer of a fault that has one."""
        if fault in REFUSALS:
            return refused(REFUSALS[fault](self.limits))
        if fault.startswith(('50', '302')):
            phrase = HTTPStatus(int(fault[:3])).phrase
            return Answer(
                int(fault[:3]),
                '<html><head><title>{0} {1}</title></head><body><h1>{1}</h1></body></html>\n'.format(
                    fault[:3], phrase
                ).encode(),
                'text/html; charset=iso-8859-1',
            )
        return Answer(200)

    # ---- from another process ----

    def _control(self, method: str, what: str, body: bytes) -> Answer:
        """Sets what a test wants, or tells what was done; 400 where the words aren't right."""
        if (method, what) == ('GET', 'elements'):
            return Answer(200, self.opl().encode('utf-8'))
        if (method, what) == ('GET', 'history'):
            return Answer(
                200,
                json.dumps([told(change) for change in self.history]).encode(),
                'application/json',
            )
        if (method, what) == ('DELETE', 'faults'):
            self.faults.clear()
            return Answer(200)
        acts: Dict[str, Callable[..., Optional[str]]] = {
            'faults': self._set_fault,
            'edit': self._set_edit,
            'limits': self._set_limits,
            'account': self._set_account,
            'redact': self.database.redact,
        }
        act = acts.get(what) if method == 'POST' else None
        if act is None:
            raise Refusal(404)
        try:
            return Answer(200, (act(**json.loads(body.decode('utf-8'))) or '').encode())
        except (TypeError, ValueError, KeyError) as error:
            raise Refusal(400, str(error))

    def _set_fault(
        self,
        kind: str,
        operation: str = 'upload',
        skip: int = 0,
        chance: Optional[float] = None,
        seed: int = 0,
    ) -> None:
        if chance is None:
            self.faults.once(kind, operation, skip)
        else:
            self.faults.by_chance(kind, chance, seed, operation)

    def _set_edit(self, before_upload: Optional[int] = None, **words) -> Optional[str]:
        if before_upload is None:
            return self.edit(**words)
        self.before('upload', before_upload, lambda: self.edit(**words))
        return None

    def _set_limits(self, **words) -> None:
        for name, value in words.items():
            if not hasattr(self.limits, name):
                raise ValueError(f'no limit {name!r}')
            setattr(self.limits, name, value)

    def _set_account(
        self, token: str = TOKEN, scopes: Optional[List[str]] = None, block: Optional[str] = None
    ) -> None:
        """Sets what a token may do, and the cause for which its account is blocked; an empty one
        lets it do all again.
        """
        user = self.users[token]
        if scopes is not None:
            self.scopes[token] = tuple(scopes)
        if block:
            self.blocks[user.name] = known_block(block)
        elif block is not None:
            self.blocks.pop(user.name, None)


REFUSALS: Dict[
    str, Callable[[Limits], Refusal]
] = {  # of faults, which are met although no limit is reached
    '429-before': lambda limits: too_fast(limits.retry_after),
    '429-bare-before': lambda limits: too_fast(None),
    '509-before': lambda limits: too_much(limits.retry_after),
    '413-before': lambda limits: too_many(limits.changeset_elements + 1, limits),
    '413-box-before': lambda limits: too_wide(),
    '403-block-before': lambda limits: Refusal(403, BLOCKS['block']),
    '403-scope-before': lambda limits: Refusal(403, NO_SCOPE['write_api']),
}


def known_block(cause: str) -> str:
    """The cause of a block itself; ValueError where there is none of this name."""
    if cause not in BLOCKS:
        raise ValueError('no block {!r}: there are {}'.format(cause, ', '.join(BLOCKS)))
    return cause


def told(change: Change) -> Dict[str, Any]:
    """A change as another process is told of it."""
    return {
        'number': change.number,
        'verb': change.verb,
        'key': change.element.key,
        'version': change.element.version,
        'user': change.user,
        'changeset': change.element.changeset,
        'old_id': change.old_id,
        'opl': opl(change.element),
    }


class Listener(http.server.ThreadingHTTPServer):
    """What listens for the server, with a thread for each connection."""

    daemon_threads = True
    block_on_close = False

    def __init__(self, address: Tuple[str, int], owner: StrictServer):
        self.owner = owner
        super().__init__(address, Handler)

    def process_request(self, request, client_address) -> None:
        """Counts a connection, and starts its thread."""
        self.owner.connections += 1
        super().process_request(request, client_address)

    def handle_error(self, request, client_address) -> None:
        """Says nothing of a client that went away, which is what tests let it do."""
        if not isinstance(sys.exc_info()[1], (ConnectionError, TimeoutError)):
            super().handle_error(request, client_address)


class Handler(http.server.BaseHTTPRequestHandler):
    """Reads requests from a connection, and answers them as their faults let it."""

    protocol_version = 'HTTP/1.1'
    wbufsize = -1  # an answer leaves in one piece
    disable_nagle_algorithm = True
    server_version = 'StrictServer'

    def log_message(self, *words) -> None:
        """Keeps no log."""

    def _serve(self) -> None:
        body = self._body()
        if body is None:
            return
        fault, answer = self.server.owner.answer(self.command, self.path, self.headers, body)
        if fault in ('close-before', 'drop-after') or fault.startswith('late-'):
            self._hang_up()
        else:
            self._send(answer, half=fault == 'half-after')

    do_GET = do_PUT = do_POST = do_DELETE = _serve

    def _body(self) -> Optional[bytes]:
        """The body of the request; None where there is none to be had, which is answered then."""
        length = self.headers.get('Content-Length') or '0'
        if (
            self.headers.get('Transfer-Encoding')
            or not length.isdigit()
            or int(length) > MOST_BYTES
        ):
            status = 411 if self.headers.get('Transfer-Encoding') or not length.isdigit() else 413
            self.close_connection = True
            self._send(Answer(status, HTTPStatus(status).phrase.encode()))
            return None
        body = self.rfile.read(int(length))
        if len(body) < int(length):  # the client went away
            self._hang_up()
            return None
        return body

    def _send(self, answer: Answer, half: bool = False) -> None:
        phrase = (
            'Bandwidth Limit Exceeded' if answer.status == 509 else HTTPStatus(answer.status).phrase
        )
        body, headers = answer.body, answer.headers
        if body and 'gzip' in (self.headers.get('Accept-Encoding') or ''):
            body, headers = gzip.compress(body, 6), (('Content-Encoding', 'gzip'), *headers)
        self.send_response(answer.status, phrase)
        self.send_header('Content-Type', answer.type)
        self.send_header('Content-Length', str(len(body)))
        for name, value in headers:
            self.send_header(name, value)
        if self.close_connection:
            self.send_header('Connection', 'close')
        self.end_headers()
        self.wfile.write(body[: len(body) // 2] if half else body)
        self.wfile.flush()
        if half:
            self._hang_up()

    def _hang_up(self) -> None:
        self.close_connection = True
        try:
            self.connection.shutdown(socket.SHUT_RDWR)
        except OSError:
            pass


def write_number(path: str, number: int) -> None:
    """Writes a number to a file, which is there whole or not at all."""
    part = path + '.part'
    with open(part, 'w', encoding='ascii') as file:
        file.write(f'{number}\n')
    os.replace(part, path)


def main() -> None:
    words = argparse.ArgumentParser(
        description=__doc__, formatter_class=argparse.RawDescriptionHelpFormatter
    )
    words.add_argument('--port', type=int, default=0, help='the port; a free one if not said')
    words.add_argument(
        '--changeset-elements',
        type=int,
        default=Limits.changeset_elements,
        help='changes that a changeset takes',
    )
    words.add_argument(
        '--pid', metavar='FILE', help='write the number of the process to FILE once it answers'
    )
    words.add_argument('data', help='a file in OPL, or OSM XML where its name ends in .osm')
    said = words.parse_args()
    limits = Limits(changeset_elements=said.changeset_elements)
    try:
        found = read_file(said.data)
    except (OSError, ValueError) as error:
        sys.exit(f'{said.data}: {error}')
    with StrictServer(found, said.port, limits) as server:
        print(server.address, flush=True)
        if said.pid:
            write_number(said.pid, os.getpid())
        try:
            threading.Event().wait()
        except KeyboardInterrupt:
            pass


if __name__ == '__main__':
    main()
