"""The loopback address to which the browser comes back after a login (RFC 8252, section 7.3).

It listens on 127.0.0.1 alone, while a login is under way, and takes one answer: a page that a
browser opens at the very path, with the state of this login. Anything else is answered with an
error and changes nothing, so a page of another site can't end the login or put in a code of its
own.
"""
import hmac
import http.server
import threading
import urllib.parse
from typing import Any, Optional, Tuple

from yoke.login import oauth
from yoke.trouble import NoAnswer, Refused, Trouble, Usage

SLOW = 10  # seconds that one connection may take
DONE = 'The login is done. You can close this page and go back to the terminal.'
DENIED = 'The login was not allowed. You can close this page.'
HEADERS = {
    'Content-Type': 'text/html; charset=utf-8',
    'Cache-Control': 'no-store',
    'Content-Security-Policy': "default-src 'none'; frame-ancestors 'none'; base-uri 'none'",
    'Referrer-Policy': 'no-referrer',
    'X-Content-Type-Options': 'nosniff',
    'Cross-Origin-Opener-Policy': 'same-origin',
    'Connection': 'close',
}


class Listener:
    """Waits for the answer to one login, from `with` on.

    `redirect` names a port if the server wants the very address that was registered, as
    `http://127.0.0.1:8771/`; without it any free port is taken.
    """

    def __init__(self, redirect: str = ''):
        port, self.path = address_of(redirect)
        try:
            self._http = Server(('127.0.0.1', port), Handler)
        except OSError as error:
            raise Trouble(
                f'port {port} of this machine can\'t be used ({error.strerror}): end the '
                'program that has it, or register another redirect'
            ) from None
        self._http.owner = self
        self.port = self._http.server_address[1]
        self.redirect = f'http://127.0.0.1:{self.port}{self.path}'
        self.ignored = 0  # calls that weren't the answer
        self._request: Optional[oauth.Request] = None
        self._found: Optional[Tuple[str, str]] = None  # `code` or `error`, and its value
        self._lock, self._came = threading.Lock(), threading.Event()
        self._thread = threading.Thread(
            target=self._http.serve_forever, kwargs={'poll_interval': 0.05}, daemon=True
        )

    def __enter__(self) -> 'Listener':
        self._thread.start()
        return self

    def __exit__(self, *why: Any) -> None:
        self._http.shutdown()
        self._http.server_close()
        self._thread.join()

    def expect(self, request: oauth.Request) -> None:
        """From now on the answer to this request counts. It is said before a browser opens the
        request's address: an answer that came earlier would be refused as that of another login."""
        self._request = request

    def wait(self, seconds: float) -> str:
        """The code of the answer to the request that is expected. Refused if the answer is a
        refusal, NoAnswer if none comes in time."""
        if not self._came.wait(seconds):
            raise NoAnswer(
                f'nobody logged in within {seconds:.0f} s: begin again, or use '
                '--no-browser if the browser is on another machine'
            )
        assert self._found is not None
        name, value = self._found
        if name == 'error':
            raise Refused(f'no login: {oauth.cause(value)}')
        return value

    def take(self, handler: 'Handler') -> Tuple[int, str]:
        """Judges a call; answers with a status and the text of a page."""
        problem = self._problem(handler)
        if problem:
            self.ignored += 1
            return problem
        with self._lock:
            name, value = self._answer(handler.path) or ('', '')
            if not name:
                self.ignored += 1
                return 400, 'This is not the answer to the login that is under way.'
            self._found = self._found or (name, value)  # the first one counts
        return 200, DONE if name == 'code' else DENIED

    def told(self) -> None:
        """The page was answered: if it was the answer to the login, the waiting is over."""
        with self._lock:
            if self._found is not None:
                self._came.set()

    def _problem(self, handler: 'Handler') -> Optional[Tuple[int, str]]:
        """Why a call can't be the answer, whatever its words are."""
        headers = handler.headers
        if headers.get_all('Host') != [f'127.0.0.1:{self.port}']:
            return 421, 'This page has another address.'
        if handler.command != 'GET':
            return 405, 'The answer to a login is opened as a page.'
        if urllib.parse.urlsplit(handler.path).path != self.path:
            return 404, 'There is no such page.'
        mode, where = headers.get('Sec-Fetch-Mode'), headers.get('Sec-Fetch-Dest')
        if mode not in (None, 'navigate') or where not in (None, 'document'):
            return 403, 'The answer to a login is opened as a page.'
        return None

    def _answer(self, target: str) -> Optional[Tuple[str, str]]:
        """`code` or `error` with its value, of an answer to this login; None of another one."""
        request = self._request
        try:
            pairs = urllib.parse.parse_qsl(
                urllib.parse.urlsplit(target).query,
                strict_parsing=True,
                keep_blank_values=True,
                max_num_fields=20,
            )
        except ValueError:
            return None
        fields = dict(pairs)
        if request is None or len(fields) != len(pairs):
            return None
        if not hmac.compare_digest(fields.get('state', '').encode(), request.state.encode()):
            return None
        issuer = fields.get('iss')
        if (
            issuer is None
            and request.endpoints.tells_issuer
            or issuer is not None
            and issuer.rstrip('/') != request.endpoints.issuer
        ):
            return None
        given = [(name, fields[name]) for name in ('code', 'error') if fields.get(name)]
        return given[0] if len(given) == 1 else None


def address_of(redirect: str) -> Tuple[int, str]:
    """The port and the path of a redirect on this machine; Usage if it is none."""
    if not redirect:
        return 0, '/'
    try:
        parts = urllib.parse.urlsplit(redirect)
        port = parts.port
    except ValueError:
        port, parts = None, urllib.parse.urlsplit('')
    if (
        parts.scheme != 'http'
        or parts.hostname != '127.0.0.1'
        or parts.query
        or parts.fragment
        or parts.username
        or port == 0
    ):
        raise Usage('a redirect is an address of this machine, such as http://127.0.0.1:8771/')
    return port or 0, parts.path or '/'


class Server(http.server.ThreadingHTTPServer):
    """What listens."""

    daemon_threads = True
    block_on_close = False
    owner: Listener

    def handle_error(self, request: Any, client_address: Any) -> None:
        """Says nothing of a client that went away."""


class Handler(http.server.BaseHTTPRequestHandler):
    """Reads one call."""

    server: Server
    timeout = SLOW
    server_version, sys_version = 'yoke', ''

    def log_message(self, format: str, *args: Any) -> None:  # pylint: disable=redefined-builtin
        """Keeps no log: the code stands in the address."""

    def answer(self) -> None:
        """Answers a call."""
        status, text = self.server.owner.take(self)
        page = f'<!DOCTYPE html>\n<html lang="en"><title>yoke</title><p>{text}</p></html>\n'
        body = page.encode('utf-8')
        self.send_response(status)
        for name, value in HEADERS.items():
            self.send_header(name, value)
        self.send_header('Content-Length', str(len(body)))
        self.end_headers()
        self.wfile.write(body)
        self.wfile.flush()
        self.close_connection = True
        self.server.owner.told()

    do_GET = do_POST = do_PUT = do_DELETE = do_HEAD = do_OPTIONS = do_PATCH = answer
