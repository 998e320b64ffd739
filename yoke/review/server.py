"""The server behind the page of a review: on this machine, for whoever has its token, and for no
other site.

| against | by |
|---|---|
| other machines | it listens on 127.0.0.1 alone |
| other users and programs of this machine | a token of 256 bits in a header of each call. The page has it from the part of its address after `#`, which browsers neither send nor log |
| another site that sends calls from the same browser | the header makes them calls about which a browser asks first, and the answer is no; `Origin` and `Sec-Fetch-Site` are looked at too |
| a name of another site that leads to 127.0.0.1 | `Host` has to be this address |
| a text of an object that is taken for HTML or a program | the page makes text nodes alone, and its policy lets no other script run and no text become HTML |
| a page of another site around this one, or beside it | `frame-ancestors 'none'`, and the policies for openers and resources |
"""

import hmac
import http.server
import json
import pathlib
import secrets
import threading
import urllib.parse
from typing import Any, Callable, Dict, Mapping, Optional, Tuple

from yoke.trouble import Trouble, Usage

PAGE = pathlib.Path(__file__).parent / 'page'
KINDS = {
    '.html': 'text/html',
    '.js': 'text/javascript',
    '.css': 'text/css',
    '.svg': 'image/svg+xml',
}
MOST = 4 * 1024 * 1024  # bytes of a call
SECONDS = 60  # a connection that says nothing for so long is closed

Call = Callable[[Any], Any]


class Handler(http.server.BaseHTTPRequestHandler):
    """One connection of a browser."""

    protocol_version = 'HTTP/1.1'
    server_version, sys_version = 'yoke', ''
    timeout = SECONDS
    server: 'Server'

    def log_message(self, format: str, *args: Any) -> None:
        """Nothing is logged."""

    def do_GET(self) -> None:
        """A file of the page, or a call without a body."""
        if self.headers.get('Transfer-Encoding') or self.headers.get('Content-Length', '0') != '0':
            return self.end_with(400)
        if not self.is_asked_here():
            return self.end_with(421)
        name = self.server.files.get(self.path)
        if name is not None:
            return self.reply(200, (PAGE / name).read_bytes(), KINDS[pathlib.Path(name).suffix])
        return self.answer(None)

    def do_POST(self) -> None:
        """A call."""
        length = self.headers.get('Content-Length', '')
        if (
            self.headers.get('Transfer-Encoding')
            or not (length.isascii() and length.isdigit())
            or int(length) > MOST
        ):
            return self.end_with(413)
        body = self.rfile.read(int(length))
        if not self.is_asked_here():
            return self.end_with(421)
        return self.answer(body)

    def answer(self, body: Optional[bytes]) -> None:
        """Answers a call, if it is one and this page's own."""
        if not self.is_ours():
            return self.reply(403)
        call = self.server.calls.get((self.command, self.path))
        if call is None:
            return self.reply(404)
        kind = self.headers.get('Content-Type', '').split(';')[0].strip().lower()
        if body is not None and kind != 'application/json':
            return self.reply(415)
        try:
            found = call(json.loads(body) if body is not None else None)
        except Trouble as trouble:
            key = getattr(trouble, 'key', '')
            return self.reply_json(409, {'problem': str(trouble), 'key': key})
        except (ValueError, KeyError, TypeError, RecursionError) as fault:
            return self.reply_json(400, {'problem': f'the call is none: {fault}'})
        return self.reply_json(200, found)

    def is_asked_here(self) -> bool:
        """Whether the call names this address, and no other name that leads here."""
        return self.headers.get_all('Host') == [self.server.host]

    def is_ours(self) -> bool:
        """Whether the call has the token, and comes from the page and from no other site."""
        token = self.headers.get('X-Yoke-Token', '').encode('utf-8', 'replace')
        origins = self.headers.get_all('Origin') or [self.server.origin]
        sites = self.headers.get_all('Sec-Fetch-Site') or ['same-origin']
        return (
            hmac.compare_digest(token, self.server.token.encode())
            and origins == [self.server.origin]
            and sites == ['same-origin']
        )

    def send_error(
        self, code: int, message: Optional[str] = None, explain: Optional[str] = None
    ) -> None:
        """What the base class answers to bad requests and other methods: the status alone, with the
        headers of all answers.
        """
        self.end_with(code)

    def end_with(self, status: int) -> None:
        """Answers with a status alone, after which the connection ends: what follows in it isn't
        read.
        """
        self.close_connection = True
        self.reply(status)

    def reply_json(self, status: int, found: Any) -> None:
        """Answers with JSON."""
        text = json.dumps(found, ensure_ascii=False, separators=(',', ':'))
        self.reply(status, text.encode('utf-8', 'surrogatepass'), 'application/json')

    def reply(self, status: int, body: bytes = b'', kind: str = 'text/plain') -> None:
        """Answers, with the headers that keep other sites out."""
        self.send_response(status)
        headers = {
            'Content-Type': f'{kind}; charset=utf-8',
            'Content-Length': str(len(body)),
            'Cache-Control': 'no-store',
            'Content-Security-Policy': self.server.policy,
            'X-Content-Type-Options': 'nosniff',
            'X-Frame-Options': 'DENY',
            # a server of tiles asks who it is
            'Referrer-Policy': 'strict-origin' if self.server.tiles else 'no-referrer',
            'Cross-Origin-Resource-Policy': 'same-origin',
            'Cross-Origin-Opener-Policy': 'same-origin',
        }
        if self.close_connection:
            headers['Connection'] = 'close'
        for name, value in headers.items():
            self.send_header(name, value)
        self.end_headers()
        if self.command != 'HEAD':
            try:
                self.wfile.write(body)
            except OSError:  # the page was closed
                self.close_connection = True


class Server(http.server.ThreadingHTTPServer):
    """Serves the page and its calls, functions by method and path. `address` is what to open, with
    the token.
    """

    daemon_threads = True

    def __init__(self, calls: Mapping[Tuple[str, str], Call], port: int = 0, tiles: str = ''):
        images = tile_source(tiles)
        try:
            super().__init__(('127.0.0.1', port), Handler)
        except (OSError, OverflowError) as error:
            raise Trouble(f'the port {port} can\'t be used: {error}') from None
        self.calls, self.tiles, self.token = calls, tiles, secrets.token_urlsafe(32)
        self.host = f'127.0.0.1:{self.server_address[1]}'
        self.origin = f'http://{self.host}'
        self.address = f'{self.origin}/#{self.token}'
        self.files: Dict[str, str] = {f'/{path.name}': path.name for path in PAGE.iterdir()}
        self.files.update({'/': 'index.html', '/favicon.ico': 'icon.svg'})
        self.policy = '; '.join(
            [
                "default-src 'none'",
                "script-src 'self'",
                "style-src 'self'",
                "connect-src 'self'",
                f"img-src 'self'{images and ' ' + images}",
                "base-uri 'none'",
                "form-action 'none'",
                "frame-ancestors 'none'",
                "require-trusted-types-for 'script'",
                "trusted-types 'none'",
            ]
        )

    def stop(self) -> None:
        """Ends `serve_forever`; may be called by a call of the page itself."""
        threading.Thread(target=self.shutdown, daemon=True).start()

    def handle_error(self, request: Any, client_address: Any) -> None:
        """A connection that broke off is none of the user's faults."""


def tile_source(address: str) -> str:
    """Where tiles come from, as a policy names it; empty without tiles, Usage where the address is
    none of tiles.
    """
    if not address:
        return ''
    wanted = ('{z}', '{x}', '{y}')
    parts = urllib.parse.urlsplit(address.replace('{s}', 'a'))
    host = address.partition('://')[2].split('/')[0].replace('{s}', '*')
    is_clean = host and not set(host) & set(" ;,'\"{}@\\") and host.isprintable()
    if parts.scheme not in ('http', 'https') or not is_clean:
        raise Usage(
            f'--tiles wants an address as https://HOST/{{z}}/{{x}}/{{y}}.png, and not {address}'
        )
    if not all(place in address for place in wanted):
        raise Usage(f'--tiles wants {{z}}, {{x}} and {{y}} in the address, and this is {address}')
    return f'{parts.scheme}://{host}'
