"""HTTP calls to one server: each goes out once, over a connection that is kept, and its answer has
an end.

urllib3 makes the calls, with nothing of it that asks again or goes elsewhere: no retries and no
redirects. When something is asked again is decided in `api.py`, since that is what keeps an edit
from being sent twice.

- A proxy of the environment is used for `https`, by a tunnel, so that it doesn't see the token. Calls to this machine
  itself never go through a proxy.
- Answers may come compressed. One that breaks off, or is larger than `most` bytes when it is unpacked, is no answer.
- `timeout` limits the seconds without a byte, and `longest` those of a call in all.
"""
import contextlib
import http.client
import ipaddress
import socket
import ssl
import threading
import time
import urllib.parse
import urllib.request
import zlib
from dataclasses import dataclass, field
from typing import Any, Callable, Dict, Iterator, List, Mapping, Optional, Tuple

from yoke import words
from yoke.trouble import NoAnswer, Trouble

CONNECT = 30  # seconds until a connection stands
TIMEOUT = 300  # seconds without a byte; a large document takes its time
LONGEST = 1800  # seconds that one call may take in all
IDLE = (
    4  # seconds after which a kept connection isn't used again: servers close them after some more
)
MOST = 1 << 28  # bytes of an answer, unpacked
MOST_OF_A_REFUSAL = 1 << 16  # bytes of an answer other than 2xx
PIECE = 1 << 16  # bytes that are read at a time


@dataclass(frozen=True)
class Response:
    """An answer: its status, its headers, and its body as it was before it was compressed."""

    status: int
    headers: Mapping[str, str]
    body: bytes


class TooLarge(NoAnswer):
    """An answer has more bytes than are read, so asking again won't help."""


def is_loopback(host: str) -> bool:
    """Whether the name or the address is this machine's own."""
    try:
        return host == 'localhost' or ipaddress.ip_address(host).is_loopback
    except ValueError:
        return False


@dataclass
class Transport:
    """The calls to the server of an address. NoAnswer, of a call, says that no whole answer came of
    it.
    """

    address: str
    timeout: float = TIMEOUT
    longest: float = LONGEST
    most: int = MOST
    _pool: Any = field(default=None, repr=False)
    _sockets: List[socket.socket] = field(default_factory=list, repr=False)
    _last: float = field(default=0, repr=False)  # when the connection was used

    def call(
        self, method: str, address: str, headers: Mapping[str, str], body: Optional[bytes] = None
    ) -> Response:
        """Makes a call, once."""
        urllib3 = library()
        try:
            with self._deadline():
                return self._answer(self._send(method, address, headers, body))
        except NoAnswer:
            raise
        except (
            urllib3.exceptions.NewConnectionError
        ) as error:  # in urllib3 1.26 it is a ConnectTimeoutError, too
            raise self._lost(reason(error)) from None
        except urllib3.exceptions.ReadTimeoutError:
            raise self._lost(f'no byte came for {self.timeout:g} s') from None
        except urllib3.exceptions.ConnectTimeoutError:
            raise self._lost(f'no connection within {CONNECT} s') from None
        except (
            urllib3.exceptions.HTTPError,
            OSError,
            http.client.HTTPException,
            zlib.error,
        ) as error:
            raise self._lost(reason(error)) from None

    def close(self) -> None:
        """Closes the connection."""
        if self._pool is not None:
            self._pool.clear()
        self._sockets.clear()

    def _lost(self, why: str) -> NoAnswer:
        return NoAnswer(f'no answer from {self.address}: {why}')

    def _send(
        self, method: str, address: str, headers: Mapping[str, str], body: Optional[bytes]
    ) -> Any:
        if self._pool is None:
            self._pool = make_pool(self.address, self._sockets.append)
        if time.monotonic() - self._last > IDLE:
            self.close()
        limits = library().Timeout(connect=CONNECT, read=self.timeout)
        return self._pool.urlopen(
            method,
            address,
            body=body,
            headers={'Accept-Encoding': 'gzip', **headers},
            timeout=limits,
            retries=False,
            redirect=False,
            preload_content=False,
            decode_content=False,
            enforce_content_length=True,
        )

    def _answer(self, response: Any) -> Response:
        """Reads an answer to its end; of a refusal no more than the begin."""
        try:
            most = self.most if 200 <= response.status < 300 else MOST_OF_A_REFUSAL
            body, is_whole = self._read(response, most)
            packing = (response.headers.get('Content-Encoding') or 'identity').lower()
            if packing in ('gzip', 'x-gzip'):
                body = unpacked(body, most, is_whole)
            elif packing != 'identity':
                raise self._lost(
                    f'it comes packed as {words.cut(packing)}, which wasn\'t asked for'
                )
            is_whole = is_whole and len(body) <= most
            if not is_whole and most == self.most:
                raise TooLarge(
                    f'the answer of {self.address} has more than {most} bytes: ask for less at once'
                )
            return Response(response.status, response.headers, body[:most])
        except BaseException:
            response.close()
            raise

    def _read(self, response: Any, most: int) -> Tuple[bytes, bool]:
        """The bytes of a body, and whether these are all."""
        pieces, count = [], 0
        for piece in response.stream(PIECE, decode_content=False):
            pieces.append(piece)
            count += len(piece)
            if count > most:
                response.close()
                return b''.join(pieces), False
        response.release_conn()
        self._last = time.monotonic()
        return b''.join(pieces), True

    @contextlib.contextmanager
    def _deadline(self) -> Iterator[None]:
        """Cuts the connection where what is done takes longer in all than a call may take."""
        late = threading.Event()

        def cut() -> None:
            late.set()
            for one in list(self._sockets):
                with contextlib.suppress(OSError):  # it may be closed
                    one.shutdown(socket.SHUT_RDWR)

        timer = threading.Timer(self.longest, cut)
        timer.daemon = True
        timer.start()
        try:
            yield
            if late.is_set():  # an answer without a length seems whole where it was cut
                raise self._lost(f'it took longer than {self.longest:g} s in all')
        except Exception:
            if late.is_set():
                self.close()
                raise self._lost(f'it took longer than {self.longest:g} s in all') from None
            raise
        finally:
            timer.cancel()


def library() -> Any:
    """The module urllib3; Trouble where it isn't installed."""
    try:
        import urllib3  # pylint: disable=import-outside-toplevel  # it takes 50 ms, which most commands don't need
    except ImportError:
        raise Trouble(
            'asking a server needs the Python package urllib3: apt install python3-urllib3, or pip install urllib3'
        ) from None
    return urllib3


def make_pool(address: str, seen: Callable[[Any], None]) -> Any:
    """A pool of one connection to an address, by the proxy of the environment if it names one;
    `seen` gets each socket that is connected.
    """
    urllib3 = library()
    options: Dict[str, Any] = {'num_pools': 1, 'maxsize': 1}
    if address.startswith('https:'):
        options['ssl_context'] = ssl.create_default_context()
    proxy = proxy_of(address)
    if proxy:
        parts = urllib.parse.urlsplit(proxy)
        words_of = urllib.parse.unquote(parts.username or ''), urllib.parse.unquote(
            parts.password or ''
        )
        if parts.username:
            options['proxy_headers'] = urllib3.util.make_headers(
                proxy_basic_auth=':'.join(words_of)
            )
        pool = urllib3.ProxyManager(
            f'{parts.scheme}://{parts.netloc.rpartition("@")[2]}', **options
        )
    else:
        pool = urllib3.PoolManager(**options)
    pool.pool_classes_by_scheme = {
        'http': watched(urllib3.HTTPConnectionPool, seen),
        'https': watched(urllib3.HTTPSConnectionPool, seen),
    }
    return pool


def watched(pool: Any, seen: Callable[[Any], None]) -> Any:
    """A class of pools whose sockets are told to `seen` when they are connected."""

    class Connection(pool.ConnectionCls):  # type: ignore[misc]
        """A connection that is told."""

        def connect(self) -> None:
            """Connects."""
            super().connect()
            seen(self.sock)

    return type('Pool', (pool,), {'ConnectionCls': Connection})


def proxy_of(address: str) -> str:
    """The proxy that the environment names for an address; an empty text where there is none.
    Trouble where it is none for HTTP.
    """
    parts = urllib.parse.urlsplit(address)
    host = parts.hostname or ''
    if parts.scheme != 'https' or is_loopback(host) or urllib.request.proxy_bypass(host):
        return ''
    proxy = urllib.request.getproxies().get('https') or ''
    if proxy and '://' not in proxy:
        proxy = 'http://' + proxy
    if proxy and not proxy.startswith(('http://', 'https://')):
        raise Trouble(
            'the proxy that https_proxy names is none for HTTP: name one as http://HOST:PORT, or unset it'
        )
    return proxy


def unpacked(body: bytes, most: int, is_whole: bool) -> bytes:
    """A body of gzip unpacked, no further than one byte beyond `most`. zlib.error where it is none,
    or breaks off although it `is_whole`.
    """
    found = b''
    while body and len(found) <= most:
        unpack = zlib.decompressobj(16 + zlib.MAX_WBITS)
        found += unpack.decompress(body, most + 1 - len(found))
        if not unpack.eof and is_whole and len(found) <= most:
            raise zlib.error('the packed answer breaks off')
        body = unpack.unused_data
    return found


def reason(error: BaseException) -> str:
    """Why no answer came, in a few words: without the names of objects that errors of urllib3 begin
    with.
    """
    while True:
        inner = next((one for one in reversed(error.args) if isinstance(one, BaseException)), None)
        if inner is None:
            break
        error = inner
    text = str(error) or type(error).__name__
    return words.cut(text.split('Failed to establish a new connection: ')[-1], 300)
