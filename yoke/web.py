"""HTTP beside API 0.6, such as Overpass and logins: a call goes out once, and its answer has an
end.

The calls are those of `transport.py`: no redirect is followed, since it would carry a form
elsewhere.
"""
import urllib.parse
from dataclasses import dataclass
from typing import Mapping, Optional

from yoke import api, transport
from yoke.trouble import NoAnswer, Usage

MOST = 1 << 20  # bytes of an answer, if no more are wanted


@dataclass(frozen=True)
class Response:
    """An answer: its status, its headers by their names in small letters, and its body."""

    status: int
    headers: Mapping[str, str]
    body: bytes

    @property
    def text(self) -> str:
        """The body as text."""
        return self.body.decode('utf-8', 'replace')


def checked(address: str, option: str) -> str:
    """An address for `https`, or for `http` on this machine; Usage, with the option's name, if it
    is another one. A password in it isn't repeated in the message.
    """
    try:
        parts = urllib.parse.urlsplit(address)
        is_one = parts.scheme in ('http', 'https') and bool(parts.hostname) and parts.port != 0
    except ValueError:
        is_one = False
    if not is_one or parts.username or parts.password or parts.fragment:
        raise Usage(f'{option} wants an address such as https://HOST/PATH')
    if parts.scheme == 'http' and not transport.is_loopback(parts.hostname or ''):
        raise Usage(f'{option} wants https: by http anybody on the way can read and change it')
    return address


def get(address: str, most: int = MOST, timeout: float = transport.TIMEOUT) -> Response:
    """The answer to a GET. NoAnswer if none comes, or one of more bytes."""
    return call('GET', address, None, {}, most, timeout)


def post_form(
    address: str,
    fields: Mapping[str, str],
    headers: Optional[Mapping[str, str]] = None,
    most: int = MOST,
    timeout: float = transport.TIMEOUT,
) -> Response:
    """The answer to a form. NoAnswer if none comes, or one of more bytes."""
    return call(
        'POST',
        address,
        urllib.parse.urlencode(fields).encode('ascii'),
        {'Content-Type': 'application/x-www-form-urlencoded', **(headers or {})},
        most,
        timeout,
    )


def call(
    method: str,
    address: str,
    body: Optional[bytes],
    headers: Mapping[str, str],
    most: int,
    timeout: float,
) -> Response:
    """Makes a call, once. No message has the form in it, which may have secrets."""
    one = transport.Transport(address, timeout, most=most)
    try:
        found = one.call(method, address, {'User-Agent': api.AGENT, **headers}, body)
    except NoAnswer as silence:
        raise NoAnswer(str(silence).replace(address, host(address))) from None
    finally:
        one.close()
    return Response(
        found.status, {name.lower(): value for name, value in found.headers.items()}, found.body
    )


def host(address: str) -> str:
    """The host and port of an address."""
    return urllib.parse.urlsplit(address).netloc.rpartition('@')[2]
