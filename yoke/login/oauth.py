"""OAuth 2 for a program on the user's machine: the code flow with PKCE (RFC 6749, 7636, 8252).

The program has no secret. It proves by a `verifier`, which leaves this machine only with the
exchange, that the code is the one it asked for, and by a `state` that the answer is to its
question.
"""
import base64
import hashlib
import json
import secrets
import time
import urllib.parse
from dataclasses import dataclass, field
from typing import Any, Dict, Optional

from yoke import web, words
from yoke.extracts import header
from yoke.trouble import NoAnswer, Refused, ServerRefused, Trouble

WRITE, READ = 'read_prefs write_api', 'read_prefs'  # what is asked for
OUT_OF_BAND = 'urn:ietf:wg:oauth:2.0:oob'  # the page shows the code, to be copied
METADATA = '/.well-known/oauth-authorization-server'
CAUSES = {
    'access_denied': 'you, or the server, said no',
    'invalid_client': 'the server doesn\'t know the client id',
    'invalid_grant': 'the code is over, was used already, or is of another login',
    'invalid_scope': 'the application isn\'t registered for these rights: read_prefs, write_api',
    'unauthorized_client': 'the application may not log in this way',
    'unsupported_response_type': 'the server doesn\'t know this kind of login',
}


@dataclass(frozen=True)
class Endpoints:
    """Where a server logs people in. `revoke` is empty if it can't take a token back;
    `tells_issuer` is whether its answers name it, so that they have to.
    """

    issuer: str
    authorize: str
    token: str
    revoke: str = ''
    tells_issuer: bool = False


@dataclass(frozen=True)
class Request:
    """One login that is under way."""

    endpoints: Endpoints
    client_id: str
    redirect: str
    scope: str
    state: str = field(default_factory=lambda: secrets.token_urlsafe(32), repr=False)
    verifier: str = field(default_factory=lambda: secrets.token_urlsafe(64), repr=False)

    def address(self) -> str:
        """The address that the user opens in a browser. No secret is in it."""
        return (
            self.endpoints.authorize
            + '?'
            + urllib.parse.urlencode(
                {
                    'response_type': 'code',
                    'client_id': self.client_id,
                    'redirect_uri': self.redirect,
                    'scope': self.scope,
                    'state': self.state,
                    'code_challenge': challenge(self.verifier),
                    'code_challenge_method': 'S256',
                }
            )
        )


@dataclass(frozen=True)
class Granted:
    """A token, its rights, and when it is over, if it ever is."""

    token: str = field(repr=False)
    scope: str = ''
    expires: str = ''


def challenge(verifier: str) -> str:
    """What stands for a verifier until the exchange."""
    digest = hashlib.sha256(verifier.encode('ascii')).digest()
    return base64.urlsafe_b64encode(digest).rstrip(b'=').decode('ascii')


def discover(base: str) -> Endpoints:
    """The endpoints of a website: by its metadata (RFC 8414) if it has any, else the usual ones.
    Trouble if the metadata names another server."""
    base = base.rstrip('/')
    usual = Endpoints(
        base, base + '/oauth2/authorize', base + '/oauth2/token', base + '/oauth2/revoke'
    )
    answer = web.get(base + METADATA)
    found = table_of(answer.text) if answer.status == 200 else None
    if found is None:
        return usual
    authorize, token, revoked = (
        str(found.get(name) or '')
        for name in ('authorization_endpoint', 'token_endpoint', 'revocation_endpoint')
    )
    ends = [authorize, token] + ([revoked] if revoked else [])
    if str(found.get('issuer')).rstrip('/') != base or any(
        origin(end) != origin(base) for end in ends
    ):
        raise Trouble(
            f'the metadata of {base} names another server: is it the website of this map?'
        )
    methods = found.get('code_challenge_methods_supported')
    if methods is not None and 'S256' not in methods:
        raise Trouble(f'{base} doesn\'t take S256, without which a login isn\'t safe')
    return Endpoints(
        base,
        authorize,
        token,
        revoked,
        bool(found.get('authorization_response_iss_parameter_supported')),
    )


def origin(address: str) -> str:
    """What has to be equal in two addresses of one server."""
    parts = urllib.parse.urlsplit(address)
    return f'{parts.scheme}://{parts.netloc}'


def exchange(request: Request, code: str) -> Granted:
    """The token for a code. Refused if the server doesn't give it, or gives fewer rights. No
    message has the code, the verifier or the token in it.
    """
    answer = web.post_form(
        request.endpoints.token,
        {
            'grant_type': 'authorization_code',
            'code': code,
            'redirect_uri': request.redirect,
            'client_id': request.client_id,
            'code_verifier': request.verifier,
        },
        {'Accept': 'application/json'},
    )
    found = table_of(answer.text) or {}
    if answer.status != 200:
        raise refused(answer.status, found)
    token, kind = found.get('access_token'), str(found.get('token_type') or '').lower()
    if not isinstance(token, str) or not is_token(token) or kind != 'bearer':
        raise NoAnswer(f'{web.host(request.endpoints.token)} gives no token that can be used')
    scope = str(found.get('scope') or request.scope)
    missing = sorted(set(request.scope.split()) - set(scope.split()))
    if missing:
        revoke(request.endpoints.revoke, request.client_id, token)
        raise Refused(
            f'the login lacks the right {", ".join(missing)}: log in again and allow all, '
            'or ask for less by --read-only'
        )
    return Granted(token, scope, end_of(found.get('expires_in')))


def end_of(seconds: object) -> str:
    """The moment so many seconds from now; empty if that is no number."""
    is_number = isinstance(seconds, int) and not isinstance(seconds, bool)
    return header.stamp(time.time() + seconds) if is_number and seconds > 0 else ''  # type: ignore


def is_token(text: str) -> bool:
    """Whether a text can stand in a header as a token."""
    return 0 < len(text) <= 4096 and all('!' <= sign <= '~' for sign in text)


def table_of(text: str) -> Optional[Dict[str, Any]]:
    """A JSON object; None if the text is none."""
    try:
        found = json.loads(text)
    except (ValueError, RecursionError):
        return None
    return found if isinstance(found, dict) else None


def refused(status: int, found: Dict[str, Any]) -> Trouble:
    """What to raise for an answer of the token endpoint other than 200."""
    name = found.get('error')
    if status >= 500 or not isinstance(name, str):
        return NoAnswer(f'the login got the answer {status}, and no token: try again')
    return ServerRefused(f'no token was given: {cause(name)}; begin again by yoke login', status)


def cause(name: str) -> str:
    """An error of OAuth in words."""
    return CAUSES.get(name, 'the server says ' + words.cut(name, 60))


def revoke(endpoint: str, client_id: str, token: str) -> bool:
    """Takes a token back; whether the server did it. NoAnswer if nobody knows."""
    if not endpoint:
        return False
    answer = web.post_form(
        endpoint, {'token': token, 'client_id': client_id, 'token_type_hint': 'access_token'}
    )
    if answer.status >= 500:
        raise NoAnswer(f'{web.host(endpoint)} answers {answer.status}: the token may still be good')
    return answer.status == 200
