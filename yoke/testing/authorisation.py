"""A strict authorisation server of OAuth 2 in memory, for tests and for practice.

    with StrictServer(read_file('town.opl')) as server:
        server.authorisation = Authorisation(server.users, server.scopes)
        server.authorisation.register(Client('my-app', ('http://127.0.0.1/',)))
        client(server.address)      # it logs in at /oauth2/authorize

It takes public clients alone, with PKCE by S256. A code is good for a minute, for its client, its
redirect and its verifier, and once: a second use takes back the token of the first. A redirect has
to be registered; on the loopback address its port may be another one (RFC 8252). What is wrong with
the client or the redirect is told on a page and never redirected. `browse` is a user with a
browser.
"""
import base64
import hashlib
import html
import json
import re
import secrets
import time
import urllib.parse
from dataclasses import dataclass, field
from typing import Any, Callable, Dict, List, Mapping, MutableMapping, Optional, Tuple

OUT_OF_BAND = 'urn:ietf:wg:oauth:2.0:oob'
SCOPES = ('read_prefs', 'write_prefs', 'write_api')
CODE_SECONDS = 60
VERIFIER = re.compile('[A-Za-z0-9._~-]{43,128}')
PATHS = ('/oauth2/', '/.well-known/')


@dataclass(frozen=True)
class Client:
    """An application: its id, its registered redirects, and the rights it may ask for."""

    number: str
    redirects: Tuple[str, ...]
    scopes: Tuple[str, ...] = SCOPES


@dataclass
class Code:
    """A code that was given out, for what it is good, and the token that was given for it."""

    client: str
    redirect: str
    challenge: str
    user: Any
    scope: str
    until: float
    token: str = ''


class Wrong(Exception):
    """What the server answers in place of what was asked for: a status and an error of OAuth."""

    def __init__(self, error: str, text: str = '', status: int = 400):
        super().__init__(error)
        self.error, self.text, self.status = error, text, status


@dataclass
class Reply:
    """An answer of HTTP."""

    status: int
    body: bytes = b''
    type: str = 'text/html; charset=utf-8'
    headers: Tuple[Tuple[str, str], ...] = ()


@dataclass
class Authorisation:
    """The server. It puts tokens into `users` and `scopes`, by which the API knows them.

    `base` is its address. `faults` come first, by the last part of the path, as `{'token':
    'html'}`.
    """

    users: MutableMapping[str, Any]
    scopes: MutableMapping[str, Tuple[str, ...]] = field(default_factory=dict)
    base: str = ''
    clock: Callable[[], float] = time.time
    has_metadata: bool = True
    has_revocation: bool = True
    token_seconds: int = 0
    metadata: Dict[str, Any] = field(default_factory=dict)  # what differs in it
    clients: Dict[str, Client] = field(default_factory=dict)
    codes: Dict[str, Code] = field(default_factory=dict)
    faults: Dict[str, Callable[[], Reply]] = field(default_factory=dict)
    seen: List[Tuple[str, Dict[str, str]]] = field(default_factory=list)
    revoked: List[str] = field(default_factory=list)

    def register(self, client: Client) -> None:
        """Takes an application in."""
        self.clients[client.number] = client

    # ---- calls ----

    def answer(self, method: str, target: str, headers: Mapping[str, str], body: bytes) -> Reply:
        """The answer to a call."""
        path, _, query = target.partition('?')
        name = path.rsplit('/', 1)[-1]
        fields = single(query if method == 'GET' else body.decode('utf-8', 'replace'))
        self.seen.append((f'{method} {name}', fields or {}))
        if name in self.faults:
            return self.faults[name]()
        calls = {
            ('GET', '/oauth2/authorize'): self.page,
            ('POST', '/oauth2/authorize'): self.decide,
            ('POST', '/oauth2/token'): self.token,
            ('POST', '/oauth2/revoke'): self.revoke,
            ('GET', '/.well-known/oauth-authorization-server'): self.tell,
        }
        call = calls.get((method, path))
        if call is None or call == self.revoke and not self.has_revocation:
            return Reply(404, b'<html>there is no such page</html>')
        if fields is None:
            return Reply(400, b'<html>a parameter stands twice</html>')
        is_form = (headers.get('Content-Type') or '').startswith(
            'application/x-www-form-urlencoded'
        )
        if method == 'POST' and not is_form:
            return Reply(415)
        try:
            return call(fields)
        except Wrong as wrong:
            text = json.dumps({'error': wrong.error, 'error_description': wrong.text})
            return Reply(wrong.status, text.encode(), 'application/json')

    def tell(self, _: Dict[str, str]) -> Reply:
        """The metadata (RFC 8414)."""
        if not self.has_metadata:
            return Reply(404)
        found = {
            'issuer': self.base,
            'authorization_endpoint': self.base + '/oauth2/authorize',
            'token_endpoint': self.base + '/oauth2/token',
            'response_types_supported': ['code'],
            'code_challenge_methods_supported': ['S256'],
            'scopes_supported': list(SCOPES),
        }
        if self.has_revocation:
            found['revocation_endpoint'] = self.base + '/oauth2/revoke'
        return Reply(200, json.dumps({**found, **self.metadata}).encode(), 'application/json')

    def page(self, fields: Dict[str, str]) -> Reply:
        """The page on which a user says yes or no."""
        problem = self._problem(fields)
        if isinstance(problem, Reply):
            return problem
        hidden = ''.join(
            f'<input type="hidden" name="{html.escape(name)}" ' f'value="{html.escape(value)}">'
            for name, value in fields.items()
        )
        text = (
            f'<!DOCTYPE html><title>Practice login</title><p>{html.escape(fields["client_id"])} '
            f'asks for: {html.escape(fields["scope"])}</p><form method="post">{hidden}'
            '<button name="decision" value="allow">Allow</button>'
            '<button name="decision" value="deny">Deny</button></form>'
        )
        return Reply(200, text.encode())

    def decide(self, fields: Dict[str, str]) -> Reply:
        """What the user said: a code, or a refusal, goes to the redirect."""
        decision, token = fields.pop('decision', ''), fields.pop('as', '')
        problem = self._problem(fields)
        if isinstance(problem, Reply):
            return problem
        users = [user for known, user in self.users.items() if not token or known == token]
        if decision != 'allow' or not users:
            return self._back(fields, error='access_denied')
        code = secrets.token_urlsafe(24)
        self.codes[code] = Code(
            fields['client_id'],
            fields['redirect_uri'],
            fields['code_challenge'],
            users[0],
            fields['scope'],
            self.clock() + CODE_SECONDS,
        )
        return self._back(fields, code=code)

    def _problem(self, fields: Dict[str, str]) -> Optional[Reply]:
        """What is wrong with a request, as an answer."""
        client = self.clients.get(fields.get('client_id', ''))
        if client is None:
            return Reply(401, b'<html>Client authentication failed due to unknown client</html>')
        if not any(
            is_same_redirect(fields.get('redirect_uri', ''), one) for one in client.redirects
        ):
            return Reply(
                400,
                b'<html>The requested redirect uri is malformed or does not match '
                b'client redirect URI.</html>',
            )
        if fields.get('response_type') != 'code':
            return self._back(fields, error='unsupported_response_type')
        scope = fields.get('scope', '').split()
        if not scope or not set(scope) <= set(client.scopes):
            return self._back(fields, error='invalid_scope')
        if fields.get('code_challenge_method') != 'S256' or not re.fullmatch(
            '[A-Za-z0-9_-]{43}', fields.get('code_challenge', '')
        ):
            return self._back(fields, error='invalid_request')
        return None

    def _back(self, fields: Dict[str, str], **found: str) -> Reply:
        """Sends the browser back to the application; out of band the page shows the code."""
        if fields['redirect_uri'] == OUT_OF_BAND:
            return Reply(
                200, f'<html><code id="code">{found.get("code", "")}</code></html>'.encode()
            )
        if 'state' in fields:
            found['state'] = fields['state']
        if self.metadata.get('authorization_response_iss_parameter_supported'):
            found['iss'] = self.base
        where = fields['redirect_uri'] + '?' + urllib.parse.urlencode(found)
        return Reply(302, headers=(('Location', where),))

    def token(self, fields: Dict[str, str]) -> Reply:
        """A token for a code."""
        if fields.get('grant_type') != 'authorization_code':
            raise Wrong('unsupported_grant_type')
        if fields.get('client_id') not in self.clients:
            raise Wrong('invalid_client', status=401)
        code = self.codes.get(fields.get('code', ''))
        if code is None:
            raise Wrong('invalid_grant', 'there is no such code')
        if code.token:
            self._take_back(code.token)
            raise Wrong('invalid_grant', 'the code was used')
        verifier = fields.get('code_verifier', '')
        digest = hashlib.sha256(verifier.encode()).digest()
        challenge = base64.urlsafe_b64encode(digest).rstrip(b'=').decode()
        if (
            (code.client, code.redirect) != (fields['client_id'], fields.get('redirect_uri'))
            or self.clock() > code.until
            or not VERIFIER.fullmatch(verifier)
            or challenge != code.challenge
        ):
            raise Wrong('invalid_grant', 'it is of another login, or over')
        code.token = secrets.token_urlsafe(32)
        self.users[code.token] = code.user
        self.scopes[code.token] = tuple(code.scope.split())
        found = {
            'access_token': code.token,
            'token_type': 'Bearer',
            'scope': code.scope,
            'created_at': int(self.clock()),
        }
        if self.token_seconds:
            found['expires_in'] = self.token_seconds
        return Reply(
            200, json.dumps(found).encode(), 'application/json', (('Cache-Control', 'no-store'),)
        )

    def revoke(self, fields: Dict[str, str]) -> Reply:
        """Takes a token back; one that isn't known is fine (RFC 7009)."""
        if fields.get('client_id') not in self.clients:
            raise Wrong('invalid_client', status=401)
        self._take_back(fields.get('token', ''))
        return Reply(200, b'{}', 'application/json')

    def _take_back(self, token: str) -> None:
        if self.users.pop(token, None) is not None:
            self.scopes.pop(token, None)
            self.revoked.append(token)


def single(text: str) -> Optional[Dict[str, str]]:
    """The fields of a form; None if one stands twice."""
    pairs = urllib.parse.parse_qsl(text, keep_blank_values=True)
    fields = dict(pairs)
    return fields if len(fields) == len(pairs) else None


def is_same_redirect(given: str, registered: str) -> bool:
    """Whether a redirect is a registered one; on the loopback address any port is (RFC 8252)."""
    if given == registered:
        return True
    one, other = urllib.parse.urlsplit(given), urllib.parse.urlsplit(registered)
    return (
        one.scheme == other.scheme == 'http'
        and one.hostname == other.hostname == '127.0.0.1'
        and other.port is None
        and (one.path, one.query) == (other.path, other.query)
    )
