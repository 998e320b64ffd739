"""The HTTP of OpenStreetMap's API 0.6.

Each call ends in one of three ways, and a caller can rely on which:

- it answers: the server did what was asked;
- `ServerRefused`: the server answered with a 4xx that says so, so it did nothing of it;
- `NoAnswer`: anything else. A call that only looks was tried again before. Of one that writes nobody knows what became.

A 429 was refused too. The call waits, as long as the server says or longer each time, and asks
again; `Later` where that takes longer than the command may wait in all. Only `upload` doesn't wait,
since a smaller document may be wanted (`sending.py`). Nothing else that writes is ever sent twice
here, except the close of a changeset, which does no harm.
"""
import argparse
import contextlib
import datetime
import email.utils
import os
import pathlib
import re
import select
import stat
import time
import urllib.parse
from dataclasses import dataclass, field
from typing import (
    Any,
    Callable,
    FrozenSet,
    Iterable,
    Iterator,
    List,
    Mapping,
    Optional,
    Sequence,
    Tuple,
)
from xml.etree import ElementTree

from yoke import VERSION, opl, osc, transport, words
from yoke.login import store
from yoke.progress import silent
from yoke.trouble import Later, NoAnswer, Redacted, ServerRefused, Trouble, Usage

AGENT = 'yokeorange-yoke/' + VERSION  # of each call
CREATED_BY = 'yokeorange yoke ' + VERSION  # of each changeset
TOKEN = re.compile('[!-~]+')
VARIABLE = 'YOKE_TOKEN'  # of the environment
_held: List[str] = []  # what it was, while `token_held` keeps it
LONGEST_TOKEN = 4096  # bytes
TOKEN_WAIT = 60  # seconds until a pipe has to give a token
LOOPBACK = ('localhost', '127.0.0.1', '::1')
TIMEOUT = transport.TIMEOUT
WAITS = (1, 5, 25)  # seconds before a call that does no harm is tried again
PATIENCE = (
    900  # seconds that a command waits in all where a server asks to, unless --wait says otherwise
)
BACKOFF = 10  # seconds that the first wait takes where a server doesn't say how long; each next one twice as long
LONGEST_BACKOFF = 600  # seconds of the longest of these
NOT_DONE = {400, 401, 403, 404, 405, 406, 409, 410, 411, 412, 413, 414, 415, 422, 428, 431, 451}
SLOWER = (429, 509)  # statuses by which a server asks to wait
AT_ONCE = 400  # objects of one multi-fetch, so that its address stays short
VERSIONS_AT_ONCE = 300  # the same of objects with a version each
WEBSITES = {
    'api.openstreetmap.org': 'www.openstreetmap.org'
}  # where the website isn't at the API's own host
UNITS = {'': 1, 's': 1, 'm': 60, 'h': 3600, 'd': 86400}  # seconds


@dataclass(frozen=True)
class Limits:
    """What a server says that it takes: changes in one changeset, and whether it can be written to."""

    changes: int
    writable: bool


@dataclass(frozen=True)
class Account:
    """An account of a server: its number, which never changes, and its name."""

    number: int
    name: str


def link(address: str, number: str) -> str:
    """Where a changeset is shown on the website of a server, by the address of its API."""
    parts = urllib.parse.urlsplit(address)
    host = WEBSITES.get(parts.netloc, parts.netloc)
    return f'{parts.scheme}://{host}{parts.path[:-len("/api/0.6")]}/changeset/{number}'


def pause(seconds: float) -> None:
    """Waits."""
    time.sleep(seconds)


# ---- the words of a command line ----


def add_arguments(parser: argparse.ArgumentParser) -> None:
    """The words by which a verb names a server and an account."""
    group = parser.add_argument_group('the server')
    group.add_argument(
        '--api',
        metavar='ADDRESS',
        help='its address, such as https://HOST/api/0.6; there is no default',
    )
    group.add_argument(
        '--profile',
        metavar='NAME',
        help='a profile that names the server and more: docs/HOWTO/log-in.md',
    )
    group.add_argument(
        '--token-file',
        metavar='FILE',
        help='a file or pipe that only you can read, with a token of your account (else $YOKE_TOKEN)',
    )
    group.add_argument(
        '--wait',
        metavar='DURATION',
        type=duration,
        default=PATIENCE,
        help='how long the command may wait in all where the server asks to, such as 90s, 15m or 8h (15m)',
    )


def duration(text: str) -> int:
    """A duration such as `90`, `90s`, `15m`, `8h` or `1d`, in seconds."""
    found = re.fullmatch('([0-9]{1,6})([smhd]?)', text)
    if not found:
        raise argparse.ArgumentTypeError(
            f'wants a duration such as 90s, 15m or 8h, and not {words.cut(text)}'
        )
    return int(found[1]) * UNITS[found[2]]


def server_of(
    arguments: argparse.Namespace, note: Callable[[str], None], writes: bool = False
) -> 'Server':
    """The Server that the words name; Usage where they name none, or where it is to be written to
    and there is no token.
    """
    if not arguments.api:
        raise Usage(
            '--api ADDRESS names the server; the page docs/COMPANION.md names the one to try things with'
        )
    return connect(
        arguments.api,
        getattr(arguments, 'token_file', None),
        getattr(arguments, 'profile', None) or '',
        note,
        getattr(arguments, 'wait', PATIENCE),
        writes,
    )


def connect(
    address: str,
    token_file: Optional[str] = None,
    profile: str = '',
    note: Callable[[str], object] = silent,
    patience: float = PATIENCE,
    writes: bool = True,
) -> 'Server':
    """The Server of an address such as `https://HOST/api/0.6`, with a token of your account: that
    of the token file, else of $YOKE_TOKEN, else the one that `yoke login` keeps for the server and
    the profile.

    Usage where the address is none, or where it is to be written to and there is no token. `note`
    is called with a line where a call waits, and `patience` is how many seconds all calls together
    may wait where the server asks to.
    """
    token = given_token(token_file) or kept_token(address, profile)
    if writes and not token:
        raise Usage(
            'a token of your account is wanted, in $YOKE_TOKEN or in a --token-file, or by yoke login'
        )
    return Server(address, token, note, patience=patience)


def token_of(arguments: argparse.Namespace) -> str:
    """The token that the words and the environment give: of --token-file, else of $YOKE_TOKEN, else
    an empty text. Usage or Trouble where it is none; no message has it.
    """
    return given_token(getattr(arguments, 'token_file', None))


def given_token(name: Optional[str]) -> str:
    """The token in a file, else of $YOKE_TOKEN, else an empty text. Usage or Trouble where it is
    none.
    """
    token = token_in(name) if name else token_of_environment()
    if token and not TOKEN.fullmatch(token):
        where = name if name else '$YOKE_TOKEN'
        raise Usage(f'{where} has no token: there is a blank in it, or a sign that no token has')
    return token


def token_of_login(arguments: argparse.Namespace) -> str:
    """The token that yoke login keeps for the server that the words name; an empty text if there is
    none.
    """
    return kept_token(arguments.api, getattr(arguments, 'profile', None) or '')


def kept_token(address: str, profile: str = '') -> str:
    """The token that yoke login keeps for a server and a profile; an empty text if there is none."""
    login = store.read(checked(address), profile)
    return login.token if login else ''


def token_in(name: str) -> str:
    """The token in a file or a pipe; Trouble where others can read it, or where it is neither."""
    path = pathlib.Path(name)
    try:
        mode = path.stat().st_mode
    except FileNotFoundError:
        raise Trouble(f'there is no file {name}') from None
    if not stat.S_ISREG(mode) and not stat.S_ISFIFO(mode):
        raise Trouble(f'{name} is neither a file nor a pipe: name a file that has the token')
    if mode & (stat.S_IRWXG | stat.S_IRWXO):
        raise Trouble(f'others can read {name}: chmod 600 {name}')
    data = _first_bytes(path, LONGEST_TOKEN + 1)
    if len(data) > LONGEST_TOKEN or not data.isascii():
        raise Trouble(
            f'{name} has no token: it is a binary file, or too long; a token is one line of letters and digits'
        )
    return data.decode('ascii').strip()


def _first_bytes(path: pathlib.Path, most: int) -> bytes:
    """What a file or pipe begins with. Trouble where a pipe gives nothing for too long."""
    handle = os.open(
        path, os.O_RDONLY | os.O_NONBLOCK | os.O_CLOEXEC
    )  # so that a pipe that nobody writes to doesn't hold us up
    try:
        data = b''
        while len(data) < most:
            if not select.select([handle], [], [], TOKEN_WAIT)[0]:
                raise Trouble(f'{path} is a pipe, and nothing came through it for {TOKEN_WAIT} s')
            piece = os.read(handle, most - len(data))
            if not piece:
                break
            data += piece
        return data
    finally:
        os.close(handle)


@contextlib.contextmanager
def token_held() -> Iterator[None]:
    """Takes $YOKE_TOKEN out of the environment while the context lasts: `token_of` has it, and no
    program that is started.
    """
    before = os.environ.pop(VARIABLE, None)
    if before is not None:
        _held.append(before)
    try:
        yield
    finally:
        if before is not None:
            _held.pop()
            os.environ[VARIABLE] = before


def token_of_environment() -> str:
    """The token of $YOKE_TOKEN; an empty text where there is none."""
    return (os.environ.get(VARIABLE) or (_held[-1] if _held else '')).strip()


# ---- the server ----


@dataclass
class Server:
    """A server of API 0.6: its address, as `https://HOST/api/0.6`, and perhaps a token of an
    account.

    `note` is called with a line for the user where a call waits. `patience` is how many seconds all
    calls together may wait where the server asks to, and `waited` how many they did.
    """

    address: str
    token: str = field(default='', repr=False)
    note: Callable[[str], Any] = silent
    timeout: float = TIMEOUT
    patience: float = PATIENCE
    waited: float = 0

    def __post_init__(self) -> None:
        self.address = checked(self.address)
        self.transport = transport.Transport(self.address, self.timeout)

    # ---- what is asked ----

    def capabilities(self) -> ElementTree.Element:
        """The document of `/capabilities`."""
        root: ElementTree.Element = self._read(osc.root_of, self.look('/capabilities'), 'osm')
        return root

    def limits(self) -> Limits:
        """The Limits; Trouble where the server doesn't speak API 0.6."""
        root = self.capabilities()
        most = root.find('./api/changesets')
        state = root.find('./api/status')
        count = '' if most is None else most.get('maximum_elements') or ''
        if not opl.is_digits(count):
            raise Trouble(
                f'{self.address} doesn\'t say how many changes it takes in a changeset: is it a server of API 0.6?'
            )
        return Limits(int(count), state is None or state.get('api') in (None, 'online'))

    def permissions(self) -> Optional[FrozenSet[str]]:
        """What the token may do, such as `allow_write_api`; None where the server doesn't say."""
        try:
            root = self._read(osc.root_of, self.look('/permissions'), 'osm')
        except ServerRefused as refused:
            if refused.status != 404:
                raise
            return None
        return frozenset(one.get('name') or '' for one in root.iter('permission'))

    def account(self) -> Optional[Account]:
        """The account of the token; None where the server has no such call, or where the token may
        not ask for it.
        """
        try:
            user = self._read(osc.root_of, self.look('/user/details'), 'osm').find('user')
        except ServerRefused as refused:
            if refused.status != 404 and not (
                refused.status == 403 and words.is_scope_missing(refused.text)
            ):
                raise
            return None
        number = '' if user is None else user.get('id') or ''
        if user is None or not opl.is_digits(number):
            raise NoAnswer(f'{self.address} doesn\'t say whose the token is')
        return Account(int(number), user.get('display_name') or '')

    def link(self, number: str) -> str:
        """Where a changeset is shown on the website."""
        return link(self.address, number)

    def open_changeset(self, tags: Mapping[str, str]) -> str:
        """Opens a changeset; answers with its id, a text."""
        number = self._ask('PUT', '/changeset/create', osc.changeset(tags)).strip()
        if not opl.is_digits(number):
            raise NoAnswer('the answer to a new changeset is no id: ' + words.cut(number))
        return number

    def changeset(self, number: str) -> Tuple[int, bool]:
        """How many changes a changeset has, and whether it is open."""
        element = self._read(osc.root_of, self.look('/changeset/' + number), 'osm').find(
            'changeset'
        )
        count, is_open = (
            ('', '')
            if element is None
            else (element.get('changes_count') or '', element.get('open'))
        )
        if not opl.is_digits(count) or is_open not in ('true', 'false'):
            raise NoAnswer(
                f'{self.address} doesn\'t say how many changes the changeset {number} has, and whether it is open'
            )
        return int(count), is_open == 'true'

    def close_changeset(self, number: str) -> None:
        """Closes a changeset; one that is closed already is fine, so it is asked again where no
        answer comes. ServerRefused where it is another account's.
        """
        try:
            self._patiently('PUT', f'/changeset/{number}/close')
        except ServerRefused as refused:
            if refused.status != 409 or words.is_of_another_account(refused.text):
                raise

    def upload(self, number: str, document: str) -> str:
        """Sends an osmChange document into a changeset; answers with the text of the diffResult. It
        never waits: a 429 is raised as any other refusal.
        """
        return self._once('POST', f'/changeset/{number}/upload', document)

    def download(self, number: str) -> str:
        """What a changeset has, as the text of an osmChange document."""
        return self.look(f'/changeset/{number}/download')

    def version(self, key: str, number: int) -> Optional[opl.Object]:
        """A version of an object; None where there is none. Redacted where a moderator hid it."""
        try:
            found = self._read(osc.things, self.look(f'/{opl.KINDS[key[0]]}/{key[1:]}/{number}'))
        except ServerRefused as refused:
            if refused.status == 403:
                raise Redacted(
                    f'{key}: its version {number} is redacted, so the server doesn\'t show it',
                    403,
                    refused.text,
                ) from None
            if refused.status != 404:
                raise
            return None
        return found[0] if found else None

    def changes(self, number: str) -> List[Tuple[str, opl.Object]]:
        """The changes that a changeset has, in the order in which the server lists them: pairs of a
        verb and an object.
        """
        found: List[Tuple[str, opl.Object]] = self._read(osc.changes, self.download(number))
        return found

    def versions(
        self, pairs: Iterable[Tuple[str, int]]
    ) -> Tuple[List[opl.Object], List[Tuple[str, int]]]:
        """The objects of these pairs of a key and a version, and the pairs that the server doesn't
        show, as redacted ones.
        """
        found: List[opl.Object] = []
        hidden: List[Tuple[str, int]] = []
        pairs = list(pairs)
        for kind in ('node', 'way', 'relation'):
            some = [pair for pair in pairs if opl.KINDS[pair[0][0]] == kind]
            for at in range(0, len(some), VERSIONS_AT_ONCE):
                found += self._versions(kind, some[at : at + VERSIONS_AT_ONCE], hidden)
        return found, hidden

    def _versions(
        self, kind: str, pairs: List[Tuple[str, int]], hidden: List[Tuple[str, int]]
    ) -> List[opl.Object]:
        try:
            asked = ','.join(f'{key[1:]}v{number}' for key, number in pairs)
            found: List[opl.Object] = self._read(osc.things, self.look(f'/{kind}s?{kind}s={asked}'))
            there = {(thing.key, thing.version) for thing in found}
            hidden += [
                pair for pair in pairs if pair not in there
            ]  # a server leaves redacted versions out without a word
            return found
        except ServerRefused as refused:
            if refused.status not in (403, 404):
                raise
        if len(pairs) == 1:
            hidden += pairs
            return []
        half = len(pairs) // 2
        return self._versions(kind, pairs[:half], hidden) + self._versions(
            kind, pairs[half:], hidden
        )

    def things(self, keys: Iterable[str], missing: Callable[[str], Any]) -> List[opl.Object]:
        """The objects with these keys as they are now, the deleted ones too.

        `missing` is called with each key that never existed; what it raises ends the call.
        """
        found: List[opl.Object] = []
        keys = list(keys)
        for kind in ('node', 'way', 'relation'):
            ids = [key[1:] for key in keys if opl.KINDS[key[0]] == kind]
            for at in range(0, len(ids), AT_ONCE):
                found += self._things(kind, ids[at : at + AT_ONCE], missing)
        return found

    def _things(
        self, kind: str, ids: Sequence[str], missing: Callable[[str], Any]
    ) -> List[opl.Object]:
        try:
            found: List[opl.Object] = self._read(
                osc.things, self.look(f'/{kind}s?{kind}s={",".join(ids)}')
            )
            return found
        except ServerRefused as refused:
            if refused.status != 404:
                raise
        if len(ids) == 1:
            missing(kind[0] + ids[0])
            return []
        half = len(ids) // 2
        return self._things(kind, ids[:half], missing) + self._things(kind, ids[half:], missing)

    def users(self, key: str) -> List[opl.Object]:
        """The ways and relations that refer to an object as they are now; none where it isn't
        there.
        """
        found: List[opl.Object] = []
        for kind in ('ways', 'relations') if key[0] == 'n' else ('relations',):
            try:
                found += self._read(osc.things, self.look(f'/{opl.KINDS[key[0]]}/{key[1:]}/{kind}'))
            except ServerRefused as refused:
                if refused.status not in (404, 410):
                    raise
        return found

    def _read(self, reader: Callable[..., Any], text: str, *names: str) -> Any:
        """What a reader makes of an answer; NoAnswer where it is another document, as the page of a
        proxy.
        """
        try:
            return reader(text, *names)
        except osc.NoXml as fault:
            raise NoAnswer(f'{self.address} answers something else: {fault}') from None

    # ---- how ----

    def look(self, path: str) -> str:
        """The text of a GET, asked again a few times where no answer comes."""
        return self._patiently('GET', path)

    def _patiently(self, method: str, path: str) -> str:
        """A call that does no harm when it is done twice."""
        for wait in WAITS:
            try:
                return self._ask(method, path)
            except transport.TooLarge:
                raise
            except NoAnswer as silence:
                self.note(f'{silence}; asked again in {wait} s')
                pause(wait)
        return self._ask(method, path)

    def _ask(self, method: str, path: str, document: Optional[str] = None) -> str:
        """A call that waits where the server asks to."""
        attempt = 0
        while True:
            try:
                return self._once(method, path, document)
            except ServerRefused as refused:
                if refused.status not in SLOWER:
                    raise
                self.hold_off(refused, attempt)
                attempt += 1

    def hold_off(self, refused: ServerRefused, attempt: int = 0) -> None:
        """Waits as long as a refusal asks to. Where it doesn't say how long the waits grow from one
        attempt to the next. Later where that is longer than may be waited.
        """
        wait = refused.wait or min(BACKOFF << min(attempt, 16), LONGEST_BACKOFF)
        if self.waited + wait > self.patience:
            raise later(refused, self.patience - self.waited)
        if refused.wait:
            self.note(f'the server asks to wait {wait} s')
        else:
            self.note(
                f'the server asks to wait, and doesn\'t say how long: asked again in {wait} s'
            )
        pause(wait)
        self.waited += wait

    def _once(self, method: str, path: str, document: Optional[str] = None) -> str:
        headers = {'User-Agent': AGENT, 'Accept': '*/*'}
        if self.token:
            headers['Authorization'] = 'Bearer ' + self.token
        body = None
        if document is not None:
            headers['Content-Type'] = 'text/xml; charset=utf-8'
            body = document.encode('utf-8')
        answer = self.transport.call(method, self.address + path, headers, body)
        if not 200 <= answer.status < 300:
            raise _refused(answer, method)
        try:
            return answer.body.decode('utf-8')
        except UnicodeDecodeError:
            raise NoAnswer(f'no answer from {self.address}: it isn\'t UTF-8') from None


def _refused(answer: transport.Response, method: str) -> Trouble:
    """What an answer with another status than 200 is. A 509 asks who looked at too much to wait, as
    a 429 does. A redirection tells nothing of what became of a call that writes: a gateway may have
    made it of an answer that came too late.
    """
    status, text = answer.status, answer.body.decode('utf-8', 'replace')
    looks = method == 'GET' and (300 <= status < 400 or status == 509)
    if status in NOT_DONE or status == 429 or looks:
        text = text or answer.headers.get('Error') or ''
        return ServerRefused(
            words.answer(status, text), status, text, seconds(answer.headers.get('Retry-After'))
        )
    return NoAnswer(f'the server answers {status}{": " + words.cut(text) if text else ""}')


def later(refused: ServerRefused, left: float) -> Later:
    """That a server asks to wait for longer than a command may still wait, with what to do."""
    if not refused.wait:
        return Later(
            f'{refused}; it doesn\'t say how long: run the same command again later, or let it wait, as by --wait 2h',
            refused.status,
            refused.text,
        )
    when = datetime.datetime.now() + datetime.timedelta(seconds=refused.wait)
    return Later(
        f'{refused}; it asks to wait {refused.wait} s, and {left:.0f} s are left to wait: run the same command again '
        f'after {when:%H:%M}, or let it wait by --wait {refused.wait}s',
        refused.status,
        refused.text,
        refused.wait,
    )


def checked(address: str) -> str:
    """An address as `https://HOST/api/0.6`; Usage where it is none, or where a token would go out
    in the clear. No message has a password that is in it.
    """
    bare = re.sub('[^/]*@', '***@', address)
    wanted = f'--api wants an address such as https://HOST/api/0.6, and not {words.cut(bare)}'
    try:
        parts = urllib.parse.urlsplit(address)
        port = parts.port
    except ValueError:
        raise Usage(wanted) from None
    if parts.scheme not in ('http', 'https') or not parts.hostname or parts.query or parts.fragment:
        raise Usage(wanted)
    if '@' in parts.netloc:
        raise Usage(
            f'{wanted}: a name and a password have no place in it; the account is told by a token'
        )
    if parts.scheme == 'http' and not transport.is_loopback(parts.hostname):
        raise Usage('--api wants https: by http the token would go out in the clear')
    path = re.sub('/+', '/', parts.path).rstrip('/')
    found = re.search('/api(?:/([0-9.]+))?$', path)
    if found and found[1] not in (None, '0.6'):
        raise Usage(f'{wanted}: yoke speaks version 0.6 of the API, and no other')
    path = (path[: found.start()] if found else path) + '/api/0.6'
    host = f'[{parts.hostname}]' if ':' in parts.hostname else parts.hostname
    usual = {'http': 80, 'https': 443}[parts.scheme]
    return f'{parts.scheme}://{host}{"" if port in (None, usual) else f":{port}"}{path}'


def seconds(text: Optional[str]) -> int:
    """How many seconds a `Retry-After` asks to wait, which it may say by a time too; 0 where it
    doesn't say.
    """
    if not text:
        return 0
    if opl.is_digits(text.strip()) and len(text) < 10:
        return max(int(text), 1)
    try:
        when = email.utils.parsedate_to_datetime(text)
    except (TypeError, ValueError):
        return 0
    if when.tzinfo is None:
        when = when.replace(tzinfo=datetime.timezone.utc)
    return max(int((when - datetime.datetime.now(datetime.timezone.utc)).total_seconds()) + 1, 1)
