"""Tokens that are kept after a login, each in a file of its own that only its user can read.

A login belongs to a profile, or to a server if there was no profile. Its token goes to that server
alone. With a keyring the file has all but the token.
"""
import contextlib
import json
import os
import pathlib
import stat
import time
import urllib.parse
from dataclasses import asdict, dataclass, field
from typing import Any, Optional

from yoke import day
from yoke.extracts import header
from yoke.login import places
from yoke.trouble import Refused, Trouble

SERVICE = 'yoke'  # under which name a keyring has it


@dataclass(frozen=True)
class Login:
    """A login: the server, its profile if there is one, the account, and the token with its rights.

    `obtained` and `expires` are moments; `revoke` is where the token is taken back, if anywhere.
    """

    server: str
    token: str = field(repr=False)
    profile: str = ''
    account: str = ''
    number: int = 0
    scope: str = ''
    client_id: str = ''
    obtained: str = ''
    expires: str = ''
    revoke: str = ''
    in_keyring: bool = False

    @property
    def whose(self) -> str:
        """The account in words."""
        return f'{self.account} ({self.number})' if self.account else 'an account'


def folder() -> pathlib.Path:
    """The folder of the files."""
    return places.state() / 'tokens'


def path_of(server: str, profile: str) -> pathlib.Path:
    """The file of a profile's login, or of a server's."""
    parts = urllib.parse.urlsplit(server)
    name = urllib.parse.quote(parts.netloc + parts.path, safe='')
    return folder() / (f'{profile}.profile.json' if profile else f'{name}.server.json')


def read(server: str, profile: str = '') -> Optional[Login]:
    """The login that is kept; None if there is none for this server. Trouble if others can read it,
    or if it is broken. Refused if its time is over."""
    file = path_of(server, profile)
    try:
        mode = file.stat().st_mode
        if mode & (stat.S_IRWXG | stat.S_IRWXO):
            raise Trouble(f'others can read {file}: yoke logout, and log in again')
        found = json.loads(file.read_text(encoding='utf-8'))
        login = Login(**found)
    except FileNotFoundError:
        return None
    except (ValueError, TypeError):
        raise Trouble(f'{file} is broken: remove it, and log in again') from None
    if login.server != server:
        return None  # the profile was of another server then
    if login.expires and login.expires <= header.stamp(time.time()):
        raise Refused(f'the login of {login.expires} is over: yoke logout, and yoke login')
    if login.in_keyring:
        token = keyring().get_password(SERVICE, file.name)
        if not token:
            raise Trouble(f'the keyring has no token for {server}: yoke logout, and log in again')
        login = Login(**{**found, 'token': token})
    return login


def write(login: Login) -> pathlib.Path:
    """Keeps a login; answers with its file."""
    file = path_of(login.server, login.profile)
    day.make_folder(file.parent)
    os.chmod(file.parent, 0o700)
    table = asdict(login)
    if login.in_keyring:
        keyring().set_password(SERVICE, file.name, login.token)
        table['token'] = ''
    new = file.with_name(f'{file.name}.{os.getpid()}.new')
    handle = os.open(new, os.O_WRONLY | os.O_CREAT | os.O_EXCL, 0o600)
    try:
        with open(handle, 'w', encoding='utf-8') as text:
            json.dump(table, text, indent=1)
            text.write('\n')
            text.flush()
            os.fsync(handle)
        os.replace(new, file)
    finally:
        with contextlib.suppress(FileNotFoundError):
            new.unlink()
    day.sync_folder(file.parent)
    return file


def remove(server: str, profile: str = '') -> bool:
    """Forgets a login; answers whether there was one."""
    file = path_of(server, profile)
    try:
        is_in_keyring = b'"in_keyring": true' in file.read_bytes()
    except FileNotFoundError:
        return False
    if is_in_keyring:
        ring = keyring()
        with contextlib.suppress(ring.errors.PasswordDeleteError):
            ring.delete_password(SERVICE, file.name)
    file.unlink()
    day.sync_folder(file.parent)
    return True


def keyring() -> Any:
    """The module keyring; Trouble if it isn't there, or if the desktop has no keyring."""
    try:
        import keyring as ring  # pylint: disable=import-outside-toplevel
        import keyring.errors  # pylint: disable=import-outside-toplevel,unused-import
    except ImportError:
        raise Trouble(
            'a keyring wants the package keyring ' '(Debian: apt-get install python3-keyring)'
        ) from None
    if ring.get_keyring().priority < 1:
        raise Trouble('there is no keyring that is safe here: log in without --keyring')
    return ring
