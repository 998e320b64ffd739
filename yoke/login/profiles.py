"""Profiles: a name for a server, an account, and what each changeset says. A person writes them:

    # ~/.config/yoke/profiles.toml
    [imports]
    server = "https://HOST/api/0.6"
    account = "My import account"
    comment = "Addresses of the town of Neuburg"
    source = "Town of Neuburg, 2026"
    chunk = 500
    client_id = "..."

`--profile imports` stands for these words then. Words of the command line win.
"""
import pathlib
import re
import tomllib
from dataclasses import dataclass, fields
from typing import Any, Dict

from yoke import words
from yoke.login import places
from yoke.trouble import Trouble, Usage

NAME = re.compile('[A-Za-z0-9_-]{1,64}')
SECRETS = ('token', 'password', 'client_secret', 'secret', 'refresh_token')


@dataclass(frozen=True)
class Profile:
    """A profile; an empty text or 0 is what it doesn't say.

    `server` is the address of API 0.6; `login` that of the website, if the account logs in at
    another one. `account` is the name of the account, which a login has to be of. `redirect` is
    the registered address of this machine, if the server wants its very port. `keyring` keeps the
    token in the keyring of the desktop.
    """

    name: str
    server: str = ''
    login: str = ''
    account: str = ''
    client_id: str = ''
    redirect: str = ''
    keyring: bool = False
    comment: str = ''
    source: str = ''
    chunk: int = 0

    def options(self) -> Dict[str, Any]:
        """What it says as values of options, by the names that argparse has for these."""
        named = {
            'api': self.server,
            'comment': self.comment,
            'source': self.source,
            'chunk': self.chunk,
            'account': self.account,
        }
        return {name: value for name, value in named.items() if value}


def path() -> pathlib.Path:
    """The file of profiles."""
    return places.config() / 'profiles.toml'


def read(name: str) -> Profile:
    """The profile of this name; Trouble if there is none, or if the file has what it may not."""
    if not NAME.fullmatch(name):
        raise Usage('the name of a profile has letters, digits, - and _ alone')
    file = path()
    try:
        tables = tomllib.loads(file.read_text(encoding='utf-8'))
    except FileNotFoundError:
        raise Trouble(
            f'there is no profile {name}: write [{name}] into {file}, with a line '
            'server = "ADDRESS"'
        ) from None
    except UnicodeDecodeError:
        raise Trouble(f'{file} isn\'t UTF-8') from None
    except tomllib.TOMLDecodeError as fault:
        raise Trouble(f'{file} is no TOML: {fault}') from None
    loose = sorted(key for key, value in tables.items() if not isinstance(value, dict))
    if loose:
        raise Trouble(
            f'{file}: {words.cut(loose[0], 40)} stands above the first [PROFILE]: '
            'put it under one'
        )
    if name not in tables:
        there = ', '.join(words.cut(one, 64) for one in tables) or 'none'
        raise Trouble(f'there is no profile {name} in {file}: there are {there}')
    return checked(file, name, tables[name])


def checked(file: pathlib.Path, name: str, table: Dict[str, Any]) -> Profile:
    """A table of the file as a Profile."""
    types = {one.name: type(one.default) for one in fields(Profile) if one.name != 'name'}
    for key, value in table.items():
        where = f'{file}, [{name}]'
        if key in SECRETS:
            raise Trouble(
                f'{where}: a {key} doesn\'t belong into this file: take it out; '
                'yoke login keeps the token'
            )
        if key not in types:
            raise Trouble(
                f'{where}: {words.cut(key, 40)} is no key of a profile: there are '
                f'{", ".join(types)}'
            )
        if type(value) is not types[key]:  # a boolean is an int, too
            kinds = {str: 'a text in quotes', int: 'a number', bool: 'true or false'}
            raise Trouble(f'{where}: {key} wants {kinds[types[key]]}')
    if not 0 <= table.get('chunk', 1) <= 10_000 or table.get('chunk') == 0:
        raise Trouble(f'{file}, [{name}]: chunk wants a number from 1 to 10,000')
    return Profile(name, **table)
