"""Which server and which login the words of a command line mean, and whose a token is."""
import argparse
import time
import urllib.parse
from dataclasses import dataclass
from typing import Optional, Tuple

from yoke import api
from yoke.login import profiles
from yoke.progress import note
from yoke.trouble import NoAnswer, Usage


@dataclass(frozen=True)
class Place:
    """A server and the profile by which it was named, if there was one."""

    server: str
    profile: Optional[profiles.Profile] = None

    @property
    def name(self) -> str:
        """The name of the profile; empty if there is none."""
        return self.profile.name if self.profile else ''

    @property
    def words(self) -> str:
        """Where that is, for a message."""
        return f'at {self.server}' + (f' for the profile {self.name}' if self.profile else '')


def add_arguments(parser: argparse.ArgumentParser) -> None:
    """The words by which a verb of logins names the server."""
    group = parser.add_argument_group('the server')
    group.add_argument('--api', metavar='ADDRESS', help='its address, such as https://HOST/api/0.6')
    group.add_argument('--profile', metavar='NAME', help='a profile that names it')


def place_of(arguments: argparse.Namespace) -> Place:
    """The Place; Usage if the words name none."""
    profile = profiles.read(arguments.profile) if arguments.profile else None
    if not arguments.api:
        raise Usage('--api ADDRESS names the server, or --profile NAME one that has it')
    return Place(api.checked(arguments.api), profile)


def website(server: str) -> str:
    """The address of the website of a server, where its accounts log in."""
    parts = urllib.parse.urlsplit(server)
    host = api.WEBSITES.get(parts.netloc, parts.netloc)
    return f'{parts.scheme}://{host}{parts.path[:-len("/api/0.6")]}'


def of_token(server: str, token: str) -> Tuple[str, int]:
    """The name and the number of the account of a token."""
    account = api.Server(server, token, note).account()
    if account is None:
        raise NoAnswer(f'{server} doesn\'t say whose the token is')
    return account.name, account.number


def rights(server: str, token: str) -> str:
    """What a token may do, in words."""
    found = api.Server(server, token, note).permissions()
    names = sorted(name.replace('allow_', '', 1) for name in found or ())
    return ', '.join(names) or ('unknown' if found is None else 'nothing')


def now() -> float:
    """Seconds since 1970."""
    return time.time()
