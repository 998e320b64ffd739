"""`yoke login`: the account of a server allows yoke to edit in its name, by the browser."""
import argparse
import getpass
import sys
import webbrowser
from typing import Optional, Tuple

from yoke import api, results, web
from yoke.extracts import header
from yoke.login import accounts, listener, oauth, profiles, store
from yoke.progress import note
from yoke.trouble import Refused, Trouble, Usage

SUMMARY = 'log in to a server by the browser, so that send needs no token'
DETAILS = """\
  yoke login --api ADDRESS --client-id ID
  yoke login --profile imports

The application has to be registered at the server once, which gives the client id:
docs/HOWTO/log-in.md tells how. The token is kept in a file that only you can read, or in the
keyring of the desktop by --keyring. It goes to this server alone."""
MINUTES = 5


def add_arguments(parser: argparse.ArgumentParser) -> None:
    """The words of the verb."""
    accounts.add_arguments(parser)
    parser.add_argument('--client-id', metavar='ID', help='of the application that you registered')
    parser.add_argument(
        '--login',
        metavar='ADDRESS',
        dest='website',
        help='the website, if it has another address than the API',
    )
    parser.add_argument(
        '--redirect',
        metavar='ADDRESS',
        help='the registered address of this machine, if the server wants its port',
    )
    parser.add_argument(
        '--no-browser',
        action='store_true',
        help='show the address, and ask for the code that the page shows',
    )
    parser.add_argument('--read-only', action='store_true', help='no right to edit')
    parser.add_argument('--keyring', action='store_true', help='keep the token in the keyring')
    parser.add_argument(
        '--minutes',
        metavar='N',
        type=int,
        default=MINUTES,
        help='how long to wait for the browser (%(default)s)',
    )


def run(arguments: argparse.Namespace) -> int:
    """Logs in; answers with the exit code."""
    place = accounts.place_of(arguments)
    profile = place.profile
    client = arguments.client_id or (profile.client_id if profile else '')
    if not client:
        raise Usage(
            '--client-id names the application that you registered at the server: '
            'docs/HOWTO/log-in.md tells how'
        )
    in_keyring = arguments.keyring or bool(profile and profile.keyring)
    if in_keyring:
        store.keyring()
    if store.path_of(place.server, place.name).exists():
        raise Refused(
            f'there is a login {place.words} already: yoke whoami shows it, ' 'yoke logout ends it'
        )
    website = (
        arguments.website or (profile.login if profile else '') or accounts.website(place.server)
    )
    endpoints = oauth.discover(web.checked(website, '--login'))
    scope = oauth.READ if arguments.read_only else oauth.WRITE
    redirect = arguments.redirect or (profile.redirect if profile else '')
    request, code = ask(arguments, endpoints, client, scope, redirect)
    granted = oauth.exchange(request, code)
    try:
        name, number = accounts.of_token(place.server, granted.token)
        check_account(profile, name)
    except Trouble:
        oauth.revoke(endpoints.revoke, client, granted.token)
        raise
    login = store.Login(
        place.server,
        granted.token,
        place.name,
        name,
        number,
        granted.scope,
        client,
        header.stamp(accounts.now()),
        granted.expires,
        endpoints.revoke,
        in_keyring,
    )
    file = store.write(login)
    results.put(account=name, number=number, server=place.server, profile=place.name or None)
    print(f'logged in {place.words} as {login.whose}')
    print(f'the token is in {"the keyring" if in_keyring else file}; yoke logout ends the login')
    return 0


def ask(
    arguments: argparse.Namespace,
    endpoints: oauth.Endpoints,
    client: str,
    scope: str,
    redirect: str,
) -> Tuple[oauth.Request, str]:
    """The request of this login, and the code that the user gets for it."""
    if arguments.no_browser:
        request = oauth.Request(endpoints, client, oauth.OUT_OF_BAND, scope)
        note(
            f'open this address in any browser, and log in with the right account: {request.address()}'
        )
        return request, pasted()
    if not 1 <= arguments.minutes <= 60:
        raise Usage('--minutes wants a number from 1 to 60')
    with listener.Listener(redirect) as loopback:
        request = oauth.Request(endpoints, client, loopback.redirect, scope)
        loopback.expect(request)
        note(
            f'log in with the right account in the browser; if none opens, open {request.address()}'
        )
        open_browser(request.address())
        code = loopback.wait(arguments.minutes * 60)
        if loopback.ignored:
            note(f'{loopback.ignored} calls that were no answer to this login were ignored')
    return request, code


def open_browser(address: str) -> None:
    """Opens the browser, if there is one that needs no terminal."""
    try:
        webbrowser.open(address)
    except webbrowser.Error:
        pass


def pasted() -> str:
    """The code that the page shows; it isn't echoed on a terminal."""
    if sys.stdin.isatty():
        code = getpass.getpass('the code that the page shows: ')
    else:
        code = sys.stdin.readline()
    code = code.strip()
    if not oauth.is_token(code):
        raise Usage('that is no code: it is one word, without blanks')
    return code


def check_account(profile: Optional[profiles.Profile], name: str) -> None:
    """Refused if the browser was logged in as another account than the profile wants."""
    if profile and profile.account and profile.account != name:
        raise Refused(
            f'the browser is logged in as {api.words.cut(name) or "nobody"}, and the '
            f'profile {profile.name} wants {profile.account}: log out there first; '
            'the token was given back'
        )
