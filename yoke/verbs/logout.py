"""`yoke logout`: the token is given back and forgotten."""
import argparse

from yoke import results
from yoke.login import accounts, oauth, store
from yoke.trouble import NoAnswer, Refused, Trouble

SUMMARY = 'end a login: the server takes the token back, and it is forgotten here'
DETAILS = """If the server doesn't answer, the login stays, so that the same command can end it later. --forget removes
it here without asking; the token may stay good at the server then."""


def add_arguments(parser: argparse.ArgumentParser) -> None:
    """The words of the verb."""
    accounts.add_arguments(parser)
    parser.add_argument('--forget', action='store_true', help='only here, and ask no server')


def run(arguments: argparse.Namespace) -> int:
    """Ends the login; answers with the exit code."""
    place = accounts.place_of(arguments)
    if not store.path_of(place.server, place.name).exists():
        raise Refused(f'nobody is logged in {place.words}')
    is_revoked = False if arguments.forget else revoked(place)
    store.remove(place.server, place.name)
    results.put(server=place.server, revoked=is_revoked)
    print(f'logged out {place.words}')
    if not is_revoked:
        print(
            'the token may still be good: take it back on the website, where it lists the '
            'applications that you allowed'
        )
    return 0


def revoked(place: accounts.Place) -> bool:
    """Whether the server took the token back."""
    try:
        login = store.read(place.server, place.name)
    except Refused:  # its time is over
        return True
    except Trouble:  # a file that is broken, or that others can read, has to go all the same
        return False
    try:
        return login is not None and oauth.revoke(login.revoke, login.client_id, login.token)
    except NoAnswer as silence:
        raise NoAnswer(
            f'{silence}; the login is kept: the same command again, or --forget'
        ) from None
