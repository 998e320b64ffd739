"""`yoke whoami`: whose the token is that a command would use, and what it may do."""
import argparse

from yoke import api, results
from yoke.login import accounts, store
from yoke.progress import note
from yoke.trouble import Refused, ServerRefused

SUMMARY = 'show which account a server takes you for'
DETAILS = """It asks the server, with the token that send would use: that of --token-file, else of $YOKE_TOKEN, else
that of yoke login."""


def add_arguments(parser: argparse.ArgumentParser) -> None:
    """The words of the verb."""
    api.add_arguments(parser)


def run(arguments: argparse.Namespace) -> int:
    """Shows the account; answers with the exit code."""
    server = api.server_of(arguments, note)
    if not server.token:
        raise Refused(f'nobody is logged in at {server.address}: yoke login')
    try:
        name, number = accounts.of_token(server.address, server.token)
        rights = accounts.rights(server.address, server.token)
    except ServerRefused as refused:
        if refused.status != 401:
            raise
        raise ServerRefused(
            f'{refused}; if it was given back, yoke logout and yoke login', 401, refused.text
        ) from None
    results.put(
        account=name,
        number=number,
        server=server.address,
        may=rights.split(', '),
        token_from=source(arguments, server.address),
    )
    print(f'{name} ({number}) at {server.address}')
    print(f'may: {rights}')
    print(f'the token is {source(arguments, server.address)}')
    return 0


def source(arguments: argparse.Namespace, address: str) -> str:
    """Where the token comes from."""
    if arguments.token_file:
        return f'of {arguments.token_file}'
    if api.token_of_environment():
        return 'of $YOKE_TOKEN'
    login = store.read(address, arguments.profile or '')
    return f'of the login of {login.obtained}' if login else 'unknown'
