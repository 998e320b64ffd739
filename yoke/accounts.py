"""Whose edits they are: the account of a token, shown before anything is sent, and tied to the day.

The file `account` of a day names the account that sent first. A token of another account is refused
after that, unless its name is said: somebody who works at several accounts then sends by the right
one.
"""
import json
from typing import Callable, Optional

from yoke import printing
from yoke.api import Account, Server
from yoke.day import Day
from yoke.trouble import Refused, ServerRefused, Trouble

FILE = 'account'  # of a day
EDIT = 'allow_write_api'


def check(
    day: Day, server: Server, wanted: str, note: Callable[[str], object]
) -> Optional[Account]:
    """The account of a server's token, of which `note` gets the name; None where the server doesn't
    say.

    ServerRefused where the token may not edit the map. Refused where its account isn't the one of
    the name `wanted`, if that isn't empty. Trouble where the day is of another account and no name
    is wanted.
    """
    account, allowed = server.account(), server.permissions()
    if allowed is not None and EDIT not in allowed:
        raise ServerRefused(
            'the token may not edit the map, so nothing is sent: make one with the right to modify the map '
            '(write_api)',
            403,
        )
    if account is None:
        if wanted:
            raise Refused(
                f'{server.address} doesn\'t say whose the token is, so it can\'t be told to be {wanted}\'s: '
                'make a token with the right to read your preferences (read_prefs), or leave --as out'
            )
        note('the server doesn\'t say whose the token is')
        return None
    name = printing.line(account.name)
    if wanted and account.name != wanted:
        raise Refused(
            f'the token is of the account {name}, and not of {wanted}: nothing is sent; give the token of {wanted}'
        )
    before = noted(day)
    if before and before.number != account.number and not wanted:
        raise Trouble(
            f'this day sends as {printing.line(before.name)}, and the token is of the account {name}: '
            f'give the other token, or go on as {name} by --as \'{name}\''
        )
    note(f'sends as {name}')
    return account


def noted(day: Day) -> Optional[Account]:
    """The account that a day is of; None where nothing was sent yet. Trouble where the file is
    none.
    """
    text = day.read(FILE)
    if text is None:
        return None
    try:
        found = json.loads(text)
        return Account(int(found['number']), str(found['name']))
    except (ValueError, KeyError, TypeError):
        raise Trouble(
            f'{day.path(FILE)} doesn\'t say which account the day is of: remove it'
        ) from None


def note_account(day: Day, account: Optional[Account]) -> None:
    """Notes the account that a day is of from now on."""
    if account is not None and noted(day) != account:
        day.write(
            FILE,
            json.dumps({'number': account.number, 'name': account.name}, ensure_ascii=False) + '\n',
        )
