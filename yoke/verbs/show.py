"""`yoke show`: one object."""
import argparse
from typing import Any

from yoke import opl, results, stored
from yoke.day import Day
from yoke.scripts import show
from yoke.trouble import Refused

SUMMARY = 'show objects: what the server has, what they are here, what clashes, and who uses them'


def add_arguments(parser: argparse.ArgumentParser) -> None:
    parser.add_argument('keys', metavar='KEY', nargs='+', help='n1, w-2, r30')


def run(arguments: argparse.Namespace) -> int:
    with stored.opened(Day(arguments.day).last().path) as session:
        for key in arguments.keys:
            lines = list(show.lines(session, key)) if opl.KEY.fullmatch(key) else []
            if not lines:
                raise Refused(f'there is no {key} in the session')
            print('\n'.join(lines))
            if results.wanted():
                results.add('objects', of_object(session, key))
    return 0


def of_object(session: show.Objects, key: str) -> dict[str, Any]:
    """An object with its sides and the keys of its users; one that is only referred to has no side."""
    known = session.get(key)
    sides = (
        results.of_known(known)
        if known
        else {
            'key': key,
            'edit': None,
            'conflict': None,
            'base': None,
            'mine': None,
            'theirs': None,
        }
    )
    return {**sides, 'used_by': session.users(key)}
