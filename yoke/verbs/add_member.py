"""`yoke add-member`: one member into a relation."""
import argparse

from yoke import results, table
from yoke.scripts import lists
from yoke.session import Session

SUMMARY = 'make an object a member of a relation'


def add_arguments(parser: argparse.ArgumentParser) -> None:
    parser.add_argument('key', metavar='KEY')
    parser.add_argument('relation', metavar='RELATION')
    parser.add_argument('role', metavar='ROLE', nargs='?', default='')
    parser.add_argument(
        '--at', metavar='N', type=int, help='make it the N-th member; the first is 1'
    )
    parser.add_argument(
        '--again', action='store_true', help='also where it is a member with this role already'
    )


def run(arguments: argparse.Namespace) -> int:
    session = Session.of(arguments)
    with session.day.locked():
        found = table.read(session.day.last().text())
        line = lists.add_members_line(
            found,
            [(arguments.key, arguments.role)],
            arguments.relation,
            arguments.at,
            arguments.again,
        )
        session.edit('add-member', [line])
        results.put(step=line, session=results.of_state(session.day.last()))
        print(line)
        print(f'kept as {session.day.last().path}')
    return 0
