"""`yoke insert`: one node into a way."""
import argparse

from yoke import results, table
from yoke.scripts import lists
from yoke.session import Session

SUMMARY = 'put a node into a way, where it lies nearest, or at a place'


def add_arguments(parser: argparse.ArgumentParser) -> None:
    parser.add_argument('node', metavar='NODE')
    parser.add_argument('way', metavar='WAY')
    parser.add_argument(
        '--after',
        metavar='N',
        help='a node of the way, or the number of a place: 1 is after the first node, 0 the front',
    )


def run(arguments: argparse.Namespace) -> int:
    session = Session.of(arguments)
    with session.day.locked():
        line = lists.insert_line(
            table.read(session.day.last().text()), arguments.node, arguments.way, arguments.after
        )
        session.edit('insert', [line])
        results.put(step=line, session=results.of_state(session.day.last()))
        print(line)
        print(f'kept as {session.day.last().path}')
    return 0
