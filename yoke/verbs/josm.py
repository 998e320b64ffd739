"""`yoke josm`: what was done in JOSM, as edits of the session."""
import argparse
from typing import Iterable, Optional

from yoke import results, table
from yoke.day import Day
from yoke.files import data_of
from yoke.formats import foreign, osm_xml
from yoke.progress import note
from yoke.session import Session
from yoke.trouble import Refused, Trouble

SUMMARY = 'take in what was edited in JOSM, from a file that it saved'
DETAILS = """FILE is what JOSM saved: over a file of `yoke to-josm`, or over data of the server that the session was begun with too.
Objects are compared part by part with what JOSM began from: what was left alone there is left alone here. Nothing is
done where an object has another version, is in conflict, or was changed there and here, and not alike. What is new in
FILE and here already, with the same tags and at the same places, isn't made again, so the same file again does nothing."""


def add_arguments(parser: argparse.ArgumentParser) -> None:
    parser.add_argument(
        'file', metavar='FILE', help='an .osm file, also .osm.gz, .osm.bz2 or .osm.xz'
    )
    add_options(parser)


def add_options(parser: argparse.ArgumentParser) -> None:
    parser.add_argument('--show', action='store_true', help='print the steps, and do nothing')
    parser.add_argument(
        '--again', action='store_true', help='also new objects that the session has already'
    )


def run(arguments: argparse.Namespace) -> int:
    session = Session.of(arguments)
    with session.day.locked():
        try:
            drawn = osm_xml.read_josm(data_of(arguments.file))
        except ValueError as error:
            raise Trouble(f'{arguments.file}: {error}') from None
        start = table.read(begun(session.day, drawn.state, arguments.file)) if drawn.state else None
        return bring_in('josm', session, arguments, drawn.told, start)


def begun(day: Day, state: str, file: str) -> str:
    """The text of the session from which `yoke to-josm` wrote a file."""
    text = day.read(f'josm-{state}.start')
    if text is None:
        raise Refused(
            '{} was written by to-josm from a session that this day doesn\'t have, or no longer: {}'.format(
                file, state
            )
        )
    return text


def bring_in(
    verb: str,
    session: Session,
    arguments: argparse.Namespace,
    told: Iterable[osm_xml.Told],
    start: Optional[table.Table] = None,
) -> int:
    """Does the steps of a document's edits, and says what they were; Refused where something is in
    the way of one.
    """
    plan = foreign.plan(told, table.read(session.day.last().text()), start, arguments.again)
    for text in plan.notes:
        note(f'{arguments.file}: {text}')
    results.put(
        steps=plan.lines,
        problems=plan.problems,
        made=plan.made,
        counts=dict(plan.counts),
        session=None,
    )
    for problem in plan.problems:
        print(problem)
    if plan.problems:
        raise Refused(
            'nothing is done of {}: {} of its edits can\'t be'.format(
                arguments.file, len(plan.problems)
            )
        )
    if arguments.show:
        print(''.join(line + '\n' for line in plan.lines), end='')
        return 0
    if not plan.lines:
        print(f'{arguments.file} changes nothing here')
        return 0
    session.edit(verb, ['begin'] + plan.lines + ['end'])
    print(
        ', '.join(
            f'{name} {plan.counts[name]}'
            for name in ('new', 'tags', 'place', 'nodes', 'members', 'deleted')
            if plan.counts[name]
        )
    )
    results.put(session=results.of_state(session.day.last()))
    print(f'kept as {session.day.last().path}')
    return 0
