"""`yoke diff`: the edits of the session, each beside what it was made from."""
import argparse
from typing import List, Mapping

from yoke import results, saved, sides, table
from yoke.day import Day
from yoke.files import check_outputs, write_own
from yoke.review import picture
from yoke.review.items import USERS, collect
from yoke.session import Session

SUMMARY = 'show what is edited: each object, and what became of it'
DETAILS = 'It reads the saved session alone: what the server has by now is another question (yoke refresh).'


def add_arguments(parser: argparse.ArgumentParser) -> None:
    """The words of the verb."""
    parser.add_argument('keys', metavar='KEY', nargs='*', help='only these objects')
    parser.add_argument(
        '--short', action='store_true', help='a line for each object, without its parts'
    )
    parser.add_argument(
        '--svg',
        metavar='FILE',
        help='draw the edits on a map, as one picture; - is standard output',
    )
    parser.add_argument(
        '--force', action='store_true', help='with --svg: also over a file that yoke didn\'t write'
    )


def edited(found: Mapping[str, saved.Known]) -> List[saved.Known]:
    """The objects of a session that are new, changed or deleted."""
    return [known for known in found.values() if known.edit is not None]


def run(arguments: argparse.Namespace) -> int:
    """Shows what is edited; answers with the exit code."""
    if arguments.svg:
        return draw(arguments)
    count = 0
    for known in edited(saved.read(Day(arguments.day).last().text())):
        if arguments.keys and known.key not in arguments.keys:
            continue
        count += 1
        if results.wanted():
            results.add('objects', results.of_known(known))
        conflict = '' if known.conflict == 'none' else ', in conflict'
        print(f'{known.edit} {sides.title(known.shown)}{conflict}')
        if known.edit != 'deleted' and not arguments.short:
            for line in sides.change(known.there, known.mine):
                print('    ' + line)
    results.add('objects')
    print(f'{count} edited')
    return 0


def draw(arguments: argparse.Namespace) -> int:
    """Writes the picture of the edits; the exit code."""
    session = Session.of(arguments)
    last = session.day.last()
    found = collect(table.read(last.text()), session.ask([USERS]).found())
    if arguments.keys:
        found.items = [
            key
            for key in found.items
            if not set(arguments.keys).isdisjoint([key, *found.parts_of(key)])
        ]
    check_outputs([arguments.svg] if arguments.svg != '-' else [], [], session.day.folder)
    write_own(
        arguments.svg,
        picture.document(found, f'{last.path.stem}: {len(found.items)} edits'),
        picture.MARK,
        arguments.force,
    )
    results.add(
        'objects', *(results.of_known(found.known(key)) for key in found.items if results.wanted())
    )
    if arguments.svg != '-':
        print(f'wrote {arguments.svg}: {len(found.items)} edits')
    return 0
