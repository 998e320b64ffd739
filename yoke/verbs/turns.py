"""`yoke turns`: turn restrictions and lanes of turns whose ways don't meet."""
import argparse

from yoke import opl, results, sides, table
from yoke.scripts import turns
from yoke.session import Session
from yoke.trouble import Usage

SUMMARY = (
    'show turn restrictions and turn lanes whose from, via and to don\'t meet; --mend mends them'
)
DETAILS = """It looks at relations of the types restriction, restriction:.., connectivity and turnlanes:turns. A mend is a guess: of several
ways of a role those that meet the junction, or the piece of the same street that does. Ends with 1 where one is left."""


def add_arguments(parser: argparse.ArgumentParser) -> None:
    parser.add_argument('keys', metavar='KEY', nargs='*', help='only these relations')
    parser.add_argument(
        '--mend', action='store_true', help='do the mends that are shown, all or nothing'
    )


def run(arguments: argparse.Namespace) -> int:
    for key in arguments.keys:
        if not opl.KEY.fullmatch(key) or key[0] != 'r':
            raise Usage(f'a relation is wanted, as r5, and not {key}')
    session = Session.of(arguments)
    with session.day.locked():
        found = table.read(session.day.last().text())
        left = [
            one for one in turns.findings(found) if not arguments.keys or one.key in arguments.keys
        ]
        for one in left:
            print(sides.title(found.things[one.key].shown))
            for fault in one.faults:
                print('    ' + fault)
            print('    right    ' + (one.mend or 'not known: by hand'))
        mends = [one.mend for one in left if one.mend]
        if arguments.mend and mends:
            session.edit('turns', ['begin'] + mends + ['end'])
    results.put(
        turns=[{'key': one.key, 'faults': one.faults, 'mend': one.mend or None} for one in left],
        mended=len(mends) if arguments.mend else 0,
    )
    print('{} turn{} to mend'.format(len(left), '' if len(left) == 1 else 's'))
    if arguments.mend and mends:
        print(f'mended {len(mends)}; kept as {session.day.last().path}')
    return 1 if len(left) > (len(mends) if arguments.mend else 0) else 0
