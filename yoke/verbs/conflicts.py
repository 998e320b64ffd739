"""`yoke conflicts`: what is in conflict, with its three sides."""
import argparse
from typing import List, Mapping, Optional

from yoke import opl, results, saved, sides
from yoke.day import Day
from yoke.trouble import Clash

SUMMARY = 'show what is in conflict: what it was, what it is here, and what the server has'
DETAILS = 'Ends with 4 where something is in conflict.'

WHY = {
    'changed': 'both sides changed it',
    'held': 'the server deleted it, and it is used here',
    'withdrawn': 'deleted here, and the server uses it now',
}


def why(known: saved.Known) -> str:
    """Why an object is in conflict, in a few words."""
    if known.conflict == 'changed' and known.mine is None:
        return 'deleted here, and somebody changed it'
    if known.conflict == 'changed' and known.theirs is not None and known.theirs.deleted:
        return 'changed here, and somebody deleted it'
    return WHY[known.conflict]


def add_arguments(parser: argparse.ArgumentParser) -> None:
    """The words of the verb."""
    parser.add_argument('keys', metavar='KEY', nargs='*', help='only these objects')


def of_session(found: Mapping[str, saved.Known]) -> List[saved.Known]:
    """The objects of a session that are in conflict."""
    return [known for known in found.values() if known.conflict != 'none']


def run(arguments: argparse.Namespace) -> int:
    """Shows what is in conflict; answers with the exit code."""
    found = of_session(saved.read(Day(arguments.day).last().text()))
    for known in found:
        if not arguments.keys or known.key in arguments.keys:
            show(known)
    results.add('conflicts')
    print(f'{len(found)} in conflict')
    return Clash.code if found else 0


def show(known: saved.Known) -> None:
    """The three sides of an object in conflict, part by part, and the ways to resolve it."""
    if results.wanted():
        results.add('conflicts', results.of_known(known))
    theirs, base = known.theirs, known.base
    assert theirs is not None and base is not None
    print(f'{sides.title(known.shown)}: {why(known)}')
    by = f' by {sides.plain(theirs.user)}' if theirs.user else ''
    print(
        '    here from version {}; the server has version {}{}{}'.format(
            base.version, theirs.version, by, ', deleted' if theirs.deleted else ''
        )
    )
    side = None if theirs.deleted else theirs
    for name, texts in sides.parts(known.there, known.mine, side) if side else []:
        print('    {}: was {}, mine {}, theirs {}'.format(name, *map(sides.plain, texts)))
    for line in sides.change(known.there, known.mine) if not side else []:
        print(f'    mine {line}')
    for way in ways(known, side):
        print('    yoke resolve ' + way)


def ways(known: saved.Known, side: Optional[opl.Object]) -> List[str]:
    """The words of `yoke resolve` that settle a conflict."""
    found = [f'{known.key} mine', f'{known.key} theirs']
    if known.conflict == 'changed' and known.there and known.mine and side:
        both = [
            name
            for name, (was, mine, theirs) in sides.parts(known.there, known.mine, side)
            if was != mine and was != theirs and mine != theirs
        ]
        tags = [name for name in both if name in known.mine.tags or name in side.tags]
        found.append('{} parts mine{}'.format(known.key, ''.join(f' [{name}]' for name in tags)))
    return found
