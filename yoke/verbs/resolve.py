"""`yoke resolve`: ends the conflict of objects."""
import argparse
from typing import Callable, Dict, List, Optional, Sequence, Tuple

from yoke import choices, ledger, opl, results, sides
from yoke.saved import Known
from yoke.session import Session
from yoke.trouble import Refused, Usage
from yoke.verbs import conflicts

SUMMARY = 'end a conflict: mine, theirs, or part by part'
DETAILS = """KEY mine            what it is here stays; what came back is deleted again
KEY theirs          what the server has: deleted, where the server deleted it
KEY mix TAGS BODY   the tags of one side, and the place, nodes or members of one: each mine or theirs
KEY parts BODY [TAG..]
                    part by part: where both changed one, the tags named are theirs and the others mine; the place, nodes
                    or members are those of BODY, mine or theirs
KEY may be several with commas between them, or `all`. A tag that becomes theirs is remembered: a table or a script that sets it
again leaves it, and says so."""

SIDES = ('mine', 'theirs')


def add_arguments(parser: argparse.ArgumentParser) -> None:
    """The words of the verb."""
    parser.add_argument('key', metavar='KEY')
    parser.add_argument('how', metavar='HOW', choices=['mine', 'theirs', 'mix', 'parts'])
    parser.add_argument('words', metavar='SIDE', nargs='*')


def run(arguments: argparse.Namespace) -> int:
    """Resolves; answers with the exit code."""
    named = None if arguments.key == 'all' else arguments.key.split(',')
    now, keys = settle(
        Session.of(arguments), named, words(arguments.how, arguments.words), conflicts.show
    )
    for key in keys:
        print(f'resolved {key}: {outcome(now.get(key))}')
    results.put(
        resolved={key: outcome(now.get(key)) for key in keys},
        left=[key for key, one in now.items() if one.conflict != 'none'],
    )
    left = sum(one.conflict != 'none' for one in now.values())
    print(f'{left} in conflict')
    return 0


def settle(
    session: Session, named: Optional[Sequence[str]], step: str, tell: Callable[[Known], object]
) -> Tuple[Dict[str, Known], List[str]]:
    """Ends the conflicts of the objects with these keys, or of all where it is None, by the words
    of `resolve` after the key.

    `tell` is called with each before it is resolved. Answers with the objects as they are now, and
    the keys of those that were resolved.
    """
    for key in named or ():
        if not opl.KEY.fullmatch(key):
            raise Usage(f'a key is n, w or r and a number, as w5, and not {key}')
    with session.day.locked():
        known = session.known()
        keys = (
            list(named)
            if named is not None
            else [key for key, one in known.items() if one.conflict != 'none']
        )
        if not keys:
            raise Refused('nothing is in conflict')
        for key in keys:
            if key in known and known[key].conflict != 'none':
                tell(known[key])
        session.edit('resolve', [f'resolve {key} {step}' for key in keys])
        now = session.known()
        chosen = choices.made(known, now, keys)
        choices.keep(session.day, chosen, ledger.name_of_user(None))
    return now, keys


def words(how: str, rest: Sequence[str]) -> str:
    """The words of a `resolve` line after the key; Usage where they are none."""
    if how in SIDES and not rest:
        return how
    if how == 'mix' and len(rest) == 2 and all(side in SIDES for side in rest):
        return 'mix {} {}'.format(*rest)
    if how == 'parts' and rest and rest[0] in SIDES:
        return 'parts {} K{}'.format(rest[0], ','.join(map(opl.escape, rest[1:])))
    raise Usage(
        'resolve KEY mine, KEY theirs, KEY mix SIDE SIDE, or KEY parts SIDE [TAG..], where a SIDE is mine or theirs'
    )


def outcome(known: Optional[Known]) -> str:
    """What an object is now, in a few words."""
    if known is None or known.mine is None:
        return 'deleted'
    return (
        'as the server has it'
        if known.edit is None
        else '; '.join(sides.change(known.there, known.mine))
    )
