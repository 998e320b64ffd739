"""`yoke refresh`: what the server has by now of all that the edits rest on."""
import argparse
from dataclasses import dataclass
from typing import Callable, Dict, Iterable, List, Mapping, Optional, Sequence, Set, Tuple

from yoke import api, opl, results, sides
from yoke.api import Server
from yoke.progress import note, silent
from yoke.saved import Known
from yoke.sending import check_server, note_server
from yoke.session import Session
from yoke.trouble import Clash, Trouble, Usage
from yoke.verbs import conflicts

SUMMARY = 'ask the server for the objects that are edited, and merge what others did'
DETAILS = """It asks for what is edited and in conflict, for what that refers to, for what uses the objects that are deleted here,
and for each KEY, such as a way that the server names in a refusal; not for the rest of the extract. What was deleted there
comes as deleted. Ends with 4 where something is in conflict after that."""

NEEDED = '( changed or conflict or child ( changed or conflict ) ) and not new and not incomplete'
GONE = 'changed and deleted'
BROUGHT = 'refresh.new'  # a file of the day with what came, while it is merged; the next yoke removes it where this one was stopped
NEVER = 20  # objects that the server never had, before it is taken for another server than that of the extract
MOST_USERS = 5  # objects that are named in a line
MOST_GONE = 50  # objects deleted here of which it is asked who uses them: a call or two for each


def add_arguments(parser: argparse.ArgumentParser) -> None:
    """The words of the verb."""
    api.add_arguments(parser)
    parser.add_argument('keys', metavar='KEY', nargs='*', help='objects to ask for too')


def run(arguments: argparse.Namespace) -> int:
    """Refreshes; answers with the exit code."""
    check_keys(arguments.keys)
    server, session = api.server_of(arguments, note), Session.of(arguments)
    with session.day.locked():
        news = bring(session, server, arguments.keys, note)
    show(news, server)
    return Clash.code if news.left or news.never or news.missed else 0


def check_keys(keys: Iterable[str]) -> None:
    """Usage where one is no key that a server gave."""
    for key in keys:
        if not opl.KEY.fullmatch(key) or key[1] == '-':
            raise Usage(f'a key is n, w or r and a number that a server gave, as w5, and not {key}')


@dataclass
class News:
    """What a refresh brought: how many objects it asked for, the keys that the server never had,
    how many newer ones were merged, and of the objects `saved.Known` those that both sides changed,
    joined, and those that are in conflict. `missed` are the keys asked for by name that are deleted
    there, and of which this session has no more than references, each with what refers to it here.
    """

    asked: int
    never: List[str]
    merged: int
    joined: List[Known]
    left: List[Known]
    missed: Dict[str, List[str]]


def bring(
    session: Session,
    server: Server,
    keys: Iterable[str] = (),
    tell: Callable[[str], object] = silent,
) -> News:
    """Asks the server for what the edits rest on, and for the objects with these keys, and merges
    it; the folder has to be locked.
    """
    keys = list(keys)
    session.check_settled()
    check_server(session.day, server)
    found, gone = (
        reply.text[1:] for reply in session.ask(['find ' + NEEDED, 'find ' + GONE]).replies
    )
    things, never = fetch(server, sorted({*found, *keys}, key=opl.rank))
    things = with_users(server, things, gone, tell)
    newer = merge(session, server, things)
    known = session.known()
    joined = [
        known[key]
        for key in newer
        if key in known and known[key].edit == 'changed' and known[key].conflict == 'none'
    ]
    left = [one for one in known.values() if one.conflict != 'none']
    named = {
        thing.key for thing in things if thing.deleted and thing.key not in known
    }.intersection(keys)
    return News(len(things) + len(never), never, len(newer), joined, left, missed(known, named))


def missed(known: Mapping[str, Known], keys: Set[str]) -> Dict[str, List[str]]:
    """Of these keys those to which something refers here, each with what does."""
    found: Dict[str, List[str]] = {}
    for user, one in known.items() if keys else ():
        for key in sorted(keys.intersection(one.mine.references), key=opl.rank) if one.mine else ():
            found.setdefault(key, []).append(user)
    return found


def show(news: News, server: Server) -> None:
    """Says what a refresh brought."""
    results.put(
        asked=news.asked,
        merged=news.merged,
        never=news.never,
        joined=[one.key for one in news.joined],
        conflicts=[],
        missed=[{'key': key, 'users': users} for key, users in news.missed.items()],
    )
    print(f'{news.asked} objects asked for, {news.merged} newer ones merged')
    for one in news.joined:
        assert one.base is not None and one.mine is not None
        by = f' by {sides.plain(one.base.user)}' if one.base.user else ''
        print(
            'joined {}: both sides changed it, in unlike parts; version {}{}'.format(
                sides.title(one.mine), one.base.version, by
            )
        )
    for key in news.never:
        print(f'{key} never existed at {server.address}')
    for key, users in news.missed.items():
        some = ', '.join(users[:MOST_USERS]) + (
            f' and {len(users) - MOST_USERS} more' if len(users) > MOST_USERS else ''
        )
        print(
            f'{key} is deleted at {server.address}, and {some} still refers to it: leave the reference out'
        )
    for one in news.left:
        conflicts.show(one)
    if news.left:
        print(f'{len(news.left)} in conflict')


def fetch(server: Server, keys: Iterable[str]) -> Tuple[List[opl.Object], List[str]]:
    """The objects as the server has them, and the keys that it never had."""
    never: List[str] = []

    def missing(key: str) -> None:
        never.append(key)
        if len(never) > NEVER:
            raise Trouble(
                '{} and {} more never existed at {}: is it the server that the extract is of?'.format(
                    never[0], NEVER, server.address
                )
            )

    return server.things(keys, missing), never


def with_users(
    server: Server, things: Iterable[opl.Object], gone: Sequence[str], tell: Callable[[str], object]
) -> List[opl.Object]:
    """Objects of the server, with those that use what is deleted here: the session may not know
    them, and each would be a 412 of its own.
    """
    there = {thing.key: thing for thing in things}
    gone = [key for key in gone if key in there and not there[key].deleted]
    if len(gone) > MOST_GONE:
        tell(f'{len(gone)} objects are deleted here, too many to ask who uses each')
        gone = []
    for key in gone:
        there.update((user.key, user) for user in server.users(key))
    return sorted(there.values(), key=lambda thing: opl.rank(thing.key))


def merge(session: Session, server: Server, things: Iterable[opl.Object]) -> List[str]:
    """Merges objects into the session, as a download does, and keeps it where that changed it;
    answers with the keys of the newer ones.
    """
    before = session.known()
    newer = [thing for thing in things if is_news(before.get(thing.key), thing)]
    if newer:
        note_server(session.day, server)
        session.day.write(BROUGHT, ''.join(opl.line(thing) + '\n' for thing in newer))
        session.edit(
            'refresh', ['download ' + opl.escape(str(session.day.path(BROUGHT).resolve()))]
        )
        session.day.remove(BROUGHT)
    return [thing.key for thing in newer]


def is_news(known: Optional[Known], thing: opl.Object) -> bool:
    """Whether a session doesn't know this version of an object yet."""
    if known is None:
        return True
    versions = [side.version for side in (known.base, known.theirs) if side]
    return not versions or thing.version > max(versions)
