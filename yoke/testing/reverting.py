"""What a revert of changesets has to leave, worked out from the server's versions and not by yoke.

The three-way merge, part by part: a part that the changesets changed goes back, unless somebody
changed it since; all other parts stay as they are now. `check` holds a session of `yoke revert`
against that.
"""
from typing import Dict, Iterable, List, Mapping, NamedTuple, Optional, Set

from yoke.testing.database import Database
from yoke.testing.elements import Element
from yoke.testing.ledger import Failed, Parts, Session, parts


class Undone(NamedTuple):
    """An object of the changesets: what was there before them, what they left, and what the server
    has now.
    """

    before: Optional[Element]
    left: Element
    now: Element


def undone(database: Database, changesets: Iterable[int]) -> Dict[str, Undone]:
    """The objects of some changesets by key. Of an object that others changed between, only the
    last run of versions counts.
    """
    numbers, found = set(changesets), {}
    for key, versions in database.versions.items():
        by_version = {one.version: one for one in versions}
        theirs = [one.version for one in versions if one.changeset in numbers]
        if theirs:
            first = last = max(theirs)
            while first - 1 in theirs:
                first -= 1
            found[key] = Undone(by_version.get(first - 1), by_version[last], versions[-1])
    return found


def wanted(one: Undone) -> Parts:
    """What the object has to be, part by part, where nothing of it is in conflict."""
    before, left, now = parts(one.before), parts(one.left), parts(one.now)
    if not left:
        return now or before
    if not before:
        return {}
    names = {*before, *left, *now}
    merged = {
        name: before.get(name) if before.get(name) != left.get(name) else now.get(name)
        for name in names
    }
    return {name: value for name, value in merged.items() if value is not None}


def clashes(one: Undone) -> bool:
    """Whether the changesets and somebody since changed the same part, each to another value."""
    before, left, now = parts(one.before), parts(one.left), parts(one.now)
    if not left or left == now or before == now:
        return False
    if not before or not now:
        return before != left
    return any(
        left.get(name) not in (before.get(name), now.get(name))
        and before.get(name) != now.get(name)
        for name in {*before, *left, *now}
    )


def check(
    database: Database,
    changesets: List[int],
    session: Session,
    left_out: Set[str],
    seen: Mapping[str, int],
) -> None:
    """Failed where the session of a revert isn't what `wanted` says: an object of the changesets is
    otherwise and neither in conflict nor named as left out, or another object is edited that didn't
    have to come back.

    `seen` are the versions when the revert began: what others did while it asked it may have seen,
    or not.
    """
    objects = undone(database, changesets)
    for key, one in objects.items():
        known = session.get(key)
        if key in left_out or known is not None and known.conflict != 'none':
            continue
        cases = [
            one._replace(now=version)
            for version in database.versions[key]
            if version.version >= seen.get(key, one.now.version)
        ]
        mine = parts(known.mine) if known is not None else parts(one.now)
        if mine not in [wanted(case) for case in cases]:
            raise Failed(f'revert {changesets}: {key} is {mine}, and has to be {wanted(one)}')
        if all(clashes(case) for case in cases):
            raise Failed(
                'revert {}: {} was changed in the same part since, and is no conflict'.format(
                    changesets, key
                )
            )
    for key, known in session.items():
        if key in objects or known.conflict != 'none' or parts(known.mine) == parts(known.base):
            continue
        since = [
            version
            for version in database.versions.get(key, ())
            if version.version >= seen.get(key, 1)
        ]
        if not any(
            not one.visible and parts(known.mine) == parts(_version(database, key, one.version - 1))
            for one in since
        ):
            raise Failed(f'revert {changesets}: {key} isn\'t of the changesets, and is edited')


def _version(database: Database, key: str, version: int) -> Optional[Element]:
    return next((one for one in database.versions[key] if one.version == version), None)
