"""Decisions on edits become a script: rejected edits are undone, conflicts are resolved, all or
nothing.

A rejected edit is undone by `purge` and a `download` of its base: so all of it comes back as the
server had it, a deletion too, for which a script has no other line. What can't stay without it is
rejected with it (`yoke.groups.follows`), and so are

- the other parts of one split, combine or reverse (`yoke.groups.belongs`);
- of a deletion, the changes that took the object out of others;
- the corners of a way that were moved, and new corners that nothing uses any more.

That is less than a whole group of `yoke.groups`: a new node stays though the way that uses it is
rejected. A single tag that is rejected gets the value that it had, after that.
"""

from collections import defaultdict, deque
from dataclasses import dataclass, field
from typing import Deque, Dict, Iterable, List, Mapping, Set

from yoke import groups, opl
from yoke.review.items import Edits

Followers = Mapping[str, Set[str]]


@dataclass
class Undo:
    """What is undone: the key of each rejected object, with the key for which it is, itself where
    somebody said so.
    """

    because: Dict[str, str] = field(default_factory=dict)


def followers(found: Edits) -> Followers:
    """By the key of an edit those that are taken back with it."""
    after: Dict[str, Set[str]] = defaultdict(set)
    for one, other in groups.follows(found.edits):
        after[one].add(other)
    for one, other in groups.belongs(found.edits):
        after[one].add(other)
        after[other].add(one)
    for key, users in found.based_on.items():
        if found.edits[key].edit == 'deleted' and key not in found.is_corner:
            after[key].update(users)
    for way, corners in found.corners.items():
        after[way].update(one for one in corners if found.edits[one].edit == 'changed')
    return after


def closure(found: Edits, rejected: Iterable[str], after: Followers) -> Undo:
    """What is rejected with the items that somebody rejects. Conflicts are none of it: they are
    resolved.
    """
    because: Dict[str, str] = {}
    queue: Deque[str] = deque()

    def add(key: str, why: str) -> None:
        known = found.edits.get(key)
        if known and known.edit and known.conflict == 'none' and key not in because:
            because[key] = why
            queue.append(key)

    def go_on() -> None:
        while queue:
            key = queue.popleft()
            for other in sorted(after.get(key, ())):
                add(other, key)

    chosen = list(rejected)
    for key in chosen:
        add(key, key)
    for key in chosen:
        if key in found.moved:  # a way that isn't edited itself
            for other in sorted(after.get(key, ())):
                add(other, key)
    while queue:
        go_on()
        for key in found.is_corner:
            users = found.users_of.get(key, ())
            if found.edits[key].edit == 'new' and all(user in because for user in users):
                add(key, users[0] if users else key)
    return Undo(because)


@dataclass
class Plan:
    """What decisions come to: the keys that are undone, by each key why; how each conflict ends, as
    the words of `resolve`; and which tags of which objects are rejected.
    """

    undo: Undo
    resolved: Dict[str, str]
    tags: Dict[str, List[str]]


def lines_of(found: Edits, plan: Plan, base_file: str, first: str = 'undo') -> List[str]:
    """The lines of the script, of which `base_file` is the file that it downloads.

    Mostly what is undone comes `first`: theirs may refer to what was deleted here. Where an object
    in conflict uses a new one that is rejected, its `resolve` has to come first; so the caller
    tries both.
    """
    gone = sorted(plan.undo.because, key=opl.rank)
    undone = ['purge ' + ','.join(gone)] if gone else []
    if any(found.edits[key].base is not None for key in gone):
        undone.append('download ' + opl.escape(base_file))
    settled = [f'resolve {key} {plan.resolved[key]}' for key in sorted(plan.resolved, key=opl.rank)]
    ordered = undone + settled if first == 'undo' else settled + undone
    lines = ordered + [
        _tag_line(found, key, plan.tags[key]) for key in sorted(plan.tags, key=opl.rank)
    ]
    return ['begin', *lines, 'end'] if lines else []


def _tag_line(found: Edits, key: str, names: List[str]) -> str:
    """The line that gives tags the values that they had; one that wasn't there goes."""
    base = found.known(key).there
    before = base.tags if base else {}
    return f'tag {key} T' + opl.tags({name: before.get(name, '') for name in names}, opl.escape)


def bases_of(found: Edits, plan: Plan) -> List[str]:
    """The lines of the file that the script downloads: the versions that come back."""
    keys = sorted(plan.undo.because, key=opl.rank)
    bases = (found.edits[key].base for key in keys)
    return [opl.line(base) for base in bases if base is not None]
