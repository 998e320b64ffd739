"""What changesets did to each object, what was there before, and what the server has now."""
from __future__ import annotations

from dataclasses import dataclass, field
from typing import Callable, Iterable

from yoke import opl
from yoke.api import Server

Note = Callable[[str], object]


@dataclass
class ObjectHistory:
    """One object of the changesets.

    `before` is what was there before the first of their changes, and None where they made the
    object. `after` is what the last of their changes left. `now` is what the server has. Deleted
    versions count as objects that are marked deleted. `first` and `last` are the versions that the
    changesets made, in a row.
    """

    key: str
    after: opl.Object
    first: int
    last: int
    before: opl.Object | None = None
    now: opl.Object | None = None

    @property
    def was(self) -> opl.Object | None:
        """What was there before; None where nothing was, or where it was deleted."""
        return living(self.before)

    @property
    def left(self) -> opl.Object | None:
        """What the changesets left; None where they deleted it."""
        return living(self.after)

    @property
    def has_changed_since(self) -> bool:
        """Whether somebody changed the object after these changesets."""
        return self.now is not None and self.now.version > self.last


@dataclass
class History:
    """What changesets did: the objects by key, why some can't go back, and what a user ought to
    know.
    """

    objects: dict[str, ObjectHistory] = field(default_factory=dict)
    left_out: dict[str, str] = field(default_factory=dict)
    notes: list[str] = field(default_factory=list)


def living(thing: opl.Object | None) -> opl.Object | None:
    """An object that isn't deleted, else None."""
    return None if thing is None or thing.deleted else thing


def read(server: Server, numbers: Iterable[str], note: Note = lambda text: None) -> History:
    """What the changesets with these numbers did, together as one. `note` gets a line of progress
    now and then.
    """
    history = History()
    changes: list[tuple[str, opl.Object]] = []
    for number in numbers:
        changes += _changes_of(server, number, history)
    history.objects = _by_object(changes, history)
    note(f'{len(history.objects)} objects: asking for what was there before')
    wanted = [(one.key, one.first - 1) for one in history.objects.values() if one.first > 1]
    found, hidden = server.versions(wanted)
    for thing in found:
        history.objects[thing.key].before = thing
    for key, version in hidden:
        history.left_out[key] = f'{key}: the server doesn\'t show its version {version}'
        del history.objects[key]
    note(f'{len(history.objects)} objects: asking for what is there now')
    for thing in server.things(sorted(history.objects, key=opl.rank), lambda key: None):
        history.objects[thing.key].now = thing
    for key in [key for key, one in history.objects.items() if one.now is None]:
        history.left_out[key] = f'{key}: the server doesn\'t show it any more'
        del history.objects[key]
    return history


def _changes_of(server: Server, number: str, history: History) -> list[tuple[str, opl.Object]]:
    """The changes of one changeset, with a note where the server doesn't show all of them."""
    count, is_open = server.changeset(number)
    if is_open:
        history.notes.append(
            f'changeset {number} is still open: what is added to it later isn\'t taken back'
        )
    changes = server.changes(number)
    if len(changes) != count:
        history.notes.append(
            f'changeset {number} counts {count} changes, and the server shows {len(changes)}: some may be redacted'
        )
    return changes


def _by_object(changes: list[tuple[str, opl.Object]], history: History) -> dict[str, ObjectHistory]:
    """The changes object by object.

    Where somebody else changed an object between two changes of the changesets, only the last row
    of versions counts: what lies before it was seen, and kept, by the one in between.
    """
    versions: dict[str, dict[int, opl.Object]] = {}
    for verb, thing in changes:
        left = (
            opl.Object(
                thing.key, thing.version, True, thing.changeset, thing.time, thing.uid, thing.user
            )
            if verb == 'delete'
            else thing
        )
        versions.setdefault(thing.key, {})[thing.version] = left
    objects = {}
    for key, made in versions.items():
        last = first = max(made)
        while first - 1 in made:
            first -= 1
        if first != min(made):
            history.notes.append(
                f'{key}: others changed it between two changes of these changesets; '
                f'only what came after them is taken back'
            )
        objects[key] = ObjectHistory(key, made[last], first, last)
    return objects
