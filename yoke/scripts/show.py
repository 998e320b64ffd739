"""One object as a reader wants to see it: its sides, what differs between them, and who uses it."""
from __future__ import annotations

from typing import Iterator, Protocol

from yoke import opl, saved, sides


class Objects(Protocol):
    """The objects of a session: a `Table` of all of them, or a `Stored` that looks each up."""

    def get(self, key: str) -> saved.Known | None:
        """An object; None where the session doesn't have it, or has it as only referred to."""

    def is_incomplete(self, key: str) -> bool:
        """Whether an object is only referred to."""

    def users(self, key: str) -> list[str]:
        """The keys of the objects that refer to this one as they are here, by rank."""


def lines(objects: Objects, key: str) -> Iterator[str]:
    """The lines that show an object; none where the session doesn't know it."""
    known = objects.get(key)
    if known is None:
        if objects.is_incomplete(key):
            yield f'{key}: only referred to, not downloaded'
            yield from _users(objects, key)
        return
    yield f'{key}: {_state(known)}'
    for name, side in (
        ('base', known.base),
        ('mine', known.mine if known.edit else None),
        ('theirs', known.theirs),
    ):
        if side is not None:
            yield from _side(name, side)
    if known.edit and known.edit != 'new':
        yield from (
            'changed  ' + change
            for change in (
                sides.change(known.there, known.mine) if known.there and known.mine else []
            )
        )
    yield from _users(objects, key)
    yield from _references(objects, known.mine or known.there)


def _state(known: saved.Known) -> str:
    words = {
        'new': 'new here',
        'changed': 'changed here',
        'deleted': 'deleted here',
        None: 'as the server has it' if known.there else 'deleted on the server',
    }
    return words[known.edit] + (
        '' if known.conflict == 'none' else ', in conflict: ' + known.conflict
    )


def _side(name: str, side: opl.Object) -> Iterator[str]:
    """A side of an object, a part a line."""
    head = f'version {side.version}' if name != 'mine' else ''
    head += f' of {side.time}' if side.time else ''
    head += f' by {sides.plain(side.user)}' if side.user else ''
    head += f', changeset {side.changeset}' if side.changeset else ''
    yield '{:8} {}'.format(
        name, (head + ', deleted' if side.deleted else head).strip() or 'what it is here'
    ).rstrip()
    for tag, value in side.tags.items():
        yield f'    {sides.plain(tag)} = {sides.plain(value)}'
    if side.lon is not None:
        yield '    place {} {}'.format(*map(opl.degrees, opl.place(side)))
    if side.nodes:
        yield '    nodes {}'.format(','.join(side.nodes))
    for at, (member, role) in enumerate(side.members, 1):
        yield '    member {} {}{}'.format(at, member, ' ' + sides.plain(role) if role else '')


def _users(objects: Objects, key: str) -> Iterator[str]:
    """The ways and relations that use the object, with the roles that it has there."""
    for user in objects.users(key):
        known = objects.get(user)
        thing = known.mine if known else None
        if thing is not None:
            roles = sorted({role for member, role in thing.members if member == key and role})
            yield 'used by  {}{}'.format(
                sides.title(thing), ', as ' + ','.join(map(sides.plain, roles)) if roles else ''
            )


def _references(objects: Objects, thing: opl.Object | None) -> Iterator[str]:
    """What the object refers to and isn't there."""
    missing = (
        [key for key in dict.fromkeys(thing.references) if objects.is_incomplete(key)]
        if thing
        else []
    )
    if missing:
        yield 'not downloaded: ' + ','.join(missing)
