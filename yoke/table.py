"""A session as a whole: its objects, what is only referred to, which new id comes next, and who
uses what.

`read` takes all of a saved session apart. `of_file` looks up what is asked for, where it lies: of a
large session in which little was edited that is a small part.
"""
from __future__ import annotations

import os
from collections.abc import Iterator, Mapping, Set
from dataclasses import dataclass

from yoke import opl, saved
from yoke.stored import Stored


@dataclass
class Table:
    """What a session holds.

    `things` has its objects, Known by key and by rank; `incomplete` the keys that are only referred
    to; `next_new` the number that the next new object gets: 7 stands for the ids -7, -8 and on.
    """

    things: Mapping[str, saved.Known]
    incomplete: Set[str]
    next_new: int

    def get(self, key: str) -> saved.Known | None:
        """An object; None where the session doesn't have it, or has it as only referred to."""
        return self.things.get(key)

    def is_incomplete(self, key: str) -> bool:
        """Whether an object is only referred to."""
        return key in self.incomplete

    def mine(self, key: str) -> opl.Object | None:
        """What an object is here; None where it is deleted, only referred to, or not known."""
        known = self.things.get(key)
        return known.mine if known else None

    def base(self, key: str) -> opl.Object | None:
        """The version of the server from which the edits began, where it is there; else None."""
        known = self.things.get(key)
        return known.there if known else None

    def refers(self, key: str) -> bool:
        """Whether an object may refer to the key: it is there, or only referred to."""
        return key in self.incomplete or self.mine(key) is not None

    def users(self, key: str) -> list[str]:
        """The keys of the objects that refer to this one as they are here, by rank."""
        return [
            known.key
            for known in self.things.values()
            if known.mine and key in known.mine.references
        ]

    def new(self) -> list[str]:
        """The keys of the objects that were made here and that no server has, by rank."""
        return [known.key for known in self.things.values() if known.is_new]

    def edits(self) -> dict[str, saved.Known]:
        """The objects that are edited or in conflict, by key and by rank."""
        return {
            key: known
            for key, known in self.things.items()
            if known.edit or known.conflict != 'none'
        }


def read(text: str) -> Table:
    """The table of a saved session; Trouble where the text is none."""
    number, things = next_new(text), saved.read(text)
    start = len('incomplete ')
    incomplete = {
        line[start:].rstrip('\r') for line in text.split('\n') if line.startswith('incomplete ')
    }
    return Table(things, incomplete, number)


def next_new(text: str) -> int:
    """The number of the next new object of a saved session; Trouble where the text is none."""
    header = text.split('\n', 1)[0].rstrip('\r').split(' ')
    if len(header) != 3 or header[:2] != ['session', '1'] or not opl.is_digits(header[2]):
        raise saved.NotWhole(
            'it is no saved session: it begins with {!r}'.format(' '.join(header)[:40])
        )
    return int(header[2])


# ---- looked up in a file ----


def of_file(path: os.PathLike[str] | str) -> Table:
    """The table of a saved session in a file, of which nothing is read but what is asked for;
    Trouble where the file is none.

    The file is held open, and may lose its name meanwhile.
    """
    session = Stored(path)
    return _Looked(_Things(session), _Incomplete(session), session.next_new, session)


@dataclass
class _Looked(Table):
    session: Stored

    def users(self, key: str) -> list[str]:
        return self.session.users(key)

    def new(self) -> list[str]:
        return self.session.new()

    def edits(self) -> dict[str, saved.Known]:
        return {known.key: known for known in self.session.edits()}


class _Things(Mapping[str, saved.Known]):
    """The objects of a file, each of which is read once."""

    def __init__(self, session: Stored) -> None:
        self._session = session
        self._found: dict[str, saved.Known | None] = {}

    def __getitem__(self, key: str) -> saved.Known:
        if key not in self._found:
            self._found[key] = self._session.get(key)
        known = self._found[key]
        if known is None:
            raise KeyError(key)
        return known

    def __iter__(self) -> Iterator[str]:
        return self._session.keys('known')

    def __len__(self) -> int:
        return sum(1 for _ in self)


class _Incomplete(Set[str]):
    """The keys of a file that are only referred to."""

    def __init__(self, session: Stored) -> None:
        self._session = session

    def __contains__(self, key: object) -> bool:
        return isinstance(key, str) and self._session.is_incomplete(key)

    def __iter__(self) -> Iterator[str]:
        return self._session.keys('incomplete')

    def __len__(self) -> int:
        return sum(1 for _ in self)
