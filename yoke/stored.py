"""A saved session looked into where it lies on the disk: one object, or some, without reading the
others.

The objects of a saved session stand by rank (docs/SAVING.md), so one is found by halving the file.
`saved.read` and `table.read` take all of it apart; this is for what touches a few objects of a
large session.
"""
import contextlib
import mmap
import os
import re
from typing import Dict, Iterable, Iterator, List, Optional, Tuple

from yoke import opl, saved

_FIRST = re.compile(rb'(?:known|incomplete) ([nwr]-?[0-9]+)')
_EDITED = re.compile(rb'\nknown ([nwr]-?[0-9]+) [a-z]+ (?:own|none) [a-z]+')
_TOUCHED = re.compile(rb'\nknown [nwr]-?[0-9]+ [a-z]+ (?:(?:own|none) [a-z]+|same (?!none)[a-z]+)')
_NEW = re.compile(rb'\nknown ([nwr]-?[0-9]+) new ')
END = b'session end\n'
Rank = Tuple[int, bool, int]
WAYS: Rank = (1, False, 0)  # before all ways and relations: a node refers to nothing


class Stored:
    """A saved session in a file. `close` lets the file go."""

    def __init__(self, path: 'os.PathLike[str] | str') -> None:
        with open(path, 'rb') as file:
            if os.fstat(file.fileno()).st_size == 0:
                raise saved.NotWhole(f'{path} is no whole saved session')
            self.data = mmap.mmap(file.fileno(), 0, access=mmap.ACCESS_READ)
        end = self.data[-len(END) - 2 :].replace(b'\r\n', b'\n')
        header = self.data[:64].split(b'\n', 1)[0].rstrip(b'\r').split(b' ')
        if (
            len(header) != 3
            or header[:2] != [b'session', b'1']
            or not header[2].isdigit()
            or not end.endswith(END)
        ):
            self.close()
            raise saved.NotWhole(f'{path} is no whole saved session')
        self.next_new = int(header[2])

    def close(self) -> None:
        """Lets the file go."""
        self.data.close()

    def __enter__(self) -> 'Stored':
        return self

    def __exit__(self, *why: object) -> None:
        self.close()

    # ---- one object ----

    def get(self, key: str) -> Optional[saved.Known]:
        """An object; None where the session doesn't have it, or has it as only referred to."""
        start = self._find(opl.rank(key))
        return (
            self._known(start)
            if start is not None and self.data[start : start + 6] == b'known '
            else None
        )

    def is_incomplete(self, key: str) -> bool:
        """Whether an object is only referred to."""
        start = self._find(opl.rank(key))
        return start is not None and self.data[start : start + 11] == b'incomplete '

    def users(self, key: str) -> List[str]:
        """The keys of the objects that refer to this one as they are here, by rank."""
        first = self._from(WAYS)
        if first is None:
            return []
        mark = re.compile(b'[NM,]' + key.encode('ascii') + b'(?=[,@\\s])')
        starts = dict.fromkeys(
            self._start_of_object(found.start()) for found in mark.finditer(self.data, first)
        )
        users = map(self._known, starts)
        return [known.key for known in users if known.mine and key in known.mine.references]

    # ---- several ----

    def edited(self) -> List[str]:
        """The keys of the objects that are changed, new or deleted here, by rank. Some may be
        changed to what they were.
        """
        return [found[1].decode('ascii') for found in _EDITED.finditer(self.data)]

    def edits(self) -> Iterator[saved.Known]:
        """The objects that are edited or in conflict, by rank."""
        for found in _TOUCHED.finditer(self.data):
            known = self._known(found.start() + 1)
            if known.edit or known.conflict != 'none':
                yield known

    def new(self) -> List[str]:
        """The keys of the objects that were made here and that no server has, by rank."""
        return [found[1].decode('ascii') for found in _NEW.finditer(self.data)]

    def keys(self, word: str) -> Iterator[str]:
        """The keys of all objects, by rank: of those that are `known`, or of those that are
        `incomplete`.
        """
        for found in re.finditer(rb'\n%s ([nwr]-?[0-9]+)' % word.encode('ascii'), self.data):
            yield found[1].decode('ascii')

    def of_kind(self, letter: str) -> Iterator[saved.Known]:
        """The objects of a kind, `n`, `w` or `r`, by rank."""
        at = self._from(('nwr'.index(letter), False, 0))
        while at is not None:
            found = _FIRST.match(self.data, at)
            if found is None or found[1][:1] != letter.encode('ascii'):
                return
            if self.data[at : at + 6] == b'known ':
                yield self._known(at)
            at = self._next(at)

    def many(self, keys: Iterable[str]) -> Dict[str, saved.Known]:
        """Those of some objects that the session has, by their keys."""
        found = ((key, self.get(key)) for key in keys)
        return {key: known for key, known in found if known is not None}

    # ---- where ----

    def _rank(self, start: int) -> Rank:
        """The rank of the object whose lines begin at a place."""
        found = _FIRST.match(self.data, start)
        if found is None:
            raise saved.NotWhole('it is no whole saved session')
        return opl.rank(found[1].decode('ascii'))

    def _find(self, wanted: Rank) -> Optional[int]:
        """Where the lines of an object begin; None where it isn't there."""
        start = self._from(wanted)
        return start if start is not None and self._rank(start) == wanted else None

    def _from(self, wanted: Rank) -> Optional[int]:
        """Where the first object begins that is of this rank or a later one; None where there is
        none.
        """
        low, high = 0, len(
            self.data
        )  # behind each place before `low` comes a lower rank first, and behind `high` none
        while low < high:
            middle = (low + high) // 2
            start = self._next(middle)
            if start is not None and self._rank(start) < wanted:
                low = start
            else:
                high = middle
        return self._next(low)

    def _next(self, at: int) -> Optional[int]:
        """Where the next object begins behind a place; None where there is none."""
        while True:
            at = self.data.find(b'\n', at)
            if at < 0:
                return None
            at += 1
            first = self.data[at : at + 11]
            if first[:6] == b'known ' or first == b'incomplete ':
                return at

    def _start_of_object(self, at: int) -> int:
        """Where the object begins in whose lines a place lies."""
        while True:
            at = self.data.rfind(b'\n', 0, at) + 1
            if self.data[at : at + 6] == b'known ':
                return at
            at -= 1

    def _known(self, start: int) -> saved.Known:
        end = self._next(start)
        lines = (
            self.data[start : len(self.data) if end is None else end]
            .decode('utf-8')
            .replace('\r\n', '\n')
            .split('\n')
        )
        return saved.known_of(lines)


@contextlib.contextmanager
def opened(path: 'os.PathLike[str] | str') -> Iterator[Stored]:
    """The Stored of a file, while the context lasts."""
    with Stored(path) as session:
        yield session
