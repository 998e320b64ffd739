"""Decisions as they are made, in a file that outlives the page, the server and the session.

The file has a line of JSON for each decision, and the last one on an object counts. A line is on
the disk before the page hears that it is kept, and no line is ever changed: whatever stops the
machine costs at most the decision under way.

A decision holds for what an object was when it was made: `of` is a digest of its base, of what it
is here, of what it is in conflict with, and of the corners that are decided with it. What was
edited since is to be decided anew. After a part of the edits was sent a new object has another key,
so the digest names it by its first one, which `Renames` knows.
"""

import fcntl
import hashlib
import json
import os
import pathlib
import re
import time
from dataclasses import replace
from typing import IO, Dict, Iterable, Iterator, List, Mapping, Optional, Tuple

from yoke import day, opl
from yoke.saved import Known
from yoke.trouble import Busy, Refused, Trouble

FIRST = {'yoke': 'decisions', 'format': 1}  # the first line of the file
NEW = re.compile('[nwr]-[0-9]+')

Decision = Tuple[str, str]  # the key of an item, and how it is decided


class Renames:
    """The keys that new objects had before the server gave them others, by the answers that a day
    has.
    """

    def __init__(self, folder: Optional[pathlib.Path] = None):
        self.first: Dict[str, str] = {}
        for path in sorted(folder.glob('*.answers')) if folder else ():
            for line in path.read_text(encoding='utf-8').splitlines():
                words = line.split(' ')
                if words[0] == 'create' and len(words) > 2:
                    self.first[words[2]] = words[1]

    def line(self, thing: Optional[opl.Object]) -> str:
        """An object as a line, in which new objects have the keys that they had first."""
        if thing is None:
            return '-'
        if not self.first:
            return str(opl.line(thing))
        nodes = tuple(self.first.get(key, key) for key in thing.nodes)
        members = tuple((self.first.get(key, key), role) for key, role in thing.members)
        return str(opl.line(replace(thing, nodes=nodes, members=members)))


def digest(known: Known, corners: Iterable[Known] = (), renames: Optional[Renames] = None) -> str:
    """What a decision on an object is about, in sixteen hexadecimal digits."""
    names = renames or Renames()
    parts = [known.conflict] + [names.line(one) for one in (known.base, known.mine, known.theirs)]
    parts += sorted(names.line(one) for corner in corners for one in (corner.base, corner.mine))
    return of_text('\n'.join(parts))


def of_text(text: str) -> str:
    """The digest of a text."""
    return hashlib.sha256(text.encode('utf-8', 'surrogatepass')).hexdigest()[:16]


class Decisions:
    """The decisions on items.

    `how` has them by key: `accepted`, `rejected`, `without K..` (accepted, but for these tags), the
    words of a `resolve` line after the key, or the answer to a question. `stale` counts objects of
    which all decisions are of other contents.
    """

    def __init__(self, path: str, digests: Mapping[str, str]):
        self.path, self.digests = path, digests
        self.how: Dict[str, str] = {}
        self._file: Optional[IO[bytes]] = None
        self.after: Dict[str, str] = {}  # digests after the script that was written last
        others = set()
        for key, of, how, is_after in read(path):
            if is_after:
                self._take_after(key, of, how)
            if digests.get(key) == of:
                self._take(key, how)
                others.discard(key)
            elif is_after:
                continue
            elif key in digests and key not in self.how:
                others.add(key)
        self.stale = len(others)

    def _take(self, key: str, how: str) -> None:
        if how == 'undecided':
            self.how.pop(key, None)
        else:
            self.how[key] = how

    def _take_after(self, key: str, of: str, how: str) -> None:
        if how == 'accepted':
            self.after[key] = of
        elif self.after.get(key) == of:
            del self.after[key]

    def open(self) -> None:
        """Opens the file to decide in it, alone: Busy where another review does, Refused where it
        is another file.

        Half a line, of a machine that stopped, stays where it is and is ended: so the next one is
        whole.
        """
        is_new = not os.path.exists(self.path)
        self._file = file = open(self.path, 'ab+')
        try:
            fcntl.flock(file, fcntl.LOCK_EX | fcntl.LOCK_NB)
        except BlockingIOError:
            self.close()
            raise Busy(
                f'another review decides in {self.path}: end it, or name another file by --decisions'
            ) from None
        if file.tell() == 0:
            self._append(json.dumps(FIRST) + '\n')
        elif not _ends_line(file):
            self._append('\n')
        if is_new:
            day.sync_folder(pathlib.Path(self.path).resolve().parent)

    def close(self) -> None:
        """Ends deciding; whoever waits for the file may have it."""
        if self._file:
            self._file.close()
        self._file = None

    def decide(self, pairs: Iterable[Decision]) -> None:
        """Takes decisions; they are on the disk when this returns, and count from then on."""
        made = self._now()
        taken = list(pairs)
        lines = [
            json.dumps({'key': key, 'of': self.digests[key], 'how': how, 'at': made}) + '\n'
            for key, how in taken
        ]
        self._append(''.join(lines))
        for key, how in taken:
            self._take(key, how)

    def note_after(self, digests: Mapping[str, str]) -> None:
        """Notes objects as accepted with contents that they don't have yet: those after the script
        of the review.

        What was noted so before, and isn't any more, is undecided again.
        """
        made = self._now()
        gone = {key: of for key, of in self.after.items() if digests.get(key) != of}
        new = {key: of for key, of in digests.items() if self.after.get(key) != of}
        lines = [
            json.dumps({'key': key, 'of': of, 'how': how, 'at': made, 'after': True}) + '\n'
            for some, how in ((gone, 'undecided'), (new, 'accepted'))
            for key, of in some.items()
        ]
        if lines:
            self._append(''.join(lines))
        self.after = dict(digests)

    @staticmethod
    def _now() -> str:
        return time.strftime('%Y-%m-%dT%H:%M:%SZ', time.gmtime())

    def _append(self, text: str) -> None:
        if self._file is None:
            raise Trouble(f'{self.path} is not open to decide in it')
        self._file.write(text.encode('utf-8'))
        self._file.flush()
        os.fsync(self._file.fileno())


def _ends_line(file: IO[bytes]) -> bool:
    file.seek(-1, os.SEEK_END)
    return file.read(1) == b'\n'


def read(path: str) -> Iterator[Tuple[str, str, str, bool]]:
    """The decisions of a file in their order: key, digest, how, and whether it is on what a script
    makes. None where there is no file.

    What is no decision is passed over, such as half a line of a machine that stopped; Refused where
    the file is another one.
    """
    try:
        with open(path, 'rb') as file:
            lines = file.read().split(b'\n')
    except FileNotFoundError:
        return
    if lines[0] and _fields(lines[0]) != FIRST and not _is_begun(lines):
        raise Refused(f'{path} is there, and has no decisions: name another file by --decisions')
    for line in lines:
        fields = _fields(line)
        key, of, how = (fields.get(name) for name in ('key', 'of', 'how'))
        if isinstance(key, str) and isinstance(of, str) and isinstance(how, str):
            yield key, of, how, fields.get('after') is True


def _is_begun(lines: List[bytes]) -> bool:
    """Whether a file has no more than a part of its first line: the machine stopped there."""
    return json.dumps(FIRST).encode().startswith(lines[0])


def _fields(line: bytes) -> Dict[str, object]:
    try:
        found = json.loads(line)
    except ValueError:
        return {}
    return found if isinstance(found, dict) else {}
