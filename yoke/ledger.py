"""The ledger of imports: which features of which files somebody took, under which ids they are at
which server, and which conflicts were resolved for somebody else's version.

A ledger is a CSV to which lines are added, and in which no line is ever changed. Each day has one,
`ledger.csv`, and a team may share one. What a ledger says doesn't depend on the order of its lines,
so two copies are merged by putting one after the other.

| event | what it says |
|---|---|
| `begun` | of a day alone: an import is about to be kept as the session that `id` names |
| `kept` | of a day alone: it was kept |
| `taken` | a feature was taken into a session; `keys` are its objects there, and `corners` its nodes without tags |
| `returned` | a feature that was taken isn't in the session any more, since the import was taken back |
| `sent` | a server has it: `keys`, `corners`, `changeset` and `server` are those that it has there |
| `choice` | the tag `id` of the object `keys`, of version `row`, was left as `theirs`; it had been edited to `mine` |

A feature is known again by its file, which a digest of the bytes tells, and its place there; by the
data set and the id that its author gave it; or by all that it says. So it doesn't matter what
others did to it since it was sent.

Whoever takes features holds the ledger from the look to the line that says so. A line counts when
it is whole: the last field is `.`. A process that was stopped while it wrote leaves a part of a
line, which is skipped.
"""
from __future__ import annotations

import contextlib
import csv
import fcntl
import getpass
import hashlib
import io
import json
import os
import pathlib
import re
import secrets
import time
from dataclasses import dataclass, field, fields, replace
from decimal import Decimal
from typing import Any, BinaryIO, Iterable, Iterator, Sequence, Tuple

from yoke import opl, osc
from yoke.day import Day, sync_folder
from yoke.formats.features import Feature
from yoke.progress import note
from yoke.trouble import Busy, Trouble

NAME, SHARED = (
    'ledger.csv',
    'ledger.shared',
)  # files of a day: its ledger, and the names of those that it shares
END = '.'  # the last field of each line
UNITS = 10**7  # of a place in a degree
WAIT = 60  # seconds for which another process may hold a shared ledger
EVENTS = ('begun', 'kept', 'taken', 'returned', 'sent', 'choice')
TABLE_MARK = b'event,time,who,claim,'
Place = Tuple[int, int]


@dataclass(frozen=True)
class Corner:
    """A node without tags that an import made, and its place, in units of 10^-7 degree."""

    key: str
    place: Place

    def __str__(self) -> str:
        lon, lat = (opl.degrees(Decimal(unit) / UNITS) for unit in self.place)
        return f'{self.key}@{lon}/{lat}'

    @classmethod
    def of(cls, text: str) -> Corner:
        """The corner of a text as `str` makes it; ValueError where it is none."""
        key, at, place = text.partition('@')
        lon, slash, lat = place.partition('/')
        if not at or not slash or not opl.KEY.fullmatch(key):
            raise ValueError(f'{text} is no corner')
        return cls(key, (int(Decimal(lon) * UNITS), int(Decimal(lat) * UNITS)))


@dataclass(frozen=True)
class Entry:
    """A line of a ledger; the module says what the fields of each event mean."""

    event: str
    time: str = ''
    who: str = ''
    claim: str = ''
    dataset: str = ''
    file: str = ''
    row: int = 0
    id: str = ''
    digest: str = ''
    keys: tuple[str, ...] = ()
    corners: tuple[Corner, ...] = ()
    changeset: str = ''
    server: str = ''
    mine: str = ''
    theirs: str = ''

    @property
    def place(self) -> tuple[str, int]:
        """What the events of one feature in one import have in common."""
        return self.claim, self.row

    def line(self) -> str:
        """The line of the ledger, with its line feed."""
        out = io.StringIO()
        texts = [
            ' '.join(map(str, one)) if isinstance(one, tuple) else one
            for one in (getattr(self, name) for name in FIELDS)
        ]
        csv.writer(out, lineterminator='\n').writerow([*map(one_line, map(str, texts)), END])
        return out.getvalue()

    @classmethod
    def of(cls, texts: Sequence[str]) -> Entry:
        """The entry of the fields of a line; ValueError where they are none."""
        found: dict[str, Any] = dict(zip(FIELDS, texts))
        if len(texts) != len(FIELDS) + 1 or found['event'] not in EVENTS:
            raise ValueError('it is no line of a ledger')
        found['row'] = int(found['row'])
        found['keys'] = tuple(found['keys'].split())
        found['corners'] = tuple(map(Corner.of, found['corners'].split()))
        return cls(**found)


FIELDS = tuple(one.name for one in fields(Entry))
HEADER = ','.join((*FIELDS, 'end')) + '\n'


def one_line(text: str) -> str:
    """A text without control characters, as a ledger has it."""
    return re.sub('[\x00-\x1f\x7f-\x9f\u2028\u2029]+', ' ', text)


@dataclass(frozen=True)
class Identity:
    """By what a feature is known again: the data set, the digest of its file and its number there,
    its id, the digest of all it says.
    """

    dataset: str
    file: str
    row: int
    id: str
    digest: str

    @classmethod
    def of(cls, feature: Feature, dataset: str, file: str, id: str) -> Identity:
        """That of a feature of a file."""
        content = json.dumps(
            [feature.kind, feature.coordinates, feature.properties], default=str, sort_keys=True
        )
        return cls(
            dataset,
            file,
            feature.number,
            one_line(id).strip(),
            digest_of(content.encode('utf-8', 'surrogatepass')),
        )

    def entry(self, event: str, claim: str, who: str, **more: Any) -> Entry:
        """The entry of an event of this feature, now."""
        return Entry(
            event,
            now(),
            who,
            claim,
            self.dataset,
            self.file,
            self.row,
            self.id,
            self.digest,
            **more,
        )


def digest_of(data: bytes) -> str:
    """Sixteen hexadecimal digits by which bytes are known again."""
    return hashlib.sha256(data).hexdigest()[:16]


def now() -> str:
    """The time, as OpenStreetMap writes it."""
    return time.strftime('%Y-%m-%dT%H:%M:%SZ', time.gmtime())


def name_of_user(given: str | None) -> str:
    """Who takes features: the name that was given, that of $YOKE_WHO, or that of the account."""
    with contextlib.suppress(KeyError, OSError):
        return one_line(given or os.environ.get('YOKE_WHO') or getpass.getuser())
    return 'somebody'


class Book:
    """What ledgers say: the features that were taken, by what they are known, and the choices."""

    def __init__(self, entries: Iterable[Entry] = ()):
        self.entries: list[Entry] = []
        self.rows: dict[tuple[str, int], Entry] = {}  # the last event of each, `taken` or `sent`
        self.returned: set[tuple[str, int]] = set()
        self.begun: dict[str, str] = {}  # the names of sessions, by the claims of this day
        self.kept: set[str] = set()
        self.choices: dict[tuple[str, str], Entry] = {}
        self._known: dict[tuple[str, ...], list[tuple[str, int]]] = {}
        self._corners: dict[Place, tuple[str, int]] = {}
        for entry in entries:
            self.add(entry)

    def add(self, entry: Entry) -> None:
        """Takes a line in. The order of lines doesn't matter."""
        self.entries.append(entry)
        if entry.event == 'begun':
            self.begun[entry.claim] = entry.id
        elif entry.event == 'kept':
            self.kept.add(entry.claim)
        elif entry.event == 'returned':
            self.returned.add(entry.place)
        elif entry.event == 'choice':
            before = self.choices.get((entry.keys[0], entry.id)) if entry.keys else None
            if entry.keys and (
                before is None or (before.row, before.time) <= (entry.row, entry.time)
            ):
                self.choices[entry.keys[0], entry.id] = entry
        else:
            self._add_row(entry)

    def _add_row(self, entry: Entry) -> None:
        before = self.rows.get(entry.place)
        if before is None or before.event == 'taken':
            self.rows[entry.place] = entry
        if before is None:
            for name in _names(entry.file, entry.row, entry.dataset, entry.id, entry.digest):
                self._known.setdefault(name, []).append(entry.place)

    def is_live(self, entry: Entry) -> bool:
        """Whether a feature is at a server or in a session."""
        return entry.event == 'sent' or entry.place not in self.returned

    def live(self) -> list[Entry]:
        """The last event of each feature that is at a server or in a session."""
        return [entry for entry in self.rows.values() if self.is_live(entry)]

    def find(self, one: Identity, server: str = '') -> Entry | None:
        """The last event of a feature that was taken before; None where it wasn't, or not for this
        server.

        Of several the one that was sent, else the one that was taken first.
        """
        found = []
        for name in _names(one.file, one.row, one.dataset, one.id, one.digest):
            for place in self._known.get(name, ()):
                entry = self.rows[place]
                is_other = (
                    one.id and entry.id and entry.dataset == one.dataset and entry.id != one.id
                )
                if (
                    self.is_live(entry)
                    and not is_other
                    and (not server or entry.server in ('', server))
                ):
                    found.append(entry)
        return min(
            found, key=lambda entry: (entry.event != 'sent', entry.time, entry.claim), default=None
        )

    def corners(self, server: str = '') -> dict[Place, tuple[Corner, Entry]]:
        """The nodes that imports made, by their places, each with the feature that has it; those
        that were sent before others.
        """
        found: dict[Place, tuple[Corner, Entry]] = {}
        for entry in sorted(
            self.live(), key=lambda entry: (entry.event != 'sent', entry.time, entry.claim)
        ):
            if not server or entry.server in ('', server):
                for corner in entry.corners:
                    found.setdefault(corner.place, (corner, entry))
        return found

    def doubles(self) -> list[tuple[Entry, Entry]]:
        """Pairs of features that were taken twice, as copies of a ledger show that were used apart."""
        found: dict[tuple[str, ...], Entry] = {}
        pairs = {}
        for entry in sorted(self.live(), key=lambda entry: (entry.time, entry.claim)):
            for name in _names(entry.file, entry.row, entry.dataset, entry.id, '')[:2]:
                first = found.setdefault(name, entry)
                if first.place != entry.place and (
                    not first.server or not entry.server or first.server == entry.server
                ):
                    pairs[first.place, entry.place] = first, entry
        return list(pairs.values())


def _names(file: str, row: int, dataset: str, id: str, digest: str) -> list[tuple[str, ...]]:
    """By what a feature is known."""
    names: list[tuple[str, ...]] = [('row', file, str(row))] if file else []
    names += [('id', dataset, id)] if id else []
    return names + ([('digest', digest)] if digest else [])


# ---- files ----


def read(data: bytes, name: str) -> Book:
    """The book of a ledger's bytes; Trouble where the file is no ledger, or has lines that are
    none.
    """
    book, parts = Book(), 0
    for number, text in enumerate(data.decode('utf-8', 'replace').split('\n'), 1):
        text = text.rstrip('\r').lstrip('\ufeff')
        if number == 1 and text and HEADER.startswith(text):
            parts += text + '\n' != HEADER
            continue
        if number == 1 and text:
            raise Trouble(
                f'{name} is no ledger: its first line is {text[:60]!r}; name a file that isn\'t there yet, or one of yoke'
            )
        if not text or text + '\n' == HEADER:
            continue
        texts: list[str] = next(csv.reader([text]), [])
        if texts[-1:] != [END]:
            parts += 1
            continue
        try:
            book.add(Entry.of(texts))
        except (ValueError, ArithmeticError):
            raise Trouble(
                f'{name}:{number}: it is no line of a ledger: bring the file back as it was'
            ) from None
    if parts:
        note(
            f'{name}: {parts} line{"" if parts == 1 else "s"} of a process that was stopped {"is" if parts == 1 else "are"} skipped'
        )
    return book


@dataclass
class Opened:
    """A ledger that this process holds."""

    name: str
    file: BinaryIO
    book: Book

    def append(self, entries: Iterable[Entry]) -> None:
        """Adds lines; when this returns they are on the disk."""
        entries = list(entries)
        if not entries:
            return
        size = self.file.seek(0, os.SEEK_END)
        is_cut = False
        if size:
            self.file.seek(size - 1)
            is_cut = self.file.read(1) != b'\n'
        text = ('\n' if is_cut else '' if size else HEADER) + ''.join(
            entry.line() for entry in entries
        )
        self.file.write(text.encode('utf-8', 'replace'))
        self.file.flush()
        os.fsync(self.file.fileno())
        for entry in entries:
            self.book.add(entry)


@contextlib.contextmanager
def opened(path: pathlib.Path) -> Iterator[Opened]:
    """Holds a ledger for this process alone, and makes it where it isn't there; Busy where another
    one holds it for long.
    """
    is_new = not path.exists()
    with contextlib.ExitStack() as stack:
        while True:
            file = stack.enter_context(open(path, 'a+b'))
            _lock(file, path)
            with contextlib.suppress(FileNotFoundError):
                if os.fstat(file.fileno()).st_ino == os.stat(path).st_ino:
                    break  # else another file took its place while this process waited
        if is_new:
            sync_folder(path.parent)
        file.seek(0)
        yield Opened(str(path), file, read(file.read(), str(path)))


def _lock(file: BinaryIO, path: pathlib.Path) -> None:
    for attempt in range(WAIT * 10):
        try:
            fcntl.flock(file, fcntl.LOCK_EX | fcntl.LOCK_NB)
            return
        except BlockingIOError:
            if attempt == 20:
                note(f'another yoke holds the ledger {path}; waiting')
            time.sleep(0.1)
    raise Busy(f'another yoke holds the ledger {path}')


def look(path: pathlib.Path) -> Book:
    """What a ledger says; nothing where there is no such file."""
    try:
        return read(path.read_bytes(), str(path))
    except FileNotFoundError:
        return Book()


# ---- the ledger of a day ----


@dataclass
class Desk:
    """The ledger of a day, and those that the day shares with others. The folder of the day has to
    be locked.

    `who` is the name under which features are taken.
    """

    day: Day
    who: str = ''
    own: Book = field(default_factory=Book)
    _open: list[Opened] = field(default_factory=list)

    @property
    def path(self) -> pathlib.Path:
        """The file of the day's own ledger."""
        return self.day.path(NAME)

    @property
    def server(self) -> str:
        """The server that the day belongs to; empty where that isn't known yet."""
        return (self.day.read('server') or '').strip()

    def shared(self) -> list[pathlib.Path]:
        """The ledgers that the day shares."""
        text = self.day.read(SHARED)
        return [pathlib.Path(name) for name in json.loads(text)] if text else []

    def share(self, names: Iterable[str]) -> None:
        """Shares ledgers from now on; Trouble where one can't be."""
        before = self.shared()
        paths = [pathlib.Path(os.path.abspath(name)) for name in names]
        for path in paths:
            if path.is_dir() or not path.parent.is_dir():
                raise Trouble(
                    f'{path} can\'t be a ledger: '
                    + ('it is a folder' if path.is_dir() else 'there is no such folder')
                )
        new = [path for path in paths if path not in before]
        if new:
            self.day.write(SHARED, json.dumps([str(path) for path in [*before, *new]]) + '\n')

    def settle(self) -> None:
        """Brings the ledgers up to what became of the day's imports: taken back, or sent; the
        shared ones too.
        """
        self.own = look(self.path)
        made, changesets = self._sent()
        new = []
        for claim, name in self.own.begun.items():
            rows = [
                entry
                for entry in self.own.rows.values()
                if entry.claim == claim and entry.event == 'taken' and self.own.is_live(entry)
            ]
            if self._is_gone(claim, name):
                new += [replace(entry, event='returned', time=now()) for entry in rows]
                continue
            if claim not in self.own.kept:
                new.append(Entry('kept', now(), claim=claim))
            for entry in rows:
                if entry.keys and all(key in made for key in entry.keys):
                    corners = tuple(
                        Corner(made.get(one.key, one.key), one.place)
                        for one in entry.corners
                        if one.key in made or one.key[1] != '-'
                    )
                    numbers = dict.fromkeys(changesets[key] for key in entry.keys)
                    new.append(
                        replace(
                            entry,
                            event='sent',
                            time=now(),
                            keys=tuple(made[key] for key in entry.keys),
                            corners=corners,
                            changeset=' '.join(numbers),
                            server=self.server,
                        )
                    )
        if new:
            self._append(new)
        self._pass_on()

    def _append(self, new: list[Entry]) -> None:
        with opened(self.path) as book:
            book.append(new)
            self.own = book.book

    def _is_gone(self, claim: str, name: str) -> bool:
        """Whether the session that an import was about to be kept as was taken back, or never came
        to be.
        """
        if self.day.path(name + '.undone').exists():
            return True
        if claim in self.own.kept or self.day.path(name + '.saved').exists():
            return False
        number = int(name.split('-')[0])
        states = {state.number for state in self.day.states() + self.day.states('undone')}
        return number in states or number > max(
            states, default=0
        )  # else it was removed with other old sessions

    def _sent(self) -> tuple[dict[str, str], dict[str, str]]:
        """The keys that the server gave to new objects of this day, and the changesets, by the keys
        that they had here.
        """
        made, changesets = {}, {}
        for path in sorted(self.day.folder.glob('*.answers')):
            document = self.day.read(path.name.replace('.answers', '.osc'))
            number = osc.changeset_of(document) if document else ''
            for line in path.read_text(encoding='utf-8').splitlines():
                verb, key, *rest = line.split(' ')
                if verb == 'create':
                    made[key], changesets[key] = rest[0], number
        return made, changesets

    def _pass_on(self) -> None:
        """Adds what the day's own imports came to, and its choices, to the shared ledgers, as far
        as these lack it.
        """
        if not self.own.entries:
            return
        for path in self.shared():
            with opened(path) as theirs:
                theirs.append(self._news(theirs.book))

    def _news(self, theirs: Book) -> list[Entry]:
        new = []
        for entry in self.own.rows.values():
            other = theirs.rows.get(entry.place)
            if self.own.is_live(entry) and (
                other is None or other.event != entry.event and entry.event == 'sent'
            ):
                new.append(entry)
            elif (
                not self.own.is_live(entry)
                and other is not None
                and theirs.is_live(other)
                and other.event == 'taken'
            ):
                new.append(replace(entry, event='returned', time=now()))
        return new + [
            entry for place, entry in self.own.choices.items() if theirs.choices.get(place) != entry
        ]

    @contextlib.contextmanager
    def held(self) -> Iterator[Book]:
        """Holds the shared ledgers from the look to the claim; gives the book of all."""
        with contextlib.ExitStack() as stack:
            self._open = [stack.enter_context(opened(path)) for path in sorted(self.shared())]
            try:
                yield Book(
                    entry
                    for book in [self.own, *(one.book for one in self._open)]
                    for entry in book.entries
                )
            finally:
                self._open = []

    def claim(
        self, session: str, found: Sequence[tuple[Identity, tuple[str, ...], tuple[Corner, ...]]]
    ) -> str:
        """Takes features, with their keys and corners, for the session that is about to be kept
        under a name; answers with the claim.

        The ledgers have to be held.
        """
        claim = secrets.token_hex(6)
        rows = [
            one.entry('taken', claim, self.who, keys=keys, corners=corners, server=self.server)
            for one, keys, corners in found
        ]
        self._append([Entry('begun', now(), self.who, claim, id=session), *rows])
        for book in self._open:
            book.append(rows)
        return claim

    def give_back(self, rows: Sequence[Entry]) -> None:
        """Gives back features that were taken in another day. The ledgers have to be held."""
        returned = [replace(entry, event='returned', time=now()) for entry in rows]
        self._append(returned)
        for book in self._open:
            book.append([entry for entry in returned if entry.place in book.book.rows])

    def keep(self, claim: str) -> None:
        """Says that the session of a claim was kept."""
        self._append([Entry('kept', now(), self.who, claim)])

    def is_own(self, entry: Entry) -> bool:
        """Whether a feature was taken in this day."""
        return entry.claim in self.own.begun

    def choose(self, entries: Iterable[Entry]) -> None:
        """Keeps choices, here and in the shared ledgers."""
        self.own = look(self.path)
        self._append(list(entries))
        self._pass_on()


def settle(day: Day) -> None:
    """Brings the ledgers of a day up to date after a verb that is done already; what goes wrong is
    only said.
    """
    if day.path(NAME).exists():
        try:
            Desk(day).settle()
        except (Trouble, OSError) as trouble:
            note(f'the ledger isn\'t up to date: {trouble}; yoke ledger brings it up')


def take_over(day: Day, older: Day) -> int:
    """Takes the ledger of an older day over into one that begins; answers with how many features
    and choices that are.
    """
    with older.locked():
        desk = Desk(older)
        desk.settle()
        paths = desk.shared()
    entries = [*desk.own.live(), *desk.own.choices.values()]
    if entries:
        with opened(day.path(NAME)) as book:
            book.append(entries)
    if paths:
        day.write(SHARED, json.dumps([str(path) for path in paths]) + '\n')
    return len(entries)
