"""The folder of a day: kept sessions, what was sent and answered, and one `yoke` at a time.

| file | what it is |
|---|---|
| `N-VERB.saved` | the N-th session kept, by the verb that made it; the one with the highest number is the session |
| `N-VERB.undone` | one that `yoke undo` took back |
| `N.osc` | what was sent, or is about to be sent, of session N: written before it goes out |
| `N.answer` | what the server answered to it; `N.answers` is the same for `confirm` |
| `changeset` | the changeset that is open |
| `server` | the address of the server that this day belongs to |
| `account` | the account that sends the edits of this day (`yoke/accounts.py`) |
| `log` | each changeset that was opened, and how each send ended (`yoke/journal.py`) |
| `forgotten` | the last of the sessions after the first that were removed: nothing is taken back beyond it |
| `lock` | held by the `yoke` that works here |
| `refresh.new` | what a `refresh` merges, while it does |
| `extracts` | of which moment the extracts of `start` were, and how many objects each had |
| `ledger.csv`, `ledger.shared` | what was imported, and what became of it (`yoke/ledger.py`); the ledgers that the day shares |
| `held` | keys of edits that are held back while others are sent, and the number of the session that has them (`yoke/parts.py`) |

Each file appears whole or not at all: it is written under another name, brought to the disk, and
then renamed, and the folder is brought to the disk after that. So what a later step rests on is
there after a loss of power too.
"""
import contextlib
import fcntl
import json
import os
import pathlib
import re
from dataclasses import dataclass
from typing import IO, Any, Iterator, List, Optional, Tuple, Union

from yoke.trouble import Busy, Refused, Trouble

NAME = re.compile('([0-9]+)-([a-z-]+)\\.(saved|undone)')
OWN = re.compile(
    '[0-9]+-[a-z-]+\\.(saved|undone)|[0-9]+\\.(osc|answers?|refused)|josm-.*\\.start|changeset|server|account|log|forgotten|lock|refresh|held|extracts|ledger\\.(csv|shared)'
)
LAST = 3  # sessions that are kept of those that nothing goes back to any more
FORGOTTEN = 'forgotten'
HELD = 'held'
UNREVERTED = 'unreverted'  # the verb in the name of the session that a revert begins with: by itself it is a revert that was stopped
PART, WHOLE = (
    'part',
    'whole',
)  # verbs in the names of sessions: some edits are held back, and they are taken up again
SENT = ('send', WHOLE)  # verbs whose sessions come after something that the server took
BACK = 20  # sessions to which `undo` can go back, counted from the last


@dataclass(frozen=True)
class State:
    """A session that was kept: its number, the verb that made it, and its file."""

    number: int
    verb: str
    path: pathlib.Path

    def text(self) -> str:
        """The saved session."""
        return self.path.read_text(encoding='utf-8')


@dataclass(frozen=True)
class Held:
    """Edits that are held back while others are sent: their keys, and the number of the session
    that has them.
    """

    of: int
    keys: Tuple[str, ...]


class Day:
    """The folder of a day. Looking needs no lock; whatever writes stands in `with day.locked():`."""

    def __init__(self, folder: Union[str, pathlib.Path]) -> None:
        self.folder = pathlib.Path(folder)

    # ---- sessions ----

    def states(self, ending: str = 'saved') -> List[State]:
        """The kept sessions by number, or with the ending `undone` those that were taken back."""
        found = (NAME.fullmatch(path.name) for path in self.folder.glob('*.' + ending))
        return sorted(
            (State(int(name[1]), name[2], self.folder / name[0]) for name in found if name),
            key=lambda state: state.number,
        )

    def last(self) -> State:
        """The session as it is now; Trouble where there is none."""
        states = self.states()
        if not states:
            raise Trouble(f'there is no session in {self.folder}: yoke start EXTRACT begins one')
        return states[-1]

    def keep(self, verb: str, text: str) -> State:
        """Keeps a session as the last one; answers with its State."""
        with self.draft(verb) as draft:
            draft.begin().write(text.encode('utf-8'))
            return draft.keep()

    @contextlib.contextmanager
    def draft(self, verb: str) -> Iterator['Draft']:
        """A session that a verb is about to keep as the last one; what of it isn't kept in the
        context goes.
        """
        name = self.next_name(verb)
        one = Draft(self, State(int(name.split('-')[0]), verb, self.folder / (name + '.saved')))
        try:
            yield one
        finally:
            one.drop()

    def next_name(self, verb: str) -> str:
        """The name, without its ending, of the session that is kept next, by a verb."""
        return '{:06}-{}'.format(
            max((state.number for state in self.states() + self.states('undone')), default=0) + 1,
            verb,
        )

    def take_back(self) -> State:
        """Takes the last session back; answers with it. Refused where nothing lies before, or no
        longer, or where it was sent.
        """
        self.check_back()
        last = self.states()[-1]
        os.rename(last.path, last.path.with_suffix('.undone'))
        self._sync()
        return last

    def check_back(self) -> None:
        """Refused where `take_back` would be."""
        states = self.states()
        if len(states) < 2:
            raise Refused('there is nothing to take back: this session is the first')
        if len(states) == 2 and self.read(FORGOTTEN):
            raise Refused(
                'the session before this one is no longer kept: the last {} are, and those since a chunk was sent'.format(
                    BACK
                )
            )
        if self.held():
            raise Refused('a part of the edits is being sent: yoke send goes on')
        if states[-1].verb in SENT:
            raise Refused(
                'the last session was kept after the server took a chunk; that can\'t be taken back here, only by new edits'
            )
        if self.pending():
            raise Refused(
                'it isn\'t known yet what the server took of {}: yoke send looks'.format(
                    self.pending()
                )
            )

    def _forget(self) -> None:
        """Removes sessions to which nothing goes back: all but the first, the last ones, and those
        since a chunk was sent.
        """
        states = self.states()
        held = self.held()
        sent = max((at for at, state in enumerate(states) if state.verb in SENT), default=0)
        first = max(min(sent, len(states) - LAST), len(states) - BACK)
        gone = [state for state in states[1:first] if held is None or state.number != held.of]
        if gone:
            self.write(FORGOTTEN, f'{states[first - 1].number:06}\n')
        for state in gone + self.states('undone')[:-LAST]:
            state.path.unlink()

    # ---- what is sent ----

    def path(self, name: str) -> pathlib.Path:
        """The path of a file of this folder."""
        return self.folder / name

    def beside(self, state: State, ending: str) -> str:
        """The name of a file that belongs to a session: `osc`, `answer` or `answers`."""
        return f'{state.number:06}.{ending}'

    def pending(self) -> Optional[str]:
        """The name of the document of which it isn't known whether the server took it; None where
        there is none.
        """
        states = self.states()
        name = self.beside(states[-1], 'osc') if states else None
        return name if name and self.path(name).exists() else None

    # ---- what is held back ----

    def held(self) -> Optional[Held]:
        """The edits that are held back; None where none are."""
        text = self.read(HELD)
        if text is None:
            return None
        found = json.loads(text)
        return Held(found['of'], tuple(found['keys']))

    def hold(self, held: Held) -> None:
        """Notes edits that are held back."""
        self.write(HELD, json.dumps({'of': held.of, 'keys': held.keys}) + '\n')

    # ---- files ----

    def read(self, name: str) -> Optional[str]:
        """The text of a file of this folder; None where there is none."""
        try:
            return self.path(name).read_text(encoding='utf-8')
        except FileNotFoundError:
            return None

    def write(self, name: str, text: str) -> None:
        """Writes a file of this folder, whole or not at all; when this returns it is on the disk."""
        write_by(self.path(name + '.new'), self.path(name), text)

    def remove(self, name: str) -> None:
        """Removes a file of this folder, if it is there; when this returns it is gone from the
        disk.
        """
        with contextlib.suppress(FileNotFoundError):
            self.path(name).unlink()
        self._sync()

    def rename(self, name: str, other: str) -> None:
        """Gives a file of this folder another name; when this returns it is so on the disk."""
        os.rename(self.path(name), self.path(other))
        self._sync()

    def _sync(self) -> None:
        sync_folder(self.folder)

    def _lock_file(self) -> IO[str]:
        """The file by which the folder is held, open; Trouble where it is a link, which would make
        a file elsewhere.
        """
        path = self.path('lock')
        try:
            return open(
                os.open(
                    path,
                    os.O_RDWR | os.O_CREAT | os.O_NOFOLLOW | os.O_CLOEXEC | os.O_NONBLOCK,
                    0o666,
                ),
                'a',
                encoding='ascii',
            )
        except OSError as error:
            if path.is_symlink():
                raise Trouble(
                    f'{path} is a link, and has to be a file of the folder itself: remove it'
                ) from None
            raise Trouble(f'{path} can\'t be opened: {error}') from None

    @contextlib.contextmanager
    def locked(self, make: bool = False) -> Iterator['Day']:
        """Holds the folder for this process alone; Busy where another one does. `make` makes the
        folder where it isn't there.
        """
        if make:
            make_folder(self.folder)
        if not self.folder.is_dir():
            raise Trouble(f'there is no folder {self.folder}: yoke start EXTRACT makes it')
        with self._lock_file() as lock:
            try:
                fcntl.flock(lock, fcntl.LOCK_EX | fcntl.LOCK_NB)
            except BlockingIOError:
                raise Busy(f'another yoke works in {self.folder}') from None
            for path in self.folder.glob(
                '*.new'
            ):  # begun by one that was stopped; nothing rests on them
                if is_own(path.name):
                    path.unlink()
            yield self


@dataclass
class Draft:
    """A session that is about to be kept: nothing of it is there until `begin`, and it is the last
    session after `keep`.
    """

    day: Day
    state: State
    file: Optional[IO[bytes]] = None

    def begin(self) -> IO[bytes]:
        """The file that its text goes into."""
        self.file = open(self._path, 'wb')
        return self.file

    def keep(self) -> State:
        """Keeps it, whole, as the last session of the day."""
        assert self.file is not None
        settle(self.file, self._path, self.state.path)
        self.file = None
        self.day._forget()
        return self.state

    def drop(self) -> None:
        """Removes what was written and isn't kept."""
        if self.file is not None:
            self.file.close()
            with contextlib.suppress(FileNotFoundError):  # broken off just after it got its name
                self._path.unlink()
            self.file = None

    @property
    def _path(self) -> pathlib.Path:
        return self.state.path.with_name(self.state.path.name + '.new')


def settle(file: IO[Any], new: pathlib.Path, path: pathlib.Path) -> None:
    """Brings a file that was written to the disk, closes it, and gives it its name."""
    file.flush()
    os.fsync(file.fileno())
    file.close()
    os.replace(new, path)
    sync_folder(path.parent)


def write_whole(path: Union[str, pathlib.Path], text: str) -> None:
    """Writes a file whole or not at all: what stood there before stands there until the new text is
    on the disk. No other file is touched, one called `.new` neither.
    """
    path = pathlib.Path(path)
    new = path.with_name(f'{path.name}.{os.getpid()}.new')
    with open(new, 'x'):
        pass
    try:
        write_by(new, path, text)
    finally:
        with contextlib.suppress(FileNotFoundError):
            new.unlink()


def write_by(new: pathlib.Path, path: pathlib.Path, text: str) -> None:
    """Writes a file whole or not at all, by another name in the same folder, which may stand there
    if it doesn't succeed.
    """
    with open(new, 'w', encoding='utf-8', newline='\n') as file:
        file.write(text)
        settle(file, new, path)


def is_own(name: str) -> bool:
    """Whether a file of a day may have this name, half written or whole."""
    return bool(OWN.fullmatch(name[: -len('.new')] if name.endswith('.new') else name))


def make_folder(folder: pathlib.Path) -> None:
    """Makes a folder, with those above it, where they aren't there; then their names are on the
    disk.
    """
    missing = [one for one in (folder, *folder.parents) if not one.exists()]
    folder.mkdir(parents=True, exist_ok=True)
    for one in missing:
        sync_folder(one.parent)


def sync_folder(folder: pathlib.Path) -> None:
    """Brings the names in a folder to the disk."""
    handle = os.open(folder, os.O_RDONLY | os.O_DIRECTORY)
    try:
        os.fsync(handle)
    finally:
        os.close(handle)
