"""The folder beside an extract in which its parts are kept until the extract is whole.

`area.opl` has the folder `area.opl.parts`. Its file `request` says what was asked for, so that
parts of another request are never taken. Each part appears whole or not at all. The folder goes
when the extract is written, so a download that broke off goes on with the parts that are there.
"""
import contextlib
import fcntl
import json
import os
import pathlib
import shutil
import time
from typing import Dict, Iterator, List

from yoke import day
from yoke.trouble import Busy, Refused

REQUEST = 'request'
OLDEST = 24 * 3600  # seconds after which a part is too old to go on with


class Parts:
    """The parts of one extract, in use by one process at a time."""

    def __init__(self, target: str):
        self.target = target
        self.folder = pathlib.Path(target + '.parts')

    @contextlib.contextmanager
    def held(self, request: Dict[str, str], anew: bool) -> Iterator['Parts']:
        """Holds the folder for a request. `anew` removes the parts that are there.

        Busy while another process holds it. Refused if the parts are of another request, or older
        than a day.
        """
        self.folder.mkdir(exist_ok=True)
        with open(self.folder / 'lock', 'a', encoding='utf-8') as lock:
            try:
                fcntl.flock(lock, fcntl.LOCK_EX | fcntl.LOCK_NB)
            except BlockingIOError:
                raise Busy(f'another yoke gets {self.target}') from None
            for path in self.folder.glob('*.new'):
                path.unlink()
            if anew:
                self._clear()
            self._check(request)
            day.write_whole(self.folder / REQUEST, json.dumps(request, ensure_ascii=False) + '\n')
            yield self

    def _check(self, request: Dict[str, str]) -> None:
        path = self.folder / REQUEST
        if not path.exists():
            return
        try:
            before = json.loads(path.read_text(encoding='utf-8'))
        except ValueError:
            before = None
        if before != request:
            raise Refused(
                f'{self.folder} has parts of another request: name another --to, '
                'or begin again with --anew'
            )
        oldest = min((part.stat().st_mtime for part in self.all()), default=time.time())
        if time.time() - oldest > OLDEST:
            raise Refused(
                f'the parts in {self.folder} are more than a day old: ' 'begin again with --anew'
            )

    def _clear(self) -> None:
        for path in self.folder.iterdir():
            if path.name != 'lock':
                path.unlink()

    def all(self) -> List[pathlib.Path]:
        """The parts that are there, by name."""
        return sorted(self.folder.glob('*.part'))

    def path(self, name: str) -> pathlib.Path:
        """Where a part with this name is kept."""
        return self.folder / (name + '.part')

    def keep(self, name: str, text: str) -> None:
        """Keeps a part; when this returns it is on the disk."""
        day.write_whole(self.path(name), text)

    def remove(self) -> None:
        """Removes the folder: the extract is whole, or nothing of it was kept."""
        shutil.rmtree(self.folder, ignore_errors=True)

    def remove_if_empty(self) -> None:
        """Removes the folder if no part is in it."""
        if not self.all() and self.folder.is_dir():
            self.remove()


def check_target(name: str) -> None:
    """Refused if the name isn't that of an OPL file, or if anything has it already."""
    if not name.endswith('.opl'):
        raise Refused(
            f'{name} is no name for an extract: get writes OPL, so name a file that ' 'ends in .opl'
        )
    if os.path.lexists(name):
        raise Refused(f'{name} is there already: name another file, or remove it first')
