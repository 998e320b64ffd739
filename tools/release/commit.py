"""The commit from which a release is made."""
from __future__ import annotations

import pathlib
import re
import subprocess
from dataclasses import dataclass

from launcher import main as launcher
from launcher.messages import Stop

TOP = pathlib.Path(__file__).resolve().parents[2]


@dataclass(frozen=True)
class Commit:
    """A commit: its hash, and its time in seconds of the epoch, which packed files get."""

    hash: str
    time: int

    @property
    def short(self) -> str:
        """The first eight digits."""
        return self.hash[:8]


def git(*words: str, top: pathlib.Path = TOP) -> str:
    """What git says of a checkout. Raises `Stop` where it fails."""
    done = subprocess.run(['git', '-C', str(top), *words], capture_output=True, text=True)
    if done.returncode:
        raise Stop(f'git {words[0]}: {done.stderr.strip()}')
    return done.stdout.strip()


def of(name: str = 'HEAD', top: pathlib.Path = TOP) -> Commit:
    """The commit of a name, as a tag."""
    full = git('rev-parse', '--verify', name + '^{commit}', top=top)
    return Commit(full, int(git('show', '-s', '--format=%ct', full, top=top)))


def hold_to_clean(top: pathlib.Path = TOP) -> None:
    """Raises `Stop` where a file of the checkout isn't committed."""
    if git('status', '--porcelain', top=top):
        raise Stop('not all of the checkout is committed: git status')


def clone(wanted: Commit, to: pathlib.Path) -> None:
    """Makes a new clone of this repository, with a commit checked out."""
    to.parent.mkdir(parents=True, exist_ok=True)
    subprocess.run(['git', 'clone', '-q', '--no-hardlinks', str(TOP), str(to)], check=True)
    git('checkout', '-q', wanted.hash, top=to)


def version() -> str:
    """The number of the version, as the newest heading of CHANGELOG.md has it."""
    return launcher.plain_version()


def is_released() -> bool:
    """Whether that heading has a date."""
    return re.search(r'\d{4}-\d\d-\d\d', launcher.version()) is not None
