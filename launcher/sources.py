"""What the sources are: the hashes under which programs are kept, found again in a moment while no
file changes.

To hash two thousand files takes a quarter of a second. So the hashes are remembered together with a
mark: one hash over the place, size, times and inode of each file. A mark counts only where every
file was older than it by `SETTLED` when it was made, so that a change within the clock's steps
can't hide. The time of change (`ctime`) is part of it, which no program can set.
"""
from __future__ import annotations

import hashlib
import json
import os
import time
from dataclasses import dataclass
from typing import TYPE_CHECKING

from launcher.store import read_record, write_whole

if TYPE_CHECKING:
    from launcher.store import Store

PARTS = ('src', 'specs', 'proofs')
# Folders and files besides the crates' on which a program hangs.
BESIDE = ('launcher', 'plain', 'crates.txt', 'CHANGELOG.md', 'LICENSE')
# Seconds, in units of the system's times: what is younger may change once more without another
# time.
SETTLED = 2 * 10**9
MEMO = 'sources'
MEMOS_KEPT = 8


@dataclass(frozen=True)
class Sources:
    """The hashes of the sources: of all that is proved, and of all that a plain build reads."""

    proved: str
    plain: str


def found(home: str, store: Store) -> Sources:
    """The hashes of the sources here, by the memory of the store where nothing changed since."""
    mark, newest = mark_of(home)
    memo = store.path(
        MEMO, hashlib.sha256(os.fsencode(os.path.realpath(home))).hexdigest()[:16] + '.json'
    )
    kept = read_record(memo)
    if kept and kept.get('mark') == mark:
        return Sources(str(kept['proved']), str(kept['plain']))
    return remembered(home, store, memo, mark, newest)


def remembered(home: str, store: Store, memo: str, mark: str, newest: int) -> Sources:
    """The hashes, found by reading all files, and remembered where the files have settled and the
    store is there.
    """
    now = time.time_ns()
    made = hashed(home)
    if os.path.isdir(store.path(MEMO)) and newest < now - SETTLED and mark_of(home)[0] == mark:
        try:
            write_whole(
                memo, json.dumps({'mark': mark, 'proved': made.proved, 'plain': made.plain}) + '\n'
            )
            tidy(store)
        except OSError:
            pass  # then they are hashed again
    return made


def tidy(store: Store) -> None:
    """Keeps the newest few memories: each clone has one."""
    every = [store.path(MEMO, it) for it in os.listdir(store.path(MEMO))]
    for path in sorted(every, key=os.path.getmtime)[:-MEMOS_KEPT]:
        os.unlink(path)


def hashed(home: str) -> Sources:
    """The hashes, by reading all files."""
    from launcher import build, keys

    crates = build.needed(home)
    return Sources(keys.of_sources(keys.of_texts(home, crates)), keys.of_plain(home, crates))


def mark_of(home: str) -> tuple[str, int]:
    """One hash over what the system tells of each file, and the newest time among them."""
    total, newest = hashlib.sha256(), 0
    left = [os.path.join(home, it) for it in reversed(BESIDE)]
    crates = os.path.join(home, 'crates')
    left += [
        os.path.join(crates, name, part)
        for name in sorted(os.listdir(crates), reverse=True)
        for part in PARTS
    ]
    while left:
        path = left.pop()
        try:
            it = os.lstat(path)
        except FileNotFoundError:
            continue
        if os.path.basename(path) == '__pycache__':
            continue
        is_folder = it.st_mode & 0o170000 == 0o040000
        # The times of a folder tell of what else was made and removed in it; its names are among
        # those below.
        said = (
            (path, it.st_mode)
            if is_folder
            else (path, it.st_mode, it.st_size, it.st_mtime_ns, it.st_ctime_ns, it.st_ino)
        )
        total.update(repr(said).encode('utf-8', 'surrogateescape'))
        if is_folder:
            left += [os.path.join(path, name) for name in sorted(os.listdir(path), reverse=True)]
        else:
            newest = max(newest, it.st_mtime_ns, it.st_ctime_ns)
    return total.hexdigest(), newest
