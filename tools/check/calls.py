"""calls PROGRAM [OTHER]: calls the program in every way that ends with another status, and compares
what comes.

For each call the status and the line on the error stream are known from docs/REFUSALS.md. OTHER is
another build of the same sources, as the proved one: it has to answer with the same output, the
same error stream and the same status, byte for byte. Where the launcher keeps a proved program of
these sources, that is taken. Two things differ between a proved and a plain build and aren't tried
here: where memory runs out a plain build may be stopped by the system, and speed. Status 6, a
missing tool, is one that no call of the built program can have; the session cases have it.
"""
from __future__ import annotations

import os
import pathlib
import resource
import subprocess
import sys
import tempfile
from dataclasses import dataclass

from launcher import sources
from launcher.store import Store, default_folder
from tools.check.needs import TOP

ERRORS = {
    0: '',
    2: 'bad words',
    3: 'no script',
    4: 'bad script line 1',
    5: 'script too long',
    7: 'read fault',
    8: 'write fault',
    9: 'out of memory',
}
LONG = 16_777_217
TOO_MANY = '5000001'
FIRST = 'first.script'
# The words of a call, and its status.
CALLS: tuple[tuple[tuple[str, ...], int], ...] = (
    *(((it,), 0) for it in ('edit.script', FIRST, 'upload/mill.script')),
    ((), 2),
    (('--help',), 2),
    (('-h',), 2),
    (('--version',), 2),
    (('a', 'b'), 2),
    (('-x', FIRST), 2),
    (('--max', FIRST), 2),
    (('--max-objects', FIRST), 2),
    (('--max-objects', '5', FIRST), 0),
    (('--max-objects=5', FIRST), 0),
    (('--max-objects=+5', FIRST), 0),
    (('--max-objects', '05', FIRST), 0),
    (('--max-objects=-5', FIRST), 2),
    (('--max-objects', '-5', FIRST), 2),
    (('--max-objects=', FIRST), 2),
    (('--max-objects', '0', FIRST), 2),
    (('--max-objects', TOO_MANY, FIRST), 2),
    (('--max-objects', ' 5', FIRST), 2),
    (('--max-objects=5=6', FIRST), 2),
    (('--max-objects', str(2**64), FIRST), 2),
    (('--max-objects', '5', '--max-objects', '6', FIRST), 2),
    (('--max-objects', '--', FIRST), 2),
    (('--=5', FIRST), 2),
    (('--max-file', '100', FIRST), 0),
    (('--max-file=1', FIRST), 0),
    (('--max-file=1073741824', FIRST), 0),
    (('--max-file=1073741825', FIRST), 2),
    ((FIRST, '--max-file', '1000000'), 0),
    (('--', FIRST), 0),
    ((FIRST, '--'), 0),
    (('--', '-'), 3),
    (('-',), 3),
    (('--', '--max-objects'), 3),
    (('',), 3),
    (('nothing',), 3),
    (('--', FIRST, 'extra'), 2),
    (('.',), 7),
    (('bad.script',), 4),
    (('long.script',), 5),
)
# Bytes that a process may take, so that a session finds no memory; a plain build may end by SIGABRT
# in place of status 9.
LITTLE_MEMORY = 24_000_000


@dataclass(frozen=True)
class Answer:
    """What a call gave."""

    status: int
    out: bytes
    said: bytes


def call(
    program: str, words: tuple[str, ...], folder: pathlib.Path, to: str = '', memory: int = 0
) -> Answer:
    """Calls the program in a folder, with its output into a file, if one is named."""

    def bound() -> None:
        if memory:
            resource.setrlimit(resource.RLIMIT_AS, (memory, memory))
            resource.setrlimit(resource.RLIMIT_CORE, (0, 0))

    with open(to or os.devnull, 'wb') as out:
        done = subprocess.run(
            [program, *words],
            cwd=folder,
            stdin=subprocess.DEVNULL,
            stdout=out if to else subprocess.PIPE,
            stderr=subprocess.PIPE,
            preexec_fn=bound,
            timeout=120,
        )
    return Answer(done.returncode, done.stdout or b'', done.stderr)


def closed(program: str, folder: pathlib.Path) -> Answer:
    """Calls the program with a pipe whose reader is gone."""
    read, write = os.pipe()
    os.close(read)
    try:
        done = subprocess.run(
            [program, FIRST],
            cwd=folder,
            stdin=subprocess.DEVNULL,
            stdout=write,
            stderr=subprocess.PIPE,
            restore_signals=False,
            timeout=120,
        )
    finally:
        os.close(write)
    return Answer(done.returncode, b'', done.stderr)


def answers(program: str, folder: pathlib.Path) -> list[tuple[str, int, Answer]]:
    """Each call by name, with the status that it has to have and what it gave."""
    found = [
        (' '.join(words) or '(no words)', status, call(program, words, folder))
        for words, status in CALLS
    ]
    found.append(('a disk that is full', 8, call(program, (FIRST,), folder, '/dev/full')))
    found.append(('a reader that is gone', 8, closed(program, folder)))
    return found


def room(folder: pathlib.Path) -> None:
    """The examples, and scripts that are bad."""
    for path in (TOP / 'examples').rglob('*'):
        if path.is_file() and '__pycache__' not in path.parts:
            to = folder / path.relative_to(TOP / 'examples')
            to.parent.mkdir(parents=True, exist_ok=True)
            to.write_bytes(path.read_bytes())
    (folder / 'bad.script').write_text('no such verb\n')
    (folder / 'long.script').write_bytes(b'#' * LONG)
    (folder / 'many.script').write_text('generate 20000\nprint\n')


def faults(program: str, other: str, folder: pathlib.Path) -> list[str]:
    """What is wrong with the program's answers."""
    found = []
    first, second = answers(program, folder), answers(other, folder) if other else []
    for name, status, it in first:
        wanted = f'editor: {ERRORS[status]}\n' if status else ''
        if it.status != status or it.said != wanted.encode() or status and it.out:
            found.append(
                f'{name}: status {it.status} and {it.said!r}, where status {status} and {wanted!r} was to come'
            )
    for (name, _, it), (_, _, its) in zip(first, second):
        if it != its:
            found.append(f'{name}: the two builds differ: {it.status}, {its.status}')
    little = call(program, ('many.script',), folder, memory=LITTLE_MEMORY)
    if (
        little.status not in (9, -6)
        or little.status == 9
        and little.said != b'editor: out of memory\n'
    ):
        found.append(
            f'little memory: status {little.status} and {little.said!r}, where 9 was to come, or -6 of a plain build'
        )
    return found


def proved() -> str:
    """The proved program of these sources, where the launcher keeps one, else ''."""
    store = Store(default_folder())
    kept = store.program(sources.found(str(TOP), store).proved, None)
    return str(kept[0]) if kept else ''


def main(words: list[str]) -> int:
    """Compares, and says how many calls there were."""
    if not 1 <= len(words) <= 2:
        sys.exit(__doc__)
    program = os.path.abspath(words[0])
    other = os.path.abspath(words[1]) if len(words) == 2 else proved()
    with tempfile.TemporaryDirectory() as holder:
        room(pathlib.Path(holder))
        found = faults(program, other, pathlib.Path(holder))
    print('\n'.join(found))
    print(
        f'{len(CALLS) + 3} calls, {len(found)} wrong; '
        + (
            f'each compared with {other}'
            if other
            else 'there is no proved program of these sources to compare with'
        )
    )
    return 1 if found else 0


if __name__ == '__main__':
    sys.exit(main(sys.argv[1:]))
