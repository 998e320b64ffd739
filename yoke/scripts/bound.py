"""Scripts that are for one session alone: the lines that say so, and the check of them.

A script that was made from a session is wrong over another one: its keys of new objects may name
other objects, and what it takes back may be gone. So `review`, `conflate`, `tag --to` and `expand
--session` begin what they write with

    # for session 3f0a9c12ab34cd56, 000007-do of day
    # with review.opl 90c1ff3a7b6e2d14

The program reads comments over. `yoke do` doesn't: it refuses the script over any other session, or
where the file that the script reads isn't the one that was written with it. The first word after
`session` and the last one after `with` are digests of the text of the session, and of the file.
"""
import hashlib
import os
import re
from typing import Iterable, List

from yoke import files, opl
from yoke.day import State
from yoke.trouble import Refused

SESSION = re.compile('# for session ([0-9a-f]{16})(?:, (.*))?')
FILE = re.compile('# with ([^ ]+) ([0-9a-f]{16})')
INSIST = '--any-session'
MARK = b'# for session '  # near the beginning of each script that was written so


def digest(text: str) -> str:
    """Sixteen hexadecimal digits of the SHA-256 of a text: enough to tell two sessions apart."""
    return hashlib.sha256(text.encode('utf-8', 'surrogateescape')).hexdigest()[:16]


def head(state: State, text: str) -> List[str]:
    """The first line of a script that is for this session alone; `text` is the saved session."""
    folder = ''.join(sign if sign.isprintable() else '?' for sign in str(state.path.parent))
    return [f'# for session {digest(text)}, {state.path.stem} of {folder}']


def with_file(name: str, text: str) -> str:
    """The line that says which file, with which text, the script reads."""
    return f'# with {opl.escape(name)} {digest(text)}'


def check(name: str, lines: Iterable[str], state: State) -> None:
    """Refused where a line says that the script is for another session than the state, or for
    another file.
    """
    now = ''
    for number, line in enumerate(lines, 1):
        if line[:1] != '#':
            continue
        session, file = SESSION.fullmatch(line), FILE.fullmatch(line)
        if session:
            now = now or digest(state.text())
            if session[1] != now:
                raise Refused(
                    _other_session(f'{name}:{number}', session[2] or 'another one', state)
                )
        if file:
            _check_file(f'{name}:{number}', opl.unescape(file[1]), file[2])


def _other_session(where: str, made_from: str, state: State) -> str:
    return (
        f'{where}: this script was made from the session {made_from}, and the session now is '
        f'{state.path.stem}: make it anew with the command that wrote it, or run it all the same '
        f'by {INSIST}'
    )


def _check_file(where: str, path: str, wanted: str) -> None:
    """Refused where the file isn't there, or isn't the one that was written with the script."""
    try:
        with open(path, encoding='utf-8', errors='surrogateescape', newline='') as file:
            found = digest(file.read())
    except OSError:
        folder = os.getcwd()
        raise Refused(
            f'{where}: the script reads {path}, which is not in {folder}: run it where it was written'
        ) from None
    if found != wanted:
        raise Refused(
            f'{where}: {path} is not the file that was written with this script: make both anew, '
            f'or run it all the same by {INSIST}'
        )


def write(name: str, lines: List[str], state: State, force: bool = False) -> None:
    """Writes a script for the session of a state, whole or not at all.

    Refused where the name is that of a file that no command wrote so, unless `force`.
    """
    files.check_outputs([name] if name != '-' else [], [], state.path.parent)
    text = ''.join(line + '\n' for line in head(state, state.text()) + lines)
    files.write_own(name, text, MARK, force)
