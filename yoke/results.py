"""What a command found and did, as data: one JSON document on standard output, with `--json`.

A verb calls `put` and `add` beside what it prints. Without `--json` they do nothing, so a verb that
has to make its data first asks `wanted`. docs/JSON.md describes the document.
"""
from __future__ import annotations

import contextlib
import io
import json
from collections.abc import Iterator
from contextvars import ContextVar
from dataclasses import dataclass, field
from typing import Any

from yoke import VERSION, opl, printing, saved
from yoke.day import State
from yoke.trouble import Trouble

SCHEMA = 1  # goes up when a field changes its meaning or goes; new fields may come without


@dataclass
class Results:
    """The data of one command: the fields of its result, and its lines on the error stream."""

    fields: dict[str, Any] = field(default_factory=dict)
    notes: list[str] = field(default_factory=list)


_current: ContextVar[Results | None] = ContextVar('results', default=None)


def wanted() -> bool:
    """Whether the command is asked for data."""
    return _current.get() is not None


def put(**fields: Any) -> None:
    """Sets fields of the result."""
    found = _current.get()
    if found is not None:
        found.fields.update(fields)


def add(name: str, *items: Any) -> None:
    """Adds items to a list of the result; with no item the list is there, and empty."""
    found = _current.get()
    if found is not None:
        found.fields.setdefault(name, []).extend(items)


def note(line: str) -> None:
    """Keeps a line of the error stream."""
    found = _current.get()
    if found is not None:
        found.notes.append(line)


@contextlib.contextmanager
def collected() -> Iterator[tuple[Results, io.StringIO]]:
    """Collects the data of a command, and what it prints, in place of standard output."""
    found, printed = Results(), io.StringIO()
    token = _current.set(found)
    try:
        with contextlib.redirect_stdout(printed):
            yield found, printed
    finally:
        _current.reset(token)


def write(
    verb: str, code: int, found: Results, printed: str, trouble: BaseException | None
) -> None:
    """Writes the document."""
    document = {
        'schema': SCHEMA,
        'yoke': VERSION,
        'verb': verb,
        'exit': code,
        'error': None if trouble is None else _error(trouble),
        'notes': found.notes,
        'lines': printed.splitlines(),
        'result': found.fields,
    }
    printing.document(json.dumps(document, ensure_ascii=False, default=str) + '\n')


def _error(trouble: BaseException) -> dict[str, Any]:
    found: dict[str, Any] = {'kind': type(trouble).__name__, 'message': str(trouble)}
    if isinstance(trouble, Trouble):
        found.update(
            {
                name: value
                for name, value in vars(trouble).items()
                if name in ('keys', 'status', 'wait', 'line')
            }
        )
    return found


# ---- parts of a result ----


def of_state(state: State) -> dict[str, Any]:
    """A session that was kept."""
    return {'number': state.number, 'verb': state.verb, 'path': str(state.path)}


def of_object(thing: opl.Object | None) -> dict[str, Any] | None:
    """An object as JSON has it: degrees as numbers, members as pairs of key and role. None stands
    for one that isn't there.
    """
    if thing is None:
        return None
    found: dict[str, Any] = {
        'key': thing.key,
        'version': thing.version,
        'deleted': thing.deleted,
        'changeset': thing.changeset,
        'time': thing.time,
        'uid': thing.uid,
        'user': thing.user,
    }
    if not thing.deleted:
        found['tags'] = dict(thing.tags)
        if thing.key[0] == 'n':
            found.update(lon=_number(thing.lon), lat=_number(thing.lat))
        elif thing.key[0] == 'w':
            found['nodes'] = list(thing.nodes)
        else:
            found['members'] = [{'key': key, 'role': role} for key, role in thing.members]
    return found


def _number(degrees: Any) -> float | None:
    return None if degrees is None else float(degrees)


def of_known(known: saved.Known) -> dict[str, Any]:
    """An object of a session, with its sides."""
    return {
        'key': known.key,
        'edit': known.edit,
        'conflict': None if known.conflict == 'none' else known.conflict,
        'base': of_object(known.base),
        'mine': of_object(known.mine),
        'theirs': of_object(known.theirs),
    }
