"""What happened in a day, in a file of the day: each changeset as it was opened, and each send as
it ended.

The file `log` has a line of JSON for each. A line is added and never changed; half a line, of a
machine that stopped, is ended by the next one and passed over. Nothing rests on this file but what
`yoke log` shows.
"""

import json
import os
import time
from typing import Any, Dict, List

from yoke.day import Day

FILE = 'log'

Entry = Dict[str, Any]


def note(day: Day, **fields: Any) -> None:
    """Adds an entry, with the time; it is on the disk when this returns."""
    made = time.strftime('%Y-%m-%dT%H:%M:%SZ', time.gmtime())
    line = json.dumps({'at': made, **fields}, ensure_ascii=True) + '\n'
    with open(day.path(FILE), 'ab+') as file:
        if file.tell():
            file.seek(-1, os.SEEK_END)
            line = ('' if file.read(1) == b'\n' else '\n') + line
        file.write(line.encode())
        file.flush()
        os.fsync(file.fileno())


def read(day: Day) -> List[Entry]:
    """The entries in their order."""
    try:
        lines = day.path(FILE).read_bytes().split(b'\n')
    except FileNotFoundError:
        return []
    return [entry for entry in map(_entry, lines) if entry]


def _entry(line: bytes) -> Entry:
    try:
        found = json.loads(line)
    except ValueError:
        return {}
    return found if isinstance(found, dict) and isinstance(found.get('at'), str) else {}
