"""One tile, on a worker: it may be done twice, since what it writes is there whole or not at all.
"""
from __future__ import annotations

import gzip
import hashlib
import json
import os
import pathlib
import tempfile
import time
from collections.abc import Callable
from dataclasses import asdict, dataclass, replace
from typing import Any

from yoke import VERSION, opl
from yoke.program import Program
from yoke.tiles import edit, extracts
from yoke.tiles.edit import Change, Edited, Owns
from yoke.tiles.extracts import Extract
from yoke.tiles.grid import Box, place_of
from yoke.tiles.script import Unit


@dataclass(frozen=True)
class Job:
    """What a worker needs to do a tile. `box` is None of the session that has the relations.
    `folder` is seen by all machines.
    """

    name: str
    extract: str
    box: Box | None
    units: tuple[Unit, ...]
    places: tuple[int, ...]  # of the units, among those of the script
    program: str
    folder: str
    stamp: str  # of the file that the extract is cut from
    ids: str = ''  # the folder that has the ids of the file, where the extract has others
    max_objects: int = 0

    @property
    def result(self) -> pathlib.Path:
        """The file of the result."""
        return pathlib.Path(self.folder, f'{self.name}.json.gz')

    def digest(self) -> str:
        """Stands for all that the result depends on, but for the program's own bytes."""
        words = [
            VERSION,
            self.stamp,
            self.name,
            repr(self.box),
            *(line for unit in self.units for line in unit.lines),
        ]
        return hashlib.sha256('\n'.join(words).encode()).hexdigest()


@dataclass(frozen=True)
class Done:
    """What is told of a tile that is done."""

    name: str
    changes: int
    objects: int
    refused: int
    left: int
    seconds: float
    is_kept: bool = False  # done by an earlier run


def run(job: Job) -> Done:
    """Does a tile, unless its result is there already."""
    kept = kept_result(job)
    if kept is not None:
        return kept
    began = time.monotonic()
    with tempfile.TemporaryDirectory(prefix=f'{job.name}-', dir=job.folder) as place:
        folder = pathlib.Path(place)
        source = extracts.as_opl(job.extract, folder / 'extract.opl', job.ids)
        found = edit.run(
            Program(job.program, job.max_objects), source, job.units, owner(job.box), is_whole=False
        )
        done = Done(
            job.name,
            len(found.changes),
            found.objects,
            len(found.refused),
            len(found.left),
            time.monotonic() - began,
        )
        new = folder / 'result'
        with gzip.open(new, 'wt', encoding='utf-8', compresslevel=1) as file:
            json.dump(
                {'digest': job.digest(), 'done': asdict(done), 'edited': as_data(found)},
                file,
                ensure_ascii=False,
            )
        os.replace(new, job.result)
    return done


def owner(box: Box | None) -> Callable[[Extract], Owns]:
    """Which keys a session owns, of what is there: what lies in the box, or with None the
    relations.
    """

    def of_extract(there: Extract) -> Owns:
        def owns(key: str) -> bool:
            if key[1] == '-':  # what the session itself made
                return True
            if box is None or key[0] == 'r':
                return box is None and key[0] == 'r'
            thing = there.get(key)
            place = place_of(thing, there.get) if thing else None
            return place is not None and box.has(*place)

        return owns

    return of_extract


def kept_result(job: Job) -> Done | None:
    """What an earlier run told of this very tile; None where there is no such result."""
    try:
        with gzip.open(job.result, 'rt', encoding='utf-8') as file:
            found = json.load(file)
    except (OSError, EOFError, ValueError):
        return None
    return (
        replace(Done(**found['done']), is_kept=True)
        if found.get('digest') == job.digest()
        else None
    )


def read(job: Job) -> Edited:
    """The result of a tile that is done."""
    with gzip.open(job.result, 'rt', encoding='utf-8') as file:
        return of_data(json.load(file)['edited'])


def as_data(found: Edited) -> dict[str, Any]:
    """What came of a session, for JSON."""
    return {
        'changes': [[one.verb, opl.line(one.thing), one.group, one.unit] for one in found.changes],
        'sources': {group: sorted(keys) for group, keys in found.sources.items()},
        'refused': found.refused,
        'left': sorted(found.left),
        'objects': found.objects,
    }


def of_data(data: dict[str, Any]) -> Edited:
    """The same, read."""
    changes = [
        Change(verb, opl.parse(line), group, unit) for verb, line, group, unit in data['changes']
    ]
    sources = {int(group): set(keys) for group, keys in data['sources'].items()}
    return Edited(
        changes,
        sources,
        [(step, why) for step, why in data['refused']],
        set(data['left']),
        data['objects'],
    )
