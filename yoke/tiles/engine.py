"""The whole: cuts a file, has its tiles done, does the seam anew, and writes one set of changes."""
from __future__ import annotations

import contextlib
import fcntl
import hashlib
import json
import os
import pathlib
import shutil
import tempfile
from collections.abc import Callable, Iterator, Sequence
from dataclasses import dataclass, field, replace
from decimal import Decimal

from yoke import day, files, opl, osc
from yoke.program import Program
from yoke.progress import note
from yoke.scripts import grammar
from yoke.tiles import cluster, edit, extracts, merge, script, worker
from yoke.tiles.cluster import Where
from yoke.tiles.edit import Edited
from yoke.tiles.grid import Box, Grid
from yoke.tiles.merge import Changes
from yoke.tiles.script import Unit
from yoke.tiles.worker import Done, Job
from yoke.trouble import Busy, Refused, Trouble
from yoke.verbs import lint

ROUNDS = 12
RELATIONS = 'relations'
SEAM = 'seam'


@dataclass(frozen=True)
class Asked:
    """What is asked for: the file, the script's name and lines, the grid's columns and rows, a
    folder to work in.
    """

    file: str
    script: str
    lines: Sequence[str]
    wide: int
    high: int
    folder: pathlib.Path
    where: Where
    since: str = ''  # an older extract: only tiles in which something differs are done
    box: tuple[Decimal, Decimal, Decimal, Decimal] | None = None


@dataclass
class Outcome:
    """What came: the changes in their order, and figures of how."""

    changes: list[tuple[str, opl.Object]]
    tiles: int = 0
    skipped: int = 0
    alike: int = 0
    seam_keys: int = 0
    rounds: int = 0
    refused: list[tuple[str, str, str]] = field(default_factory=list)  # session, step, why
    done: list[Done] = field(default_factory=list)


Doing = Callable[[Sequence[Job], Where, pathlib.Path], Iterator[Done]]


def run(program: Program, asked: Asked, doing: Doing = cluster.do) -> Outcome:
    """Does a script over a file; Trouble where it can't be done, with what to do. The same call
    goes on where one was stopped.

    `doing` hands the tiles to workers.
    """
    units = script.take_apart(asked.script, asked.lines, count_new)
    if not units:
        raise Refused(f'{asked.script} has no line that edits')
    asked.folder.mkdir(parents=True, exist_ok=True)
    with alone(asked.folder), tempfile.TemporaryDirectory(
        prefix='work-', dir=asked.folder
    ) as place:
        return _Engine(program, asked, units, pathlib.Path(place), doing).run()


@contextlib.contextmanager
def alone(folder: pathlib.Path) -> Iterator[None]:
    """Keeps other runs out of a folder; Busy where one works in it."""
    with open(folder / 'lock', 'w', encoding='ascii') as lock:
        try:
            fcntl.flock(lock, fcntl.LOCK_EX | fcntl.LOCK_NB)
        except BlockingIOError:
            raise Busy(
                f'another yoke tiles works in {folder}: wait for it, or name another --work'
            ) from None
        yield


@dataclass
class _Engine:
    program: Program
    asked: Asked
    units: list[Unit]
    place: pathlib.Path
    doing: Doing

    def run(self) -> Outcome:
        for unit in self.units:
            if unit.looks_around and len(self.units) > 1:
                note(
                    f'{self.asked.script}:{unit.numbers[0]}: child and parent see what other lines change in the same tile alone, '
                    f'and else what {self.asked.file} has'
                )
        self._add_touched()
        grid = Grid.over(
            self.asked.box or extracts.box_of(self.asked.file), self.asked.wide, self.asked.high
        )
        owner = extracts.owners(
            self.asked.file, {key for unit in self.units for key in unit.keys}, grid, self.place
        )
        shares = script.share(
            self.units, owner, lambda lon, lat: grid.tile(Decimal(lon), Decimal(lat))
        )
        wanted = self._wanted(grid, shares)
        jobs = self._jobs(grid, shares, wanted)
        found = Outcome([], tiles=len(wanted), skipped=len(grid) - len(wanted))
        changes, left = Changes(), set()
        for done in self.doing(jobs, self.asked.where, self.asked.folder):
            found.done.append(done)
            cluster.told(done, len(found.done), len(jobs))
        for job in sorted(jobs, key=lambda job: job.name):
            edited = worker.read(job)
            changes.add(job.name, edited, job.places)
            left |= edited.left
            found.refused += [(job.name, step, why) for step, why in edited.refused]
        self._seam(changes, set(shares.seam), left, found)
        found.changes, found.alike = changes.in_order(), changes.alike
        return found

    def _add_touched(self) -> None:
        """Adds to a unit what it touches and doesn't name: nodes of ways that it moves or erases,
        what an import refers to.
        """
        for at, unit in enumerate(self.units):
            for word in script.imported(unit):
                unit = self.units[at] = replace(unit, keys=unit.keys | references_of(word))
        ways = {at: script.ways_reached(unit) for at, unit in enumerate(self.units)}
        things = extracts.get(self.asked.file, set().union(*ways.values()), self.place)
        for at, keys in ways.items():
            nodes = {node for key in keys if key in things for node in things[key].nodes}
            self.units[at] = replace(self.units[at], keys=self.units[at].keys | nodes)

    # ---- the tiles ----

    def _wanted(self, grid: Grid, shares: script.Shares) -> list[int]:
        """The tiles that have something to do."""
        if not any(unit.is_query for unit in self.units):
            return sorted(shares.tiles)
        if not self.asked.since:
            return list(range(len(grid)))
        keys = extracts.changed(self.asked.since, self.asked.file)
        looks = any(unit.looks_around for unit in self.units)
        tiles = set()
        for file in (self.asked.since, self.asked.file):
            near = extracts.beside(file, keys, self.place) if looks else set()
            tiles |= set(extracts.owners(file, keys | near, grid, self.place).values())
        note(
            f'{len(keys)} objects differ from {self.asked.since}, in {len(tiles)} of {len(grid)} tiles'
        )
        return sorted(tiles | set(shares.tiles))

    def _jobs(self, grid: Grid, shares: script.Shares, wanted: list[int]) -> list[Job]:
        stamp = self._stamp()
        cut = (
            self.asked.folder
            / f'cut-{hashlib.sha256(json.dumps([stamp, repr(grid), wanted]).encode()).hexdigest()[:16]}'
        )
        if not cut.is_dir():
            for old in self.asked.folder.glob('cut-*'):
                shutil.rmtree(old, ignore_errors=True)
            note(f'cutting {len(wanted)} tiles out of {self.asked.file}')
            extracts.cut(self.asked.file, grid, wanted, cut)
        queries = [at for at, unit in enumerate(self.units) if unit.is_query]
        ids = cut / 'ids'
        jobs = [
            self._job(
                f'tile-{number:05}',
                str(cut / extracts.name_of(number)),
                grid.box(number),
                shares.tiles.get(number, queries),
                stamp,
                str(ids) if ids.is_dir() else '',
            )
            for number in wanted
        ]
        return jobs + (
            [self._job(RELATIONS, self._relations(cut), None, queries, stamp, '')]
            if queries
            else []
        )

    def _job(
        self, name: str, extract: str, box: Box | None, places: Sequence[int], stamp: str, ids: str
    ) -> Job:
        """What a worker needs, which may run in another folder."""
        return Job(
            name,
            extract,
            box,
            tuple(self.units[at] for at in places),
            tuple(places),
            os.path.abspath(self.program.path),
            str(self.asked.folder),
            stamp,
            ids,
            self.program.max_objects,
        )

    def _relations(self, cut: pathlib.Path) -> str:
        """An extract of all relations; with all that they refer to where a query looks at that."""
        to = cut / 'relations.osm.pbf'
        if not to.exists():
            begun = cut / 'relations-begun.osm.pbf'
            extracts.osmium(
                'cat', '--no-progress', '-O', '-t', 'relation', '-o', begun, self.asked.file
            )
            if any(unit.looks_around for unit in self.units):
                extracts.osmium(
                    'getid',
                    '-r',
                    '-O',
                    '-I',
                    begun,
                    '-o',
                    cut / 'relations-whole.osm.pbf',
                    self.asked.file,
                    allowed=(0, 1),
                )
                begun = cut / 'relations-whole.osm.pbf'
            os.replace(begun, to)
        return str(to)

    def _stamp(self) -> str:
        """Stands for the bytes of the file, by its size and the time of its last change."""
        found = os.stat(self.asked.file)
        return f'{os.path.abspath(self.asked.file)} {found.st_size} {found.st_mtime_ns}'

    # ---- the seam ----

    def _seam(self, changes: Changes, seam_units: set[int], left: set[str], found: Outcome) -> None:
        """Does what the tiles left, and what they made unlike, in one session; again while that
        meets more of what they made.
        """
        aside = merge.set_aside(
            changes,
            self.units,
            seam_units,
            left | {key for at in seam_units for key in self.units[at].keys if key[1] != '-'},
        )
        while True:
            unlike = changes.unlike()
            if unlike:
                changes.remove_session(SEAM)
                aside |= merge.set_aside(changes, self.units, seam_units, aside | unlike)
            elif found.rounds or not (aside or seam_units):
                found.seam_keys = len(aside)
                return
            if found.rounds == ROUNDS:
                raise Refused(
                    f'the seam doesn\'t come to an end after {ROUNDS} rounds: cut other tiles by --grid'
                )
            found.rounds += 1
            note(f'the seam: {len(aside)} objects, round {found.rounds}')
            edited = self._edit_seam(aside, seam_units)
            changes.add(SEAM, edited, self._seam_places(seam_units))
            found.refused = [one for one in found.refused if one[0] != SEAM] + [
                (SEAM, *one) for one in edited.refused
            ]

    def _seam_places(self, seam_units: set[int]) -> list[int]:
        """The places of the units that the seam does: its own, and those over queries."""
        return [at for at, unit in enumerate(self.units) if unit.is_query or at in seam_units]

    def _edit_seam(self, aside: set[str], seam_units: set[int]) -> Edited:
        """What the script makes of the objects of the seam, in a session that has all that an edit
        of them looks at.
        """
        path = self.place / 'seam.opl'
        things = extracts.around(self.asked.file, aside, self.place)
        path.write_text(''.join(opl.line(thing) + '\n' for thing in things), encoding='utf-8')
        units = [self.units[at] for at in self._seam_places(seam_units)]

        def owns(there: extracts.Extract) -> edit.Owns:
            return lambda key: key in aside or key[1] == '-'

        return edit.run(self.program, str(path), units, owns, is_whole=True)


# ---- written ----


def write(outcome: Outcome, asked: Asked, name: str) -> None:
    """Writes NAME.osc, the changes, and NAME.opl, what they rest on: the objects that change, and
    what they refer to.
    """
    there = {thing.key for _, thing in outcome.changes if thing.key[1] != '-'}
    refs = {ref for _, thing in outcome.changes for ref in thing.references if ref[1] != '-'}
    with tempfile.TemporaryDirectory(prefix='work-', dir=asked.folder) as place:
        folder, found = pathlib.Path(place), pathlib.Path(place, 'found.opl')
        extracts.write(asked.file, there, found, folder)
        missing = set(there)
        for line in extracts.lines(found):
            missing.discard(line.partition(' ')[0])
            refs.update(opl.parse(line).references if line[0] != 'n' else ())
        if missing:
            raise Trouble(
                f'{asked.file} has no {min(missing, key=opl.rank)} any more: was it changed meanwhile?'
            )
        extracts.write(asked.file, there | refs, found, folder)
        day.write_whole(name + '.opl', found.read_text(encoding='utf-8'))
    day.write_whole(name + '.osc', osc.document(outcome.changes, '0'))


def references_of(word: str) -> set[str]:
    """The keys of a server to which the new objects of an `import` line's file refer; none where
    the program will refuse the file.
    """
    try:
        text = files.data_of(grammar.check_text(word, 'the file')).decode('utf-8')
        new = [opl.parse(line) for line in text.split('\n') if line[1:2] == '-']
    except (Trouble, ValueError):
        return set()
    return {ref for thing in new if not thing.deleted for ref in thing.references if ref[1] != '-'}


def count_new(word: str) -> int:
    """How many new objects the file of an `import` line has."""
    count: int = lint.count(word)
    return count
