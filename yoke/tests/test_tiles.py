"""`yoke tiles`: each object has one owner, the seam is done anew, and the result is that of one
session over all.

What cuts files needs osmium, and what hands tiles to workers needs Dask; where they aren't
installed those tests are skipped.
"""
from __future__ import annotations

import gzip
import json
import os
import pathlib
import re
import resource
import shutil
import signal
import socket
import subprocess
import sys
import threading
import time
import unittest
from collections.abc import Iterator, Sequence
from decimal import Decimal
from unittest import mock

try:
    import distributed
except ImportError:
    distributed = None
try:
    from hypothesis import given
    from hypothesis import strategies as st
except ImportError:
    given = st = None

from yoke import osc
from yoke.opl import Object
from yoke.program import Program
from yoke.testing import made_town, tiles_trial
from yoke.tests.support import TOP, FolderTest, program
from yoke.tiles import cluster, edit, engine, grid, merge, script, worker
from yoke.tiles.cluster import Where
from yoke.tiles.edit import Change, Edited
from yoke.tiles.grid import Grid
from yoke.tiles.worker import Done, Job
from yoke.trouble import Busy, Refused, Trouble, Usage
from yoke.verbs import NAMES

needs_osmium = unittest.skipUnless(
    shutil.which('osmium'), 'osmium isn\'t installed (Debian: apt-get install osmium-tool)'
)
needs_dask = unittest.skipUnless(
    distributed, 'Dask isn\'t installed (Debian: apt-get install python3-distributed)'
)
needs_program = unittest.skipUnless(
    os.environ.get('YOKE_EDITOR'), '$YOKE_EDITOR names no program: workers can\'t share the model'
)
needs_cluster = unittest.skipUnless(
    shutil.which('dask-scheduler') and shutil.which('openssl'),
    'dask-scheduler or openssl isn\'t installed',
)
SCRIPT = [
    'tag ( Tcreated_by=* ) Tcreated_by=',
    'tag ( relation and Troute=bus ) Tnetwork=Town',
    'split w3 n4',
    'erase ( way and Taddr:housenumber=7 )',
]


def units(*lines: str) -> list[script.Unit]:
    return script.take_apart('s', lines, lambda name: 2)


class Scripts(unittest.TestCase):
    def test_keys_of_lines(self) -> None:
        for line, keys in [
            ('tag n1,w2 Ta=b', ['n1', 'w2']),
            ('split w1 n2,n3', ['w1', 'n2', 'n3']),
            ('nodes w1 Nn1,n2', ['w1', 'n1', 'n2']),
            ('members r1 Mw1@a,n2@', ['r1', 'w1', 'n2']),
            ('way T Nn1,n-2', ['n1', 'n-2']),
            ('node x1 y2 T', []),
            ('insert n1 w2 3', ['n1', 'w2']),
            ('insert n1 w2 n3', ['n1', 'w2', 'n3']),
            ('add-member w1@,n2@ r3', ['r3', 'w1', 'n2']),
            ('tag ( way ) Ta=b', []),
            ('import a.opl', []),
        ]:
            self.assertEqual(keys, script.keys_of(line), line)

    def test_a_group_is_one_unit_and_looks_are_left_out(self) -> None:
        found = units(
            'count',
            'begin',
            'tag n1 Ta=b',
            'find way',
            'delete n2',
            'end',
            'tag ( way ) Ta=b',
            '# a comment',
            '',
        )
        self.assertEqual(
            [('begin', 'tag n1 Ta=b', 'delete n2', 'end'), ('tag ( way ) Ta=b',)],
            [unit.lines for unit in found],
        )
        self.assertEqual([{'n1', 'n2'}, set()], [set(unit.keys) for unit in found])
        self.assertEqual([False, True], [unit.is_query for unit in found])

    def test_lines_that_tiles_dont_take(self) -> None:
        for lines in (
            ['undo 1'],
            ['download a.opl'],
            ['serve a.opl'],
            ['begin', 'tag ( way ) Ta=b', 'end'],
            ['mend-turns'],
            ['tga n1 Ta=b'],
            ['begin', 'tag n1 Ta=b'],
            ['upload 5'],
            ['resolve n1 mine'],
        ):
            with self.assertRaises(Refused, msg=str(lines)) as refused:
                units(*lines)
            self.assertIn(
                's:1' if lines[0] != 'begin' else 's:',
                str(refused.exception).replace('s: the last', 's:'),
            )

    def test_units_that_share_a_key_hang_together(self) -> None:
        found = units(
            'tag n1 Ta=b', 'tag n3 Ta=b', 'split w1 n1', 'tag ( way ) Ta=c', 'tag n3 Tc=d'
        )
        self.assertEqual([[0, 2], [1, 4]], sorted(script.components(found)))

    def test_ids_of_new_objects_count_lines_that_make_some(self) -> None:
        self.assertEqual(
            [[0], [1], [2]],
            sorted(script.components(units('node x1 y1 T', 'split w1 n2', 'tag n3 Ta=b'))),
        )
        self.assertEqual(
            [[0, 1, 3], [2]],
            sorted(
                script.components(
                    units('node x1 y1 T', 'split w1 n2', 'tag n3 Ta=b', 'tag n-1 Ta=b')
                )
            ),
        )

    def test_shares(self) -> None:
        found = units(
            'tag n1 Ta=b',
            'split w1 n1',
            'way T Nn1,n9',
            'tag n9 Ta=b',
            'tag r1 Ta=b',
            'node x1 y1 T',
            'import a.opl',
            'tag ( way ) Ta=c',
            'tag n8 Tx=y',
        )
        shares = script.share(found, {'n1': 0, 'w1': 0, 'n9': 1, 'n8': 1}, lambda lon, lat: 2)
        self.assertEqual({1: [7, 8], 2: [5, 7]}, shares.tiles)
        self.assertEqual([0, 1, 2, 3, 4, 6], shares.seam)

    def test_a_table_of_tags_becomes_its_rows(self) -> None:
        with mock.patch('yoke.tiles.script._rows', return_value=['tag n1 Ta=b', 'tag n2 Ta=c']):
            self.assertEqual([{'n1'}, {'n2'}], [set(unit.keys) for unit in units('tag-csv a.csv')])


class Owners(unittest.TestCase):
    @unittest.skipUnless(
        given, 'hypothesis isn\'t installed (Debian: apt-get install python3-hypothesis)'
    )
    def test_each_place_has_one_tile(self) -> None:
        degrees = st.decimals(-180, 180, places=7)
        latitudes = st.decimals(-90, 90, places=7)

        @given(
            st.integers(1, 5),
            st.integers(1, 5),
            degrees,
            latitudes,
            st.tuples(degrees, degrees),
            st.tuples(latitudes, latitudes),
        )
        def one_tile(
            wide: int,
            high: int,
            lon: Decimal,
            lat: Decimal,
            wests: tuple[Decimal, Decimal],
            souths: tuple[Decimal, Decimal],
        ) -> None:
            found = Grid.over((min(wests), min(souths), max(wests), max(souths)), wide, high)
            self.assertEqual(
                [found.tile(lon, lat)],
                [number for number in range(len(found)) if found.box(number).has(lon, lat)],
            )

        one_tile()

    def test_sides_belong_to_the_tile_east_and_north_of_them(self) -> None:
        found = Grid.over((Decimal(0), Decimal(0), Decimal(2), Decimal(2)), 2, 2)
        self.assertEqual(
            [3, 2, 1, 0],
            [
                found.tile(Decimal(lon), Decimal(lat))
                for lon, lat in (('1', '1'), ('0.9999999', '1'), ('1', '0.5'), ('-5', '-5'))
            ],
        )

    def test_words(self) -> None:
        self.assertEqual((4, 3), grid.read('4x3'))
        for text in ('4', '0x3', '200x200', 'axb', '-1x2'):
            with self.assertRaises(Usage):
                grid.read(text)


class Merges(unittest.TestCase):
    def changes(self, **sessions: list[Change]) -> merge.Changes:
        found = merge.Changes()
        for name, made in sessions.items():
            found.add(name, Edited(made), range(10))
        return found

    @staticmethod
    def tagged(key: str, value: str, group: int = 0, unit: int | None = None) -> Change:
        return Change(
            'create' if key[1] == '-' else 'modify', Object(key, 1, tags={'a': value}), group, unit
        )

    def test_alike_is_taken_once(self) -> None:
        found = self.changes(one=[self.tagged('n1', 'x')], two=[self.tagged('n1', 'x')])
        self.assertEqual(set(), found.unlike())
        self.assertEqual((1, 1), (found.alike, len(found.in_order())))

    def test_unlike_is_set_aside_with_its_group_and_its_units(self) -> None:
        found = self.changes(
            one=[self.tagged('n1', 'x'), self.tagged('n2', 'x'), self.tagged('n3', 'x', 1)],
            two=[self.tagged('n1', 'y')],
        )
        self.assertEqual({'n1'}, found.unlike())
        seam: set[int] = set()
        aside = merge.set_aside(found, units('tag n2,n5 Ta=b', 'tag n7 Ta=b'), seam, {'n1'})
        self.assertEqual(({'n1', 'n2', 'n5'}, {0}), (aside, seam))
        self.assertEqual(['n3'], [thing.key for _, thing in found.in_order()])

    def test_nodes_that_were_moved_by_their_way(self) -> None:
        found = merge.Changes()
        found.add(
            'one',
            Edited([self.tagged('n1', 'x'), self.tagged('n2', 'x', 1)], {0: {'w5'}, 1: {'w5'}}),
            range(3),
        )
        seam: set[int] = set()
        aside = merge.set_aside(found, units('move w5 1 1', 'tag n9 Ta=b'), seam, {'n1'})
        self.assertEqual(({'n1', 'n2', 'w5'}, {0}, []), (aside, seam, found.in_order()))

    def test_what_a_unit_made_goes_with_it(self) -> None:
        found = self.changes(one=[self.tagged('w-1', 'x', 0, unit=0), self.tagged('n1', 'x', 1)])
        merge.set_aside(found, units('way T Nn1,n2'), set(), {'n1'})
        self.assertEqual([], found.in_order())

    def test_new_objects_get_ids_of_their_own(self) -> None:
        found = self.changes(
            one=[self.tagged('n-1', 'x')],
            two=[self.tagged('n-1', 'y'), Change('create', Object('w-2', nodes=('n-1', 'n5')), 0)],
        )
        self.assertEqual(
            [('n-1', ()), ('n-2', ()), ('w-3', ('n-2', 'n5'))],
            [(thing.key, thing.nodes) for _, thing in found.in_order()],
        )


@needs_osmium
class Trials(FolderTest):
    def test_random_scripts_come_out_as_in_one_session(self) -> None:
        changes = 0
        for seed in range(1, 7):
            with mock.patch('yoke.tiles.worker.Program', lambda path, most=0: program()):
                count, differences = tiles_trial.trial(program(), seed, 16, self.folder)
            changes += count
            self.assertEqual([], differences, seed)
        self.assertGreater(changes, 100)


class TileTest(FolderTest):
    """A town of 30 blocks in a file of its own, and words for `yoke tiles`."""

    def setUp(self) -> None:
        super().setUp()
        self.write(
            'town.opl',
            ''.join(line + '\n' for line in made_town.lines(made_town.make(30, slips=True))),
        )
        subprocess.run(
            ['osmium', 'cat', 'town.opl', '-o', 'town.osm.pbf'],
            check=True,
            stderr=subprocess.DEVNULL,
        )
        self.write('fix.script', ''.join(line + '\n' for line in SCRIPT))

    def words(self, *more: str) -> list[str]:
        return ['tiles', 'town.osm.pbf', 'fix.script', '--to', 'done', '--grid', '3x2', *more]

    def asked(self, where: Where = Where(2), **more: object) -> engine.Asked:
        found = engine.Asked(
            'town.osm.pbf', 'fix.script', SCRIPT, 3, 2, self.folder / 'tiles', where
        )
        return engine.Asked(**{**vars(found), **more})


@needs_osmium
class Runs(TileTest):
    def setUp(self) -> None:
        super().setUp()
        patch = mock.patch('yoke.tiles.worker.Program', lambda path, most=0: program())
        patch.start()
        self.addCleanup(patch.stop)

    def test_what_is_done_is_kept_and_gone_on_from(self) -> None:
        def stopped(jobs: Sequence[Job], where: Where, folder: pathlib.Path) -> Iterator[Done]:
            for job in jobs[:2]:
                yield worker.run(job)
            raise Trouble('stopped')

        with self.assertRaises(Trouble):
            engine.run(program(), self.asked(), stopped)
        first = engine.run(program(), self.asked(), tiles_trial.in_turn)
        self.assertEqual([True, True, False], [done.is_kept for done in first.done[:3]])
        again = engine.run(program(), self.asked(), tiles_trial.in_turn)
        self.assertTrue(all(done.is_kept for done in again.done))
        self.assertEqual(first.changes, again.changes)
        other = engine.run(program(), self.asked(lines=SCRIPT[:1]), tiles_trial.in_turn)
        self.assertFalse(any(done.is_kept for done in other.done))

    def test_a_result_that_was_cut_off_counts_for_nothing(self) -> None:
        first = engine.run(program(), self.asked(), tiles_trial.in_turn)
        path = self.folder / 'tiles' / 'tile-00001.json.gz'
        path.write_bytes(path.read_bytes()[:-20])
        again = engine.run(program(), self.asked(), tiles_trial.in_turn)
        self.assertEqual(['tile-00001'], [done.name for done in again.done if not done.is_kept])
        self.assertEqual(first.changes, again.changes)

    def attempt(self, folder: pathlib.Path) -> str:
        """What stopped a run in a folder; empty where it came to its end. What stands under a name
        that counts is whole.
        """
        asked = self.asked(folder=folder / 'tiles')
        stopped = ''
        try:
            engine.write(
                engine.run(program(), asked, tiles_trial.in_turn), asked, str(folder / 'done')
            )
        except (OSError, Trouble) as error:
            stopped = str(error)
        for path in (folder / 'tiles').glob('*.json.gz'):
            worker.of_data(json.loads(gzip.decompress(path.read_bytes()))['edited'])
        for path in (folder / 'tiles').glob('cut-*/tile-*.osm.pbf'):
            if not path.parent.name.endswith('.begun'):
                subprocess.run(
                    ['osmium', 'fileinfo', '-e', str(path)], check=True, stdout=subprocess.DEVNULL
                )
        if (folder / 'done.osc').exists():
            osc.changes((folder / 'done.osc').read_text(encoding='utf-8'))
        return stopped

    def results(self, folder: pathlib.Path) -> list[str]:
        return [(folder / name).read_text(encoding='utf-8') for name in ('done.osc', 'done.opl')]

    @unittest.skipUnless(
        hasattr(os, 'geteuid') and os.geteuid() == 0,
        'a disk of some kilobytes can be made by root alone',
    )
    def test_a_full_disk_at_any_place(self) -> None:
        self.assertEqual('', self.attempt(self.folder))
        small = self.folder / 'small'
        small.mkdir()
        if subprocess.run(
            ['mount', '-t', 'tmpfs', '-o', 'size=2m', 'none', str(small)], stderr=subprocess.DEVNULL
        ).returncode:
            self.skipTest('mount isn\'t allowed here')
        self.addCleanup(subprocess.run, ['umount', '-l', str(small)], check=True)
        seen = []
        for room in (0, 12, 40, 90, None):
            filler = small / 'filler'
            filler.unlink(missing_ok=True)
            if room is not None:
                free = os.statvfs(small)
                filler.write_bytes(bytes(max(0, free.f_bavail * free.f_frsize - room * 1024)))
            seen.append(self.attempt(small))
        self.assertEqual('', seen[-1])
        self.assertGreater(len({re.sub('[0-9]+', '', why) for why in seen if why}), 1, seen)
        self.assertTrue(all('No space left' in why for why in seen if why), seen)
        self.assertEqual(self.results(self.folder), self.results(small))

    def test_files_that_can_be_written_in_part_alone(self) -> None:
        self.assertEqual('', self.attempt(self.folder))
        small = self.folder / 'small'
        small.mkdir()
        soft, hard = resource.getrlimit(resource.RLIMIT_FSIZE)
        self.addCleanup(resource.setrlimit, resource.RLIMIT_FSIZE, (soft, hard))
        stopped = 0
        for most in (0, 2_000, 20_000, soft):
            resource.setrlimit(resource.RLIMIT_FSIZE, (most, hard))
            try:
                why = self.attempt(small)
            finally:
                resource.setrlimit(resource.RLIMIT_FSIZE, (soft, hard))
            stopped += why != ''
        self.assertEqual('', why)
        self.assertGreater(stopped, 1)
        self.assertEqual(self.results(self.folder), self.results(small))

    def test_only_tiles_in_which_something_differs(self) -> None:
        lines = (self.folder / 'town.opl').read_text(encoding='utf-8').split('\n')
        at = next(at for at, line in enumerate(lines) if 'natural=tree' in line)
        lines[at] = (
            lines[at].replace('natural=tree', 'natural=tree,created_by=x').replace(' v', ' v1')
        )
        self.write('newer.opl', '\n'.join(lines))
        subprocess.run(
            ['osmium', 'cat', 'newer.opl', '-o', 'newer.osm.pbf'],
            check=True,
            stderr=subprocess.DEVNULL,
        )
        found = engine.run(
            program(),
            self.asked(file='newer.osm.pbf', since='town.osm.pbf', lines=SCRIPT[:1]),
            tiles_trial.in_turn,
        )
        self.assertEqual((1, 5), (found.tiles, found.skipped))
        self.assertIn(lines[at].split(' ')[0], {thing.key for _, thing in found.changes})

    def test_a_query_finds_what_a_unit_made_that_is_left(self) -> None:
        """The tile leaves the split, since it lacks a way of the relation; the query has to find
        all others all the same.
        """
        self.write(
            'tile.opl',
            'n1 v1 x13 y52\nn2 v1 x13.001 y52\nn3 v1 x13.002 y52\nn4 v1 x13.003 y52\n'
            'w1 v1 Thighway=path Nn1,n2,n3\nw2 v1 Thighway=path Nn3,n4\nr1 v1 Mw1@,w9@\n',
        )
        parts = units('split w1 n2', 'tag w1 Tnote=1', 'tag ( way and Thighway=path ) Tseen=yes')
        found = edit.run(
            program(), 'tile.opl', parts, lambda there: lambda key: True, is_whole=False
        )
        self.assertEqual(
            (['w1', 'w2'], {'w1', 'n2'}, []),
            ([one.thing.key for one in found.changes], found.left, found.refused),
        )

    def test_a_query_that_looks_at_an_object_of_another_tile(self) -> None:
        town = made_town.make(30, slips=True)
        asked = self.asked(
            file='newer.osm.pbf',
            since='town.osm.pbf',
            lines=['tag ( way and parent Tnight=1 ) Tseen=yes'],
            box=tiles_trial.BOX,
        )
        tiles = Grid.over(tiles_trial.BOX, asked.wide, asked.high)

        def tile(ref: int) -> int:
            lon, lat, _ = town.nodes[ref - 1]
            return tiles.tile(Decimal(str(lon)), Decimal(str(lat)))

        way, node = next(
            (way, ref)
            for way, (refs, _) in enumerate(town.ways, 1)
            for ref in refs
            if tile(ref) != tile(refs[0])
        )
        text = (self.folder / 'town.opl').read_text(encoding='utf-8')
        self.write('newer.opl', re.sub(f'(?m)^n{node} v. (.*) T', rf'n{node} v9 \1 Tnight=1', text))
        subprocess.run(
            ['osmium', 'cat', 'newer.opl', '-o', 'newer.osm.pbf'],
            check=True,
            stderr=subprocess.DEVNULL,
        )
        found = engine.run(program(), asked, tiles_trial.in_turn)
        self.assertIn(f'w{way}', {thing.key for _, thing in found.changes})
        self.assertGreater(found.skipped, 0)

    def test_nights_come_out_as_all_tiles(self) -> None:
        changes = 0
        for seed in (1, 3):
            count, differences = tiles_trial.night(program(), seed, 12, self.folder / str(seed))
            changes += count
            self.assertEqual([], differences, seed)
        self.assertGreater(changes, 5)

    def test_two_runs_in_one_folder(self) -> None:
        (self.folder / 'tiles').mkdir()
        with engine.alone(self.folder / 'tiles'), self.assertRaises(Busy):
            engine.run(program(), self.asked(), tiles_trial.in_turn)

    def test_what_it_writes_is_taken_in_as_a_session(self) -> None:
        found = engine.run(program(), self.asked(), tiles_trial.in_turn)
        engine.write(found, self.asked(), 'done')
        self.assertEqual(
            found.changes[0][0], osc.changes((self.folder / 'done.osc').read_text())[0][0]
        )
        self.done('start', 'done.opl')
        self.done('osc', 'done.osc')
        self.assertIn(f'{len(found.changes)} changes would be sent', self.done('send', '--dry'))

    def test_words_that_are_none(self) -> None:
        for words, code in (
            (['--grid', '0x1'], Usage.code),
            (['--bbox', '1,2'], Usage.code),
            (['--workers', '0'], Usage.code),
            (['--scheduler', 'tcp://127.0.0.1:1'], Usage.code),
            (['--scheduler', 'tls://127.0.0.1:1'], Usage.code),
        ):
            self.assertEqual(code, self.yoke(*self.words(*words)), words)
        self.write('done.osc', '')
        self.assertEqual(Refused.code, self.yoke(*self.words()))
        self.assertIn('done.osc is there already', self.err)

    def test_without_dask_one_line_says_what_to_install_and_all_else_works(self) -> None:
        self.write('dask.py', 'raise ImportError("hidden")\n')
        self.write('distributed.py', 'raise ImportError("hidden")\n')
        environment = {**os.environ, 'PYTHONPATH': f'{self.folder}:{TOP}'}

        def run(*words: str) -> subprocess.CompletedProcess[str]:
            return subprocess.run(
                [sys.executable, *words],
                env=environment,
                capture_output=True,
                text=True,
                check=False,
            )

        tiles = run('-m', 'yoke', *self.words())
        self.assertEqual(
            (Trouble.code, 1), (tiles.returncode, tiles.stderr.count('\n')), tiles.stderr
        )
        self.assertIn('apt-get install python3-distributed', tiles.stderr)
        self.assertFalse((self.folder / 'tiles').exists())
        every = (
            'import importlib, pkgutil, yoke\n'
            'for one in pkgutil.walk_packages(yoke.__path__, "yoke."):\n'
            '    if ".test" not in one.name and not one.name.endswith("__main__"): importlib.import_module(one.name)\n'
        )
        self.assertEqual('', run('-c', every).stderr)
        for verb in NAMES:
            self.assertEqual(0, run('-m', 'yoke', verb, '--help').returncode, verb)


@needs_osmium
@needs_dask
@needs_program
class Workers(TileTest):
    """Tiles on workers of Dask, in processes of their own."""

    def editor(self) -> Program:
        return Program(os.path.abspath(shutil.which(os.environ['YOKE_EDITOR']) or ''))

    def expected(self) -> list[tuple[str, Object]]:
        return engine.run(
            self.editor(), self.asked(folder=self.folder / 'expected'), tiles_trial.in_turn
        ).changes

    def slow(self) -> Program:
        """A program that takes its time, so that a worker can be killed in the middle."""
        path = self.folder / 'slow'
        path.write_text(f'#!/bin/sh\nsleep 0.5\nexec {self.editor().path} "$@"\n')
        path.chmod(0o755)
        return Program(str(path))

    def test_here(self) -> None:
        found = engine.run(self.editor(), self.asked())
        self.assertEqual(self.expected(), found.changes)
        self.assertEqual(
            [],
            [
                path.name
                for path in (self.folder / 'tiles').iterdir()
                if path.name == 'dask' or path.name.startswith('tile-') and path.is_dir()
            ],
        )

    def test_a_worker_is_killed(self) -> None:
        killed: list[int] = []

        def kill() -> None:
            while not killed:
                for path in pathlib.Path('/proc').glob('[0-9]*'):
                    try:
                        words, place = (path / 'cmdline').read_bytes(), os.readlink(path / 'cwd')
                    except OSError:
                        continue
                    if (
                        b'spawn_main' in words
                        and place == str(self.folder)
                        and list((self.folder / 'tiles').glob('tile-*-*'))
                    ):
                        killed.append(int(path.name))
                        os.kill(int(path.name), signal.SIGKILL)
                        return
                time.sleep(0.05)

        thread = threading.Thread(target=kill, daemon=True)
        thread.start()
        found = engine.run(self.slow(), self.asked())
        self.assertTrue(killed)
        self.assertEqual(self.expected(), found.changes)

    def test_a_tile_fails_and_all_others_are_kept(self) -> None:
        broken = self.folder / 'broken'
        broken.write_text(
            f'#!/bin/sh\nfor script; do :; done\ngrep -q tile-00002- "$script" && exit 9\nexec {self.editor().path} "$@"\n'
        )
        broken.chmod(0o755)
        with self.assertRaises(Trouble) as trouble:
            engine.run(Program(str(broken)), self.asked())
        self.assertRegex(
            str(trouble.exception), '(?s)tile-00002: .*memory.*the same command goes on'
        )
        found = engine.run(self.editor(), self.asked())
        self.assertEqual(['tile-00002'], [done.name for done in found.done if not done.is_kept])
        self.assertEqual(self.expected(), found.changes)

    def commands(self, port: int) -> list[list[str]]:
        """The commands of the page for several machines, as one machine can play them."""
        page = (TOP / 'docs' / 'HOWTO' / 'tiles.md').read_text(encoding='utf-8')
        block = (
            page.split('## Several machines')[1]
            .split('```sh elsewhere\n')[1]
            .split('```')[0]
            .replace('\\\n', '')
        )
        for old, new in (
            ('tls://0.0.0.0', f'tls://127.0.0.1 --port {port} --no-dashboard'),
            ('FIRST:8786', f'127.0.0.1:{port}'),
            ('--nworkers 4', '--nworkers 1 --no-dashboard'),
            ('--grid 16x16', '--grid 3x2'),
            ('country.osm.pbf', str(self.folder / 'town.osm.pbf')),
            ('fix.script', str(self.folder / 'fix.script')),
            ('/shared/tiles', str(self.folder / 'tiles')),
        ):
            self.assertIn(old, block)
            block = block.replace(old, new)
        return [line.split() for line in block.strip().split('\n')]

    def machines(self) -> tuple[int, list[list[str]]]:
        """Two folders, each with the certificate and a worker, as machines have them; the port, and
        the commands of the page.
        """
        with socket.socket() as free:
            free.bind(('127.0.0.1', 0))
            port = free.getsockname()[1]
        commands = self.commands(port)
        folders = [self.folder / name for name in ('first', 'second')]
        for folder in folders:
            folder.mkdir()
        subprocess.run(commands[0], check=True, stderr=subprocess.DEVNULL, cwd=folders[0])
        for name in ('cert.pem', 'key.pem'):
            shutil.copy(folders[0] / name, folders[1])
        self.scheduler = self.begun(commands[1], folders[0])
        for folder in folders:
            self.begun(commands[2], folder)
        return port, commands

    def begun(self, words: list[str], folder: pathlib.Path) -> subprocess.Popen[bytes]:
        process = subprocess.Popen(
            words,
            cwd=folder,
            env={**os.environ, 'PYTHONPATH': str(TOP)},
            stdout=subprocess.DEVNULL,
            stderr=subprocess.DEVNULL,
        )
        self.addCleanup(self.end, process)
        return process

    @staticmethod
    def end(process: subprocess.Popen[bytes]) -> None:
        process.terminate()
        try:
            process.wait(10)
        except subprocess.TimeoutExpired:
            process.kill()
            process.wait()

    @needs_cluster
    def test_two_machines_as_the_page_has_them(self) -> None:
        _, commands = self.machines()
        environment = {**os.environ, 'PYTHONPATH': str(TOP), 'YOKE_EDITOR': self.editor().path}
        words = [sys.executable, '-m', 'yoke', *commands[3][1:]]
        done = subprocess.run(
            words,
            cwd=self.folder / 'first',
            env=environment,
            capture_output=True,
            text=True,
            check=False,
        )
        self.assertIn('changes in done.osc', done.stdout, done.stderr)
        sent = osc.changes((self.folder / 'first' / 'done.osc').read_text(encoding='utf-8'))
        self.assertEqual(
            sorted((verb, thing.key) for verb, thing in self.expected()),
            sorted((verb, thing.key) for verb, thing in sent),
        )

    @needs_cluster
    def test_a_stranger_without_the_certificate_reaches_no_scheduler(self) -> None:
        port, _ = self.machines()
        for where in (
            Where(1, f'tcp://127.0.0.1:{port}', in_the_clear=True),
            Where(1, f'tls://127.0.0.1:{port}', *self.other_certificate()),
        ):
            with self.assertRaises(Trouble) as trouble:
                engine.run(self.editor(), self.asked(where))
            self.assertIn('no scheduler answers', str(trouble.exception))

    def other_certificate(self) -> tuple[str, str, str]:
        words = [
            'openssl',
            'req',
            '-x509',
            '-newkey',
            'rsa:2048',
            '-nodes',
            '-days',
            '1',
            '-subj',
            '/CN=yoke',
            '-keyout',
            'other-key.pem',
            '-out',
            'other.pem',
        ]
        subprocess.run(words, check=True, stderr=subprocess.DEVNULL)
        return 'other.pem', 'other.pem', 'other-key.pem'

    @needs_cluster
    def test_a_scheduler_with_tls_is_killed_and_the_same_command_goes_on(self) -> None:
        port, _ = self.machines()
        where = Where(
            1,
            f'tls://127.0.0.1:{port}',
            *(str(self.folder / 'first' / name) for name in ('cert.pem', 'cert.pem', 'key.pem')),
        )

        def kill_after_two(
            jobs: Sequence[Job], there: Where, folder: pathlib.Path
        ) -> Iterator[Done]:
            for count, done in enumerate(cluster.do(jobs, there, folder), 1):
                yield done
                if count == 2:
                    self.scheduler.kill()

        with self.assertRaises(Trouble) as trouble:
            engine.run(self.slow(), self.asked(where), kill_after_two)
        self.assertIn('the same command goes on', str(trouble.exception))
        found = engine.run(self.slow(), self.asked())
        self.assertGreaterEqual(sum(done.is_kept for done in found.done), 2)
        self.assertEqual(self.expected(), found.changes)


if __name__ == '__main__':
    unittest.main()
