"""The library: a whole day by its public names alone, over the strict server; no output, and the
types that it says.
"""
from __future__ import annotations

import contextlib
import io
import os
import pathlib
import subprocess
import sys
import tempfile
import unittest
from unittest import mock

import yoke
from yoke import (
    Clash,
    Day,
    Later,
    NoAnswer,
    Refused,
    Server,
    ServerRefused,
    Trouble,
    Usage,
    connect,
    verbs,
)
from yoke.testing.server import TOKEN
from yoke.tests.support import TOP, FolderTest, ServerTest, program

# What a user of the library may write: mypy takes it in its strictest mode, by the types of the
# public names alone.
SAMPLE = '''
from yoke import Clash, Day, Known, Later, News, NoAnswer, Object, Planned, Refused, Sent, Server, Trouble, connect


def night(folder: str, address: str) -> int:
    day: Day = Day(folder, note=print)
    server: Server = connect(address, token_file='token', patience=3600)
    try:
        count: int = day.start('town.opl').counts['nodes']
        made: list[str] = day.run(['node x13 y52 Tnatural=tree']).made
        keys: list[str] = day.tag({'surface': 'asphalt'}, find='way and Thighway=residential')
        left_out: list[tuple[str, str]] = day.import_file('trees.csv', columns=['natural']).left_out
        edits: list[Known] = day.edits()
        mine: list[Object] = [one.mine for one in edits if one.mine is not None]
        plan: Planned = day.plan(at_most=100)
        news: News = day.refresh(server)
        sent: Sent = day.send(server, 'Trees', source='survey', bot=True, refresh_too=True)
        print(count, made, keys, left_out, mine, plan.document(), news.merged, sent.count, sent.changesets, sent.left)
    except Clash as clash:
        print(clash.keys)
    except Later as later:
        return later.wait
    except (NoAnswer, Refused) as trouble:
        return trouble.code
    except Trouble as trouble:
        return trouble.code
    return 0
'''


class Names(unittest.TestCase):
    def test_each_name_is_there_and_documented(self) -> None:
        for name in yoke.__all__:
            found = getattr(yoke, name)
            self.assertTrue(name == 'VERSION' or found.__doc__, name)
        self.assertEqual(sorted(yoke.__all__), dir(yoke))
        with self.assertRaises(AttributeError):
            getattr(yoke, 'nothing')

    def test_each_public_call_of_a_day_is_documented(self) -> None:
        for name, found in vars(Day).items():
            if not name.startswith('_'):
                self.assertTrue(
                    (found.fget if isinstance(found, property) else found).__doc__, name
                )

    def test_what_goes_wrong_has_the_exit_code_of_the_command(self) -> None:
        codes = {
            Trouble: 3,
            Refused: 1,
            Usage: 2,
            Clash: 4,
            NoAnswer: 5,
            ServerRefused: 6,
            yoke.Busy: 7,
            Later: 75,
            yoke.BadLine: 1,
        }
        self.assertEqual(list(codes.values()), [kind.code for kind in codes])

    def test_a_part_loads_without_the_others(self) -> None:
        done = subprocess.run(
            [
                sys.executable,
                '-c',
                'import sys, yoke.opl; print([it for it in sys.modules if it.startswith("yoke.verbs")])',
            ],
            cwd=TOP,
            capture_output=True,
            text=True,
            check=True,
        )
        self.assertEqual('[]\n', done.stdout)

    def test_a_sample_is_taken_by_mypy_in_its_strictest_mode(self) -> None:
        try:
            import mypy  # noqa: F401
        except ImportError:
            self.skipTest('mypy isn\'t installed')
        folder = pathlib.Path(self.enterContext(tempfile.TemporaryDirectory(prefix='yoke-test-')))
        sample = folder / 'sample.py'
        cases = [
            ('', 0),
            ('day: Day = 7\nnumber: str = night("a", "b")\n', 1),
            ('Day("a").send("https://here", "x")\n', 1),
            ('Day("a").gone()\n', 1),
        ]
        for more, code in cases:
            sample.write_text(SAMPLE + '\n\n' + more, encoding='utf-8')
            done = subprocess.run(
                [
                    sys.executable,
                    '-m',
                    'mypy',
                    '--strict',
                    '--follow-imports=silent',
                    '--no-error-summary',
                    '--cache-dir',
                    str(folder / 'cache'),
                    str(sample),
                ],
                cwd=folder,
                env={**os.environ, 'MYPYPATH': str(TOP)},
                capture_output=True,
                text=True,
                check=False,
            )
            self.assertEqual(code, done.returncode, more + done.stdout + done.stderr)


class WholeDay(ServerTest):
    """Days by the public names alone. Nothing of it is written to standard output or the error
    stream.
    """

    def setUp(self) -> None:
        super().setUp()
        self.lines: list[str] = []
        self.night = Day(self.folder / 'night', program(), note=self.lines.append)
        self.api = Server(self.server.api, TOKEN, self.lines.append)
        out, err = io.StringIO(), io.StringIO()
        self.enterContext(contextlib.redirect_stdout(out))
        self.enterContext(contextlib.redirect_stderr(err))
        self.addCleanup(lambda: self.assertEqual(('', ''), (out.getvalue(), err.getvalue())))

    def begin(self, *lines: str, town: str = '') -> None:
        """A day that begins with the town, and with these steps."""
        self.write('town.opl', town or self.town)
        self.night.start('town.opl')
        if lines:
            self.night.run(lines)

    def test_a_whole_day(self) -> None:
        self.write('town.opl', self.town)
        began = self.night.start(self.folder / 'town.opl')
        self.assertEqual(
            (4, 1, 1), (began.counts['nodes'], began.counts['ways'], began.session.number)
        )
        done = self.night.run(
            [
                'node x13.0015 y52 Thighway=crossing as here',
                'way Thighway=footway Nn8,here as path',
                'tag path Tsurface=gravel',
            ]
        )
        self.assertEqual((['n-1', 'w-2'], True, []), (done.made, done.kept, done.refused))
        self.assertEqual(
            ['w5'], self.night.tag({'surface': 'asphalt'}, find='way and Thighway=residential')
        )
        self.assertEqual(['n8'], self.night.tag({'backrest': 'yes'}, keys=['n8']))
        self.write(
            'trees.csv', 'lon,lat,natural,note\n13.0011,52.0002,tree,x\n52.0002,13.0011,tree,y\n'
        )
        found = self.night.import_file(
            'trees.csv', columns=['natural'], within='12.9,51.9,13.1,52.1'
        )
        self.assertEqual(
            (2, 1, 1, ['line 3']),
            (found.read, found.taken, found.nodes, [where for where, _ in found.left_out]),
        )
        self.assertEqual(
            {'n8': 'changed', 'n-1': 'new', 'n-3': 'new', 'w5': 'changed', 'w-2': 'new'},
            {one.key: one.edit for one in self.night.edits()},
        )
        self.assertEqual(['n8'], self.night.find('Tbackrest=yes'))
        bench = self.night.get('n8')
        assert bench is not None and bench.mine is not None and bench.base is not None
        self.assertEqual(
            ({'amenity': 'bench', 'backrest': 'yes'}, {'amenity': 'bench'}),
            (bench.mine.tags, bench.base.tags),
        )
        self.assertIsNone(self.night.get('n99'))
        plan = self.night.plan()
        self.assertEqual(
            ['create', 'create', 'create', 'modify', 'modify'], [verb for verb, _ in plan.changes]
        )
        self.assertIn('<node id="8" version="2" changeset="0"', plan.document())
        self.assertNotIn('upload 200', self.server.answers)
        sent = self.night.send(
            self.api,
            'A path and trees',
            source='survey',
            tags={'hashtags': '#trees'},
            bot=True,
            chunk=2,
        )
        self.assertEqual((5, 1, {}), (sent.count, len(sent.changesets), sent.left))
        self.assertEqual('yes', self.theirs()['n8'].tags['backrest'])
        status = self.night.status()
        self.assertEqual(
            (0, None, None, self.server.api),
            (status.counts['changed'], status.changeset, status.pending, status.server),
        )
        self.assertEqual(
            [sent.changesets[0], 5],
            [self.night.log()[0]['changeset'], self.night.log()[-1]['sent']],
        )
        self.assertEqual(0, self.night.send(self.api, 'Nothing more').count)

    def test_others_and_conflicts(self) -> None:
        self.begin('tag n8 Tbackrest=yes', 'tag w5 Tsurface=asphalt')
        self.server.edit('modify', 'n8', tags={'amenity': 'bench', 'backrest': 'no'})
        self.server.edit('modify', 'w5', tags={'highway': 'residential', 'name': 'Low Street'})
        with self.assertRaises(Clash):
            self.night.send(self.api, 'a test')
        news = self.night.refresh(self.api)
        self.assertEqual(
            (2, ['w5'], ['n8']),
            (news.merged, [one.key for one in news.joined], [one.key for one in news.left]),
        )
        conflict = self.night.conflicts()[0]
        assert conflict.mine is not None and conflict.theirs is not None
        self.assertEqual(
            ('yes', 'no'), (conflict.mine.tags['backrest'], conflict.theirs.tags['backrest'])
        )
        with self.assertRaises(Clash):
            self.night.send(self.api, 'a test')
        part = self.night.send(self.api, 'a test', skip_conflicts=True)
        self.assertEqual((1, [['n8']]), (part.count, list(part.left.values())))
        self.assertEqual(['n8'], self.night.resolve(None, 'mine'))
        self.assertEqual(1, self.night.send(self.api, 'a test', refresh_too=True).count)
        self.assertEqual('yes', self.theirs()['n8'].tags['backrest'])

    def test_what_is_refused_says_what(self) -> None:
        self.begin()
        with self.assertRaises(Refused) as refused:
            self.night.run(['tag n1 Tref=7', 'tag n77 Tref=7'], name='night.script')
        self.assertEqual('nothing is kept: 1 of 2 steps was refused', str(refused.exception))
        self.assertEqual(1, len(refused.exception.details))
        self.assertIn(
            'night.script:2: refused: tag n77 Tref=7: there is no n77', refused.exception.details[0]
        )
        self.assertEqual([], self.night.edits())
        done = self.night.run(['tag n1 Tref=7', 'tag n77 Tref=7'], keep=True)
        self.assertEqual([2], [reply.line for reply in done.refused])
        self.assertEqual(['n1'], [one.key for one in self.night.edits()])
        self.assertEqual('start', self.night.undo().verb)
        with self.assertRaises(yoke.BadLine) as bad:
            self.night.run(['insert n1'])
        self.assertEqual(1, bad.exception.line)
        self.write('trees.csv', 'lon,lat,natural\n13.0011,52.0002,tree\n')
        with self.assertRaises(Refused) as unnamed:
            self.night.import_file('trees.csv')
        self.assertEqual(
            ['column natural  tree  (1 different, in 1 rows)'], unnamed.exception.details
        )
        for fault in (
            lambda: self.night.import_file('trees.csv', columns=['natural'], colour=7),
            lambda: self.night.tag({'a': 'b'}),
            lambda: self.night.send(self.api, ' '),
            lambda: self.night.send(Server(self.server.api), 'a test'),
            lambda: self.night.send(self.api, 'a test', chunk=0),
            lambda: self.night.send(self.api, 'a test', max_extent='wide'),
        ):
            self.assertRaises(Usage, fault)

    def test_what_stands_there_already(self) -> None:
        self.begin('node x13.0020001 y52.001 Tamenity=bench')
        found = self.night.candidates(self.api)
        self.assertEqual([('n-1', 'n8')], [(one.key, one.there.key) for one in found])
        with self.assertRaises(Refused) as refused:
            self.night.send(self.api, 'a test')
        self.assertTrue(
            refused.exception.details[0].startswith('n-1 may be n8'), refused.exception.details
        )
        self.assertEqual(1, self.night.send(self.api, 'a test', unseen=True).count)

    def test_an_answer_that_is_lost(self) -> None:
        self.begin('node x13.5 y52 Tnatural=tree')
        self.server.faults.once('drop-after', 'upload')
        self.server.faults.by_chance('500-before', 1.0, 0, 'download')
        with self.assertRaises(NoAnswer):
            self.night.send(self.api, 'a test')
        self.assertEqual('000002.osc', self.night.status().pending)
        with self.assertRaises(NoAnswer):
            self.night.run(['tag n1 Tref=7'])
        self.server.faults.clear()
        self.night.send(self.api, 'a test')
        self.assertEqual(
            (0, None), (self.night.status().counts['changed'], self.night.status().pending)
        )
        self.assertEqual(1, sum(one.tags == {'natural': 'tree'} for one in self.server.elements()))

    def test_a_server_takes_the_token_that_the_command_would(self) -> None:
        self.assertEqual(
            (self.server.api, TOKEN, 900),
            (
                connect(self.server.api).address,
                connect(self.server.api).token,
                connect(self.server.api).patience,
            ),
        )
        (self.folder / 'token').write_text('another\n', encoding='ascii')
        (self.folder / 'token').chmod(0o600)
        self.assertEqual('another', connect(self.server.api, token_file='token').token)
        self.assertNotIn('another', repr(connect(self.server.api, token_file='token')))
        with mock.patch.dict(os.environ, {'YOKE_TOKEN': '', 'XDG_STATE_HOME': str(self.folder)}):
            self.assertRaises(Usage, connect, self.server.api)
            self.assertEqual('', connect(self.server.api, writes=False).token)
        self.assertRaises(Usage, connect, 'http://example.org/api/0.6')

    def test_the_command_and_the_library_go_on_from_each_other(self) -> None:
        self.begin('tag n1 Tref=7')
        self.assertEqual(0, self.yoke('do', '--day', 'night', str(self._script('tag n2 Tref=8\n'))))
        self.assertEqual(['n1', 'n2'], [one.key for one in self.night.edits()])
        self.night.tag({'ref': '9'}, keys=['n3'])
        self.assertEqual(0, self.yoke('status', '--day', 'night'))
        self.assertIn('3 edited', self.out)

    def _script(self, text: str) -> pathlib.Path:
        self.write('more.script', text)
        return self.folder / 'more.script'


class SamePath(FolderTest):
    def test_verbs_and_library_call_the_same_functions(self) -> None:
        """Each function by which the library works is one that a verb's `run` calls."""
        text = pathlib.Path(TOP, 'yoke', 'library.py').read_text(encoding='utf-8')
        for name, function in (
            ('start', 'begin'),
            ('do', 'over'),
            ('tag', 'steps'),
            ('import', 'into'),
            ('undo', 'take_back'),
            ('refresh', 'bring'),
            ('resolve', 'settle'),
            ('send', 'deliver'),
            ('conflicts', 'of_session'),
            ('diff', 'edited'),
        ):
            verb = verbs.load(name)
            module = verb.__name__.rpartition('.')[2]
            self.assertIn(function, verb.run.__code__.co_names, name)
            self.assertRegex(text, rf'\b{module}\.{function}\(')


if __name__ == '__main__':
    unittest.main()
