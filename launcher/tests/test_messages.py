"""What is said, which words are read, and what a look gives to rt try."""
import os
import pathlib
import tempfile
import unittest
from unittest import mock

from launcher import look, machine, measure, programs, toolkit, words
from launcher.messages import Stop, count, end_of, gigabytes, minutes, stopped_by


class Texts(unittest.TestCase):
    def test_numbers(self):
        self.assertEqual('1 minute', count(1, 'minute'))
        self.assertEqual('0 minutes', count(0, 'minute'))
        self.assertEqual('less than a minute', minutes(20))
        self.assertEqual('about 1 minute', minutes(61))
        self.assertEqual('about 25 minutes', minutes(25 * 60 + 10))
        self.assertEqual('4.1 GB', gigabytes(4.06e9))

    def test_stopped_is_not_failed(self):
        text = stopped_by('the proof of low', 9, 4, 2.5e9)
        self.assertIn('stopped by signal 9: out of memory? 2.5 GB were free when it began', text)
        self.assertIn('run with fewer jobs: JOBS=1 ./editor', text)
        alone = stopped_by('the proof of low', 9, 1, 2.5e9)
        self.assertNotIn('JOBS', alone)
        self.assertIn('close other programs', alone)
        other = stopped_by('the proof of low', 15, 4, 2.5e9)
        self.assertIn('stopped by signal 15', other)
        self.assertNotIn('memory', other)
        for it in (text, alone, other):
            self.assertNotIn('fail', it)

    def test_end_of_a_log(self):
        with tempfile.NamedTemporaryFile('w') as file:
            file.write(''.join(f'{at}\n' for at in range(30)))
            file.flush()
            self.assertEqual('    28\n    29\n', end_of(file.name, 2))
        self.assertIn('can\'t be read', end_of('/nowhere/log'))


class Words(unittest.TestCase):
    def test_the_launchers_own(self):
        for given, action in (
            ([], 'brief'),
            (['-h'], 'help'),
            (['--help'], 'help'),
            (['--version'], 'version'),
            (['--prove'], 'prove'),
            (['--look', 'a'], 'look'),
            (['a'], 'run'),
            (['--', '--help'], 'run'),
            (['a', '--help'], 'run'),
            (['--max-file', '7', 'a'], 'run'),
        ):
            self.assertEqual(action, words.read(given).action, given)
        self.assertEqual(
            {'keeps': True, 'measures': True}, words.read(['--prove', '--measure', '--keep']).flags
        )
        self.assertEqual({'anyway': True}, words.read(['--anyway', '--prove']).flags)

    def test_what_goes_with_prove_alone(self):
        for given in (['--keep'], ['--keep', 'a'], ['--prove', 'a'], ['--anyway', 'a']):
            with self.assertRaises(Stop):
                words.read(given)

    def test_the_script(self):
        for given in (
            ['a'],
            ['--max-objects', '3', 'a'],
            ['a', '--max-file=3'],
            ['--', 'a'],
            ['--max-file', '3', '--', 'a'],
        ):
            self.assertEqual('a', words.script_in(given), given)
        self.assertEqual('-x', words.script_in(['--', '-x']))
        self.assertEqual('-', words.script_in(['-']))
        for given in ([], ['a', 'b'], ['-x'], ['--help', 'a'], ['--max-objects', 'a'], ['--']):
            with self.assertRaises(Stop, msg=given):
                words.script_in(given)

    def test_jobs(self):
        for value, wanted in (('', 0), ('1', 1), ('16', 16)):
            with mock.patch.dict(os.environ, {'JOBS': value}):
                self.assertEqual(wanted, words.jobs_wanted())
        for value in ('0', '-1', 'two', '1.5', ' 1'):
            with mock.patch.dict(os.environ, {'JOBS': value}), self.assertRaises(Stop):
                words.jobs_wanted()


class Looks(unittest.TestCase):
    def test_names_in_a_script(self):
        script = (
            'download town.opl B1,2,3,4\n# download no.opl\nimport a%20%b.opl\ntag n1 Tx=y\nconfirm r\nresume s\nserve t\n'
            'download town.opl\n'
        )
        self.assertEqual(['town.opl', 'a b.opl', 'r', 's', 't'], look.names_in(script))

    def test_names_that_can_be_given(self):
        for name in ('a', 'a/b', 'a b', '..a', '-'):
            self.assertTrue(look.can_be_given(name), name)
        for name in (
            '',
            '/a',
            '../a',
            '..',
            './a',
            'a/../b',
            'a=b',
            'stdin',
            'stdout/a',
            'program',
        ):
            self.assertFalse(look.can_be_given(name), name)

    def test_a_file_that_is_not_there_is_not_given(self):
        with tempfile.TemporaryDirectory() as folder:
            pathlib.Path(folder, 'a').write_text('')
            self.assertEqual(['--data', f'a={folder}/a'], look.given(['a', 'b'], folder))

    def test_how_a_try_ends(self):
        good = 'checked: ended\nrun=ended status={} runners=1 proved=no\n'
        with mock.patch('launcher.look.say') as said, mock.patch('sys.stderr'):
            self.assertEqual(0, look.told(0, good.format(0)))
            self.assertIn('nothing of it is proved', said.call_args[0][0])
            self.assertEqual(4, look.told(4, 'editor: bad script line 1\n' + good.format(4)))
            self.assertIn('nothing of it is proved', said.call_args[0][0])
            self.assertEqual(6, look.told(6, 'run=no-answer proved=no\n'))
            self.assertIn('more than 60 seconds', said.call_args[0][0])
            self.assertEqual(1, look.told(-9, ''))
            self.assertIn('stopped by signal 9', said.call_args[0][0])
            self.assertEqual(1, look.told(0, ''))
            self.assertIn('no answer without a proof', said.call_args[0][0])


class Toolkits(unittest.TestCase):
    def setUp(self):
        holder = tempfile.TemporaryDirectory()
        self.addCleanup(holder.cleanup)
        self.home, self.kit = pathlib.Path(holder.name, 'home'), pathlib.Path(holder.name, 'kit')
        self.home.mkdir()
        (self.home / 'TOOLKIT').write_text('rattle-kit-13f logic dac8208d650f15bf\n')
        for part in toolkit.PARTS:
            (self.kit / part).parent.mkdir(parents=True, exist_ok=True)
            (self.kit / part).write_text('')
        self.rattle(' '.join(toolkit.WORDS))

    def rattle(self, text):
        path = self.kit / 'bin/rattle'
        path.write_text(f'#!/bin/sh\necho "{text}"\n')
        path.chmod(0o755)

    def misfits(self, line='kit logic dac8208d650f15bf', folder=None):
        return toolkit.misfits(
            toolkit.Toolkit(str(self.kit) if folder is None else folder, line, ''), str(self.home)
        )

    def test_one_that_fits(self):
        self.assertEqual([], self.misfits())

    def test_others(self):
        self.assertIn('names no page', self.misfits(folder='')[0])
        self.assertIn(
            'its logic is 0123, and TOOLKIT names dac8208d650f15bf',
            self.misfits('kit logic 0123')[0],
        )
        self.assertIn('not told', self.misfits('kit')[0])
        self.rattle('--extern')
        self.assertIn('its rattle build has no --statements', self.misfits())
        for part in toolkit.PARTS:
            (self.kit / part).unlink()
            self.assertIn('it has no ' + part, self.misfits())
            (self.kit / part).write_text('')


class Releases(unittest.TestCase):
    def setUp(self):
        holder = tempfile.TemporaryDirectory()
        self.addCleanup(holder.cleanup)
        self.home = pathlib.Path(holder.name)

    def test_read(self):
        release = programs.Release(
            '0.1.0', 'c' * 40, 'a' * 64, 'b' * 64, 'a kit', '4 passed, 0 failed', 'two'
        )
        self.assertEqual(release, programs.read_release(release.proved_text()))
        for text in (
            '',
            'commit: x\n',
            'sha256: {}\n'.format('a' * 63),
            'sha256: {}\n'.format('A' * 64),
            'sha256: ' + 'a' * 65,
        ):
            self.assertIsNone(programs.read_release(text), text)
        self.assertIsNone(programs.release_of(str(self.home)))

    def test_beside(self):
        program = self.home / 'yokeorange'
        self.assertEqual((None, ''), programs.beside(str(self.home), None))
        program.write_text('x')
        self.assertIsNone(programs.beside(str(self.home), None)[0])
        release = programs.Release(commit='c', sha256=programs.keys.of_file(str(program)))
        self.assertIn('may not be run', programs.beside(str(self.home), release)[1])
        program.chmod(0o755)
        self.assertEqual(
            (str(program), 'running the released program of commit c'),
            programs.beside(str(self.home), release),
        )
        program.write_text('y')
        self.assertIsNone(programs.beside(str(self.home), release)[0])

    def test_a_plain_one_is_told_apart(self):
        program = self.home / 'yokeorange'
        program.write_text('x')
        program.chmod(0o755)
        found = programs.keys.of_file(str(program))
        for name in ('plain-sha256', 'plain-static-sha256'):
            release = programs.read_release(f'{name}: {found}\nplain-commit: d\nplain-sources: b\n')
            self.assertTrue(release.is_plain(found))
            path, said = programs.beside(str(self.home), release)
            self.assertEqual(str(program), path)
            self.assertIn('plain build of commit d, of which nothing is proved', said)
            self.assertEqual('', programs.said_of(release, 'b', True))
            self.assertIn('the sources here are others', programs.said_of(release, 'c', True))
        release = programs.Release(sha256=found, plain_sha256='a' * 64)
        self.assertFalse(release.is_plain(found))
        self.assertIn('the released program of commit', programs.beside(str(self.home), release)[1])

    def test_other_sources(self):
        release = programs.Release(sha256='a' * 64, sources='b')
        self.assertEqual('', programs.said_of(release, 'b'))
        self.assertIn('--prove', programs.said_of(release, 'c'))


class Machines(unittest.TestCase):
    def test_limits_of_a_control_group(self):
        with tempfile.TemporaryDirectory() as folder:
            for name, text in (
                ('cpu', '150000 100000\n'),
                ('max', '2000000000\n'),
                ('stat', 'anon 500000000\nfile 7\n'),
            ):
                pathlib.Path(folder, name).write_text(text)
            files = {'MEMORY_LIMIT': folder + '/max', 'MEMORY_HELD': folder + '/stat'}
            with mock.patch.multiple(machine, CPU_LIMIT=folder + '/cpu', **files):
                self.assertEqual(1, machine.processors())
                self.assertLessEqual(machine.free_memory(), 1_500_000_000)
            pathlib.Path(folder, 'max').write_text('max\n')
            with mock.patch.multiple(machine, CPU_LIMIT=folder + '/none', **files):
                self.assertEqual(len(os.sched_getaffinity(0)), machine.processors())
                self.assertGreater(machine.free_memory(), 0)

    def test_a_process_holds_memory(self):
        self.assertIn(os.getpid(), measure.processes(os.getpgrp()))
        self.assertGreater(measure.memory_of(os.getpid()), 1_000_000)
        self.assertEqual(0, measure.memory_of(999_999_999))


if __name__ == '__main__':
    unittest.main()
