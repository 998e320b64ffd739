"""The folder of a day."""
import os
import pathlib
import subprocess
import sys
import tempfile
import unittest
from unittest import mock

from yoke import day as days
from yoke.day import BACK, LAST, Day, write_whole
from yoke.trouble import Busy, Refused, Trouble


class DayTest(unittest.TestCase):
    def setUp(self):
        holder = tempfile.TemporaryDirectory(prefix='yoke-test-')
        self.addCleanup(holder.cleanup)
        self.folder = pathlib.Path(holder.name)
        self.day = Day(self.folder)

    def names(self, ending='saved'):
        return sorted(path.name for path in self.folder.glob('*.' + ending))


class Files(DayTest):
    def test_a_file_appears_whole_and_the_folder_is_synced_after_it(self):
        done = []
        fsync, replace = os.fsync, os.replace

        def synced(handle):
            done.append('folder' if os.path.isdir(f'/proc/self/fd/{handle}') else 'file')
            fsync(handle)

        def replaced(old, new):
            done.append('name')
            self.assertEqual('text\n', pathlib.Path(old).read_text())
            replace(old, new)

        with mock.patch('os.fsync', synced), mock.patch('os.replace', replaced):
            write_whole(self.folder / 'a', 'text\n')
        self.assertEqual(['file', 'name', 'folder'], done)
        self.assertEqual(['a'], os.listdir(self.folder))

    def test_a_full_disk_leaves_what_was_there(self):
        write_whole(self.folder / 'a', 'old\n')
        with mock.patch('os.fsync', side_effect=OSError(28, 'No space left on device')):
            with self.assertRaises(OSError):
                write_whole(self.folder / 'a', 'new\n')
        self.assertEqual('old\n', (self.folder / 'a').read_text())
        self.assertEqual(['a'], os.listdir(self.folder))

    def test_no_other_file_is_touched(self):
        (self.folder / 'a.new').write_text('another\n')
        write_whole(self.folder / 'a', 'text\n')
        self.assertEqual('another\n', (self.folder / 'a.new').read_text())

    def test_a_file_that_is_removed_or_renamed_is_so_on_the_disk(self):
        self.day.write('a', 'x')
        with mock.patch('yoke.day.sync_folder') as synced:
            self.day.rename('a', 'b')
            self.day.remove('b')
            self.day.remove('b')
        self.assertEqual(3, synced.call_count)
        self.assertIsNone(self.day.read('b'))


class Sessions(DayTest):
    def test_none(self):
        with self.assertRaisesRegex(Trouble, 'yoke start'):
            self.day.last()
        with self.assertRaises(Refused):
            self.day.take_back()
        self.assertIsNone(self.day.pending())

    def test_the_highest_number_is_the_session(self):
        for verb in ('start', 'do', 'add-member'):
            self.day.keep(verb, verb)
        self.assertEqual(
            (3, 'add-member', 'add-member'),
            (self.day.last().number, self.day.last().verb, self.day.last().text()),
        )
        (self.folder / '000004-do.saved.new').write_text('half')
        (self.folder / 'notes.saved').write_text('')
        self.assertEqual(3, self.day.last().number)

    def test_a_number_is_never_used_again(self):
        for verb in ('start', 'do', 'do'):
            self.day.keep(verb, '')
        self.assertEqual(3, self.day.take_back().number)
        self.assertEqual(4, self.day.keep('do', '').number)
        self.assertEqual(['000003-do.undone'], self.names('undone'))
        self.assertEqual([4, 2], [self.day.take_back().number, self.day.take_back().number])
        with self.assertRaisesRegex(Refused, 'the first'):
            self.day.take_back()

    def test_what_was_sent_is_not_taken_back(self):
        for verb in ('start', 'do', 'send', 'do'):
            self.day.keep(verb, '')
        self.day.take_back()
        with self.assertRaisesRegex(Refused, 'the server took'):
            self.day.take_back()

    def test_a_document_that_is_out_belongs_to_the_last_session(self):
        for verb in ('start', 'do'):
            self.day.keep(verb, '')
        self.day.write(self.day.beside(self.day.last(), 'osc'), '')
        self.assertEqual('000002.osc', self.day.pending())
        with self.assertRaisesRegex(Refused, 'yoke send'):
            self.day.take_back()
        self.day.keep('send', '')
        self.assertIsNone(self.day.pending())

    def test_how_many_are_kept(self):
        self.day.keep('start', '')
        for _ in range(50):
            self.day.keep('do', '')
        self.assertEqual(
            [1] + list(range(52 - BACK, 52)), [state.number for state in self.day.states()]
        )
        for _ in range(10):
            self.day.write(self.day.beside(self.day.last(), 'answers'), '')
            self.day.keep('send', '')
        self.assertEqual(
            [1] + list(range(62 - LAST, 62)), [state.number for state in self.day.states()]
        )
        self.assertEqual(10, len(self.names('answers')))
        self.day.keep('do', '')
        self.day.keep('do', '')
        self.day.keep('do', '')
        self.assertEqual([1, 61, 62, 63, 64], [state.number for state in self.day.states()])
        self.assertEqual('send', self.day.states()[1].verb)

    def test_nothing_goes_back_beyond_what_is_kept(self):
        for verbs in (['start'] + ['do'] * 30, ['start', 'import', 'send'] + ['do'] * BACK):
            with self.subTest(len(verbs)):
                self.setUp()
                for verb in verbs:
                    self.day.keep(verb, '')
                for _ in range(BACK - 1):
                    self.day.take_back()
                with self.assertRaisesRegex(Refused, 'no longer kept'):
                    self.day.take_back()
                self.day.keep('do', '')
                self.day.take_back()

    def test_what_was_undone_is_kept_a_while(self):
        self.day.keep('start', '')
        for _ in range(10):
            self.day.keep('do', '')
            self.day.take_back()
        self.day.keep('do', '')
        self.assertEqual(LAST, len(self.names('undone')))


class Locks(DayTest):
    def test_one_at_a_time_and_the_lock_goes_with_its_process(self):
        script = 'import sys, time; from yoke.day import Day\nwith Day(sys.argv[1]).locked(): print("held", flush=True); time.sleep(60)'
        with subprocess.Popen(
            [sys.executable, '-c', script, str(self.folder)],
            stdout=subprocess.PIPE,
            text=True,
            env=dict(os.environ, PYTHONPATH=str(pathlib.Path(days.__file__).parent.parent)),
        ) as other:
            self.assertEqual('held\n', other.stdout.readline())
            with self.assertRaises(Busy), self.day.locked():
                pass
            other.kill()
        with self.day.locked():
            pass

    def test_what_a_stopped_one_left_half_written_goes(self):
        for name in (
            '000001-start.saved',
            '000002.osc',
            '000002.answers',
            'changeset',
            'server',
            'forgotten',
            'josm-1-ab12.start',
            'refresh',
        ):
            (self.folder / (name + '.new')).write_text('half')
        (self.folder / 'bench.opl.new').write_text('the user\'s')
        with self.day.locked():
            self.assertEqual(['bench.opl.new', 'lock'], sorted(os.listdir(self.folder)))

    def test_a_lock_that_the_disk_does_not_have(self):
        with mock.patch('fcntl.flock', side_effect=OSError(37, 'No locks available')):
            with self.assertRaisesRegex(OSError, 'No locks'), self.day.locked():
                pass

    def test_no_folder(self):
        with self.assertRaisesRegex(Trouble, 'yoke start'), Day(self.folder / 'none').locked():
            pass
        with mock.patch('yoke.day.sync_folder') as synced, Day(self.folder / 'new' / 'one').locked(
            make=True
        ):
            self.assertEqual(
                [mock.call(self.folder / 'new'), mock.call(self.folder)], synced.call_args_list
            )
            self.assertTrue((self.folder / 'new' / 'one').is_dir())


if __name__ == '__main__':
    unittest.main()
