"""What is kept, for whom, and when it is believed."""
import os
import pathlib
import tempfile
import unittest
from unittest import mock

from launcher import store
from launcher.messages import Stop


class Kept(unittest.TestCase):
    def setUp(self):
        holder = tempfile.TemporaryDirectory()
        self.addCleanup(holder.cleanup)
        self.top = pathlib.Path(holder.name)
        self.store = store.Store(str(self.top / 'cache' / 'yokeorange'))

    def build(self, name, text='bytes'):
        folder = pathlib.Path(self.store.part(name))
        folder.mkdir()
        (folder / 'checked.a').write_text(text)


class Folder(Kept):
    def test_its_place(self):
        with mock.patch.dict(os.environ, {'XDG_CACHE_HOME': '/a', 'HOME': '/b'}):
            self.assertEqual('/a/yokeorange', store.default_folder())
        for value in ('', 'not/absolute'):
            with mock.patch.dict(os.environ, {'XDG_CACHE_HOME': value, 'HOME': '/b'}):
                self.assertEqual('/b/.cache/yokeorange', store.default_folder())

    def test_its_mode(self):
        self.store.make(str(self.top / 'home'))
        self.assertEqual(0o700, os.stat(self.store.folder).st_mode & 0o777)

    def refused(self):
        with self.assertRaises(Stop) as why:
            store.Store(self.store.folder).make(str(self.top / 'home'))
        return str(why.exception)

    def test_of_another_user(self):
        self.store.make(str(self.top / 'home'))
        with mock.patch('os.geteuid', return_value=os.geteuid() + 1):
            self.assertIn('belongs to', self.refused())

    def test_open_to_others(self):
        self.store.make(str(self.top / 'home'))
        for mode in (0o701, 0o770, 0o755, 0o702):
            os.chmod(self.store.folder, mode)
            self.assertIn('chmod 700', self.refused())

    def test_a_link_or_a_file(self):
        (self.top / 'cache').mkdir()
        (self.top / 'elsewhere').mkdir()
        os.symlink(self.top / 'elsewhere', self.store.folder)
        self.assertIn('is no folder', self.refused())
        os.unlink(self.store.folder)
        pathlib.Path(self.store.folder).write_text('')
        self.assertIn('is no folder', self.refused())

    def test_in_the_checkout(self):
        with self.assertRaises(Stop):
            store.Store(str(self.top / 'home' / 'yokeorange')).make(str(self.top / 'home'))


class Libraries(Kept):
    def setUp(self):
        super().setUp()
        self.store.make(str(self.top / 'home'))
        self.build('low')
        self.store.keep('low', 'key', 'a verdict')

    def test_kept(self):
        self.assertEqual('a verdict', self.store.verdict_of('low', 'key'))
        self.assertEqual(['low'], self.store.names())
        self.assertFalse(os.path.exists(self.store.part('low')))

    def test_another_key(self):
        self.assertIsNone(self.store.verdict_of('low', 'another'))

    def test_other_bytes_or_other_files(self):
        file = pathlib.Path(self.store.rlib('low'), 'checked.a')
        file.write_text('other')
        self.assertIsNone(self.store.verdict_of('low', 'key'))
        file.write_text('bytes')
        self.assertEqual('a verdict', self.store.verdict_of('low', 'key'))
        file.with_name('more').write_text('')
        self.assertIsNone(self.store.verdict_of('low', 'key'))
        file.with_name('more').unlink()
        file.rename(file.with_name('renamed'))
        self.assertIsNone(self.store.verdict_of('low', 'key'))

    def test_a_link_in_it(self):
        file = pathlib.Path(self.store.rlib('low'), 'checked.a')
        file.rename(self.top / 'checked.a')
        os.symlink(self.top / 'checked.a', file)
        self.assertIsNone(self.store.verdict_of('low', 'key'))

    def test_without_a_whole_record(self):
        path = pathlib.Path(self.store.record('low'))
        for text in ('', '{', '[]', '{}', '{"key": "key"}'):
            path.write_text(text)
            self.assertIsNone(self.store.verdict_of('low', 'key'))
        path.unlink()
        self.assertIsNone(self.store.verdict_of('low', 'key'))
        self.assertEqual(['low'], self.store.names())

    def test_a_record_without_its_library(self):
        store.remove(self.store.rlib('low'))
        self.assertIsNone(self.store.verdict_of('low', 'key'))

    def test_kept_again(self):
        self.build('low', 'newer')
        self.store.keep('low', 'newer key', 'another verdict')
        self.assertEqual('another verdict', self.store.verdict_of('low', 'newer key'))
        self.assertIsNone(self.store.verdict_of('low', 'key'))

    def test_a_record_is_whole_or_not_there(self):
        path = str(self.top / 'record')
        store.write_whole(path, 'one')
        with mock.patch('os.replace', side_effect=OSError), self.assertRaises(OSError):
            store.write_whole(path, 'two')
        self.assertEqual('one', pathlib.Path(path).read_text())
        self.assertEqual(['cache', 'record'], sorted(os.listdir(self.top)))


class Programs(Kept):
    def setUp(self):
        super().setUp()
        self.assertIsNone(self.store.program('sources', None))
        self.store.make(str(self.top / 'home'))

    def keep(self, key, sources='sources', toolkit='a kit'):
        part = pathlib.Path(self.store.path('part', 'program'))
        part.write_text(key)
        record = {
            'key': key,
            'sources': sources,
            'toolkit': toolkit,
            'sha256': store.keys.of_file(str(part)),
        }
        return self.store.keep_program(str(part), record)

    def test_of_these_sources_by_this_toolkit(self):
        path = self.keep('1')
        self.assertEqual(path, self.store.program('sources', 'a kit')[0])
        self.assertEqual(path, self.store.program('sources', None)[0])
        self.assertIsNone(self.store.program('sources', 'another kit'))
        self.assertIsNone(self.store.program('other sources', 'a kit'))

    def test_other_bytes(self):
        pathlib.Path(self.keep('1')).write_text('forged')
        self.assertIsNone(self.store.program('sources', 'a kit'))

    def test_the_newest_few_stay(self):
        for at in range(6):
            os.utime(os.path.dirname(self.keep(str(at), 'sources ' + str(at))), (at, at))
        self.keep('last', 'last sources')
        self.assertEqual(store.PROGRAMS_KEPT, len(os.listdir(self.store.path('programs'))))
        self.assertTrue(self.store.program('last sources', 'a kit'))
        self.assertIsNone(self.store.program('sources 0', 'a kit'))


class Lock(Kept):
    def test_one_after_the_other(self):
        self.store.make(str(self.top / 'home'))
        with self.store.lock('first', self.fail):
            waits = []

            class Waits(Exception):
                pass

            def wait(other):
                waits.append(other)
                raise Waits

            with self.assertRaises(Waits), self.store.lock('second', wait):
                self.fail('two had it')
            self.assertEqual(['first'], waits)
        with self.store.lock('third', self.fail):
            pass


if __name__ == '__main__':
    unittest.main()
