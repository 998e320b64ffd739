"""Scripts that are for one session alone."""

from yoke.scripts import bound
from yoke.tests.support import FolderTest
from yoke.trouble import Refused, Trouble


class Bound(FolderTest):
    """A script that a command made from a session runs over that session, and over no other."""

    def setUp(self) -> None:
        super().setUp()
        self.begin()

    def test_over_its_own_session(self) -> None:
        self.assertEqual(
            self.done('tag', 'a=b', '--keys', 'n1,w5', '--to', 'a.script'),
            'wrote a.script: yoke do a.script tags\n',
        )
        self.assertEqual(self.day.last().number, 1)
        self.done('do', 'a.script')
        self.assertEqual(self.session.known()['w5'].mine.tags['a'], 'b')

    def test_over_another_session_it_is_refused_unless_somebody_insists(self) -> None:
        self.done('tag', 'a=b', '--find', 'way', '--to', 'a.script')
        self.do('tag n8 Tref=7')
        self.assertEqual(Refused.code, self.yoke('do', 'a.script'))
        self.assertIn(
            'a.script:1: this script was made from the session 000001-start of day, and '
            'the session now is 000002-do',
            self.err,
        )
        self.assertEqual(self.day.last().number, 2)
        self.done('do', '--any-session', 'a.script')
        self.assertEqual(self.session.known()['w5'].mine.tags['a'], 'b')

    def test_after_undo_it_is_the_same_session(self) -> None:
        self.done('tag', 'a=b', '--find', 'way', '--to', 'a.script')
        self.do('tag n8 Tref=7')
        self.done('undo')
        self.done('do', 'a.script')

    def test_each_such_line_of_a_script_counts(self) -> None:
        self.done('tag', 'a=b', '--find', 'way', '--to', 'a.script')
        self.write('b.script', 'tag n8 Tref=7\n# for session 0000000000000000\ntag n1 Tref=8\n')
        self.assertEqual(Refused.code, self.yoke('do', 'b.script'))
        self.assertIn('b.script:2: this script was made from the session another one', self.err)
        self.write(
            'c.script',
            '# for session, as I remember\n#for session 0000000000000000\ntag n8 Tref=7\n',
        )
        self.done('do', 'c.script')

    def test_a_table_and_an_expanded_script(self) -> None:
        self.write('a.csv', 'key,surface\nw5,gravel\n')
        self.done('tag', '--csv', 'a.csv', '--columns', 'surface', '--to', 'a.script')
        self.write('b.script', 'tag ( way ) Tlit=yes\n')
        expanded = self.done('expand', '--session', 'b.script')
        self.write('c.script', expanded)
        self.done('do', 'a.script')
        self.assertEqual(self.session.known()['w5'].mine.tags['surface'], 'gravel')
        self.assertEqual(Refused.code, self.yoke('do', 'c.script'))

    def test_a_file_that_was_written_with_it(self) -> None:
        self.write('new.opl', 'n-1 Tamenity=bench x13.5 y52\n')
        line = bound.with_file('new.opl', (self.folder / 'new.opl').read_text(encoding='utf-8'))
        self.write('a.script', line + '\nimport new.opl\n')
        self.write('new.opl', 'n-1 Tamenity=bench x13.6 y52\n')
        self.assertEqual(Refused.code, self.yoke('do', 'a.script'))
        self.assertIn('a.script:1: new.opl is not the file', self.err)
        (self.folder / 'new.opl').rename('other.opl')
        self.assertEqual(Refused.code, self.yoke('do', 'a.script'))
        self.assertIn('a.script:1: the script reads new.opl, which is not in', self.err)
        self.write('new.opl', 'n-1 Tamenity=bench x13.5 y52\n')
        self.done('do', 'a.script')

    def test_no_other_file_is_overwritten(self) -> None:
        self.write('notes.txt', 'mine\n')
        self.assertEqual(
            Refused.code, self.yoke('tag', 'a=b', '--find', 'way', '--to', 'notes.txt')
        )
        self.assertEqual((self.folder / 'notes.txt').read_text(encoding='utf-8'), 'mine\n')
        self.done('tag', 'a=b', '--find', 'way', '--to', 'notes.txt', '--force')
        self.done('tag', 'a=c', '--find', 'way', '--to', 'notes.txt')
        self.assertEqual(Trouble.code, self.yoke('tag', 'a=b', '--find', 'way', '--to', 'day'))
