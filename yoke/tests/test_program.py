"""How the program is run, and what is read of what it writes."""
import argparse
import io
import os
import pathlib
import tempfile
import unittest
from unittest import mock

from yoke import saved
from yoke.program import Answer, BadLine, Program
from yoke.tests.support import TOP, program
from yoke.trouble import Trouble

OUTPUT = '''1 ok
2 ok n-1,w-2
4 refused 5 n1 w5
5 skipped
6 ok
session 1 1
session end
7 ok
upload changes 3 chunks 2
chunk 1 of 2
create n-1 v0 dV c0 t i0 u T x13.004 y52
delete n8 v2
chunk 2 of 2
modify w5 v4 dV c0 t i0 u T Nn1,n2
8 ok
count nodes 4 ways 1 relations 0 incomplete 0 deleted 0 changed 2 conflicts 1
9 ok
found 2
n1
w5
'''
LINES = [
    'download a',
    'import b',
    '# nothing',
    'delete n1',
    'end',
    'save',
    'upload 2',
    'count',
    'find changed',
]


class Answers(unittest.TestCase):
    def setUp(self):
        self.answer = Answer(OUTPUT, LINES)

    def test_replies_with_their_steps(self):
        self.assertEqual([1, 2, 4, 5, 6, 7, 8, 9], [reply.line for reply in self.answer.replies])
        self.assertEqual(['n-1', 'w-2'], self.answer.replies[1].made())
        (refused,) = self.answer.refused()
        self.assertEqual(
            ('delete n1', 'delete', 5, '5 n1 w5', []),
            (refused.step, refused.verb, refused.number, refused.rest, refused.made()),
        )

    def test_what_steps_wrote(self):
        self.assertEqual('session 1 1\nsession end\n', self.answer.saved())
        self.assertEqual(
            (1, 2), (self.answer.counts()['conflicts'], self.answer.counts()['changed'])
        )
        self.assertEqual(['n1', 'w5'], self.answer.found())
        self.assertEqual(3, self.answer.upload_size())
        self.assertEqual(
            [('create', 'n-1'), ('delete', 'n8')],
            [(verb, thing.key) for verb, thing in self.answer.first_chunk()],
        )

    def test_what_is_cut_off(self):
        for end in ('session end\n', 'modify w5 v4 dV c0 t i0 u T Nn1,n2\n'):
            answer = Answer(OUTPUT.replace(end, ''), LINES)
            with self.assertRaises(Trouble):
                (answer.saved if end[0] == 's' else answer.first_chunk)()
        with self.assertRaises(Trouble):
            Answer('1 refused 19\n', ['save']).saved()

    def test_nothing_to_send_and_an_upload_that_was_refused(self):
        self.assertEqual(
            [], Answer('1 ok\nupload changes 0 chunks 0\n', ['upload 2']).first_chunk()
        )
        self.assertEqual([], Answer('1 refused 23 1 n8\n', ['upload 2']).first_chunk())


class Running(unittest.TestCase):
    def fake(self, text):
        """A program of a few lines of sh."""
        holder = tempfile.TemporaryDirectory(prefix='yoke-test-')
        self.addCleanup(holder.cleanup)
        path = pathlib.Path(holder.name) / 'fake'
        path.write_text('#!/bin/sh\n' + text)
        path.chmod(0o755)
        return Program(str(path))

    def test_the_real_words_of_its_command_line(self):
        one = self.fake('for word; do echo "$word"; done >&2; cat "$3" >&2; exit 8\n')
        with self.assertRaisesRegex(
            Trouble, r'(?s)--max-file=1073741824\n--max-objects=7\n.*script\ncount'
        ):
            Program(one.path, 7).run(['count'])

    def test_a_session_is_saved_into_a_file(self):
        replies = 'printf "1 ok n-1\\n2 ok\\ncount nodes 1\\n'
        whole = '3 ok\\nsession 1 2\\nsession end\\n"'
        file = io.BytesIO()
        answer = self.fake(replies + whole).save(
            ['node x1 y1 T', 'count'], lambda answer: file if answer.replies[0].made() else None
        )
        self.assertEqual(
            (b'session 1 2\nsession end\n', ['ok', 'ok']),
            (file.getvalue(), [reply.word for reply in answer.replies]),
        )
        self.assertEqual({'nodes': 1}, answer.counts())
        self.fake(replies + whole).save(['node x1 y1 T', 'count'], lambda answer: None)
        for text, said in [
            (replies + '3 ok\\nsession 1 2\\n"', 'no whole `save`'),
            (replies + '3 refused 1\\nsession end\\n"', 'no whole `save`'),
            (replies + '"', 'no whole `save`'),
            (replies + whole + '; exit 9', 'memory ran out'),
            ('echo hello', 'no program editor'),
            (replies + whole + '; echo more', 'no whole `save`'),
        ]:
            with self.assertRaisesRegex(Trouble, said):
                self.fake(text + '\n').save(['node x1 y1 T', 'count'], lambda answer: io.BytesIO())

    def test_a_bad_line(self):
        with self.assertRaises(BadLine) as raised:
            self.fake('echo "editor: bad script line 2" >&2; exit 4\n').run(['count', 'tag n1 a=b'])
        self.assertEqual(2, raised.exception.line)
        self.assertIn('tag n1 a=b', str(raised.exception))

    def test_another_status_a_signal_and_another_program(self):
        for text, said in [
            ('echo "editor: out of memory" >&2; exit 9\n', 'memory ran out'),
            ('kill -9 $$\n', 'signal 9'),
            ('echo hello\n', 'no program editor'),
            ('echo usage >&2; exit 2\n', 'usage'),
        ]:
            with self.assertRaisesRegex(Trouble, said):
                self.fake(text).run(['count'])

    def test_the_program_that_the_words_name(self):
        arguments = argparse.Namespace(program=None, max_objects=None)
        with mock.patch.dict(os.environ, {'YOKE_EDITOR': str(TOP / 'bench' / 'model' / 'model')}):
            self.assertEqual(str(TOP / 'bench' / 'model' / 'model'), Program.of(arguments).path)
            arguments.program = 'sh'
            self.assertTrue(Program.of(arguments).path.endswith('/sh'))
        with mock.patch.dict(os.environ, {'YOKE_EDITOR': '', 'PATH': ''}):
            arguments.program = None
            with self.assertRaisesRegex(Trouble, 'yokeorange'):
                Program.of(arguments)

    def test_the_program_itself_by_another_process(self):
        answer = Program(str(TOP / 'bench' / 'model' / 'model')).run(['node x1 y1 T', 'count'])
        self.assertEqual(['n-1'], answer.replies[0].made())
        self.assertEqual(1, answer.counts()['nodes'])


SAVED = '''session 1 3
known n1 live same none
base n1 v1 dV c0 t i0 u T x13.001 y52
known n3 live none none
base n3 v1 dV c0 t i0 u T x13.003 y52
incomplete n4
known n6 gone same none
base n6 v2 dD c0 t i0 u T x y
known n8 live own changed
base n8 v2 dV c0 t i0 u Tamenity=bench x13.002 y52.001
mine n8 v1 dV c0 t i0 u Tamenity=bench,backrest=yes x13.002 y52.001
theirs n8 v3 dV c0 t i0 u Tamenity=bench,backrest=no x13.002 y52.001
known n-1 new own none
mine n-1 v0 dV c0 t i0 u T x13.004 y52
known w5 gone own none
base w5 v4 dD c0 t i0 u T N
mine w5 v1 dV c0 t i0 u T Nn1,n-1
session end
'''


class SavedSessions(unittest.TestCase):
    def test_the_sides_of_each_object(self):
        known = saved.read(SAVED)
        self.assertEqual(['n1', 'n3', 'n6', 'n8', 'n-1', 'w5'], list(known))
        self.assertEqual(
            [None, 'deleted', None, 'changed', 'new', 'changed'],
            [one.edit for one in known.values()],
        )
        self.assertEqual(known['n1'].base, known['n1'].mine)
        self.assertEqual(
            ('changed', 'yes', 'no'),
            (
                known['n8'].conflict,
                known['n8'].mine.tags['backrest'],
                known['n8'].theirs.tags['backrest'],
            ),
        )
        self.assertEqual(
            (None, None, None), (known['n-1'].base, known['n6'].mine, known['w5'].there)
        )
        self.assertTrue(known['w5'].base.deleted)

    def test_an_own_side_that_is_as_the_base_is_no_edit(self):
        text = SAVED.replace('backrest=yes', 'x=y').replace(
            'Tamenity=bench x', 'Tamenity=bench,x=y x'
        )
        self.assertIsNone(saved.read(text)['n8'].edit)

    def test_what_is_no_saved_session(self):
        for text in ('', SAVED[:-4], SAVED.replace('session 1', 'session 2'), '1 ok\n' + SAVED):
            with self.assertRaises(Trouble):
                saved.read(text)

    def test_edited_is_what_count_counts(self):
        with tempfile.NamedTemporaryFile('w', suffix='.saved') as file:
            file.write(SAVED)
            file.flush()
            answer = program().run(['resume ' + file.name, 'count', 'save'])
        self.assertEqual(SAVED, answer.saved())
        self.assertEqual(
            answer.counts()['changed'],
            sum(one.edit is not None for one in saved.read(SAVED).values()),
        )


if __name__ == '__main__':
    unittest.main()
