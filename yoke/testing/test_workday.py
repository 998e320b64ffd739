"""Tests of a working day: that a verb that ends otherwise is a failure, what is held against the
ledger, and what it takes by hand.

    python3 -m unittest yoke.testing.test_workday
"""
import pathlib
import tempfile
import unittest

from yoke.testing.elements import lines_of_opl
from yoke.testing.ledger import Failed, Wish
from yoke.testing.server import StrictServer
from yoke.testing.workday import WorkDay, check_tenth

TOWN = ['n1 v1 dV Tname=a x1.0000000 y2.0000000']


class Pretends:
    """A runner whose runs write a text, keep a session, and end with a code."""

    def __init__(self, folder):
        self.folder, self.code, self.text, self.kept, self.words = folder, 0, '', [], []

    def start(self, words, cwd, environment, output, line=0):
        self.words.append(words)
        pathlib.Path(output).write_text(self.text, encoding='utf-8')
        (self.folder / 'day').mkdir(exist_ok=True)
        if self.kept:
            saved = self.folder / 'day' / f'{len(self.words):06}-{words[0]}.saved'
            saved.write_text('session 1 1\n' + self.kept.pop(0) + 'session end\n', encoding='utf-8')
        return 7

    def wait(self, process, seconds):
        return self.code


class Days(unittest.TestCase):
    def setUp(self):
        holder = tempfile.TemporaryDirectory()
        self.addCleanup(holder.cleanup)
        self.folder = pathlib.Path(holder.name)
        self.runner, self.server = Pretends(self.folder), StrictServer(lines_of_opl(TOWN))
        self.work = WorkDay(self.folder, self.server, 'editor', self.runner)
        self.runner.kept = [f'known n1 live same none\nbase {TOWN[0]}\n']
        self.work.begin('town.opl')

    def test_commands_are_counted(self):
        self.assertEqual(
            self.runner.words[0], ['start', '--day', 'day', '--program', 'editor', 'town.opl']
        )
        self.work.run('status')
        self.assertEqual(self.work.commands, ['start', 'status'])

    def test_a_verb_that_ends_otherwise(self):
        for self.runner.code, self.runner.text, codes in [
            (1, '', (0,)),
            (0, '', (4,)),
            (0, 'Traceback (most recent call last)', (0,)),
        ]:
            with self.assertRaises(Failed):
                self.work.run('status', codes=codes)

    def test_an_edit_that_the_session_loses_again(self):
        named = 'known n1 live own none\nbase {}\nmine n1 v1 dV Tname=mine x1.0000000 y2.0000000\n'.format(
            TOWN[0]
        )
        self.runner.kept = [named]
        self.work.edit('tag', 'name=mine')
        self.assertEqual(self.work.ledger.wishes, {('n1', 'tag name'): Wish('mine', 1)})
        self.runner.kept = [f'known n1 live same none\nbase {TOWN[0]}\n']
        with self.server, self.assertRaisesRegex(Failed, 'the session lost an edit'):
            self.work.send('-m', 'x')
        with self.assertRaisesRegex(Failed, "this isn't on the server"):
            self.work.end()

    def test_a_tenth(self):
        check_tenth(['send'] * 9, 90)
        check_tenth([], 0)
        for count, by_hand in [(9, 89), (1, 0), (22, 219)]:
            with self.assertRaisesRegex(
                Failed, f'{count} commands are more than a tenth of {by_hand}'
            ):
                check_tenth(['send'] * count, by_hand)

    def test_by_hand(self):
        self.server.answers.update(
            {'upload 200': 3, 'upload 409': 2, 'upload 412': 1, 'create 200': 2, 'many 200': 9}
        )
        self.server.faults.met = ['drop-after upload', '500-before upload', '504-after many']
        self.runner.text = '5 objects asked for, 2 newer ones merged\n'
        with self.server:
            self.work.send('--refresh')
        self.work.resolved = 2
        self.assertEqual(self.work.by_hand(), 3 * 7 + (3 + 1) * 3 + 2 * 1 + 2 * 2 + 1 * 4 + 2 * 2)


if __name__ == '__main__':
    unittest.main()
