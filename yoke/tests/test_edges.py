"""What comes in and goes out at the edges: signs of a terminal, closed streams, signals, tokens,
files without an end.
"""
from __future__ import annotations

import gzip
import io
import os
import signal
import subprocess
import sys
import unittest
from unittest import mock

from yoke import api, command, files, printing
from yoke.tests.support import TOP, FolderTest
from yoke.trouble import Trouble, Usage


class Printing(unittest.TestCase):
    def test_what_is_hidden_is_shown(self) -> None:
        self.assertEqual('a%1b%[2J%202e%b\n%9b%c\td', printing.shown('a\x1b[2J\u202eb\n\x9bc\td'))
        self.assertEqual('a%a%b%9%%d%', printing.line('a\nb\t\r'))
        for text in ('Straße', 'Łódź', 'می\u200cخواهم', '東京', '👩\u200d🚒', 'a\tb\n'):
            self.assertEqual(text, printing.shown(text))

    def test_all_that_is_printed_goes_through_it(self) -> None:
        with mock.patch('sys.stdout', io.StringIO()) as out, printing.guarded():
            print('a\x1b[31m')
            printing.document('{"a": "\u202e"}\n')
        self.assertEqual('a%1b%[31m\n{"a": "\u202e"}\n', out.getvalue())

    def test_a_terminal_of_another_encoding(self) -> None:
        raw = io.BytesIO()
        with mock.patch(
            'sys.stdout', io.TextIOWrapper(raw, encoding='iso-8859-1')
        ), printing.guarded():
            print('ä Łódź →')
            sys.stdout.flush()
            self.assertEqual('ä %141%ód%17a% %2192%\n'.encode('iso-8859-1'), raw.getvalue())

    def test_a_stream_that_was_closed_before(self) -> None:
        with mock.patch('sys.stdout', None), printing.guarded():
            print('nobody reads this')
            sys.stdout.flush()


class Slips(FolderTest):
    """A slip of a user is told as one, and never as a fault of yoke."""

    def test_words_that_are_no_keys(self) -> None:
        self.begin()
        for given in (
            ('insert', '', 'w5'),
            ('insert', 'n3', ''),
            ('insert', 'n3', 'w5', '--after', '²'),
        ):
            self.assertIn(self.yoke(*given), (1, Usage.code), self.err)

    def test_a_file_without_an_end(self) -> None:
        with self.assertRaisesRegex(Trouble, 'is a device'):
            files.data_of('/dev/zero')
        (self.folder / 'big.gz').write_bytes(gzip.compress(bytes(1_000_000)))
        with self.assertRaisesRegex(Trouble, 'more than 1000 bytes'):
            files.data_of('big.gz', 1000)
        self.assertEqual(bytes(1_000_000), files.data_of('big.gz'))
        self.begin()
        self.assertEqual(Trouble.code, self.yoke('do', '/dev/zero'))

    def test_a_link_that_is_called_lock(self) -> None:
        self.begin()
        (self.folder / 'day' / 'lock').unlink()
        (self.folder / 'day' / 'lock').symlink_to(self.folder / 'elsewhere')
        self.assertEqual(Trouble.code, self.yoke('do', 'steps.script'))
        self.write('steps.script', 'tag n1 Tref=1\n')
        self.assertEqual(Trouble.code, self.yoke('do', 'steps.script'))
        self.assertIn('is a link', self.err)
        self.assertFalse((self.folder / 'elsewhere').exists())

    def test_names_that_begin_with_a_dash(self) -> None:
        self.assertEqual('./--help', files.named('--help'))
        self.assertEqual('town.opl', files.named('town.opl'))

    def test_no_child_has_the_token(self) -> None:
        with mock.patch.dict(os.environ, YOKE_TOKEN='a-secret'):
            with api.token_held():
                self.assertEqual('a-secret', api.token_of_environment())
                said = subprocess.run(
                    [sys.executable, '-c', 'import os; print(os.environ.get("YOKE_TOKEN"))'],
                    stdout=subprocess.PIPE,
                    text=True,
                )
                self.assertEqual('None\n', said.stdout)
            self.assertEqual('a-secret', os.environ['YOKE_TOKEN'])

    def test_a_signal_ends_it_as_ctrl_c_does(self) -> None:
        for number in (signal.SIGTERM, signal.SIGHUP):
            with self.assertRaises(command.Ended) as ended, command.broken_off_by(number):
                os.kill(os.getpid(), number)
                for _ in range(1000):
                    pass
            self.assertEqual(number, ended.exception.number)
            self.assertIs(signal.SIG_DFL, signal.getsignal(number))

    def test_a_closed_standard_output(self) -> None:
        done = subprocess.run(
            ['sh', '-c', f'exec {sys.executable} -m yoke status --program sh >&-'],
            stderr=subprocess.PIPE,
            text=True,
            env=dict(os.environ, PYTHONPATH=str(TOP)),
        )
        self.assertEqual(3, done.returncode, done.stderr)


if __name__ == '__main__':
    unittest.main()
