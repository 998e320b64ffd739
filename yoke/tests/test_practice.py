"""`yoke practice`: a server of this machine, from its start to its end, as a mapper tries a send on
it.
"""
from __future__ import annotations

import os
import pathlib
import socket
import unittest
from unittest import mock

from yoke.tests.support import TOWN, FolderTest
from yoke.trouble import Refused, Trouble, Usage


def free_port() -> int:
    with socket.socket() as listener:
        listener.bind(('127.0.0.1', 0))
        return int(listener.getsockname()[1])


class Practice(FolderTest):
    def setUp(self) -> None:
        super().setUp()
        self.port = str(free_port())
        self.api = f'http://127.0.0.1:{self.port}'
        self.write('town.opl', TOWN)

    def serve(self) -> str:
        said: str = self.done('practice', 'town.opl', '--background', '--port', self.port)
        self.addCleanup(
            lambda: self.pid_file.exists() and self.yoke('practice', '--stop', '--port', self.port)
        )
        return said

    @property
    def pid_file(self) -> pathlib.Path:
        return self.folder / f'practice-{self.port}.pid'

    def test_a_send_is_tried_on_it(self) -> None:
        self.assertIn(f'{self.api} has 6 objects; the token is practice', self.serve())
        self.begin('tag w5 Tsurface=asphalt')
        with mock.patch.dict(os.environ, {'YOKE_TOKEN': 'practice'}):
            self.assertEqual(0, self.yoke('send', '--api', self.api, '-m', 'a try'), self.err)
        dumped = self.done('practice', '--dump', '--port', self.port)
        self.assertIn('w5 v4 dV c1', dumped)
        self.assertIn('surface=asphalt', dumped)
        self.assertEqual('ended\n', self.done('practice', '--stop', '--port', self.port))
        self.assertFalse(self.pid_file.exists())
        self.assertEqual(Trouble.code, self.yoke('practice', '--dump', '--port', self.port))

    def test_another_token_is_refused(self) -> None:
        self.serve()
        self.begin('tag w5 Tsurface=asphalt')
        with mock.patch.dict(os.environ, {'YOKE_TOKEN': 'mine'}):
            self.assertEqual(6, self.yoke('send', '--api', self.api, '-m', 'a try'))

    def test_a_port_that_is_taken(self) -> None:
        with socket.socket() as listener:
            listener.bind(('127.0.0.1', int(self.port)))
            listener.listen()
            self.assertEqual(Refused.code, self.yoke('practice', 'town.opl', '--port', self.port))
            self.assertIn('is taken', self.err)

    def test_a_second_one_in_the_folder(self) -> None:
        self.serve()
        self.assertEqual(
            Refused.code, self.yoke('practice', 'town.opl', '--background', '--port', self.port)
        )
        self.assertIn('yoke practice --stop', self.err)

    def test_a_file_that_is_none(self) -> None:
        self.assertEqual(
            Trouble.code, self.yoke('practice', 'none.opl', '--background', '--port', self.port)
        )
        self.assertIn('none.opl', self.err)
        self.assertFalse(self.pid_file.exists())

    def test_a_process_of_another_program_is_left_alone(self) -> None:
        self.pid_file.write_text(f'{os.getpid()}\n')
        self.assertEqual(0, self.yoke('practice', '--stop', '--port', self.port))
        self.assertIn('no practice server any more', self.err)

    def test_words_that_are_none(self) -> None:
        for words in (
            [],
            ['town.opl', '--stop'],
            ['town.opl', '--port', '0'],
            ['--dump', '--stop'],
        ):
            self.assertEqual(Usage.code, self.yoke('practice', *words), words)
        self.assertEqual(Refused.code, self.yoke('practice', '--stop', '--port', self.port))


if __name__ == '__main__':
    unittest.main()
