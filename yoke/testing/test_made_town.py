"""The made town writes its file, takes the same one a second time, and overwrites no other."""

from __future__ import annotations

import pathlib
import tempfile
import unittest
from unittest import mock

from yoke.testing import made_town


class MadeTownTest(unittest.TestCase):
    def made(self, *words: str) -> int:
        """The status of a call."""
        with (
            mock.patch('sys.argv', ['made_town', *words]),
            mock.patch('sys.stdout'),
            mock.patch('sys.stderr'),
        ):
            try:
                made_town.main()
            except SystemExit as ended:
                return int(ended.code or 0)
        return 0

    def test_a_file_that_is_there(self) -> None:
        with tempfile.TemporaryDirectory() as folder:
            path = pathlib.Path(folder, 'town.opl')
            self.assertEqual(0, self.made('2', str(path)))
            text = path.read_text(encoding='utf-8')
            self.assertEqual(0, self.made('2', str(path)))
            self.assertEqual(2, self.made('30', str(path)))
            self.assertEqual(text, path.read_text(encoding='utf-8'))
            path.write_text(text + 'n1\n', encoding='utf-8')
            self.assertEqual(2, self.made('2', str(path)))


if __name__ == '__main__':
    unittest.main()
