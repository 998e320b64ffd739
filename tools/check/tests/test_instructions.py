"""The counts of instructions: what is too many, and that the sessions counted do their work."""
from __future__ import annotations

import os
import pathlib
import subprocess
import tempfile
import unittest

from tools.check import instructions
from tools.check.instructions import Counts


def counts(**instructions_of: int) -> Counts:
    """Counts of sessions, each by its name."""
    return Counts('rustc 1', 'x86_64', instructions_of)


class Slower(unittest.TestCase):
    """What `slower` finds."""

    def test_a_twentieth_more_is_found(self) -> None:
        found = instructions.slower(counts(load=1000, edit=1000), counts(load=1051, edit=1050))
        self.assertEqual(len(found), 1)
        self.assertIn('load: 1,051 instructions, 1,000 before', found[0])

    def test_fewer_pass(self) -> None:
        self.assertEqual(instructions.slower(counts(load=1000), counts(load=10)), [])

    def test_a_session_that_one_lacks_is_found(self) -> None:
        self.assertEqual(len(instructions.slower(counts(load=1), counts(edit=1))), 2)

    def test_what_is_written_down_names_the_sessions_that_are_counted(self) -> None:
        named = {*instructions.SESSIONS, 'edit and upload'}
        self.assertEqual(set(instructions.read().instructions), named)


@unittest.skipUnless(os.environ.get('YOKE_EDITOR'), 'needs YOKE_EDITOR')
class Sessions(unittest.TestCase):
    """The sessions that are counted."""

    def test_each_step_is_accepted(self) -> None:
        program = pathlib.Path(os.environ['YOKE_EDITOR'])
        folder = pathlib.Path(self.enterContext(tempfile.TemporaryDirectory()))
        for name, script in instructions.make(folder, program).items():
            (folder / 'script').write_text(script, encoding='utf-8')
            done = subprocess.run([program, 'script'], cwd=folder, capture_output=True, text=True)
            self.assertEqual(done.returncode, 0, name)
            steps = len(script.splitlines())
            replies = [line for line in done.stdout.splitlines() if line.endswith(' ok')]
            self.assertEqual(len(replies), steps, name)
            self.assertNotIn('refused', done.stdout, name)


if __name__ == '__main__':
    unittest.main()
