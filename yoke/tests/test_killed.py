"""`yoke send` as a process of its own, which the signal KILL ends at a step; the next start goes
on.

`test_send` stops it at each step, in the tests' own process; here are some of these steps, as an
operating system ends a process, with the lock that it held.
"""
import os
import shutil
import signal
import subprocess
import sys
import unittest

from yoke.tests.support import TOP
from yoke.tests.test_send import SendTest


class Killed(SendTest):
    limits = {'changeset_elements': 3}

    def process(self, *words):
        """The status of a process, and what it said."""
        environment = dict(
            os.environ,
            PYTHONPATH=str(TOP),
            YOKE_EDITOR=os.environ.get('YOKE_EDITOR') or str(TOP / 'bench' / 'model' / 'model'),
        )
        done = subprocess.run(
            [sys.executable, *words],
            env=environment,
            stdout=subprocess.PIPE,
            stderr=subprocess.STDOUT,
            text=True,
        )
        return done.returncode, done.stdout

    def test_by_a_signal(self):
        words = ['send', '-m', 'a test', '--api', self.server.api, '--chunk', '2']
        for last in (3, 8, 12, 14, 16, 18, 23, 31, 37, 44):
            with self.subTest(last=last):
                self.again()
                words[4] = self.server.api
                status, said = self.process('-m', 'yoke.tests.killed', str(last), *words)
                self.assertEqual(-signal.SIGKILL, status, said)
                status, said = self.process('-m', 'yoke', *words)
                self.assertEqual(0, status, said)
                self.is_all_there()
                self.is_at_rest()

    def again(self):
        shutil.rmtree('day')
        self.server.__exit__()
        self.server = self.serve(**self.limits)
        self.begin(*self.edits)


del SendTest  # it has no tests of its own, but unittest would look for them here too

if __name__ == '__main__':
    unittest.main()
