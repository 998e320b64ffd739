"""Tests of the runner, with a package `yoke` of their own in which a run does what its words say.

    python3 -m unittest yoke.testing.test_runner
"""
import pathlib
import signal
import subprocess
import sys
import tempfile
import time
import unittest

from yoke.testing.runner import Runner

TOP = pathlib.Path(__file__).resolve().parents[2]
COMMAND = """\
import os
import sys
import time

from yoke import day


def parser():
    pass


def main(words):
    print(os.environ.get('WORD'), os.getcwd(), *words, flush=True)
    if words[0] == 'lines':
        day.lines()
    if words[0] == 'waits':
        time.sleep(1000)
    if words[0] == 'hangs':
        while True:
            pass
    if words[0] == 'takes':
        end = time.monotonic() + float(words[1])
        while time.monotonic() < end:
            pass
        return 0
    if words[0] == 'fails':
        raise ValueError('a fault')
    if words[0] == 'usage':
        sys.exit(2)
    return int(words[1])
"""
DAY = """\
def lines():
    print('one', flush=True)
    print('two', flush=True)
    print('three', flush=True)
"""


class Runs(unittest.TestCase):
    def setUp(self):
        place = tempfile.TemporaryDirectory()
        self.addCleanup(place.cleanup)
        self.folder = pathlib.Path(place.name).resolve()
        (self.folder / 'yoke').mkdir()
        for name, text in [('__init__.py', ''), ('command.py', COMMAND), ('day.py', DAY)]:
            (self.folder / 'yoke' / name).write_text(text, encoding='utf-8')
        self.runner = Runner(str(self.folder)).__enter__()
        self.addCleanup(self.runner.__exit__)

    def run_it(self, *words, line=0, seconds=60):
        """The exit code of a run, and what it wrote."""
        output = self.folder / 'output'
        process = self.runner.start(list(words), str(self.folder), {'WORD': 'w'}, str(output), line)
        return self.runner.wait(process, seconds), output.read_text(encoding='utf-8').replace(
            str(self.folder), 'HERE'
        )

    def test_words_folder_environment_and_code(self):
        self.assertEqual(self.run_it('ends', '0'), (0, 'w HERE ends 0\n'))
        self.assertEqual(self.run_it('ends', '4'), (4, 'w HERE ends 4\n'))
        self.assertEqual(self.run_it('usage'), (2, 'w HERE usage\n'))

    def test_a_fault_leaves_its_trace(self):
        code, written = self.run_it('fails')
        self.assertEqual(code, 1)
        self.assertIn('Traceback (most recent call last)', written)

    def test_waits_take_no_time(self):
        self.assertEqual(self.run_it('waits', '0')[0], 0)

    def test_a_run_dies_before_a_line(self):
        for line, written in [(1, ''), (2, 'one\n'), (3, 'one\ntwo\n')]:
            self.assertEqual(
                self.run_it('lines', '0', line=line),
                (-signal.SIGKILL, 'w HERE lines 0\n' + written),
            )
        self.assertEqual(
            self.run_it('lines', '0', line=4), (0, 'w HERE lines 0\none\ntwo\nthree\n')
        )

    def test_a_run_that_hangs_is_killed(self):
        with self.assertRaises(TimeoutError):
            self.run_it('hangs', seconds=0.5)
        self.assertEqual(self.run_it('ends', '3')[0], 3)

    def test_a_run_that_ended_long_before_it_is_waited_for(self):
        process = self.runner.start(
            ['ends', '3'], str(self.folder), {}, str(self.folder / 'output')
        )
        time.sleep(0.5)
        self.assertEqual(self.runner.wait(process, 60), 3)

    def test_a_run_that_nobody_waited_for(self):
        self.runner.start(['ends', '3'], str(self.folder), {}, str(self.folder / 'output'))
        self.assertEqual(self.run_it('ends', '5')[0], 5)

    def test_who_asks_may_be_gone_before_a_run_ends(self):
        code = 'import os\nfrom yoke.testing.runner import Runner\nrunner = Runner({0!r}).__enter__()\nrunner.start(["takes", "0.5"], {0!r}, {{}}, {1!r})\nos._exit(0)\n'
        done = subprocess.run(
            [
                sys.executable,
                '-B',
                '-c',
                code.format(str(self.folder), str(self.folder / 'output')),
            ],
            cwd=TOP,
            stdout=subprocess.PIPE,
            stderr=subprocess.PIPE,
        )
        self.assertEqual((done.returncode, done.stdout, done.stderr), (0, b'', b''))


if __name__ == '__main__':
    unittest.main()
