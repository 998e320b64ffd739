"""What a build tells of the time that is left, what it asks of the machine, and when it calls a
proof stopped.
"""
import time
import unittest
from unittest import mock

from launcher import build
from launcher.build import MORE, PRIOR, Build, Proof, Wishes
from launcher.crates import Crate
from launcher.schedule import RATES, Start


class Store:
    """A stand-in for the folder of what is kept."""

    folder = '/tmp'


class Toolkit:
    """A stand-in for a toolkit."""

    folder, line, identity, logic = '/kit', 'a kit', 'one', '0'


def some_build(**lines):
    """A build of crates that stand side by side."""
    crates = {name: Crate(name, name + ':', (), (), False, count) for name, count in lines.items()}
    return Build('/home', Store(), Toolkit(), crates, dict.fromkeys(crates, 'text'), Wishes(jobs=2))


def running(name, jobs, seconds):
    """A proof that has run for some seconds."""
    return Proof(Start(name, jobs, 0, 1e9, 0.0), None, 'text', time.monotonic() - seconds, 0.0)


class Pace(unittest.TestCase):
    def test_as_reckoned_until_something_tells(self):
        made = some_build(a=1000, b=1000)
        self.assertEqual(1.0, made.pace())
        made.running = [running('a', 1, 5.0)]
        self.assertEqual(1.0, made.pace())

    def test_what_ended_counts(self):
        made = some_build(a=1000)
        made.taken, made.reckoned = 2 * 900.0, 900.0
        self.assertAlmostEqual((1800 + PRIOR) / (900 + PRIOR), made.pace())

    def test_what_takes_longer_than_reckoned_counts(self):
        made = some_build(a=1000)
        whole = made.schedule.seconds['a']
        made.running = [running('a', 2, 3 * whole / RATES[2])]
        self.assertAlmostEqual((3 * whole + PRIOR) / (whole + PRIOR), made.pace(), 2)
        left = made.left_of_running()[0].left
        self.assertAlmostEqual(MORE * 3 * whole / made.pace(), left, 1)

    def test_what_is_left_of_a_proof(self):
        made = some_build(a=1000)
        whole = made.schedule.seconds['a']
        made.running = [running('a', 1, whole / 2)]
        self.assertAlmostEqual(whole / 2, made.left_of_running()[0].left, 1)


class Needs(unittest.TestCase):
    def lacks(self, memory, disk, swap=0):
        made = some_build(small=100, large=4000)
        answers = {
            'free_memory': lambda: memory,
            'free_swap': lambda: swap,
            'free_disk': lambda folder: disk,
        }
        with mock.patch.multiple('launcher.machine', **answers):
            return made.lacks()

    def test_enough(self):
        self.assertEqual([], self.lacks(4e9, 4e9))
        self.assertEqual([], self.lacks(1e9, 4e9, 3e9))

    def test_too_little(self):
        wanted = 'too little memory: the proof of large may take 2.6 GB, and 1.0 GB are free. Close other programs first'
        self.assertEqual([wanted], self.lacks(1e9, 4e9))
        self.assertIn('too little disk', self.lacks(4e9, 6e8)[0])
        self.assertEqual(2, len(self.lacks(1e9, 6e8)))

    def test_what_is_proved_needs_nothing(self):
        made = some_build(small=100, large=4000)
        made.proved = {'large'}
        self.assertLess(made.disk(made.waiting()), 1e9)
        self.assertEqual(['small'], made.waiting())


class Stopped(unittest.TestCase):
    def test_by_which_signal(self):
        proof = running('a', 1, 1.0)
        for status, number in ((0, 0), (1, 0), (128, 0), (-9, 9), (-15, 15), (137, 9)):
            proof.status = status
            self.assertEqual(number, proof.signal)


class Commit(unittest.TestCase):
    def test_a_folder_that_is_no_repository(self):
        self.assertEqual('', build.commit('/'))


if __name__ == '__main__':
    unittest.main()
