"""A send walked through with every single fault over two of the plans. `./check` walks through all
of them; two faults and more are for a run by hand.
"""
import time
import unittest
from typing import Optional
from unittest import mock

from yoke.sending import Sending
from yoke.testing import explore
from yoke.tests import support


class Explore(unittest.TestCase):
    def test_every_fault_over_a_plan_with_two_documents(self) -> None:
        counts = explore.walk('four', 1, support.program())
        self.assertGreater(counts.states, 500)
        self.assertGreater(counts.ends, 20)

    def test_neither_the_time_nor_the_caller_is_part_of_a_state(self) -> None:
        """Else a walk never comes where it was, and grows with the load of the machine."""
        seconds: list[
            int
        ] = []  # a clock that is read again and again, and a variable of the caller that changes

        def later(given: Optional[float] = None) -> time.struct_time:
            seconds.append(len(seconds))
            return time.localtime(len(seconds) if given is None else given)

        with mock.patch('time.gmtime', later):
            counts = explore.walk('four', 1, support.program())
        self.assertEqual(explore.walk('four', 1, support.program()), counts)

    def test_every_fault_over_a_send_of_a_part(self) -> None:
        counts = explore.walk('a part', 1, support.program())
        self.assertGreater(counts.states, 1000)

    def test_a_send_that_forgets_what_is_out_is_found(self) -> None:
        """A sender that takes each lost answer for a document that wasn't taken."""

        def forgets(sending: Sending) -> bool:
            sending._remove('osc')
            sending._drop()
            return False

        with mock.patch.object(Sending, '_settle', forgets):
            with self.assertRaisesRegex(explore.Finding, 'is at the server 2 times|is left open'):
                explore.walk('four', 1, support.program())

    def test_a_send_that_loses_what_is_held_back_is_found(self) -> None:
        with mock.patch('yoke.parts.finish', lambda session: session.day.remove('held')):
            with self.assertRaisesRegex(explore.Finding, 'is lost|are left|held back'):
                explore.walk('a part', 0, support.program())


if __name__ == '__main__':
    unittest.main()
