"""What of a large session a verb reads: no verb on the way of an edit takes the whole of one into
memory.
"""
from __future__ import annotations

import unittest
from unittest import mock

from yoke.day import State
from yoke.tests.support import ServerTest

TOWN = (
    ''.join(f'n{number} v1 x13.{number:03} y52\n' for number in range(1, 60))
    + 'w5 v3 Thighway=residential Nn1,n2\nr9 v1 T Mw5@\n'
)


def whole(state: State) -> str:
    """Takes the place of `State.text`."""
    raise AssertionError(f'{state.path} is read as a whole')


class Reads(ServerTest):
    town = TOWN

    def test_a_day_of_changes_reads_no_session_as_a_whole(self) -> None:
        self.begin(town=TOWN)
        with mock.patch.object(State, 'text', whole):
            self.do(*(f'tag n{number} Tref={number}' for number in range(1, 41)), 'tag w5 Tname=c')
            self.done('show', 'n7', 'w5', 'n1')
            self.assertEqual(0, self.send('--chunk', '10'), self.err)
        self.assertIn('41 changes sent', self.out)
        self.assertEqual('c', {key: one.tags for key, one in self.theirs().items()}['w5']['name'])


if __name__ == '__main__':
    unittest.main()
