"""`yoke send` of a part: what goes together, what is left, and that a stop anywhere loses nothing
and sends nothing twice.

The rows are those of the table in `yoke/parts.py`.
"""
import itertools
import os
import shutil
import unittest
from typing import List, Optional

from yoke import parts
from yoke.day import WHOLE
from yoke.tests.stops import Stopped, stop_at
from yoke.tests.support import ServerTest
from yoke.trouble import Clash, NoAnswer, Refused, Usage

FENCES = [
    line
    for number in range(3)
    for line in (
        f'node x13.00{number} y52.00{number + 2} T',
        f'node x13.00{number}5 y52.00{number + 2} T',
        f'way Tbarrier=fence,ref={number} Nn-{3 * number + 1},n-{3 * number + 2}',
    )
]
OTHERS = ['tag w5 Tsurface=asphalt', 'tag n8 Tbackrest=yes', 'delete r9']


class PartTest(ServerTest):
    """A day with edits, and what is to be seen of them at the server."""

    edits = FENCES + OTHERS

    def setUp(self) -> None:
        super().setUp()
        self.begin(*self.edits)

    def is_on_the_map(self, fences: int = 3, others: bool = True) -> None:
        """Nothing was made twice, and so many fences are there with both their nodes, and no other
        new node.
        """
        self.assertEqual([], self.server.created_twice())
        theirs = self.theirs()
        new = [element for element in theirs.values() if element.number >= 1000]
        ways = [element for element in new if element.kind == 'way']
        self.assertEqual(fences, len(ways))
        self.assertEqual(
            {node for way in ways for node in way.nodes},
            {one.number for one in new if one.kind == 'node'},
        )
        self.assertEqual(others, 'surface' in theirs['w5'].tags)
        self.assertEqual(others, 'backrest' in theirs['n8'].tags)
        self.assertEqual(others, not theirs['r9'].visible)

    def is_whole(self) -> None:
        """All edits that are left are in the last session, and nothing is held back or out."""
        self.assertIsNone(self.day.held())
        self.assertIsNone(self.day.pending())
        self.assertIsNone(self.day.read('changeset'))

    def edited(self) -> List[str]:
        """The keys of the edits of the last session."""
        return [
            key
            for key, known in self.session.known().items()
            if known.edit or known.conflict != 'none'
        ]


class Together(PartTest):
    def test_no_node_leaves_before_its_way(self) -> None:
        seen: List[int] = []

        def look() -> None:
            used = {
                node
                for element in self.server.elements()
                if element.kind == 'way' and element.visible
                for node in element.nodes
            }
            lonely = [
                one
                for one in self.server.created_by()
                if one.kind == 'node' and one.number not in used
            ]
            seen.append(len(lonely))

        for number in range(1, 10):
            self.server.after('upload', number, look)
        self.assertEqual(0, self.send('--chunk', '4'), self.err)
        self.assertEqual([0, 0, 0, 0], seen)
        self.is_on_the_map()
        self.is_whole()
        self.assertEqual([], self.edited())
        self.assertIn('nothing is left to send', self.out)
        self.assertEqual(1, len(self.server.database.changesets))

    def test_what_fits_goes_as_it_is(self) -> None:
        self.assertEqual(0, self.send('--chunk', '12'), self.err)
        self.assertFalse([path for path in os.listdir('day') if 'part' in path])
        self.assertEqual(1, self.server.requests.count('upload'))
        self.is_on_the_map()

    def test_a_group_that_is_larger_than_a_document_is_told(self) -> None:
        self.assertEqual(0, self.send('--chunk', '2'), self.err)
        self.assertIn('3 changes hang together (n-1,n-2,w-3), and a document has 2', self.err)
        self.is_on_the_map()
        self.is_whole()

    def test_a_changeset_without_room_for_a_group_is_closed(self) -> None:
        self.server.limits.changeset_elements = 5
        self.assertEqual(0, self.send('--chunk', '3'), self.err)
        self.is_on_the_map()
        self.is_whole()
        sizes = [changeset.changes for changeset in self.server.database.changesets.values()]
        self.assertEqual([3, 3, 3, 3], sizes)

    def test_a_server_that_takes_less_than_it_says(self) -> None:
        self.server.before(
            'upload', 1, lambda: setattr(self.server.limits, 'changeset_elements', 3)
        )
        self.assertEqual(0, self.send('--chunk', '7'), self.err)
        self.is_on_the_map()
        self.is_whole()
        self.assertTrue(
            all(
                changeset.changes in (0, 3)
                for changeset in self.server.database.changesets.values()
            )
        )


class Left(PartTest):
    def test_only_keys(self) -> None:
        self.assertEqual(0, self.send('--only', 'n-1,w5'), self.err)
        self.assertIn('4 changes sent', self.out)
        self.assertIn(
            '8 edits are left, not named by --only: n8,n-4,n-5,n-7,n-8,w-6,w-9,r9\n', self.out
        )
        self.assertEqual(['n8', 'n-4', 'n-5', 'n-7', 'n-8', 'w-6', 'w-9', 'r9'], self.edited())
        self.is_whole()
        self.assertEqual(0, self.send('--only', 'n-1,w5'), self.err)
        self.assertIn('0 changes sent', self.out)
        self.assertEqual(0, self.send(), self.err)
        self.is_on_the_map()
        self.is_whole()

    def test_only_a_box(self) -> None:
        self.assertEqual(0, self.send('--only', '13.0005,52.0025,13.0025,52.0035'), self.err)
        self.assertIn('3 changes sent', self.out)
        self.is_on_the_map(1, False)
        (way,) = (one for one in self.theirs().values() if one.tags.get('barrier'))
        self.assertEqual('1', way.tags['ref'])

    def test_only_a_query(self) -> None:
        self.assertEqual(0, self.send('--only', 'way and Tref=2', '--only', 'n8'), self.err)
        self.assertIn('4 changes sent', self.out)
        self.assertEqual(0, self.send(), self.err)
        self.is_on_the_map()

    def test_at_most(self) -> None:
        self.assertEqual(0, self.send('--at-most', '4'), self.err)
        self.assertIn('4 changes sent', self.out)
        self.assertIn('8 edits are left, beyond --at-most: ', self.out)
        self.is_whole()
        self.assertEqual(0, self.send('--at-most', '8'), self.err)
        self.is_on_the_map()
        self.is_whole()

    def test_at_most_less_than_a_group(self) -> None:
        self.done('undo')
        self.do(*FENCES)
        self.assertEqual(Refused.code, self.send('--at-most', '2'))
        self.assertIn('has 3 changes, and --at-most is 2', self.err)
        self.assertEqual([], self.server.history)
        self.is_whole()

    def test_words_that_say_nothing(self) -> None:
        for given in (['--only', '13,52,12,53'], ['--only', 'nonsense ('], ['--at-most', '0']):
            self.assertEqual(Usage.code, self.send(*given), given)
        self.assertEqual([], self.server.history)
        self.is_whole()

    def test_dry(self) -> None:
        self.done('send', '--dry', '--only', 'n-4')
        self.assertIn('3 changes would be sent: 3 new', self.out)
        self.assertIn('9 edits are left, not named by --only', self.out)
        self.assertEqual([], self.server.requests)
        self.is_whole()

    def test_nothing_is_taken_back_of_a_part(self) -> None:
        self.assertEqual(0, self.send('--only', 'n8'), self.err)
        self.assertEqual(WHOLE, self.day.last().verb)
        self.assertEqual(Refused.code, self.yoke('undo'))
        self.do('tag n1 Tref=7')
        self.done('undo')

    def test_what_was_before_a_part_of_which_nothing_was_taken(self) -> None:
        self.server.faults.by_chance('429-before', 1.0, 0, 'upload')
        self.assertNotEqual(0, self.send('--only', 'n8'))
        self.is_held_by_none()
        self.assertEqual('do', self.day.last().verb)
        self.done('undo')

    def is_held_by_none(self) -> None:
        self.assertIsNone(self.day.held())
        self.assertEqual(12, len(self.edited()))


class Conflicts(PartTest):
    def setUp(self) -> None:
        super().setUp()
        self.server.edit('modify', 'n8', tags={'amenity': 'bench', 'backrest': 'no'})

    def test_one_that_is_known(self) -> None:
        self.assertEqual(Clash.code, self.ask('refresh'))
        self.assertEqual(Clash.code, self.send())
        self.assertEqual([], [change for change in self.server.history if change.user == 'mapper'])
        self.assertEqual(0, self.send('--skip-conflicts'), self.err)
        self.assertIn(
            '1 edits are left, in conflict, or hanging together with what is: n8\n', self.out
        )
        self.assertEqual(['n8'], self.edited())
        self.assertEqual('changed', self.session.known()['n8'].conflict)
        self.is_whole()
        self.done('resolve', 'n8', 'mine')
        self.assertEqual(0, self.send(), self.err)
        self.is_on_the_map()

    def test_one_that_comes_in_the_middle(self) -> None:
        self.assertEqual(0, self.send('--skip-conflicts', '--chunk', '4'), self.out + self.err)
        self.assertEqual(['n8'], self.edited())
        self.is_whole()
        self.assertEqual(
            3, sum(one.tags.get('barrier') == 'fence' for one in self.theirs().values())
        )
        self.assertEqual(0, self.send('--skip-conflicts'), self.err)
        self.assertIn('0 changes sent', self.out)

    def test_what_hangs_together_with_it(self) -> None:
        self.done('undo')
        self.do('nodes w5 Nn1,n8,n2', 'node x13 y52.1 T', 'way T Nn8,n-1', 'tag n3 Tref=7')
        self.server.edit('delete', 'n8')
        self.assertEqual(0, self.send('--skip-conflicts'), self.out + self.err)
        self.assertEqual({'n8', 'w5', 'n-1', 'w-2'}, set(self.edited()))
        self.assertEqual('7', self.theirs()['n3'].tags['ref'])
        self.is_whole()

    def test_a_conflict_among_those_that_are_named(self) -> None:
        self.assertEqual(Clash.code, self.ask('refresh'))
        self.assertEqual(Clash.code, self.send('--only', 'n8,n-1'))
        self.assertEqual(12, len(self.edited()))
        self.is_whole()
        self.assertEqual(0, self.send('--only', 'n-1'), self.err)


class Stops(PartTest):
    """The program ends at any step, and the same command goes on; so does a send of all."""

    edits = FENCES + ['tag w5 Tsurface=asphalt', 'tag n8 Tbackrest=yes']
    limits = {'changeset_elements': 7}

    def setUp(self) -> None:
        super().setUp()
        shutil.copytree('day', 'begun')

    def again(self) -> None:
        shutil.rmtree('day')
        shutil.copytree('begun', 'day')
        self.server.__exit__()
        self.server = self.serve(**self.limits)

    def row(self) -> str:
        """The row of the table in which the day is."""
        held = self.day.held()
        last = self.day.last()
        return (
            'A'
            if held is None
            else 'B'
            if last.number == held.of
            else 'D'
            if last.verb == WHOLE
            else 'C'
        )

    def stopped(self, at: int, *given: str) -> Optional[str]:
        """The name of the step at which a send was stopped; None where it came to its end before."""
        with stop_at(at) as steps:
            try:
                self.assertEqual(0, self.send(*given), self.err)
                return None
            except Stopped:
                name: str = steps.names[-1]
                return name

    def test_at_each_step(self) -> None:
        given = ['--chunk', '4']
        rows = set()
        for at in itertools.count(1):
            self.again()
            name = self.stopped(at, *given)
            rows.add(self.row())
            if name is None:
                break
            with self.subTest(at=at, name=name):
                self.says_so()
                self.assertEqual(0, self.send(*given), self.err)
                self.is_all()
        self.assertEqual({'A', 'B', 'C', 'D'}, rows)
        self.assertGreater(at, 60)

    def test_at_each_step_of_one_part(self) -> None:
        given = ['--only', 'n-4,n8']
        for at in itertools.count(1):
            self.again()
            name = self.stopped(at, *given)
            if name is None:
                break
            with self.subTest(at=at, name=name):
                self.assertEqual(0, self.send(*given), self.err)
                self.assertIsNone(self.day.held())
                self.assertEqual(
                    {'n-1', 'n-2', 'w-3', 'n-7', 'n-8', 'w-9', 'w5'}, set(self.edited())
                )
                self.assertEqual(0, self.send(), self.err)
                self.is_all()
        self.assertGreater(at, 25)

    def test_at_each_step_with_lost_answers(self) -> None:
        given = ['--chunk', '4']
        for fault in ('drop-after', '500-before', '413-before', '429-before'):
            for at in itertools.count(15):
                self.again()
                self.server.faults.once(fault, 'upload', 1)
                name = self.stopped(at, *given)
                if name is None:
                    break
                with self.subTest(fault=fault, at=at, name=name):
                    self.server.faults.clear()
                    self.assertEqual(0, self.send(*given), self.err)
                    self.is_all()

    def says_so(self) -> None:
        """Where edits are held back no verb edits, and `status` tells."""
        if self.day.held():
            before = self.day.last().path.name
            self.assertEqual(NoAnswer.code, self.yoke('do', 'steps.script'))
            self.assertIn('yoke send', self.err)
            self.assertEqual(Refused.code, self.yoke('undo'))
            self.done('status')
            self.assertIn('yoke send', self.out)
            self.assertEqual(before, self.day.last().path.name)

    def is_all(self) -> None:
        self.assertEqual([], self.server.created_twice())
        theirs = self.theirs()
        self.assertEqual(3, sum(one.tags.get('barrier') == 'fence' for one in theirs.values()))
        self.assertEqual(9, len(self.server.created_by()))
        self.assertIn('surface', theirs['w5'].tags)
        self.assertIn('backrest', theirs['n8'].tags)
        self.assertEqual([], self.edited())
        self.is_whole()


class Text(unittest.TestCase):
    def test_boxes(self) -> None:
        self.assertIsNone(parts.box_of('n1,n2'))
        self.assertIsNone(parts.box_of('way'))
        self.assertIsNotNone(parts.box_of('-13.1,52,13,52.5'))


if __name__ == '__main__':
    unittest.main()
