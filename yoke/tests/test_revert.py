"""`yoke revert`: what changesets did goes back by the program's merge, and what others did since
stays.
"""
from __future__ import annotations

import itertools
import os
import shutil
import unittest

from yoke.revert import plan
from yoke.testing.elements import degrees
from yoke.testing.server import MAPPER
from yoke.tests.stops import Stopped, stop_at
from yoke.tests.support import ServerTest
from yoke.trouble import Clash, Refused, Usage

AREA = '''n1 v1 Ta=1 x13.001 y52
n2 v1 Ta=1 x13.002 y52
n3 v1 T x13.003 y52
n4 v1 T x13.004 y52
n5 v1 Tempty=,a=1 x13.005 y52
n6 v1 Tshop=bakery x13.006 y52
w1 v1 Thighway=path Nn1,n3,n4
w2 v1 Thighway=path Nn3,n4
r1 v1 Ttype=x Mr2@,n1@
r2 v1 Ttype=x Mr1@
r3 v1 Ttype=route Mw1@,w2@
'''


def document(*blocks: str) -> bytes:
    return ('<osmChange version="0.6">' + ''.join(blocks) + '</osmChange>').encode()


class RevertTest(ServerTest):
    """A changeset of the mapper, which is then taken back by another folder."""

    town = AREA

    def setUp(self) -> None:
        super().setUp()
        self.database = self.server.database
        self.before = {key: element.content for key, element in self.theirs().items()}

    def changeset(self, *blocks: str, closed: bool = True) -> str:
        """The number of a changeset with these parts of an osmChange document, `@` standing for its
        number.
        """
        number = self.database.create_changeset(MAPPER, b'<osm><changeset/></osm>')
        for block in blocks:
            self.database.upload(number, MAPPER, document(block.replace('@', str(number))))
        if closed:
            self.database.close_changeset(number, MAPPER)
        return str(number)

    def revert(self, *numbers: str) -> int:
        """The exit code; `reverted` is what it printed, and `notes` what it said on the error
        stream.
        """
        code = self.ask('revert', *numbers)
        self.reverted, self.notes = self.out, self.err
        return code

    def sent_back(self, *numbers: str) -> None:
        """Reverts without a conflict, and sends."""
        self.assertEqual(0, self.revert(*numbers), self.out + self.err)
        self.assertEqual(0, self.send(), self.out + self.err)

    def assert_as_before(self, *keys: str) -> None:
        there = self.theirs()
        for key in keys:
            self.assertEqual(self.before[key], there[key].content, key)
            self.assertTrue(there[key].visible, key)


def node(number: int, version: int, lon: str = '13.001', **tags: str) -> str:
    inner = ''.join(f'<tag k="{key}" v="{value}"/>' for key, value in tags.items())
    return (
        f'<node id="{number}" version="{version}" changeset="@" lat="52" lon="{lon}">{inner}</node>'
    )


def modify(*elements: str) -> str:
    return '<modify>' + ''.join(elements) + '</modify>'


def delete(*keys: str) -> str:
    """The part that deletes elements, each as `n1v1`."""
    kinds = {'n': 'node', 'w': 'way', 'r': 'relation'}
    parts = [(kinds[key[0]], *key[1:].split('v')) for key in keys]
    inner = ''.join(
        f'<{kind} id="{number}" version="{version}" changeset="@"/>'
        for kind, number, version in parts
    )
    return f'<delete>{inner}</delete>'


class OneChangeset(RevertTest):
    def test_tags_and_places_go_back(self) -> None:
        number = self.changeset(modify(node(1, 1, a='2', name='x'), node(2, 1, lon='13.9', a='1')))
        self.sent_back(number)
        self.assert_as_before(*self.before)
        self.assertIn(f'changeset {number}: 2 objects: 2 as before', self.reverted)

    def test_deleted_objects_come_back_under_their_ids(self) -> None:
        number = self.changeset(
            delete('r3v1'), delete('w1v1', 'w2v1'), delete('n3v1', 'n4v1', 'n6v1')
        )
        self.sent_back(number)
        self.assert_as_before(*self.before)
        there = self.theirs()
        self.assertEqual([3, 3, 3], [there[key].version for key in ('n3', 'w1', 'r3')])
        self.assertFalse(any('yoke:revert' in element.tags for element in there.values()))

    def test_what_it_made_is_deleted(self) -> None:
        number = self.changeset('<create>' + node(-1, 0, lon='13.1', shop='junk') + '</create>')
        made = self.database.history[-1].element.key
        self.sent_back(number)
        self.assertFalse(self.theirs()[made].visible)
        self.assert_as_before(*self.before)

    def test_made_relations_in_a_ring_are_deleted(self) -> None:
        number = self.changeset(
            '<create><relation id="-1" version="0" changeset="@"><tag k="type" v="x"/></relation></create>',
            '<create><relation id="-2" version="0" changeset="@"><member type="relation" ref="1000" role=""/></relation></create>',
            modify(
                '<relation id="1000" version="1" changeset="@"><member type="relation" ref="1001" role=""/></relation>'
            ),
        )
        self.sent_back(number)
        self.assertEqual([False, False], [self.theirs()[key].visible for key in ('r1000', 'r1001')])

    def test_deleted_relations_in_a_ring_come_back_by_two_uploads(self) -> None:
        number = self.changeset(
            modify('<relation id="1" version="1" changeset="@"/>'), delete('r2v1', 'r1v2')
        )
        self.assertEqual(0, self.revert(number), self.out + self.err)
        self.assertIn('after the send: yoke do day/revert-rest.script', self.out)
        self.assertEqual(0, self.send(), self.out + self.err)
        self.done('do', 'day/revert-rest.script')
        self.assertEqual(0, self.send(), self.out + self.err)
        self.assert_as_before(*self.before)

    def test_what_others_did_to_other_parts_stays(self) -> None:
        number = self.changeset(modify(node(1, 1, a='2')))
        self.server.edit('modify', 'n1', tags={'a': '2', 'phone': '7'})
        self.sent_back(number)
        self.assertEqual({'a': '1', 'phone': '7'}, self.theirs()['n1'].tags)
        self.assertIn('joined n1', self.reverted)

    def test_what_others_did_to_the_same_part_is_a_conflict(self) -> None:
        number = self.changeset(modify(node(1, 1, a='2')))
        self.server.edit('modify', 'n1', tags={'a': '3'})
        self.assertEqual(Clash.code, self.revert(number))
        self.assertIn('a: was 2, mine 1, theirs 3', self.out)
        self.done('resolve', 'n1', 'theirs')
        self.assertEqual(0, self.send(), self.err)
        self.assertEqual({'a': '3'}, self.theirs()['n1'].tags)

    def test_somebody_took_it_back_already(self) -> None:
        number = self.changeset(modify(node(1, 1, a='2')))
        self.server.edit('modify', 'n1', tags={'a': '1'})
        self.assertEqual(0, self.revert(number), self.out)
        self.assertIn('1 nothing to do', self.out)
        self.assertIn('0 edited', self.out)

    def test_a_deleted_object_that_is_there_again(self) -> None:
        number = self.changeset(delete('n6v1'))
        self.server.edit('modify', 'n6', tags={'shop': 'books'}, place=('13.006', '52'))
        self.assertEqual(0, self.revert(number), self.out)
        self.assertIn('1 deleted in them, and there again already', self.out)

    def test_what_somebody_uses_by_now_isnt_deleted(self) -> None:
        number = self.changeset('<create>' + node(-1, 0, lon='13.1', shop='junk') + '</create>')
        made = self.database.history[-1].element
        self.server.edit(
            'create', 'r-1', tags={'type': 'site'}, members=[('node', made.number, '')]
        )
        self.assertEqual(Clash.code, self.revert(number), self.out)
        self.assertIn('the server uses it now', self.out)

    def test_others_deleted_what_comes_back_needs(self) -> None:
        number = self.changeset(delete('r3v1'), delete('w1v1', 'w2v1'))
        self.server.edit('delete', 'n3')
        self.sent_back(number)
        self.assert_as_before(*self.before)
        self.assertIn('1 deleted by others since, and needed', self.reverted)

    def test_made_and_deleted_in_it(self) -> None:
        number = self.changeset(
            '<create>' + node(-1, 0, lon='13.1', x='y') + '</create>', delete('n1000v1')
        )
        self.assertEqual(0, self.revert(number), self.out)
        self.assertIn('1 made and deleted in them', self.out)
        self.assertIn('0 edited', self.out)

    def test_another_mappers_version_in_between_is_kept(self) -> None:
        number = self.changeset(modify(node(1, 1, a='2')), closed=False)
        self.server.edit('modify', 'n1', tags={'a': '2', 'b': 'other'})
        self.database.upload(
            int(number), MAPPER, document(modify(node(1, 3, a='3', b='other')).replace('@', number))
        )
        self.sent_back(number)
        self.assertEqual({'a': '2', 'b': 'other'}, self.theirs()['n1'].tags)
        self.assertIn('others changed it between two changes', self.notes)

    def test_an_open_changeset_is_told(self) -> None:
        number = self.changeset(modify(node(1, 1, a='2')), closed=False)
        self.assertEqual(0, self.revert(number), self.out)
        self.assertIn('is still open', self.err)

    def test_a_tag_with_an_empty_value_is_left_out_and_named(self) -> None:
        number = self.changeset(
            modify(node(5, 1, lon='13.005', a='2', empty='x'), node(1, 1, a='2'))
        )
        self.assertEqual(Clash.code, self.revert(number))
        self.assertIn('left out n5: no step gives a tag that is there an empty value', self.out)
        self.assertIn('1 as before', self.out)


class Redacted(RevertTest):
    def test_an_object_whose_version_is_hidden_is_left_out(self) -> None:
        number = self.changeset(modify(node(1, 1, a='2'), node(2, 1, lon='13.002', a='2')))
        self.database.versions['n1'].pop(0)
        self.assertEqual(Clash.code, self.revert(number))
        self.assertIn('left out n1: the server doesn\'t show its version 1', self.out)
        self.assertEqual(0, self.send(), self.err)
        self.assert_as_before('n2')

    def test_what_needs_a_hidden_version_is_left_out_too(self) -> None:
        number = self.changeset(delete('r3v1'), delete('w1v1', 'w2v1'), delete('n3v1', 'n4v1'))
        self.database.versions['n3'].pop(0)
        self.assertEqual(Clash.code, self.revert(number))
        for key, missing in (('w1', 'n3'), ('w2', 'n3'), ('r3', 'w1')):
            self.assertIn(
                f'left out {key}: it would refer to {missing}, which is deleted and can\'t come back',
                self.out,
            )
        self.assertEqual(0, self.send(), self.err)
        self.assert_as_before('n4')


class SeveralChangesets(RevertTest):
    def test_they_go_back_as_one(self) -> None:
        first = self.changeset(delete('r3v1'), delete('w1v1', 'w2v1'))
        second = self.changeset(delete('n3v1', 'n4v1'), modify(node(1, 1, a='2')))
        third = self.changeset(modify(node(1, 2, a='3')))
        self.assertEqual(0, self.revert(third, first, second, first), self.out + self.err)
        self.assertEqual(0, self.send(), self.err)
        self.assert_as_before(*self.before)

    def test_what_the_second_one_brought_back_stays_if_the_first_ones_objects_need_it(self) -> None:
        first = self.changeset(delete('r3v1'), delete('w1v1', 'w2v1'))
        self.server.edit('delete', 'n4')
        second = self.changeset(modify(node(4, 2, lon='13.0044')))
        self.assertEqual(4, self.revert(first, second), self.out + self.err)
        self.assertIn('left out n4: it stays, because w', self.out)
        self.assertEqual(0, self.send(), self.err)
        self.assert_as_before('w1', 'w2', 'r3')
        self.assertEqual('13.0044000', degrees(self.theirs()['n4'].lon))

    def test_what_another_changeset_uses_that_is_looked_at_stays(self) -> None:
        first = self.changeset(
            '<create>' + node(-1, 0, lon='13.1') + node(-2, 0, lon='13.2') + '</create>'
        )
        way = self.server.edit('create', 'w-1', nodes=[1000, 1])
        second = self.changeset(
            modify(
                f'<relation id="3" version="1" changeset="@"><member type="way" ref="{way[1:]}" role=""/></relation>'
            )
        )
        self.assertEqual(4, self.revert(first, second), self.out + self.err)
        self.assertIn(f'left out n1000: it stays, because {way} uses it', self.out)
        self.assertEqual(0, self.send(), self.err)
        self.assert_as_before('r3')
        self.assertEqual([True, False], [self.theirs()[key].visible for key in ('n1000', 'n1001')])


class Refusals(RevertTest):
    def test_words_that_are_no_changeset(self) -> None:
        for word in ('x', '-3', '²', ''):
            self.assertEqual(Usage.code, self.revert('--', word), word)

    def test_a_changeset_without_changes(self) -> None:
        self.assertEqual(Refused.code, self.revert(self.changeset()))
        self.assertIn('it has no changes', self.err)

    def test_a_folder_that_is_in_use(self) -> None:
        number = self.changeset(modify(node(1, 1, a='2')))
        self.begin(town=AREA)
        self.assertEqual(Refused.code, self.revert(number))
        self.assertEqual('start', self.day.last().verb)

    def test_undo_gives_the_session_before(self) -> None:
        number = self.changeset(modify(node(1, 1, a='2')))
        self.assertEqual(0, self.revert(number))
        self.done('undo')
        self.assertEqual([], [known.key for known in self.session.known().values() if known.edit])


class Stops(RevertTest):
    def left(self) -> tuple[str, ...]:
        """The verbs of the sessions of the day, the text of the last one, and the script of the
        rest.
        """
        return (
            *(state.verb for state in self.day.states()),
            self.day.last().text(),
            self.day.read('revert-rest.script') or '',
        )

    def test_the_same_command_goes_on_after_a_stop_at_each_step(self) -> None:
        number = self.changeset(
            modify('<relation id="1" version="1" changeset="@"/>'), delete('r2v1', 'r1v2')
        )
        self.assertEqual(0, self.revert(number), self.out + self.err)
        whole = self.left()
        for last in itertools.count(1):
            shutil.rmtree('day')
            with stop_at(last) as steps:
                try:
                    self.revert(number)
                    break
                except Stopped:
                    pass
            with self.subTest(at=steps.names[-1]):
                was_done = [state.verb for state in self.day.states()][1:] == ['revert']
                self.assertEqual(
                    Refused.code if was_done else 0, self.revert(number), self.out + self.err
                )
                self.assertEqual(whole, self.left())
        self.assertIn('after write 000002-revert.saved.new 000002-revert.saved', steps.names)

    def test_a_stop_while_what_was_left_is_removed(self) -> None:
        number = self.changeset(
            modify('<relation id="1" version="1" changeset="@"/>'), delete('r2v1', 'r1v2')
        )
        self.assertEqual(0, self.revert(number), self.out + self.err)
        whole = self.left()
        os.remove('day/000002-revert.saved')
        shutil.copytree('day', 'begun')
        for last in range(
            1, 7
        ):  # of files that are there: three, with a step before and after each
            shutil.rmtree('day')
            shutil.copytree('begun', 'day')
            with self.subTest(last=last):
                with stop_at(last) as steps, self.assertRaises(Stopped):
                    self.revert(number)
                self.assertIn(' remove ', steps.names[-1] + ' ')
                self.assertEqual(0, self.revert(number), self.out + self.err)
                self.assertEqual(whole, self.left())

    def test_what_was_done_there_since_stays(self) -> None:
        number = self.changeset(modify(node(1, 1, a='2')))
        self.assertEqual(0, self.revert(number), self.out + self.err)
        os.remove('day/000002-revert.saved')
        self.write('steps.script', 'tag n1 Ta=9\n')
        self.done('do', 'steps.script')
        self.assertEqual(Refused.code, self.revert(number))
        self.assertIn('a day has begun', self.err)
        self.assertEqual('do', self.day.last().verb)


class Rings(unittest.TestCase):
    def test_keys_that_reach_each_other_have_one_number(self) -> None:
        ring = plan._rings(
            {
                'r1': ['r2'],
                'r2': ['r3', 'r1'],
                'r3': [],
                'r4': ['r1', 'r4'],
                'r5': ['r6'],
                'r6': ['r5'],
            }
        )
        groups: dict[int, set[str]] = {}
        for key, number in ring.items():
            groups.setdefault(number, set()).add(key)
        self.assertEqual(
            [{'r1', 'r2'}, {'r3'}, {'r4'}, {'r5', 'r6'}], sorted(groups.values(), key=min)
        )


if __name__ == '__main__':
    unittest.main()
