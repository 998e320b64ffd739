"""`yoke refresh`: what is asked for, and what becomes of it."""
import os
import unittest
from unittest import mock

from yoke import api
from yoke.tests.support import TOWN, ServerTest
from yoke.trouble import Clash, NoAnswer, Trouble, Usage


class Refresh(ServerTest):
    def setUp(self):
        super().setUp()
        self.asked = []
        once = api.Server._once
        patch = mock.patch.object(
            api.Server,
            '_once',
            lambda server, method, path, *rest: (
                self.asked.append(path),
                once(server, method, path, *rest),
            )[1],
        )
        patch.start()
        self.addCleanup(patch.stop)

    def test_it_asks_for_what_is_edited_and_what_that_uses(self):
        self.begin('tag w5 Tsurface=asphalt', 'node x13 y52 T', 'way T Nn3,n-1', 'delete n8')
        self.assertEqual(0, self.ask('refresh'), self.err)
        self.assertEqual(
            ['/nodes?nodes=1,2,3,8', '/ways?ways=5', '/node/8/ways', '/node/8/relations'],
            self.asked,
        )
        self.assertEqual('5 objects asked for, 0 newer ones merged\n', self.out)
        self.assertEqual('do', self.day.last().verb)

    def test_nothing_edited_asks_nothing(self):
        self.begin()
        self.assertEqual(0, self.ask('refresh'))
        self.assertEqual([], self.asked)

    def test_other_parts_are_joined(self):
        self.begin('tag w5 Tsurface=asphalt')
        self.server.edit(
            'modify', 'w5', tags={'highway': 'residential', 'name': 'Main Street'}, nodes=[1, 2, 3]
        )
        self.assertEqual(0, self.ask('refresh'), self.out + self.err)
        self.assertIn('1 newer ones merged', self.out)
        mine = self.session.known()['w5'].mine
        self.assertEqual(
            (
                {'highway': 'residential', 'name': 'Main Street', 'surface': 'asphalt'},
                ('n1', 'n2', 'n3'),
            ),
            (mine.tags, mine.nodes),
        )
        self.assertEqual('refresh', self.day.last().verb)

    def test_no_file_of_another_name_is_touched_in_the_folder(self):
        self.begin('tag w5 Tsurface=asphalt')
        self.server.edit('modify', 'w5', tags={'highway': 'residential', 'name': 'Main Street'})
        self.write('day/fresh.opl', 'an extract of somebody\'s own')
        self.assertEqual(0, self.ask('refresh'), self.out + self.err)
        self.assertEqual('an extract of somebody\'s own', self.day.read('fresh.opl'))
        self.assertEqual(
            [
                '000001-start.saved',
                '000002-do.saved',
                '000003-refresh.saved',
                'extracts',
                'fresh.opl',
                'lock',
                'server',
            ],
            sorted(os.listdir('day')),
        )

    def test_conflicts_are_shown_and_asked_for_again(self):
        self.begin('tag n8 Tbackrest=yes')
        self.server.edit('modify', 'n8', tags={'amenity': 'bench', 'backrest': 'no'})
        self.assertEqual(Clash.code, self.ask('refresh'))
        self.assertIn('backrest: was (none), mine yes, theirs no', self.out)
        self.assertIn('yoke resolve n8 mine', self.out)
        self.server.edit('modify', 'n8', tags={'amenity': 'bench', 'backrest': 'yes'})
        self.assertEqual(0, self.ask('refresh'), self.out)
        self.assertIsNone(self.session.known()['n8'].edit)

    def test_what_is_deleted_there_comes_as_deleted(self):
        self.begin('delete n8', 'tag n3 Tref=7')
        self.server.edit('delete', 'n8')
        self.server.edit('delete', 'n3')
        self.assertEqual(Clash.code, self.ask('refresh'))
        self.assertIn('2 newer ones merged', self.out)
        self.assertIn(
            'n3 ref=7: changed here, and somebody deleted it\n    here from version 1; the server has version 2 by somebody, deleted\n    mine ref: 7\n',
            self.out,
        )
        known = self.session.known()
        self.assertEqual((None, 3), (known['n8'].edit, known['n8'].base.version))
        self.done('resolve', 'n3', 'theirs')
        self.assertEqual(0, self.send(), self.err)
        self.assertEqual(2, len(self.server.history))

    def test_what_somebody_uses_now_that_is_deleted_here(self):
        self.begin('delete n3')
        self.server.edit('create', 'w-1', nodes=[1, 3])
        self.assertEqual(Clash.code, self.send())
        self.assertIn('yoke refresh w1000', self.err)
        for keys in ((), ('w1000',)):
            self.assertEqual(Clash.code, self.ask('refresh', *keys))
            self.assertIn('n3: deleted here, and the server uses it now', self.out)
            self.done('undo')

    def test_who_uses_what_is_deleted_here_is_asked_at_once(self):
        self.begin('delete n3,n8', 'delete r9', 'delete w5')
        self.server.edit('create', 'w-1', nodes=[1, 3], tags={'highway': 'path'})
        self.server.edit('create', 'r-1', members=[('node', 8, 'seat'), ('way', 5, '')])
        self.server.edit('modify', 'n1', tags={'ref': '1'})
        self.assertEqual(Clash.code, self.ask('refresh'))
        self.assertIn('6 objects asked for, 2 newer ones merged', self.out)
        self.assertEqual(
            {'n3': 'withdrawn', 'n8': 'withdrawn', 'w5': 'withdrawn'},
            {
                key: known.conflict
                for key, known in self.session.known().items()
                if known.conflict != 'none'
            },
        )
        self.assertEqual({'highway': 'path'}, self.session.known()['w1000'].mine.tags)

    def test_who_uses_what_is_deleted_here_is_asked_of_what_the_server_has_alone(self):
        self.begin('delete n8,n3')
        self.server.edit('delete', 'n8')
        self.assertEqual(0, self.ask('refresh'), self.err)
        self.assertEqual(['/nodes?nodes=3,8', '/node/3/ways', '/node/3/relations'], self.asked)

    def test_who_uses_them_is_not_asked_of_too_many(self):
        for count, calls in ((50, 101), (51, 1)):
            town = ''.join(f'n{number} v1 x1 y{number / 1000}\n' for number in range(1, count + 1))
            self.town, self.server = town, None
            self.server = self.serve()
            self.write('town.opl', town)
            self.done('start', 'town.opl', '--day', str(count))
            self.write(
                'steps.script',
                'delete {}\n'.format(','.join(f'n{number}' for number in range(1, count + 1))),
            )
            self.done('do', 'steps.script', '--day', str(count))
            del self.asked[:]
            self.assertEqual(0, self.ask('refresh', '--day', str(count)), self.err)
            self.assertEqual(calls, len(self.asked))
            self.assertEqual(count > 50, 'too many to ask who uses each' in self.err)

    def test_an_object_by_its_key(self):
        self.begin()
        self.server.edit('modify', 'n1', tags={'ref': '9'})
        self.assertEqual(0, self.ask('refresh', 'n1', 'r9'))
        self.assertEqual(['/nodes?nodes=1', '/relations?relations=9'], self.asked)
        self.assertEqual({'ref': '9'}, self.session.known()['n1'].mine.tags)
        for key in ('x1', 'n-1', 'n', '1', 'n1x'):
            self.assertEqual(Usage.code, self.ask('refresh', key))

    def test_a_reference_to_what_is_deleted_there_and_unknown_here(self):
        """The extract has no w5; the edited relation refers to it, and somebody deleted both."""
        relation = 'r9 v1 Ttype=route Mw5@\n'
        self.begin('tag r9 Tref=7', town=relation)
        self.server.edit('delete', 'r9')
        self.server.edit('delete', 'w5')
        self.assertEqual(Clash.code, self.ask('refresh'))
        self.done('resolve', 'r9', 'mine')
        self.assertNotEqual(0, self.send())
        self.assertIn('yoke refresh w5', self.err)
        self.assertEqual(Clash.code, self.ask('refresh', 'w5'), self.out + self.err)
        self.assertIn(
            'w5 is deleted at {}, and r9 still refers to it: leave the reference out'.format(
                self.server.api
            ),
            self.out,
        )
        self.assertEqual(0, self.ask('refresh'), self.out)

    def test_ids_that_never_existed_are_found_by_halves(self):
        self.begin('tag w5 Tref=7', town=TOWN + 'n77 v1 x1 y1\nw78 v1 Nn77,n1\n')
        self.do('tag n77 Tref=7', 'tag w78 Tref=7')
        self.server.edit('modify', 'w5', tags={'name': 'Main Street'})
        self.assertEqual(Clash.code, self.ask('refresh'))
        self.assertIn('n77 never existed', self.out)
        self.assertIn('w78 never existed', self.out)
        self.assertIn('1 newer ones merged', self.out)

    def test_another_server_than_that_of_the_extract(self):
        town = ''.join(f'n{number} v1 x1 y{number / 100}\n' for number in range(5000, 5100))
        self.begin(*(f'tag n{number} Tref=7' for number in range(5000, 5100)), town=town)
        self.assertEqual(Trouble.code, self.ask('refresh'))
        self.assertIn('is it the server that the extract is of?', self.err)
        self.assertLess(len(self.asked), 80)

    def test_many_objects_come_in_several_calls(self):
        town = ''.join(f'n{number} v1 x1 y{number / 1000}\n' for number in range(1, 1001))
        self.town, self.server = town, None
        self.server = self.serve()
        self.begin(*(f'tag n{number} Tref=7' for number in range(1, 1001)), town=town)
        self.assertEqual(0, self.ask('refresh'), self.err)
        self.assertEqual(3, len(self.asked))
        self.assertLess(max(map(len, self.asked)), 6000)

    def test_no_answer_keeps_nothing(self):
        self.begin('tag n8 Tbackrest=yes')
        self.server.edit('modify', 'n8', tags={'amenity': 'bench', 'ref': '1'})
        self.server.faults.by_chance('500-before', 1.0, 0, 'many')
        self.assertEqual(NoAnswer.code, self.ask('refresh'))
        self.assertEqual([1, 5, 25], self.waited)
        self.assertEqual('do', self.day.last().verb)
        self.server.faults.clear()
        for fault in ('half-after', 'close-before', '509-before', '504-after'):
            self.server.faults.once(fault, 'many')
        self.assertEqual(0, self.ask('refresh'), self.err)

    def test_one_version_told_in_two_ways(self):
        """A server whose version is another one than the extract has: the versions are alike, so
        nothing is merged.
        """
        self.begin('tag n8 Tbackrest=yes', town=TOWN.replace('n8 v2', 'n8 v3'))
        self.assertEqual(0, self.ask('refresh'), self.err)
        self.assertIn('0 newer ones', self.out)

    def test_words(self):
        self.begin()
        self.assertEqual(Usage.code, self.yoke('refresh'))
        self.assertIn('--api', self.err)


class SendAndRefresh(ServerTest):
    """`yoke send --refresh` goes on by itself, as far as nobody has to choose."""

    def test_somebody_was_faster(self):
        self.begin('tag w5 Tsurface=asphalt', 'tag n8 Tbackrest=yes')
        self.server.before(
            'upload',
            1,
            lambda: self.server.edit(
                'modify', 'w5', tags={'highway': 'residential', 'name': 'Main Street'}
            ),
        )
        self.server.before(
            'upload',
            2,
            lambda: self.server.edit('modify', 'n8', tags={'amenity': 'bench', 'ref': '7'}),
        )
        self.assertEqual(0, self.send('--refresh'), self.err)
        self.assertIn(
            'joined w5 Main Street: both sides changed it, in unlike parts; version 4 by somebody\n',
            self.out,
        )
        self.assertEqual(
            self.theirs()['w5'].tags,
            {'highway': 'residential', 'name': 'Main Street', 'surface': 'asphalt'},
        )
        self.assertEqual(
            self.theirs()['n8'].tags, {'amenity': 'bench', 'ref': '7', 'backrest': 'yes'}
        )
        self.assertEqual(
            (2, 1), (self.server.answers['upload 409'], self.server.answers['upload 200'])
        )

    def test_a_conflict_ends_it(self):
        self.begin('tag n8 Tbackrest=yes', 'tag w5 Tsurface=asphalt')
        self.server.before(
            'upload',
            1,
            lambda: self.server.edit('modify', 'n8', tags={'amenity': 'bench', 'backrest': 'no'}),
        )
        self.assertEqual(Clash.code, self.send('--refresh'))
        self.assertIn('backrest: was (none), mine yes, theirs no', self.out)
        self.assertIn('1 in conflict: yoke resolve, and send again', self.err)
        self.assertEqual(1, len(self.server.history))
        self.assertEqual(Clash.code, self.send('--refresh'))
        self.done('resolve', 'n8', 'theirs')
        self.assertEqual(0, self.send('--refresh'), self.err)
        self.assertEqual(self.theirs()['n8'].tags['backrest'], 'no')

    def test_users_that_the_session_does_not_know(self):
        self.begin('delete n3')
        self.server.edit('create', 'w-1', nodes=[1, 3])
        self.assertEqual(Clash.code, self.send('--refresh'))
        self.assertIn('n3: deleted here, and the server uses it now', self.out)
        self.done('resolve', 'n3', 'theirs')
        self.assertEqual(0, self.send('--refresh'), self.err)
        self.assertTrue(self.server.database.is_there('n3'))

    def test_deleted_by_both(self):
        for says in (True, False):
            with self.subTest(says=says):
                self.server.limits.says_what_is_gone = says
                key = 'n8' if says else 'r9'
                if says:
                    self.begin('delete n8')
                else:
                    self.do('delete r9')
                self.server.edit('delete', key)
                self.assertEqual(0, self.send('--refresh'), self.err)
                self.assertIn('410', self.err)
                self.assertIn('nothing is left to send', self.out)

    def test_what_brings_nothing_newer_ends_it(self):
        self.begin('tag n8 Tbackrest=yes', town=self.town.replace('n8 v2', 'n8 v3'))
        self.assertEqual(Clash.code, self.send('--refresh'))
        self.assertIn('Version mismatch: Provided 3, server had: 2 of Node 8', self.err)
        self.assertEqual(1, self.server.answers['upload 409'])

    def test_without_it_a_send_ends(self):
        self.begin('tag w5 Tsurface=asphalt')
        self.server.edit('modify', 'w5', tags={'highway': 'residential', 'name': 'Main Street'})
        self.assertEqual(Clash.code, self.send())
        self.assertEqual('do', self.day.last().verb)

    def test_it_ends_where_somebody_never_stops(self):
        self.begin('tag w5 Tsurface=asphalt')
        self.server.watch = lambda when, operation: (when, operation) == (
            'before',
            'upload',
        ) and self.server.edit(
            'modify', 'w5', tags={'highway': 'residential', 'note': str(len(self.server.history))}
        )
        self.assertEqual(Clash.code, self.send('--refresh'))
        self.assertEqual(21, self.server.answers['upload 409'])


if __name__ == '__main__':
    unittest.main()
