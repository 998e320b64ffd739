"""`yoke send`: what goes out, what is refused, and that nothing goes out twice, wherever it ends.

The rows are those of the table in `yoke/sending.py`.
"""
import itertools
import json
import os
import shutil
import unittest
from unittest import mock

from yoke import api
from yoke.sending import SILENCES
from yoke.testing.database import Refusal
from yoke.testing.server import MAPPER, User
from yoke.tests.stops import Stopped, stop_at
from yoke.tests.support import ServerTest
from yoke.trouble import Busy, Clash, Later, NoAnswer, Refused, ServerRefused, Trouble, Usage

EDITS = [
    'node x13.004 y52 Tamenity=bench',
    'way Thighway=footway Nn3,n-1',
    'tag w5 Tsurface=asphalt',
    'tag n8 Tbackrest=yes',
    'delete r9',
]


class SendTest(ServerTest):
    """A day with five changes, to be sent."""

    edits, chunk = EDITS, '2'

    def setUp(self):
        super().setUp()
        self.begin(*self.edits)

    def send(self, *given):
        return super().send('--chunk', self.chunk, *given)

    def is_all_there(self):
        """Each change is at the server once, and the session has nothing left to send."""
        self.assertEqual([], self.server.created_twice())
        self.assertEqual(
            sorted(['create', 'create', 'modify', 'modify', 'delete']),
            sorted(change.verb for change in self.server.history),
        )
        theirs = self.theirs()
        self.assertFalse(theirs['r9'].visible)
        self.assertEqual('asphalt', theirs['w5'].tags['surface'])
        self.assertEqual('yes', theirs['n8'].tags['backrest'])
        (way,) = (
            element for element in theirs.values() if element.tags.get('highway') == 'footway'
        )
        self.assertEqual({'amenity': 'bench'}, theirs[f'n{way.nodes[1]}'].tags)
        for known in self.session.known().values():
            self.assertIsNone(known.edit, known.key)
            self.assertEqual(theirs[known.key].version, known.base.version)

    def is_at_rest(self):
        """No document is out, and no changeset open."""
        self.assertIsNone(self.day.pending())
        self.assertIsNone(self.day.read('changeset'))
        for changeset in self.server.database.changesets.values():
            if changeset.changes:
                self.assertIsNotNone(changeset.closed_at)

    def goes_on(self):
        """The same command again does the rest."""
        self.server.faults.clear()
        self.assertEqual(0, self.send(), self.err)
        self.is_all_there()
        self.is_at_rest()


class Whole(SendTest):
    def test_all_goes_out_in_chunks(self):
        self.assertEqual(0, self.send('--source', 'survey', '--tag', 'import=yes'), self.err)
        self.is_all_there()
        self.is_at_rest()
        self.assertEqual(
            f'5 changes sent in changeset 1\n{self.server.address}/changeset/1\nnothing is left to send\n',
            self.out,
        )
        self.assertEqual(3, self.server.requests.count('upload'))
        changeset = self.server.database.changesets[1]
        self.assertEqual(
            {
                'created_by': api.CREATED_BY,
                'comment': 'a test',
                'source': 'survey',
                'import': 'yes',
            },
            changeset.tags,
        )
        self.assertEqual(3, self.err.count('changeset 1: '))
        self.assertEqual(0, self.send())
        self.assertEqual('0 changes sent\nnothing is left to send\n', self.out)
        self.assertEqual(1, len(self.server.database.changesets))

    def test_dry_asks_no_server(self):
        self.assertEqual(0, self.yoke('send', '--dry'))
        self.assertIn('5 changes would be sent: 2 new, 2 changed, 1 deleted\n', self.out)
        self.assertIn('create n-1 ', self.out)
        self.assertEqual([], self.server.requests)
        self.assertIsNone(self.day.pending())

    def test_what_the_words_lack(self):
        for given, said in [
            ((), '-m'),
            (('-m', ' '), '-m'),
            (('-m', 'x' * 256), '255'),
            (('-m', 'x', '--tag', 'a'), 'KEY=VALUE'),
            (('-m', 'x', '--chunk', '0'), '10,000'),
            (('-m', 'x', '--chunk', '10001'), '10,000'),
        ]:
            self.assertEqual(Usage.code, self.ask('send', *given))
            self.assertIn(said, self.err)
        self.assertEqual(Usage.code, self.yoke('send', '-m', 'x'))
        self.assertIn('--api', self.err)
        with mock.patch.dict(os.environ):
            del os.environ['YOKE_TOKEN']
            self.assertEqual(Usage.code, self.send())
            self.assertIn('YOKE_TOKEN', self.err)
        self.assertEqual([], self.server.requests)

    def test_a_token_in_a_file_that_others_cannot_read(self):
        self.write('token', os.environ.pop('YOKE_TOKEN') + '\n')
        self.addCleanup(os.environ.pop, 'YOKE_TOKEN', None)
        os.chmod('token', 0o640)
        self.assertEqual(Trouble.code, self.send('--token-file', 'token'))
        self.assertIn('chmod 600', self.err)
        os.chmod('token', 0o600)
        self.assertEqual(0, self.send('--token-file', 'token'), self.err)
        self.is_all_there()

    def test_a_server_that_takes_no_edits(self):
        with mock.patch(
            'yoke.testing.database.Database.capabilities',
            lambda database: b'<osm><api><changesets maximum_elements="9"/><status api="readonly"/></api></osm>',
        ):
            self.assertEqual(NoAnswer.code, self.send())
        self.assertEqual([], self.server.history)
        self.goes_on()

    def test_a_server_of_another_day(self):
        self.assertEqual(0, self.send())
        other = self.serve()
        self.do('tag n1 Tref=7')
        self.assertEqual(Trouble.code, self.yoke('send', '-m', 'x', '--api', other.api))
        self.assertIn(self.server.api, self.err)
        self.assertEqual([], other.requests)
        self.assertEqual(Trouble.code, self.yoke('refresh', '--api', other.api))
        self.assertEqual([], other.requests)

    def test_a_server_that_nothing_was_sent_to_does_not_bind_the_day(self):
        other = self.serve()
        other.faults.by_chance('500-before', 1.0, 0, 'capabilities')
        self.assertEqual(NoAnswer.code, self.yoke('send', '-m', 'x', '--api', other.api))
        self.assertEqual(0, self.yoke('refresh', '--api', other.api), self.err)
        self.goes_on()

    def test_a_server_that_opens_no_changeset_does_not_bind_the_day(self):
        other = self.serve()
        with mock.patch.dict(os.environ, YOKE_TOKEN='another'):
            self.assertEqual(ServerRefused.code, self.yoke('send', '-m', 'x', '--api', other.api))
        self.goes_on()

    def test_a_text_that_the_api_does_not_take(self):
        self.do('tag n1 Tnote=a%1%b')
        self.assertEqual(Refused.code, self.send('--chunk', '10000'))
        self.assertIn('n1: a text has U+0001', self.err)
        self.assertEqual([], self.server.history)
        self.do('tag n1 Tnote=')
        self.goes_on()

    def test_a_conflict_stands(self):
        self.write('later.opl', 'n8 v3 x13.002 y52.001 Tamenity=bench,backrest=no\n')
        self.do('download later.opl')
        self.assertEqual(Clash.code, self.send())
        self.assertIn('yoke resolve', self.err)
        self.assertEqual([], self.server.history)


class Changesets(SendTest):
    limits = {'changeset_elements': 3}

    def test_a_full_one_is_closed_and_another_one_opened(self):
        self.assertEqual(0, self.send(), self.err)
        self.is_all_there()
        self.is_at_rest()
        self.assertEqual(
            [3, 2], [changeset.changes for changeset in self.server.database.changesets.values()]
        )

    def test_one_that_is_full_sooner_than_the_server_says(self):
        self.server.before(
            'upload', 2, lambda: setattr(self.server.limits, 'changeset_elements', 2)
        )
        self.assertEqual(0, self.send(), self.err)
        self.is_all_there()
        self.is_at_rest()

    def test_one_that_is_closed_in_between(self):
        self.server.before(
            'upload', 2, lambda: setattr(self.server.database.changesets[1], 'closed_at', 1.0)
        )
        self.assertEqual(0, self.send(), self.err)
        self.is_all_there()
        self.is_at_rest()

    def test_two_that_are_closed_before_they_have_a_change_with_a_silence_between(self):
        def close():
            list(self.server.database.changesets.values())[-1].closed_at = 1.0

        self.server.before('upload', 1, close)
        self.server.faults.once('500-before', 'upload', 1)
        self.server.before('upload', 3, close)
        self.assertEqual(0, self.send(), self.err)
        self.is_all_there()
        self.is_at_rest()

    def test_a_document_that_is_too_large_goes_out_in_halves(self):
        self.server.limits.changeset_elements = 100
        self.server.before(
            'upload', 1, lambda: setattr(self.server.limits, 'changeset_elements', 1)
        )
        self.assertEqual(0, self.send(), self.err)
        self.is_all_there()

    def test_one_of_another_account_is_left_alone(self):
        self.server.before('upload', 2, lambda: setattr(self.server, 'users', {}))
        self.assertEqual(ServerRefused.code, self.send())
        self.server.users = {'another': User(7, 'another')}
        with mock.patch.dict(os.environ, YOKE_TOKEN='another'):
            self.assertEqual(0, self.send('--as', 'another'), self.err)
        self.assertEqual(
            ['mapper', 'another'],
            [changeset.user.name for changeset in self.server.database.changesets.values()],
        )
        self.assertEqual(5, len(self.server.history))
        self.assertIsNone(self.day.read('changeset'))

    def test_one_of_another_account_with_a_document_out(self):
        self.server.faults.once('drop-after', 'upload')
        self.server.faults.by_chance('500-before', 1.0, 0, 'download')
        self.assertEqual(NoAnswer.code, self.send())
        self.server.users['another'] = User(7, 'another')
        with mock.patch.dict(os.environ, YOKE_TOKEN='another'):
            self.assertEqual(ServerRefused.code, self.send('--as', 'another'))
        self.assertIn('own that changeset', self.err)
        self.assertEqual('000002.osc', self.day.pending())
        self.goes_on()

    def test_one_with_changes_that_nobody_confirmed(self):
        """A copy of the day sent in it: nothing goes out before somebody looked."""
        self.server.edit('modify', 'n8', tags={'amenity': 'bench', 'backrest': 'no'})
        self.assertEqual(Clash.code, self.send())
        number = json.loads(self.day.read('changeset'))['number']
        self.server.database.upload(
            int(number),
            MAPPER,
            '<osmChange><create><node id="-1" lat="3" lon="3" changeset="{}"/></create></osmChange>'.format(
                number
            ).encode(),
        )
        count = self.server.requests.count('upload')
        self.assertEqual(Trouble.code, self.send())
        self.assertIn('day/changeset', self.err)
        self.assertEqual(count, self.server.requests.count('upload'))

    def test_another_comment_opens_another_one(self):
        self.server.edit('modify', 'n8', tags={'amenity': 'bench', 'backrest': 'no'})
        self.assertEqual(Clash.code, self.send())
        self.assertEqual('2', json.loads(self.day.read('changeset'))['number'])
        self.assertEqual(Clash.code, self.ask('refresh'))
        self.done('resolve', 'n8', 'mine')
        self.assertEqual(0, self.ask('send', '-m', 'another one'), self.err)
        self.assertEqual(
            ['a test', 'another one'],
            [
                changeset.tags['comment']
                for changeset in list(self.server.database.changesets.values())[1:]
            ],
        )
        self.is_at_rest()


class Refusals(SendTest):
    def refused_and_gone_on(self, said):
        """Somebody was faster; after a refresh all goes out."""
        self.assertEqual(Clash.code, self.send(), self.err)
        self.assertIn(said, self.err)
        self.assertIn('yoke refresh', self.err)
        self.assertIsNone(self.day.pending())

    def test_409(self):
        self.server.before(
            'upload',
            2,
            lambda: self.server.edit(
                'modify', 'w5', tags={'highway': 'residential', 'name': 'Main Street'}
            ),
        )
        self.refused_and_gone_on('Version mismatch')
        self.assertEqual(0, self.ask('refresh'), self.out + self.err)
        self.assertEqual(0, self.send(), self.err)
        self.assertEqual(
            {'highway': 'residential', 'name': 'Main Street', 'surface': 'asphalt'},
            self.theirs()['w5'].tags,
        )
        self.assertEqual([], self.server.created_twice())
        self.is_at_rest()

    def test_a_proxy_that_sends_a_document_twice_before_a_download_that_lags_behind(self):
        """The second time is refused by a 409; the changeset counts the first, which makes a new
        object.
        """
        act = self.server.database.upload

        def twice(*given):
            act(*given)
            return act(*given)

        self.chunk = '1000'
        with mock.patch.object(self.server.database, 'upload', twice), mock.patch.object(
            self.server.database, 'download', lambda number: b'<osmChange/>'
        ):
            self.assertEqual(NoAnswer.code, self.send())
        self.assertIn('doesn\'t show them yet', self.err)
        self.assertEqual('000002.osc', self.day.pending())
        self.goes_on()

    def test_410(self):
        self.server.before('upload', 3, lambda: self.server.edit('delete', 'r9'))
        self.refused_and_gone_on('has already been deleted')
        self.assertEqual(0, self.ask('refresh'), self.out + self.err)
        self.assertEqual(0, self.send(), self.err)
        self.is_at_rest()

    def test_412_for_a_user_that_the_session_does_not_know(self):
        self.server.edit('create', 'r-1', members=[('relation', 9, '')], tags={'type': 'network'})
        self.refused_and_gone_on('is used in relation 1000')
        self.assertIn('yoke refresh r1000', self.err)
        self.assertEqual(Clash.code, self.ask('refresh', 'r1000'), self.out + self.err)
        self.assertIn('r9', self.out)
        self.done('resolve', 'r9', 'theirs')
        self.assertEqual(0, self.send(), self.err)
        self.assertTrue(self.theirs()['r9'].visible)

    def test_a_token_that_the_server_does_not_know(self):
        with mock.patch.dict(os.environ, YOKE_TOKEN='another'):
            self.assertEqual(ServerRefused.code, self.send())
        self.assertIn('token', self.err)
        self.assertNotIn('another', self.err.replace('another one', ''))
        self.goes_on()

    def test_a_token_that_is_taken_away_in_between(self):
        users = self.server.users
        self.server.before('upload', 2, lambda: setattr(self.server, 'users', {}))
        self.assertEqual(ServerRefused.code, self.send())
        self.assertIsNone(self.day.pending())
        self.server.users = users
        self.goes_on()

    def test_400_keeps_the_document(self):
        self.server.before('upload', 1, lambda: setattr(self.server.limits, 'text', 4))
        self.assertEqual(ServerRefused.code, self.send())
        self.assertTrue((self.folder / 'day' / '000002.refused').exists())
        self.assertIsNone(self.day.pending())
        self.server.limits.text = 255
        self.goes_on()

    def test_429_waits(self):
        self.server.limits.retry_after = 7
        self.server.faults.once('429-before', 'upload')
        self.server.faults.once('429-before', 'upload', 1)
        self.assertEqual(0, self.send(), self.err)
        self.assertEqual([7, 7], self.waited)
        self.assertIn('asks to wait 7 s', self.err)
        self.is_all_there()
        self.is_at_rest()

    def test_429_without_end(self):
        self.server.limits.user_changes = 2
        self.server.limits.retry_after = 600
        self.assertEqual(Later.code, self.send())
        self.assertEqual([600], self.waited)
        self.assertIn('it asks to wait 600 s, and 300 s are left to wait', self.err)
        self.server.limits.user_changes = None
        self.goes_on()

    def test_an_answer_of_another_server(self):
        self.server.edit('create', 'n-1', place=('1', '1'))  # id 1000 is given
        with mock.patch.object(
            self.server.database, 'last', {'node': 7, 'way': 1000, 'relation': 1000}
        ):
            self.assertEqual(
                Trouble.code, self.send()
            )  # and the bench gets n8, which is there already
        self.assertIn('n8', self.err)
        self.assertIsNotNone(self.day.pending())


FAULTS = [
    'close-before',
    'drop-after',
    'half-after',
    '500-before',
    '500-after',
    '504-before',
    '504-after',
]
OPERATIONS = ['capabilities', 'details', 'permissions', 'create', 'upload', 'close']


class Silence(SendTest):
    """No answer comes."""

    limits = {'changeset_elements': 3}

    def test_each_fault_at_each_call(self):
        self.assertEqual(0, self.send())
        counts = {operation: self.server.requests.count(operation) for operation in OPERATIONS}
        cases = [
            (fault, operation, skip)
            for operation in OPERATIONS
            for fault in FAULTS
            for skip in range(counts[operation])
        ]
        self.assertGreater(len(cases), 50)
        for fault, operation, skip in cases:
            with self.subTest(fault=fault, operation=operation, skip=skip):
                self.again()
                self.server.faults.once(fault, operation, skip)
                code = self.send()
                self.assertIn(code, (0, NoAnswer.code), self.err)
                if operation == 'upload':
                    self.assertEqual(0, code, self.err)
                self.assertEqual([f'{fault} {operation}'], self.server.faults.met)
                self.goes_on()

    def again(self):
        """The day and the server as they were before the first send."""
        shutil.rmtree('day')
        self.server.__exit__()
        self.server = self.serve(**self.limits)
        self.begin(*self.edits)

    def test_no_answer_and_then_no_look_either(self):
        for fault, taken in [('drop-after', True), ('500-before', False)]:
            with self.subTest(fault):
                self.again()
                self.server.faults.once(fault, 'upload')
                for operation in ('download', 'changeset'):
                    self.server.faults.by_chance('500-before', 1.0, 0, operation)
                self.assertEqual(NoAnswer.code, self.send())
                self.assertEqual('000002.osc', self.day.pending())
                self.assertEqual(taken, bool(self.server.history))
                self.assertEqual(NoAnswer.code, self.yoke('do', 'steps.script'))
                self.assertEqual(Refused.code, self.yoke('undo'))
                self.assertEqual(NoAnswer.code, self.ask('refresh'))
                self.done('status')
                self.assertIn('isn\'t known', self.out)
                self.assertEqual('000002.osc', self.day.pending())
                self.goes_on()

    def test_a_server_that_answers_no_document(self):
        self.server.faults.by_chance('504-before', 1.0, 0, 'upload')
        self.assertEqual(NoAnswer.code, self.send())
        self.assertEqual(SILENCES, self.server.requests.count('upload'))
        self.assertIsNone(self.day.pending())
        self.goes_on()

    def test_a_document_still_at_work_when_it_is_looked_for(self):
        """The answer is a 504, the document is taken after the first look, and the close waits for
        it.
        """
        self.again()
        act = self.server.database.upload
        late = []

        def upload(number, user, text):
            late.append(lambda: act(number, user, text))
            raise ConnectionError()

        def first_look():
            self.server.database.upload = act
            self.assertEqual([], self.server.history)

        def before_close():
            late.pop()()

        self.server.database.upload = upload
        self.server.after('download', 1, first_look)
        self.server.before('close', 1, before_close)
        self.assertEqual(0, self.send(), self.err)
        self.is_all_there()
        self.is_at_rest()

    def test_a_document_that_comes_after_the_close_is_not_taken(self):
        self.again()
        act, late = self.server.database.upload, []

        def upload(number, user, text):
            late.append((number, user, text))
            self.server.database.upload = act
            raise ConnectionError()

        self.server.database.upload = upload
        self.assertEqual(0, self.send(), self.err)
        with self.assertRaisesRegex(Exception, 'was closed'):
            act(*late.pop())
        self.is_all_there()

    def test_a_close_that_is_refused_while_a_document_is_at_work(self):
        """The server answers 409 to the close, which isn't the 409 of a closed changeset, and takes
        the document after that.
        """
        database = self.server.database
        act, close, late = database.upload, database.close_changeset, []

        def upload(number, user, text):
            late.append(lambda: act(number, user, text))
            raise ConnectionError()

        def refuse(number, user):
            if late:
                if len(self.waited) == 2:
                    late.pop()()
                raise Refusal(409, f'Changeset {number} is locked by another process')
            close(number, user)

        database.upload, database.close_changeset = upload, refuse
        self.server.after('close', 3, lambda: setattr(database, 'upload', act))
        self.assertEqual(0, self.send(), self.err)
        self.assertEqual([5, 15], self.waited[:2])
        self.is_all_there()
        self.is_at_rest()

    def test_a_changeset_that_stays_at_work(self):
        self.server.faults.once('500-before', 'upload')
        with mock.patch.object(
            self.server.database,
            'close_changeset',
            side_effect=Refusal(409, 'Changeset 1 is locked by another process'),
        ):
            self.assertEqual(NoAnswer.code, self.send())
        self.assertIn('still at work', self.err)
        self.assertEqual('000002.osc', self.day.pending())
        self.goes_on()

    def test_a_changeset_with_changes_of_somebody_else(self):
        self.server.faults.once('500-before', 'upload')

        def other():
            self.server.database.upload(
                1,
                MAPPER,
                b'<osmChange><create><node id="-1" lat="3" lon="3" changeset="1"/></create></osmChange>',
            )

        self.server.before('upload', 1, other)
        self.assertEqual(Trouble.code, self.send())
        self.assertIn('has 1 changes, and 0 were confirmed', self.err)
        self.assertEqual('000002.osc', self.day.pending())

    def test_a_changeset_that_cannot_be_looked_into(self):
        """The version that a change would have made tells; of new objects the changeset alone."""
        self.chunk = '3'
        for chunk, fault, skip in [
            ('3', 'drop-after', 1),
            ('3', '500-before', 1),
            ('3', '500-before', 0),
            ('2', '500-before', 0),
        ]:
            with self.subTest(chunk=chunk, fault=fault, skip=skip):
                self.again()
                self.chunk = chunk
                self.server.faults.once(fault, 'upload', skip)
                self.server.faults.by_chance('504-before', 1.0, 0, 'download')
                self.assertEqual(0, self.send(), self.err)
                self.is_all_there()
                self.is_at_rest()
        self.again()
        self.server.faults.once('drop-after', 'upload')
        self.server.faults.by_chance('504-before', 1.0, 0, 'download')
        self.assertEqual(NoAnswer.code, self.send())
        self.assertEqual('000002.osc', self.day.pending())
        self.goes_on()

    def test_a_download_that_lags_behind(self):
        """The changeset counts what the download doesn't show yet: nothing goes out again."""
        self.server.faults.once('drop-after', 'upload')
        with mock.patch.object(self.server.database, 'download', lambda number: b'<osmChange/>'):
            self.assertEqual(NoAnswer.code, self.send())
        self.assertIn('doesn\'t show them yet', self.err)
        self.assertEqual(
            (1, '000002.osc'), (self.server.requests.count('upload'), self.day.pending())
        )
        self.goes_on()

    def test_a_redirection_in_the_place_of_an_answer(self):
        self.server.faults.once('302-after', 'upload')
        self.assertEqual(0, self.send(), self.err)
        self.is_all_there()
        self.is_at_rest()

    def test_a_changeset_that_the_server_has_forgotten(self):
        self.server.before('upload', 2, lambda: self.server.database.changesets.clear())
        self.assertEqual(ServerRefused.code, self.send())
        self.assertIsNotNone(self.day.read('changeset'))
        self.assertEqual(0, self.send(), self.err)
        self.is_all_there()

    def test_a_proxy_that_sends_a_document_twice(self):
        """The second time is refused by a 409, and the first one counts."""
        act = self.server.database.upload

        def twice(*given):
            act(*given)
            return act(*given)

        self.yoke('undo')
        self.do('members r9 Mw5@,n1@')
        self.server.database.upload = twice
        self.assertEqual(0, self.send(), self.err)
        self.assertEqual(['r9'], [change.element.key for change in self.server.history])
        self.is_at_rest()


class Alike(ServerTest):
    """New objects of one content, in several chunks of one changeset, with answers lost."""

    def test_they_are_told_apart(self):
        self.begin(*['node x13.004 y52 Tnatural=tree'] * 5, 'way Tbarrier=fence Nn-1,n-3,n-5')
        for skip in range(3):
            self.server.faults.once('drop-after' if skip != 1 else '500-before', 'upload', skip)
        self.assertEqual(0, self.send('--chunk', '2'), self.err)
        theirs = self.theirs()
        self.assertEqual(5, sum(element.tags == {'natural': 'tree'} for element in theirs.values()))
        (way,) = (element for element in theirs.values() if element.tags.get('barrier'))
        mine = next(
            known.mine
            for known in self.session.known().values()
            if known.mine and known.mine.tags.get('barrier')
        )
        self.assertEqual([f'n{number}' for number in way.nodes], list(mine.nodes))


class Locks(SendTest):
    def test_two_at_once(self):
        with self.day.locked():
            for verb in (
                ['send', '-m', 'x', '--api', self.server.api],
                ['refresh', '--api', self.server.api],
                ['do', 'steps.script'],
                ['undo'],
                ['resolve', 'n8', 'mine'],
                ['start', 'town.opl'],
            ):
                self.assertEqual(Busy.code, self.yoke(*verb), verb)
                self.assertIn('another yoke works in day', self.err)
            self.done('status')
        self.assertEqual([], self.server.history)
        self.goes_on()


class Stops(SendTest):
    """The program ends at any step, and the next start goes on."""

    limits = {'changeset_elements': 3}

    def again(self):
        shutil.rmtree('day')
        shutil.copytree('begun', 'day')
        self.server.__exit__()
        self.server = self.serve(**self.limits)

    def stopped(self, last):
        """Whether a send stops at its step with this number."""
        with stop_at(last) as steps:
            try:
                self.assertEqual(0, self.send(), self.err)
                return None
            except Stopped:
                return steps.names[-1]

    def setUp(self):
        super().setUp()
        shutil.copytree('day', 'begun')

    def test_at_each_step(self):
        rows = set()
        for last in itertools.count(1):
            self.again()
            name = self.stopped(last)
            rows.add(self.row())
            if name is None:
                break
            with self.subTest(last=last, at=name):
                self.goes_on()
        self.assertGreater(last, 45)
        self.assertEqual({1, 2, 3, 4}, rows)

    def row(self):
        """The row of the table in which the day is."""
        last, day = self.day.last(), self.day
        if day.read(day.beside(last, 'answer')) is not None:
            return 4
        if day.pending():
            return 3
        return 2 if day.read('changeset') else 1

    def test_at_two_steps(self):
        """The start after the first stop is stopped too."""
        for first, second in [
            (first, second)
            for first in range(1, 70, 3)
            for second in range(1, 30, 2)
            if (first + second) % 5 == 0
        ]:
            self.again()
            if self.stopped(first) is None:
                break
            with self.subTest(first=first, second=second):
                self.stopped(second)
                self.goes_on()

    def test_while_a_lost_answer_is_looked_for(self):
        for fault in ('drop-after', '500-before', '504-after'):
            for last in itertools.count(12):
                self.again()
                self.server.faults.once(fault, 'upload', 1)
                name = self.stopped(last)
                if name is None:
                    break
                with self.subTest(fault=fault, last=last, at=name):
                    self.goes_on()
            self.assertGreater(last, 45)


if __name__ == '__main__':
    unittest.main()
