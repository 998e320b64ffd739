"""`yoke send` at a server with limits: by time, by the size of a document, by the box of a
changeset, and by who sends.
"""
from __future__ import annotations

import json
import os
import re
import unittest
from unittest import mock

from yoke import api, extent, stored
from yoke.api import Account
from yoke.testing.server import TOKEN, User
from yoke.tests.support import ServerTest
from yoke.trouble import Later, NoAnswer, Refused, ServerRefused, Trouble, Usage

ANOTHER = 'token-of-another'


def nodes(count: int, step: float = 0.0001) -> list[str]:
    """Steps that make nodes in a row to the east."""
    return [f'node x{13 + number * step:.7f} y52 Tref={number}' for number in range(count)]


class LimitsTest(ServerTest):
    """A server whose clock goes on while yoke waits."""

    def setUp(self) -> None:
        super().setUp()
        self.now = 100_000.0
        self.server.database.clock = lambda: self.now

        def wait(seconds: float) -> None:
            self.waited.append(seconds)
            self.now += seconds

        patch = mock.patch('yoke.api.pause', wait)
        patch.start()
        self.addCleanup(patch.stop)

    def send(self, *given: str) -> int:
        """The exit code of a send, which doesn't look at what stands there already: that asks the
        server too.
        """
        code: int = super().send('--unseen', *given)
        return code

    def sizes(self) -> list[int]:
        """How many changes each document had that was taken."""
        found = [
            json.loads(size)
            for size in re.findall(r'changeset [0-9]+: ([0-9]+) changes taken', self.err)
        ]
        self.assertEqual(len(self.server.history), sum(found))
        return found

    def is_all_sent(self, count: int) -> None:
        """Each edit is at the server once, and nothing is left."""
        self.assertEqual(count, len(self.server.history))
        self.assertEqual([], self.server.created_twice())
        self.assertIsNone(self.day.pending())
        self.assertIsNone(self.day.read('changeset'))
        self.assertEqual([], [key for key, known in self.session.known().items() if known.edit])


class ByTime(LimitsTest):
    def test_a_document_that_is_larger_than_an_hour_takes(self) -> None:
        """The server doesn't say how long to wait: the documents get smaller, and nothing is lost
        where the send ends.
        """
        self.begin(*nodes(30))
        self.server.limits.changes_per_hour, self.server.limits.retry_after = 10, None
        self.assertEqual(Later.code, self.send('--chunk', '30'), self.err)
        self.assertEqual(10, len(self.server.history))
        self.assertIn('doesn\'t say how long: run the same command again later', self.err)
        self.assertLessEqual(sum(self.waited), api.PATIENCE)
        self.assertEqual(0, self.send('--chunk', '30', '--wait', '6h'), self.err)
        self.is_all_sent(30)

    def test_the_first_document_is_halved_until_it_fits(self) -> None:
        self.begin(*nodes(8))
        self.server.limits.user_changes = 3
        self.server.limits.retry_after = None
        self.assertEqual(Later.code, self.send('--chunk', '8'), self.err)
        self.assertEqual([2, 1], self.sizes())
        self.assertEqual([10, 20, 10, 20, 10, 20, 40, 80, 160, 320], self.waited)

    def test_chunks_grow_again(self) -> None:
        self.begin(*nodes(30))
        self.server.limits.retry_after = 5
        for _ in range(3):
            self.server.faults.once('429-before')
        self.assertEqual(0, self.send('--chunk', '16'), self.err)
        self.assertEqual([2, 4, 8, 16], self.sizes())
        self.assertEqual([5, 5, 5], self.waited)
        self.is_all_sent(30)

    def test_the_server_says_when_there_is_room_again(self) -> None:
        self.begin(*nodes(25))
        self.server.limits.changes_per_hour = 10
        self.assertEqual(Later.code, self.send('--chunk', '10'), self.err)
        self.assertRegex(
            self.err,
            r'it asks to wait 3[0-9]{3} s, and 900 s are left to wait: run the same command again after [0-9:]+',
        )
        self.assertEqual(10, len(self.server.history))
        self.assertEqual(0, self.send('--chunk', '10', '--wait', '1d'), self.err)
        self.is_all_sent(25)

    def test_without_patience_it_ends_at_once(self) -> None:
        self.begin(*nodes(4))
        self.server.faults.once('429-bare-before')
        self.assertEqual(Later.code, self.send('--wait', '0'))
        self.assertEqual([], self.waited)
        self.assertIsNone(self.day.pending())
        self.assertEqual(0, self.send())
        self.is_all_sent(4)

    def test_a_document_that_a_proxy_sent_twice_is_not_sent_again(self) -> None:
        """The first copy is taken, and the second one is refused by a 429, or for its size."""
        self.begin(*nodes(6))
        for kind in ('429-before', '429-bare-before', '413-before', '413-box-before'):
            with self.subTest(kind):
                act = self.server.database.upload

                def twice(number: int, user: User, text: bytes) -> bytes:
                    act(number, user, text)
                    self.server.database.upload = act
                    raise self.server_refusal(kind)

                self.server.database.upload = twice
                self.assertEqual(0, self.send(), self.err)
                self.assertEqual([], self.server.created_twice())
                self.do('node x13.5 y52.5 Tref=' + kind)
        self.assertEqual(9, len(self.server.history))

    def server_refusal(self, kind: str) -> Exception:
        """What the strict server raises for a fault."""
        from yoke.testing import server

        return server.REFUSALS[kind](self.server.limits)


class BySize(LimitsTest):
    def test_a_document_with_too_many_changes_is_halved_for_good(self) -> None:
        self.begin(*nodes(12))
        self.server.before(
            'upload', 1, lambda: setattr(self.server.limits, 'changeset_elements', 4)
        )
        self.assertEqual(0, self.send('--chunk', '12'), self.err)
        self.is_all_sent(12)
        self.assertEqual([3, 3, 3, 3], self.sizes())

    def test_a_single_change_that_is_too_large(self) -> None:
        self.begin(*nodes(1))
        for kind in ('413-before', '413-box-before'):
            self.server.faults.once(kind)
            self.assertEqual(ServerRefused.code, self.send(), self.err)
            self.assertIn('create n-1 is one change, and too large by itself', self.err)
            self.assertIsNone(self.day.pending())
        self.assertEqual(0, self.send(), self.err)
        self.is_all_sent(1)

    def test_the_two_refusals_are_told_apart(self) -> None:
        self.begin(*nodes(4))
        self.server.faults.once('413-box-before')
        self.assertEqual(0, self.send(), self.err)
        self.assertIn('would span too large an area', self.err)
        self.assertNotIn('--chunk', self.err)
        self.do(*nodes(4))
        self.server.faults.once('413-before')
        self.assertEqual(0, self.send(), self.err)
        self.assertIn('it calls what was sent too large', self.err)


class ByBox(LimitsTest):
    """Edits in a row to the east, and a server whose changesets may span little of it."""

    def changesets(self) -> list[tuple[int, int]]:
        """How many changes each changeset has, and the extent of its box."""
        return [
            (one.changes, one.box.extent if one.box else 0)
            for one in self.server.database.changesets.values()
        ]

    def test_the_limit_of_the_server_is_found(self) -> None:
        """Few documents are refused, no changeset stays empty, and the documents aren't smaller
        than they have to be.
        """
        self.begin(*nodes(200, 0.01))
        self.server.limits.changeset_extent = '0.3'
        self.assertEqual(0, self.send('--chunk', '50'), self.err)
        self.is_all_sent(200)
        found = self.changesets()
        self.assertLessEqual(len(found), 10)
        self.assertTrue(all(changes and span <= 3_000_000 for changes, span in found), found)
        self.assertLessEqual(self.server.answers['upload 413'], 3)
        self.assertLessEqual(len(self.server.requests), 50)

    def test_a_limit_of_the_user(self) -> None:
        self.begin(*nodes(40, 0.01))
        self.assertEqual(0, self.send('--max-extent', '0.1'), self.err)
        self.is_all_sent(40)
        self.assertEqual([(11, 1_000_000)] * 3 + [(7, 600_000)], self.changesets())
        self.assertEqual(0, self.server.answers['upload 413'])

    def test_the_box_of_a_changeset_grows_from_one_document_to_the_next(self) -> None:
        self.begin(*nodes(40, 0.01))
        self.assertEqual(0, self.send('--max-extent', '0.1', '--chunk', '3'), self.err)
        self.is_all_sent(40)
        self.assertTrue(all(span <= 1_000_000 for _, span in self.changesets()))
        self.assertEqual(4, len(self.changesets()))

    def test_a_changeset_that_was_left_open_is_not_measured(self) -> None:
        self.begin(*nodes(6, 0.01))
        self.server.faults.once('403-scope-before', 'upload', 1)
        self.assertEqual(ServerRefused.code, self.send('--chunk', '2', '--max-extent', '1'))
        self.assertEqual(2, len(self.server.history))
        self.assertEqual(0, self.send('--chunk', '2', '--max-extent', '1'), self.err)
        self.is_all_sent(6)
        self.assertEqual([2, 4], [changes for changes, _ in self.changesets()])

    def test_a_change_that_spans_more_goes_out_alone(self) -> None:
        self.begin(
            'way Thighway=path Nn1,n3',
            'node x13.5 y52 Tref=1',
            'node x14.5 y52 Tref=2',
            'way Thighway=path Nn-2,n-3',
        )
        self.assertEqual(0, self.send('--max-extent', '0.1'), self.err)
        self.is_all_sent(4)
        self.assertEqual([(1, 0), (1, 0), (1, 10_000_000), (1, 20_000)], self.changesets())

    def test_boxes_are_those_of_the_server(self) -> None:
        """What yoke reckons before is what the server finds after."""
        self.begin(
            'tag n1 Tref=1',
            'move n2 0.5 0.25',
            'node x13.004 y52 Tref=2',
            'way Thighway=path Nn3,n-1',
            'tag r9 Tref=3',
            'delete n8',
        )
        chunk = self.session.ask(['upload 100']).first_chunk()
        box = extent.Boxes(stored.Stored(self.day.last().path)).of_all(chunk)
        self.assertEqual(0, self.send(), self.err)
        self.assertEqual(tuple(self.server.database.changesets[1].box), tuple(box))

    def test_words(self) -> None:
        for given in ('0', '-1', 'x', '1e3', '0.00000001', ''):
            self.assertEqual(Usage.code, self.send('--max-extent', given))


class Accounts(LimitsTest):
    def setUp(self) -> None:
        super().setUp()
        self.begin('tag n1 Tref=1')
        self.server.users[ANOTHER] = User(7, 'another')

    def as_another(self, *given: str) -> int:
        with mock.patch.dict(os.environ, YOKE_TOKEN=ANOTHER):
            return self.send(*given)

    def test_the_name_is_shown_and_tied_to_the_day(self) -> None:
        self.assertEqual(0, self.send(), self.err)
        self.assertIn('yoke: sends as mapper\n', self.err)
        self.assertEqual({'number': 1001, 'name': 'mapper'}, json.loads(self.day.read('account')))
        self.do('tag n2 Tref=2')
        self.assertEqual(Trouble.code, self.as_another())
        self.assertIn('this day sends as mapper, and the token is of the account another', self.err)
        self.assertEqual(1, len(self.server.history))
        self.assertEqual(0, self.as_another('--as', 'another'), self.err)
        self.assertEqual(['mapper', 'another'], [change.user for change in self.server.history])
        self.assertEqual(Account(7, 'another'), Account(**json.loads(self.day.read('account'))))

    def test_as_a_name(self) -> None:
        for given in ('another', 'Mapper', 'map'):
            self.assertEqual(Refused.code, self.send('--as', given))
            self.assertIn(f'the token is of the account mapper, and not of {given}', self.err)
        self.assertNotIn('create', self.server.requests)
        self.assertEqual(0, self.send('--as', 'mapper'), self.err)

    def test_a_day_to_which_nothing_was_sent_is_nobodys(self) -> None:
        self.server.faults.once('403-scope-before', 'create')
        self.assertEqual(ServerRefused.code, self.send())
        self.assertIsNone(self.day.read('account'))
        self.assertEqual(0, self.as_another(), self.err)

    def test_an_account_that_gets_another_name_is_the_same(self) -> None:
        self.assertEqual(0, self.send())
        self.server.users[TOKEN] = User(1001, 'renamed')
        self.do('tag n2 Tref=2')
        self.assertEqual(0, self.send(), self.err)
        self.assertEqual('renamed', json.loads(self.day.read('account'))['name'])

    def test_a_token_that_may_not_edit(self) -> None:
        self.server.scopes[TOKEN] = ('read_prefs',)
        self.assertEqual(ServerRefused.code, self.send())
        self.assertIn('the token may not edit the map', self.err)
        self.assertNotIn('create', self.server.requests)

    def test_a_token_that_does_not_say_whose_it_is(self) -> None:
        self.server.scopes[TOKEN] = ('write_api',)
        self.assertEqual(Refused.code, self.send('--as', 'mapper'))
        self.assertIn('read_prefs', self.err)
        self.assertEqual(0, self.send(), self.err)
        self.assertIn('doesn\'t say whose the token is', self.err)

    def test_a_blocked_account(self) -> None:
        self.server.blocks['mapper'] = 'message'
        self.assertEqual(ServerRefused.code, self.send())
        self.assertIn('You have an urgent message', self.err)
        self.assertNotIn('create', self.server.requests)
        self.server.blocks.clear()
        self.server.before('upload', 1, lambda: self.server.blocks.update(mapper='block'))
        self.server.faults.once('403-block-before')
        self.assertEqual(ServerRefused.code, self.send())
        self.assertIn('Your access to the API has been blocked', self.err)
        self.assertIsNone(self.day.pending())

    def test_a_file_that_is_none(self) -> None:
        self.day.write('account', '{"number": []}')
        self.assertEqual(Trouble.code, self.send())
        self.assertIn('day/account doesn\'t say', self.err)

    def test_a_name_with_signs_of_a_terminal(self) -> None:
        self.server.users[TOKEN] = User(1001, 'a\x9b2J\u202eb')
        self.assertEqual(0, self.send(), self.err)
        self.assertIn('sends as a%9b%2J%202e%b', self.err)


class Tags(LimitsTest):
    def setUp(self) -> None:
        super().setUp()
        self.begin('tag n1 Tref=1')

    def test_what_the_options_say(self) -> None:
        self.assertEqual(
            0, self.send('--bot', '--import', '--review', '--tag', 'bot=yes'), self.err
        )
        tags = self.server.database.changesets[1].tags
        self.assertEqual({'created_by', 'comment', 'bot', 'import', 'review_requested'}, set(tags))
        self.assertEqual({'yes'}, {tags[key] for key in ('bot', 'import', 'review_requested')})

    def test_what_none_may_take_away(self) -> None:
        for given, said in [
            (('--tag', 'comment='), 'KEY=VALUE'),
            (('--tag', 'comment=x'), 'say it by -m'),
            (('--tag', 'created_by=JOSM'), 'it names the program'),
            (('--tag', 'source= '), 'KEY=VALUE'),
            (('--tag', '=x'), 'KEY=VALUE'),
            (('--bot', '--tag', 'bot=no'), 'something else'),
            (('--tag', 'a=b\x1b'), 'U+001B'),
            (('--source', 'a\x00b'), 'U+0000'),
            (('--source', 'M\udcfcnchen'), 'UTF-8'),
        ]:
            self.assertEqual(Usage.code, self.send(*given), given)
            self.assertIn(said, self.err)
        self.assertEqual(Usage.code, self.ask('send', '-m', 'M\udcfcnchen'))
        self.assertIn('isn\'t text in UTF-8', self.err)
        self.assertEqual([], self.server.requests)

    def test_links(self) -> None:
        self.assertEqual(0, self.send())
        self.assertIn(f'{self.server.address}/changeset/1\n', self.out)


class Redactions(LimitsTest):
    def test_a_change_that_was_hidden_before_its_answer_came(self) -> None:
        """The answer is lost; somebody changes the object, and a moderator hides the version that
        was sent.
        """
        self.begin('tag n1 Tref=1', 'tag n2 Tref=2')

        def hide() -> None:
            self.server.edit('modify', 'n1', tags={'ref': 'theirs'})
            self.server.database.redact('n1', 2)

        self.server.faults.once('drop-after')
        self.server.before('download', 1, hide)
        self.assertEqual(0, self.send(), self.err)
        self.assertEqual(3, len(self.server.history))
        self.assertIsNone(self.day.pending())

    def test_a_version_that_is_asked_for_and_hidden_tells_nothing(self) -> None:
        self.begin('tag n1 Tref=1')

        def hide() -> None:
            self.server.edit('modify', 'n1', tags={'ref': 'theirs'})
            self.server.database.redact('n1', 2)

        self.server.faults.once('drop-after')
        self.server.faults.by_chance('500-before', 1.0, 0, 'download')
        self.server.before('version', 1, hide)
        self.assertEqual(NoAnswer.code, self.send(), self.err)
        self.assertIsNotNone(self.day.pending())
        self.server.faults.clear()
        self.assertEqual(0, self.send(), self.err)
        self.assertEqual(2, len(self.server.history))


if __name__ == '__main__':
    unittest.main()
