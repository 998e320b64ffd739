"""`yoke review`: its server, decisions, and the script that they become."""

from __future__ import annotations

import http.client
import json
import os
import pathlib
import threading
import unittest
from typing import Any
from unittest import mock

from yoke import table
from yoke.review import decisions as decided
from yoke.review import shown
from yoke.review.around import Around
from yoke.review.items import USERS, collect
from yoke.review.reviewing import Impossible, Questions, Review
from yoke.review.server import Server, tile_source
from yoke.tests.support import FolderTest, ServerTest
from yoke.trouble import Busy, Refused, Trouble, Usage

TOWN = '''n1 v1 x13.001 y52
n2 v1 x13.002 y52
n3 v1 x13.003 y52
n4 v1 x13.004 y52
n5 v1 x13.001 y52.001
n6 v1 x13.002 y52.001
n8 v2 x13.002 y52.002 Tamenity=bench
w5 v3 Thighway=residential,name=High%20%Street Nn1,n2,n3,n4
w6 v1 Tbuilding=yes Nn1,n5,n6,n1
r9 v1 Ttype=route Mw5@
'''
HOSTILE_NAME = '%3c%script%3e%alert%3c%/script%3e%%202e%x%7%'


class ReviewTest(FolderTest):
    """A small town that is edited, and a review of it."""

    def review(self, *lines: str, **options: Any) -> Review:
        """A review of the session, after these steps."""
        if lines:
            self.do(*lines)
        one = Review(self.session, 'review.decisions', **options)
        one.decisions.open()
        self.addCleanup(one.decisions.close)
        return one

    def setUp(self) -> None:
        super().setUp()
        self.begin(town=TOWN)


class Items(ReviewTest):
    def test_corners_are_no_items(self) -> None:
        one = self.review(
            'move w6 0.001 0',
            'erase w5',
            'begin',
            'node x13.1 y52 T',
            'node x13.2 y52 T',
            'way Thighway=path Nn-1,n-2,n1',
            'end',
        )
        self.assertEqual(['w5', 'w6', 'w-3', 'r9'], one.found.items)
        self.assertEqual({'w6'}, one.found.moved)
        self.assertEqual(['n-1', 'n-2'], one.found.corners['w-3'])
        self.assertEqual(['n2', 'n3', 'n4'], sorted(one.found.corners['w5']))
        self.assertEqual('w-3', one.found.item_of('n-1'))
        self.assertEqual('', one.found.item_of('n99'))

    def test_a_node_with_tags_and_a_node_that_nothing_uses_are_items(self) -> None:
        one = self.review('tag n5 Tentrance=yes', 'node x13.1 y52 T')
        self.assertEqual(['n5', 'n-1'], one.found.items)

    def test_what_the_page_gets(self) -> None:
        one = self.review('tag w5 Tsurface=asphalt,name=', 'place n8 x13.5 y52', 'erase w6')
        items = {item['key']: item for item in json.loads(json.dumps(one.ask_items(None)))['items']}
        self.assertEqual(['name', 'High Street', None, None], items['w5']['tags'][1])
        self.assertEqual(
            (['tags'], 'name: High Street → (none), surface: (none) → asphalt'),
            (items['w5']['parts'], items['w5']['kind']),
        )
        self.assertEqual(
            (['place'], [13.002, 52.002], [13.5, 52.0]),
            (items['n8']['parts'], items['n8']['before']['points'], items['n8']['after']['points']),
        )
        self.assertEqual(
            ('deleted', None, 2),
            (items['w6']['edit'], items['w6']['after'], items['w6']['corners']),
        )
        self.assertEqual('deleted way: building', items['w6']['kind'])

    def test_a_tag_that_is_called_as_a_part_is_no_part(self) -> None:
        self.do('tag n8 Tplace=mine')
        self.write('newer.opl', 'n8 v3 Tamenity=bench,place=theirs x13.002 y52.002\n')
        one = self.review('download newer.opl')
        item = shown.item_of(one.found, 'n8')
        self.assertEqual((['place'], ''), (item['clash_tags'], item['clash_part']))

    def test_hostile_texts_stay_texts(self) -> None:
        texts = [
            '<script>alert(1)</script>',
            '\u202egnp',
            '__proto__',
            '\u0000'[:0] + 'a\tb',
            '\U0001f6b2' * 40,
        ]
        self.write(
            'new.opl',
            ''.join(
                f'n-{at} T{key}={key} x13.1 y52\n'
                for at, key in enumerate((self.quoted(text) for text in texts), 1)
            ),
        )
        one = self.review('import new.opl')
        self.assertEqual(texts, [item['tags'][0][0] for item in one.ask_items(None)['items']])
        self.assertEqual(texts, [item['tags'][0][2] for item in one.ask_items(None)['items']])
        for line in self.done('review', '--list').splitlines():
            self.assertTrue(line.isprintable(), line)

    @staticmethod
    def quoted(text: str) -> str:
        return ''.join(
            sign if sign.isalnum() and sign < '\u0600' else f'%{ord(sign):x}%' for sign in text
        )

    def test_around(self) -> None:
        found = Around(table.read(self.day.last().text())).within((12.9, 51.9, 13.1, 52.1))
        self.assertEqual(
            ['building', 'highway', 'node'], sorted(shape[0] for shape in found['shapes'])
        )
        self.assertEqual(
            (False, []),
            (
                found['cut'],
                Around(table.read(self.day.last().text())).within((20, 10, 20.1, 10.1))['shapes'],
            ),
        )
        self.assertTrue(
            Around(table.read(self.day.last().text())).within((-180, -90, 180, 90))['cut']
        )
        with self.assertRaises(ValueError):
            Around(table.read(self.day.last().text())).within((float('nan'), 0, 1, 1))


class Decide(ReviewTest):
    """What is decided is on the disk when it counts, and holds for what was seen alone."""

    def lines(self) -> list[str]:
        return (self.folder / 'review.decisions').read_text(encoding='utf-8').splitlines()

    def test_they_are_kept_and_taken_up(self) -> None:
        one = self.review('tag n8 Ta=b', 'tag w5 Ta=b', 'tag w6 Ta=b')
        one.decide([('n8', 'accepted'), ('w5', 'rejected'), ('w6', 'accepted')])
        one.decide([('w6', 'undecided')])
        one.decisions.close()
        again = self.review()
        self.assertEqual({'n8': 'accepted', 'w5': 'rejected'}, again.decisions.how)
        self.assertEqual(6, len(self.lines()) + 1)

    def test_what_is_edited_since_is_decided_anew(self) -> None:
        one = self.review('tag n8 Ta=b', 'tag w5 Ta=b', 'move w6 0.001 0')
        one.decide([('n8', 'accepted'), ('w5', 'accepted'), ('w6', 'accepted')])
        one.decisions.close()
        again = self.review('tag w5 Ta=c', 'place n5 x13.5 y52')
        self.assertEqual(({'n8': 'accepted'}, 2), (again.decisions.how, again.decisions.stale))

    def test_stopped_at_each_byte(self) -> None:
        one = self.review('tag n8 Ta=b', 'tag w5 Ta=b')
        one.decide([('n8', 'accepted')])
        one.decide([('w5', 'rejected'), ('n8', 'rejected')])
        digests = one.decisions.digests
        one.decisions.close()
        whole = (self.folder / 'review.decisions').read_bytes()
        ends = [at + 1 for at, byte in enumerate(whole) if byte == 10]
        wanted = [
            {},
            {'n8': 'accepted'},
            {'n8': 'accepted', 'w5': 'rejected'},
            {'n8': 'rejected', 'w5': 'rejected'},
        ]
        for size in range(len(whole) + 1):
            (self.folder / 'cut').write_bytes(whole[:size])
            found = decided.Decisions('cut', digests)
            done = sum(end <= size for end in ends)
            self.assertIn(found.how, wanted[max(0, done - 1) : done + 1], size)
            found.open()
            found.decide([('w5', 'accepted')])
            found.close()
            self.assertEqual(
                {**found.how, 'w5': 'accepted'}, decided.Decisions('cut', digests).how, size
            )
            self.assertIn(
                '"how": "accepted", "at"',
                (self.folder / 'cut').read_text(encoding='utf-8').splitlines()[-1],
            )

    def test_nothing_counts_that_is_not_on_the_disk(self) -> None:
        one = self.review('tag n8 Ta=b')
        with mock.patch('yoke.review.decisions.os.fsync', side_effect=OSError('the disk is full')):
            with self.assertRaises(OSError):
                one.decide([('n8', 'rejected')])
        self.assertEqual({}, one.decisions.how)
        self.assertEqual('undecided', one.state_of('n8'))

    def test_it_is_on_the_disk_before_it_counts(self) -> None:
        one, seen = self.review('tag n8 Ta=b'), []
        with mock.patch(
            'yoke.review.decisions.os.fsync',
            lambda handle: seen.append((len(self.lines()), dict(one.decisions.how))),
        ):
            one.decide([('n8', 'rejected')])
        self.assertEqual([(2, {})], seen)

    def test_two_reviewers_on_one_file(self) -> None:
        one = self.review('tag n8 Ta=b')
        with self.assertRaisesRegex(Busy, 'another review decides in review.decisions'):
            Review(self.session, 'review.decisions').decisions.open()
        self.assertEqual(Busy.code, self.yoke('review', '--accept', 'n8'))
        one.decide([('n8', 'accepted')])
        one.decisions.close()
        self.done('review', '--reject', 'n8')
        self.assertEqual(
            'rejected', decided.Decisions('review.decisions', one.decisions.digests).how['n8']
        )

    def test_another_file_is_not_written_to(self) -> None:
        self.do('tag n8 Ta=b')
        for text in ('notes\n', '{"a": 1}\n', 'day'):
            self.write('review.decisions', text)
            self.assertEqual(Refused.code, self.yoke('review', '--accept', 'n8'), text)
            self.assertEqual(text, (self.folder / 'review.decisions').read_text(encoding='utf-8'))

    def test_what_is_no_decision(self) -> None:
        one = self.review('tag n8 Ta=b', 'tag w5 Ta=b,name=', 'begin', 'node x13.1 y52 Tb=c', 'end')
        for key, how in [
            ('n1', 'accepted'),
            ('n99', 'accepted'),
            ('n8', 'mine'),
            ('n8', 'rejected\nundo 1'),
            ('n8', ''),
            ('n8', 'without K'),
            ('n8', 'without Kamenity'),
            ('n8', 'without Ka,a'),
            ('n8', 'without Ka%0a%undo'),
            ('n8', 'without Knothing'),
        ]:
            with self.assertRaises(ValueError, msg=(key, how)):
                one.decide([('w5', 'accepted'), (key, how)])
        self.assertEqual({}, one.decisions.how)
        self.assertEqual(1, len(self.lines()))
        one.decide([('n8', 'without Ka'), ('w5', 'without Ka,name'), ('n-1', 'without Kb')])


class Scripts(ReviewTest):
    """The script of a review: what is rejected is as it was, all else is as it is."""

    def after(self, one: Review) -> dict[str, Any]:
        """The session after the script of the review."""
        said = one.finish()
        self.assertIn('wrote review.script', said)
        one.decisions.close()
        self.done('do', 'review.script')
        return dict(self.session.known())

    def test_each_kind_of_edit(self) -> None:
        one = self.review(
            'tag n8 Ta=b',
            'tag w5 Tsurface=asphalt',
            'erase w6',
            'node x13.1 y52 Tshop=x',
            'node x13.2 y52 Tshop=y',
        )
        one.decide(
            [
                ('w5', 'rejected'),
                ('w6', 'rejected'),
                ('n-1', 'rejected'),
                ('n8', 'accepted'),
                ('n-2', 'accepted'),
            ]
        )
        known = self.after(one)
        self.assertEqual(
            {'n8': 'changed', 'n-2': 'new'},
            {key: thing.edit for key, thing in known.items() if thing.edit},
        )

    def test_what_hangs_together_goes_together(self) -> None:
        one = self.review(
            'split w5 n2',
            'begin',
            'node x13.1 y52 Tshop=x',
            'node x13.2 y52 T',
            'way Thighway=path Nn-2,n-3,n1',
            'relation Ttype=site Mw-4@',
            'end',
        )
        one.decide([('w-1', 'rejected')])
        self.assertEqual({'w5': 'w-1', 'r9': 'w-1'}, one.with_others())
        one.decide([('w-1', 'undecided'), ('w-4', 'rejected')])
        self.assertEqual({'r-5': 'w-4', 'n-3': 'w-4'}, one.with_others())
        self.assertEqual('undecided', one.state_of('n-2'))
        one.decide([('w-4', 'undecided'), ('n-2', 'rejected')])
        self.assertEqual({'w-4': 'n-2', 'r-5': 'w-4', 'n-3': 'w-4'}, one.with_others())

    def test_the_nodes_and_the_roles_of_one_reverse(self) -> None:
        one = self.review('reverse w5', 'members r9 Mw5@backward', 'tag n8 Ta=b')
        one.decide([('w5', 'rejected')])
        self.assertEqual({'r9': 'w5'}, one.with_others())

    def test_single_tags(self) -> None:
        one = self.review('tag w5 Tsurface=asphalt,name=,lit=yes', 'node x13.1 y52 Tshop=x,name=y')
        one.decide([('w5', 'without Kname,lit'), ('n-1', 'without Kname')])
        self.assertEqual(('accepted', 'accepted'), (one.state_of('w5'), one.state_of('n-1')))
        known = self.after(one)
        self.assertEqual(
            {'highway': 'residential', 'name': 'High Street', 'surface': 'asphalt'},
            known['w5'].mine.tags,
        )
        self.assertEqual({'shop': 'x'}, known['n-1'].mine.tags)

    def test_all_tags_of_an_object(self) -> None:
        one = self.review('tag w5 Tsurface=asphalt')
        one.decide([('w5', 'without Ksurface')])
        self.assertIsNone(self.after(one)['w5'].edit)

    def test_conflicts(self) -> None:
        self.do('tag w5 Tname=Mine,lit=yes', 'tag n8 Ta=b')
        self.write(
            'newer.opl', 'w5 v4 Thighway=residential,name=Theirs,lit=no Nn1,n2,n3,n4\nn8 v3 dD\n'
        )
        one = self.review('download newer.opl')
        self.assertEqual('both sides changed it', shown.item_of(one.found, 'w5')['why'])
        for how in ('accepted', 'parts', 'mix mine', 'parts mine K\nundo 1', 'theirs now'):
            with self.assertRaises(ValueError, msg=how):
                one.decide([('w5', how)])
        one.decide([('w5', 'parts mine Kname'), ('n8', 'theirs')])
        known = self.after(one)
        self.assertEqual(
            ('Theirs', 'yes'), (known['w5'].mine.tags['name'], known['w5'].mine.tags['lit'])
        )
        self.assertIsNone(known['n8'].mine)

    def test_decisions_that_do_not_go_together(self) -> None:
        self.do('begin', 'node x13.1 y52 Tshop=x', 'nodes w5 Nn1,n2,n3,n4,n-1', 'end')
        self.write('newer.opl', 'w5 v4 Thighway=residential,name=Theirs Nn1,n2,n4\n')
        one = self.review('download newer.opl')
        one.decide([('n-1', 'rejected'), ('w5', 'mine')])
        with self.assertRaises(Impossible) as caught:
            one.finish()
        self.assertIn(caught.exception.key, ('n-1', 'w5'))
        self.assertFalse((self.folder / 'review.script').exists())

    def test_over_another_session(self) -> None:
        one = self.review('tag n8 Ta=b')
        one.decide([('n8', 'rejected')])
        one.finish()
        self.do('tag w5 Ta=b')
        self.assertEqual(Refused.code, self.yoke('do', 'review.script'))
        with self.assertRaisesRegex(Refused, 'the session went on meanwhile'):
            one.finish()

    def test_no_other_file_is_overwritten(self) -> None:
        one = self.review('tag n8 Ta=b')
        one.decide([('n8', 'rejected')])
        for name in ('review.script', 'review.opl'):
            self.write(name, 'mine\n')
            with self.assertRaises(Refused):
                one.finish()
            self.assertEqual('mine\n', (self.folder / name).read_text(encoding='utf-8'))
            (self.folder / name).unlink()
        one.finish()
        one.finish()

    def test_nothing_is_rejected(self) -> None:
        one = self.review('tag n8 Ta=b')
        one.decide([('n8', 'accepted')])
        self.assertIn('nothing is rejected, so there is nothing to run', one.finish())
        self.assertFalse((self.folder / 'review.opl').exists())

    def test_without_a_page(self) -> None:
        self.do('tag n8 Ta=b', 'tag w5 Ta=b', 'erase w6')
        self.assertIn('n8: undecided: a: (none) → b: a=b', self.done('review', '--list'))
        self.assertEqual(
            '1 accepted, 2 rejected, 0 not decided\n',
            self.done('review', '--accept', 'n8', '--reject', 'others'),
        )
        self.assertIn('w6: rejected: deleted way: building', self.done('review', '--list'))
        self.assertIn(
            'yoke do review.script leaves 1 edited and 0 in conflict',
            self.done('review', '--write'),
        )
        self.done('do', 'review.script')
        self.assertIn('1 edited', self.done('diff'))
        for words, code in [
            (('--accept', 'n1'), 1),
            (('--accept', 'n8', '--reject', 'n8'), 2),
            (('--questions', 'none', '--list'), 3),
            (('--json',), 2),
        ]:
            self.assertEqual(code, self.yoke('review', *words), words)


class Keys(ReviewTest):
    """After a part was sent new objects have other keys, and what was decided on others still
    holds.
    """

    def test_a_decision_on_what_refers_to_a_new_object(self) -> None:
        one = self.review('begin', 'node x13.1 y52 Tshop=x', 'nodes w5 Nn1,n2,n3,n4,n-1', 'end')
        one.decide([('n-1', 'accepted'), ('w5', 'accepted')])
        one.decisions.close()
        self.day.write('000001.answers', 'create n-1 n1001 v1\n')
        self.write('answers', 'create n-1 n1001 v1\n')
        answer = self.session.program.run(
            [f'resume {self.day.last().path}', 'upload 1', 'confirm answers', 'save']
        )
        self.assertEqual([], answer.refused())
        self.day.keep('send', answer.saved())
        self.assertEqual(('n1', 'n2', 'n3', 'n4', 'n1001'), self.session.known()['w5'].mine.nodes)
        self.assertEqual({'w5': 'accepted'}, self.review().decisions.how)


class Question(ReviewTest):
    """The questions of a conflation, and their answers."""

    def setUp(self) -> None:
        super().setUp()
        asked = [
            {
                'feature': 'feature 1',
                'why': 'two objects are as like',
                'tags': [['name', 'A']],
                'place': [13.0, 52.0],
                'candidates': [['n8', 0.9, 4], ['w6', 0.8, 9]],
            },
            {
                'feature': 'feature 2',
                'why': 'not alike enough',
                'tags': [['name', 'B']],
                'place': [13.0, 52.0],
                'candidates': [['n8', 0.5, 4]],
            },
        ]
        self.write('c.questions', json.dumps(asked))
        self.write(
            'c.csv',
            'feature,what,decision,candidate\nfeature 1,ambiguous,,n8\nfeature 1,ambiguous,,w6\nfeature 2,ambiguous,,n8\nfeature 3,differs,,n8\n',
        )

    def test_answers(self) -> None:
        one = self.review(questions=Questions('c'))
        self.assertEqual(['feature 1', 'feature 2'], one.keys())
        item = one.ask_items(None)['items'][0]
        self.assertEqual(
            (['n8', '0.90, 4 m'], ['name', 'A', None, None]),
            (item['candidates'][0][:2], item['tags'][0]),
        )
        for how in ('accepted', 'w5', 'rejected'):
            with self.assertRaises(ValueError):
                one.decide([('feature 1', how)])
        one.decide([('feature 1', 'w6'), ('feature 2', 'skip')])
        self.assertIn('2 of 2 questions answered', one.finish())
        self.assertEqual(
            'feature,what,decision,candidate\nfeature 1,ambiguous,w6,n8\nfeature 1,ambiguous,,w6\nfeature 2,ambiguous,skip,n8\nfeature 3,differs,,n8\n',
            (self.folder / 'c-decided.csv').read_text(encoding='utf-8'),
        )

    def test_no_questions(self) -> None:
        self.write('d.questions', '{"a": 1}')
        for name in ('d', 'none'):
            with self.assertRaises(Trouble):
                Questions(name)


class Served(ReviewTest):
    """The server: each guard alone keeps a call out."""

    def setUp(self) -> None:
        super().setUp()
        self.one = self.review('tag n8 Ta=b', 'tag w5 Ta=b')
        self.served = Server(self.one.calls())
        self.addCleanup(self.served.server_close)
        self.one.stop = self.served.stop
        threading.Thread(
            target=self.served.serve_forever, kwargs={'poll_interval': 0.01}, daemon=True
        ).start()
        self.addCleanup(self.served.shutdown)
        self.good = {
            'Host': self.served.host,
            'X-Yoke-Token': self.served.token,
            'Content-Type': 'application/json',
        }

    def ask(
        self, method: str, path: str, body: bytes | None = None, **changed: str | None
    ) -> tuple[int, bytes, http.client.HTTPMessage]:
        """The answer to a call with good headers, of which some are changed, or left out."""
        headers = {
            **self.good,
            **{name.replace('_', '-'): value for name, value in changed.items()},
        }
        link = http.client.HTTPConnection('127.0.0.1', self.served.server_address[1], timeout=10)
        link.putrequest(method, path, skip_host=True, skip_accept_encoding=True)
        for name, value in headers.items():
            if value is not None:
                link.putheader(name, value)
        if body is not None:
            link.putheader('Content-Length', str(len(body)))
        link.endheaders(body)
        answer = link.getresponse()
        found = answer.status, answer.read(), answer.headers
        link.close()
        return found

    def status(self, *words: Any, **changed: str | None) -> int:
        return self.ask(*words, **changed)[0]

    def test_the_page_and_its_calls(self) -> None:
        self.assertIn(b'<!doctype html>', self.ask('GET', '/', X_Yoke_Token=None)[1])
        for name in self.served.files:
            self.assertEqual(200, self.status('GET', name, X_Yoke_Token=None), name)
        self.assertEqual(2, len(json.loads(self.ask('GET', '/items')[1])['items']))
        told = json.loads(
            self.ask('POST', '/decide', b'{"decisions": [["n8", "rejected"]], "heard": 0}')[1]
        )
        self.assertEqual(([['n8', 'rejected']], 1), (told['decisions'], told['heard']))
        self.assertEqual(['w5'], json.loads(self.ask('POST', '/find', b'{"query": "way"}')[1]))
        self.assertEqual(200, self.status('POST', '/around', b'{"box": [12, 51, 14, 53]}'))

    def test_a_second_page_hears_what_the_first_decided(self) -> None:
        self.ask('POST', '/decide', b'{"decisions": [["n8", "rejected"]], "heard": 0}')
        told = json.loads(
            self.ask('POST', '/decide', b'{"decisions": [["w5", "accepted"]], "heard": 0}')[1]
        )
        self.assertEqual([['n8', 'rejected'], ['w5', 'accepted']], told['decisions'])

    def test_each_guard(self) -> None:
        wrong = self.served.token[:-1] + ('A' if self.served.token[-1] != 'A' else 'B')
        body = b'{"decisions": [["n8", "rejected"]], "heard": 0}'
        port = self.served.server_address[1]
        for status, changed in [
            (403, {'X_Yoke_Token': None}),
            (403, {'X_Yoke_Token': ''}),
            (403, {'X_Yoke_Token': wrong}),
            (403, {'X_Yoke_Token': 'é'}),
            (421, {'Host': None}),
            (421, {'Host': f'evil.example:{port}'}),
            (421, {'Host': f'localhost:{port}'}),
            (421, {'Host': '127.0.0.1'}),
            (403, {'Origin': 'http://evil.example'}),
            (403, {'Origin': 'null'}),
            (403, {'Origin': f'http://localhost:{port}'}),
            (403, {'Sec_Fetch_Site': 'cross-site'}),
            (403, {'Sec_Fetch_Site': 'same-site'}),
            (403, {'Sec_Fetch_Site': 'none'}),
            (415, {'Content_Type': 'text/plain'}),
            (415, {'Content_Type': None}),
            (415, {'Content_Type': 'application/x-www-form-urlencoded'}),
            (413, {'Transfer_Encoding': 'chunked'}),
        ]:
            with self.subTest(changed=changed):
                self.assertEqual(status, self.status('POST', '/decide', body, **changed))
                self.assertEqual({}, self.one.decisions.how)
        self.assertEqual(
            200,
            self.status(
                'POST', '/decide', body, Origin=self.served.origin, Sec_Fetch_Site='same-origin'
            ),
        )
        self.assertEqual({'n8': 'rejected'}, self.one.decisions.how)

    def test_calls_that_are_none(self) -> None:
        for status, method, path, body in [
            (404, 'POST', '/', b'{}'),
            (404, 'GET', '/../server.py', None),
            (404, 'GET', '/%2e%2e/server.py', None),
            (404, 'GET', '/items?x', None),
            (404, 'GET', '/decide', None),
            (404, 'POST', '/items', b'{}'),
            (400, 'POST', '/decide', b'{'),
            (400, 'POST', '/decide', b'[]'),
            (400, 'POST', '/decide', b'{"decisions": [["n8", "rejected\\nundo 1"]], "heard": 0}'),
            (400, 'POST', '/decide', b'{"decisions": [["n8", 5]], "heard": 0}'),
            (400, 'POST', '/decide', b'[' * 100000),
            (400, 'POST', '/find', b'{"query": "way\\nundo 1"}'),
            (400, 'POST', '/around', b'{"box": [1, 2]}'),
            (501, 'PUT', '/items', b''),
            (501, 'OPTIONS', '/decide', None),
            (501, 'HEAD', '/items', None),
        ]:
            with self.subTest(path=path, body=body and body[:40]):
                self.assertEqual(status, self.status(method, path, body))
        self.assertEqual({}, self.one.decisions.how)
        self.assertEqual(
            413, self.status('POST', '/decide', None, Content_Length=str(5 * 1024 * 1024))
        )
        self.assertEqual(413, self.status('POST', '/decide', None, Content_Length='-1'))
        self.assertEqual(400, self.status('GET', '/items', None, Content_Length='4'))
        self.assertEqual(200, self.status('GET', '/items'))

    def test_every_answer_has_the_headers_that_keep_others_out(self) -> None:
        answers = [
            self.ask('GET', '/'),
            self.ask('GET', '/items'),
            self.ask('GET', '/items', X_Yoke_Token=None),
            self.ask('GET', '/', Host='evil.example'),
            self.ask('PUT', '/'),
            self.ask('POST', '/decide', b'['),
        ]
        for status, _, headers in answers:
            with self.subTest(status=status):
                self.assertEqual('same-origin', headers['Cross-Origin-Resource-Policy'])
                self.assertEqual('same-origin', headers['Cross-Origin-Opener-Policy'])
                self.assertEqual(
                    ('no-store', 'no-referrer', 'nosniff', 'DENY'),
                    tuple(
                        headers[name]
                        for name in (
                            'Cache-Control',
                            'Referrer-Policy',
                            'X-Content-Type-Options',
                            'X-Frame-Options',
                        )
                    ),
                )
                self.assertEqual(
                    "default-src 'none'; script-src 'self'; style-src 'self'; connect-src 'self'; img-src 'self'; base-uri 'none'; form-action 'none'; "
                    "frame-ancestors 'none'; require-trusted-types-for 'script'; trusted-types 'none'",
                    headers['Content-Security-Policy'],
                )
                self.assertIsNone(headers['Access-Control-Allow-Origin'])

    def test_the_token_is_of_this_review_alone(self) -> None:
        self.assertGreaterEqual(len(self.served.token), 43)
        other = Server({})
        self.addCleanup(other.server_close)
        self.assertNotEqual(other.token, self.served.token)
        self.assertEqual('127.0.0.1', self.served.server_address[0])

    def test_the_script_by_a_call(self) -> None:
        self.ask(
            'POST',
            '/decide',
            b'{"decisions": [["n8", "rejected"], ["w5", "accepted"]], "heard": 0}',
        )
        self.assertIn(
            '1 accepted, 1 rejected', json.loads(self.ask('POST', '/finish', b'{}')[1])['said']
        )
        self.assertIn('purge n8', (self.folder / 'review.script').read_text(encoding='utf-8'))

    def test_a_refusal_names_the_item(self) -> None:
        self.do('tag w5 Tb=c')
        status, body, _ = self.ask('POST', '/finish', b'{}')
        self.assertEqual(409, status)
        self.assertIn('the session went on meanwhile', json.loads(body)['problem'])


class Tiles(unittest.TestCase):
    def test_where_tiles_come_from(self) -> None:
        self.assertEqual(
            'https://*.tile.example:80', tile_source('https://{s}.tile.example:80/{z}/{x}/{y}.png')
        )
        self.assertEqual('', tile_source(''))
        for address in (
            'tile.example/{z}/{x}/{y}',
            'ftp://tile.example/{z}/{x}/{y}',
            'https://tile.example/{z}/{x}',
            "https://a;script-src 'unsafe-inline'/{z}/{x}/{y}",
            'https://a b/{z}/{x}/{y}',
            'https:///{z}/{x}/{y}',
            'https://user@host/{z}/{x}/{y}',
            'https://a\n/{z}/{x}/{y}',
            'https://*, x/{z}/{x}/{y}',
        ):
            with self.assertRaises(Usage, msg=address):
                tile_source(address)

    def test_the_policy_names_the_tiles_alone(self) -> None:
        server = Server({}, tiles='https://tile.example/{z}/{x}/{y}.png')
        self.addCleanup(server.server_close)
        self.assertIn("img-src 'self' https://tile.example; base-uri", server.policy)


class Opened(ReviewTest):
    """The browser is opened by a file that this user alone can read: the secret is in no command."""

    def test_by_a_file(self) -> None:
        from yoke.verbs import review

        seen: list[str] = []
        with mock.patch(
            'webbrowser.open', lambda address: bool(seen.append(address)) or True
        ), mock.patch.dict(os.environ, {'XDG_RUNTIME_DIR': str(self.folder)}):
            path = review.open_browser('http://127.0.0.1:1/#the-secret')
        self.assertEqual([path.as_uri()], seen)
        self.assertNotIn('the-secret', seen[0])
        self.assertEqual(0o600, path.stat().st_mode & 0o777)
        self.assertIn(
            'location.replace("http://127.0.0.1:1/#the-secret")', path.read_text(encoding='utf-8')
        )
        self.assertEqual(self.folder, path.parent)


class Contrast(unittest.TestCase):
    """Texts of the page have a contrast of 4.5 to what is behind them, and lines of the map 3."""

    def test_colors(self) -> None:
        style = (
            pathlib.Path(decided.__file__)
            .with_name('page')
            .joinpath('review.css')
            .read_text(encoding='utf-8')
        )
        colors = dict(
            part.split(':')
            for part in style[style.index('{') + 1 : style.index('}')]
            .replace(' ', '')
            .replace('\n', '')
            .split('/*')[0]
            .split(';')
            if part
        )
        rest = (
            style[style.index('*/') : style.index('}')]
            .replace('*/', '')
            .replace(' ', '')
            .replace('\n', '')
        )
        colors.update(part.split(':') for part in rest.split(';') if part)
        papers = ['#ffffff', colors['--paper'], colors['--now'], '#fbf6ea']
        for name in (
            '--ink',
            '--soft',
            '--before-text',
            '--after-text',
            '--theirs-text',
            '--new-text',
            '--no-text',
            '--question-text',
        ):
            for paper in papers:
                self.assertGreaterEqual(contrast(colors[name], paper), 4.5, (name, paper))
        for name in ('--before', '--after', '--theirs', '--new', '--edge'):
            self.assertGreaterEqual(contrast(colors[name], '#f3f1ec'), 3, name)


def contrast(one: str, other: str) -> float:
    """The contrast of two colors, by the rules for accessible pages."""

    def light(color: str) -> float:
        parts = [int(color[at : at + 2], 16) / 255 for at in (1, 3, 5)]
        linear = [
            part / 12.92 if part <= 0.03928 else ((part + 0.055) / 1.055) ** 2.4 for part in parts
        ]
        return 0.2126 * linear[0] + 0.7152 * linear[1] + 0.0722 * linear[2]

    more, less = sorted((light(one), light(other)), reverse=True)
    return (more + 0.05) / (less + 0.05)


class Asked(ReviewTest):
    def test_users_are_what_the_query_finds(self) -> None:
        self.do('move w6 0.001 0')
        found = collect(table.read(self.day.last().text()), self.session.ask([USERS]).found())
        self.assertEqual(['w5', 'w6'], sorted(self.session.ask([USERS]).found()))
        self.assertEqual(['w6'], found.items)


class Sent(ServerTest):
    """`send --reviewed`: what was accepted goes out, and nothing else."""

    town = TOWN

    def setUp(self) -> None:
        super().setUp()
        self.begin(town=TOWN)

    def versions(self) -> dict[str, int]:
        return {key: element.version for key, element in self.theirs().items()}

    def test_refused_where_something_is_not_reviewed(self) -> None:
        self.do('tag n8 Ta=b', 'tag w5 Ta=b', 'move w6 0.001 0')
        self.done('review', '--accept', 'n8')
        before = self.versions()
        self.assertEqual(Refused.code, self.send('--reviewed'))
        self.assertIn(
            'nothing is sent: 4 edits are not reviewed, the first is n1: yoke review goes on',
            self.err,
        )
        self.assertEqual(Refused.code, self.send('--reviewed', '--decisions', 'none'))
        self.assertIn('5 edits are not reviewed', self.err)
        self.assertEqual(before, self.versions())

    def test_what_is_accepted_goes_and_what_is_rejected_stays(self) -> None:
        self.do('tag n8 Ta=b', 'tag w5 Ta=b', 'erase w6', 'node x13.1 y52 Tshop=x')
        self.done('review', '--accept', 'n8,n-1', '--reject', 'others')
        self.assertEqual(0, self.send('--reviewed'), self.err)
        self.assertIn('2 changes sent', self.out)
        self.assertIn('edits are left, not accepted as they are', self.out)
        self.assertEqual((3, 3, 1), tuple(self.theirs()[key].version for key in ('n8', 'w5', 'w6')))
        self.assertEqual(
            {'w5': 'changed', 'w6': 'deleted', 'n5': 'deleted', 'n6': 'deleted'},
            {key: known.edit for key, known in self.session.known().items() if known.edit},
        )

    def test_with_the_script_first(self) -> None:
        self.do('tag n8 Ta=b', 'tag w5 Ta=b,lit=yes', 'erase w6')
        self.server.edit('modify', 'n8', tags={'amenity': 'bench', 'a': 'c'})
        self.ask('refresh')
        self.assertEqual(Refused.code, self.send('--reviewed'))
        one = Review(self.session, 'review.decisions')
        one.decisions.open()
        one.decide([('n8', 'mine'), ('w5', 'without Klit'), ('w6', 'rejected')])
        one.finish()
        one.decisions.close()
        before = self.versions()
        self.assertEqual(0, self.send('--reviewed', '--skip-conflicts'), self.err)
        self.assertIn('0 changes sent', self.out)
        self.assertEqual(before, self.versions())
        self.done('do', 'review.script')
        self.assertEqual(0, self.send('--reviewed'), self.err)
        self.assertIn('2 changes sent in changeset 2\n', self.out)
        self.assertIn('nothing is left to send\n', self.out)
        self.assertEqual(
            ({'amenity': 'bench', 'a': 'b'}, 4),
            (self.theirs()['n8'].tags, self.theirs()['n8'].version),
        )
        self.assertNotIn('lit', self.theirs()['w5'].tags)

    def test_another_mind_after_the_script_was_written(self) -> None:
        self.do('tag w5 Ta=b,lit=yes')
        one = Review(self.session, 'review.decisions')
        one.decisions.open()
        for how in ('without Klit', 'without Ka'):
            one.decide([('w5', how)])
            one.finish()
        one.decisions.close()
        self.do('tag w5 Tlit=')
        self.assertEqual(Refused.code, self.send('--reviewed'))
        self.assertIn('1 edit is not reviewed', self.err)
        self.do('tag w5 Tlit=yes,a=')
        self.assertEqual(0, self.send('--reviewed'), self.err)

    def test_somebody_was_faster_so_it_is_reviewed_anew(self) -> None:
        self.do('tag n8 Ta=b', 'tag w5 Ta=b')
        self.done('review', '--accept', 'others')
        self.server.edit('modify', 'n8', tags={'amenity': 'bench', 'material': 'wood'})
        self.assertEqual(Refused.code, self.send('--reviewed', '--refresh'), self.out)
        self.assertIn('1 edit is not reviewed, the first is n8', self.err)
        self.assertEqual(3, self.theirs()['n8'].version)
        self.done('review', '--accept', 'n8')
        self.assertEqual(0, self.send('--reviewed'), self.err)
        self.assertEqual(
            {'amenity': 'bench', 'material': 'wood', 'a': 'b'}, self.theirs()['n8'].tags
        )

    def test_dry(self) -> None:
        self.do('tag n8 Ta=b', 'tag w5 Ta=b')
        self.done('review', '--accept', 'n8', '--reject', 'w5')
        self.assertIn(
            '1 changes would be sent: 0 new, 1 changed, 0 deleted',
            self.done('send', '--reviewed', '--dry'),
        )
