"""`yoke log`, and `yoke diff --svg`."""

from __future__ import annotations

import json
import xml.etree.ElementTree

from yoke import journal
from yoke.tests.support import FolderTest, ServerTest
from yoke.tests.test_review import HOSTILE_NAME, TOWN
from yoke.trouble import Refused


class Log(ServerTest):
    town = TOWN

    def setUp(self) -> None:
        super().setUp()
        self.begin(town=TOWN)

    def test_a_day(self) -> None:
        self.do(
            'tag n8 Twheelchair=yes',
            'tag w5 Tsurface=asphalt',
            'node x13.1 y52 Tshop=x',
            'erase w6',
        )
        self.done('review', '--reject', 'w6', '--accept', 'others')
        self.assertEqual(0, self.send('--reviewed', '--source', 'survey'), self.err)
        found = self.done('log', '--kinds')
        self.assertIn('000001-start\n', found)
        self.assertIn(f'changeset 1 {self.server.api.replace("/api/0.6", "")}/changeset/1\n', found)
        self.assertRegex(
            found, r'    [0-9-]+ [0-9:]+Z to [0-9-]+ [0-9:]+Z by [^:]+: a test, survey\n'
        )
        self.assertIn('    3 changes in 1 documents: 1 new, 2 changed, 0 deleted\n', found)
        for kind in ('wheelchair: (none) → yes', 'surface: (none) → asphalt', 'new node: shop'):
            self.assertIn(f'    1 × {kind}\n', found)
        self.assertRegex(
            found,
            'send: 3 changes; 3 accepted, 1 rejected in the review; [0-9]+ left, not accepted',
        )
        self.assertTrue(
            found.endswith('3 changes sent in 1 changesets; left: 3 edited, 0 in conflict\n'), found
        )
        data = json.loads(self.done('log', '--json'))['result']
        self.assertEqual(
            ({'new': 1, 'changed': 2}, 'a test'),
            (data['changesets'][0]['counts'], data['changesets'][0]['tags']['comment']),
        )

    def test_a_send_that_ended_early(self) -> None:
        self.do('tag n8 Ta=b', 'tag w5 Ta=b')
        self.server.edit('modify', 'w5', tags={'highway': 'path'})
        self.send('--chunk', '1')
        found = self.done('log')
        self.assertIn('send: 1 changes; ended early: the server answers 409', found)
        self.assertIn('1 changes sent in 1 changesets; left: 1 edited, 0 in conflict', found)

    def test_nothing_was_sent(self) -> None:
        self.assertIn(
            '0 changes sent in 0 changesets; left: 0 edited, 0 in conflict', self.done('log')
        )

    def test_a_document_of_which_nothing_is_known(self) -> None:
        self.do('tag n8 Ta=b')
        self.day.write(
            '000002.osc',
            '<osmChange version="0.6"><modify><node id="8" version="2" changeset="7" lat="52" lon="13"/></modify></osmChange>',
        )
        self.assertIn(
            '1 documents more of which nobody knows whether the server took them: yoke send looks',
            self.done('log'),
        )


class Journal(FolderTest):
    def test_half_a_line_is_ended(self) -> None:
        self.begin()
        journal.note(self.day, a=1)
        whole = self.day.path('log').read_bytes()
        for size in range(len(whole) + 1):
            self.day.path('log').write_bytes(whole[:size])
            journal.note(self.day, b=2)
            self.assertEqual(2, journal.read(self.day)[-1]['b'], size)
        self.day.path('log').write_bytes(b'\n[]\nnull\n{"a": 1}\n' + whole)
        self.assertEqual([1], [entry['a'] for entry in journal.read(self.day)])


class Picture(FolderTest):
    def test_each_kind_of_edit(self) -> None:
        self.begin(
            'tag n8 Ta=b',
            'erase w6',
            'node x13.0015 y52.0015 Tname=' + HOSTILE_NAME,
            'place n2 x13.002 y52.0002',
            town=TOWN,
        )
        self.assertEqual('wrote edits.svg: 4 edits\n', self.done('diff', '--svg', 'edits.svg'))
        text = (self.folder / 'edits.svg').read_text(encoding='utf-8')
        root = xml.etree.ElementTree.fromstring(text)
        names = [one.text for one in root.iter('{http://www.w3.org/2000/svg}text')]
        for key in ('n8', 'n-1', 'w5', 'w6', '1 new', '2 changed', '1 deleted', '0 in conflict'):
            self.assertIn(key, names)
        self.assertNotIn('<script', text)
        self.assertEqual(text, self.done('diff', '--svg', '-'))
        self.done('diff', '--svg', 'edits.svg')

    def test_a_part_and_nothing(self) -> None:
        self.begin('tag n8 Ta=b', 'erase w6', town=TOWN)
        self.assertEqual('wrote a.svg: 1 edits\n', self.done('diff', '--svg', 'a.svg', 'n5'))
        self.done('start', '--day', 'other', 'town.opl')
        self.assertEqual(
            'wrote b.svg: 0 edits\n', self.done('diff', '--day', 'other', '--svg', 'b.svg')
        )
        self.write('c.svg', 'mine')
        self.assertEqual(Refused.code, self.yoke('diff', '--svg', 'c.svg'))
        self.assertEqual('mine', (self.folder / 'c.svg').read_text(encoding='utf-8'))
