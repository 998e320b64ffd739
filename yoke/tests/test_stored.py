"""A saved session looked into on the disk says what reading all of it says."""
from __future__ import annotations

import unittest

from yoke import saved, stored, table
from yoke.tests.support import FolderTest
from yoke.trouble import Trouble

TOWN = (
    ''.join(f'n{number} v1 x13.{number:03} y52\n' for number in range(1, 40))
    + '''w5 v3 Thighway=residential Nn1,n2,n77
w6 v3 T Nn11,n12,n1
w50 v1 T Nn3,n4
r9 v1 Ttype=route Mw5@,n1@stop,r12@
r10 v1 Ttype=route Mw6@
'''
)


class Stored(FolderTest):
    def test_it_is_the_same(self) -> None:
        self.begin(
            'node x13.5 y52 T',
            'way T Nn3,n-1',
            'tag n7 Tref=1',
            'delete r10',
            'relation T Mw-2@',
            'delete n30',
            town=TOWN,
        )
        text = self.day.last().text()
        things, whole = saved.read(text), table.read(text)
        with stored.opened(self.day.last().path) as session:
            self.assertEqual(whole.next_new, session.next_new)
            for key, known in things.items():
                found = session.get(key)
                self.assertIsNotNone(found, key)
                self.assertEqual(
                    (known.base, known.mine, known.theirs, known.edit, known.conflict),
                    (found.base, found.mine, found.theirs, found.edit, found.conflict),
                )
                self.assertEqual(whole.users(key), session.users(key), key)
            self.assertEqual([key for key, known in things.items() if known.edit], session.edited())
            for letter in 'nwr':
                self.assertEqual(
                    [key for key in things if key[0] == letter],
                    [known.key for known in session.of_kind(letter)],
                )
            for key in ('n0', 'n40', 'n77', 'n-9', 'w1', 'w-9', 'r1', 'r12', 'r-9'):
                self.assertIsNone(session.get(key))
                self.assertEqual(key in whole.incomplete, session.is_incomplete(key), key)

    def test_a_table_of_it_is_the_same(self) -> None:
        self.begin(
            'node x13.5 y52 T',
            'way T Nn3,n-1',
            'tag n7 Tref=1',
            'delete r10',
            'tag n8 Tref=1',
            'tag n8 Tref=',
            'delete n30',
            town=TOWN,
        )
        self.write(
            'newer.opl', 'n7 v2 x13.007 y52 Tref=2\nn9 v2 x13.009 y52 Tname=a\nn40 v1 x13.04 y52\n'
        )
        self.do('download newer.opl')
        path = self.day.last().path
        whole, found = table.read(path.read_text()), table.of_file(path)
        path.unlink()
        self.assertEqual('changed', whole.things['n7'].conflict)
        self.assertEqual(
            (list(whole.things), len(whole.things)), (list(found.things), len(found.things))
        )
        self.assertEqual(
            (set(whole.incomplete), whole.next_new, whole.new()),
            (set(found.incomplete), found.next_new, found.new()),
        )
        self.assertEqual(list(whole.edits()), list(found.edits()))
        for key in (*whole.things, 'n77', 'n99'):
            self.assertEqual(
                (whole.mine(key), whole.base(key), whole.refers(key), whole.users(key)),
                (found.mine(key), found.base(key), found.refers(key), found.users(key)),
                key,
            )

    def test_a_session_without_objects(self) -> None:
        (self.folder / 'empty.saved').write_text('session 1 1\nsession end\n')
        with stored.opened('empty.saved') as session:
            self.assertIsNone(session.get('n1'))
            self.assertEqual([], [*session.of_kind('n'), *session.edited()])

    def test_what_is_none(self) -> None:
        for text in (
            '',
            'x',
            'session 1 1\nknown n1 live same none\n',
            'session 1 \u00b2\nsession end\n',
        ):
            (self.folder / 'bad.saved').write_text(text, encoding='utf-8')
            with self.assertRaisesRegex(Trouble, 'no whole saved session'):
                stored.Stored('bad.saved')


if __name__ == '__main__':
    unittest.main()
