"""The truths of conflations and reverts that random days are held against fail where something is
wrong.
"""
import random
import unittest
from typing import Any, Dict, Optional

from yoke.testing import matching, reverting
from yoke.testing.database import Database
from yoke.testing.elements import Element, of_opl
from yoke.testing.ledger import Failed, Known, Session

SHOP = 'n1 v1 dV Tshop=kiosk,name=Linden x13.001 y52.001'


def session(**lines: str) -> Session:
    """Objects by key, each as it is here; those with a minus for `_` are new."""
    found = {}
    for name, line in lines.items():
        element = of_opl(line)
        found[element.key] = Known(
            None if element.number < 0 else of_opl(SHOP), element, None, 'none'
        )
    return found


class Conflations(unittest.TestCase):
    row = matching.Row(
        'n1',
        130_010_000,
        520_010_000,
        {'shop': 'kiosk', 'name': 'Linden', 'phone': '7', matching.MARK: 'a'},
    )
    new = matching.Row(
        '',
        130_020_000,
        520_010_000,
        {'shop': 'kiosk', 'name': 'Neu', 'phone': '8', matching.MARK: 'b'},
    )
    made = 'n-1 v0 dV Tfeature=b,name=Neu,phone=8,shop=kiosk x13.002 y52.001'

    def check(self, **lines: str) -> int:
        return matching.check([self.row, self.new], session(n=SHOP), session(**lines))

    def test_what_the_rows_say(self) -> None:
        self.assertEqual(2, self.check(n=SHOP.replace('Linden', 'Linden,phone=7'), made=self.made))
        self.assertEqual(0, self.check(n=SHOP))

    def test_anything_else_fails(self) -> None:
        twice = self.made.replace('n-1', 'n-2')
        for lines in (
            {'n': SHOP.replace('Linden', 'Other')},
            {'n': SHOP.replace('Linden', 'Linden,phone=8')},
            {'n': SHOP, 'made': self.made, 'twice': twice},
            {'n': SHOP, 'made': self.made.replace('13.002', '13.003')},
            {'n': SHOP, 'made': self.made.replace('feature=b', 'feature=a')},
        ):
            with self.subTest(lines), self.assertRaises(Failed):
                self.check(**lines)

    def test_a_row_twice_on_the_server_fails(self) -> None:
        matching.check_once([of_opl(self.made)])
        with self.assertRaises(Failed):
            matching.check_once([of_opl(self.made), of_opl(self.made.replace('n-1', 'n5'))])

    def test_rows_are_of_shops_and_of_none(self) -> None:
        rows = [
            row
            for seed in range(20)
            for row in matching.rows_of(session(n=SHOP), random.Random(seed), 'x')
        ]
        self.assertEqual({'n1', ''}, {row.shop for row in rows})


class Reverts(unittest.TestCase):
    def undone(self, before: Optional[str], left: str, now: str) -> reverting.Undone:
        sides: Dict[str, Optional[Element]] = {
            name: of_opl('n1 v1 ' + text) if text else None
            for name, text in (('before', before), ('left', left), ('now', now))
        }
        return reverting.Undone(sides['before'], of_opl('n1 v1 ' + left), of_opl('n1 v1 ' + now))

    def test_only_what_the_changesets_changed_goes_back(self) -> None:
        one = self.undone('Ta=1 x1 y1', 'Ta=2 x1 y1', 'Ta=2,b=3 x2 y1')
        self.assertEqual(
            {'tag a': '1', 'tag b': '3', 'place': (20_000_000, 10_000_000), 'there': True},
            reverting.wanted(one),
        )
        self.assertFalse(reverting.clashes(one))

    def test_what_was_made_goes_and_what_was_deleted_comes_back(self) -> None:
        self.assertEqual({}, reverting.wanted(self.undone('dD', 'Ta=2 x1 y1', 'Ta=2 x1 y1')))
        self.assertEqual('1', reverting.wanted(self.undone('Ta=1 x1 y1', 'dD', 'dD'))['tag a'])

    def test_the_same_part_changed_since_clashes(self) -> None:
        self.assertTrue(reverting.clashes(self.undone('Ta=1 x1 y1', 'Ta=2 x1 y1', 'Ta=3 x1 y1')))
        self.assertTrue(reverting.clashes(self.undone('dD', 'Ta=2 x1 y1', 'Ta=3 x1 y1')))
        self.assertFalse(reverting.clashes(self.undone('dD', 'Ta=2 x1 y1', 'dD')))
        self.assertFalse(reverting.clashes(self.undone('Ta=1 x1 y1', 'Ta=2 x1 y1', 'Ta=1 x1 y1')))


class EditedBesides(unittest.TestCase):
    """An object that isn't of the changesets, and that the session has come back as it was before
    it was deleted.
    """

    was = 'n1 v1 dV c1 Ta=1 x1 y1'
    gone = 'n1 v2 dD c2 T x y'
    back = 'n1 v3 dV c3 Tb=2 x2 y2'  # by somebody else, while the revert asks or before

    def check(self, *lines: str, seen: int, base: str = gone, mine: str = was) -> None:
        known = Known(of_opl(base), of_opl(mine), None, 'none')
        reverting.check(Database(map(of_opl, lines)), [9], {'n1': known}, set(), {'n1': seen})

    def assert_fails(self, *lines: str, **what: Any) -> None:
        with self.assertRaisesRegex(Failed, "n1 isn't of the changesets, and is edited"):
            self.check(*lines, **what)

    def test_it_was_deleted_when_the_revert_saw_it(self) -> None:
        self.check(self.was, self.gone, seen=2)
        self.check(self.was, self.gone, self.back, seen=2)
        self.check(self.was, self.gone, self.back, seen=1)

    def test_it_was_there_when_the_revert_began(self) -> None:
        self.assert_fails(self.was, self.gone, self.back, seen=3)
        self.assert_fails(self.was, seen=1, base=self.was, mine=self.was.replace('a=1', 'a=2'))

    def test_another_content_than_before_the_deletion(self) -> None:
        self.assert_fails(self.was, self.gone, self.back, seen=2, mine=self.back)


if __name__ == '__main__':
    unittest.main()
