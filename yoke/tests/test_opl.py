"""OPL lines: read, written, escaped."""
import unittest
from decimal import Decimal

from yoke import opl


class Texts(unittest.TestCase):
    def test_all_kinds_go_out_and_come_back(self):
        for text in (
            '',
            'a b',
            'a,b=c',
            'x@y',
            '100%',
            'tab\there',
            'line\nfeed',
            '\u2028\u0085\xad',
            'Straße',
            '中山路',
            '😀',
            '\x01',
        ):
            self.assertEqual(text, opl.unescape(opl.escape(text)))
            self.assertNotRegex(opl.escape(text), '[ \t\n,=@]')

    def test_a_blank_is_written_as_editor_writes_it(self):
        self.assertEqual('Main%20%Street', opl.escape('Main Street'))
        self.assertEqual('Straße', opl.escape('Straße'))

    def test_what_no_text_may_have(self):
        with self.assertRaises(ValueError):
            opl.escape('a\0b')
        with self.assertRaises(ValueError):
            opl.quote('x' * 256)
        self.assertEqual('x' * 255, opl.quote('x' * 255))


class Degrees(unittest.TestCase):
    def test_at_most_seven_digits_and_no_needless_ones(self):
        for number, text in [
            (13.5, '13.5'),
            (0, '0'),
            (-0.00000001, '0'),
            (Decimal('-0.0000001'), '-0.0000001'),
            (100, '100'),
            (Decimal('52.0000000'), '52'),
            (1.123456789, '1.1234568'),
        ]:
            self.assertEqual(text, opl.degrees(number))


class Lines(unittest.TestCase):
    LINES = [
        'n1 v3 dV c7 t2024-02-29T12:00:00Z i5 uA%20%B Tname=x%20%y x13.5 y-0.0000001',
        'n6 v2 dD c0 t i0 u',
        'n-2 v0 dV c0 t i0 u T x13 y52',
        'w5 v1 dV c0 t i0 u Thighway=residential,name=High%20%Street Nn1,n2,n-3',
        'r9 v1 dV c0 t i0 u Ttype=route Mw5@,n4@stop%40%here',
        'r8 v1 dV c0 t i0 u T M',
    ]

    def test_each_is_written_as_it_was_read(self):
        for line in self.LINES:
            self.assertEqual(line, opl.line(opl.parse(line)))

    def test_the_parts_of_an_object(self):
        thing = opl.parse(self.LINES[0])
        self.assertEqual(
            ('n1', 3, False, 7, 5, 'A B', {'name': 'x y'}),
            (
                thing.key,
                thing.version,
                thing.deleted,
                thing.changeset,
                thing.uid,
                thing.user,
                thing.tags,
            ),
        )
        self.assertEqual((Decimal('13.5'), Decimal('-0.0000001')), (thing.lon, thing.lat))
        self.assertEqual(('n1', 'n2', 'n-3'), opl.parse(self.LINES[3]).references)
        self.assertEqual((('w5', ''), ('n4', 'stop@here')), opl.parse(self.LINES[4]).members)
        self.assertEqual('relation', opl.parse(self.LINES[4]).kind)

    def test_fields_in_any_order_places_of_nodes_are_left_out(self):
        self.assertEqual(opl.parse('w5 v1 Nn1,n2'), opl.parse('w5\tNn1x13.5y52,n2  v1\r\n'))

    def test_what_is_no_object(self):
        for line in ('', '1 ok', 'n', 'x1 v1', 'n1 vx', 'n1 v1 xzz y1', 'r1 v1 Mn2', 'n1 v1 Ta'):
            with self.assertRaises(ValueError, msg=line):
                opl.parse(line)

    def test_rank(self):
        self.assertEqual(
            ['n1', 'n12', 'n-1', 'n-2', 'w1', 'r-1'],
            sorted(['r-1', 'w1', 'n-2', 'n-1', 'n12', 'n1'], key=opl.rank),
        )


if __name__ == '__main__':
    unittest.main()
