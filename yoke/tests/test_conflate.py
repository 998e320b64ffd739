"""`yoke conflate`: what is there isn't made again, and nothing is overwritten unasked."""
import csv
import io
import json
import math
import unittest
from unittest import mock

from hypothesis import given, settings, strategies

from yoke import day
from yoke.conflate import match, names, outputs, rules, shapes
from yoke.conflate.shapes import Thing
from yoke.tests.support import FolderTest
from yoke.tests.test_json import documented

TOWN = '''n1 v1 x13.0010000 y52.0010000 Tshop=bakery,name=Bäckerei%20%Koch
n2 v1 x13.0020000 y52.0010000 Tshop=bakery,name=Bäckerei%20%Lang,phone=1
n3 v1 x13.0030000 y52.0010000 Tshop=books,name=Buchladen,ref:shop=7
n4 v1 x13.0040000 y52.0010000 Tshop=kiosk
n11 v1 x13.0100000 y52.0010000
n12 v1 x13.0102000 y52.0010000
n13 v1 x13.0102000 y52.0011000
n14 v1 x13.0100000 y52.0011000
w1 v1 Tbuilding=yes Nn11,n12,n13,n14,n11
w2 v1 Thighway=path,name=Am%20%Bach Nn11,n13
'''
RULES = (
    'against Tshop=* or Tbuilding=* or Thighway=*\nwithin 30\nsame shop\nid ref:shop\ntake phone\n'
)
HEAD = 'lon,lat,shop,name,phone,ref:shop\n'
WORDS = ('--columns', 'shop,name,phone,ref:shop')


class ConflateTest(FolderTest):
    def setUp(self):
        super().setUp()
        self.begin(town=TOWN)
        self.write('c.rules', RULES)

    def conflate(self, text, *words, name='in.csv', head=HEAD):
        self.write(name, (head if name.endswith('.csv') else '') + text)
        columns = WORDS if head == HEAD and name.endswith('.csv') else ()
        return self.yoke('conflate', name, '--rules', 'c.rules', '--to', 'c', *columns, *words)

    def kinds(self):
        """The numbers of what the features are."""
        line = next(line for line in self.out.splitlines() if ' features: ' in line)
        pairs = [one.split(' ', 1) for one in line.split(': ')[1].split(', ')]
        return {kind: int(count) for count, kind in pairs if count != '0'}

    def script(self):
        text = (self.folder / 'c.script').read_text()
        return [line for line in text.splitlines() if not line.startswith('#')]

    def rows(self, name='c.csv'):
        return list(csv.DictReader(io.StringIO((self.folder / name).read_text())))


class Verb(ConflateTest):
    def test_each_kind(self):
        self.assertEqual(
            0,
            self.conflate(
                '13.00101,52.00101,bakery,BACKEREI KOCH,5,\n'  # to update
                '13.00201,52.00101,bakery,Bäckerei Lang,1,\n'  # the same
                '13.00601,52.00101,bakery,Bäckerei Neu,6,\n'  # new
                '13.00302,52.00105,books,Ganz anders,,7\n'  # the same by its id
                '13.00401,52.00101,kiosk,,,\n'  # the same: a kind, very near
                '13.00401,52.00115,kiosk,,,\n'
            ),
            self.err + self.out,
        )  # ambiguous: a kind, not so near
        self.assertEqual({'same': 3, 'update': 1, 'new': 1, 'ambiguous': 1}, self.kinds())
        self.assertEqual(['tag n1 Tphone=5'], self.script()[:1])
        self.assertTrue(self.script()[1].startswith('import '))
        self.do_script()
        self.assertEqual(
            {'phone': '5', 'name': 'Bäckerei Koch', 'shop': 'bakery'},
            self.session.known()['n1'].mine.tags,
        )

    def do_script(self):
        self.assertEqual(0, self.yoke('do', 'c.script'), self.err + self.out)

    def test_a_second_run_makes_nothing(self):
        text = (
            '13.00101,52.00101,bakery,BACKEREI KOCH,5,\n13.00601,52.00101,bakery,Bäckerei Neu,6,\n'
            '13.00801,52.00101,butcher,Metzger,7,\n'
        )
        self.conflate(text)
        self.do_script()
        self.assertEqual(0, self.conflate(text), self.err)
        self.assertEqual({'same': 3}, self.kinds())
        self.assertEqual([], self.script())
        self.assertFalse((self.folder / 'c.opl').exists(), 'the new objects of the run before')

    def test_a_second_run_of_objects_that_the_rules_dont_ask_for(self):
        self.write('c.rules', 'against Tshop=books\nsame shop\n')
        self.conflate('13.006,52.001,bakery,Bäckerei Neu,6,\n')
        self.do_script()
        self.conflate('13.006,52.001,bakery,Bäckerei Neu,6,\n')
        self.assertEqual({'left out': 1}, self.kinds())

    def test_a_differing_value_stays_unless_over_names_it(self):
        text = '13.00201,52.00101,bakery,Bäckerei Lang,222,\n'
        self.conflate(text)
        self.assertEqual(([], {'same': 1}), (self.script(), self.kinds()))
        (row,) = self.rows()
        self.assertEqual(
            ('differs', 'phone', 'n2', '222', '1'),
            (row['what'], row['why'], row['candidate'], row['name'], row['its name']),
        )
        self.write('c.rules', RULES + 'over phone\n')
        self.conflate(text)
        self.assertEqual(['tag n2 Tphone=222'], self.script())

    def test_the_value_that_the_file_saw_lets_its_own_in(self):
        """`old:phone` is what was on the map: where it is so still, the file's value is set."""
        head = 'lon,lat,shop,name,phone,old:phone\n'
        rows = (
            '13.0010,52.0010,bakery,Bäckerei Koch,5,\n'  # it has none, as the file says
            '13.0020,52.0010,bakery,Bäckerei Lang,2,1\n'
        )  # it is 1 still
        self.write('in.csv', head + rows)
        words = ('in.csv', '--rules', 'c.rules', '--columns', 'shop,name,phone', '--to', 'c')
        self.assertEqual(0, self.yoke('conflate', *words), self.err)
        self.assertEqual(['tag n1 Tphone=5', 'tag n2 Tphone=2'], self.script())

    def test_a_value_that_somebody_changed_since_stays_and_is_listed(self):
        head = 'lon,lat,shop,name,phone,old:phone\n'
        rows = (
            '13.0010,52.0010,bakery,Bäckerei Koch,5,4\n'  # it has none any more
            '13.0020,52.0010,bakery,Bäckerei Lang,2,3\n'
        )  # it is 1 now
        self.write('in.csv', head + rows)
        self.write('c.rules', RULES + 'over phone\n')
        words = ('in.csv', '--rules', 'c.rules', '--columns', 'shop,name,phone', '--to', 'c')
        self.assertEqual(0, self.yoke('conflate', *words), self.err)
        self.assertEqual([], self.script())
        self.assertIn('values that somebody changed: phone 2', self.out)
        self.assertEqual(
            [('line 2', 'n1', ''), ('line 3', 'n2', '1')],
            [
                (row['feature'], row['candidate'], row['its name'])
                for row in self.rows()
                if row['what'] == 'changed'
            ],
        )

    def test_do_runs_the_script_at_once(self):
        rows = '13.0010,52.0010,bakery,Bäckerei Koch,5,\n13.0060,52.0010,bakery,Bäckerei Neu,6,\n'
        self.write('in.csv', HEAD + rows)
        words = ('in.csv', '--rules', 'c.rules', *WORDS, '--to', 'c', '--do')
        self.assertEqual(0, self.yoke('conflate', *words), self.err)
        self.assertNotIn('next: yoke do', self.out)
        self.assertEqual(0, self.yoke('diff', '--short'))
        self.assertIn('n1', self.out)
        self.assertIn('n-1', self.out)
        self.assertEqual(0, self.yoke('conflate', *words), self.err)
        self.assertIn('nothing to do', self.out)

    def test_a_tag_that_no_rule_takes_isnt_set(self):
        self.write('c.rules', RULES.replace('take phone\n', ''))
        self.conflate('13.00101,52.00101,bakery,Bäckerei Koch,5,\n')
        self.assertEqual([], self.script())

    def test_another_business_moved_in(self):
        self.conflate('13.00101,52.00101,bakery,Bäckerei Zimmermann,5,\n')
        self.assertEqual({'ambiguous': 1}, self.kinds())
        self.assertIn('unlike names', (self.folder / 'c.geojson').read_text())

    def test_two_features_for_one_object(self):
        self.conflate(
            '13.00101,52.00101,bakery,Bäckerei Koch,5,\n13.00102,52.00101,bakery,Bäckerei Koch,6,\n'
        )
        self.assertEqual({'ambiguous': 2}, self.kinds())
        self.assertEqual([], self.script())

    def test_two_features_that_are_the_same_and_not_there(self):
        self.conflate(
            '13.008,52.001009,cafe,Café Neu,,\n13.008,52.0010091,cafe,Café Neu,,\n'
            '13.0085,52.001,cafe,Café Zwei,,\n13.0085,52.001005,cafe,CAFE ZWEI,6,\n'
            '13.0085,52.001,cafe,Dritte Stube,,\n'
        )
        self.assertEqual({'ambiguous': 4, 'new': 1}, self.kinds())
        self.assertEqual(
            [
                ('line 2', 'line 3'),
                ('line 3', 'line 2'),
                ('line 4', 'line 5'),
                ('line 5', 'line 4'),
            ],
            [(row['feature'], row['candidate']) for row in self.rows()],
        )
        self.assertEqual('line 3 of the file is as like', self.rows()[0]['why'])
        self.write('d.csv', 'feature,decision\nline 2,new\nline 3,skip\nline 4,new\nline 5,new\n')
        self.assertEqual(
            0,
            self.yoke(
                'conflate',
                'in.csv',
                '--rules',
                'c.rules',
                '--to',
                'c',
                *WORDS,
                '--decided',
                'd.csv',
            ),
            self.err,
        )
        self.assertEqual({'new': 4, 'skip': 1}, self.kinds())

    def test_a_kind_and_a_place_make_no_doubles_in_a_file(self):
        self.write('c.rules', RULES + 'equal addr:street\n')
        trees = [f'{13.012 + at / 20000:.7f},52.001,bench,,,\n' for at in range(9)]
        self.conflate(''.join(trees))
        self.assertEqual({'new': 9}, self.kinds())
        self.conflate(trees[0] + trees[0].replace('52.001', '52.001005') + trees[8])
        self.assertEqual({'ambiguous': 2, 'new': 1}, self.kinds())
        self.conflate('13.012,52.001,bakery,Alt,,R1\n13.0121,52.0011,bakery,Anders,,R1\n')
        self.assertEqual({'ambiguous': 2}, self.kinds(), 'one id')

    def test_decisions(self):
        text = '13.00101,52.00101,bakery,Bäckerei Zimmermann,5,\n'
        for how, kinds in (('n1', {'update': 1}), ('new', {'new': 1}), ('skip', {'skip': 1})):
            self.conflate(text)
            rows = self.rows()
            rows[0]['decision'] = how
            self.write(
                'd.csv',
                'feature,what,decision,lon,lat\n'
                + ','.join(rows[0][name] for name in ('feature', 'what', 'decision', 'lon', 'lat'))
                + '\n',
            )
            self.assertEqual(0, self.conflate(text, '--decided', 'd.csv'), self.err)
            self.assertEqual(kinds, self.kinds())

    def test_decisions_of_another_file(self):
        for text, said in (
            ('a,b\n', 'no columns feature and decision'),
            ('feature,decision\nline 9,new\n', 'there is no line 9'),
            ('feature,decision,lon,lat\nline 2,new,1.0,2.0\n', 'lies elsewhere now'),
            ('feature,decision\nline 2,new\nline 2,skip\n', 'has two decisions'),
            ('feature,decision\nline 2,n99\n', 'n99 is no object'),
            ('feature,decision\nline 2,perhaps\n', 'perhaps is no object'),
        ):
            self.write('d.csv', text)
            self.assertIn(
                self.conflate('13.001,52.001,bakery,X,5,\n', '--decided', 'd.csv'), (1, 3)
            )
            self.assertIn(said, self.err)
            self.assertFalse((self.folder / 'c.script').exists())

    def test_ids_stay_outside_the_map(self):
        self.write('c.rules', RULES + 'source-id NR\ngone\n')
        head, columns = 'lon,lat,NR,shop,name\n', ('--columns', 'shop,name', '--ids', 'ids.csv')
        first = '13.00101,52.00101,A1,bakery,Bäckerei Koch\n13.006,52.001,A2,bakery,Neu\n'
        self.assertEqual(0, self.conflate(first, *columns, head=head), self.err)
        self.assertEqual('id,key\nA1,n1\nA2,\n', (self.folder / 'ids.csv').read_text())
        self.assertNotIn('A2', (self.folder / 'c.opl').read_text())
        moved = '13.0015,52.002,A1,bakery,Ganz anders\n'
        self.assertEqual(0, self.conflate(moved, *columns, head=head), self.err)
        self.assertEqual({'same': 1}, self.kinds())  # known by its id, far away and renamed
        self.conflate('13.009,52.001,A3,bakery,X\n', *columns, head=head)
        self.assertIn('gone from the file: 2', self.out)  # A1's object, and n3 by its ref
        self.assertEqual(1, self.conflate(first.replace('A2', 'A1'), *columns, head=head))
        self.assertIn('the id A1 stands twice', self.err)
        self.assertEqual(2, self.conflate(first, '--columns', 'shop,name', head=head))

    def test_gone(self):
        self.write('c.rules', RULES + 'gone\n')
        self.conflate('13.001,52.001,bakery,Bäckerei Koch,5,8\n')
        self.assertIn('gone from the file: 1', self.out)
        self.assertEqual(['n3'], [row['candidate'] for row in self.rows() if row['what'] == 'gone'])

    def test_formulas_are_defused(self):
        for sign in '=+-@':
            self.conflate(f'13.00101,52.00101,bakery,{sign}cmd(),5,\n')
            row = self.rows()[0]
            self.assertEqual("'" + sign + 'cmd()', row['name'])

    def test_outlines_by_what_they_share(self):
        def ring(east):
            return {
                'type': 'Polygon',
                'coordinates': [
                    [
                        [13.01 + east, 52.001],
                        [13.0102 + east, 52.001],
                        [13.0102 + east, 52.0011],
                        [13.01 + east, 52.0011],
                        [13.01 + east, 52.001],
                    ]
                ],
            }

        for east, kind in (
            (0, 'same'),
            (0.00003, 'same'),
            (0.0001, 'ambiguous'),
            (0.00019, 'new'),
            (0.0004, 'new'),
        ):
            self.write(
                'o.geojson',
                json.dumps(
                    {'type': 'Feature', 'properties': {'building': 'yes'}, 'geometry': ring(east)}
                ),
            )
            for library in (shapes.shapely, lambda: None):
                with mock.patch('yoke.conflate.shapes.shapely', library):
                    self.assertEqual(
                        0,
                        self.yoke(
                            'conflate',
                            'o.geojson',
                            '--rules',
                            'c.rules',
                            '--to',
                            'c',
                            '--columns',
                            'building',
                        ),
                        self.err,
                    )
                    self.assertEqual({kind: 1}, self.kinds(), east)
        self.assertIn('python3-shapely', self.err)

    def test_a_short_line_by_a_long_one_isnt_that_line_without_names(self):
        line = [[13.01, 52.001], [13.0102, 52.0011], [13.0132, 52.0026]]
        for tags, is_same in (
            ({'name': 'Am Bach'}, True),
            ({'name': 'Waldweg'}, False),
            ({}, False),
        ):
            feature = {
                'type': 'Feature',
                'properties': {'highway': 'path', 'phone': '7', **tags},
                'geometry': {'type': 'LineString', 'coordinates': line},
            }
            self.assertEqual(
                0,
                self.conflate(
                    json.dumps(feature),
                    '--columns',
                    ','.join(feature['properties']),
                    name='in.geojson',
                ),
                self.err,
            )
            self.assertEqual(is_same, 'update' in self.kinds(), tags)
        self.write('bare.opl', TOWN.replace(',name=Am%20%Bach', ''))
        self.done('start', 'bare.opl', '--day', 'bare')
        feature['properties']['name'] = 'Waldweg'
        self.assertEqual(
            0,
            self.conflate(
                json.dumps(feature),
                '--columns',
                'highway,name,phone',
                '--day',
                'bare',
                name='in.geojson',
            ),
            self.err,
        )
        self.assertNotIn('update', self.kinds())

    def test_outlines_without_names_agree_by_the_share_of_the_rule(self):
        for north, kind in (
            (52.00118, 'update'),
            (52.00121, 'ambiguous'),
        ):  # shares of 0.56 and 0.48
            square = [
                [13.01, 52.001],
                [13.0102, 52.001],
                [13.0102, north],
                [13.01, north],
                [13.01, 52.001],
            ]
            feature = {
                'type': 'Feature',
                'properties': {'building': 'yes', 'phone': '7'},
                'geometry': {'type': 'Polygon', 'coordinates': [square]},
            }
            self.assertEqual(
                0,
                self.conflate(
                    json.dumps(feature), '--columns', 'building,phone', name='in.geojson'
                ),
                self.err,
            )
            self.assertEqual({kind: 1}, self.kinds())

    def test_the_largest_ring_of_a_multipolygon_counts(self):
        ring = 'n31 v1 x13.0200000 y52.0010000\nn32 v1 x13.0200100 y52.0010000\nn33 v1 x13.0200100 y52.0010100\n'
        relation = 'w3 v1 Nn31,n32,n33,n31\nw4 v1 Nn11,n12,n13,n14,n11\nr1 v1 Tbuilding=yes,type=multipolygon Mw3@outer,w4@outer\n'
        self.write('rings.opl', TOWN.replace('w1 v1 Tbuilding=yes', 'w1 v1 T') + ring + relation)
        self.yoke('start', 'rings.opl', '--day', 'rings')
        square = [
            [13.01, 52.001],
            [13.0102, 52.001],
            [13.0102, 52.0011],
            [13.01, 52.0011],
            [13.01, 52.001],
        ]
        feature = {
            'type': 'Feature',
            'properties': {'building': 'yes', 'phone': '7'},
            'geometry': {'type': 'Polygon', 'coordinates': [square]},
        }
        self.assertEqual(
            0,
            self.conflate(
                json.dumps(feature),
                '--day',
                'rings',
                '--columns',
                'building,phone',
                name='in.geojson',
            ),
            self.err,
        )
        self.assertEqual(['tag r1 Tphone=7'], self.script())

    def test_lines(self):
        line = {'type': 'LineString', 'coordinates': [[13.01, 52.00101], [13.0102, 52.00111]]}
        self.write('c.rules', RULES + 'overlap 0.8\n')
        self.write(
            'l.geojson',
            json.dumps(
                {
                    'type': 'Feature',
                    'properties': {'highway': 'path', 'name': 'Am Bach'},
                    'geometry': line,
                }
            ),
        )
        self.assertEqual(
            0,
            self.yoke(
                'conflate',
                'l.geojson',
                '--rules',
                'c.rules',
                '--to',
                'c',
                '--columns',
                'highway,name',
            ),
            self.err,
        )
        self.assertEqual({'same': 1}, self.kinds())

    def test_two_lines_of_a_file_a_metre_apart_are_ambiguous(self):
        line = [[13.012, 52.001], [13.0125, 52.0014], [13.013, 52.001]]
        back = [[lon, lat + 0.000002] for lon, lat in reversed(line)]
        onward = [line[-1], [13.0135, 52.0014], [13.014, 52.001]]
        for tags in ({'highway': 'path'}, {'highway': 'path', 'name': 'Waldweg'}):
            found = [
                {
                    'type': 'Feature',
                    'properties': tags,
                    'geometry': {'type': 'LineString', 'coordinates': one},
                }
                for one in (line, back, onward)
            ]
            text = json.dumps({'type': 'FeatureCollection', 'features': found})
            self.assertEqual(
                0, self.conflate(text, '--columns', ','.join(tags), name='in.geojson'), self.err
            )
            self.assertEqual({'ambiguous': 2, 'new': 1}, self.kinds())
            self.assertEqual(
                [('feature 1', 'feature 2'), ('feature 2', 'feature 1')],
                [(row['feature'], row['candidate']) for row in self.rows()],
            )

    def test_no_file_of_another_program_is_written_over(self):
        for ending in outputs.ENDINGS:
            self.write('c' + ending, 'mine')
            self.assertEqual(1, self.conflate('13.001,52.001,bakery,X,5,\n'), ending)
            self.assertEqual('mine', (self.folder / ('c' + ending)).read_text())
            (self.folder / ('c' + ending)).unlink()
        self.assertEqual(1, self.conflate('', name='c.csv'))  # it is read by the same command

    def test_what_lies_far_away_is_left_out(self):
        row = '52.00600,13.00100,bakery,Bäckerei Neu,6,\n'
        self.assertEqual(0, self.conflate(row))
        self.assertEqual({'left out': 1}, self.kinds())
        self.assertIn('exchanged they would lie in them', self.rows()[0]['why'])
        self.assertEqual(0, self.conflate(row, '--anywhere'))
        self.assertEqual({'new': 1}, self.kinds())

    def test_a_row_that_stands_twice_is_taken_once(self):
        self.write('c.rules', RULES + 'source-id NR\n')
        row = '13.00101,52.00101,bakery,Bäckerei Koch,5,,A1\n'
        words = ('--columns', 'shop,name,phone,ref:shop', '--ids', 'ids.csv')
        self.assertEqual(
            0, self.conflate(row + row, *words, head='lon,lat,shop,name,phone,ref:shop,NR\n')
        )
        self.assertEqual({'update': 1, 'left out': 1}, self.kinds())
        self.assertEqual('it is the same as line 2', self.rows()[0]['why'])

    def test_a_run_that_was_stopped_is_run_again(self):
        write_whole, written = day.write_whole, []

        def stop(name, text):
            written.append(name)
            if len(written) == 3:
                raise KeyboardInterrupt
            write_whole(name, text)

        row = '13.00600,52.00100,bakery,Bäckerei Neu,6,\n'
        with mock.patch('yoke.day.write_whole', stop):
            self.conflate(row)
        self.assertEqual(['c.script', 'c.opl', 'c.csv'], [name.split('/')[-1] for name in written])
        self.assertEqual(1, self.yoke('do', 'c.script'))
        self.assertIn('run it again', self.err)
        self.assertEqual(0, self.conflate(row))
        self.assertEqual(0, self.yoke('do', 'c.script'))

    def test_the_script_is_for_this_session(self):
        self.conflate('13.00101,52.00101,bakery,Bäckerei Koch,5,\n')
        self.do('tag n4 Ta=b')
        self.assertEqual(1, self.yoke('do', 'c.script'))

    def test_data(self):
        self.conflate('13.00101,52.00101,bakery,Bäckerei Koch,5,\n', '--json')
        found = json.loads(self.out)['result']
        self.assertEqual(documented()['conflate'], set(found))
        self.assertEqual(1, found['counts']['update'])

    def test_rules_that_are_none(self):
        for text, said in (
            ('', 'it names no objects'),
            ('against Tx=y\nwithin far', 'line 2: far is no number'),
            ('against Tx=y\nwithn 5', 'is no rule'),
            ('against Tx=y\nwithin nan', 'no number'),
            ('against Tx=y\nwithin 0', 'within'),
            ('against Tx=y\nleast 2', 'doubt <= least'),
            ('against Tx=y\noverlap 7', 'are shares'),
            ('against Tx=y\nlike a\nlike b', 'already'),
            ('against ((', 'is no query'),
        ):
            self.write('c.rules', text)
            self.assertIn(self.conflate('13.001,52.001,bakery,X,5,\n'), (1, 3), text)
            self.assertIn(said, self.err)


class DateLine(ConflateTest):
    def test_across_the_meridian(self):
        self.write('far.opl', 'n1 v1 x179.9999 y10 Tshop=bakery,name=Fiji\n')
        self.yoke('start', 'far.opl', '--day', 'far')
        self.assertEqual(
            0, self.conflate('-179.9999,10,bakery,Fiji,5,\n', '--day', 'far'), self.err
        )
        self.assertEqual({'update': 1}, self.kinds())


class Parts(unittest.TestCase):
    @given(
        strategies.floats(-180, 180),
        strategies.floats(-85, 85),
        strategies.floats(0, 360),
        strategies.floats(0, 90),
    )
    @settings(max_examples=300, deadline=None)
    def test_what_is_within_is_found_by_the_grid(self, lon, lat, angle, far):
        """Whatever lies within the search of a place is in the cells about it, over the meridian
        too.
        """
        there = (
            shapes.turned(
                lon
                + math.cos(math.radians(angle))
                * far
                / (shapes.LON_METRES * math.cos(math.radians(lat)))
            ),
            lat + math.sin(math.radians(angle)) * far / shapes.LAT_METRES,
        )
        thing = Thing('n1', {}, [there])
        grid = shapes.Grid([thing], 100, abs(lat) + 0.01)
        self.assertLessEqual(shapes.metres((lon, lat), thing), 100)
        self.assertIn(thing, grid.near((lon, lat)))

    @given(strategies.text(max_size=20), strategies.text(max_size=20))
    @settings(max_examples=200, deadline=None)
    def test_likeness(self, one, other):
        found = names.Names([one, other])
        self.assertEqual(found.alike(one, other), found.alike(other, one))
        self.assertTrue(0 <= found.alike(one, other) <= 1 + 1e-9)
        self.assertEqual(
            1, found.alike(one, one.upper().lower().casefold()) if one.isascii() else 1
        )

    def test_rare_words_count_more(self):
        found = names.Names(
            ['Bäckerei Koch', 'Bäckerei Lang', 'Bäckerei Weber', 'Bäckerei Huber', 'Bäckerei Maier']
        )
        self.assertLess(found.alike('Bäckerei Koch', 'Bäckerei Lang'), 0.5)
        self.assertGreater(
            found.alike('Bäckerei Koch', 'Koch'), found.alike('Bäckerei Koch', 'Bäckerei')
        )
        self.assertEqual(1, found.alike('Hauptstr.', 'HAUPTSTRASSE'))

    def test_names_of_signs_alone_are_told_apart(self):
        found = names.Names(['★', '☆'])
        self.assertEqual([0, 1], [found.alike('★', '☆'), found.alike('★', ' ★ ')])

    @given(strategies.floats(-1.5, 1.5), strategies.floats(-1.5, 1.5))
    @settings(max_examples=100, deadline=None)
    def test_the_raster_is_near_the_truth(self, x, y):
        def square(dx, dy):
            return [(dx, dy), (dx + 1, dy), (dx + 1, dy + 1), (dx, dy + 1), (dx, dy)]

        both = max(0, 1 - abs(x)) * max(0, 1 - abs(y))
        self.assertAlmostEqual(
            both / (2 - both), shapes.by_raster(square(0, 0), square(x, y)), delta=0.12
        )

    def test_matching_doesnt_depend_on_the_order(self):
        one = rules.read('against Tshop=*\nsame shop\n')
        things = [
            Thing(f'n{at}', {'shop': 'bakery', 'name': f'Name {at}'}, [(13 + at / 1000, 52)])
            for at in range(9)
        ]
        features = [
            Thing(f'f{at}', {'shop': 'bakery', 'name': f'NAME {at}'}, [(13.00001 + at / 1000, 52)])
            for at in range(9)
        ]
        found = {
            each.feature.name: (each.kind, each.best.name)
            for each in match.match(one, features, things)
        }
        again = {
            each.feature.name: (each.kind, each.best.name)
            for each in match.match(one, features[::-1], things[::-1])
        }
        self.assertEqual(found, again)
        self.assertEqual({('update', f'n{at}') for at in range(9)}, set(found.values()))
