"""`yoke get`: an extract is whole, or there is none, whatever the server does."""
import fcntl
import os
import random
import shutil
import subprocess
import time
import unittest
from decimal import Decimal
from unittest import mock

from hypothesis import given, settings, strategies

from yoke.extracts import boxes, header
from yoke.extracts.parts import Parts
from yoke.extracts.whole import Whole
from yoke.opl import Object
from yoke.testing.elements import lines_of_opl
from yoke.testing.overpass import BASE, StrictOverpass
from yoke.tests.support import ServerTest

OSMIUM = shutil.which('osmium')
ALL = '13,51.99,13.01,52.01'


def city(rows: int) -> str:
    """A grid of nodes, each joined with its right neighbour by a way, and a relation of all ways."""
    lines, ways = [], []
    for y in range(rows):
        for x in range(rows):
            lines.append(f'n{y * rows + x + 1} v1 x{13 + x * 0.001:.3f} y{52 + y * 0.001:.3f}')
    for y in range(rows):
        for x in range(rows - 1):
            one = y * rows + x + 1
            ways.append(f'w{one}')
            lines.append(f'w{one} v1 Thighway=path Nn{one},n{one + 1}')
    members = ','.join(f'{way}@' for way in ways)
    return '\n'.join(lines + [f'r1 v1 Ttype=network M{members}']) + '\n'


class GetTest(ServerTest):
    def got(self, name='area.opl'):
        """The lines of an extract without the first one, as the strict server would write them."""
        text = (self.folder / name).read_text(encoding='utf-8')
        return {element.key: element for element in lines_of_opl(text.splitlines())}

    def there(self):
        return {element.key: element for element in self.server.elements() if element.visible}

    def get(self, *words, to='area.opl', bbox=ALL):
        return self.yoke('get', '--api', self.server.api, '--bbox', bbox, '--to', to, *words)

    def no_rest(self, *names):
        """No file but these and the town is in the folder."""
        names = {'town.opl', *names}
        self.assertEqual([], sorted({path.name for path in self.folder.iterdir()} - names))


class OfApi(GetTest):
    town = city(12)
    limits = {'area': '0.25'}

    def test_a_box_by_one_call(self):
        self.assertEqual(0, self.get(bbox='13,52,13.1,52.1'), self.err)
        self.assertEqual(self.there(), self.got())
        self.assertIn('144 nodes, 132 ways, 1 relations, by 1 calls\n', self.out)
        self.assertIn('next: yoke start area.opl', self.out)
        self.no_rest('area.opl')

    def test_the_first_line_has_the_moment(self):
        with mock.patch('yoke.extracts.map_calls.time.time', lambda: 1_700_000_000.7):
            self.get(bbox='13,52,13.1,52.1')
        first = (self.folder / 'area.opl').read_text().split('\n')[0]
        self.assertRegex(
            first, '# as of 20..-..-..T..:..:..Z, from http://127.0.0.1:[0-9]+/api/0.6'
        )
        self.assertEqual(first.split(' ')[3].rstrip(','), header.moment_of('area.opl'))
        self.assertIn(f'as of {header.moment_of("area.opl")}', self.out)

    def test_the_extract_begins_a_session(self):
        self.get(bbox='13,52,13.1,52.1')
        self.assertEqual(
            '144 nodes, 132 ways, 1 relations\n', self.done('start', 'area.opl').split('kept')[0]
        )

    def test_a_box_is_cut_by_area_and_by_nodes(self):
        for limits, least in (
            ({'area': '0.00002'}, 6),
            ({'map_nodes': 20}, 8),
            ({'area': '0.00004', 'map_nodes': 15}, 8),
        ):
            with self.subTest(limits):
                self.server = self.serve(**limits)
                self.assertEqual(
                    0, self.get(bbox='13,52,13.011,52.011', to=f'{least}.opl'), self.err
                )
                self.assertEqual(self.there(), self.got(f'{least}.opl'))
                self.assertGreaterEqual(self.server.requests.count('map'), least)
                (self.folder / f'{least}.opl').unlink()

    def test_what_a_box_has_is_what_one_call_has(self):
        """Of a part of the town: the cut box and one call agree."""
        self.get(bbox='13.0025,52.0025,13.0075,52.0075', to='one.opl')
        whole = self.got('one.opl')
        self.assertLess(len(whole), len(self.there()))
        self.server = self.serve(map_nodes=5)
        self.get(bbox='13.0025,52.0025,13.0075,52.0075', to='cut.opl')
        self.assertEqual(whole, self.got('cut.opl'))

    def test_too_many_calls_are_refused_before_the_first(self):
        self.server = self.serve(area='0.0000001')
        self.assertEqual(1, self.get(bbox='13,52,13.1,52.1'))
        self.assertIn('more than 200 calls', self.err)
        self.assertEqual(0, self.server.requests.count('map'))
        self.no_rest()

    def test_too_many_calls_by_nodes(self):
        self.server = self.serve(map_nodes=2)
        self.assertEqual(1, self.get('--max-calls', '10', bbox='13,52,13.011,52.011'))
        self.assertIn('more than 10 calls', self.err)
        self.assertLessEqual(self.server.requests.count('map'), 10)
        self.assertFalse((self.folder / 'area.opl').exists())

    def test_no_file_is_written_over(self):
        self.write('area.opl', 'mine')
        self.assertEqual(1, self.get())
        self.assertIn('area.opl is there already', self.err)
        self.assertEqual([], self.server.requests)
        os.symlink('nowhere', self.folder / 'link.opl')
        self.assertEqual(1, self.get(to='link.opl'))

    def test_a_file_that_appears_meanwhile_isnt_written_over(self):
        self.server.after('map', 1, lambda: self.write('area.opl', 'mine'))
        self.assertEqual(1, self.get(bbox='13,52,13.1,52.1'))
        self.assertEqual('mine', (self.folder / 'area.opl').read_text())
        self.assertIn('is there by now', self.err)

    def test_another_ending_is_refused(self):
        self.assertEqual(1, self.get(to='area.osm.pbf'))
        self.assertIn('ends in .opl', self.err)

    def test_nothing_there(self):
        self.assertEqual(1, self.get(bbox='52,13,52.1,13.1'))
        self.assertIn('nothing is there', self.err)
        self.no_rest()

    def test_a_download_goes_on_where_it_broke_off(self):
        self.server = self.serve(map_nodes=20)
        with mock.patch('yoke.extracts.parts.Parts.keep', autospec=True, side_effect=stop_after(5)):
            self.assertEqual(130, self.get(bbox='13,52,13.011,52.011'))
        self.assertFalse((self.folder / 'area.opl').exists())
        asked = self.server.requests.count('map')
        self.assertEqual(0, self.get(bbox='13,52,13.011,52.011'), self.err)
        again = self.server.requests.count('map') - asked
        self.assertIn('goes on with 5 parts', self.err)
        self.assertEqual(self.there(), self.got())
        other = self.serve(map_nodes=20)
        self.server = other
        self.get(bbox='13,52,13.011,52.011', to='whole.opl')
        self.assertEqual(other.requests.count('map'), again + 5)
        self.no_rest('area.opl', 'whole.opl')

    def test_no_answer_keeps_the_parts_and_says_so(self):
        self.server = self.serve(map_nodes=20)
        self.server.before(
            'map', 4, lambda: [self.server.faults.once('500-before', 'map') for _ in range(9)]
        )
        self.assertEqual(5, self.get(bbox='13,52,13.011,52.011'))
        self.assertRegex(self.err.splitlines()[-1], 'parts are kept: the same command goes on')
        self.assertFalse((self.folder / 'area.opl').exists())
        self.assertTrue(list((self.folder / 'area.opl.parts').glob('*.part')))

    def test_parts_of_another_request_or_too_old_are_refused(self):
        parts = self.folder / 'area.opl.parts'
        parts.mkdir()
        (parts / 'request').write_text('{"api": "x"}')
        (parts / '1_2_3_4.part').write_text('# cut\n')
        self.assertEqual(1, self.get())
        self.assertIn('parts of another request', self.err)
        self.assertEqual(0, self.get('--anew', bbox='13,52,13.1,52.1'), self.err)
        (self.folder / 'area.opl').unlink()
        with mock.patch('yoke.extracts.parts.Parts.remove'):
            self.get(bbox='13,52,13.1,52.1')
        (self.folder / 'area.opl').unlink()
        for path in parts.glob('*.part'):
            os.utime(path, (time.time() - 90_000,) * 2)
        self.assertEqual(1, self.get(bbox='13,52,13.1,52.1'))
        self.assertIn('more than a day old', self.err)

    def test_the_moment_of_a_resumed_download_is_that_of_its_first_part(self):
        self.server = self.serve(map_nodes=20)
        with mock.patch('yoke.extracts.parts.Parts.keep', autospec=True, side_effect=stop_after(5)):
            self.get(bbox='13,52,13.011,52.011')
        for path in (self.folder / 'area.opl.parts').glob('*.part'):
            text = path.read_text()
            if text.startswith('# as of'):
                path.write_text('# as of 2026-01-02T03:04:05Z, from x\n' + text.split('\n', 1)[1])
        self.get(bbox='13,52,13.011,52.011')
        self.assertEqual('2026-01-02T03:04:05Z', header.moment_of('area.opl'))
        self.assertIn('between 2026-01-02T03:04:05Z and', self.out)
        self.assertIn('more than a day old', self.err)

    def test_two_at_once(self):
        parts = self.folder / 'area.opl.parts'
        parts.mkdir()
        with open(parts / 'lock', 'w', encoding='utf-8') as lock:
            fcntl.flock(lock, fcntl.LOCK_EX)
            self.assertEqual(7, self.get())
        self.assertIn('another yoke gets area.opl', self.err)

    def test_an_edit_between_two_calls(self):
        self.server = self.serve(map_nodes=20)
        self.server.before(
            'map',
            5,
            lambda: [
                self.server.edit('modify', 'n1', tags={'natural': 'tree'}),
                self.server.edit('modify', f'w{5 * 12 + 6}', tags={'highway': 'track'}),
                self.server.edit(
                    'modify',
                    'w1',
                    nodes=[
                        1,
                        2,
                        self.server.edit('create', 'n-1', place=('13.5', '52.5'))
                        and self.server.database.last['node'],
                    ],
                ),
            ],
        )
        self.assertEqual(0, self.get(bbox='13,52,13.011,52.011'), self.err)
        got = self.got()
        refs = {key for one in got.values() if one.kind == 'way' for key in one.references}
        self.assertEqual(set(), refs - set(got))

    def test_a_server_that_leaves_nodes_out(self):
        """What a way uses and no call had is asked for; if it doesn't come there is no extract."""
        whole = self.server.database.map

        def without(words):
            text = whole(words).decode()
            at = text.index('<node id="7"')
            return (text[:at] + text[text.index('/>', at) + 2 :]).encode()

        self.server.database.map = without
        self.assertEqual(0, self.get(bbox='13,52,13.1,52.1'), self.err)
        self.assertEqual(self.there(), self.got())
        self.assertIn('1 nodes of ways were asked for', self.out)
        (self.folder / 'area.opl').unlink()
        self.server.database.read_many = lambda kind, words: []
        self.assertEqual(5, self.get(bbox='13,52,13.1,52.1'))
        self.assertIn('n7', self.err)
        self.assertFalse((self.folder / 'area.opl').exists())

    def test_a_box_that_begins_with_a_minus_is_no_option(self):
        self.assertEqual(1, self.get(bbox='-0.5,51,-0.4,51.1'))
        self.assertIn('nothing is there', self.err)

    def test_faults_of_the_server(self):
        for fault in ('500-before', '504-before', 'half-after', '429-before', '509-before'):
            with self.subTest(fault):
                self.server.faults.once(fault, 'map')
                self.assertEqual(0, self.get(bbox='13,52,13.1,52.1', to=f'{fault}.opl'), self.err)
                self.assertEqual(self.there(), self.got(f'{fault}.opl'))

    def test_words(self):
        for words, said in (
            ([], 'one of --api, --overpass and --from'),
            (['--api', self.server.api], 'wants --bbox'),
            (['--api', self.server.api, '--from', 'x'], 'one of'),
            (['--api', self.server.api, '--bbox', '13,52,14'], 'is no box'),
            (['--api', self.server.api, '--bbox', '13,52,13,53'], 'no area'),
            (['--api', self.server.api, '--bbox', '13,53,14,52'], 'no box on the map'),
            (['--api', self.server.api, '--bbox', ALL, '--query', 'q'], '--query goes with'),
            (['--overpass', 'http://127.0.0.1:1/'], 'wants --query'),
            (['--from', 'x.pbf'], 'wants --bbox or --polygon'),
            (['--from', 'x.pbf', '--bbox', ALL, '--polygon', 'p'], 'wants --bbox or --polygon'),
            (['--overpass', 'http://example.org/', '--query', 'q'], 'wants https'),
            (['--overpass', 'https://me:secret@h/', '--query', 'q'], 'wants an address'),
        ):
            with self.subTest(words):
                self.assertEqual(2, self.yoke('get', '--to', 'area.opl', *words), self.err)
                self.assertIn(said, self.err)
                self.assertNotIn('secret', self.err)
        self.assertEqual([], self.server.requests)


def stop_after(count):
    """Breaks off after so many calls of `Parts.keep`."""
    keep, calls = Parts.keep, []

    def stopping(self, name, text):
        keep(self, name, text)
        calls.append(name)
        if len(calls) == count:
            raise KeyboardInterrupt

    return stopping


class OverTheMeridian(GetTest):
    town = (
        'n1 v1 x179.9 y10\nn2 v1 x-179.9 y10\nn3 v1 x179.95 y10\nn4 v1 x0 y10\n'
        'w1 v1 Tferry=yes Nn1,n2\n'
    )

    def test_both_sides(self):
        self.assertEqual(0, self.get(bbox='179.85,9.9,-179.85,10.1'), self.err)
        self.assertEqual({'n1', 'n2', 'n3', 'w1'}, set(self.got()))


class OfOverpass(GetTest):
    town = city(6)

    def setUp(self):
        super().setUp()
        self.overpass = StrictOverpass(self.server.database)
        self.overpass.__enter__()
        self.addCleanup(self.overpass.__exit__)
        self.write(
            'query', '[out:xml][timeout:25];\n(way["highway"]({{bbox}}););(._; >;);\nout meta;\n'
        )

    def ask_overpass(self, *words, query='query'):
        return self.yoke(
            'get', '--overpass', self.overpass.address, '--query', query, '--to', 'area.opl', *words
        )

    def query(self, text):
        self.write('query', text)
        return self.ask_overpass()

    def test_a_query(self):
        self.assertEqual(0, self.ask_overpass('--bbox', ALL), self.err)
        self.assertEqual({key: one for key, one in self.there().items() if key != 'r1'}, self.got())
        self.assertEqual(BASE, header.moment_of('area.opl'))
        self.assertIn('(51.99,13,52.01,13.01)', self.overpass.queries[0])
        self.no_rest('area.opl', 'query')
        self.assertEqual(0, self.yoke('start', 'area.opl'), self.err)

    def test_the_token_stays_here(self):
        self.ask_overpass('--bbox', ALL)
        self.assertNotIn('authorization', self.overpass.headers[0])

    def test_a_cut_answer_is_refused_and_not_kept(self):
        self.overpass.most = 20
        self.assertEqual(5, self.ask_overpass('--bbox', ALL))
        self.assertIn('cut its answer off: runtime error: Query timed out', self.err)
        self.no_rest('query')
        self.overpass.most = 10_000
        self.assertEqual(0, self.ask_overpass('--bbox', ALL), self.err)

    def test_half_an_answer(self):
        self.overpass.faults = ['half']
        self.assertEqual(5, self.ask_overpass('--bbox', ALL))
        self.no_rest('query')

    def test_a_busy_server_is_asked_again(self):
        self.overpass.faults = ['429 7', '504', '429']
        self.assertEqual(0, self.ask_overpass('--bbox', ALL), self.err)
        self.assertEqual([7, 30, 60], self.waited)
        self.overpass.faults = ['504'] * 9
        (self.folder / 'area.opl').unlink()
        self.assertEqual(5, self.ask_overpass('--bbox', ALL))
        self.assertIn('504', self.err)
        self.assertEqual(5, len(self.overpass.faults))

    def test_no_redirect_is_followed(self):
        self.overpass.faults = ['redirect']
        self.assertEqual(5, self.ask_overpass('--bbox', ALL))
        self.assertEqual(1, len(self.overpass.queries))

    def test_a_query_that_is_none(self):
        self.assertEqual(6, self.query('[out:xml];\nfoo(1);\nout meta;'))
        self.assertIn('parse error: Unknown type "foo"; mend the query', self.err)
        self.assertNotIn('<', self.err)

    def test_answers_without_what_an_edit_needs(self):
        for text, said in (
            ('node(1);out;', 'n1 has no version'),
            ('way(1);out ids;', 'no version'),
            ('node(1);out count;', '<count>, which is no object'),
            ('node(999);out meta;', 'finds nothing'),
        ):
            with self.subTest(text):
                self.assertEqual(1, self.query(text))
                self.assertIn(said, self.err)
                self.no_rest('query')

    def test_queries_that_are_refused_unasked(self):
        for text, said in (
            ('[out:json];node(1);out meta;', 'another form than XML'),
            ('[out : csv(::id)];node(1);out meta;', 'another form than XML'),
            ('[diff:"2026-01-01T00:00:00Z"];node(1);out meta;', 'a difference'),
            ('node({{bbox}});out meta;', 'say which one by --bbox'),
            (' ', 'empty'),
        ):
            with self.subTest(text):
                self.assertEqual(1, self.query(text))
                self.assertIn(said, self.err)
        self.write('query', 'node(1);out meta;')
        self.assertEqual(1, self.ask_overpass('--bbox', ALL))
        self.assertIn('no {{bbox}} in it', self.err)
        self.assertEqual([], self.overpass.queries)

    def test_what_is_only_referred_to_is_counted(self):
        self.assertEqual(0, self.query('way(1);out meta;'), self.err)
        self.assertIn('2 objects are only referred to', self.out)

    def test_the_date_of_a_query_is_that_of_the_file(self):
        self.assertEqual(0, self.query('[out:xml][date:"2026-02-03T00:00:00Z"];node(1);out meta;'))
        self.assertEqual('2026-02-03T00:00:00Z', header.moment_of('area.opl'))


@unittest.skipUnless(OSMIUM, 'osmium isn\'t there')
class OfFile(GetTest):
    town = city(12)

    def setUp(self):
        super().setUp()
        self.write('town.opl', self.server.opl())
        subprocess.run(
            [
                OSMIUM,
                'cat',
                'town.opl',
                '-o',
                'town.osm.pbf',
                '--output-header',
                'osmosis_replication_timestamp=2026-05-04T03:02:01Z',
            ],
            check=True,
        )

    def cut(self, *words, to='area.opl'):
        return self.yoke('get', '--from', 'town.osm.pbf', '--to', to, *words)

    def test_a_box(self):
        self.assertEqual(0, self.cut('--bbox', '13.0025,52.0025,13.0075,52.0075'), self.err)
        self.get(bbox='13.0025,52.0025,13.0075,52.0075', to='api.opl')
        got, api = self.got(), self.got('api.opl')
        self.assertEqual(
            {key: one for key, one in api.items() if key[0] != 'r'},
            {key: one for key, one in got.items() if key[0] != 'r'},
        )
        self.assertEqual('2026-05-04T03:02:01Z', header.moment_of('area.opl'))
        self.assertEqual(0, self.yoke('start', 'area.opl'), self.err)
        self.no_rest('area.opl', 'api.opl', 'town.osm.pbf', 'day')

    def test_a_polygon(self):
        self.write(
            'p.geojson',
            '{"type":"Feature","properties":{},"geometry":{"type":"Polygon",'
            '"coordinates":[[[13,52],[13.0035,52],[13.0035,52.0035],[13,52]]]}}',
        )
        self.assertEqual(0, self.cut('--polygon', 'p.geojson'), self.err)
        self.assertIn('n1', self.got())
        self.assertNotIn('n144', self.got())

    def test_a_box_across_the_meridian(self):
        self.write('far.opl', OverTheMeridian.town)
        self.assertEqual(
            0,
            self.yoke(
                'get', '--from', 'far.opl', '--bbox', '179.85,9.9,-179.85,10.1', '--to', 'area.opl'
            ),
            self.err,
        )
        self.assertEqual({'n1', 'n2', 'n3', 'w1'}, set(self.got()))

    def test_nothing_there_and_no_metadata(self):
        self.assertEqual(1, self.cut('--bbox', '1,2,3,4'))
        self.assertIn('nothing of town.osm.pbf', self.err)
        self.write('bare.opl', 'n1 x13.001 y52.001\n')
        self.assertEqual(1, self.yoke('get', '--from', 'bare.opl', '--bbox', ALL, '--to', 'a.opl'))
        self.assertIn('has no version', self.err)
        self.no_rest('town.osm.pbf', 'bare.opl')

    def test_beyond_the_bounds_of_the_file(self):
        subprocess.run(
            [
                OSMIUM,
                'extract',
                '--set-bounds',
                '-b',
                '13,52,13.005,52.005',
                'town.osm.pbf',
                '-o',
                'part.osm.pbf',
            ],
            check=True,
        )
        words = ['get', '--from', 'part.osm.pbf', '--to', 'area.opl', '--bbox']
        self.assertEqual(1, self.yoke(*words, '13.001,52.001,13.006,52.004'))
        self.assertIn('reaches beyond part.osm.pbf, which has 13,52,13.005,52.005', self.err)
        self.assertEqual(0, self.yoke(*words, '13.001,52.001,13.004,52.004'), self.err)
        (self.folder / 'area.opl').unlink()
        self.assertEqual(0, self.yoke(*words, '13.001,52.001,13.006,52.004', '--beyond'), self.err)

    def test_files_that_are_none(self):
        for name, text, said in (
            ('no.osm.pbf', None, 'there is no file'),
            ('junk.osm.pbf', 'junk', 'osmium doesn\'t read'),
        ):
            if text:
                self.write(name, text)
            self.assertEqual(3, self.yoke('get', '--from', name, '--bbox', ALL, '--to', 'area.opl'))
            self.assertIn(said, self.err)
        self.assertEqual(3, self.cut('--polygon', 'no.poly'))
        self.write('bad.poly', 'nothing')
        self.assertEqual(3, self.cut('--polygon', 'bad.poly'))
        self.assertIn('osmium doesn\'t cut', self.err)

    def test_an_old_version_beside_the_newest(self):
        self.write(
            'old.osh.opl',
            'n1 v1 dV c1 t2020-01-01T00:00:00Z i1 ua T x13.001 y52\n'
            'n1 v2 dV c2 t2021-01-01T00:00:00Z i1 ua T x13.001 y52\n',
        )
        subprocess.run([OSMIUM, 'cat', 'old.osh.opl', '-o', 'old.osh.pbf'], check=True)
        self.assertEqual(
            1, self.yoke('get', '--from', 'old.osh.pbf', '--bbox', ALL, '--to', 'a.opl')
        )
        self.assertIn('has old versions too', self.err)

    def test_without_osmium(self):
        with mock.patch('shutil.which', lambda name: None):
            self.assertEqual(3, self.cut('--bbox', ALL))
        self.assertIn('apt-get install osmium-tool', self.err)


class Boxes(unittest.TestCase):
    @given(
        strategies.lists(
            strategies.integers(-1_799_999_999, 1_799_999_999), min_size=2, max_size=2, unique=True
        ),
        strategies.lists(
            strategies.integers(-900_000_000, 900_000_000), min_size=2, max_size=2, unique=True
        ),
    )
    @settings(max_examples=200, deadline=None)
    def test_halves_are_the_box(self, lons, lats):
        (west, east), (south, north) = sorted(lons), sorted(lats)
        box = west, south, east, north
        self.assertEqual([box], boxes.read(boxes.words(box)))
        one, other = boxes.halves(box)
        self.assertEqual(boxes.area(box), boxes.area(one) + boxes.area(other))
        self.assertEqual(
            box,
            (
                min(one[0], other[0]),
                min(one[1], other[1]),
                max(one[2], other[2]),
                max(one[3], other[3]),
            ),
        )
        self.assertTrue(one[2] == other[0] or one[3] == other[1])

    def test_across_the_meridian(self):
        self.assertEqual(
            [
                (1_790_000_000, 0, 1_800_000_000, 10_000_000),
                (-1_800_000_000, 0, -1_790_000_000, 10_000_000),
            ],
            boxes.read('179,0,-179,1'),
        )
        self.assertEqual(Decimal('1'), boxes.area(boxes.read('179,0,-179,1')[0]))

    def test_no_boxes(self):
        for text in (
            '',
            '1,2,3',
            '1,2,3,x',
            'nan,1,2,3',
            '1,2,1,3',
            '1,4,2,3',
            '-181,0,1,1',
            '0,-91,1,1',
            '0,0,181,1',
            'inf,0,-1,1',
            '200,0,1,1',
        ):
            with self.assertRaises(ValueError, msg=text):
                boxes.read(text)


class WholeTest(unittest.TestCase):
    def test_the_newest_version_counts_in_any_order(self):
        things = [
            Object('n1', version, tags={'v': str(version)}, lon=Decimal(1), lat=Decimal(2))
            for version in (1, 2, 3)
        ]
        for _ in range(6):
            random.Random(_).shuffle(things)
            whole = Whole()
            for thing in things:
                whole.add(thing)
            self.assertEqual({'n1'}, whole.changed)
            self.assertIn('v=3', whole.lines['n1'][1])

    def test_references(self):
        whole = Whole()
        whole.add(Object('w1', 1, nodes=('n1', 'n2', 'n1')))
        whole.add(Object('r1', 1, members=(('w1', ''), ('n7', 'a @,b'))))
        whole.add(Object('r2', 1))
        whole.add(Object('n1', 1, lon=Decimal(1), lat=Decimal(2)))
        self.assertEqual({'n2', 'n7'}, whole.missing())
        self.assertEqual({'n2'}, whole.missing('w'))


class Header(unittest.TestCase):
    def test_lines(self):
        for moment in ('2026-12-02T04:13:00Z', None):
            with mock.patch(
                'builtins.open',
                mock.mock_open(
                    read_data=(header.line(moment, 'https://h/\nx') + '\nn1 v1\n').encode()
                ),
            ):
                self.assertEqual(moment, header.moment_of('x'))
        self.assertFalse(header.is_stamp(None))
        self.assertFalse(header.is_stamp('2026-12-02'))
        self.assertEqual('2023-11-14T22:13:20Z', header.stamp(1_700_000_000.9))


if __name__ == '__main__':
    unittest.main()
