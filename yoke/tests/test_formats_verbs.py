"""The verbs of other formats and of scripts, as a user runs them, over the folder of a day."""
import gzip
import json
import os
import pathlib
import unittest

from yoke import table
from yoke.tests import sessions
from yoke.tests.support import FolderTest
from yoke.tests.test_foreign import DRAWN, TOWN, OsmChange
from yoke.tests.test_import import ADDRESSES, HOUSES, RULES


class Verbs(FolderTest):
    def setUp(self):
        super().setUp()
        self.begin(town=TOWN)

    def write(self, name, text):
        """Writes a file of the test's folder, of a text or of bytes."""
        pathlib.Path(name).write_bytes(text if isinstance(text, bytes) else text.encode())

    def yoke(self, *words, code=None):
        """The exit code of the command; with one that it has to have what it writes, on both
        streams.
        """
        found = super().yoke(*words)
        if code is None:
            return found
        self.assertEqual(code, found, self.out + self.err)
        return self.out + self.err

    def table(self):
        return table.read(max(pathlib.Path('day').glob('*.saved')).read_text())

    def states(self):
        return len(list(pathlib.Path('day').glob('*.saved')))

    # ---- JOSM and osmChange ----

    def test_josm(self):
        self.write('drawn.osm', DRAWN)
        self.assertIn('nodes w10 Nn1,n-1,n2,n3\n', self.done('josm', 'drawn.osm', '--show'))
        self.assertEqual(self.states(), 1)
        self.assertIn(
            'new 2, tags 2, place 1, nodes 1, members 1, deleted 5\n',
            self.done('josm', 'drawn.osm'),
        )
        self.assertEqual(self.table().mine('w10').nodes, ('n1', 'n-1', 'n2', 'n3'))

    def test_josm_does_nothing_where_something_is_in_the_way(self):
        self.write(
            'drawn.osm',
            DRAWN.replace(
                b"<way id='10' action='modify' visible='true' version='2'",
                b"<way id='10' action='modify' visible='true' version='3'",
            ),
        )
        self.assertEqual(
            self.yoke('josm', 'drawn.osm', code=1),
            'w10 has version 3 there, and the session began from version 2\nyoke: nothing is done of drawn.osm: 1 of its edits can\'t be\n',
        )
        self.write('drawn.osm', b"<osm><node id='11' action='delete' version='1'/></osm>")
        self.assertIn('n11 is still used by w20', self.yoke('josm', 'drawn.osm', code=1))
        self.assertEqual(self.states(), 1)
        self.assertEqual(self.yoke('josm', 'town.opl', code=3)[:28], 'yoke: town.opl: it is no XML')
        self.assertEqual(
            self.yoke('josm', 'nothing.osm', code=3), 'yoke: there is no file nothing.osm\n'
        )
        self.assertEqual(self.yoke('josm', '.', code=3), 'yoke: . is a folder\n')
        self.write('drawn.osm.gz', DRAWN)
        self.assertIn("drawn.osm.gz can't be read", self.yoke('josm', 'drawn.osm.gz', code=3))
        self.write('drawn.osm.gz', gzip.compress(DRAWN))
        self.assertIn('new 2', self.done('josm', 'drawn.osm.gz'))

    def test_there_and_back(self):
        self.write(
            'a.script', 'node x9.5009 y47.1409 Tamenity=bench\ntag w10 Tname=Lane\nerase w20\n'
        )
        self.done('do', 'a.script')
        self.assertEqual(self.done('to-josm', 'day.osm'), 'wrote day.osm\n')
        self.assertEqual(self.done('josm', 'day.osm'), 'day.osm changes nothing here\n')
        self.write(
            'day.osm',
            pathlib.Path('day.osm')
            .read_bytes()
            .replace(b"generator='yoke'", b"generator='JOSM'")
            .replace(b'id="-1"', b'id="-101752"')
            .replace(b'"Lane"', b'"Old Lane"'),
        )
        self.assertIn(
            "day.osm is there, and wasn't written by yoke", self.yoke('to-josm', 'day.osm', code=1)
        )
        self.write('b.script', 'tag n-1 Tbackrest=yes\n')
        self.done('do', 'b.script')
        self.assertIn('tags 1\n', self.done('josm', 'day.osm'))
        self.assertEqual(
            (self.table().mine('w10').tags['name'], self.table().mine('n-1').tags),
            ('Old Lane', {'amenity': 'bench', 'backrest': 'yes'}),
        )
        for path in pathlib.Path('day').glob('*.start'):
            path.unlink()
        self.assertIn(
            "from a session that this day doesn't have", self.yoke('josm', 'day.osm', code=1)
        )

    def test_osc(self):
        self.write('a.osc', OsmChange.OSC)
        self.assertIn('new 2, tags 1, deleted 3\n', self.done('osc', 'a.osc'))
        self.assertEqual(self.table().mine('n4').tags, {'amenity': 'bench', 'backrest': 'no'})

    def test_the_same_file_again(self):
        self.write('drawn.osm', DRAWN)
        self.write(
            'a.osc',
            OsmChange.OSC.replace(b'<way id="20" version="1"/>', b'').replace(
                b'<node id="11" version="1"/><node id="12" version="1" lat="1" lon="1"/>', b''
            ),
        )
        for verb, name, number in (('josm', 'drawn.osm', 3), ('osc', 'a.osc', 5)):
            self.done(verb, name)
            self.assertEqual(self.done(verb, name), name + ' changes nothing here\n')
            self.assertIn(
                f'yoke: {name}: the session has 2 of its new objects already, as n-',
                self.err,
            )
            self.assertEqual(self.done(verb, name, '--show'), '')
            self.done('undo')
        self.done('osc', 'a.osc')
        self.assertIn('new 2\n', self.done('osc', 'a.osc', '--again'))
        self.assertEqual((self.err, len(self.table().new())), ('', 4))

    # ---- GeoJSON and CSV ----

    def test_geojson(self):
        self.write(
            'a.script',
            'node x9.5009 y47.1409 Tamenity=bench\ntag w10 Tname=Lane\nerase w20\nplace n4 x9.6 y47\ntag n2 Tref=1\n',
        )
        self.done('do', 'a.script')
        self.write('later.opl', 'n2 v2 c9 Thighway=bus_stop,ref=2 x9.5006 y47.1402\n')
        self.write('b.script', 'download later.opl\n')
        self.done('do', 'b.script')
        self.assertEqual(
            self.done('geojson', 'a.geojson'), 'wrote a.geojson: 9 edited, 1 in conflict\n'
        )
        found = {
            one['id']: one for one in json.loads(pathlib.Path('a.geojson').read_text())['features']
        }
        self.assertEqual(set(found), {'n2', 'n4', 'n11', 'n12', 'n13', 'n14', 'n-1', 'w10', 'w20'})
        self.assertEqual(
            found['n4'],
            {
                'type': 'Feature',
                'id': 'n4',
                'geometry': {'type': 'Point', 'coordinates': [9.6, 47.0]},
                'properties': {
                    'key': 'n4',
                    'what': 'changed',
                    'parts': ['place'],
                    'conflict': None,
                    'version': 4,
                    'user': 'beat',
                    'before': {'amenity': 'bench'},
                    'after': {'amenity': 'bench'},
                    'theirs': None,
                    'from': [9.5007, 47.1403],
                },
            },
        )
        self.assertEqual(
            [
                found['n2']['properties'][name]
                for name in ('what', 'conflict', 'before', 'after', 'theirs')
            ],
            [
                'changed',
                'changed',
                {'highway': 'bus_stop'},
                {'highway': 'bus_stop', 'ref': '1'},
                {'highway': 'bus_stop', 'ref': '2'},
            ],
        )
        self.assertEqual(
            [found['w20']['properties'][name] for name in ('what', 'before', 'after')],
            ['deleted', {'building': 'barn'}, None],
        )
        self.assertEqual(found['w20']['geometry']['coordinates'][0], [9.5012, 47.1405])
        self.assertEqual(
            found['w10']['geometry'],
            {
                'type': 'LineString',
                'coordinates': [[9.5001, 47.1401], [9.5006, 47.1402], [9.5011, 47.1402]],
            },
        )
        self.assertEqual(found['n-1']['properties']['what'], 'new')
        self.done('geojson', 'a.geojson')
        self.write('houses.geojson', HOUSES)
        self.assertIn("wasn't written by yoke", self.yoke('geojson', 'houses.geojson', code=1))
        self.assertEqual(json.loads(self.done('geojson', '-'))['generator'], 'yoke')
        self.assertIn('. is a folder', self.yoke('geojson', '.', code=3))

    def test_import_of_geojson(self):
        self.write('houses.geojson', HOUSES)
        self.assertIn(
            'features: 7 read, 0 taken, 7 left out',
            self.yoke('import', 'houses.geojson', '--accept', 'columns', code=1),
        )
        self.assertIn(
            'yoke: nothing is done: 2 features were left out',
            self.yoke(
                'import',
                'houses.geojson',
                '--accept',
                'columns',
                '--within',
                '13,52,14,53',
                '--all',
                code=1,
            ),
        )
        self.assertEqual(self.states(), 1)
        said = self.done(
            'import',
            'houses.geojson',
            '--accept',
            'columns',
            '--within',
            '13,52,14,53',
            '--report',
            'report.txt',
        )
        self.assertIn('objects: 14 nodes, 5 ways, 1 relations\n', said)
        self.assertNotIn('left out: feature', said)
        self.assertIn(
            'left out: feature 4: it has no geometry\n', pathlib.Path('report.txt').read_text()
        )
        found = self.table()
        self.assertEqual(
            (len(found.new()), found.mine('r-20').members),
            (20, (('w-17', 'outer'), ('w-18', 'inner'))),
        )

    def test_import_of_a_part(self):
        self.write('houses.geojson', HOUSES)
        self.assertIn(
            'features: 2 read, 2 taken, 0 left out\nobjects: 6 nodes, 2 ways, 0 relations\n',
            self.done(
                'import',
                'houses.geojson',
                '--accept',
                'columns',
                '--within',
                '13,52,14,53',
                '--features',
                '1-2',
            ),
        )
        self.assertIn(
            'features: 4 read, 2 taken, 2 left out',
            self.done(
                'import',
                'houses.geojson',
                '--accept',
                'columns',
                '--within',
                '13,52,14,53',
                '--features',
                '2-5',
            ),
        )
        for words, code, text in [
            (['--features', '8-9'], 1, 'the file has 7 features'),
            (['--features', '3-2'], 2, 'two numbers'),
            (['--features', '0-2'], 2, 'two numbers'),
            (['--features', 'all'], 2, 'two numbers'),
        ]:
            self.assertIn(
                text,
                self.yoke('import', 'houses.geojson', '--accept', 'columns', *words, code=code),
            )
        self.assertEqual(self.states(), 3)

    def test_the_same_import_again_does_nothing(self):
        self.write('houses.geojson', HOUSES)
        self.done('import', 'houses.geojson', '--accept', 'columns', '--within', '13,52,14,53')
        said = self.yoke(
            'import', 'houses.geojson', '--accept', 'columns', '--within', '13,52,14,53', code=1
        )
        self.assertIn('left out: feature 1: the session has it already, as w-15\n', said)
        self.assertIn('yoke: nothing is done: no feature was taken', said)
        self.assertIn(
            'features: 7 read, 5 taken, 2 left out',
            self.done(
                'import',
                'houses.geojson',
                '--accept',
                'columns',
                '--within',
                '13,52,14,53',
                '--again',
            ),
        )

    def test_import_of_csv(self):
        self.write('addresses.csv', ADDRESSES)
        self.write('town.rules', RULES)
        self.assertIn(
            'features: 6 read, 3 taken, 3 left out',
            self.done('import', 'addresses.csv', '--within', '13,52,14,53', '--tags', 'town.rules'),
        )
        self.assertEqual(self.table().mine('n-1').tags['addr:housenumber'], '12a')
        self.done(
            'import',
            'addresses.csv',
            '--accept',
            'columns',
            '--anywhere',
            '--again',
            '--to',
            'new.opl',
        )
        self.assertTrue(
            pathlib.Path('new.opl').read_text().startswith('n-1 THNR=12,STR=Hohe%20%Straße,')
        )

    def test_an_output_never_takes_the_place_of_what_is_read(self):
        self.write('addresses.csv', ADDRESSES)
        self.write('town.rules', RULES)
        self.write('out.opl.new', ADDRESSES)
        os.symlink('addresses.csv', 'link.csv')
        os.link('town.rules', 'same.rules')
        os.mkdir('sub')
        before = {path: path.read_bytes() for path in pathlib.Path().glob('*.*')}
        for words, said in [
            (
                ['addresses.csv', '--to', 'addresses.csv'],
                'addresses.csv isn\'t written: it is read by the same command',
            ),
            (['addresses.csv', '--report', './sub/../addresses.csv'], 'is read'),
            (['addresses.csv', '--to', 'link.csv'], 'link.csv isn\'t written: it is read'),
            (['link.csv', '--report', 'addresses.csv'], 'addresses.csv isn\'t written: it is read'),
            (
                ['addresses.csv', '--tags', 'town.rules', '--report', 'town.rules'],
                'town.rules isn\'t written: it is read',
            ),
            (
                ['addresses.csv', '--tags', 'town.rules', '--to', 'same.rules'],
                'same.rules isn\'t written: it is read',
            ),
            (
                ['addresses.csv', '--to', 'a', '--report', 'a'],
                'a isn\'t written: it is another output of the same command',
            ),
            (['addresses.csv', '--to', 'sub/a', '--report', 'sub/../sub/a'], 'another output'),
            (['addresses.csv', '--to', 'day/000001-start.saved'], 'it is a file of the day itself'),
            (['addresses.csv', '--report', 'day/server'], 'a file of the day itself'),
        ]:
            self.assertIn(said, self.yoke('import', *words, '--anywhere', code=1), words)
            self.assertEqual(
                (
                    {path: path.read_bytes() for path in pathlib.Path().glob('*.*')},
                    self.states(),
                    os.listdir('sub'),
                ),
                (before, 1, []),
                words,
            )
        self.done(
            'import',
            'addresses.csv',
            '--accept',
            'columns',
            '--anywhere',
            '--to',
            'new.opl',
            '--report',
            'new.txt',
        )
        self.done(
            'import',
            'addresses.csv',
            '--accept',
            'columns',
            '--anywhere',
            '--to',
            'new.opl',
            '--report',
            'new.txt',
        )

    def test_geojson_never_takes_the_place_of_a_file_of_the_day(self):
        os.symlink('day/000001-start.saved', 'link')
        for name in ('day/000001-start.saved', 'day/000009-do.saved', 'day/../day/server', 'link'):
            self.assertIn(
                'it is a file of the day itself', self.yoke('geojson', '--force', name, code=1)
            )
        self.assertEqual(self.table().mine('n1').version, 2)
        self.done('geojson', 'day/edits.geojson')

    def test_import_over_nodes_that_are_there(self):
        self.write(
            'a.geojson',
            json.dumps(
                {
                    'type': 'Feature',
                    'properties': {'highway': 'path'},
                    'geometry': {
                        'type': 'LineString',
                        'coordinates': [[9.5001, 47.1401], [9.5002, 47.1402]],
                    },
                }
            ),
        )
        self.done('import', 'a.geojson', '--join', '--columns', 'highway')
        self.assertEqual(self.table().mine('w-2').nodes, ('n1', 'n-1'))

    def test_a_line_feed_in_a_property_begins_no_line(self):
        self.write(
            'a.json',
            json.dumps(
                {
                    'type': 'Feature',
                    'properties': {'highway': 'bus_stop', 'x\nkept as nothing': [1]},
                    'geometry': {'type': 'Point', 'coordinates': [9.5, 47.1]},
                }
            ),
        )
        said = self.done('import', 'a.json', '--anywhere', '--accept', 'columns')
        self.assertIn('note: x%a%kept as nothing is a list or an object: 1\n', said)

    def test_words_of_import(self):
        self.write('a.json', '{')
        for words, code, text in [
            (['a.json'], 3, 'a.json: it is no JSON'),
            (['a.json', '--within', '1,2'], 2, 'is no box'),
            (['a.json', '--within', '1,2,3,4', '--anywhere'], 2, 'not both'),
            (['a.json', '--tags', 'no.rules'], 3, 'there is no file no.rules'),
            (['a.json', '--tags', 'a.json'], 3, 'a.json: line 1: KEY = VALUE is wanted'),
        ]:
            self.assertIn(text, self.yoke('import', *words, code=code))

    # ---- scripts ----

    def test_do_with_names(self):
        self.write(
            'a.script',
            'tag n4 Tref=1\nnode x9.5009 y47.1409 Tamenity=bench as bench\nway Thighway=path Nn3,bench as path\ntag path Tsurface=gravel\n',
        )
        self.assertIn('a.script:2: made n-1\na.script:3: made w-2\n', self.done('do', 'a.script'))
        self.assertEqual(self.table().mine('w-2').nodes, ('n3', 'n-1'))
        self.assertIn('a.script:3: made w-4\n', self.done('do', 'a.script'))
        self.assertEqual(self.table().mine('w-4').nodes, ('n3', 'n-3'))
        self.write('b.script', 'way T Nn99\nnode x1 y1 T as a\ntag a Tref=1\n')
        self.assertIn(
            'b.script:1: refused: way T Nn99: there is no n99', self.yoke('do', 'b.script', code=1)
        )
        self.yoke('do', 'b.script', '--keep', code=1)
        self.assertEqual(len(self.table().new()), 4)
        self.write('c.script', 'node x1 y1 T as a\nundo 1\ntag a T\n')
        self.assertIn("c.script:2: a undo can't stand here", self.yoke('do', 'c.script', code=1))

    def test_do_strict(self):
        self.write(
            'a.script',
            'tag n1 Tref=1\nbegin\ntag n2 Tref=1\nnode x1 y1 T\ntag n99 Tref=1\nend\ntag n3 Tref=1\ntag n98 T\n',
        )
        said = self.yoke('do', 'a.script', '--strict', code=1)
        self.assertIn('a.script:5: refused', said)
        self.assertNotIn('n98', said)
        self.assertEqual(self.states(), 1)
        self.assertNotIn('made', self.yoke('do', 'a.script', '--strict', '--keep', code=1))
        self.assertEqual(
            [self.table().mine(key).tags.get('ref') for key in ('n1', 'n2', 'n3')],
            ['1', None, None],
        )
        self.done('undo')
        self.yoke('do', 'a.script', '--keep', code=1)
        self.assertEqual(
            [self.table().mine(key).tags.get('ref') for key in ('n1', 'n2', 'n3')], ['1', None, '1']
        )

    @unittest.skipUnless(sessions.has_program(), 'the program itself knows which lines are none')
    def test_do_says_what_is_wrong_with_a_line(self):
        self.write('a.script', 'print\ntag n1 ref=7\n')
        self.assertIn(
            'a.script:2: no line of a script: tag n1 ref=7: ref=7 has no T before it: tags are Tkey=value, or T alone; right: tag n1 Tref=7 (yoke lint',
            self.yoke('do', 'a.script', code=1),
        )

    def test_expand(self):
        self.write('a.script', 'node x1 y1 T as a\ntag a T\n')
        self.assertEqual(self.done('expand', 'a.script'), 'begin\nnode x1 y1 T\ntag n-1 T\nend\n')
        self.assertEqual(
            self.done('expand', 'a.script', '--next', '7'), 'begin\nnode x1 y1 T\ntag n-7 T\nend\n'
        )
        self.write('s.saved', '1 ok\nsession 1 12\nsession end\n')
        self.write('a.script', '# a\nresume s.saved\nnode x1 y1 T as a\ntag a T\n')
        self.assertEqual(
            self.done('expand', 'a.script'),
            '# a\nresume s.saved\nbegin\nnode x1 y1 T\ntag n-12 T\nend\n',
        )
        self.write('s.saved', '1 ok\n')
        self.assertEqual(
            self.yoke('expand', 'a.script', code=3),
            "yoke: s.saved: it is no saved session: it begins with '1 ok'\n",
        )
        self.write('a.script', 'tag a T\nnode x1 y1 T as a\n')
        self.assertEqual(
            self.yoke('expand', 'a.script', code=1),
            'yoke: a.script:1: a is no key, and no name that a line before gives\n',
        )

    def test_lint(self):
        self.write(
            'a.script', 'node x1 y1 T as a\n\ntag a ref=1\nimport town.opl\ntag a Tref=2\nprint \n'
        )
        self.assertEqual(
            self.yoke('lint', 'a.script', code=1),
            'a.script:3: ref=1 has no T before it: tags are Tkey=value, or T alone\n    written  tag a ref=1\n'
            '    right    tag n-1 Tref=1\na.script:6: a blank stands after the last word\n    written  print \n    right    print\n2 bad lines\n',
        )
        self.write('a.script', b'# \xff\r\nprint\r\n')
        self.assertEqual(self.done('lint', 'a.script'), 'no bad lines\n')
        self.write('a.script', 'print\ntag b T\nnode x1 y1 T as b\n')
        self.assertIn(
            'a.script:2: b is no key, and no name that a line before gives',
            self.yoke('lint', 'a.script', code=1),
        )

    # ---- one object ----

    def test_show_insert_and_add_member(self):
        self.assertIn('used by  r30 ref=12\n', self.done('show', 'w10'))
        self.assertIn('there is no n99', self.yoke('show', 'n99', code=1))
        self.assertIn('nodes w10 Nn1,n2,n4,n3\n', self.done('insert', 'n4', 'w10'))
        self.assertIn(
            'nodes w10 Nn11,n1,n2,n4,n3\n', self.done('insert', 'n11', 'w10', '--after', '0')
        )
        self.assertIn(
            'members r30 Mn2@stop,w20@,w10@,w77@\n',
            self.done('add-member', 'w20', 'r30', '--at', '2'),
        )
        self.assertEqual(self.table().mine('r30').members[1], ('w20', ''))
        self.assertIn(
            'w20 is a member of r30 already: yoke add-member --again makes it one once more',
            self.yoke('add-member', 'w20', 'r30', code=1),
        )
        self.assertIn('a node and a way are wanted', self.yoke('insert', 'w10', 'n4', code=2))


if __name__ == '__main__':
    unittest.main()
