"""`yoke tag`, its tables, and `yoke turns`: many objects at once."""
import unittest
from collections import Counter

from yoke import table
from yoke.formats import mapping, tag_table
from yoke.scripts import turns
from yoke.tests import sessions
from yoke.tests.support import FolderTest
from yoke.trouble import Refused, Trouble, Usage

STREETS = '''n1 v1 x13.001 y52
n2 v1 x13.002 y52 Tcreated_by=JOSM
n3 v1 x13.003 y52
n4 v1 x13.002 y52.001
n8 v2 x13.002 y52.002 Tamenity=bench,created_by=iD
n9 v3 dD
w5 v3 Thighway=residential,name=High%20%Street,created_by=JOSM Nn1,n2,n3
w6 v1 Thighway=service Nn2,n4
r9 v1 Ttype=route Mw5@,w77@
'''


class Tag(FolderTest):
    def setUp(self):
        super().setUp()
        self.begin(town=STREETS)

    def mine(self, key):
        return self.session.known()[key].mine.tags

    def test_what_a_query_finds(self):
        self.assertEqual(
            self.done('tag', 'created_by=', '--find', 'Tcreated_by=*'),
            '3 objects tagged\nkept as day/000002-tag.saved\n',
        )
        self.assertEqual([self.mine(key) for key in ('n2', 'n8')], [{}, {'amenity': 'bench'}])
        self.assertEqual(
            self.done('tag', 'created_by=', '--find', 'Tcreated_by=*'), '0 objects tagged\n'
        )
        self.assertEqual(self.day.last().number, 2)

    def test_a_query_finds_what_is_there_alone(self):
        self.assertEqual(
            self.done('tag', 'note=a, b=c', '--find', 'node or way or relation')[:16],
            '8 objects tagged',
        )
        self.assertEqual(self.mine('w6'), {'highway': 'service', 'note': 'a, b=c'})

    def test_objects_by_their_keys(self):
        self.assertIn(
            '2 objects tagged', self.done('tag', 'surface=asphalt', 'name=', '--keys', 'w5,w6')
        )
        self.assertEqual(
            self.mine('w5'), {'highway': 'residential', 'created_by': 'JOSM', 'surface': 'asphalt'}
        )
        self.assertEqual(Refused.code, self.yoke('tag', 'a=b', '--keys', 'n1,n99'))
        self.assertIn('there is no n99', self.err)
        self.assertEqual(self.day.last().number, 2)

    def test_words(self):
        for words, code in [
            (['a=b'], 2),
            (['--find', 'way'], 2),
            (['a', '--find', 'way'], 2),
            (['=b', '--find', 'way'], 2),
            (['a=b', 'a=c', '--find', 'way'], 2),
            (['a=' + 'x' * 256, '--find', 'way'], 2),
            (['a=b', '--find', 'way', '--keys', 'n1'], 2),
            (['a=b', '--csv', 'a.csv'], 2),
            (['a=b', '--find', 'way', '--keep'], 2),
            (['a=b', '--find', 'way\nprint'], 2),
            (['--csv', 'no.csv'], 3),
        ]:
            self.assertEqual(code, self.yoke('tag', *words), words)
        self.assertEqual(self.day.last().number, 1)

    @unittest.skipUnless(sessions.has_program(), 'the program itself knows which queries are none')
    def test_no_query(self):
        self.assertEqual(Refused.code, self.yoke('tag', 'a=b', '--find', 'street'))
        self.assertIn('no line of a script', self.err)
        self.assertEqual(Refused.code, self.yoke('tag', 'a=b', '--find', 'amenity=bench'))
        self.assertIn(
            'no query: amenity=bench is no word of one; a tag is written Tamenity=bench', self.err
        )

    def test_a_table(self):
        self.write(
            'a.csv',
            '\ufeffkey;surface;lit\r\nw5;asphalt;\r\nway/6;"fine; gravel";yes\r\nhttps://www.openstreetmap.org/node/1;;\r\n',
        )
        self.assertEqual(
            self.done('tag', '--csv', 'a.csv', '--columns', 'surface,lit'),
            'kept as day/000002-tag.saved\n2 of 3 rows taken\n',
        )
        self.assertEqual(
            [self.mine(key).get('surface') for key in ('w5', 'w6', 'n1')],
            ['asphalt', 'fine; gravel', None],
        )
        self.assertEqual(
            ('residential', None, 'yes'),
            (self.mine('w5')['highway'], self.mine('w5').get('lit'), self.mine('w6').get('lit')),
        )

    def test_rows_that_are_refused(self):
        self.write(
            'a.csv', '@type,@id,surface\nway,5,asphalt\nway,6,gravel\nnode,9,sand\nway,77,sand\n'
        )
        self.assertEqual(Refused.code, self.yoke('tag', '--csv', 'a.csv', '--columns', 'surface'))
        self.assertIn('a.csv:4: refused: tag n9 Tsurface=sand: n9 is deleted', self.out)
        self.assertIn('a.csv:5: refused: tag w77 Tsurface=sand: w77 is only referred to', self.out)
        self.assertIn('nothing is kept: 2 of 4 steps were refused', self.err)
        self.assertEqual(self.day.last().number, 1)
        self.assertEqual(
            Refused.code, self.yoke('tag', '--csv', 'a.csv', '--columns', 'surface', '--keep')
        )
        self.assertIn('2 of 4 rows taken', self.out)
        self.assertEqual(self.mine('w6')['surface'], 'gravel')

    def test_rows_that_are_none(self):
        self.write(
            'a.csv',
            'key,surface\nw5,asphalt\nx7,sand\nw6\nw6,{}\nway/5,gravel\n,sand\n'.format('x' * 256),
        )
        self.assertEqual(Refused.code, self.yoke('tag', '--csv', 'a.csv', '--columns', 'surface'))
        self.assertEqual(
            self.out,
            'a.csv:3: refused: x7 names no object: as w5 or way/5\na.csv:4: refused: it has 1 fields, and the first line has 2\n'
            'a.csv:5: refused: surface: the value has 256 characters, and the map takes 255\na.csv:6: refused: w5 stands in line 2 already, with other values\n'
            'a.csv:7: refused: an empty field names no object: as w5 or way/5\n',
        )
        self.assertEqual(
            self.err,
            'yoke: nothing is kept: 5 of 6 rows can\'t be taken: mend these, or --keep takes the others\n',
        )
        self.assertEqual(
            Refused.code, self.yoke('tag', '--csv', 'a.csv', '--columns', 'surface', '--keep')
        )
        self.assertIn('1 of 6 rows taken', self.out)

    def test_a_table_with_rules(self):
        self.write('a.csv', 'OSM;BELAG;INFO\nw5;As;x\nw6;Xx;y\n')
        self.write('a.rules', 'surface = {BELAG|As=asphalt}\nsource = Town, 2024\n')
        self.assertIn(
            'note: BELAG Xx has no rule: 1',
            self.done('tag', '--csv', 'a.csv', '--key', 'OSM', '--tags', 'a.rules'),
        )
        self.assertEqual(
            (self.mine('w5')['surface'], self.mine('w6')),
            ('asphalt', {'highway': 'service', 'source': 'Town, 2024'}),
        )

    def test_tables_that_are_none(self):
        for text, words in [
            ('', 'it is empty'),
            ('id,surface\n5,a\n', 'no column names the objects'),
            ('key,a,a\n', 'the column a stands twice'),
            ('key,a\n', 'no row has a tag'),
        ]:
            self.write('a.csv', text)
            self.assertIn(
                self.yoke('tag', '--csv', 'a.csv', '--columns', 'a'), (Trouble.code, Refused.code)
            )
            self.assertIn(words, self.err)

    def test_keys(self):
        for text, key in [
            ('w5', 'w5'),
            ('n-1', 'n-1'),
            ('way/5', 'w5'),
            ('relation 7', 'r7'),
            ('https://osm.org/node/8', 'n8'),
            ('', ''),
            ('5', ''),
            ('area/5', ''),
            ('way/0', ''),
            ('subway/5', ''),
            ('way/5/', ''),
        ]:
            self.assertEqual(tag_table.key_of(text), key)

    def test_rows_of_a_table(self):
        notes = Counter()
        rows = tag_table.read(b'type,id,a\nnode,1, x \nnode,2,\n', None, mapping.Mapping(), notes)
        self.assertEqual(
            [(row.line, row.key, row.tags) for row in rows], [(2, 'n1', {'a': 'x'}), (3, 'n2', {})]
        )


JUNCTION = '''n1 v1 x13.001 y52
n2 v1 x13.002 y52
n3 v1 x13.003 y52
n4 v1 x13.003 y52.001
n5 v1 x13.004 y52
w10 v1 Thighway=residential,name=A Nn1,n2
w11 v1 Thighway=residential,name=A Nn2,n3
w12 v1 Thighway=residential,name=B Nn3,n4
w13 v1 Thighway=residential,name=A Nn3,n5
w14 v1 Thighway=service Nn1,n2,n3,n4,n1
'''


class Turns(unittest.TestCase):
    def found(self, *relations, town=JUNCTION):
        """The faults and the mend of each turn that is found, of relations whose type, tags and
        members are given, from r20 on.
        """
        text = sessions.session(
            ['download town.opl'],
            town_opl=town
            + ''.join(f'r{20 + at} v1 Ttype={one}\n' for at, one in enumerate(relations)),
        )
        return [(one.faults, one.mend) for one in turns.findings(table.read(text))]

    def test_what_is_right(self):
        self.assertEqual(
            self.found(
                'restriction,restriction=no_left_turn Mw11@from,n3@via,w12@to',
                'restriction,restriction=no_u_turn Mw11@from,n3@via,w11@to',
                'restriction Mw10@from,w11@via,w12@to',
                'restriction,restriction=no_exit Mw11@from,n3@via,w12@to,w13@to',
                'restriction,restriction:hgv=no_entry%20%%40%%20%(22:00-06:00) Mw11@from,w13@from,n3@via,w12@to',
                'turnlanes:turns Mw14@from,n3@via,w12@to,n1@sign',
                'route Mw10@from,n3@via',
                'connectivity Mw77@from,n3@via,w12@to',
                'restriction Mw11@from,w77@via,w12@to',
            ),
            [],
        )

    def test_a_role_that_is_missing(self):
        self.assertEqual(
            self.found(
                'restriction Mw11@from,n3@via', 'restriction Mw11@from,w12@to', 'restriction M'
            ),
            [
                (('it has no to',), ''),
                (('it has no via',), ''),
                (('it has no via', 'it has no from', 'it has no to'), ''),
            ],
        )

    def test_two_pieces_in_a_role(self):
        self.assertEqual(
            self.found(
                'turnlanes:turns Mw10@from,w11@from,n3@via,w12@to',
                'restriction,restriction=no_exit Mw11@from,w13@from,n3@via,w12@to',
            ),
            [
                (('from are 2 ways: w10,w11',), 'members r20 Mw11@from,n3@via,w12@to'),
                (('from are 2 ways: w11,w13',), ''),
            ],
        )

    def test_a_piece_too_far_away(self):
        self.assertEqual(
            self.found(
                'restriction:hgv Mw10@from,n3@via,w12@to', 'restriction Mw12@from,n2@via,w10@to'
            ),
            [
                (('from w10 doesn\'t meet via',), 'members r20 Mw11@from,n3@via,w12@to'),
                (('from w12 doesn\'t meet via',), ''),
            ],
        )

    def test_both_ends_at_once(self):
        self.assertEqual(
            self.found('restriction Mw12@from,n3@via,w10@to'),
            [(('to w10 doesn\'t meet via',), 'members r20 Mw12@from,n3@via,w11@to')],
        )
        self.assertEqual(
            self.found('restriction Mw10@from,n3@via,w10@to'),
            [
                (
                    ('from w10 doesn\'t meet via', 'to w10 doesn\'t meet via'),
                    'members r20 Mw11@from,n3@via,w11@to',
                )
            ],
        )

    def test_a_way_that_goes_on(self):
        town = JUNCTION.replace('Nn2,n3\n', 'Nn2,n3,n5\n')
        self.assertEqual(
            self.found('restriction Mw11@from,n3@via,w12@to', town=town),
            [(('from w11 goes on over n3: split it there',), '')],
        )

    def test_via_that_is_none(self):
        self.assertEqual(
            self.found('restriction Mw11@from,n3@via,n2@via,w12@to'),
            [(('via is neither one node nor ways: n3,n2',), '')],
        )


class Verb(FolderTest):
    def setUp(self):
        super().setUp()
        self.begin(
            town=JUNCTION
            + 'r20 v1 Ttype=turnlanes:turns,name=Lanes Mw11@from,n3@via,w12@to\nr21 v1 Ttype=route Mw10@,w11@\nr22 v1 Ttype=restriction Mw11@from,n3@via\n'
        )

    def test_what_it_shows_and_mends(self):
        self.assertEqual(Refused.code, self.yoke('turns'))
        self.assertEqual(
            self.out,
            'r22 type=restriction\n    it has no to\n    right    not known: by hand\n1 turn to mend\n',
        )
        self.do('nodes w11 Nn2,n1,n3', 'split w11 n1')
        self.assertEqual(Refused.code, self.yoke('turns', '--mend'))
        self.assertIn(
            'r20 Lanes\n    from are 2 ways: w11,w-1\n    right    members r20 Mw-1@from,n3@via,w12@to\n',
            self.out,
        )
        self.assertIn('2 turns to mend\nmended 1; kept as day/000003-turns.saved\n', self.out)
        self.assertEqual(0, self.yoke('turns', 'r20'))
        self.assertEqual(self.out, '0 turns to mend\n')
        self.assertEqual(Usage.code, self.yoke('turns', 'w11'))

    def test_a_split_names_the_relations_that_it_changed(self):
        self.write('a.script', 'nodes w11 Nn2,n1,n3\nsplit w11 n1\ntag r22 Tnote=x\n')
        self.assertIn(
            'a.script:2: made w-1\nchanged with it: r20,r21\n', self.done('do', 'a.script')
        )
        self.write('later.opl', 'r21 v2 Ttype=route,ref=9 Mw10@\n')
        self.write(
            'b.script',
            'tag w10 Tlit=yes\nmembers r20 Mw11@from,n3@via,w12@to\ndownload later.opl\n',
        )
        self.assertNotIn('changed with it', self.done('do', 'b.script'))


if __name__ == '__main__':
    unittest.main()
