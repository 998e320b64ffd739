"""Names of new objects, one node into a way, one member into a relation, and one object shown."""
import unittest

from yoke import table
from yoke.scripts import lists, names, show
from yoke.tests import sessions
from yoke.tests.test_foreign import TOWN, town
from yoke.trouble import Refused, Usage

SCRIPT = """\
# a bench and its path
tag n4 Tbackrest=yes

node x9.5009 y47.1409 Tamenity=bench as bench
node x9.501 y47.141 T
way Thighway=path Nn3,bench,n-2 as path
relation Ttype=site Mpath@,bench@a%20%role,n4@ as the-site
tag path,n4 Tsurface=gravel
nodes path Nn3,bench
print
""".split(
    '\n'
)[
    :-1
]


def expand(lines, next_new=1, count=None):
    return names.expand(lines, next_new, count or (lambda name: 3))


class Names(unittest.TestCase):
    def test_are_written_out_in_one_group(self):
        found = expand(SCRIPT)
        self.assertEqual(
            found.lines,
            [
                '# a bench and its path',
                'tag n4 Tbackrest=yes',
                '',
                'begin',
                'node x9.5009 y47.1409 Tamenity=bench',
                'node x9.501 y47.141 T',
                'way Thighway=path Nn3,n-1,n-2',
                'relation Ttype=site Mw-3@,n-1@a%20%role,n4@',
                'tag w-3,n4 Tsurface=gravel',
                'nodes w-3 Nn3,n-1',
                'end',
                'print',
            ],
        )
        self.assertEqual(found.numbers, [1, 2, 3, 4, 4, 5, 6, 7, 8, 9, 9, 10])
        self.assertEqual(found.names, {'bench': 'n-1', 'path': 'w-3', 'the-site': 'r-4'})

    def test_the_objects_get_these_keys(self):
        text = town('node x9.5 y47.14 T', 'undo 1', 'node x9.5 y47.14 T', 'node x9.5 y47.15 T')
        script = [
            'node x1 y1 T as a',
            'import new.opl',
            'relation T Ma@ as b',
            'tag a,b Tref=7',
            'split w10 n2',
            'tag a Tref=8',
        ]
        found = expand(
            script,
            table.read(text).next_new,
            lambda name: names.new_objects(
                'n-5 x1 y1\n# n-6\nn1 v1 x1 y1\nn-7 dD v1\nw-1 Nn-5 Ta=dD\r\n'
            ),
        )
        self.assertEqual(found.names, {'a': 'n-3', 'b': 'r-6'})
        output = sessions.ran(
            ['resume s.saved'] + found.lines + ['save'],
            s_saved=text,
            new_opl='n-5 x1 y1\n# n-6\nn1 v1 x1 y1\nn-7 dD v1\nw-1 Nn-5 Ta=dD\r\n',
        )
        self.assertEqual(output.refused(), [])
        self.assertEqual(table.read(output.saved()).mine('n-3').tags, {'ref': '8'})

    def test_a_refused_addition_gives_all_of_it_up(self):
        for bad in ('way T Nn99', 'node x1 y1 Ta=' + 'x' * 256, 'way T N'):
            script = [
                'tag n4 Tref=1',
                bad,
                'node x1 y1 T as a',
                'node x2 y2 T',
                'tag a Tref=7',
                'tag n1 Tref=2',
            ]
            output = sessions.ran(
                ['download town.opl'] + expand(script).lines + ['save'], town_opl=TOWN
            )
            found = table.read(output.saved())
            self.assertEqual(
                (found.new(), found.mine('n4').tags['ref'], found.mine('n1').tags),
                ([], '1', {'ref': '2'}),
            )

    def test_groups_are_taken_in(self):
        found = expand(
            [
                'begin',
                'tag n1 T',
                'node x1 y1 T as a',
                'end',
                'tag n2 T',
                'begin',
                'tag a T',
                'print',
                'end',
                'begin',
                'end',
            ]
        )
        self.assertEqual(
            found.lines,
            [
                'begin',
                'tag n1 T',
                'node x1 y1 T',
                'tag n2 T',
                'tag n-1 T',
                'print',
                'end',
                'begin',
                'end',
            ],
        )
        self.assertEqual(found.numbers, [1, 2, 3, 5, 7, 8, 9, 10, 11])
        self.assertEqual(
            expand(['node x1 y1 T as a', 'begin', 'tag a T', 'print']).lines,
            ['begin', 'node x1 y1 T', 'tag n-1 T', 'print', 'end'],
        )

    def test_a_script_without_names_stays_as_it_is(self):
        script = [
            'node x1 y1 T',
            'tag  n-1 T',
            'undo 1',
            'what is this',
            '  ',
            'node x1 y1 Tname=x as',
        ]
        self.assertEqual(expand(script), names.Expanded(script, [1, 2, 3, 4, 5, 6]))

    def test_what_cant_be_written_out(self):
        for script, line, text in [
            (['node x1 y1 T as n1'], 1, 'n1 is no name'),
            (['node x1 y1 T as a,b'], 1, 'a,b is no name'),
            (['node x1 y1 T as é'], 1, 'é is no name'),
            (['node x1 y1 T as a', 'node x1 y1 T as a'], 2, 'the name a is given already'),
            (['tag a T', 'node x1 y1 T as a'], 1, 'a is no key, and no name'),
            (
                ['relation T M as a', 'way T Na'],
                2,
                'a is a relation, and the nodes of a way are nodes',
            ),
            (
                ['split w1 n2', 'node x1 y1 T as a'],
                2,
                "how many objects a split makes isn't known before",
            ),
            (['node x1 y1 T as a', 'undo 1', 'tag a T'], 2, "a undo can't stand here"),
            (['node x1 y1 T as a', 'upload 9', 'tag a T'], 2, "a upload can't stand here"),
        ]:
            with self.assertRaisesRegex(names.BadName, text) as seen:
                expand(script)
            self.assertEqual(seen.exception.line, line)

        def missing(name):
            raise FileNotFoundError('no such file')

        with self.assertRaisesRegex(
            names.BadName, "the new objects of a.opl can't be counted: no such file"
        ):
            expand(['import a.opl', 'node x1 y1 T as a'], 1, missing)


class Lists(unittest.TestCase):
    def setUp(self):
        self.table = table.read(
            town(
                'node x9.50085 y47.14025 T',
                'node x9.5 y47.15 T',
                'delete r30',
                'delete w20,n11,n12,n13,n14',
                'nodes w10 Nn1,n2,n3,n1',
                'way T Nn3',
            )
        )

    def test_the_nearest_segment(self):
        self.assertEqual(lists.insert_line(self.table, 'n-1', 'w10'), 'nodes w10 Nn1,n2,n-1,n3,n1')
        self.assertEqual(lists.insert_line(self.table, 'n-2', 'w10'), 'nodes w10 Nn1,n-2,n2,n3,n1')
        square = table.read(
            sessions.session(
                ['download a.opl', 'node x10.0002 y60.00005 T', 'node x10.0001 y60.0002 T'],
                a_opl='n1 v1 x10 y60\nn2 v1 x10.0002 y60\n'
                'n3 v1 x10.0002 y60.0001\nn4 v1 x10 y60.0001\nw5 v1 Nn1,n2,n3,n4,n1\nw6 v1 Nn1,n9,n2,n3\nw7 v1 Nn1,n9\nw8 v1 Nn1,n1,n2\n',
            )
        )
        self.assertEqual(lists.insert_line(square, 'n-1', 'w5'), 'nodes w5 Nn1,n2,n-1,n3,n4,n1')
        self.assertEqual(lists.insert_line(square, 'n-2', 'w5'), 'nodes w5 Nn1,n2,n3,n-2,n4,n1')
        self.assertEqual(lists.insert_line(square, 'n-1', 'w6'), 'nodes w6 Nn1,n9,n2,n-1,n3')
        self.assertEqual(
            lists.insert_line(square, 'n3', 'w8'), 'nodes w8 Nn1,n1,n2'.replace('n1,n2', 'n1,n3,n2')
        )
        with self.assertRaisesRegex(Refused, 'no segment of w7 is known'):
            lists.insert_line(square, 'n-1', 'w7')

    def test_a_place_is_named(self):
        for after, nodes in [
            ('n1', 'n1,n-1,n2,n3,n1'),
            ('0', 'n-1,n1,n2,n3,n1'),
            ('4', 'n1,n2,n3,n1,n-1'),
            ('n3', 'n1,n2,n3,n-1,n1'),
        ]:
            self.assertEqual(
                lists.insert_line(self.table, 'n-1', 'w10', after), 'nodes w10 N' + nodes
            )
        self.assertEqual(
            lists.insert_line(self.table, 'n2', 'w10', '4'), 'nodes w10 Nn1,n2,n3,n1,n2'
        )

    def test_what_cant_be_put_in(self):
        for words, text in [
            (('n-1', 'w10', 'n4'), 'n4 is no node of w10, and no number from 0 to 4'),
            (('n-1', 'w10', '5'), '5 is no node'),
            (('n2', 'w10'), 'n2 is a node of w10 already'),
            (('n2', 'w10', 'n1'), 'n2 would stand twice side by side in w10'),
            (('n2', 'w10', 'n2'), 'side by side'),
            (('n99', 'w10'), 'there is no n99'),
            (('n-1', 'w20'), 'w20 is deleted here'),
            (('n-1', 'w77'), 'w77 is only referred to: download it'),
            (('n-1', 'w99'), "w99 isn't in the session"),
            (('n11', 'w10'), 'there is no n11'),
            (('n-1', 'w-3'), 'no segment of w-3'),
        ]:
            with self.assertRaisesRegex(Refused, text):
                lists.insert_line(self.table, *words)
        self.assertRaises(Usage, lists.insert_line, self.table, 'w10', 'n1')

    def test_a_member(self):
        found = table.read(town())
        for pairs, at, again, members in [
            ([('w20', 'a role')], None, False, 'n2@stop,w10@,w77@,w20@a%20%role'),
            ([('n2', '')], 1, False, 'n2@,n2@stop,w10@,w77@'),
            ([('w77', '')], 4, True, 'n2@stop,w10@,w77@,w77@'),
            ([('w20', ''), ('n1', 'b')], 2, False, 'n2@stop,w20@,n1@b,w10@,w77@'),
            ([('n1', ''), ('n1', 'b')], None, False, 'n2@stop,w10@,w77@,n1@,n1@b'),
        ]:
            self.assertEqual(
                lists.add_members_line(found, pairs, 'r30', at, again), 'members r30 M' + members
            )
        for pairs, relation, at, text in [
            ([('n2', 'stop')], 'r30', None, 'n2 is a member of r30 already as stop'),
            ([('n1', ''), ('n1', '')], 'r30', None, 'n1 is a member of r30 already: '),
            ([('n1', ''), ('n99', '')], 'r30', None, 'there is no n99'),
            ([('w20', '')], 'r30', 5, 'r30 has 3 members, so a place is from 1 to 4'),
            ([('w20', '')], 'r30', 0, 'a place is from 1'),
            ([('w20', '')], 'r31', None, "r31 isn't in the session"),
            ([('w20', 'x' * 256)], 'r30', None, '256 characters'),
        ]:
            with self.assertRaisesRegex(Refused, text):
                lists.add_members_line(found, pairs, relation, at)
        self.assertRaises(Usage, lists.add_members_line, found, [('w20', '')], 'w10')


class Show(unittest.TestCase):
    def test_an_edited_way(self):
        self.assertEqual(
            list(
                show.lines(
                    table.read(town('tag w10 Tname=,surface=asphalt', 'nodes w10 Nn1,n3')), 'w10'
                )
            ),
            [
                'w10: changed here',
                'base     version 2 of 2024-05-06T07:10:00Z by anna, changeset 311',
                '    highway = residential',
                '    name = Mill Lane',
                '    nodes n1,n2,n3',
                'mine     what it is here',
                '    highway = residential',
                '    surface = asphalt',
                '    nodes n1,n3',
                'changed  name: Mill Lane -> (none)',
                'changed  surface: asphalt',
                'changed  nodes: 3 -> 2, without n2',
                'used by  r30 ref=12',
            ],
        )

    def test_others(self):
        text = sessions.session(
            [
                'download town.opl',
                'tag n4 Tbackrest=yes',
                'node x1 y1 Ta=b',
                'delete w20',
                'download later.opl',
            ],
            town_opl=TOWN,
            later_opl='n4 v5 c9 Tamenity=bench,backrest=no x9.5007 y47.1403\n',
        )
        found = table.read(text)
        self.assertEqual(
            list(show.lines(found, 'n4')),
            [
                'n4: changed here, in conflict: changed',
                'base     version 4 of 2024-05-11T12:00:00Z by beat, changeset 340',
                '    amenity = bench',
                '    place 9.5007 47.1403',
                'mine     what it is here',
                '    amenity = bench',
                '    backrest = yes',
                '    place 9.5007 47.1403',
                'theirs   version 5, changeset 9',
                '    amenity = bench',
                '    backrest = no',
                '    place 9.5007 47.1403',
                'changed  backrest: yes',
            ],
        )
        self.assertEqual(
            list(show.lines(found, 'w77')),
            ['w77: only referred to, not downloaded', 'used by  r30 ref=12'],
        )
        self.assertEqual(
            list(show.lines(found, 'n-1')),
            ['n-1: new here', 'mine     what it is here', '    a = b', '    place 1 1'],
        )
        self.assertEqual(
            list(show.lines(found, 'w20'))[:2], ['w20: deleted here', 'base     version 1']
        )
        self.assertEqual(
            list(show.lines(found, 'n2'))[-2:],
            ['used by  w10 Mill Lane', 'used by  r30 ref=12, as stop'],
        )
        self.assertEqual(list(show.lines(found, 'r30'))[-1], 'not downloaded: w77')
        self.assertEqual(list(show.lines(found, 'n99')), [])


if __name__ == '__main__':
    unittest.main()
