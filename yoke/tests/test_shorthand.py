"""Lines of a script that `yoke` writes out: which are lines, what they become, and what a user can
get wrong in them.
"""
import unittest

from yoke.program import BadLine
from yoke.scripts import grammar, lint, shorthand
from yoke.tests.support import FolderTest
from yoke.trouble import NoAnswer, Refused, Trouble, Usage

TOWN = '''n1 v1 x13.001 y52
n2 v1 x13.002 y52 Tcreated_by=JOSM
n3 v1 x13.003 y52
n4 v1 x13.002 y52.001
n7 v1 x13.0025 y52
n8 v2 x13.002 y52.002 Tamenity=bench,created_by=iD
n9 v3 dD
w5 v3 Thighway=residential,name=High%20%Street,created_by=JOSM Nn1,n2,n3
w6 v1 Thighway=service Nn2,n4
r9 v1 Ttype=route Mw5@,w77@
r10 v1 Ttype=turnlanes:turns Mw5@from,n3@via,w7@to
r11 v1 Ttype=restriction Mw5@from,n3@via
w7 v1 Thighway=service Nn3,n4
'''
SURFACES = 'key;surface\nw5;asphalt\nway/6;fine, gravel\nnode/1;\n'

GOOD = """\
tag ( Tcreated_by=* ) Tcreated_by=
tag ( way and ( Thighway=a or not child node ) ) Ta=b,c=
move ( node ) 0.1 0
delete ( node and new )
erase\t(  way  )
purge ( way )
tag-csv surfaces.csv
tag-csv my%20%surfaces.csv the%20%key
tag-csv surfaces.csv columns=surface,lit
tag-csv surfaces.csv the%20%key columns=a%20%b
insert n7 w5
insert n-7 w5 n2
insert n7 w-5 0
add-member w7@ r9
add-member w7@a%20%role,n-1@,r9@ r-9 1
mend-turns
mend-turns r9
mend-turns r9,r-10
tag n1 Tref=7
""".split(
    '\n'
)[
    :-1
]
BAD = [  # a line, the cause, what is right, and whether that is a mend
    (
        'tag ( way ) surface=a',
        'surface=a has no T before it: tags are Tkey=value, or T alone',
        'tag ( QUERY ) Tkey=value',
        False,
    ),
    ('tag ( way )', 'T.. is missing', 'tag ( QUERY ) Tkey=value', False),
    (
        'tag ( way and ) Ta=b',
        ') is no word of a query where it stands',
        'tag ( QUERY ) Tkey=value',
        False,
    ),
    ('tag ( ) Ta=b', 'QUERY is missing', 'tag ( QUERY ) Tkey=value', False),
    ('tag ( way Ta=b', 'a bracket isn\'t closed', 'tag ( QUERY ) Tkey=value', False),
    (
        'tag ( street ) Ta=b',
        'street is no word of a query where it stands',
        'tag ( Tstreet=* ) Ta=b',
        True,
    ),
    (
        'tag (way and Thighway=*) Ta=b',
        'a bracket is a word of its own, and here is (way',
        'tag ( way and Thighway=* ) Ta=b',
        True,
    ),
    (
        'tag find way and Thighway=* Ta=b',
        'and Thighway=* Ta=b is too much',
        'tag ( way and Thighway=* ) Ta=b',
        True,
    ),
    (
        'move (node) 0.1 0',
        'a bracket is a word of its own, and here is (node)',
        'move ( node ) 0.1 0',
        True,
    ),
    ('delete (way)', 'a bracket is a word of its own, and here is (way)', 'delete ( way )', True),
    ('delete n1 (old)', '(old) is too much', 'delete KEYS', False),
    ('delete ( way ) Ta=b', 'Ta=b is too much', 'delete ( ( way ) and Ta=b )', True),
    ('split ( way ) n1', ') n1 is too much', None, None),
    ('tag-csv', 'FILE is missing', 'tag-csv FILE [COLUMN] [columns=NAME,..]', False),
    ('tag-csv a b c', 'c is too much', 'tag-csv a%20%b%20%c', True),
    ('tag-csv a,b', 'the file a,b has a ,, which is written %2c%', 'tag-csv a%2c%b', True),
    (
        'tag-csv a.csv columns=',
        'a column of columns= is empty',
        'tag-csv FILE [COLUMN] [columns=NAME,..]',
        False,
    ),
    ('insert n7', 'WAY is missing', 'insert NODE WAY [AFTER]', False),
    ('insert w5 n7', 'w5 is no node', 'insert n7 w5', True),
    (
        'insert n7 into w5',
        'into is no key: n, w or r and an id, as n1 and w-2',
        'insert n7 w5',
        True,
    ),
    ('insert n7 w5 w6', 'w6 is no number from 0 to 9999999', 'insert NODE WAY [AFTER]', False),
    (
        'insert bench w5',
        'bench is no key: n, w or r and an id, as n1 and w-2',
        'insert NODE WAY [AFTER]',
        False,
    ),
    (
        'add-member w7 r9 outer',
        'the member w7 has no @ after its key',
        'add-member w7@outer r9',
        True,
    ),
    ('add-member r9 Mw7@', 'the member r9 has no @ after its key', 'add-member w7@ r9', True),
    (
        'add-member Mw7@ r9',
        'Mw7 is no key: n, w or r and an id, as n1 and w-2',
        'add-member w7@ r9',
        True,
    ),
    ('add-member w7@', 'RELATION is missing', 'add-member KEY@ROLE,.. RELATION [PLACE]', False),
    ('add-member w7@ w9', 'w9 is no relation', 'add-member KEY@ROLE,.. RELATION [PLACE]', False),
    (
        'add-member w7@ r9 0',
        '0 is no number from 1 to 9999999',
        'add-member KEY@ROLE,.. RELATION [PLACE]',
        False,
    ),
    ('mend-turns w9', 'w9 is no relation', 'mend-turns [KEYS]', False),
    ('mend-turns r9 r10', 'r10 is too much', 'mend-turns [KEYS]', False),
    ('tagcsv a.csv', 'there is no line tagcsv', 'tag-csv a.csv', True),
    ('add_member w7@ r9', 'there is no line add_member', 'add-member w7@ r9', True),
    ('mend-turns ', 'a blank stands after the last word', 'mend-turns', True),
]


class Lines(unittest.TestCase):
    def test_good_ones(self):
        for line in GOOD:
            self.assertEqual(lint.findings([line], short=True), [], line)
            self.assertEqual(shorthand.check_line(line), grammar.words_of(line)[0])

    def test_the_program_has_none_of_them(self):
        for line in GOOD[:-1]:
            self.assertTrue(lint.findings([line]), line)

    def test_bad_ones(self):
        for line, cause, right, is_mend in BAD:
            (found,) = lint.findings([line], short=True)
            self.assertEqual(found.cause, cause, line)
            if right is not None:
                self.assertEqual((found.right, found.is_mend), (right, is_mend), line)
            if found.is_mend:
                self.assertEqual(lint.findings([found.right], short=True), [])

    def test_a_query_has_the_bounds_of_the_program(self):
        for query, is_good in [
            ('not ' * 63 + 'way', True),
            ('not ' * 64 + 'way', False),
            ('way and ' * 495 + 'way', True),
            ('way and ' * 496 + 'way', False),
        ]:
            self.assertEqual(
                lint.findings([f'tag ( {query} ) T'], short=True) == [], is_good, query[:9]
            )

    def test_nothing_is_undone_after_one(self):
        found = lint.findings(
            ['tag n1 Ta=b', 'undo 1', 'tag ( way ) Ta=b', 'redo 1', 'undo 1'], short=True
        )
        self.assertEqual(
            [(one.line, one.cause) for one in found],
            [
                (
                    at,
                    'how many steps the lines before it make isn\'t known: one is written out by yoke',
                )
                for at in (4, 5)
            ],
        )


class Script(FolderTest):
    """Scripts with such lines, by `yoke do`, `expand` and `lint`."""

    def setUp(self):
        super().setUp()
        self.begin(town=TOWN)
        self.write('surfaces.csv', SURFACES)

    def script(self, *lines):
        self.write('a.script', ''.join(line + '\n' for line in lines))
        return 'a.script'

    def kept(self, *lines, **options):
        """What `yoke do` writes, which keeps a session, without its last line."""
        self.done('do', self.script(*lines), *options.get('words', ()))
        self.assertIn('kept as', self.out.splitlines()[-1])
        return self.out.splitlines()[:-1]

    def refused(self, *lines, words=(), code=Refused.code):
        """What `yoke do` writes, which keeps nothing."""
        last = self.day.last().number
        self.assertEqual(code, self.yoke('do', self.script(*lines), *words), self.out + self.err)
        self.assertEqual(last, self.day.last().number)
        return self.out.splitlines()

    def mine(self, key):
        return self.session.known()[key].mine

    def test_what_a_query_finds(self):
        self.assertEqual(
            self.kept('# old', 'tag ( Tcreated_by=* ) Tcreated_by=,checked=yes'),
            ['a.script:2: 3 objects found'],
        )
        for key, tags in [
            ('n2', {'checked': 'yes'}),
            ('n8', {'amenity': 'bench', 'checked': 'yes'}),
            ('n1', {}),
        ]:
            self.assertEqual(self.mine(key).tags, tags)

    def test_a_query_finds_what_is_there_at_its_place(self):
        self.assertEqual(
            self.kept(
                'tag n1 Tref=7',
                'tag ( Tref=* ) Tref=8',
                'node x13 y52 Tref=9',
                'delete n8',
                'tag ( node and ( Tref=* or deleted or incomplete ) ) Tlit=yes',
                'tag ( Tno=* ) Tref=',
                'delete ( new )',
                'tag ( new ) Tref=',
            ),
            [
                'a.script:2: 1 object found',
                'a.script:5: 2 objects found',
                'a.script:6: no objects found',
                'a.script:7: 1 object found',
                'a.script:8: no objects found',
                'a.script:3: made n-1',
            ],
        )
        self.assertEqual(
            [self.mine(key).tags for key in ('n1', 'n3')], [{'ref': '8', 'lit': 'yes'}, {}]
        )
        self.assertNotIn('n-1', self.session.known())

    def test_each_line_over_a_query(self):
        self.kept(
            'move ( way and Thighway=service ) 0.001 -0.001',
            'erase ( Tamenity=bench )',
            'purge ( relation and Ttype=route )',
        )
        self.assertEqual(
            (str(self.mine('n4').lon), str(self.mine('n4').lat), str(self.mine('n1').lon)),
            ('13.003', '52', '13.001'),
        )
        self.assertEqual((self.mine('n8'), 'r9' in self.session.known()), (None, False))

    def test_a_step_that_the_program_refuses(self):
        self.assertEqual(
            self.refused('tag n1 Ta=b', 'move ( relation ) 1 1'),
            [
                'a.script:2: 3 objects found',
                'a.script:2: refused: move r9,r10,r11 1 1: r9 is of a kind that this command doesn\'t take: mend the key (refusal 6)',
            ],
        )
        self.assertIn('nothing is kept: 1 of 2 steps was refused', self.err)

    def test_a_table(self):
        self.assertEqual(
            self.kept('tag-csv surfaces.csv columns=surface', 'tag ( Tsurface=asphalt ) Tlit=yes'),
            ['a.script:1: surfaces.csv: 2 of 3 rows have tags', 'a.script:2: 1 object found'],
        )
        self.assertEqual(
            [self.mine(key).tags.get('surface') for key in ('w5', 'w6', 'n1')],
            ['asphalt', 'fine, gravel', None],
        )
        self.write('my table.csv', 'the key,ref\nw6,9\n')
        self.kept('tag-csv my%20%table.csv the%20%key columns=ref')
        self.assertEqual(self.mine('w6').tags['ref'], '9')

    def test_a_table_called_as_standard_input(self):
        self.write('-', SURFACES)
        self.kept('tag-csv - columns=surface')
        self.assertEqual(self.mine('w5').tags['surface'], 'asphalt')

    def test_rows_that_are_refused(self):
        self.write('b.csv', 'key,ref\nw5,1\nn9,2\nx7,3\nw6,4\n')
        lines = ['tag n1 Tref=0', 'tag-csv b.csv columns=ref']
        told = [
            'a.script:2: b.csv: 3 of 4 rows have tags',
            'a.script:2: b.csv:3: refused: tag n9 Tref=2: n9 is deleted: name another one, or take the deletion back (refusal 3)',
            'a.script:2: b.csv:4: refused: x7 names no object: as w5 or way/5',
        ]
        self.assertEqual(self.refused(*lines), told)
        self.assertIn('nothing is kept: 2 of 5 steps were refused', self.err)
        self.assertEqual(Refused.code, self.yoke('do', self.script(*lines), '--keep'))
        self.assertEqual(self.out.splitlines()[:-1], told)
        self.assertEqual(
            [self.mine(key).tags.get('ref') for key in ('n1', 'w5', 'w6')], ['0', '1', '4']
        )

    def test_a_strict_script_ends_at_a_row(self):
        self.write('b.csv', 'key,ref\nw5,1\nx7,3\nw6,4\nx8,1\n')
        lines = ['tag n1 Tref=0', 'tag-csv b.csv columns=ref', 'tag n3 Tref=5']
        self.assertEqual(
            self.refused(*lines, words=['--strict'])[1:],
            ['a.script:2: b.csv:3: refused: x7 names no object: as w5 or way/5'],
        )
        self.assertIn('nothing is kept: it ended at line 2', self.err)
        self.assertEqual(Refused.code, self.yoke('do', 'a.script', '--strict', '--keep'))
        self.assertEqual(
            [self.mine(key).tags.get('ref') for key in ('n1', 'w5', 'w6', 'n3')],
            ['0', '1', None, None],
        )

    def test_tables_that_are_none(self):
        self.write('empty.csv', '')
        self.write('id.csv', 'id,ref\n5,a\n')
        self.write('none.csv', 'key,ref\nw5,\n')
        (self.folder / 'folder').mkdir()
        for name, text in [
            ('no.csv', 'there is no file no.csv'),
            ('empty.csv', 'empty.csv: it is empty'),
            ('folder', 'folder is a folder'),
            ('id.csv', 'id.csv: no column names the objects'),
            ('none.csv', 'none.csv: no row has a tag'),
        ]:
            (told,) = self.refused('tag n1 Ta=b', f'tag-csv {name} columns=ref')
            self.assertTrue(
                told.startswith(f'a.script:2: refused: tag-csv {name} columns=ref: {text}'),
                told,
            )

    def test_a_node_into_a_way(self):
        self.assertEqual(
            self.kept('insert n7 w5', 'insert n4 w5 n1', 'insert n8 w5 0', 'insert n7 w6 1'),
            [
                'a.script:1: nodes w5 Nn1,n2,n7,n3',
                'a.script:2: nodes w5 Nn1,n4,n2,n7,n3',
                'a.script:3: nodes w5 Nn8,n1,n4,n2,n7,n3',
                'a.script:4: nodes w6 Nn2,n7,n4',
            ],
        )
        self.assertEqual(
            (self.mine('w5').nodes, self.mine('w6').nodes),
            (('n8', 'n1', 'n4', 'n2', 'n7', 'n3'), ('n2', 'n7', 'n4')),
        )

    def test_members(self):
        self.assertEqual(
            self.kept('add-member w6@a%20%b,n1@ r9', 'add-member n4@ r9 1', 'add-member w7@to r11'),
            [
                'a.script:1: members r9 Mw5@,w77@,w6@a%20%b,n1@',
                'a.script:2: members r9 Mn4@,w5@,w77@,w6@a%20%b,n1@',
                'a.script:3: members r11 Mw5@from,n3@via,w7@to',
            ],
        )
        self.assertEqual(
            self.mine('r9').members,
            (('n4', ''), ('w5', ''), ('w77', ''), ('w6', 'a b'), ('n1', '')),
        )

    def test_lists_are_those_at_the_place_of_the_line(self):
        """A list that was read before would lose what a line between has put in: here the pieces of
        a split, and a node.
        """
        self.assertEqual(
            self.kept(
                'insert n7 w5',
                'split w5 n7',
                'add-member w6@ r9',
                'nodes w6 Nn2,n1,n4',
                'insert n8 w6 n2',
                'members r11 Mw6@',
                'add-member w5@ r11',
            ),
            [
                'a.script:1: nodes w5 Nn1,n2,n7,n3',
                'a.script:3: members r9 Mw5@,w-1@,w77@,w6@',
                'a.script:5: nodes w6 Nn2,n8,n1,n4',
                'a.script:7: members r11 Mw6@,w5@',
                'a.script:2: made w-1',
                'changed with it: r10',
            ],
        )

    def test_a_list_that_cant_be_made(self):
        for line, why in [
            ('insert n99 w5', 'there is no n99 in the session'),
            ('insert n9 w5', 'there is no n9 in the session'),
            ('insert n7 w99', "w99 isn't in the session"),
            ('insert n7 w77', 'w77 is only referred to: download it'),
            (
                'insert n2 w5',
                'n2 is a node of w5 already: once more it is put in at a place that is named',
            ),
            ('insert n7 w5 n4', 'n4 is no node of w5, and no number from 0 to 3'),
            ('insert n7 w5 4', '4 is no node of w5, and no number from 0 to 3'),
            ('insert n2 w5 n2', 'n2 would stand twice side by side in w5'),
            ('add-member w99@ r9', 'there is no w99 in the session'),
            ('add-member w6@ r99', "r99 isn't in the session"),
            (
                'add-member w5@ r9',
                'w5 is a member of r9 already: members r9 M.. with the whole list makes it one once more',
            ),
            ('add-member w6@ r9 4', 'r9 has 2 members, so a place is from 1 to 3'),
            ('mend-turns r99', 'there is no r99 in the session'),
            ('mend-turns r11', "r11 type=restriction: it has no to: how to mend it isn't known"),
        ]:
            self.assertEqual(
                self.refused('tag n1 Ta=b', line, 'tag n3 Ta=b'),
                [f'a.script:2: refused: {line}: {why}'],
            )
            self.assertIn('nothing is kept: 1 of 3 steps was refused', self.err)
        self.assertEqual(Refused.code, self.yoke('do', '--keep', 'a.script'))
        self.assertEqual([self.mine(key).tags for key in ('n1', 'n3')], [{'a': 'b'}] * 2)

    def test_it_gives_up_its_group(self):
        lines = [
            'begin',
            'tag n1 Ta=b',
            'insert n99 w5',
            'tag ( way ) Ta=b',
            'insert n7 w5',
            'tag-csv surfaces.csv columns=surface',
            'mend-turns',
            'end',
            'tag n3 Ta=b',
        ]
        self.assertEqual(
            [line for line in self.refused(*lines) if 'refused' in line],
            ['a.script:3: refused: insert n99 w5: there is no n99 in the session'],
        )
        self.assertEqual(Refused.code, self.yoke('do', '--keep', 'a.script'))
        self.assertEqual([key for key, known in self.session.known().items() if known.edit], ['n3'])

    def test_a_step_before_it_that_is_refused_in_its_group(self):
        lines = [
            'begin',
            'tag n99 Ta=b',
            'tag ( way ) Ta=b',
            'add-member w6@ r9',
            'end',
            'tag ( Tamenity=bench ) Ta=b',
        ]
        self.assertEqual(Refused.code, self.yoke('do', '--keep', self.script(*lines)))
        self.assertEqual(
            self.out.splitlines()[:-1],
            [
                'a.script:6: 1 object found',
                'a.script:2: refused: tag n99 Ta=b: there is no n99: download it, or mend the key; of an import put it '
                'into the file (refusal 1)',
            ],
        )
        self.assertEqual([key for key, known in self.session.known().items() if known.edit], ['n8'])

    def test_in_a_group_it_finds_what_the_group_did(self):
        self.kept(
            'begin',
            'tag n1 Tref=7',
            'tag ( Tref=7 ) Tref=8',
            'insert n7 w5',
            'insert n8 w5 0',
            'end',
        )
        self.assertEqual(
            (self.mine('n1').tags, self.mine('w5').nodes),
            ({'ref': '8'}, ('n8', 'n1', 'n2', 'n7', 'n3')),
        )

    def test_turns(self):
        self.assertEqual(
            self.kept('insert n7 w5', 'split w5 n7', 'mend-turns', 'add-member w7@to r11'),
            [
                'a.script:1: nodes w5 Nn1,n2,n7,n3',
                'a.script:3: r10 type=turnlanes:turns: from are 2 ways: w5,w-1; mended: members r10 Mw-1@from,n3@via,w7@to',
                'a.script:3: r11 type=restriction: it has no to; by hand',
                'a.script:4: members r11 Mw-1@from,n3@via,w7@to',
                'a.script:2: made w-1',
                'changed with it: r9',
            ],
        )
        self.assertEqual(self.mine('r10').members, (('w-1', 'from'), ('n3', 'via'), ('w7', 'to')))
        self.assertEqual(
            self.kept('mend-turns', 'mend-turns r10,r9'),
            ['a.script:1: all turns meet', 'a.script:2: all turns meet'],
        )

    def test_with_names(self):
        self.assertEqual(
            self.kept(
                'tag ( Tamenity=bench ) Tref=7',
                'node x13.0015 y52 Thighway=crossing as crossing',
                'insert crossing w5',
                'relation Ttype=site Mw5@ as site',
                'add-member crossing@c,n8@ site 1',
                'insert n7 w5 crossing',
                'tag ( new ) Tsource=survey',
            ),
            [
                'a.script:1: 1 object found',
                'a.script:3: nodes w5 Nn1,n-1,n2,n3',
                'a.script:5: members r-2 Mn-1@c,n8@,w5@',
                'a.script:6: nodes w5 Nn1,n-1,n7,n2,n3',
                'a.script:7: 2 objects found',
                'a.script:2: made n-1',
                'a.script:4: made r-2',
            ],
        )
        self.assertEqual(
            (self.mine('n-1').tags, self.mine('w5').nodes),
            ({'highway': 'crossing', 'source': 'survey'}, ('n1', 'n-1', 'n7', 'n2', 'n3')),
        )
        for lines, line, why in [
            (
                ['node x1 y1 T as a', 'insert b w5'],
                2,
                'b is no key, and no name that a line before gives',
            ),
            (['node x1 y1 T as a', 'add-member b@ r9'], 2, 'b is no key'),
            (['node x1 y1 T as a', 'insert a a'], 2, 'n-3 is no way'),
        ]:
            self.refused(*lines)
            self.assertRegex(self.err, f'a.script:{line}: .*{why}')

    def test_a_bad_line_stops_it_before_anything_is_run(self):
        for lines, line, why in [
            (['tag ( way ) Ta=b', 'tag ( way Ta=b'], 2, 'a bracket isn\'t closed'),
            (['tag n1 a=b', 'tag ( way ) Ta=b'], 1, 'a=b has no T before it'),
            (['tag ( way ) Ta=b', 'place n1'], 2, 'x.. y.. is missing'),
            (['tag ( way ) Ta=b', 'undo 1'], 2, "isn't known"),
            (['mend-turns n1'], 1, 'n1 is no relation'),
            (['tag ( way ) Ta=b', 'end'], 2, 'there is no group to end'),
        ]:
            self.assertEqual(self.refused(*lines, code=BadLine.code), [])
            self.assertRegex(self.err, f'a.script:{line}: no line of a script: .*{why}')

    def test_a_group_has_its_end(self):
        self.refused('begin', 'tag ( way ) Ta=b')
        self.assertIn('a.script:1: the group has no end', self.err)

    def test_while_a_document_is_out_nothing_is_done(self):
        self.day.write(self.day.beside(self.day.last(), 'osc'), 'x')
        self.assertEqual(self.refused('tag ( way ) Ta=b', code=NoAnswer.code), [])

    def test_expand_over_the_day(self):
        self.script(
            'tag ( Tamenity=bench ) Tref=7',
            'tag-csv surfaces.csv columns=surface',
            '# a comment',
            'insert n7 w5',
            'tag ( Tno=* ) Tref=',
            'node x1 y1 T as a',
        )
        head, _, lines = self.done('expand', '--session', 'a.script').partition('\n')
        self.assertRegex(head, '^# for session [0-9a-f]{16}, 000001-start of day$')
        self.assertEqual(
            lines,
            'tag n8 Tref=7\ntag w5 Tsurface=asphalt\ntag w6 Tsurface=fine%2c%%20%gravel\n# a comment\nnodes w5 Nn1,n2,n7,n3\n'
            'begin\nnode x1 y1 T\nend\n',
        )
        self.assertIn('yoke: a.script:5: no objects found\n', self.err)
        self.assertEqual(self.day.last().number, 1)

    def test_expand_over_what_the_script_reads(self):
        self.script(
            'tag ( Tamenity=bench ) Tref=7',
            'download town.opl',
            'tag ( Tamenity=bench ) Tref=7',
            'add-member n8@ r9',
        )
        self.assertEqual(
            self.done('expand', 'a.script'),
            'download town.opl\ntag n8 Tref=7\nmembers r9 Mw5@,w77@,n8@\n',
        )
        self.do('tag n1 Tref=7', 'node x1 y1 T')
        self.script(
            f'resume {self.day.last().path}',
            'tag ( Tref=* ) Tref=8',
            'node x1 y1 T as a',
            'tag a Ta=b',
        )
        self.assertEqual(
            self.done('expand', 'a.script').splitlines()[1:],
            ['tag n1 Tref=8', 'begin', 'node x1 y1 T', 'tag n-2 Ta=b', 'end'],
        )

    def test_what_expand_refuses(self):
        self.write('b.csv', 'key,ref\nw5,1\nx7,3\n')
        for lines, code, why in [
            (
                ['tag-csv b.csv columns=ref'],
                Refused.code,
                'a.script:1: b.csv:3: x7 names no object',
            ),
            (['insert n99 w5'], Refused.code, 'a.script:1: there is no n99 in the session'),
            (
                ['tag ( way T'],
                BadLine.code,
                'a.script:1: no line of a script: tag ( way T: a bracket',
            ),
        ]:
            self.script(*lines)
            self.assertEqual(code, self.yoke('expand', '--session', 'a.script'))
            self.assertEqual('', self.out)
            self.assertIn(why, self.err)
        self.assertEqual(Usage.code, self.yoke('expand', '--session', '--next', '3', 'a.script'))
        self.script('resume no.saved', 'tag ( way ) Ta=b')
        self.assertEqual(Trouble.code, self.yoke('expand', 'a.script'))

    def test_lint(self):
        self.script(*GOOD)
        self.assertEqual(self.done('lint', 'a.script'), 'no bad lines\n')
        self.script('node x1 y1 T as a', 'insert a w5', 'tag (way) Ta=b', 'undo 1')
        self.assertEqual(1, self.yoke('lint', 'a.script'))
        self.assertEqual(
            self.out,
            'a.script:3: a bracket is a word of its own, and here is (way)\n    written  tag (way) Ta=b\n    right    tag ( way ) Ta=b\n'
            'a.script:4: how many steps the lines before it make isn\'t known: one is written out by yoke\n    written  undo 1\n    right    in a script of its own\n2 bad lines\n',
        )
        self.script('import no.opl', 'node x1 y1 T as a')
        self.assertEqual(1, self.yoke('lint', 'a.script'))
        self.assertIn(
            'a.script:1: the new objects of no.opl can\'t be counted: there is no file no.opl',
            self.out,
        )


if __name__ == '__main__':
    unittest.main()
