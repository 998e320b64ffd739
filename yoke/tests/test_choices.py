"""What `resolve theirs` chose lasts: a table, a script or a query that sets the same tag again
leaves it and says so.
"""
import pathlib
import unittest

from yoke import ledger
from yoke.tests.support import ServerTest
from yoke.trouble import Clash, Refused

TOWN = '''n1 v1 x13.001 y52
n2 v1 x13.002 y52
n8 v2 x13.002 y52.001 Tamenity=bench
n9 v1 x13.003 y52.001 Tamenity=bench
w5 v3 Thighway=residential,name=High%20%Street Nn1,n2
'''


class Lasting(ServerTest):
    town = TOWN

    def setUp(self) -> None:
        super().setUp()
        self.begin(town=self.town)
        self.write('names.csv', 'key;name;surface\nw5;Mine Street;asphalt\nn8;My Bench;\n')

    def chosen(self, side: str = 'theirs') -> None:
        """The table is applied, a stranger gives the street another name, and the conflict is
        resolved.
        """
        self.done('tag', '--csv', 'names.csv', '--columns', 'name,surface')
        self.server.edit('modify', 'w5', tags={'highway': 'residential', 'name': 'Their Street'})
        self.assertEqual(Clash.code, self.ask('refresh'), self.out + self.err)
        self.done('resolve', 'w5', *side.split(' '))

    def name(self, key: str = 'w5') -> str:
        tags = self.session.known()[key].mine.tags
        return tags.get('name', '')

    def test_a_table(self) -> None:
        self.chosen()
        self.done('tag', '--csv', 'names.csv', '--columns', 'name,surface')
        self.assertIn(
            'w5: name stays Their Street, which you chose over Mine Street at version 4; --accept choice:w5 sets it all the same\n',
            self.out,
        )
        self.assertEqual(('Their Street', 'My Bench'), (self.name(), self.name('n8')))
        self.done('tag', '--csv', 'names.csv', '--columns', 'name,surface', '--accept', 'choice:w5')
        self.assertEqual('Mine Street', self.name())

    def test_over_a_fresh_extract(self) -> None:
        self.chosen()
        self.assertEqual(0, self.send(), self.out + self.err)
        self.write(
            'fresh.opl', TOWN.replace('w5 v3', 'w5 v4').replace('High%20%Street', 'Their%20%Street')
        )
        self.done('start', 'fresh.opl', '--day', 'next', '--after', 'day')
        self.done('tag', '--csv', 'names.csv', '--columns', 'name,surface', '--day', 'next')
        self.assertIn('w5: name stays Their Street', self.out)
        self.assertNotIn('overwritten: name of 1 object: w5', self.out)

    def test_a_script_and_a_query(self) -> None:
        self.chosen()
        self.write('a.script', 'tag w5,n9 Tname=Mine%20%Street,lit=yes\ntag n8 Ta=b\n')
        self.assertIn('a.script:1: w5: name stays Their Street', self.done('do', 'a.script'))
        self.assertEqual(
            ('Their Street', 'Mine Street', 'yes'),
            (self.name(), self.name('n9'), self.session.known()['w5'].mine.tags['lit']),
        )
        self.write('b.script', 'tag w5 Tname=Mine%20%Street\n')
        self.assertEqual(Refused.code, self.yoke('do', 'b.script'))
        self.assertIn('all that it sets you chose otherwise', self.err)
        self.write('c.script', 'tag-csv names.csv columns=name\n')
        self.assertIn('c.script:1: w5: name stays Their Street', self.done('do', 'c.script'))
        self.assertIn(
            'w5: name stays Their Street',
            self.done('tag', 'name=Mine Street', 'lit=no', '--find', 'way'),
        )
        self.done('do', 'b.script', '--accept', 'choice')
        self.assertEqual('Mine Street', self.name())

    def test_keys_that_are_named_are_a_choice_too(self) -> None:
        self.chosen()
        self.done('tag', 'name=Mine Street', '--keys', 'w5')
        self.assertEqual('Mine Street', self.name())

    def test_what_was_kept_is_no_such_choice(self) -> None:
        self.chosen('mine')
        self.assertNotIn(
            'stays', self.done('tag', '--csv', 'names.csv', '--columns', 'name,surface')
        )

    def test_part_by_part(self) -> None:
        self.chosen('parts mine name')
        self.assertIn(
            'w5: name stays Their Street',
            self.done('tag', '--csv', 'names.csv', '--columns', 'name,surface'),
        )
        self.assertEqual('asphalt', self.session.known()['w5'].mine.tags['surface'])

    def test_it_ends_when_the_tag_changes_again(self) -> None:
        self.chosen()
        self.assertEqual(0, self.send(), self.out + self.err)
        self.server.edit('modify', 'w5', tags={'highway': 'residential', 'name': 'Third Street'})
        self.assertEqual(0, self.ask('refresh', 'w5'), self.out + self.err)
        said = self.done('tag', '--csv', 'names.csv', '--columns', 'name,surface')
        self.assertIn('overwritten: name of 1 object: w5 Third Street -> Mine Street', said)
        self.assertNotIn('name stays', said)
        self.assertIn('w5: surface stays unset, which you chose over asphalt at version 4', said)

    def test_a_team_knows_it(self) -> None:
        self.write(
            'a.geojson',
            '{"type": "Feature", "properties": {"natural": "tree"}, "geometry": {"type": "Point", "coordinates": [13.001, 52.001]}}',
        )
        self.done('import', 'a.geojson', '--columns', 'natural', '--ledger', 'team.csv')
        self.chosen()
        self.done('ledger', '--to', 'table.csv')
        for name in ('team.csv', 'table.csv'):
            found = ledger.look(pathlib.Path(name)).choices['w5', 'name']
            self.assertEqual(
                ('Mine Street', 'Their Street', 4), (found.mine, found.theirs, found.row), name
            )


if __name__ == '__main__':
    unittest.main()
