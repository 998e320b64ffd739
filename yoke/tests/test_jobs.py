"""Three jobs from the download to the check, each over files with the usual dirt, and what the
server has in the end.

Each is what one how-to shows, in at most twelve commands: a sheet (values-from-a-table), an import
(conflate), and a bad import that is taken back (revert). Others edit the map between the download
and the send.
"""
from __future__ import annotations

import unittest

from yoke.tests.support import ServerTest

MOST_COMMANDS = 12
MAP = '''n1 v1 Tshop=bakery,name=Huber,opening_hours=Mo-Fr%20%07:00-18:00 x13.001 y52.001
n2 v3 Tshop=tea,name=Teehaus x13.002 y52.001
n3 v2 Tshop=florist,name=Rosenhof,opening_hours=Mo-Sa%20%08:00-18:00 x13.003 y52.001
n4 v1 Tshop=books,name=Lesezeichen x13.004 y52.001
n5 v1 Tshop=butcher,name=Wolf,opening_hours=Mo-Fr x13.005 y52.001
n6 v1 Tshop=butcher,name=Wolf,opening_hours=Mo-Fr x13.008 y52.001
n7 v4 Tshop=shoes,name=Schmid,opening_hours=Mo-Fr x13.006 y52.001
n21 v1 T x13.001 y52.005
n22 v1 T x13.002 y52.005
w1 v1 Thighway=residential,name=Linden%20%Street Nn21,n22
n31 v1 Taddr:street=Lindenstraße,addr:housenumber=1 x13.001 y52.0051
n32 v1 Taddr:street=Lindenstraße,addr:housenumber=2,note=door x13.0012 y52.0051
n33 v1 Taddr:street=Lindenstraße,addr:housenumber=3,addr:postcode=99999 x13.0014 y52.0051
'''
BOX = '12.99,51.99,13.02,52.02'
BOM = '\ufeff'

Content = dict[str, 'Element']


class JobTest(ServerTest):
    """A job: its commands are counted, and in the end the server is held against what it had."""

    town = MAP

    def setUp(self) -> None:
        super().setUp()
        self.commands = 0
        self.before: Content = self.theirs()

    def run_command(self, *words: str, code: int = 0) -> str:
        """What a command prints, which has to end with the code."""
        self.commands += 1
        online = (
            ['--api', self.server.api] if words[0] in ('get', 'send', 'refresh', 'revert') else []
        )
        self.assertEqual(code, self.yoke(*words, *online), self.out + self.err)
        return self.out

    def get_and_start(self) -> None:
        self.run_command('get', '--bbox', BOX, '--to', 'area.opl')
        self.run_command('start', 'area.opl')

    def assert_end(self, changed: dict[str, dict[str, str]], new: list[dict[str, str]]) -> None:
        """The server has these tags at the objects that changed, these new objects once each, and
        all else as it was.
        """
        self.assertLessEqual(self.commands, MOST_COMMANDS)
        there = self.theirs()
        for key, element in self.before.items():
            self.assertTrue(there[key].visible, key)
            self.assertEqual(changed.get(key, element.tags), there[key].tags, key)
        found = [
            element.tags
            for key, element in there.items()
            if key not in self.before and element.visible
        ]
        self.assertCountEqual(new, found)
        self.assertEqual([], self.server.created_twice())

    def assert_shapes_as_before(self, *moved: str) -> None:
        for key, element in self.before.items():
            if key not in moved:
                there = self.theirs()[key]
                self.assertEqual(
                    (element.lon, element.lat, element.nodes),
                    (there.lon, there.lat, there.nodes),
                    key,
                )


class Sheet(JobTest):
    """Opening hours for shops, most of which are on the map."""

    rules = 'against Tshop=*\nwithin 50\nsame shop\ntake opening_hours\n'
    head = 'name;shop;old:opening_hours;opening_hours;@lat;@lon\r\n'
    rows = (
        'Huber;bakery;Mo-Fr 07:00-18:00;Mo-Sa 06:00-18:00;52.00101;13.00099\r\n'
        'Teehaus;tea;;Tu-Su 10:00-19:00;52.001;13.002\r\n'
        'Teehaus;tea;;Tu-Su 10:00-19:00;52.001;13.002\r\n'  # twice
        'Rosenhof;florist;Mo-Fr 09:00-18:00;Mo-Fr 09:00-19:00;52.001;13.003\r\n'  # others gave it other hours before
        'Lesezeihen;books;;Mo-Fr 10:00-18:00;52.001;13.004\r\n'  # misspelt
        'Wolf;butcher;Mo-Fr;Tu-Sa;52.001;13.00502\r\n'  # one of two with this name
        'Schmid;shoes;Mo-Fr;Mo-Th;52.001;13.006\r\n'  # others improve it meanwhile
        'Post;kiosk;;{};52.001;13.007\r\n'  # new
    )

    def test_a_spoiled_cell_stops_before_anything_is_done(self) -> None:
        self.write('hours.csv', BOM + self.head + self.rows.format('#N/A'))
        self.get_and_start()
        words = ('--where', 'name={name}', '--within', '50', '--columns', 'opening_hours')
        self.assertEqual(1, self.yoke('tag', '--csv', 'hours.csv', *words))
        self.assertIn('#N/A', self.out)
        self.assertEqual(1, self.day.last().number)

    def test_the_job(self) -> None:
        self.write('hours.csv', BOM + self.head + self.rows.format('We-Mo'))
        self.write('new.rules', self.rules)
        self.get_and_start()
        self.server.edit(
            'modify', 'n7', tags={'shop': 'shoes', 'name': 'Schmid', 'opening_hours': 'Mo-Su'}
        )
        self.server.edit('modify', 'n1', place=('13.0010100', '52.0010000'))
        said = self.run_command(
            'tag',
            '--csv',
            'hours.csv',
            '--where',
            'name={name}',
            '--within',
            '50',
            '--columns',
            'opening_hours',
            '--lists',
            'hours',
        )
        self.assertIn('rows that found one object: 6; none: 2; several: 0', said)
        self.assertIn('line 4 is line 3 again', said)
        said = self.run_command(
            'conflate',
            'hours-none.csv',
            '--rules',
            'new.rules',
            '--columns',
            'name,shop,opening_hours',
            '--to',
            'new',
        )
        self.assertIn('2 features: 0 same, 1 update, 1 new, 0 ambiguous', said)
        self.run_command('do', 'new.script')
        self.run_command('diff')
        self.run_command('send', '--refresh', '-m', 'Opening hours', code=4)
        self.run_command('resolve', 'n7', 'theirs')
        self.run_command('send', '-m', 'Opening hours')
        self.assertIn('left: 0 edited, 0 in conflict', self.run_command('log'))
        self.assert_end(
            {
                'n1': {'shop': 'bakery', 'name': 'Huber', 'opening_hours': 'Mo-Sa 06:00-18:00'},
                'n2': {'shop': 'tea', 'name': 'Teehaus', 'opening_hours': 'Tu-Su 10:00-19:00'},
                'n4': {
                    'shop': 'books',
                    'name': 'Lesezeichen',
                    'opening_hours': 'Mo-Fr 10:00-18:00',
                },
                'n5': {'shop': 'butcher', 'name': 'Wolf', 'opening_hours': 'Tu-Sa'},
                'n7': {'shop': 'shoes', 'name': 'Schmid', 'opening_hours': 'Mo-Su'},
            },
            [{'shop': 'kiosk', 'name': 'Post', 'opening_hours': 'We-Mo'}],
        )
        self.assert_shapes_as_before('n1')
        self.assertEqual(130_010_100, self.theirs()['n1'].lon)

    def test_the_same_sheet_the_next_day_does_nothing(self) -> None:
        self.test_the_job()
        taken = len(self.server.history)
        self.done('get', '--bbox', BOX, '--to', 'later.opl', '--api', self.server.api)
        self.done('start', 'later.opl', '--day', 'later')
        words = (
            '--where',
            'name={name}',
            '--within',
            '50',
            '--columns',
            'opening_hours',
            '--day',
            'later',
        )
        self.assertEqual(1, self.yoke('tag', '--csv', 'hours.csv', *words), self.out)
        self.assertIn('no row is left to do', self.err)
        self.assertEqual(taken, len(self.server.history))


class Addresses(JobTest):
    """Addresses of a town, of which some are on the map."""

    rules = 'against Taddr:housenumber=*\nwithin 40\nequal addr:street addr:housenumber\ntake addr:postcode\nsource-id NR\n'
    tags = 'addr:street = {STRASSE}\naddr:housenumber = {HAUSNR}\naddr:postcode = {PLZ}\nrequired {STRASSE} {HAUSNR}\n'
    rows = (
        'NR;STRASSE;HAUSNR;PLZ;@lat;@lon\r\n'
        'A1;Lindenstr.;1;17033;52.00511;13.00101\r\n'
        'A2;Lindenstraße;2;17033;52.00509;13.00121\r\n'
        'A3;LINDENSTRASSE;3;17033;52.0051;13.0014\r\n'  # the map has another postcode, which stays
        'A4;Lindenstraße;4;17033;52.0051;13.0016\r\n'  # new
        'A4;Lindenstraße;4;17033;52.0051;13.0016\r\n'  # the row twice
        'A5;Lindenstraße;5;17033;52.0051;13.0018\r\n'  # new, and somebody is faster
        'A6;;6;17033;52.0051;13.0020\r\n'  # no street
        'A7;Lindenstraße;7;17033;13.0022;52.0051\r\n'  # exchanged
        'A8;Lindenstraße;8;17033;52.0051;13.0024\r\n'
    )  # new

    def prepared(self) -> tuple[str, ...]:
        """Writes the files, begins with an extract, and lets others edit; the words of `conflate`."""
        self.write('in.csv', BOM + self.rows)
        self.write('in.rules', self.rules)
        self.write('in.tags', self.tags)
        self.get_and_start()
        self.server.edit('modify', 'n32', place=('13.0012100', '52.0051000'))
        self.faster = self.server.edit(
            'create',
            'n-1',
            place=('13.0018100', '52.0051000'),
            tags={'addr:street': 'Lindenstraße', 'addr:housenumber': '5'},
        )
        self.before = self.theirs()
        return 'in.csv', '--rules', 'in.rules', '--tags', 'in.tags', '--ids', 'ids.csv'

    def sent(self) -> None:
        """The job, to the end."""
        words = self.prepared()
        said = self.run_command('conflate', *words, '--to', 'matched')
        self.assertIn('9 features: 1 same, 2 update, 3 new, 0 ambiguous, 0 skip, 3 left out', said)
        self.run_command('do', 'matched.script')
        self.run_command('diff', '--short')
        self.run_command('send', '--refresh', '-m', 'Addresses', code=1)
        self.assertIn(f'may be {self.faster}', self.out)
        self.assertIn('echo purge n-2 | yoke do -', self.err)
        self.write('purge', 'purge n-2\n')
        self.run_command('do', 'purge')
        self.run_command('send', '--refresh', '-m', 'Addresses')


class Import(Addresses):
    """They are matched with the map, and sent."""

    def test_the_job(self) -> None:
        self.sent()
        street = {'addr:street': 'Lindenstraße', 'addr:postcode': '17033'}
        self.assert_end(
            {
                'n31': {**street, 'addr:housenumber': '1'},
                'n32': {**street, 'addr:housenumber': '2', 'note': 'door'},
            },
            [{**street, 'addr:housenumber': '4'}, {**street, 'addr:housenumber': '8'}],
        )
        self.assert_shapes_as_before()

    def test_the_file_again_over_a_new_extract_makes_nothing(self) -> None:
        self.sent()
        self.done('get', '--bbox', BOX, '--to', 'later.opl', '--api', self.server.api)
        self.done('start', 'later.opl', '--day', 'later')
        said = self.done(
            'conflate',
            'in.csv',
            '--rules',
            'in.rules',
            '--tags',
            'in.tags',
            '--ids',
            'ids.csv',
            '--to',
            'again',
            '--day',
            'later',
        )
        self.assertIn('9 features: 5 same, 1 update, 0 new, 0 ambiguous, 0 skip, 3 left out', said)

    def test_the_file_again_over_the_old_extract_is_stopped(self) -> None:
        self.sent()
        self.done('start', 'area.opl', '--day', 'old')
        self.done(
            'conflate',
            'in.csv',
            '--rules',
            'in.rules',
            '--tags',
            'in.tags',
            '--ids',
            'other.csv',
            '--to',
            'again',
            '--day',
            'old',
        )
        self.done('do', 'again.script', '--day', 'old')
        self.assertEqual(
            1,
            self.yoke(
                'send', '--refresh', '-m', 'Addresses', '--api', self.server.api, '--day', 'old'
            ),
            self.out,
        )
        self.assertIn('3 of 3 new objects may be there already', self.err)


class BadImport(Addresses):
    """The same import, taken back after others improved some of it."""

    def test_the_job(self) -> None:
        self.sent()
        made = {
            element.tags['addr:housenumber']: element.key for element in self.server.created_by()
        }
        improved = self.server.edit(
            'modify',
            made['8'],
            tags={'addr:street': 'Lindenstraße', 'addr:housenumber': '8', 'phone': '1'},
        )
        self.server.edit('modify', 'n31', tags={**self.theirs()['n31'].tags, 'entrance': 'yes'})
        number = str(
            max(
                self.server.database.changesets[change.element.changeset].number
                for change in self.server.history
                if change.user == 'mapper'
            )
        )
        self.commands = 0
        said = self.run_command('revert', number, '--day', 'back', code=4)
        self.assertIn('1 in conflict', said)
        self.run_command('diff', '--day', 'back')
        self.run_command('resolve', improved, 'theirs', '--day', 'back')
        self.run_command(
            'send', '--refresh', '-m', f'reverts {number}: the list was wrong', '--day', 'back'
        )
        self.assertIn('left: 0 edited, 0 in conflict', self.run_command('log', '--day', 'back'))
        self.assertFalse(self.theirs()[made['4']].visible)
        self.assert_end(
            {'n31': {'addr:street': 'Lindenstraße', 'addr:housenumber': '1', 'entrance': 'yes'}},
            [{'addr:street': 'Lindenstraße', 'addr:housenumber': '8', 'phone': '1'}],
        )
        self.assert_shapes_as_before()


if __name__ == '__main__':
    unittest.main()
