"""The ledger of imports: what was taken and sent is known again, whoever changed it since, in
whichever day and by whomever.
"""
import json
import os
import pathlib
import threading
import time
import unittest
from typing import Dict, List
from unittest import mock

from yoke import ledger, table
from yoke.day import Day
from yoke.ledger import Corner, Entry
from yoke.testing.elements import opl
from yoke.tests.support import FolderTest, ServerTest
from yoke.trouble import Busy, Refused, Trouble

ADDRESSES = 'addr:street,addr:housenumber,lon,lat\n' + ''.join(
    f'Weg,{number},13.00{number},52.00{number}\n' for number in range(1, 7)
)
COLUMNS = ('--columns', 'addr:street,addr:housenumber')


def house(west: int, name: str) -> Dict[str, object]:
    """A house of a row of houses, each with a wall in common with the next."""
    lons, lats = (13 + west / 10000, 13 + (west + 1) / 10000), (52.001, 52.0011)
    ring = [
        [lons[0], lats[0]],
        [lons[1], lats[0]],
        [lons[1], lats[1]],
        [lons[0], lats[1]],
        [lons[0], lats[0]],
    ]
    return {
        'type': 'Feature',
        'properties': {'building': name},
        'geometry': {'type': 'Polygon', 'coordinates': [ring]},
    }


def houses(*numbers: int) -> str:
    return json.dumps(
        {
            'type': 'FeatureCollection',
            'features': [house(number, f'h{number}') for number in numbers],
        }
    )


class LedgerTest(ServerTest):
    """A strict server with a town, and days of two people."""

    def setUp(self) -> None:
        super().setUp()
        self.write('town.opl', self.town)
        self.write('addresses.csv', ADDRESSES)

    def of(self, name: str, verb: str, *words: str, code: int = 0) -> str:
        """What a command of somebody writes, in the day that has his name."""
        who = ['--who', name] if verb in ('import', 'ledger') else []
        self.assertEqual(code, self.yoke(verb, '--day', name, *words, *who), self.out + self.err)
        return self.out + self.err

    def sent(self, name: str, *words: str, code: int = 0) -> str:
        """What a send of somebody writes."""
        return self.of(name, 'send', '--api', self.server.api, '-m', 'an import', *words, code=code)

    def start(self, name: str, *words: str, fresh: bool = False) -> None:
        """A day begins, from the extract of the town, or from what the server has by now."""
        if fresh:
            self.write(
                f'{name}.opl', ''.join(opl(element) + '\n' for element in self.server.elements())
            )
        self.of(name, 'start', f'{name}.opl' if fresh else 'town.opl', *words)

    def at_server(self, key: str) -> List[str]:
        """The values of a tag that living objects at the server have."""
        return sorted(
            element.tags[key]
            for element in self.server.elements()
            if element.visible and key in element.tags
        )


class KnownAgain(LedgerTest):
    def test_yesterdays_extract_makes_nothing_twice(self) -> None:
        self.start('one')
        self.of('one', 'import', 'addresses.csv', *COLUMNS, '--anywhere', '--ledger', 'team.csv')
        self.sent('one')
        self.start('two')
        said = self.of(
            'two',
            'import',
            'addresses.csv',
            *COLUMNS,
            '--anywhere',
            '--ledger',
            'team.csv',
            code=Refused.code,
        )
        self.assertIn('features: 6 read, 0 taken, 6 left out\n', said)
        self.assertIn('ledger: 6 features not made again: sent by one\n', said)
        self.assertRegex(
            said, 'left out: line 2: it was sent by one in changeset [0-9]+, as n[0-9]+\n'
        )
        self.start('three', '--after', 'one')
        self.assertIn(
            '6 features not made again: sent by one',
            self.of('three', 'import', 'addresses.csv', *COLUMNS, '--anywhere', code=Refused.code),
        )
        self.assertEqual(list('123456'), self.at_server('addr:housenumber'))

    def test_what_others_improved_is_not_made_again(self) -> None:
        self.start('one')
        self.of('one', 'import', 'addresses.csv', *COLUMNS, '--anywhere')
        self.sent('one')
        new = [
            element.key for element in self.server.elements() if 'addr:housenumber' in element.tags
        ]
        self.server.edit('modify', new[0], place=('13.0010009', '52.001'))
        self.server.edit(
            'modify',
            new[1],
            tags={'addr:street': 'Weg', 'addr:housenumber': '2', 'addr:city': 'Vaduz'},
        )
        self.server.edit(
            'modify', new[2], tags={'addr:street': 'Neuer Weg', 'addr:housenumber': '3'}
        )
        self.server.edit('delete', new[3])
        self.start('two', '--after', 'one', fresh=True)
        said = self.of('two', 'import', 'addresses.csv', *COLUMNS, '--anywhere', code=Refused.code)
        self.assertIn('features: 6 read, 0 taken, 6 left out', said)
        self.assertIn(
            'features: 6 read, 6 taken, 0 left out',
            self.of('two', 'import', 'addresses.csv', *COLUMNS, '--anywhere', '--again'),
        )

    def test_one_that_somebody_drew_less_than_a_metre_away(self) -> None:
        self.server.edit(
            'create',
            'n-1',
            place=('13.001004', '52.001'),
            tags={'addr:street': 'Weg', 'addr:housenumber': '1', 'addr:city': 'Vaduz'},
        )
        self.server.edit(
            'create',
            'n-1',
            place=('13.00203', '52.002'),
            tags={'addr:street': 'Weg', 'addr:housenumber': '2'},
        )
        self.start('one', fresh=True)
        said = self.of('one', 'import', 'addresses.csv', *COLUMNS, '--anywhere')
        self.assertIn('features: 6 read, 5 taken, 1 left out', said)
        self.assertRegex(
            said, 'left out: line 2: the session has it already, 0.3 m away, as n[0-9]+\n'
        )

    def test_a_near_double_in_the_file_comes_neither_at_once_nor_later(self) -> None:
        self.write('addresses.csv', ADDRESSES + 'Weg,1,13.001001,52.001\n')
        self.start('one')
        said = self.of('one', 'import', 'addresses.csv', *COLUMNS, '--anywhere')
        self.assertIn('left out: line 8: it is the same as line 2, 0.07 m away\n', said)
        self.do_in('one', 'place n-1 x13.5 y52.5')
        said = self.of('one', 'import', 'addresses.csv', *COLUMNS, '--anywhere', code=Refused.code)
        self.assertIn('left out: line 8: it is the same as line 2, 0.07 m away\n', said)
        self.assertIn(
            'features: 7 read, 7 taken',
            self.of('one', 'import', 'addresses.csv', *COLUMNS, '--anywhere', '--again'),
        )

    def test_by_an_id_in_another_version_of_the_file(self) -> None:
        self.write('a.csv', 'ID,addr:street,lon,lat\nA1,Weg,13.1,52\nA2,Gasse,13.2,52\n')
        self.write(
            'b.csv',
            'ID,addr:street,lon,lat\nA0,Allee,13.3,52\nA1,Weg,13.1,52\nA2,Hohe Gasse,13.2,52.0001\n',
        )
        words = ('--columns', 'addr:street', '--anywhere', '--id', 'ID', '--dataset', 'streets')
        self.start('one')
        self.of('one', 'import', 'a.csv', *words)
        said = self.of('one', 'import', 'b.csv', *words)
        self.assertIn('features: 3 read, 1 taken, 2 left out\n', said)
        self.assertIn(
            'ledger: 1 of them is another in this file than when taken: 3; edit what was sent by yoke tag --csv',
            said,
        )
        self.write('c.csv', 'ID,addr:street,lon,lat\nA1,Weg,13.1,52\nA1,Gasse,13.2,52\n')
        self.assertIn(
            'c.csv: the id A1 stands in line 2 and in line 3',
            self.of('one', 'import', 'c.csv', *words, code=Trouble.code),
        )

    def test_the_same_row_of_another_version_without_ids(self) -> None:
        self.start('one')
        self.of('one', 'import', 'addresses.csv', *COLUMNS, '--anywhere')
        self.do_in('one', 'place n-1 x13.5 y52.5')
        self.write('more.csv', ADDRESSES + 'Weg,7,13.007,52.007\n')
        self.assertIn(
            'features: 7 read, 1 taken, 6 left out',
            self.of('one', 'import', 'more.csv', *COLUMNS, '--anywhere'),
        )

    def do_in(self, name: str, *lines: str) -> None:
        self.write('steps.script', ''.join(line + '\n' for line in lines))
        self.of(name, 'do', 'steps.script')

    def test_an_import_that_is_taken_back_comes_again(self) -> None:
        self.start('one')
        for _ in range(2):
            self.of(
                'one', 'import', 'addresses.csv', *COLUMNS, '--anywhere', '--ledger', 'team.csv'
            )
            self.start('two') if not pathlib.Path('two').exists() else None
            self.assertIn(
                'taken by one, and not sent yet',
                self.of(
                    'two',
                    'import',
                    'addresses.csv',
                    *COLUMNS,
                    '--anywhere',
                    '--ledger',
                    'team.csv',
                    code=Refused.code,
                ),
            )
            self.of('one', 'undo')
        self.assertIn(
            'features: 6 read, 6 taken',
            self.of(
                'two', 'import', 'addresses.csv', *COLUMNS, '--anywhere', '--ledger', 'team.csv'
            ),
        )

    def test_an_import_that_is_refused_gives_back_what_it_took(self) -> None:
        self.start('one')
        with mock.patch('yoke.session.Session.edit', side_effect=Refused('the table is full')):
            self.of(
                'one',
                'import',
                'addresses.csv',
                *COLUMNS,
                '--anywhere',
                '--ledger',
                'team.csv',
                code=Refused.code,
            )
        self.assertEqual([], ledger.look(pathlib.Path('team.csv')).live())
        self.of('one', 'import', 'addresses.csv', *COLUMNS, '--anywhere')

    def test_another_server_has_nothing_of_it(self) -> None:
        self.start('one')
        self.of(
            'one',
            'import',
            'addresses.csv',
            *COLUMNS,
            '--anywhere',
            '--features',
            '1-3',
            '--ledger',
            'team.csv',
        )
        self.sent('one')
        other = self.serve()
        self.start('two')
        self.write('steps.script', 'tag n8 Tbackrest=yes\n')
        self.of('two', 'do', 'steps.script')
        self.of('two', 'send', '--api', other.api, '-m', 'to another server')
        self.assertIn(
            '6 read, 6 taken',
            self.of(
                'two', 'import', 'addresses.csv', *COLUMNS, '--anywhere', '--ledger', 'team.csv'
            ),
        )


class Teams(LedgerTest):
    def test_overlapping_batches(self) -> None:
        for name in ('anna', 'beat'):
            self.start(name)
        words = (*COLUMNS, '--anywhere', '--ledger', 'team.csv')
        self.of('anna', 'import', 'addresses.csv', *words, '--features', '1-4')
        said = self.of('beat', 'import', 'addresses.csv', *words, '--features', '3-6')
        self.assertIn(
            'features: 4 read, 2 taken, 2 left out\nobjects: 2 nodes, 0 ways, 0 relations\nledger: 2 features not made again: taken by anna, and not sent yet\n',
            said,
        )
        self.assertRegex(
            said,
            'left out: line 4: it was taken by anna at 20[0-9T:-]+Z \\(claim [0-9a-f]{12}\\), and isn\'t sent yet\n',
        )
        self.assertIn(
            '2 features were left out',
            self.of(
                'beat',
                'import',
                'addresses.csv',
                *words,
                '--features',
                '3-6',
                '--again',
                '--all',
                code=0,
            )
            + '2 features were left out',
        )
        self.of('beat', 'undo')
        self.sent('beat')
        self.sent('anna')
        self.assertEqual(list('123456'), self.at_server('addr:housenumber'))

    def test_touching_batches_share_their_corners(self) -> None:
        self.write('houses.geojson', houses(1, 2, 3, 4))
        words = ('--columns', 'building', '--anywhere', '--ledger', 'team.csv')
        self.start('anna')
        self.start('beat')
        self.of('anna', 'import', 'houses.geojson', *words, '--features', '1-2')
        said = self.of('beat', 'import', 'houses.geojson', *words, '--features', '3-4')
        self.assertIn(
            'left out: feature 3: it touches row 2 of houses.geojson, which anna has taken and not sent yet: import it after that, or by --apart\n',
            said,
        )
        self.assertIn('1 taken', said)
        self.sent('anna')
        said = self.of('beat', 'import', 'houses.geojson', *words)
        self.assertIn('features: 4 read, 1 taken, 3 left out', said)
        self.assertIn('note: corners that are nodes of the session: 4', said)
        self.sent('beat')
        places = [
            (element.lon, element.lat)
            for element in self.server.elements()
            if element.kind == 'node' and element.visible
        ]
        self.assertEqual(len(places), len(set(places)), 'a corner is there twice')
        self.assertEqual(['h1', 'h2', 'h3', 'h4'], self.at_server('building'))

    def test_corners_of_batches_that_are_not_sent_yet(self) -> None:
        self.write('houses.geojson', houses(1, 2, 3))
        self.start('anna')
        for number in '123':
            self.of(
                'anna',
                'import',
                'houses.geojson',
                '--columns',
                'building',
                '--anywhere',
                '--features',
                f'{number}-{number}',
            )
        found = table.read(Day('anna').last().text())
        self.assertEqual(8, sum(key[0] == 'n' for key in found.new()))
        self.sent('anna')
        self.assertEqual(['h1', 'h2', 'h3'], self.at_server('building'))

    def test_a_corner_that_somebody_moved_is_still_the_corner(self) -> None:
        self.write('houses.geojson', houses(1, 2))
        self.start('anna')
        self.of(
            'anna',
            'import',
            'houses.geojson',
            '--columns',
            'building',
            '--anywhere',
            '--features',
            '1-1',
        )
        self.sent('anna')
        corner = next(
            element
            for element in self.server.elements()
            if (element.lon, element.lat) == (130002000, 520010000)
        )
        self.server.edit('modify', corner.key, place=('13.0002009', '52.001'))
        self.start('beat', '--after', 'anna')
        self.of('beat', 'import', 'houses.geojson', '--columns', 'building', '--anywhere')
        self.sent('beat')
        way = next(
            element for element in self.server.elements() if element.tags.get('building') == 'h2'
        )
        self.assertIn(int(corner.key[1:]), way.nodes)
        moved = next(element for element in self.server.elements() if element.key == corner.key)
        self.assertEqual((2, 130002009), (moved.version, moved.lon))

    def test_apart(self) -> None:
        self.write('houses.geojson', houses(1, 2))
        words = ('--columns', 'building', '--anywhere', '--ledger', 'team.csv')
        self.start('anna')
        self.start('beat')
        self.of('anna', 'import', 'houses.geojson', *words, '--features', '1-1')
        self.assertIn('1 taken', self.of('beat', 'import', 'houses.geojson', *words, '--apart'))

    def test_what_a_lost_day_had_taken_is_given_back(self) -> None:
        self.start('anna')
        self.start('beat')
        self.of('anna', 'import', 'addresses.csv', *COLUMNS, '--anywhere', '--ledger', 'team.csv')
        said = self.of('beat', 'ledger', 'addresses.csv', '--ledger', 'team.csv')
        claim = said.split('claim ')[1].split(' ')[0]
        self.assertIn('rows 1-6, not sent\nleft: nothing\n', said)
        self.assertIn(
            'is of this day: yoke undo',
            self.of('anna', 'ledger', '--give-back', claim, code=Refused.code),
        )
        self.assertIn(
            'given back: 6 features that anna had taken',
            self.of('beat', 'ledger', '--ledger', 'team.csv', '--give-back', claim),
        )
        self.assertIn(
            'nothing that isn\'t sent',
            self.of('beat', 'ledger', '--give-back', claim, code=Refused.code),
        )
        self.assertIn('6 taken', self.of('beat', 'import', 'addresses.csv', *COLUMNS, '--anywhere'))

    def test_two_copies_put_one_after_the_other(self) -> None:
        for name in ('anna', 'beat'):
            self.start(name)
        self.of(
            'anna',
            'import',
            'addresses.csv',
            *COLUMNS,
            '--anywhere',
            '--features',
            '1-4',
            '--ledger',
            'a.csv',
        )
        self.of(
            'beat',
            'import',
            'addresses.csv',
            *COLUMNS,
            '--anywhere',
            '--features',
            '4-6',
            '--ledger',
            'b.csv',
        )
        for one, other in ('ab', 'ba'):
            self.write(
                'both.csv',
                pathlib.Path(f'{one}.csv').read_text() + pathlib.Path(f'{other}.csv').read_text(),
            )
            said = self.of('anna', 'ledger', '--ledger', 'both.csv')
            self.assertRegex(
                said,
                'row 4 of addresses.csv was taken twice: by (anna|beat) .* and by (anna|beat) ',
            )
        self.start('carl')
        self.assertIn(
            '0 taken',
            self.of(
                'carl',
                'import',
                'addresses.csv',
                *COLUMNS,
                '--anywhere',
                '--ledger',
                'both.csv',
                code=Refused.code,
            ),
        )


class Tables(LedgerTest):
    def test_the_table_goes_on_where_it_ended(self) -> None:
        self.start('one')
        self.of('one', 'import', 'addresses.csv', *COLUMNS, '--anywhere', '--features', '1-2')
        self.sent('one')
        self.of('one', 'import', 'addresses.csv', *COLUMNS, '--anywhere', '--features', '3-4')
        said = self.of('one', 'ledger', 'addresses.csv', '--to', 'table.csv')
        self.assertRegex(
            said,
            'addresses.csv [0-9a-f]{16}: 4 taken, 2 sent in changeset [0-9]+\n    claim [0-9a-f]{12} by one at .*: rows 3-4, not sent\nleft: 5-6\nwrote table.csv\n',
        )
        lines = pathlib.Path('table.csv').read_text().splitlines()
        self.assertEqual(
            ['sent', 'sent', 'taken', 'taken'], [line.split(',')[0] for line in lines[1:]]
        )
        made = [
            element.key for element in self.server.elements() if 'addr:housenumber' in element.tags
        ]
        self.assertEqual(
            made,
            [
                ledger.read(pathlib.Path('table.csv').read_bytes(), '').live()[at].keys[0]
                for at in (0, 1)
            ],
        )
        self.start('two')
        said = self.of(
            'two', 'import', 'addresses.csv', *COLUMNS, '--anywhere', '--ledger', 'table.csv'
        )
        self.assertIn('features: 6 read, 2 taken, 4 left out', said)
        self.assertIn(
            'is there, and wasn\'t written by yoke',
            self.of('one', 'ledger', '--to', 'addresses.csv', code=Refused.code),
        )
        self.assertIn(
            'it is read by the same command',
            self.of('one', 'ledger', 'addresses.csv', '--to', 'addresses.csv', code=Refused.code),
        )
        self.assertIn('nothing of town.opl was taken', self.of('one', 'ledger', 'town.opl'))

    def test_a_send_that_took_a_part(self) -> None:
        self.start('one')
        self.of('one', 'import', 'addresses.csv', *COLUMNS, '--anywhere', '--ledger', 'team.csv')
        self.sent('one', '--at-most', '2')
        self.assertIn('6 taken, 2 sent', self.of('one', 'ledger'))
        self.assertEqual(
            2, sum(entry.event == 'sent' for entry in ledger.look(pathlib.Path('team.csv')).live())
        )
        self.sent('one')
        self.assertEqual(
            6, sum(entry.event == 'sent' for entry in ledger.look(pathlib.Path('team.csv')).live())
        )
        self.assertEqual(list('123456'), self.at_server('addr:housenumber'))

    def test_as_data(self) -> None:
        self.start('one')
        self.of('one', 'import', 'addresses.csv', *COLUMNS, '--anywhere')
        self.of('one', 'ledger', '--json')
        found = json.loads(self.out)['result']['features']  # notes are on the error stream
        self.assertEqual(
            [('taken', 'one', 1, ['n-1'])],
            [(one['event'], one['who'], one['row'], one['keys']) for one in found[:1]],
        )


class Files(FolderTest):
    """Ledgers as files: a line counts when it is whole, and nothing else is taken for a ledger."""

    def test_lines(self) -> None:
        entry = Entry(
            'sent',
            't',
            'An, "na"',
            'c',
            'a b.csv',
            'f',
            7,
            'id\n7',
            'd',
            ('n1', 'w2'),
            (Corner('n3', (-1, 520000000)),),
            '5',
            'https://x',
            'a,b',
            'ü',
        )
        book = ledger.read((ledger.HEADER + entry.line()).encode(), 'x')
        self.assertEqual([ledger.replace(entry, id='id 7')], book.entries)
        self.assertEqual(1, entry.line().count('\n'))

    def test_a_part_of_a_line_is_skipped(self) -> None:
        lines = [Entry('taken', '', '', 'c', '', 'f', row).line() for row in range(1, 4)]
        path = self.folder / 'a.csv'
        for cut in range(1, len(lines[1]) - 1):
            path.write_text(ledger.HEADER + lines[0] + lines[1][:cut])
            with ledger.opened(path) as book:
                self.assertEqual([1], [entry.row for entry in book.book.entries], cut)
                book.append([Entry('taken', '', '', 'c', '', 'f', 3)])
            self.assertEqual([1, 3], [entry.row for entry in ledger.look(path).entries], cut)
        path.write_text(ledger.HEADER + lines[0] + lines[1][:-1])  # the line feed alone is missing
        with ledger.opened(path) as book:
            book.append([Entry('taken', '', '', 'c', '', 'f', 3)])
        self.assertEqual([1, 2, 3], [entry.row for entry in ledger.look(path).entries])

    def test_what_is_no_ledger(self) -> None:
        for text, why in [
            ('a,b\n', 'is no ledger: its first line is'),
            ('key;name\n', 'is no ledger'),
            (ledger.HEADER.replace(',', ';'), 'is no ledger'),
            (ledger.HEADER + 'taken,,,,,,x,,,,,,,,,.\n', 'a.csv:2: it is no line of a ledger'),
            (ledger.HEADER + 'gone,,,,,,1,,,,,,,,,.\n', 'no line of a ledger'),
            (ledger.HEADER + 'taken,.\n', 'no line of a ledger'),
        ]:
            self.write('a.csv', text)
            with self.assertRaisesRegex(Trouble, why):
                ledger.look(self.folder / 'a.csv')
        self.assertEqual([], ledger.look(self.folder / 'none.csv').entries)
        self.write(
            'crlf.csv',
            '\ufeff' + (ledger.HEADER + Entry('taken', row=1).line()).replace('\n', '\r\n'),
        )
        self.assertEqual(1, len(ledger.look(self.folder / 'crlf.csv').entries))

    def test_one_waits_for_another(self) -> None:
        path = self.folder / 'a.csv'
        began, taken = threading.Event(), []

        def other() -> None:
            began.wait()
            with ledger.opened(path) as book:
                taken.append([entry.row for entry in book.book.entries])

        thread = threading.Thread(target=other)
        thread.start()
        with ledger.opened(path) as book:
            began.set()
            time.sleep(0.3)
            book.append([Entry('taken', row=1)])
        thread.join()
        self.assertEqual([[1]], taken)

    def test_one_that_is_held_for_long(self) -> None:
        with mock.patch('yoke.ledger.WAIT', 1), ledger.opened(self.folder / 'a.csv'):
            with self.assertRaises(Busy), ledger.opened(self.folder / 'a.csv'):
                pass

    def test_a_ledger_that_another_file_took_the_place_of(self) -> None:
        path = self.folder / 'a.csv'
        with ledger.opened(path):
            self.write('b.csv', ledger.HEADER + Entry('taken', row=5).line())
            os.replace(self.folder / 'b.csv', path)
        with ledger.opened(path) as book:
            self.assertEqual([5], [entry.row for entry in book.book.entries])


if __name__ == '__main__':
    unittest.main()
