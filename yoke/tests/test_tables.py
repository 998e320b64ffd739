"""Tables as people send them: columns that are no tags, rules that name no column, values that a
spreadsheet spoiled, texts in other encodings, and rows that find their objects by tags.
"""
import csv
import gzip
import io
import pathlib
import unittest
import zipfile
from typing import Dict, List
from unittest import mock

from yoke.formats import features, mapping, row_search, suspicions
from yoke.tests.support import FolderTest
from yoke.trouble import Refused, Trouble, Usage

TOWN = '''n1 v1 x13.001 y52
n2 v1 x13.002 y52
n3 v1 x13.003 y52
n11 v1 x13.0010 y52.001 Tshop=bakery,name=Meier,addr:street=Hauptstraße,addr:housenumber=1
n12 v1 x13.0020 y52.001 Tshop=butcher,name=Huber,addr:street=Hauptstraße,addr:housenumber=2
n13 v1 x13.0030 y52.001 Tshop=kiosk,addr:street=Am%20%Markt,addr:housenumber=3
n14 v1 x13.0031 y52.001 Tshop=books,addr:street=Am%20%Markt,addr:housenumber=3
n15 v2 x13.0900 y52.001 Tshop=shoes,name=Schmidt,addr:street=Hauptstraße,addr:housenumber=1
w5 v3 Thighway=residential,name=High%20%Street Nn1,n2,n3
'''


class TableTest(FolderTest):
    """A day over a town, with files that are written from text or bytes."""

    def setUp(self) -> None:
        super().setUp()
        self.begin(town=TOWN)

    def put(self, name: str, data) -> None:
        pathlib.Path(name).write_bytes(data if isinstance(data, bytes) else data.encode())

    def mine(self, key: str) -> Dict[str, str]:
        tags: Dict[str, str] = self.session.known()[key].mine.tags
        return tags

    def refused(self, *words: str, code: int = Refused.code) -> str:
        """What a command writes that has to end so, and to keep nothing."""
        before = self.day.last().number
        self.assertEqual(code, self.yoke(*words), self.out + self.err)
        self.assertEqual(before, self.day.last().number)
        return self.out + self.err


class Columns(TableTest):
    """Each column that becomes a tag is named or confirmed."""

    def test_a_table_of_overpass_never_sends_its_metadata(self) -> None:
        self.put(
            'shops.csv',
            '@id\t@type\t@lat\t@lon\tphone\n11\tnode\t52.1\t13.1\t+49 1\n12\tnode\t52.1\t13.1\t+49 2\n',
        )
        said = self.refused('tag', '--csv', 'shops.csv')
        self.assertIn('column phone  +49 1, +49 2  (2 different, in 2 rows)', said)
        self.assertIn('say which columns are tags, such as --columns phone,', said)
        self.assertNotIn('@lat', said)
        self.done('tag', '--csv', 'shops.csv', '--accept', 'columns')
        self.assertEqual(
            {
                'shop': 'bakery',
                'name': 'Meier',
                'addr:street': 'Hauptstraße',
                'addr:housenumber': '1',
                'phone': '+49 1',
            },
            self.mine('n11'),
        )
        self.assertIn(
            '@lat is metadata',
            self.refused('tag', '--csv', 'shops.csv', '--columns', 'phone,@lat', code=Usage.code),
        )
        self.put('all.rules', '*\n')
        self.assertIn(
            'such as --columns phone',
            self.refused('tag', '--csv', 'shops.csv', '--tags', 'all.rules'),
        )

    def test_a_column_of_notes_is_shown_before_it_is_a_tag(self) -> None:
        self.put('shops.csv', 'key;phone;Status;Bemerkung\nn11;1;offen;x\nn12;2;offen;y\n')
        said = self.refused('tag', '--csv', 'shops.csv')
        self.assertIn('column Status     offen  (1 different, in 2 rows)', said)
        self.assertIn('--columns phone,Status,Bemerkung', said)
        self.done('tag', '--csv', 'shops.csv', '--columns', 'phone')
        self.assertEqual(['1', None], [self.mine('n11').get(key) for key in ('phone', 'Status')])

    def test_on_a_terminal_it_asks(self) -> None:
        self.put('shops.csv', 'key;phone\nn11;1\n')
        for answer, code in (('n\n', 1), ('\n', 1), ('', 1), ('y\n', 0)):
            with mock.patch('sys.stdin', io.StringIO(answer)), mock.patch(
                'yoke.formats.columns.is_terminal', lambda: True
            ):
                self.assertEqual(code, self.yoke('tag', '--csv', 'shops.csv'), answer)
            self.assertIn('Are all of them tags? [y/N]', self.err)
        self.assertEqual('1', self.mine('n11')['phone'])

    def test_columns_that_are_not_there(self) -> None:
        self.put('shops.csv', 'key;Phone\nn11;1\n')
        self.assertIn(
            'there is no column phone: did you mean Phone?',
            self.refused('tag', '--csv', 'shops.csv', '--columns', 'phone', code=Usage.code),
        )
        self.assertIn(
            'there is no column x: it has key, Phone',
            self.refused('tag', '--csv', 'shops.csv', '--columns', 'x', code=Usage.code),
        )
        self.put('odd.csv', 'key;"a, b"\nn11;1\n')
        self.assertIn('--columns \'"a, b"\'', self.refused('tag', '--csv', 'odd.csv'))
        self.done('tag', '--csv', 'odd.csv', '--columns', '"a, b"')
        self.assertEqual('1', self.mine('n11')['a, b'])

    def test_properties_of_geojson(self) -> None:
        self.put(
            'a.geojson',
            '{"type": "Feature", "properties": {"amenity": "bench", "@id": "node/1", "fid": 7}, "geometry": {"type": "Point", "coordinates": [13, 52]}}',
        )
        self.assertIn('--columns amenity,fid', self.refused('import', 'a.geojson', '--anywhere'))
        self.done('import', 'a.geojson', '--anywhere', '--columns', 'amenity')
        self.assertEqual({'amenity': 'bench'}, self.mine('n-1'))

    def test_in_a_script(self) -> None:
        self.put('shops.csv', 'key;phone;Status\nn11;1;offen\nn12;2;offen\n')
        self.put('a.script', 'tag-csv shops.csv\n')
        self.assertIn(
            'say which columns are tags, such as columns=phone,Status',
            self.refused('do', 'a.script'),
        )
        self.put('a.script', 'tag-csv shops.csv columns=phone\n')
        self.done('do', 'a.script')
        self.assertEqual(['1', None], [self.mine('n11').get(key) for key in ('phone', 'Status')])


class Rules(TableTest):
    """A rule that names no column is an error, and a column may be required."""

    def test_a_rule_that_names_no_column(self) -> None:
        self.put('a.csv', 'Strasse;Nr;lon;lat\nWeg;1;13;52\n')
        self.put('a.rules', 'addr:street = {STRASSE}\naddr:housenumber = {Nr}\n')
        self.assertIn(
            'the rules: there is no column STRASSE: did you mean Strasse?',
            self.refused('import', 'a.csv', '--anywhere', '--tags', 'a.rules', code=Usage.code),
        )
        self.put('b.csv', 'key;Strasse\nn11;Weg\n')
        self.put('b.rules', 'addr:street = {Weg}\n')
        self.assertIn(
            'there is no column Weg: it has key, Strasse',
            self.refused('tag', '--csv', 'b.csv', '--tags', 'b.rules', code=Usage.code),
        )

    def test_a_row_without_what_is_required_is_left_out(self) -> None:
        self.put('a.csv', 'Street,No,lon,lat\nWeg,1,13,52\n,2,13.1,52\nWeg,,13.2,52\n')
        self.put(
            'a.rules',
            'addr:street = {Street}\naddr:housenumber = {No}\nrequired {Street} addr:housenumber\n',
        )
        said = self.done('import', 'a.csv', '--anywhere', '--tags', 'a.rules')
        self.assertIn('features: 3 read, 1 taken, 2 left out', said)
        self.assertIn(
            'left out: line 3: Street is missing, and it is required\nleft out: line 4: addr:housenumber is missing, and it is required\n',
            said,
        )
        self.put('b.csv', 'key,Street,No\nn11,Weg,1\nn12,,2\n')
        self.assertIn(
            'b.csv:3: refused: Street is missing, and it is required',
            self.refused('tag', '--csv', 'b.csv', '--tags', 'a.rules'),
        )

    def test_lines_of_required(self) -> None:
        for text, why in [
            ('a = {x}\nrequired b', 'line 2: b is required, and no rule sets it'),
            ('amenity = {x}\nrequired amenety', 'did you mean amenity'),
            ('@id = {x}', 'line 1: no tag has a key that begins with @'),
        ]:
            with self.assertRaisesRegex(ValueError, why):
                mapping.read(text)
        self.assertEqual(('{a b}', 'k'), mapping.read('k = {a b}\nrequired {a b} k\n').required)
        self.assertEqual(
            [rule.key for rule in mapping.read('required = yes\n').rules], ['required']
        )


class Suspicious(TableTest):
    """Values that look wrong stop a table until they are accepted by name."""

    def stops(self, text: str, name: str, *said: str, words: List[str]) -> None:
        """A table stops for one thing, named so, and goes on when that is accepted."""
        self.put('a.csv', text)
        out = self.refused('tag', '--csv', 'a.csv', *words)
        self.assertIn('suspicious: ' + name, out)
        self.assertIn('--accept ' + name, out)
        for one in said:
            self.assertIn(one, out)

    def test_faults_of_a_spreadsheet(self) -> None:
        for value in (
            '#REF!',
            '#N/A',
            '#NAME?',
            '#DIV/0!',
            '#BEZUG!',
            '#NV',
            '#WERT!',
            'Err:502',
            'NULL',
            'nan',
            '####',
            '4,93E+11',
            '02. Jan',
            '3-Feb',
        ):
            self.stops(
                f'key;phone\nn11;1\nn12;{value}\n',
                'spreadsheet-errors:phone',
                f'{value} (line 3)',
                'accepted, these values go on the map as they are',
                words=['--columns', 'phone'],
            )
        self.done(
            'tag', '--csv', 'a.csv', '--columns', 'phone', '--accept', 'spreadsheet-errors:phone'
        )
        self.assertEqual('3-Feb', self.mine('n12')['phone'])

    def test_values_that_are_right(self) -> None:
        for value in (
            '#5',
            'none',
            'no',
            'A 1',
            '1E',
            'Mai',
            '12.50',
            'May Street',
            'N/A-Weg',
            'Château',
            'Łódź',
            'Straße',
            'São Paulo',
            '東京',
            'Ж',
            'Was?',
            'https://a.b/?x=1',
            '„Zum Löwen”',
            '50 °C',
            'É',
        ):
            self.put('a.csv', f'key;description\nn11;{value}\n')
            self.done('tag', '--csv', 'a.csv', '--columns', 'description')
            self.assertEqual(value, self.mine('n11')['description'])

    def test_control_characters(self) -> None:
        self.stops(
            'key;phone\nn11;"1\n2"\nn12;3\n',
            'control-characters:phone',
            '1%0a%2 (line 3)',
            words=['--columns', 'phone'],
        )
        self.assertIn(
            'a.csv:3: refused: phone: the value has the control character U+000A',
            self.refused(
                'tag', '--csv', 'a.csv', '--columns', 'phone', '--accept', 'control-characters'
            ),
        )

    def test_text_that_was_read_wrongly_before(self) -> None:
        for value, meant in (
            ('HauptstraÃŸe', 'Hauptstraße'),
            ('CafÃ©', 'Café'),
            ('Haus â€“ Hof', 'Haus – Hof'),
            ('ÐœÐ¾Ñ\x81ÐºÐ²Ð°', 'Москва'),
        ):
            self.assertEqual(meant, suspicions.reread(value))
            self.stops(
                f'key;addr:street\nn11;{value}\nn12;Süd\n',
                'mojibake:addr:street',
                f'{meant!r} was meant',
                '1 values of 2 that aren\'t ASCII',
                words=['--columns', 'addr:street', '--accept', 'control-characters'],
            )
        for value in ('Hauptstra\ufffde', 'Hauptstra?e', 'Hauptstra§e'):
            self.stops(
                f'key;addr:street\nn11;{value}\n',
                'mojibake:addr:street',
                words=['--columns', 'addr:street'],
            )

    def test_a_row_that_is_shifted_by_a_column(self) -> None:
        rows = ''.join(
            f'n{number};Weg;{number}{"a" * (number == 7)};1234{number};https://a.b/{number}\n'
            for number in range(1, 16)
        )
        columns = ['--columns', 'addr:street,addr:housenumber']
        for row in ('n16;x;Weg;5;12345\n', 'n16;5;12345;https://a.b;\n'):
            self.stops(
                'key;addr:street;addr:housenumber;addr:postcode;website\n' + rows + row,
                'shifted-row',
                'line 17: the values fit one column',
                words=columns,
            )

    def test_a_column_that_is_shifted_by_a_row(self) -> None:
        self.stops(
            'key;phone\nn11;\nn12;1\nn13;2\n;3\n',
            'shifted-column:phone',
            'line 2 has no value, and line 5 has nothing else',
            words=['--columns', 'phone', '--keep'],
        )
        self.stops(
            'key;phone\nn11;phone\nn12;1\nn13;2\n',
            'shifted-column:phone',
            'line 2 has the name of the column',
            words=['--columns', 'phone'],
        )
        self.do('tag n1 Tname=A', 'tag n2 Tname=B', 'tag n3 Tname=C', 'tag n11 Tname=D')
        self.stops(
            'key;name\nn1;New\nn2;A\nn3;B\nn11;C\n',
            'shifted-column:name',
            '3 of 4 values are those of the object in the row before',
            words=['--columns', 'name'],
        )
        self.stops(
            'key;name\nn1;B\nn2;C\nn3;D\nn11;New\n',
            'shifted-column:name',
            'in the row after',
            words=['--columns', 'name'],
        )
        self.done('tag', '--csv', 'a.csv', '--columns', 'name', '--accept', 'shifted-column')

    def test_one_value_for_all(self) -> None:
        rows = ''.join(f'n{number};Migros;shop\n' for number in (1, 2, 3, 11, 12))
        self.stops(
            'key;name;kind\n' + rows,
            'same-value:name',
            'all 5 rows get name=Migros',
            words=['--columns', 'name,kind'],
        )
        self.done('tag', '--csv', 'a.csv', '--columns', 'name,kind', '--accept', 'same-value:name')
        self.put(
            'a.csv',
            'key;brand:wikidata\n' + ''.join(f'n{number};Q1\n' for number in (1, 2, 3, 11, 12)),
        )
        self.done('tag', '--csv', 'a.csv', '--columns', 'brand:wikidata')

    def test_one_name_for_all_that_a_query_finds(self) -> None:
        said = self.refused('tag', 'name=Migros', '--find', 'Tshop=*')
        self.assertIn('suspicious: same-value:name: 5 objects would all get name=Migros', said)
        self.assertIn('an object has its own name: Meier, Huber', said)
        self.assertIn(
            'would all lose their name', self.refused('tag', 'name=', '--find', 'Tshop=*')
        )
        self.done('tag', 'opening_hours=24/7', '--find', 'Tshop=*')
        self.done('tag', 'name=Main Street', '--find', 'Tname=High%20%Street or Tname=Nobody')
        self.done('tag', 'name=Migros', '--keys', 'n13,n14')
        self.do('tag n11 Tname=Huber')
        self.done('tag', 'name=Huber & Co', '--find', 'Tname=Huber')
        self.put('a.script', 'tag ( Tshop=* ) Tname=Migros\n')
        self.assertIn('suspicious: same-value:name', self.refused('do', 'a.script'))
        self.done('do', 'a.script', '--accept', 'same-value:name')
        self.assertEqual('Migros', self.mine('n15')['name'])

    def test_words_of_accept(self) -> None:
        self.assertIn(
            'there is no same-values, did you mean same-value?',
            self.refused(
                'tag', 'a=b', '--find', 'way', '--accept', 'same-values:name', code=Usage.code
            ),
        )
        self.assertTrue(
            suspicions.Accepted.of(['mojibake,"same-value:a,b"']).takes(
                suspicions.Suspicion('same-value', 'a,b', '')
            )
        )

    def test_import_stops_too(self) -> None:
        self.put('a.csv', 'name,lon,lat\n#REF!,13,52\nB,13.1,52\n')
        self.assertIn(
            'suspicious: spreadsheet-errors:name: #REF! (line 2)',
            self.refused('import', 'a.csv', '--anywhere', '--columns', 'name'),
        )
        self.done('import', 'a.csv', '--anywhere', '--columns', 'name', '--features', '2-2')
        self.put('a.csv', 'name,lon,lat\n' + ''.join(f'A,13.{at},52\n' for at in range(1, 7)))
        self.assertIn(
            'suspicious: same-value:name',
            self.refused('import', 'a.csv', '--anywhere', '--columns', 'name'),
        )


class Encodings(TableTest):
    """What a file is, told rightly."""

    def table(self, data: bytes, *words: str) -> List[str]:
        self.put('a.csv', data)
        self.done('tag', '--csv', 'a.csv', '--columns', 'name', *words)
        return [self.mine('n11')['name'], self.mine('n12')['name']]

    def test_what_is_read(self) -> None:
        text = 'key;name\nn11;Bäcker Süß\nn12;Ärzte\n'
        for encoding in ('utf-8', 'utf-8-sig', 'utf-16', 'utf-32'):
            self.assertEqual(['Bäcker Süß', 'Ärzte'], self.table(text.encode(encoding)), encoding)
        for encoding in ('cp1252', 'utf-16-le', 'cp850', 'mac-roman'):
            self.assertEqual(
                ['Bäcker Süß', 'Ärzte'],
                self.table(text.encode(encoding), '--encoding', encoding),
                encoding,
            )
        self.assertEqual(
            ['Bäcker Süß', 'Ärzte'],
            self.table(
                'key;name\nn11;Bäcker Süß\n'.encode() + 'n12;Ärzte\n'.encode('cp1252'),
                '--encoding',
                'mixed',
            ),
        )

    def test_what_is_told(self) -> None:
        text = 'key;name\nn11;Bäcker Süß\nn12;Ärzte\n'
        workbook = io.BytesIO()
        with zipfile.ZipFile(workbook, 'w') as archive:
            archive.writestr('xl/workbook.xml', '')
        shapes = io.BytesIO()
        with zipfile.ZipFile(shapes, 'w') as archive:
            archive.writestr('a.shp', '')
        for data, said in [
            (
                text.encode('cp1252'),
                'it isn\'t UTF-8, first in line 2, which reads as cp1252 \'Bäcker Süß\'',
            ),
            (text.encode('cp850'), 'such as --encoding cp850'),
            (
                'key;name\nn11;Bäcker\n'.encode() + 'n12;Ärzte\nn13;Öl\n'.encode('cp1252'),
                'it is mixed: lines 3, 4 aren\'t UTF-8, and line 2 is. Mend them, or pass --encoding mixed',
            ),
            (
                text.encode('utf-16-be'),
                'it looks like UTF-16 without a byte order mark: pass --encoding utf-16-be',
            ),
            (workbook.getvalue(), 'it is an Excel workbook (.xlsx): save the sheet as "CSV UTF-8"'),
            (shapes.getvalue(), 'a zip archive with a Shapefile'),
            (
                gzip.compress(text.encode()),
                'it is compressed by gzip: give it a name that ends in .gz',
            ),
            (b'\xd0\xcf\x11\xe0\xa1\xb1', '(.xls)'),
            (b'<!DOCTYPE html><html>', 'it is a web page'),
            (b'SQLite format 3\0', 'GeoPackage'),
            (b'\xff\xfeabc', 'it begins as utf-16 and isn\'t'),
        ]:
            self.put('a.csv', data)
            self.assertIn(
                'a.csv: ' + said if said.startswith('it') else said,
                self.refused('tag', '--csv', 'a.csv', code=Trouble.code),
            )
            self.assertIn(said, self.refused('import', 'a.csv', code=Trouble.code))

    def test_a_named_encoding(self) -> None:
        self.put('a.csv', 'key;name\nn11;Bäcker Süß\n'.encode('utf-8-sig'))
        self.assertIn(
            'it begins with the byte order mark of utf-8',
            self.refused('tag', '--csv', 'a.csv', '--encoding', 'cp1252', code=Trouble.code),
        )
        self.assertIn(
            'there is no encoding cp1252x: did you mean cp1252?',
            self.refused('tag', '--csv', 'a.csv', '--encoding', 'cp1252x', code=Trouble.code),
        )
        self.put('a.csv', 'key;name\nn11;Bäcker Süß\n'.encode())
        self.assertIn(
            'mojibake:name',
            self.refused('tag', '--csv', 'a.csv', '--encoding', 'cp1252', '--columns', 'name'),
        )
        self.put('a.csv', b'key;name\nn11;\x81\n')
        self.assertIn(
            'it isn\'t cp1252: line 2 isn\'t',
            self.refused('tag', '--csv', 'a.csv', '--encoding', 'cp1252', code=Trouble.code),
        )

    def test_the_sign_between_fields(self) -> None:
        for text, names in [
            ('"a,b,c";d\n1;2\n', ['a,b,c', 'd']),
            ('sep=;\na,b;c\n1;2\n', ['a,b', 'c']),
            ('a;b\r1;2\r', ['a', 'b']),
            ('\n\n"x\n,,";y\n1;2\n', ['x\n,,', 'y']),
        ]:
            self.assertEqual(names, features.read_rows(text.encode())[0], text)


class Search(TableTest):
    """Rows find their objects by tags, with a guard by the old value."""

    ROWS = 'Street;No;Shop;lon;lat\nHauptstraße;2;Huber;13.002;52.001\nAm Markt;3;Kiosk;13.00302;52.001\nHauptstr.;2;x;13;52\nHauptstraße;1;Meier;13.001;52.001\nNirgends;9;y;13;52\n'
    WHERE = (
        '--where',
        'addr:street={Street}',
        '--where',
        'addr:housenumber={No}',
        '--columns',
        'phone',
    )

    def setUp(self) -> None:
        super().setUp()
        rows = self.ROWS.splitlines()
        self.put(
            'a.csv',
            '\n'.join([rows[0] + ';phone', *(f'{row};{at}' for at, row in enumerate(rows[1:], 1))])
            + '\n',
        )

    def test_none_one_and_several(self) -> None:
        said = self.done('tag', '--csv', 'a.csv', *self.WHERE)
        self.assertIn('rows that found one object: 1; none: 2; several: 2\n', said)
        self.assertIn(
            'none: line 4: spelt otherwise: n12\nnone: line 6: Nirgends, 9, y, 13, 52, 5\n', said
        )
        self.assertIn('several: line 3: n13 n14\nseveral: line 5: n11 n15\n', said)
        self.assertIn('1 of 5 rows taken', said)
        self.assertEqual(
            [None, '1', None, None, None],
            [self.mine(f'n{number}').get('phone') for number in range(11, 16)],
        )

    def test_near_a_place(self) -> None:
        said = self.done('tag', '--csv', 'a.csv', *self.WHERE, '--within', '500')
        self.assertIn('rows that found one object: 2; none: 2; several: 1\n', said)
        self.assertEqual(['4', None], [self.mine(key).get('phone') for key in ('n11', 'n15')])
        said = self.done('tag', '--csv', 'a.csv', *self.WHERE, '--within', '2')
        self.assertIn('rows that found one object: 3; none: 2; several: 0\n', said)
        self.assertEqual(['2', None], [self.mine(key).get('phone') for key in ('n13', 'n14')])

    def test_the_lists_are_files(self) -> None:
        self.done('tag', '--csv', 'a.csv', *self.WHERE, '--lists', 'found')
        rows = {
            name: list(
                csv.reader(
                    pathlib.Path(f'found-{name}.csv').read_text().splitlines(), delimiter=';'
                )
            )
            for name in ('one', 'none', 'several', 'changed')
        }
        self.assertEqual(
            ['yoke:line', 'yoke:found', 'Street', 'No', 'Shop', 'lon', 'lat', 'phone'],
            rows['none'][0],
        )
        self.assertEqual(
            {'one': 1, 'none': 2, 'several': 2, 'changed': 0},
            {name: len(found) - 1 for name, found in rows.items()},
        )
        self.assertEqual(
            ['2', 'n12', 'Hauptstraße', '2', 'Huber', '13.002', '52.001', '1'], rows['one'][1]
        )
        self.put('other-none.csv', 'mine')
        self.assertIn(
            'other-none.csv is there, and wasn\'t written by yoke',
            self.refused('tag', '--csv', 'a.csv', *self.WHERE, '--lists', 'other'),
        )
        self.put('b-none.csv', pathlib.Path('a.csv').read_bytes())
        self.assertIn(
            'it is read by the same command',
            self.refused('tag', '--csv', 'b-none.csv', *self.WHERE, '--lists', 'b'),
        )

    def test_only_if_it_is_still_so(self) -> None:
        self.put(
            'b.csv',
            'key;old:name;name\nn11;Meier;Meier & Söhne\nn12;Hubert;Huber GmbH\nn13;;Kiosk am Markt\nn15;;Schuh\n',
        )
        said = self.done('tag', '--csv', 'b.csv', '--columns', 'name')
        self.assertIn(
            'rows whose object has changed: 2\nchanged: line 3: n12: name is Huber, and not Hubert any more\n'
            'changed: line 5: n15: name is Schmidt, and not unset any more\n',
            said,
        )
        self.assertIn('overwritten: name of 1 object: n11 Meier -> Meier & Söhne\n', said)
        self.assertEqual(
            ['Meier & Söhne', 'Huber', 'Kiosk am Markt', 'Schmidt'],
            [self.mine(key)['name'] for key in ('n11', 'n12', 'n13', 'n15')],
        )
        self.put('b.csv', 'key;Now;Name\nn12;Huber;Huber GmbH\nn15;Schmid;Schuh\n')
        self.put('b.rules', 'name = {Name}\n')
        self.done('tag', '--csv', 'b.csv', '--tags', 'b.rules', '--only-if-still', 'name={Now}')
        self.assertEqual(
            ['Huber GmbH', 'Schmidt'], [self.mine(key)['name'] for key in ('n12', 'n15')]
        )
        self.assertIn(
            'no row is left to do',
            self.refused(
                'tag', '--csv', 'b.csv', '--tags', 'b.rules', '--only-if-still', 'name=Nobody'
            ),
        )

    def test_what_is_overwritten_is_said(self) -> None:
        self.put('b.csv', 'key;name\nn11;A\nn12;B\nn15;Schmidt\n')
        self.assertIn(
            'overwritten: name of 2 objects: n11 Meier -> A, n12 Huber -> B\n',
            self.done('tag', '--csv', 'b.csv', '--columns', 'name'),
        )

    def test_in_a_script(self) -> None:
        self.put('b.csv', 'key;old:name;name\nn11;Meier;Meier & Söhne\nn12;Hubert;Huber GmbH\n')
        self.put('a.script', 'tag-csv b.csv columns=name\n')
        self.assertIn(
            'rows whose object has changed, and that are left out: 1', self.done('do', 'a.script')
        )
        self.assertEqual(
            ['Meier & Söhne', 'Huber'], [self.mine(key)['name'] for key in ('n11', 'n12')]
        )

    def test_two_rows_that_find_the_same_object(self) -> None:
        self.put('b.csv', 'S;phone\nHuber;1\nHuber;2\n')
        self.assertIn(
            'b.csv:3: refused: n12 stands in line 2 already, with other values',
            self.refused('tag', '--csv', 'b.csv', '--where', 'name={S}', '--columns', 'phone'),
        )

    def test_the_same_table_again_has_no_changed_rows(self) -> None:
        self.put('b.csv', 'key;old:phone;phone\nn11;;7\n')
        self.done('tag', '--csv', 'b.csv', '--columns', 'phone')
        self.refused('tag', '--csv', 'b.csv', '--columns', 'phone')
        self.assertNotIn('changed', self.out)

    def test_a_row_that_stands_twice_is_taken_once(self) -> None:
        self.put('b.csv', 'S;phone\nHuber;1\nHuber;1\n')
        out = self.done('tag', '--csv', 'b.csv', '--where', 'name={S}', '--columns', 'phone')
        self.assertIn('repeated, and taken once: line 3 is line 2 again', out)
        self.assertIn('1 of 2 rows taken', out)

    def test_places_in_the_columns_of_overpass(self) -> None:
        self.put('b.csv', 'S;phone;@lat;@lon\nHuber;1;0;0\n')
        words = (
            'tag',
            '--csv',
            'b.csv',
            '--where',
            'name={S}',
            '--columns',
            'phone',
            '--within',
            '5',
        )
        self.assertIn('none: line 2', self.yoke(*words) and self.out)

    def test_among_what_a_query_finds(self) -> None:
        self.put('b.csv', 'S;phone\nHauptstraße;1\n')
        words = ('tag', '--csv', 'b.csv', '--where', 'addr:street={S}', '--columns', 'phone')
        self.assertIn('no row is left to do', self.refused(*words))
        self.done(*words, '--among', 'Tshop=butcher')
        self.assertEqual('1', self.mine('n12')['phone'])

    def test_words(self) -> None:
        for words, said in [
            (['--where', 'a'], 'wants KEY=VALUE'),
            (['--where', 'a={'], 'a brace by itself'),
            (['--where', 'a={x}'], 'there is no column x'),
            (['--where', 'a=1', '--key', 'Street'], '--key or --where'),
            (['--within', '5'], 'go with --where'),
            (['--where', 'a=1', '--within', '-1'], 'a number of metres'),
            (['--where', 'a=*', '--only-if-still', 'name'], 'wants KEY=VALUE'),
        ]:
            self.assertIn(
                said,
                self.refused(
                    'tag', '--csv', 'a.csv', '--columns', 'phone', *words, code=Usage.code
                ),
                words,
            )
        self.assertIn(
            '--where is of a table',
            self.refused('tag', 'a=b', '--keys', 'n1', '--where', 'a=b', code=Usage.code),
        )

    def test_distances(self) -> None:
        from yoke import table

        found = table.read(self.day.last().text())
        self.assertAlmostEqual(111.3, row_search.distance(found, 'w5', (13.002, 52.001)), delta=0.2)
        self.assertAlmostEqual(0, row_search.distance(found, 'n11', (13.001, 52.001)))
        self.assertEqual(
            [True, True, False],
            [
                row_search.fold(one) == row_search.fold('Hauptstraße')
                for one in ('haupt-strasse', 'Hauptstr.', 'Haupt')
            ],
        )


if __name__ == '__main__':
    unittest.main()
