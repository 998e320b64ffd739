"""GeoJSON and CSV, as files of cities have them, made new objects for an `import`."""
import json
import unittest
from collections import Counter
from decimal import Decimal

from yoke.formats import drawing, features, mapping
from yoke.tests import sessions

HOUSES = b"""\xef\xbb\xbf{"type": "FeatureCollection", "name": "houses",
"crs": {"type": "name", "properties": {"name": "urn:ogc:def:crs:OGC:1.3:CRS84"}},
"features": [
{"type": "Feature", "properties": {"building": "house", "addr:housenumber": "1 ", "levels": 2, "height": 7.50, "flat": false, "note": null, "who": ["a"]},
 "geometry": {"type": "Polygon", "coordinates": [[[13.1, 52.1], [13.1002, 52.1], [13.100200000001, 52.1002, 34.5], [13.1, 52.1002], [13.1, 52.1]]]}},
{"type": "Feature", "properties": {"building": "terrace", "addr:city": " Neubrandenburg\\t"},
 "geometry": {"type": "MultiPolygon", "coordinates": [[[[13.1002, 52.1], [13.1004, 52.1], [13.1004, 52.1002], [13.1002, 52.1002]]]]}},
{"type": "Feature", "properties": {"building": "yes"},
 "geometry": {"type": "Polygon", "coordinates": [[[13.2, 52.2], [13.203, 52.2], [13.203, 52.203], [13.2, 52.203], [13.2, 52.2]],
                                                 [[13.201, 52.201], [13.201, 52.202], [13.202, 52.202], [13.201, 52.201]]]}},
{"type": "Feature", "properties": {"building": "yes"}, "geometry": null},
{"type": "Feature", "properties": {"highway": "path"}, "geometry": {"type": "LineString", "coordinates": [[13.1, 52.1], [13.1, 52.1], [13.0, 52.0]]}},
{"type": "Feature", "properties": {"entrance": "yes"}, "geometry": {"type": "Point", "coordinates": [13.1, 52.1]}},
{"type": "Feature", "properties": {"amenity": "bench"}, "geometry": {"type": "Point", "coordinates": [52.1, 13.1]}}
]}
"""

ADDRESSES = (
    '\ufeffHNR;STR;LON;LAT;ZUS;ART\r\n12;Hohe Straße;13,1;52,1;a;Wohnhaus\r\n 14 ;"Am ""Markt""; Ost";13.10001;52.10001;;Garage\r\n;Weg;13.2;52.2;b;Turm\r\n'
    '15;Weg;13.2;;;\r\n16;Weg;13.2\r\n\r\n17;Weg;52.1;13.1;;Turm\r\n'
)

RULES = """\
# addresses of the town
addr:street = {STR}
addr:housenumber = {HNR}{ZUS}
building = {ART|Wohnhaus=house|Garage=garage}
source = Town, {{2024}}
"""


def drawn(found, rules=None, **options):
    picture = drawing.Drawing(mapping.read(rules) if rules else mapping.Mapping(), **options)
    for feature in found:
        picture.add(feature)
    return picture


def geojson(*geometries, **properties):
    """The bytes of a FeatureCollection of geometries, all with the same properties."""
    collection = {
        'type': 'FeatureCollection',
        'features': [
            {'type': 'Feature', 'geometry': one, 'properties': properties or {'a': 'b'}}
            for one in geometries
        ],
    }
    return json.dumps(collection).encode()


def shape(kind, coordinates):
    return {'type': kind, 'coordinates': coordinates}


class GeoJson(unittest.TestCase):
    def test_houses_of_a_city(self):
        picture = drawn(features.read_geojson(HOUSES), within=drawing.box_of('13,52,14,53'))
        self.assertEqual(
            list(picture.lines()),
            [
                'n-1 Tentrance=yes x13.1 y52.1',
                'n-2 T x13.1002 y52.1',
                'n-3 T x13.1002 y52.1002',
                'n-4 T x13.1 y52.1002',
                'n-6 T x13.1004 y52.1',
                'n-7 T x13.1004 y52.1002',
                'n-9 T x13.2 y52.2',
                'n-10 T x13.203 y52.2',
                'n-11 T x13.203 y52.203',
                'n-12 T x13.2 y52.203',
                'n-14 T x13.201 y52.201',
                'n-15 T x13.201 y52.202',
                'n-16 T x13.202 y52.202',
                'n-19 T x13 y52',
                'w-5 Tbuilding=house,addr:housenumber=1,levels=2,height=7.5,flat=no Nn-1,n-2,n-3,n-4,n-1',
                'w-8 Tbuilding=terrace,addr:city=Neubrandenburg Nn-2,n-6,n-7,n-3,n-2',
                'w-13 T Nn-9,n-10,n-11,n-12,n-9',
                'w-17 T Nn-14,n-15,n-16,n-14',
                'w-20 Thighway=path Nn-1,n-19',
                'r-18 Ttype=multipolygon,building=yes Mw-13@outer,w-17@inner',
            ],
        )
        self.assertEqual(
            list(picture.report()),
            [
                'features: 7 read, 5 taken, 2 left out',
                'objects: 14 nodes, 5 ways, 1 relations',
                'note: who is a list or an object: 1',
                'note: corners that are shared: 3',
                'note: points that lie at a corner of another feature, and are that corner: 1',
                'left out: feature 4: it has no geometry',
                'left out: feature 7: it lies outside the bounds, at longitude 52.1 and latitude 13.1: exchanged they would lie in them',
            ],
        )

    def test_the_program_takes_it(self):
        picture = drawn(features.read_geojson(HOUSES))
        output = sessions.ran(
            ['import new.opl', 'check', 'count'],
            new_opl=''.join(line + '\n' for line in picture.lines()),
        )
        self.assertEqual((output.text('check'), output.counts()['changed']), (['check 0'], 21))

    def test_what_is_left_out_leaves_nothing(self):
        ring = [[1, 1], [2, 1], [2, 2], [1, 2], [1, 1]]
        for geometry, why in [
            (shape('LineString', [[1, 1]]), 'a line of fewer than two places'),
            (shape('LineString', [[1, 1], [1, 1.00000001]]), 'a line of fewer than two places'),
            (shape('Polygon', [[[1, 1], [2, 2], [1, 1]]]), 'a ring of fewer than three places'),
            (
                shape('Polygon', [ring, [[1.1, 1.1], [1.2, 1.2], [190, 1]]]),
                'it lies off the map, at longitude 190 and latitude 1',
            ),
            (shape('Polygon', [ring, []]), 'its coordinates are none'),
            (shape('Polygon', []), 'its coordinates are none'),
            (
                shape('LineString', [[1, 1 + n / 10000] for n in range(2001)]),
                'a line of 2001 places, and a way takes 2000',
            ),
            (
                shape('MultiPoint', [[1, 1], [2, 2]]),
                'it has several points, and an object of the map is at one',
            ),
            (
                {'type': 'GeometryCollection', 'geometries': []},
                'the geometry GeometryCollection is none that is taken',
            ),
            (shape('Point', [1]), 'a place is none: [1]'),
            (shape('Point', ['1', '2']), "a place is none: ['1', '2']"),
            (shape('Point', [True, 2]), 'a place is none: [True, 2]'),
            (shape('Point', None), 'a place is none: None'),
            (
                shape('Point', [385000.5, 5937000]),
                'it lies off the map, at 385000.5 and 5937000: are these degrees?',
            ),
            ({'type': 7}, 'its geometry is none'),
            (shape('Point', [float('nan'), 2]), 'a place is none: [None, Decimal'),
        ]:
            picture = drawn(features.read_geojson(geojson(geometry).replace(b'"b"', b'"b"')))
            self.assertEqual((list(picture.lines()), picture.taken), ([], 0))
            self.assertTrue(
                picture.left[0][1].startswith(why.split(', Decimal')[0]), (picture.left, why)
            )

    def test_shapes(self):
        ring = [[1, 1], [2, 1], [2, 2], [1, 2]]
        other = [[3, 3], [4, 3], [4, 4]]
        picture = drawn(
            features.read_geojson(
                geojson(
                    shape('MultiPoint', [[1, 1]]),
                    shape('MultiLineString', [[[5, 5], [6, 6]], [[6, 6], [7, 7]]]),
                    shape('MultiPolygon', [[ring], [other]]),
                    shape('LineString', [[8, 8], [9, 9], [8, 9], [8, 8]]),
                )
            )
        )
        self.assertEqual(
            [line.split(' ', 1)[1] for line in picture.lines()][-6:],
            [
                'Ta=b Nn-2,n-3',
                'Ta=b Nn-3,n-5',
                'T Nn-1,n-7,n-8,n-9,n-1',
                'T Nn-11,n-12,n-13,n-11',
                'Ta=b Nn-16,n-17,n-18,n-16',
                'Ttype=multipolygon,a=b Mw-10@outer,w-14@outer',
            ],
        )
        self.assertEqual(
            drawn(
                features.read_geojson(geojson(shape('Polygon', [ring, other[::-1]]), type='site'))
            ).left,
            [('feature 1', 'the tag type=site is in the way of type=multipolygon')],
        )

    def test_collections_within_collections(self):
        point, other = shape('Point', [1, 1]), shape('Point', [2, 2])
        nested = {
            'type': 'FeatureCollection',
            'features': [json.loads(geojson(point)), json.loads(geojson(other))],
        }
        found = features.read_geojson(json.dumps(nested).encode())
        self.assertEqual(
            [('feature 1', 'Point', 1), ('feature 2', 'Point', 2)],
            [(one.where, one.kind, one.number) for one in found],
        )
        self.assertEqual(
            found,
            features.read_geojson(
                geojson(point).replace(b'\n', b' ') + b'\n' + geojson(other).replace(b'\n', b' ')
            ),
        )

        def collection(*parts):
            return {'type': 'GeometryCollection', 'geometries': list(parts)}

        self.assertEqual(
            2, drawn(features.read_geojson(geojson(collection(collection(point)), other))).taken
        )
        self.assertEqual(
            [('feature 1', 'its geometry is a collection of 2: make a feature of each of them')],
            drawn(features.read_geojson(geojson(collection(point, other)))).left,
        )
        for bad in (
            collection(7),
            collection({'type': 7}),
            collection(collection()),
            collection(nested),
        ):
            self.assertEqual(0, drawn(features.read_geojson(geojson(bad))).taken)
        with self.assertRaisesRegex(ValueError, 'a FeatureCollection without "features"'):
            features.read_geojson(
                json.dumps(
                    {'type': 'FeatureCollection', 'features': [{'type': 'FeatureCollection'}]}
                ).encode()
            )
        for deep in ('[' * 100_000, '{"type": "GeometryCollection", "geometries": [' * 50_000):
            with self.assertRaisesRegex(ValueError, 'nested too deeply'):
                features.read_geojson(deep.encode())

    def test_a_system_of_coordinates_that_is_none(self):
        for system in ([1], 7, {'properties': [1]}, {'properties': None}):
            text = {'type': 'FeatureCollection', 'crs': system, 'features': []}
            self.assertEqual([], features.read_geojson(json.dumps(text).encode()))

    def test_what_stands_twice_comes_once(self):
        point, ring = shape('Point', [1, 1]), shape('Polygon', [[[1, 1], [2, 1], [2, 2], [1, 1]]])
        picture = drawn(features.read_geojson(geojson(point, ring, point, ring)))
        self.assertEqual(
            picture.left,
            [
                ('feature 3', 'it is the same as feature 1'),
                ('feature 4', 'it is the same as feature 2'),
            ],
        )
        two = features.read_geojson(geojson(point, x='1')) + features.read_geojson(
            geojson(point, x='2')
        )
        self.assertEqual(list(drawn(two).lines()), ['n-1 Tx=1 x1 y1', 'n-2 Tx=2 x1 y1'])
        self.assertEqual(
            dict(drawn(two).notes), {'points that lie where another node lies, and stay apart': 1}
        )

    def test_what_is_a_metre_away_with_the_same_tags_comes_once(self):
        rows = (
            'name,amenity,lon,lat\nNeu,cafe,13.008,52.001009\nNeu,cafe,13.008,52.0010091\nZwei,cafe,13.0085,52.001\nZwei,cafe,13.0085,52.001005\n'
            'Zwei,bar,13.0085,52.001005\nZwei,cafe,13.0085,52.00101\nZwei,cafe,13.00852,52.001\n'
        )
        found = features.read_csv(rows.encode())
        picture = drawn(found, earlier=drawing.Earlier())
        self.assertEqual(
            picture.left,
            [
                ('line 3', 'it is the same as line 2, 0.01 m away'),
                ('line 5', 'it is the same as line 4, 0.56 m away'),
            ],
        )
        self.assertEqual(drawn(found).taken, 7)
        ring = [[13, 52], [13.001, 52], [13.001, 52.001], [13, 52]]
        moved = [[lon, lat + 0.000001] for lon, lat in ring[1:] + ring[1:2]]
        beside = [[13, 52], [13.001, 52.001], [13, 52.001], [13, 52]]
        picture = drawn(
            features.read_geojson(
                geojson(*(shape('Polygon', [one]) for one in (ring, moved, beside)))
            ),
            earlier=drawing.Earlier(),
        )
        self.assertEqual(picture.left, [('feature 2', 'it is the same as feature 1, 0.11 m away')])

    def test_a_line_a_metre_away_with_the_same_tags_comes_once(self):
        line = [[13, 52], [13.001, 52.001], [13.002, 52]]
        back = [[lon, lat + 0.000002] for lon, lat in reversed(line)]
        finer = [[13, 52], [13.0005, 52.0005], [13.001, 52.001], [13.0015, 52.000501], [13.002, 52]]
        others = (
            [[13, 52], [13.002, 52]],
            line[:2],
            line[1:] + [[13, 52]],
            [[lon, lat + 0.00002] for lon, lat in line],
        )
        picture = drawn(
            features.read_geojson(
                geojson(*(shape('LineString', one) for one in (line, back, finer, *others)))
            ),
            earlier=drawing.Earlier(),
        )
        self.assertEqual(
            [
                ('feature 2', 'it is the same as feature 1, 0.22 m away'),
                ('feature 3', 'it is the same as feature 1, 0.06 m away'),
            ],
            picture.left,
        )
        other = features.read_geojson(
            geojson(shape('LineString', line), x='1')
        ) + features.read_geojson(geojson(shape('LineString', back), x='2'))
        self.assertEqual([], drawn(other, earlier=drawing.Earlier()).left)

    def test_lines_of_several_parts_a_metre_away_come_once(self):
        one, two = [[13, 52], [13.001, 52.001]], [[13.002, 52], [13.003, 52]]
        moved, far = ([[lon, lat + by] for lon, lat in two] for by in (0.000002, 0.0001))
        found = features.read_geojson(
            geojson(
                *(
                    shape('MultiLineString', lines)
                    for lines in ([one, two], [one, moved], [one, far])
                )
            )
        )
        self.assertEqual(
            [('feature 2', 'it is the same as feature 1, 0.22 m away')],
            drawn(found, earlier=drawing.Earlier()).left,
        )

    def test_short_pieces_of_a_line_are_no_doubles(self):
        places = [[13 + at * 0.00001, 52] for at in range(4)]  # 0.7 m apart
        pieces = [shape('LineString', places[at : at + 2]) for at in range(3)]
        self.assertEqual(
            [], drawn(features.read_geojson(geojson(*pieces)), earlier=drawing.Earlier()).left
        )

    def test_corners_that_the_session_has(self):
        picture = drawn(
            features.read_geojson(
                geojson(
                    shape('LineString', [[1, 1], [2, 2]]), shape('LineString', [[1, 1], [3, 3]])
                )
            ),
            nodes_there={(10**7, 10**7): 'n5'},
        )
        self.assertEqual(
            list(picture.lines()),
            ['n-1 T x2 y2', 'n-3 T x3 y3', 'w-2 Ta=b Nn5,n-1', 'w-4 Ta=b Nn5,n-3'],
        )
        self.assertEqual(
            dict(picture.notes),
            {'corners that are nodes of the session': 1, 'corners that are shared': 1},
        )

    def test_what_the_session_has_is_left_out(self):
        found = features.read_geojson(HOUSES) + features.read_geojson(
            geojson(
                shape('MultiLineString', [[[1, 1], [2, 2]], [[3, 3], [4, 4]]]),
                shape(
                    'MultiPolygon',
                    [
                        [[[5, 5], [6, 5], [6, 6]]],
                        [[[7, 7], [8, 7], [8, 8]], [[7.5, 7.2], [7.6, 7.2], [7.6, 7.3]]],
                    ],
                ),
            )
        )
        lines = list(drawn(found).lines())
        again = sessions.opened(['import new.opl'], new_opl=''.join(line + '\n' for line in lines))
        shapes = drawing.shapes_of(again)
        picture = drawn(found, there=shapes)
        self.assertEqual((picture.taken, list(picture.lines())), (0, []))
        keys = {
            why.rsplit(' ', 1)[1]
            for _, why in picture.left
            if why.startswith('the session has it already, as ')
        }
        self.assertEqual(len(keys), 8)
        self.assertTrue(any(',' in key for key in keys))
        self.assertEqual(
            drawn(
                features.read_geojson(HOUSES.replace(b'"terrace"', b'"house"')), there=shapes
            ).taken,
            1,
        )
        self.assertEqual(
            drawn(
                features.read_geojson(HOUSES.replace(b'[13.1004, 52.1]', b'[13.1005, 52.1]')),
                there=shapes,
            ).taken,
            1,
        )

    def test_objects_that_no_import_makes_have_no_shape(self):
        found = sessions.opened(
            ['download town.opl'],
            town_opl='n1 v1 T x1 y1\nn2 v1 Ta=b x2 y2\nw1 v1 Ta=b Nn1,n9\nw2 v1 Nn1,n2\nr1 v1 Ttype=multipolygon Mw1@outer,w9@inner\n'
            'r2 v1 Ttype=multipolygon,a=b Mn1@\nr3 v1 Ttype=multipolygon,a=b M\nn3 v2 dD\n',
        )
        self.assertEqual(
            {key for (kind, _, _), key in drawing.shapes_of(found).items() if kind != 'LineString'},
            {'n2', 'r3'},
        )

    def test_latitude_first(self):
        picture = drawn(
            features.read_geojson(geojson(shape('Point', [52.1, 13.1]))),
            latitude_first=True,
            within=drawing.box_of('13,52,14,53'),
        )
        self.assertEqual(list(picture.lines()), ['n-1 Ta=b x13.1 y52.1'])

    def test_texts(self):
        for properties, why in [
            ({'note': 'x' * 256}, 'note: the value has 256 characters, and the map takes 255'),
            ({'n' * 256: 'x'}, 'n' * 40 + ': the key has 256 characters'),
            ({'note': 'a\nb'}, 'note: the value has the control character U+000A'),
            ({'a\u0001': 'b'}, 'a?: the key has the control character U+0001'),
            ({'note': '\ud800'}, 'note: the value has the control character U+D800'),
            ({'a ': 'b', 'a': 'c'}, 'the tag a would stand twice'),
            ({' ': 'b'}, 'a property has no name'),
            ({'note': ' ', 'x': None, 'y': {}, 'z': []}, 'it has no tags'),
        ]:
            picture = drawn(features.read_geojson(geojson(shape('Point', [1, 1]), **properties)))
            self.assertTrue(
                picture.left and picture.left[0][1].startswith(why), (picture.left, why)
            )
            self.assertEqual(list(picture.lines()), [])
        found = drawn(
            features.read_geojson(
                geojson(
                    shape('Point', [1, 1]),
                    **{
                        'a b': 'é' * 255,
                        'n': 12345678901234567890,
                        'f': 1e-7,
                        'g': 1e20,
                        'z': 0,
                        'b': True,
                        'u': ' x\u00a0',
                    },
                )
            )
        )
        self.assertEqual(
            found.nodes['n-1'][1],
            {
                'a b': 'é' * 255,
                'n': '12345678901234567890',
                'f': '0.0000001',
                'g': '100000000000000000000',
                'z': '0',
                'b': 'yes',
                'u': 'x',
            },
        )

    def test_files_that_are_none(self):
        for data, why in [
            (b'', 'it is no JSON'),
            (b'[]', 'it is no GeoJSON: a "type" is missing'),
            (b'{"type": "FeatureCollection"}', 'without "features"'),
            (b'{', 'it is no JSON'),
            (b'\xff\xfe{', "it begins as utf-16 and isn't, from byte 2 on"),
            (b'{"a": "\xfc"}', "it isn't UTF-8, first in line 1, which reads as cp1252"),
            (
                b'{"type": "FeatureCollection", "crs": {"properties": {"name": "urn:ogc:def:crs:EPSG::25833"}}, "features": []}',
                'EPSG::25833, and degrees are wanted',
            ),
        ]:
            with self.assertRaisesRegex(ValueError, why):
                features.read_geojson(data)

    def test_other_forms_of_files(self):
        one = b'{"type": "Feature", "properties": {"a": 1}, "geometry": {"type": "Point", "coordinates": [1, 2]}}'
        self.assertEqual([feature.coordinates for feature in features.read_geojson(one)], [[1, 2]])
        self.assertEqual(
            [feature.where for feature in features.read_geojson(one + b'\n\x1e' + one + b'\r\n')],
            ['feature 1', 'feature 2'],
        )
        self.assertEqual(
            drawn(features.read_geojson(b'{"type": "Point", "coordinates": [1, 2]}')).left,
            [('feature 1', 'it has no tags')],
        )
        for bad, why in [
            (one.replace(b'"a": 1', b'"a": 1, "a": 2'), 'the property a stands twice'),
            (one.replace(b'{"a": 1}', b'[1]'), 'its properties are no names with values'),
            (b'{"type": "FeatureCollection", "features": [7]}', 'it is no feature'),
        ]:
            self.assertEqual(features.read_geojson(bad)[0].problem, why)


class Csv(unittest.TestCase):
    def test_addresses_of_a_city(self):
        picture = drawn(
            features.read_csv(ADDRESSES.encode()), RULES, within=drawing.box_of('13,52,14,53')
        )
        self.assertEqual(
            list(picture.lines()),
            [
                'n-1 Taddr:street=Hohe%20%Straße,addr:housenumber=12a,building=house,source=Town%2c%%20%{2024} x13.1 y52.1',
                'n-2 Taddr:street=Am%20%"Markt";%20%Ost,addr:housenumber=14,building=garage,source=Town%2c%%20%{2024} x13.10001 y52.10001',
                'n-3 Taddr:street=Weg,source=Town%2c%%20%{2024} x13.2 y52.2',
            ],
        )
        self.assertEqual(
            list(picture.report())[2:],
            [
                'note: ART Turm has no rule: 1',
                'left out: line 5: LON 13.2 LAT (nothing) is no place',
                'left out: line 6: it has 3 fields, and the first line has 6',
                'left out: line 8: it lies outside the bounds, at longitude 52.1 and latitude 13.1: exchanged they would lie in them',
            ],
        )

    def test_columns(self):
        data = b'name,breite,laenge\nWell,52.123456789012,13.1\n'
        picture = drawn(features.read_csv(data, 'laenge', 'breite'))
        self.assertEqual(list(picture.lines()), ['n-1 Tname=Well x13.1 y52.1234568'])
        for data, why in [
            (
                data,
                'there is no column of the longitude, which --lon names: it has name, breite, laenge',
            ),
            (b'', 'it is empty'),
            (b'a,a,lon,lat\n', 'the column a stands twice'),
            (b'lon,lat,a\n1,2,"x\n', 'line 2: unexpected end of data'),
        ]:
            with self.assertRaisesRegex(ValueError, why):
                features.read_csv(data)
        with self.assertRaisesRegex(ValueError, 'there is no column x'):
            features.read_csv(b'lon,lat\n', 'x')

    def test_other_signs(self):
        for sign in ',;\t|':
            data = (
                sign.join(['name', 'Lat', 'LNG'])
                + '\n'
                + sign.join([f'"a{sign}b"', '52.5', '13'])
                + '\n'
            )
            self.assertEqual(
                [feature.properties for feature in features.read_csv(data.encode())],
                [{'name': f'a{sign}b'}],
            )


class Rules(unittest.TestCase):
    def tags(self, rules, **properties):
        return mapping.read(rules).tags(properties, Counter())

    def test_rules(self):
        self.assertEqual(self.tags('a = {x}{y}-{z}\n', x=1, y=None, z=' q '), {'a': '1-q'})
        self.assertEqual(self.tags('a = {x}{y}\n', y=2), {})
        self.assertEqual(self.tags('a = b=c # d\r\n\r\n', x=1), {'a': 'b=c # d'})
        self.assertEqual(self.tags('a = {x|1=one|*=many}\n*', x=7, y=2), {'a': 'many', 'y': '2'})
        self.assertEqual(self.tags('*', x=Decimal('1.50')), {'x': '1.5'})
        self.assertEqual(self.tags('a = {x|1=}', x=1), {})

    def test_bad_rules(self):
        for text, why in [
            ('', 'it has no rule'),
            ('# a\n', 'it has no rule'),
            ('a', 'line 1: KEY = VALUE is wanted'),
            ('\na =', 'line 2'),
            ('= b', 'line 1'),
            ('a = 1\na = 2', 'line 2: the tag a has a rule already'),
            ('a = {', 'line 1: a brace by itself'),
            ('a = {}', 'line 1: a brace'),
            ('a = {x|y}', 'line 1: {x|y} is no'),
        ]:
            with self.assertRaisesRegex(ValueError, why.replace('{', '\\{').replace('|', '\\|')):
                mapping.read(text)

    def test_boxes(self):
        self.assertEqual(
            drawing.box_of('13, 52,13.0000001,52.5'), (130000000, 520000000, 130000001, 525000000)
        )
        for text in ('', '1,2,3', '3,2,1,4', '1,2,3,91', 'a,b,c,d', 'nan,1,2,3', '1,2,3,inf'):
            self.assertRaises(ValueError, drawing.box_of, text)


if __name__ == '__main__':
    unittest.main()
