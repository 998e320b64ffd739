"""Tests of the strict server: each status and text of it, its faults, its hooks, and what it tells
of what was done.

    python3 -m unittest yoke.testing.test_server
"""
import gzip
import http.client
import json
import pathlib
import subprocess
import sys
import tempfile
import unittest
import urllib.parse
from xml.etree import ElementTree

from yoke.testing.database import Refusal
from yoke.testing.elements import degrees, lines_of_opl, of_opl, opl, read_file, units
from yoke.testing.server import SOMEBODY, TOKEN, Limits, StrictServer, User

TOP = pathlib.Path(__file__).resolve().parent.parent.parent
TOWN = """\
n1 v1 dV c7 t2024-02-29T12:00:00Z i5 uA%20%B Tname=x%20%y x13.5 y-0.0000001
n2 v2 dV c0 t i0 u T x13.6 y0
n3 v3 dV c0 t i0 u T x13.7 y0.1
n4 v1 dV c0 t i0 u T x13.8 y0.1
n5 v4 dD c0 t i0 u T x y
w1 v1 dV c0 t i0 u Thighway=residential,name=Main%20%Street Nn1,n2
w2 v1 dV c0 t i0 u Thighway=path Nn2,n3
r1 v1 dV c0 t i0 u Ttype=route Mw1@,n4@stop
r2 v1 dV c0 t i0 u Ttype=network Mr1@
"""
NO_TOKEN = ''


class Said:
    """What the server answered."""

    def __init__(self, answer):
        self.status, self.headers, self.text = (
            answer.status,
            answer.headers,
            answer.read().decode('utf-8'),
        )

    @property
    def root(self):
        return ElementTree.fromstring(self.text)

    def keys(self):
        """The keys of the elements of a document, in its order."""
        return [
            xml.tag[0] + xml.get('id')
            for xml in self.root
            if xml.tag in ('node', 'way', 'relation')
        ]


class ServerTest(unittest.TestCase):
    """A server of the small town, and requests to it."""

    limits = {}

    def setUp(self):
        self.server = StrictServer(
            lines_of_opl(TOWN.splitlines()), limits=Limits(**self.limits), first_id=100
        )
        self.server.__enter__()
        self.addCleanup(self.server.__exit__)

    def ask(self, method, path, body='', token=TOKEN):
        found = urllib.parse.urlsplit(self.server.address)
        connection = http.client.HTTPConnection(found.hostname, found.port, timeout=20)
        self.addCleanup(connection.close)
        connection.request(
            method,
            path,
            body.encode('utf-8'),
            {'Authorization': 'Bearer ' + token} if token else {},
        )
        return Said(connection.getresponse())

    def get(self, path):
        return self.ask('GET', '/api/0.6/' + path, token=NO_TOKEN)

    def opened(self, token=TOKEN):
        """The id of a new changeset."""
        return int(
            self.ask(
                'PUT',
                '/api/0.6/changeset/create',
                '<osm><changeset><tag k="comment" v="a day"/></changeset></osm>',
                token,
            ).text
        )

    def upload(self, blocks, number=None, token=TOKEN):
        """The answer to an upload of blocks, in which C stands for the attribute of the changeset."""
        self.number = self.opened(token) if number is None else number
        text = '<osmChange version="0.6">{}</osmChange>'.format(
            blocks.replace('C', f'changeset="{self.number}"')
        )
        return self.ask('POST', f'/api/0.6/changeset/{self.number}/upload', text, token)

    def assert_refused(self, answer, status, text=''):
        self.assertEqual((answer.status, answer.text), (status, text))
        self.assertEqual(answer.headers.get('Error'), text or None)

    def assert_not_taken(self, blocks, status, text):
        """An upload is refused so, and nothing of it was done, nor of a good change before it."""
        before = self.server.opl(), self.server.history
        good = '<create><node id="-9001" C lat="1" lon="1"/></create><modify><node id="2" C version="2" lat="1" lon="1"/></modify>'
        for document in (blocks, good + blocks):
            self.assert_refused(self.upload(document), status, text)
            self.assertEqual((self.server.opl(), self.server.history), before)
            self.assertEqual(self.get(f'changeset/{self.number}').root[0].get('changes_count'), '0')


class Changesets(ServerTest):
    def test_one_is_opened_and_closed(self):
        answer = self.ask(
            'PUT',
            '/api/0.6/changeset/create',
            '<osm><changeset><tag k="comment" v="a &lt; b"/></changeset></osm>',
        )
        self.assertEqual((answer.status, answer.text), (200, '8'))  # 7 stands in the data
        told = self.get('changeset/8').root.find('changeset')
        self.assertEqual(
            (told.get('open'), told.get('user'), told.get('uid'), told.get('changes_count')),
            ('true', 'mapper', '1001', '0'),
        )
        self.assertEqual(told.find('tag').attrib, {'k': 'comment', 'v': 'a < b'})
        self.assertIsNone(told.get('closed_at'))
        closed = self.ask('PUT', '/api/0.6/changeset/8/close')
        self.assertEqual((closed.status, closed.text), (200, ''))
        told = self.get('changeset/8').root.find('changeset')
        self.assertEqual(told.get('open'), 'false')
        self.assertRegex(told.get('closed_at'), r'^\d{4}-\d\d-\d\dT\d\d:\d\d:\d\dZ$')

    def test_without_a_token(self):
        for method, path in [
            ('PUT', 'changeset/create'),
            ('PUT', 'changeset/8/close'),
            ('POST', 'changeset/8/upload'),
        ]:
            for token in (NO_TOKEN, 'of-nobody'):
                answer = self.ask(method, '/api/0.6/' + path, '', token)
                self.assert_refused(answer, 401, 'Couldn\'t authenticate you')
                self.assertIn('Bearer', answer.headers['WWW-Authenticate'])

    def test_one_that_is_no_document(self):
        self.assertEqual(self.ask('PUT', '/api/0.6/changeset/create', '<osm>').status, 400)
        answer = self.ask('PUT', '/api/0.6/changeset/create', '<osm></osm>')
        self.assert_refused(
            answer,
            400,
            'Cannot parse valid changeset from xml string <osm></osm>. XML doesn\'t contain an osm/changeset element.',
        )

    def test_one_that_is_closed(self):
        number = self.opened()
        self.ask('PUT', f'/api/0.6/changeset/{number}/close')
        want = r'^The changeset {} was closed at \d{{4}}-\d\d-\d\d \d\d:\d\d:\d\d UTC$'.format(
            number
        )
        for answer in (
            self.ask('PUT', f'/api/0.6/changeset/{number}/close'),
            self.upload('', number),
        ):
            self.assertEqual(answer.status, 409)
            self.assertRegex(answer.text, want)

    def test_one_of_somebody_else(self):
        number = self.opened('token-of-somebody')
        for answer in (
            self.ask('PUT', f'/api/0.6/changeset/{number}/close'),
            self.upload('', number),
        ):
            self.assert_refused(answer, 409, 'The user doesn\'t own that changeset')

    def test_one_that_never_was(self):
        self.assert_refused(self.get('changeset/99'), 404)
        self.assert_refused(self.get('changeset/99/download'), 404)
        self.assert_refused(self.ask('PUT', '/api/0.6/changeset/99/close'), 404)
        self.assert_refused(self.upload('', 99), 404)

    def test_a_download(self):
        self.upload(
            '<create><node id="-1" C lat="1.5" lon="2.5"><tag k="a" v="b"/></node></create>'
            '<modify><way id="1" C version="1"><nd ref="-1"/><nd ref="2"/></way></modify>'
            '<delete><relation id="2" C version="1"/></delete>'
        )
        found = self.get(f'changeset/{self.number}/download').root
        self.assertEqual(
            (
                found.tag,
                sorted(
                    (
                        block.tag,
                        block[0].tag,
                        block[0].get('id'),
                        block[0].get('version'),
                        block[0].get('visible'),
                    )
                    for block in found
                ),
            ),
            (
                'osmChange',
                [
                    ('create', 'node', '100', '1', 'true'),
                    ('delete', 'relation', '2', '2', 'false'),
                    ('modify', 'way', '1', '2', 'true'),
                ],
            ),
        )
        made = found.find('create/node')
        self.assertEqual(
            (made.get('lat'), made.get('lon'), made.get('changeset'), made.get('user')),
            ('1.5000000', '2.5000000', str(self.number), 'mapper'),
        )
        self.assertEqual([node.get('ref') for node in found.find('modify/way')], ['100', '2'])
        box = self.get(f'changeset/{self.number}').root[0]
        self.assertEqual(
            (box.get('min_lon'), box.get('max_lat'), box.get('changes_count')),
            ('2.5000000', '1.5000000', '3'),
        )


class FullChangesets(ServerTest):
    limits = {'changeset_elements': 3}
    two = '<create><node id="-1" C lat="1" lon="1"/><node id="-2" C lat="1" lon="2"/></create>'

    def test_one_that_would_be_over_full(self):
        self.assertEqual(self.upload(self.two).status, 200)
        answer = self.upload(self.two, self.number)
        self.assertEqual(answer.status, 409)
        self.assertRegex(
            answer.text,
            r'^The changeset {} was closed at \d{{4}}-\d\d-\d\d \d\d:\d\d:\d\d UTC$'.format(
                self.number
            ),
        )
        self.assertEqual(len(self.server.history), 2)

    def test_one_that_is_full_is_closed(self):
        self.assertEqual(
            self.upload(self.two + '<create><node id="-3" C lat="1" lon="3"/></create>').status, 200
        )
        self.assertEqual(self.get(f'changeset/{self.number}').root[0].get('open'), 'false')
        self.assertEqual(self.upload('', self.number).status, 409)
        self.assertEqual(self.ask('PUT', f'/api/0.6/changeset/{self.number}/close').status, 409)

    def test_an_upload_that_is_too_large_for_any(self):
        answer = self.upload(self.two + self.two.replace('"-', '"-1'))
        self.assert_refused(answer, 413, 'The upload has 4 changes, and a changeset takes 3')
        self.assertEqual(self.server.history, [])

    def test_the_default_is_ten_thousand(self):
        self.assertEqual(Limits().changeset_elements, 10_000)


class Uploads(ServerTest):
    def test_placeholders(self):
        answer = self.upload(
            '<create><node id="-1" C lat="1" lon="1"/><way id="-1" C><nd ref="-1"/><nd ref="2"/></way>'
            '<relation id="-7" C><member type="way" ref="-1" role="x"/><member type="node" ref="-1"/></relation></create>'
            '<modify><node id="-1" C version="1" lat="1" lon="1.5"/></modify>'
        )
        self.assertEqual(
            [(line.tag, line.attrib) for line in answer.root],
            [
                ('node', {'old_id': '-1', 'new_id': '100', 'new_version': '1'}),
                ('way', {'old_id': '-1', 'new_id': '100', 'new_version': '1'}),
                ('relation', {'old_id': '-7', 'new_id': '100', 'new_version': '1'}),
                ('node', {'old_id': '-1', 'new_id': '100', 'new_version': '2'}),
            ],
        )
        self.assertEqual(answer.root.tag, 'diffResult')
        current = self.server.database.current
        self.assertEqual(current('w100').nodes, (100, 2))
        self.assertEqual(current('r100').members, (('way', 100, 'x'), ('node', 100, '')))
        self.assertEqual(current('n100').lon, units('1.5'))

    def test_results_of_changes_and_deletions(self):
        answer = self.upload(
            '<modify><node id="4" C version="1" lat="1" lon="1"/></modify><delete><relation id="2" C version="1"/></delete>'
        )
        self.assertEqual(
            [line.attrib for line in answer.root],
            [{'old_id': '4', 'new_id': '4', 'new_version': '2'}, {'old_id': '2'}],
        )
        self.assert_refused(self.get('relation/2'), 410)

    def test_what_was_created_here_can_be_deleted_by_its_placeholder(self):
        answer = self.upload(
            '<create><node id="-1" C lat="1" lon="1"/></create><delete><node id="-1" C/></delete>'
        )
        self.assertEqual(answer.status, 200)
        self.assert_refused(self.get('node/100'), 410)

    def test_blocks_are_taken_as_written(self):
        way, node = (
            '<delete><way id="2" C version="1"/></delete>',
            '<delete><node id="3" C version="3"/></delete>',
        )
        self.assert_not_taken(
            node + way, 412, 'Precondition failed: Node 3 is still used by ways 2.'
        )
        self.assertEqual(self.upload(way + node).status, 200)
        self.assert_not_taken(
            '<create><way id="-1" C><nd ref="-1"/></way><node id="-1" C lat="1" lon="1"/></create>',
            400,
            'Placeholder node not found for reference -1 in way -1',
        )

    def test_ids_of_a_refused_upload_are_not_given_again(self):
        self.upload(
            '<create><node id="-1" C lat="1" lon="1"/></create><delete><node id="3" C version="3"/></delete>'
        )
        self.assertIn(
            'new_id="101"', self.upload('<create><node id="-1" C lat="1" lon="1"/></create>').text
        )

    def test_a_deleted_element_comes_back(self):
        answer = self.upload('<modify><node id="5" C version="4" lat="1" lon="1"/></modify>')
        self.assertEqual(answer.root[0].get('new_version'), '5')
        self.assertEqual(self.get('node/5').root[0].get('version'), '5')

    def test_if_unused(self):
        answer = self.upload(
            '<delete if-unused="true"><node id="2" C version="2"/><node id="5" C version="3"/>'
            '<relation id="2" C version="1"/></delete>'
        )
        self.assertEqual(
            [line.attrib for line in answer.root],
            [
                {'old_id': '2', 'new_id': '2', 'new_version': '2'},
                {'old_id': '5', 'new_id': '5', 'new_version': '4'},
                {'old_id': '2'},
            ],
        )
        self.assert_not_taken(
            '<delete if-unused="true"><node id="4" C version="9"/></delete>',
            409,
            'Version mismatch: Provided 9, server had: 1 of Node 4',
        )

    def test_an_old_way_may_keep_what_is_not_there(self):
        self.server.database.put(of_opl('w9 v1 dV T Nn2,n77'))
        self.assertEqual(
            self.upload(
                '<modify><way id="9" C version="1"><nd ref="77"/><nd ref="3"/></way></modify>'
            ).status,
            200,
        )
        self.assert_refused(
            self.upload(
                '<modify><way id="9" C version="2"><nd ref="78"/><nd ref="3"/></way></modify>'
            ),
            412,
            'Precondition failed: Way 9 requires the nodes with id in (78), which either do not exist, or are not visible.',
        )


class Refusals(ServerTest):
    def test_versions(self):
        self.assert_not_taken(
            '<modify><node id="3" C version="1" lat="1" lon="1"/></modify>',
            409,
            'Version mismatch: Provided 1, server had: 3 of Node 3',
        )
        self.assert_not_taken(
            '<delete><way id="1" C version="2"/></delete>',
            409,
            'Version mismatch: Provided 2, server had: 1 of Way 1',
        )
        self.assert_not_taken(
            '<modify><relation id="1" C version="7"/></modify>',
            409,
            'Version mismatch: Provided 7, server had: 1 of Relation 1',
        )

    def test_a_second_change_needs_the_version_of_the_first(self):
        twice = '<modify><node id="3" C version="3" lat="1" lon="1"/><node id="3" C version="{}" lat="2" lon="1"/></modify>'
        self.assert_not_taken(
            twice.format(3), 409, 'Version mismatch: Provided 3, server had: 4 of Node 3'
        )
        self.assertEqual(self.upload(twice.format(4)).status, 200)

    def test_what_never_was(self):
        self.assert_not_taken(
            '<modify><node id="77" C version="1" lat="1" lon="1"/></modify>', 404, ''
        )
        self.assert_not_taken('<delete><way id="77" C version="1"/></delete>', 404, '')
        self.assert_not_taken(
            '<modify><node id="-77" C version="1" lat="1" lon="1"/></modify>', 404, ''
        )

    def test_what_is_deleted(self):
        self.assert_not_taken(
            '<delete><node id="5" C version="4"/></delete>',
            410,
            'The node with the id 5 has already been deleted',
        )
        self.server.limits.says_what_is_gone = False
        self.assert_not_taken('<delete><node id="5" C version="4"/></delete>', 410, '')
        self.assert_not_taken(
            '<modify><node id="5" C version="3" lat="1" lon="1"/></modify>',
            409,
            'Version mismatch: Provided 3, server had: 4 of Node 5',
        )

    def test_what_is_used(self):
        self.assert_not_taken(
            '<delete><node id="1" C version="1"/></delete>',
            412,
            'Precondition failed: Node 1 is still used by ways 1.',
        )
        self.assert_not_taken(
            '<delete><node id="4" C version="1"/></delete>',
            412,
            'Precondition failed: Node 4 is still used by relations 1.',
        )
        self.assert_not_taken(
            '<delete><way id="1" C version="1"/></delete>',
            412,
            'Precondition failed: Way 1 is still used by relations 1.',
        )
        self.assert_not_taken(
            '<delete><relation id="1" C version="1"/></delete>',
            412,
            'Precondition failed: The relation 1 is used in relation 2.',
        )

    def test_all_ways_that_use_a_node_are_named(self):
        self.server.edit('create', 'w-1', nodes=[3, 4])
        self.assert_refused(
            self.upload('<delete><node id="3" C version="3"/></delete>'),
            412,
            'Precondition failed: Node 3 is still used by ways 2,100.',
        )

    def test_what_is_required(self):
        wanted = 'Precondition failed: Way {} requires the nodes with id in ({}), which either do not exist, or are not visible.'
        self.assert_not_taken(
            '<modify><way id="1" C version="1"><nd ref="1"/><nd ref="88"/><nd ref="5"/><nd ref="88"/></way></modify>',
            412,
            wanted.format(1, '5,88'),
        )
        self.assert_not_taken(
            '<create><way id="-3" C><nd ref="88"/></way></create>', 412, wanted.format(-3, 88)
        )
        member = '<modify><relation id="2" C version="1"><member type="{}" ref="{}" role=""/></relation></modify>'
        for kind, number in [('node', 5), ('way', 88), ('relation', 88)]:
            self.assert_not_taken(
                member.format(kind, number),
                412,
                'Precondition failed: Relation 2 requires the {} with id {}, which either does not exist, or is not visible.'.format(
                    kind, number
                ),
            )

    def test_ways_without_nodes(self):
        self.assert_not_taken(
            '<create><way id="-3" C/></create>',
            412,
            'Precondition failed: Cannot create way: data is invalid.',
        )
        self.assert_not_taken(
            '<modify><way id="1" C version="1"/></modify>',
            412,
            'Precondition failed: Cannot update way 1: data is invalid.',
        )

    def test_placeholders_that_stand_for_nothing(self):
        self.assert_not_taken(
            '<modify><way id="1" C version="1"><nd ref="-4"/></way></modify>',
            400,
            'Placeholder node not found for reference -4 in way 1',
        )
        self.assert_not_taken(
            '<create><relation id="-2" C><member type="way" ref="-4"/></relation></create>',
            400,
            'Placeholder Way not found for reference -4 in relation -2.',
        )
        self.assert_not_taken(
            '<create><node id="-4" C lat="1" lon="1"/><node id="-4" C lat="1" lon="1"/></create>',
            400,
            'Placeholder IDs must be unique for created elements.',
        )

    def test_changesets_of_elements(self):
        answer = self.upload(
            '<modify><node id="4" changeset="4711" version="1" lat="1" lon="1"/></modify>'
        )
        self.assert_refused(
            answer,
            409,
            f'Changeset mismatch: Provided 4711 but only {self.number} is allowed',
        )
        answer = self.upload('<modify><node id="4" version="1" lat="1" lon="1"/></modify>')
        self.assertEqual(answer.status, 400)
        self.assertTrue(answer.text.endswith('Changeset id is missing'), answer.text)

    def test_places(self):
        for lat, lon in [('90.0000001', '1'), ('-91', '1'), ('1', '180.0000001'), ('1', '-181')]:
            self.assert_not_taken(
                f'<create><node id="-1" C lat="{lat}" lon="{lon}"/></create>',
                400,
                'The node is outside this world',
            )
        self.assertEqual(
            self.upload('<create><node id="-1" C lat="-90" lon="180"/></create>').status, 200
        )
        for words, why in [
            ('lat="1"', 'lon missing'),
            ('lon="1"', 'lat missing'),
            ('lat="a" lon="1"', 'lat not a number'),
            ('lat="1" lon="nan"', 'lon not a number'),
        ]:
            answer = self.upload(f'<create><node id="-1" C {words}/></create>')
            self.assertEqual(answer.status, 400)
            self.assertTrue(
                answer.text.startswith('Cannot parse valid node from xml string <node ')
                and answer.text.endswith('. ' + why),
                answer.text,
            )

    def test_places_are_rounded_to_seven_digits(self):
        self.upload('<create><node id="-1" C lat="1.00000005" lon="-1.00000005"/></create>')
        node = self.get('node/100').root[0]
        self.assertEqual((node.get('lat'), node.get('lon')), ('1.0000001', '-1.0000001'))

    def test_texts(self):
        node = '<create><node id="-1" C lat="1" lon="1">{}</node></create>'

        def tag(key, value):
            return node.format(f'<tag k="{key}" v="{value}"/>')

        self.assert_not_taken(
            tag('\u4e2d' * 256, 'a'), 400, 'Key has more than 255 unicode characters in Node -1'
        )
        self.assert_not_taken(
            tag('a', '\U0001f6b2' * 256),
            400,
            'Value has more than 255 unicode characters in Node -1',
        )
        self.assert_not_taken(tag('', 'a'), 400, 'Key may not be empty in Node -1')
        self.assert_not_taken(tag('a', '\x7f'), 400, 'Value contains invalid characters in Node -1')
        self.assert_not_taken(
            node.format('<tag k="a" v="b"/><tag k="a" v="c"/>'),
            400,
            'Element node/-1 has duplicate tags with key a',
        )
        self.assertEqual(self.upload(tag('\u4e2d' * 255, '\U0001f6b2' * 255)).status, 200)
        role = '<create><relation id="-1" C><member type="node" ref="1" role="{}"/></relation></create>'
        self.assert_not_taken(
            role.format('x' * 256),
            400,
            'Relation Role has more than 255 unicode characters in Relation -1',
        )
        answer = self.upload(node.format('<tag k="a"/>'))
        self.assertTrue(
            answer.status == 400 and answer.text.endswith('tag is missing value'), answer.text
        )

    def test_documents(self):
        self.assertEqual(self.upload('<create>').status, 400)
        answer = self.ask('POST', f'/api/0.6/changeset/{self.opened()}/upload', '<osm/>')
        self.assert_refused(answer, 400, 'Document element should be \'osmChange\'.')
        self.assert_not_taken(
            '<update><node id="1" C version="1" lat="1" lon="1"/></update>',
            400,
            'Unknown action update, choices are create, modify, delete',
        )
        self.assert_not_taken(
            '<update/>', 400, 'Unknown action update, choices are create, modify, delete'
        )
        self.assert_not_taken(
            '<create><area id="-1" C/></create>',
            400,
            'Unexpected element type area, expected node, way or relation.',
        )
        for words, why in [
            ('C lat="1" lon="1"', 'ID is required'),
            ('id="4" C lat="1" lon="1"', 'Version is required when updating'),
        ]:
            answer = self.upload(f'<modify><node {words}/></modify>')
            self.assertTrue(answer.status == 400 and answer.text.endswith(why), answer.text)
        self.assert_not_taken(
            '<modify><node id="0" C version="1" lat="1" lon="1"/></modify>',
            400,
            'ID of node cannot be zero when updating.',
        )
        answer = self.upload(
            '<create><relation id="-1" C><member type="area" ref="1"/></relation></create>'
        )
        self.assertTrue(
            answer.status == 400 and 'The area is not allowed only' in answer.text, answer.text
        )

    def test_paths_and_methods(self):
        self.assert_refused(self.get('nothing'), 404)
        answer = self.ask('GET', '/api/0.6/changeset/create')
        self.assert_refused(answer, 405, 'Only method PUT is supported on this URI')
        self.assertEqual(answer.headers['Allow'], 'PUT')
        self.assert_refused(
            self.ask('PUT', '/api/0.6/changeset/1/upload'),
            405,
            'Only method POST is supported on this URI',
        )

    def test_bodies_whose_length_is_not_told_or_too_large(self):
        found = urllib.parse.urlsplit(self.server.address)
        for headers, body, status in [
            ({'Transfer-Encoding': 'chunked'}, iter([b'<osm/>']), 411),
            ({'Content-Length': '1000000000'}, b'', 413),
            ({'Content-Length': 'many'}, b'', 411),
        ]:
            connection = http.client.HTTPConnection(found.hostname, found.port, timeout=20)
            self.addCleanup(connection.close)
            connection.request(
                'PUT',
                '/api/0.6/changeset/create',
                body,
                {'Authorization': 'Bearer ' + TOKEN, **headers},
            )
            self.assertEqual(connection.getresponse().status, status)


class TooMuch(ServerTest):
    limits = {
        'way_nodes': 3,
        'relation_members': 2,
        'user_changes': 2,
        'map_bytes': 1500,
        'map_nodes': 2,
        'retry_after': 17,
    }

    def test_nodes_of_a_way(self):
        answer = self.upload(
            '<modify><way id="1" C version="1">{}</way></modify>'.format(
                '<nd ref="1"/><nd ref="2"/>' * 2
            )
        )
        self.assert_refused(
            answer, 400, 'You tried to add 4 nodes to way 1, however only 3 are allowed'
        )
        self.assertEqual(Limits().way_nodes, 2000)

    def test_members_of_a_relation(self):
        answer = self.upload(
            '<create><relation id="-1" C>{}</relation></create>'.format(
                '<member type="node" ref="1"/>' * 3
            )
        )
        self.assert_refused(
            answer, 400, 'You tried to add 3 members to relation -1, however only 2 are allowed'
        )
        self.assertEqual(Limits().relation_members, 32000)

    def test_changes_of_a_user(self):
        two = '<create><node id="-1" C lat="1" lon="1"/><node id="-2" C lat="1" lon="1"/></create>'
        self.assertEqual(self.upload(two).status, 200)
        answer = self.upload('<delete><node id="100" C version="1"/></delete>')
        self.assert_refused(
            answer, 429, 'Upload has been blocked due to rate limiting. Please try again later.'
        )
        self.assertEqual(answer.headers['Retry-After'], '17')
        self.server.edit('delete', 'n101')  # others may
        self.server.limits.user_changes = None
        self.assertEqual(self.upload('<delete><node id="100" C version="1"/></delete>').status, 200)

    def test_maps(self):
        self.assertEqual(self.get('map?bbox=13.55,-0.1,13.65,0.05').status, 200)
        answer = self.get('map?bbox=13.55,-0.1,13.65,0.05')
        self.assert_refused(
            answer, 509, 'You have downloaded too much data. Please try again in 17 seconds.'
        )
        self.assertEqual(answer.headers['Retry-After'], '17')
        self.assert_refused(
            self.get('map?bbox=13.4,-0.1,13.9,0.2'),
            400,
            'You requested too many nodes (limit is 2). Either request a smaller area, or use planet.osm',
        )

    def test_capabilities_tell_the_limits(self):
        for path in ('/api/capabilities', '/api/0.6/capabilities'):
            api = self.ask('GET', path, token=NO_TOKEN).root.find('api')
            self.assertEqual(
                (
                    api.find('waynodes').get('maximum'),
                    api.find('relationmembers').get('maximum'),
                    api.find('changesets').get('maximum_elements'),
                    api.find('area').get('maximum'),
                    api.find('version').get('maximum'),
                ),
                ('3', '2', '10000', '0.25', '0.6'),
            )


class ByTime(ServerTest):
    """Changes of a user within an hour, by a clock that the test sets."""

    limits = {'changes_per_hour': 3}

    def setUp(self):
        super().setUp()
        self.now = 1000.0
        self.server.database.clock = lambda: self.now

    def nodes(self, count):
        return self.upload(
            '<create>{}</create>'.format(
                ''.join(f'<node id="-{at + 1}" C lat="1" lon="1"/>' for at in range(count))
            )
        )

    def test_there_is_room_again_after_an_hour(self):
        self.assertEqual(self.nodes(2).status, 200)
        self.now += 600
        self.assertEqual(self.nodes(1).status, 200)
        answer = self.nodes(1)
        self.assert_refused(
            answer, 429, 'Upload has been blocked due to rate limiting. Please try again later.'
        )
        self.assertEqual(answer.headers['Retry-After'], '3000')
        self.now += 3000
        self.assertEqual([self.nodes(2).status, self.nodes(1).status], [200, 429])

    def test_a_document_with_more_than_an_hour_takes(self):
        self.assertEqual(self.nodes(4).headers['Retry-After'], '1')
        self.assertEqual(self.nodes(1).status, 200)
        self.assertEqual(self.nodes(4).headers['Retry-After'], '3600')

    def test_one_that_does_not_say_how_long(self):
        self.server.limits.retry_after = None
        answer = self.nodes(4)
        self.assertEqual((answer.status, answer.headers.get('Retry-After')), (429, None))


class Boxes(ServerTest):
    """The bounding box of a changeset: width plus height."""

    limits = {'changeset_extent': '0.2'}
    text = 'Changeset bounding box size limit exceeded.'

    def box(self):
        told = self.get(f'changeset/{self.number}').root[0]
        return tuple(told.get(name) for name in ('min_lon', 'min_lat', 'max_lon', 'max_lat'))

    def test_of_nodes(self):
        self.assert_refused(
            self.upload(
                '<modify><node id="4" C version="1" lat="0.1" lon="13.9"/>'
                '<node id="3" C version="3" lat="0.21" lon="13.7"/></modify>'
            ),
            413,
            self.text,
        )
        self.assertEqual(
            self.upload(
                '<modify><node id="4" C version="1" lat="0.1" lon="13.9"/></modify>'
            ).status,
            200,
        )
        self.assertEqual(self.box(), ('13.8000000', '0.1000000', '13.9000000', '0.1000000'))
        self.assertEqual(self.server.edit('modify', 'n4', place=('13.9', '0.3')), 'n4')

    def test_grows_from_one_upload_to_the_next(self):
        self.assertEqual(
            self.upload(
                '<modify><node id="4" C version="1" lat="0.1" lon="13.9"/></modify>'
            ).status,
            200,
        )
        self.assert_refused(
            self.upload('<create><node id="-1" C lat="0.21" lon="13.8"/></create>', self.number),
            413,
            self.text,
        )
        self.assertEqual(
            self.upload(
                '<create><node id="-1" C lat="0.2" lon="13.8"/></create>', self.number
            ).status,
            200,
        )
        self.assertEqual(len(self.server.history), 2)

    def test_of_ways(self):
        self.assertEqual(
            self.upload(
                '<modify><way id="1" C version="1"><nd ref="1"/><nd ref="2"/></way></modify>'
            ).status,
            200,
        )
        self.assertEqual(self.box(), ('13.5000000', '-0.0000001', '13.6000000', '0.0000000'))
        self.assert_refused(
            self.upload('<create><way id="-1" C><nd ref="1"/><nd ref="3"/></way></create>'),
            413,
            self.text,
        )
        self.assertEqual(self.upload('<delete><way id="2" C version="1"/></delete>').status, 200)
        self.assertEqual(self.box(), ('13.6000000', '0.0000000', '13.7000000', '0.1000000'))

    def test_of_relations(self):
        """A member that goes or comes counts alone; a changed tag counts all."""
        same = '<member type="way" ref="1" role=""/><member type="node" ref="4" role="stop"/>'
        self.assertEqual(
            self.upload(
                '<modify><relation id="1" C version="1"><tag k="type" v="route"/>'
                '{}<member type="node" ref="3"/></relation></modify>'.format(same)
            ).status,
            200,
        )
        self.assertEqual(self.box(), ('13.7000000', '0.1000000', '13.7000000', '0.1000000'))
        self.assert_refused(
            self.upload(
                '<modify><relation id="1" C version="2"><tag k="a" v="b"/>{}</relation></modify>'.format(
                    same
                )
            ),
            413,
            self.text,
        )


class Accounts(ServerTest):
    def permissions(self, token=TOKEN):
        root = self.ask('GET', '/api/0.6/permissions', token=token).root
        return [found.get('name') for found in root.find('permissions')]

    def test_who_it_is(self):
        self.opened()
        user = self.ask('GET', '/api/0.6/user/details').root.find('user')
        self.assertEqual(
            (user.get('id'), user.get('display_name'), user.find('changesets').get('count')),
            ('1001', 'mapper', '1'),
        )
        self.assert_refused(
            self.ask('GET', '/api/0.6/user/details', token=NO_TOKEN),
            401,
            'Couldn\'t authenticate you',
        )

    def test_what_a_token_may_do(self):
        self.assertEqual(
            self.permissions(), ['allow_read_prefs', 'allow_write_prefs', 'allow_write_api']
        )
        self.assertEqual([self.permissions(NO_TOKEN), self.permissions('of-nobody')], [[], []])
        self.server.scopes[TOKEN] = ('read_prefs',)
        self.assertEqual(self.permissions(), ['allow_read_prefs'])
        self.assert_refused(
            self.ask('PUT', '/api/0.6/changeset/create', '<osm><changeset/></osm>'),
            403,
            'You have not granted the modify map permission',
        )
        self.server.scopes[TOKEN] = ('write_api',)
        self.assert_refused(
            self.ask('GET', '/api/0.6/user/details'),
            403,
            'You have not permitted the application access to this facility',
        )

    def test_a_blocked_account(self):
        number = self.opened()
        for cause, said in [
            ('block', 'has been blocked'),
            ('message', 'urgent message'),
            ('terms', 'Contributor Terms'),
        ]:
            self.server.blocks['mapper'] = cause
            for answer in (
                self.upload('', number),
                self.ask('GET', '/api/0.6/user/details'),
                self.ask('GET', '/api/0.6/permissions'),
            ):
                self.assertEqual(answer.status, 403)
                self.assertIn(said, answer.text)
            self.assertEqual(self.get('node/1').status, 200)
        self.opened('token-of-somebody')
        self.server.blocks.clear()
        self.assertEqual(self.upload('', number).status, 200)


class Redactions(ServerTest):
    def setUp(self):
        super().setUp()
        self.assertEqual(
            self.upload('<modify><node id="4" C version="1" lat="1" lon="1"/></modify>').status, 200
        )
        self.server.edit('modify', 'n4', tags={'a': 'b'})

    def test_a_version_that_is_hidden(self):
        self.assertEqual(self.get('node/4/2').status, 200)
        self.server.database.redact('n4', 2)
        self.assert_refused(self.get('node/4/2'), 403)
        self.assertEqual(
            [xml.get('version') for xml in self.get('node/4/history').root], ['1', '3']
        )
        self.assertEqual(len(self.get(f'changeset/{self.number}/download').root), 0)
        self.assertEqual(self.get(f'changeset/{self.number}').root[0].get('changes_count'), '1')

    def test_the_last_version_cannot_be_hidden(self):
        for key, version, status in [('n4', 3, 400), ('n4', 9, 404), ('n77', 1, 404)]:
            with self.assertRaises(Refusal) as raised:
                self.server.database.redact(key, version)
            self.assertEqual(raised.exception.status, status)


class Connections(ServerTest):
    def request(self, path, **headers):
        self.connection.request('GET', path, headers=headers)
        answer = self.connection.getresponse()
        return answer, answer.read()

    def setUp(self):
        super().setUp()
        found = urllib.parse.urlsplit(self.server.address)
        self.connection = http.client.HTTPConnection(found.hostname, found.port, timeout=20)
        self.addCleanup(self.connection.close)

    def test_answers_are_compressed_for_who_asks_for_it(self):
        plain, text = self.request('/api/0.6/node/1')
        packed, data = self.request('/api/0.6/node/1', **{'Accept-Encoding': 'gzip'})
        self.assertEqual(
            (plain.headers.get('Content-Encoding'), packed.headers.get('Content-Encoding')),
            (None, 'gzip'),
        )
        self.assertEqual(gzip.decompress(data), text)

    def test_connections_are_counted(self):
        for _ in range(3):
            self.request('/api/0.6/node/1')
        self.assertEqual(self.server.connections, 1)
        self.get('node/1')
        self.assertEqual(self.server.connections, 2)


class Reading(ServerTest):
    def test_an_element(self):
        answer = self.get('node/1')
        node = answer.root.find('node')
        self.assertEqual(
            node.attrib,
            {
                'id': '1',
                'visible': 'true',
                'version': '1',
                'changeset': '7',
                'timestamp': '2024-02-29T12:00:00Z',
                'user': 'A B',
                'uid': '5',
                'lat': '-0.0000001',
                'lon': '13.5000000',
            },
        )
        self.assertEqual(answer.root.get('version'), '0.6')
        self.assertTrue(answer.headers['Content-Type'].startswith('application/xml'))
        self.assertEqual(
            [member.attrib for member in self.get('relation/1').root[0].findall('member')],
            [{'type': 'way', 'ref': '1', 'role': ''}, {'type': 'node', 'ref': '4', 'role': 'stop'}],
        )
        self.assert_refused(self.get('node/5'), 410)
        self.assert_refused(self.get('way/77'), 404)

    def test_versions_and_histories(self):
        self.server.edit('modify', 'w1', tags={'highway': 'track'})
        self.server.edit('delete', 'w2')
        self.assertEqual(self.get('way/1/1').root[0].find('tag').get('v'), 'residential')
        self.assertEqual(self.get('way/1/2').root[0].find('tag').get('v'), 'track')
        self.assertEqual(self.get('way/2/2').root[0].attrib['visible'], 'false')
        self.assert_refused(self.get('way/1/3'), 404)
        self.assert_refused(self.get('way/77/1'), 404)
        self.assertEqual([xml.get('version') for xml in self.get('way/2/history').root], ['1', '2'])
        self.assert_refused(self.get('way/77/history'), 404)

    def test_many(self):
        answer = self.get('nodes?nodes=5,1,1,3')
        self.assertEqual(
            [(xml.get('id'), xml.get('visible'), xml.get('version')) for xml in answer.root],
            [('1', 'true', '1'), ('3', 'true', '3'), ('5', 'false', '4')],
        )
        self.assertIsNone(answer.root[2].get('lat'))
        self.assert_refused(self.get('nodes?nodes=1,77'), 404)
        self.assertEqual(self.get('ways?ways=1,2').keys(), ['w1', 'w2'])
        self.assertEqual(self.get('relations?relations=2').keys(), ['r2'])
        self.assert_refused(
            self.get('ways'),
            400,
            'The parameter ways is required, and must be of the form ways=id[,id[,id...]]',
        )
        self.assert_refused(self.get('nodes?nodes='), 400, 'No nodes were given to search for')

    def test_many_with_versions(self):
        self.server.edit('modify', 'n1', tags={})
        self.assertEqual(
            [(xml.get('id'), xml.get('version')) for xml in self.get('nodes?nodes=1v1,1,3v3').root],
            [('1', '1'), ('1', '2'), ('3', '3')],
        )
        self.assert_refused(self.get('nodes?nodes=1v7'), 404)

    def test_full(self):
        self.assertEqual(self.get('way/1/full').keys(), ['n1', 'n2', 'w1'])
        self.assertEqual(self.get('relation/1/full').keys(), ['n1', 'n2', 'n4', 'w1', 'r1'])
        self.assertEqual(self.get('relation/2/full').keys(), ['r1', 'r2'])
        self.server.edit('delete', 'w2')
        self.assert_refused(self.get('way/2/full'), 410)
        self.assert_refused(self.get('way/77/full'), 404)

    def test_what_refers_to_an_element(self):
        self.assertEqual(self.get('node/2/ways').keys(), ['w1', 'w2'])
        self.assertEqual(self.get('node/4/relations').keys(), ['r1'])
        self.assertEqual(self.get('way/1/relations').keys(), ['r1'])
        self.assertEqual(self.get('relation/1/relations').keys(), ['r2'])
        self.assertEqual(self.get('node/77/ways').keys(), [])
        self.server.edit('delete', 'w2')
        self.assertEqual(self.get('node/2/ways').keys(), ['w1'])

    def test_a_map(self):
        answer = self.get('map?bbox=13.45,-0.1,13.55,0.05')  # n1 alone
        self.assertEqual(answer.keys(), ['n1', 'n2', 'w1', 'r1', 'r2'])
        self.assertEqual(
            answer.root[0].attrib,
            {
                'minlat': '-0.1000000',
                'minlon': '13.4500000',
                'maxlat': '0.0500000',
                'maxlon': '13.5500000',
            },
        )
        self.server.edit('delete', 'r2')
        self.assertEqual(
            self.get('map?bbox=13.45,-0.1,13.55,0.05').keys(), ['n1', 'n2', 'w1', 'r1']
        )

    def test_boxes(self):
        for words in ('', '?bbox=1,2,3', '?bbox=1,2,3,a'):
            self.assert_refused(
                self.get('map' + words),
                400,
                'The parameter bbox is required, and must be of the form min_lon,min_lat,max_lon,max_lat',
            )
        for words in ('2,1,1,2', '1,2,2,1', '-181,1,-180,2', '1,89,2,91'):
            self.assert_refused(
                self.get('map?bbox=' + words),
                400,
                'The latitudes must be between -90 and 90, longitudes between -180 and 180 '
                'and the minima must be less than the maxima.',
            )
        self.assert_refused(
            self.get('map?bbox=0,0,0.5,0.50001'),
            400,
            'The maximum bbox size is 0.25, and your request was too large. '
            'Either request a smaller area, or use planet.osm',
        )
        self.assertEqual(self.get('map?bbox=0,0,0.5,0.5').status, 200)


class WithFaults(ServerTest):
    node = '<create><node id="-1" C lat="1" lon="1"/></create>'

    def taken(self):
        return len(self.server.history)

    def test_those_before_a_commit(self):
        for fault, status in [
            ('500-before', 500),
            ('504-before', 504),
            ('429-before', 429),
            ('509-before', 509),
        ]:
            self.server.faults.once(fault)
            answer = self.upload(self.node)
            self.assertEqual((answer.status, self.taken()), (status, 0))
            self.assertEqual(
                answer.headers.get('Retry-After'), '1' if status in (429, 509) else None
            )
        self.server.faults.once('close-before')
        with self.assertRaises(http.client.RemoteDisconnected):
            self.upload(self.node)
        self.assertEqual(self.taken(), 0)
        self.assertEqual(self.upload(self.node).status, 200)
        self.assertEqual(
            self.server.faults.met,
            [
                '500-before upload',
                '504-before upload',
                '429-before upload',
                '509-before upload',
                'close-before upload',
            ],
        )

    def test_those_after_a_commit(self):
        for count, (fault, status) in enumerate(
            [('500-after', 500), ('504-after', 504), ('302-after', 302)], 1
        ):
            self.server.faults.once(fault)
            self.assertEqual((self.upload(self.node).status, self.taken()), (status, count))
        self.server.faults.once('drop-after')
        with self.assertRaises(http.client.RemoteDisconnected):
            self.upload(self.node)
        self.assertEqual(self.taken(), 4)
        self.server.faults.once('half-after')
        with self.assertRaises(http.client.IncompleteRead):
            self.upload(self.node)
        self.assertEqual(self.taken(), 5)

    def test_what_is_done_late(self):
        self.server.faults.once('late-2')
        number = self.opened()
        with self.assertRaises(http.client.RemoteDisconnected):
            self.upload(self.node, number)
        seen = []
        for _ in range(3):
            seen.append(len(self.get(f'changeset/{number}/download').root))
        self.assertEqual(seen, [0, 1, 1])

    def test_what_is_done_too_late(self):
        self.server.faults.once('late-2')
        number = self.opened()
        with self.assertRaises(http.client.RemoteDisconnected):
            self.upload(self.node, number)
        self.ask('PUT', f'/api/0.6/changeset/{number}/close')
        self.assertEqual(len(self.get(f'changeset/{number}/download').root), 0)
        self.assertEqual(self.taken(), 0)

    def test_of_another_operation_and_after_some(self):
        self.server.faults.once('500-before', 'element', skip=1)
        self.assertEqual([self.get('node/1').status for _ in range(3)], [200, 500, 200])
        self.server.faults.once('504-after', 'close')
        number = self.opened()
        self.assertEqual(self.ask('PUT', f'/api/0.6/changeset/{number}/close').status, 504)
        self.assertEqual(self.get(f'changeset/{number}').root[0].get('open'), 'false')

    def test_by_chance(self):
        def drawn(seed):
            self.server.faults.clear()
            self.server.faults.by_chance('500-before', 0.4, seed)
            return [self.get('node/1').status for _ in range(30)]

        first = drawn(5)
        self.assertEqual({200, 500}, set(first))
        self.assertEqual(first, drawn(5))
        self.assertNotEqual(first, drawn(6))
        self.server.faults.clear()
        self.assertEqual(self.get('node/1').status, 200)

    def test_refusals(self):
        for kind, status, said, wait in [
            ('429-before', 429, 'rate limiting', '7'),
            ('429-bare-before', 429, 'rate limiting', None),
            ('509-before', 509, 'too much data', '7'),
            ('413-before', 413, 'changes, and a changeset takes', None),
            ('413-box-before', 413, 'bounding box size limit', None),
            ('403-block-before', 403, 'has been blocked', None),
            ('403-scope-before', 403, 'modify map permission', None),
        ]:
            self.server.limits.retry_after = 7
            self.server.faults.once(kind)
            answer = self.upload('<create><node id="-1" C lat="1" lon="1"/></create>')
            self.assertEqual((answer.status, answer.headers.get('Retry-After')), (status, wait))
            self.assertIn(said, answer.text)
            self.assertEqual(self.server.history, [])

    def test_one_that_is_not_known(self):
        with self.assertRaises(ValueError):
            self.server.faults.once('no-such-fault')


class Others(ServerTest):
    def test_edits(self):
        self.assertEqual(self.server.edit('modify', 'n1', tags={'name': 'theirs'}), 'n1')
        self.assertEqual(self.server.edit('modify', 'n1', place=('13.55', '0')), 'n1')
        there = self.server.database.current('n1')
        self.assertEqual(
            (there.version, there.tags, degrees(there.lon), there.user),
            (3, {'name': 'theirs'}, '13.5500000', 'somebody'),
        )
        self.assertEqual(
            self.server.edit('create', 'w-1', tags={'highway': 'track'}, nodes=[1, 4]), 'w100'
        )
        self.assertEqual(self.server.edit('modify', 'r1', members=[('way', 100, '')]), 'r1')
        with self.assertRaises(Refusal):
            self.server.edit('delete', 'n4')
        self.server.edit('delete', 'w1')
        self.assertFalse(self.server.database.is_there('w1'))
        self.assertEqual(self.server.edit('modify', 'n5', place=('1', '1')), 'n5')
        self.assertEqual({change.user for change in self.server.history}, {'somebody'})

    def test_before_an_upload(self):
        self.server.before(
            'upload', 2, lambda: self.server.edit('modify', 'n4', tags={'name': 'theirs'})
        )
        self.assertEqual(
            self.upload('<modify><node id="4" C version="1" lat="1" lon="1"/></modify>').status, 200
        )
        self.assert_refused(
            self.upload('<modify><node id="4" C version="2" lat="1" lon="2"/></modify>'),
            409,
            'Version mismatch: Provided 2, server had: 3 of Node 4',
        )
        self.assertEqual(
            self.upload('<modify><node id="4" C version="3" lat="1" lon="2"/></modify>').status, 200
        )

    def test_after_an_upload(self):
        seen = []
        self.server.after('upload', 1, lambda: seen.append(len(self.server.history)))
        self.upload('<modify><node id="4" C version="1" lat="1" lon="1"/></modify>')
        self.assertEqual(seen, [1])

    def test_a_changeset_that_is_left_alone_is_closed(self):
        number = self.opened()
        self.server.close_idle()
        self.assertEqual(self.get(f'changeset/{number}').root[0].get('open'), 'false')
        self.assertEqual(self.upload('', number).status, 409)

    def test_all_requests_are_watched(self):
        seen = []
        self.server.watch = lambda when, operation: seen.append((when, operation))
        self.get('node/1')
        self.assertEqual(seen, [('before', 'element'), ('after', 'element')])

    def test_who_made_what(self):
        node = '<create><node id="-1" C lat="1" lon="1"><tag k="a" v="b"/></node></create>'
        self.upload(node)
        self.server.edit('create', 'n-1', tags={'a': 'b'}, place=('1', '1'))
        self.assertEqual([element.key for element in self.server.created_by()], ['n100'])
        self.assertEqual(
            [element.key for element in self.server.created_by(SOMEBODY.name)], ['n101']
        )
        self.assertEqual(self.server.created_twice(), [])
        self.upload(node)
        self.assertEqual(
            [(one.key, other.key) for one, other in self.server.created_twice()], [('n100', 'n102')]
        )
        self.assertEqual(
            [
                (change.number, change.verb, change.old_id, change.user)
                for change in self.server.history
            ],
            [
                (1, 'create', -1, 'mapper'),
                (2, 'create', -1, 'somebody'),
                (3, 'create', -1, 'mapper'),
            ],
        )

    def test_operations_are_counted(self):
        self.upload('')
        self.get('node/1')
        self.get('node/77')
        self.assertEqual(self.server.requests, ['create', 'upload', 'element', 'element'])
        self.assertEqual(
            self.server.answers,
            {'create 200': 1, 'upload 200': 1, 'element 200': 1, 'element 404': 1},
        )

    def test_users_of_a_test(self):
        with StrictServer(users={'t': User(7, 'seven')}) as server:
            found = urllib.parse.urlsplit(server.address)
            connection = http.client.HTTPConnection(found.hostname, found.port)
            connection.request(
                'PUT',
                '/api/0.6/changeset/create',
                b'<osm><changeset/></osm>',
                {'Authorization': 'Bearer t'},
            )
            self.assertEqual(connection.getresponse().read(), b'1')
            connection.close()
            self.assertEqual(server.database.changesets[1].user.name, 'seven')


class Control(ServerTest):
    def control(self, method, what, **words):
        return self.ask(
            method, '/control/' + what, json.dumps(words) if method == 'POST' else '', NO_TOKEN
        )

    def test_faults(self):
        self.assertEqual(
            self.control('POST', 'faults', kind='500-before', operation='element').status, 200
        )
        self.assertEqual([self.get('node/1').status, self.get('node/1').status], [500, 200])
        self.control('POST', 'faults', kind='504-before', operation='any', chance=1, seed=1)
        self.assertEqual(self.get('node/1').status, 504)
        self.control('DELETE', 'faults')
        self.assertEqual(self.get('node/1').status, 200)
        self.assertEqual(self.control('POST', 'faults', kind='no-such-fault').status, 400)
        self.assertEqual(self.control('POST', 'faults', sort='x').status, 400)

    def test_edits(self):
        self.assertEqual(
            self.control('POST', 'edit', verb='modify', key='n1', tags={'a': 'b'}).text, 'n1'
        )
        self.assertEqual(
            self.control(
                'POST', 'edit', before_upload=1, verb='modify', key='n4', tags={'a': 'b'}
            ).status,
            200,
        )
        self.assertEqual(
            self.upload('<modify><node id="4" C version="1" lat="1" lon="1"/></modify>').status, 409
        )
        self.assertEqual(
            [
                (change['key'], change['verb'], change['user'], change['version'])
                for change in json.loads(self.control('GET', 'history').text)
            ],
            [('n1', 'modify', 'somebody', 2), ('n4', 'modify', 'somebody', 2)],
        )

    def test_limits(self):
        self.assertEqual(self.control('POST', 'limits', changeset_elements=1).status, 200)
        self.assertEqual(self.server.limits.changeset_elements, 1)
        self.assertEqual(self.control('POST', 'limits', nothing=1).status, 400)

    def test_accounts(self):
        self.assertEqual(
            self.control('POST', 'account', scopes=['read_prefs'], block='terms').status, 200
        )
        self.assertIn('Contributor Terms', self.ask('GET', '/api/0.6/permissions').text)
        self.assertEqual(self.control('POST', 'account', block='').status, 200)
        self.assertIn(
            'modify map',
            self.ask('PUT', '/api/0.6/changeset/create', '<osm><changeset/></osm>').text,
        )
        for words in ({'block': 'nothing'}, {'token': 'of-nobody'}):
            self.assertEqual(self.control('POST', 'account', **words).status, 400)

    def test_redactions(self):
        self.server.edit('modify', 'n4', tags={'a': 'b'})
        self.assertEqual(self.control('POST', 'redact', key='n4', version=1).status, 200)
        self.assert_refused(self.get('node/4/1'), 403)
        self.assertEqual(self.control('POST', 'redact', key='n4', version=2).status, 400)

    def test_elements(self):
        self.assertEqual(
            list(lines_of_opl(self.control('GET', 'elements').text.splitlines())),
            self.server.elements(),
        )
        self.assertEqual(self.control('GET', 'nothing').status, 404)


class Files(unittest.TestCase):
    def test_opl_is_written_as_it_was_read(self):
        for line in [
            'n1 v1 dV c7 t2024-02-29T12:00:00Z i5 uA%20%B Tname=x%20%y,a=%2c%%3d%%40% x13.5000000 y-0.0000001',
            'n5 v4 dD c0 t i0 u T x y',
            'w1 v1 dV c0 t i0 u Ta=b Nn1,n2,n1',
            'w2 v2 dD c0 t i0 u T N',
            'r1 v1 dV c0 t i0 u T Mw1@,n4@a%20%b',
        ]:
            self.assertEqual(opl(of_opl(line)), line)
        with self.assertRaises(ValueError):
            of_opl('x1 v1')

    def test_osm_xml(self):
        with tempfile.TemporaryDirectory() as place:
            path = pathlib.Path(place) / 'a.osm'
            path.write_text(
                '<osm version="0.6"><bounds/><node id="1" version="2" lat="1" lon="2"/>'
                '<way id="3" version="1"><nd ref="1"/><tag k="a" v="b"/></way>'
                '<relation id="4" version="1" visible="false"/></osm>',
                encoding='utf-8',
            )
            self.assertEqual(
                [opl(element) for element in read_file(path)],
                [
                    'n1 v2 dV c0 t i0 u T x2.0000000 y1.0000000',
                    'w3 v1 dV c0 t i0 u Ta=b Nn1',
                    'r4 v1 dD c0 t i0 u T M',
                ],
            )

    def test_the_program(self):
        with tempfile.TemporaryDirectory() as place:
            path = pathlib.Path(place) / 'town.opl'
            path.write_text(TOWN, encoding='utf-8')
            served = subprocess.Popen(
                [
                    sys.executable,
                    '-m',
                    'yoke.testing.server',
                    '--changeset-elements',
                    '7',
                    str(path),
                ],
                cwd=TOP,
                stdout=subprocess.PIPE,
                text=True,
            )
            try:
                found = urllib.parse.urlsplit(served.stdout.readline().strip())
                self.assertEqual(found.hostname, '127.0.0.1')
                connection = http.client.HTTPConnection(found.hostname, found.port, timeout=20)
                connection.request('GET', '/api/capabilities')
                self.assertIn('maximum_elements="7"', connection.getresponse().read().decode())
                connection.close()
            finally:
                served.kill()
                served.wait()
                served.stdout.close()

    def test_a_file_that_is_not_there(self):
        done = subprocess.run(
            [sys.executable, '-m', 'yoke.testing.server', '/no/such.opl'],
            cwd=TOP,
            stderr=subprocess.PIPE,
            text=True,
        )
        self.assertEqual((done.returncode, done.stderr.startswith('/no/such.opl: ')), (1, True))


if __name__ == '__main__':
    unittest.main()
