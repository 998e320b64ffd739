"""osmChange documents, and the answers to them."""
import unittest
from xml.etree import ElementTree

from yoke import opl, osc


def change(verb, line):
    return verb, opl.parse(line)


SENT = [
    change('create', 'n-1 v0 Tname=a%20%"b"%20%&%20%<c> x13.004 y52'),
    change('create', 'w-2 v0 Thighway=footway Nn3,n-1'),
    change('modify', 'r5 v4 Ttype=route Mw-2@forward,n3@'),
    change('delete', 'n8 v3'),
]
RESULT = '''<?xml version="1.0" encoding="UTF-8"?>
<diffResult version="0.6">
  <node old_id="-1" new_id="91" new_version="1"/>
  <way old_id="-2" new_id="92" new_version="1"/>
  <relation old_id="5" new_id="5" new_version="5"/>
  <node old_id="8"/>
</diffResult>
'''
LINES = ['create n-1 n91 v1', 'create w-2 w92 v1', 'modify r5 v5', 'delete n8 v4']
TAKEN = '''<osmChange version="0.6">
  <create><node id="91" version="1" changeset="7" lat="52.0000000" lon="13.0040000" visible="true"><tag k="name" v="a &quot;b&quot; &amp; &lt;c&gt;"/></node></create>
  <create><way id="92" version="1" changeset="7" visible="true"><nd ref="3"/><nd ref="91"/><tag k="highway" v="footway"/></way></create>
  <modify><relation id="5" version="5" changeset="7" visible="true"><member type="way" ref="92" role="forward"/><member type="node" ref="3" role=""/><tag k="type" v="route"/></relation></modify>
  <delete><node id="8" version="4" changeset="7" visible="false"/></delete>
</osmChange>
'''


class Documents(unittest.TestCase):
    def test_what_is_written_is_read_again(self):
        text = osc.document(SENT, '7')
        self.assertEqual(
            SENT[:3],
            osc.changes(text)[:3]
            and [(verb, with_changeset(thing, 0)) for verb, thing in osc.changes(text)[:3]],
        )
        self.assertEqual(
            ('delete', 'n8', 3),
            (osc.changes(text)[3][0], osc.changes(text)[3][1].key, osc.changes(text)[3][1].version),
        )
        self.assertEqual('7', osc.changeset_of(text))

    def test_neighbours_with_one_verb_share_an_element_and_the_order_stays(self):
        self.assertEqual(
            ['create', 'modify', 'delete'],
            [part.tag for part in ElementTree.fromstring(osc.document(SENT, '7'))],
        )
        mixed = [SENT[3], SENT[0], SENT[3]]
        self.assertEqual(
            ['delete', 'create', 'delete'],
            [part.tag for part in ElementTree.fromstring(osc.document(mixed, '7'))],
        )

    def test_blanks_of_all_kinds_come_back(self):
        sent = [('create', opl.Object('n-1', tags={'a': 'x\ty\nz\r', 'b': '  '}, lon=1, lat=2))]
        self.assertEqual(sent[0][1].tags, osc.changes(osc.document(sent, '7'))[0][1].tags)

    def test_what_xml_cannot_carry_is_named(self):
        for text in ('\x01', '\ufffe', '\x7f'):
            with self.assertRaisesRegex(ValueError, 'n-1'):
                osc.document([('create', opl.Object('n-1', tags={'a': text}, lon=1, lat=2))], '7')

    def test_the_document_that_opens_a_changeset(self):
        root = ElementTree.fromstring(osc.changeset({'comment': 'a "b" & <c>', 'source': 'survey'}))
        self.assertEqual(
            [('comment', 'a "b" & <c>'), ('source', 'survey')],
            [(tag.get('k'), tag.get('v')) for tag in root.iter('tag')],
        )


def with_changeset(thing, number):
    return opl.Object(**{**thing.__dict__, 'changeset': number})


class Elements(unittest.TestCase):
    def test_objects_of_a_server_as_opl(self):
        text = '''<osm><bounds/><node id="8" version="3" changeset="7" timestamp="2024-05-11T12:00:00Z" uid="5" user="A B" visible="true" lat="52.00100001" lon="13"/>
          <way id="5" visible="false" version="4" changeset="7" timestamp="2024-05-11T12:00:00Z" uid="5" user="A"/></osm>'''
        self.assertEqual(
            [
                'n8 v3 dV c7 t2024-05-11T12:00:00Z i5 uA%20%B T x13 y52.001',
                'w5 v4 dD c7 t2024-05-11T12:00:00Z i5 uA',
            ],
            [opl.line(thing) for thing in osc.things(text)],
        )

    def test_what_is_no_document(self):
        for text in (
            '',
            '<osm>',
            'Version mismatch',
            '<osmChange/>',
            '<osm><node id="x" version="y"/></osm>',
            '<osm><node/></osm>',
        ):
            with self.assertRaises(osc.NoXml, msg=text):
                osc.things(text)


class Answers(unittest.TestCase):
    def test_a_diff_result(self):
        self.assertEqual(LINES, osc.answers(SENT, RESULT))

    def test_a_diff_result_that_is_not_that_of_these_changes(self):
        for old, new in [
            ('<node old_id="8"/>', ''),
            ('new_version="5"', 'new_version="6"'),
            ('new_id="5"', 'new_id="6"'),
            ('new_id="91"', 'new_id="-91"'),
            ('<node old_id="8"/>', '<node old_id="8"/><node old_id="9"/>'),
            ('<node old_id="8"/>', '<node old_id="8"/><node old_id="8"/>'),
            ('<node old_id="8"/>', '<node/>'),
            ('diffResult', 'osmChange'),
            ('</diffResult>', ''),
            ('new_id="92"', 'new_id=""'),
            ('<node old_id="8"/>', '<area old_id="8"/>'),
        ]:
            with self.assertRaises(osc.NoXml, msg=new):
                osc.answers(SENT, RESULT.replace(old, new))

    def test_a_relation_that_is_emptied_and_then_deleted(self):
        sent = [change('modify', 'r1 v1 T M'), change('delete', 'r1 v2')]
        text = '<diffResult><relation old_id="1" new_id="1" new_version="2"/><relation old_id="1"/></diffResult>'
        self.assertEqual(['modify r1 v2', 'delete r1 v3'], osc.answers(sent, text))


class LookedUp(unittest.TestCase):
    def test_by_what_the_changeset_has(self):
        self.assertEqual(LINES, osc.looked_up(SENT, TAKEN))

    def test_among_other_changes_of_the_changeset(self):
        more = TAKEN.replace(
            '</osmChange>',
            '<create><node id="95" version="1" lat="1" lon="1"/></create></osmChange>',
        )
        self.assertEqual(LINES, osc.looked_up(SENT, more))

    def test_none_of_them(self):
        for text in (
            '<osmChange/>',
            '<osmChange><create><node id="95" version="1" lat="1" lon="1"/></create></osmChange>',
        ):
            with self.assertRaises(osc.NotThere):
                osc.looked_up(SENT, text)

    def test_some_of_them_alone(self):
        for old, new in [
            ('id="8" version="4"', 'id="8" version="5"'),
            ('v="footway"', 'v="path"'),
            ('ref="92"', 'ref="93"'),
            ('role="forward"', 'role=""'),
        ]:
            with self.assertRaises(ValueError) as raised:
                osc.looked_up(SENT, TAKEN.replace(old, new))
            self.assertNotIsInstance(raised.exception, (osc.NotThere, osc.NoXml))

    def test_two_alike_get_the_ids_in_their_order(self):
        sent = [change('create', 'n-1 v0 T x1 y1'), change('create', 'n-2 v0 T x1 y1')]
        text = '<osmChange><create><node id="100" version="1" lat="1" lon="1"/><node id="99" version="1" lat="1" lon="1"/></create></osmChange>'
        self.assertEqual(['create n-1 n99 v1', 'create n-2 n100 v1'], osc.looked_up(sent, text))

    def test_one_that_an_earlier_chunk_made_is_another_one(self):
        sent = [change('create', 'n-2 v0 T x1 y1')]
        text = '<osmChange><create><node id="99" version="1" lat="1" lon="1"/></create></osmChange>'
        with self.assertRaises(osc.NotThere):
            osc.looked_up(sent, text, {'n99'})
        both = text.replace('</create>', '<node id="100" version="1" lat="1" lon="1"/></create>')
        self.assertEqual(['create n-2 n100 v1'], osc.looked_up(sent, both, {'n99'}))

    def test_what_is_no_document(self):
        for text in ('', '<osmChange', '<osm/>', '<osmChange><made/></osmChange>'):
            with self.assertRaises(osc.NoXml, msg=text):
                osc.looked_up(SENT, text)


if __name__ == '__main__':
    unittest.main()
