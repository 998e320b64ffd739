"""Edits of other tools: JOSM's files and osmChange, read, written, and made steps of a session."""
import random
import re
import unittest

from yoke import table
from yoke.formats import foreign, osm_xml
from yoke.tests import sessions

TOWN = """\
n1 v2 dV c311 t2024-05-06T07:10:00Z i17 uanna T x9.5001 y47.1401
n2 v1 dV c305 t2024-04-02T18:22:41Z i17 uanna Thighway=bus_stop x9.5006 y47.1402
n3 v1 dV c305 t2024-04-02T18:22:41Z i17 uanna T x9.5011 y47.1402
n4 v4 dV c340 t2024-05-11T12:00:00Z i23 ubeat Tamenity=bench x9.5007 y47.1403
n11 v1 x9.5012 y47.1405
n12 v1 x9.5014 y47.1405
n13 v1 x9.5014 y47.1407
n14 v1 x9.5012 y47.1407
w10 v2 dV c311 t2024-05-06T07:10:00Z i17 uanna Thighway=residential,name=Mill%20%Lane Nn1,n2,n3
w20 v1 Tbuilding=barn Nn11,n12,n13,n14,n11
r30 v7 dV c340 t2024-05-11T12:00:00Z i23 ubeat Tref=12,route=bus,type=route Mn2@stop,w10@,w77@
"""

DRAWN = b"""<?xml version='1.0' encoding='UTF-8'?>
<osm version='0.6' generator='JOSM'>
  <bounds minlat='47.14' minlon='9.5' maxlat='47.15' maxlon='9.51' origin='OpenStreetMap server' />
  <node id='-101752' action='modify' visible='true' lat='47.14014123456' lon='9.50034'>
    <tag k='highway' v='crossing' />
  </node>
  <node id='1' timestamp='2024-05-06T07:10:00Z' uid='17' user='anna' visible='true' version='2' changeset='311' lat='47.1401' lon='9.5001' />
  <node id='2' visible='true' version='1' lat='47.1402' lon='9.5006'><tag k='highway' v='bus_stop' /></node>
  <node id='3' visible='true' version='1' lat='47.1402' lon='9.5011' />
  <node id='4' action='modify' visible='true' version='4' lat='47.1403001' lon='9.5007'>
    <tag k='amenity' v='bench' />
    <tag k='inscription' v='50% oak, &quot;x=y&quot;' />
  </node>
  <node id='11' action='delete' visible='true' version='1' lat='47.1405' lon='9.5012' />
  <node id='12' action='delete' visible='true' version='1' lat='47.1405' lon='9.5014' />
  <node id='13' action='delete' visible='true' version='1' lat='47.1407' lon='9.5014' />
  <node id='14' action='delete' visible='true' version='1' lat='47.1407' lon='9.5012' />
  <way id='10' action='modify' visible='true' version='2'>
    <nd ref='1' /><nd ref='-101752' /><nd ref='2' /><nd ref='3' />
    <tag k='highway' v='residential' />
    <tag k='surface' v='asphalt' />
  </way>
  <way id='20' action='delete' visible='true' version='1' />
  <way id='-101754' action='modify' visible='true'>
    <nd ref='-101752' /><nd ref='4' />
    <tag k='highway' v='footway' />
  </way>
  <relation id='30' action='modify' visible='true' version='7'>
    <member type='node' ref='2' role='stop' />
    <member type='way' ref='10' role='' />
    <member type='way' ref='77' role='' />
    <member type='way' ref='-101754' role='' />
    <tag k='ref' v='12' /><tag k='route' v='bus' /><tag k='type' v='route' />
  </relation>
</osm>
"""


def town(*lines):
    return sessions.session(('download town.opl',) + lines, town_opl=TOWN)


def josm(text, data, start=None):
    """The plan of a JOSM file over a saved session."""
    return foreign.plan(osm_xml.read_josm(data).told, table.read(text), start and table.read(start))


def written(text, state='1-0a1b'):
    return '\n'.join(osm_xml.josm_lines(table.read(text), state)).encode()


def after(text, plan):
    """The table after the steps of a plan, of which each has to be taken."""
    output = sessions.goes_on(text, plan.lines)
    if output.refused():
        raise AssertionError((output.refused(), plan.lines))
    return table.read(output.saved())


def contents(found):
    return {key: known.mine and known.mine.content for key, known in found.things.items()}


class Josm(unittest.TestCase):
    def test_a_drawing_becomes_steps(self):
        plan = josm(town(), DRAWN)
        self.assertEqual(plan.problems, [])
        self.assertEqual(
            plan.lines,
            [
                'node x9.50034 y47.1401412 Thighway=crossing',
                'way Thighway=footway Nn-1,n4',
                'place n4 x9.5007 y47.1403001',
                'nodes w10 Nn1,n-1,n2,n3',
                'members r30 Mn2@stop,w10@,w77@,w-2@',
                'tag n4 Tinscription=50%25%%20%oak%2c%%20%"x%3d%y"',
                'tag w10 Tname=,surface=asphalt',
                'delete w20,n11,n12,n13,n14',
            ],
        )
        self.assertEqual(plan.made, {'n-101752': 'n-1', 'w-101754': 'w-2'})
        self.assertEqual(
            dict(plan.counts),
            {'new': 2, 'tags': 2, 'place': 1, 'nodes': 1, 'members': 1, 'deleted': 5},
        )
        found = after(town(), plan)
        self.assertEqual(found.mine('w10').tags, {'highway': 'residential', 'surface': 'asphalt'})
        self.assertEqual(found.mine('r30').members[-1], ('w-2', ''))
        self.assertIsNone(found.mine('n11'))

    def test_the_same_drawing_again_does_nothing(self):
        text = sessions.goes_on(town(), josm(town(), DRAWN).lines).saved()
        plan = josm(text, DRAWN)
        self.assertEqual((plan.lines, plan.problems, plan.made), ([], [], {}))
        self.assertEqual(
            plan.notes,
            [
                "the session has 2 of its new objects already, as n-1: not made again, unless by --again"
            ],
        )

    def test_new_ids_count_on_from_the_session(self):
        text = town('node x9.5 y47.14 T', 'node x9.5 y47.141 T', 'undo 1')
        self.assertEqual(josm(text, DRAWN).made, {'n-101752': 'n-2', 'w-101754': 'w-3'})
        after(text, josm(text, DRAWN))

    def test_what_both_changed_alike_or_apart_is_joined(self):
        text = town('tag n4 Tmaterial=wood', 'tag w10 Tsurface=asphalt', 'place n2 x9.5 y47.14')
        plan = josm(text, DRAWN)
        self.assertEqual(plan.problems, [])
        self.assertIn('tag w10 Tname=', plan.lines)
        self.assertEqual(
            after(text, plan).mine('n4').tags,
            {'amenity': 'bench', 'inscription': '50% oak, "x=y"', 'material': 'wood'},
        )

    def test_what_is_wrong_is_said_and_nothing_done(self):
        v4 = TOWN.replace('w10 v2', 'w10 v3')
        for text, data, words in [
            (
                town('tag w10 Tsurface=gravel'),
                DRAWN,
                'w10: the tag surface was changed there to "asphalt" and here to "gravel"',
            ),
            (
                town('tag w10 Tname=Old'),
                DRAWN,
                'w10: the tag name was changed there to nothing and here to "Old"',
            ),
            (town('place n4 x9 y47'), DRAWN, 'n4: its place was changed there and here'),
            (town('nodes w10 Nn1,n3'), DRAWN, 'w10: its nodes were changed there and here'),
            (town('members r30 M'), DRAWN, 'r30: its members were changed there and here'),
            (town('tag w20 Tname=Barn'), DRAWN, 'w20 is deleted there, and was changed here'),
            (town('delete r30,w10'), DRAWN, 'w10 is deleted here, and was changed there'),
            (
                sessions.session(['download town.opl'], town_opl=v4),
                DRAWN,
                'w10 has version 2 there, and the session began from version 3',
            ),
            (town(), DRAWN.replace(b"id='10'", b"id='9'"), "w9 isn't in the session: download it"),
            (
                town(),
                DRAWN.replace(b"id='10'", b"id='77'"),
                'w77 is only referred to here: download it',
            ),
            (
                town(),
                DRAWN.replace(b"<nd ref='3' />", b"<nd ref='5' />"),
                "w10 refers to n5, which the session doesn't know: download it",
            ),
            (
                town(),
                DRAWN.replace(b"<nd ref='4' />", b"<nd ref='-7' />"),
                "w-2 refers to n-7, which isn't in the document",
            ),
            (
                town('node x1 y1 T'),
                DRAWN.replace(b"<nd ref='3' />", b"<nd ref='-1' />"),
                "w10 refers to n-1, which isn't in the document",
            ),
            (
                town(),
                DRAWN.replace(b"v='crossing'", b"v='" + b'x' * 256 + b"'"),
                'n-1 has a text of 256 characters, and the map takes 255: x',
            ),
            (
                town(),
                DRAWN.replace(b"v='asphalt'", b"v=''"),
                'w10: no step gives a tag that is there an empty value: surface',
            ),
        ]:
            plan = josm(text, data)
            self.assertEqual(
                (plan.lines, [problem for problem in plan.problems if problem.startswith(words)]),
                ([], plan.problems[:1]),
                words,
            )

    def test_a_line_feed_in_a_key_begins_no_line(self):
        forged = DRAWN.replace(b"k='surface' v='asphalt'", b"k='a&#10;n1 is deleted' v='b&#10;c'")
        text = town('tag w10 Ta%a%n1%20%is%20%deleted=x')
        problems = josm(text, forged).problems
        self.assertEqual(
            ['w10: the tag a%a%n1 is deleted was changed there to "b%a%c" and here to "x"'],
            problems,
        )

    def test_an_object_in_conflict_is_said(self):
        text = sessions.session(
            ['download town.opl', 'tag n4 Tbackrest=yes', 'download later.opl'],
            town_opl=TOWN,
            later_opl='n4 v5 Tamenity=bench,backrest=no x9.5007 y47.1403\n',
        )
        self.assertEqual(josm(text, DRAWN).problems, ['n4 is in conflict: resolve it first'])

    def test_objects_that_it_leaves_alone_may_have_another_version(self):
        text = sessions.session(['download town.opl'], town_opl=TOWN.replace('n3 v1', 'n3 v2'))
        plan = josm(text, DRAWN)
        self.assertEqual(
            plan.notes, ["1 objects that it doesn't change are there in another version, as n3"]
        )
        after(text, plan)

    def test_relations_in_a_ring_are_made(self):
        data = b"""<osm version='0.6'><relation id='-1' action='modify'><member type='relation' ref='-2' role='a'/></relation>
            <relation id='-2' action='modify'><member type='relation' ref='-1' role='b'/><member type='relation' ref='-2' role=''/></relation></osm>"""
        found = after(town(), josm(town(), data))
        self.assertEqual(
            [found.mine(key).members for key in ('r-1', 'r-2')],
            [(('r-2', 'a'),), (('r-1', 'b'), ('r-2', ''))],
        )

    def test_what_came_and_went(self):
        plan = josm(town(), b"<osm><node id='-5' action='delete' lat='1' lon='1'/></osm>")
        self.assertEqual((plan.problems, plan.lines), ([], []))

    def test_no_file_of_josm(self):
        for data, words in [
            (b'', 'it is no XML'),
            (b'<osm', 'it is no XML'),
            (b'<gpx/>', 'begins with <gpx>, and <osm> is wanted'),
            (b"<osm><node id='0' lat='1' lon='1'/></osm>", 'has the id 0'),
            (b"<osm><node id='x' lat='1' lon='1'/></osm>", "has the id 'x'"),
            (
                b"<osm><node id='1' lat='91' lon='1'/></osm>",
                'n1 has the lat 91, which lies off the map',
            ),
            (b"<osm><node id='1' lat='1'/></osm>", 'n1 has the lon None'),
            (b"<osm><node id='1' lat='nan' lon='1'/></osm>", "n1 has the lat 'nan'"),
            (b"<osm><way id='1'><nd/></way></osm>", "a nd has the ref ''"),
            (b"<osm><way id='1'/><way id='1'/></osm>", 'w1 stands twice'),
            (
                b"<osm><way id='1'><tag k='a' v='1'/><tag k='a' v='2'/></way></osm>",
                'w1 has two tags a',
            ),
            (b"<osm><way id='1'><tag k='' v='1'/></way></osm>", 'w1 has a tag without a key'),
            (b"<osm><way id='1' action='move'/></osm>", "way 1 has the action 'move'"),
            (
                b"<osm><relation id='1'><member type='area' ref='1'/></relation></osm>",
                "a member has the type 'area'",
            ),
            (
                b"<osm><way id='-1' user='yoke w-1'/><way id='-2' user='yoke w-1'/></osm>",
                'w-1 stands twice',
            ),
            (b"<osm><way id='-1' user='yoke n-1'/></osm>", 'w-1 is marked as n-1'),
            (
                b"<osm><bounds origin='yoke 1-a'/><bounds origin='yoke 2-b'/></osm>",
                'drawn over several states of a session: 1-a, 2-b',
            ),
        ]:
            with self.assertRaisesRegex(ValueError, words):
                osm_xml.read_josm(data)


def renumbered(data):
    """A file as JOSM may save it: other ids of what is new, longer places, tags in another order,
    and no state of a session.
    """
    text = re.sub(
        "((?:id|ref)=[\"'])-([0-9]+)",
        lambda found: f'{found[1]}-{101700 + int(found[2])}',
        data.decode(),
    )
    text = re.sub(
        '(lat|lon)="([-0-9.]+)"',
        lambda found: '{}="{}"'.format(found[1], found[2] + ('00' if '.' in found[2] else '.000')),
        text,
    )
    objects = re.findall('  <(?:node|way|relation) .*?</(?:node|way|relation)>', text, re.S)
    if not objects:
        return data
    tags = [re.findall('    <tag .*?/>', each) for each in objects]
    objects = [
        re.sub('    <tag .*?/>\n', '', each).replace('  </', '\n'.join(lines[::-1]) + '\n  </')
        for each, lines in zip(objects, tags)
    ]
    return (
        text[: text.index('  <', text.index('<bounds') + 9)] + '\n'.join(objects[::-1]) + '\n</osm>'
    ).encode()


class ThereAndBack(unittest.TestCase):
    LINES = [
        'node x9.5009 y47.1409 Tamenity=bench,note=tab%9%and%a%line',
        'way Thighway=path Nn3,n-1,n12',
        'relation Ttype=site Mn-1@,w-2@a%20%role,r30@',
        'tag n4 Tamenity=,name=%22%<&>\'',
        'place n1 x-9.5 y-47.0000001',
        'nodes w10 Nn1,n3',
        'members r30 M',
        'erase w20',
    ]

    def test_changes_nothing(self):
        text = town(*self.LINES)
        for data in (written(text), renumbered(written(text))):
            for start in (None, text):
                plan = josm(text, data, start if start else None)
                if start or data == written(text):
                    self.assertEqual((plan.problems, plan.notes), ([], []))
                    self.assertEqual(plan.lines, [])

    def test_the_file_says_what_was_done(self):
        drawn = osm_xml.read_josm(written(town(*self.LINES), '42-c3d4'))
        self.assertEqual(drawn.state, '42-c3d4')
        actions = {one.thing.key: one.action for one in drawn.told if one.action}
        self.assertEqual(
            actions,
            {
                'n1': 'modify',
                'n4': 'modify',
                'n11': 'delete',
                'n13': 'delete',
                'n14': 'delete',
                'n-1': 'create',
                'w10': 'modify',
                'w20': 'delete',
                'w-2': 'create',
                'r30': 'modify',
                'r-3': 'create',
            },
        )
        data = written(town(*self.LINES)).decode()
        self.assertIn(
            '<bounds minlat=\'-47.0000001\' minlon=\'-9.5\' maxlat=\'47.1409\' maxlon=\'9.5014\' origin=\'yoke 1-0a1b\' />',
            data,
        )
        self.assertIn(
            '<node id="4" action="modify" timestamp="2024-05-11T12:00:00Z" uid="23" user="beat" visible="true" version="4" changeset="340" lat="47.1403"',
            data,
        )

    def test_work_over_it_comes_in(self):
        text = town(*self.LINES)
        data = (
            renumbered(written(text))
            .replace(b'v="bench"', b'v="waste_basket"')
            .replace(b'    <nd ref="12" />\n', b'')
        )
        plan = josm(text, data, text)
        self.assertEqual(
            (plan.problems, plan.lines),
            ([], ['nodes w-2 Nn3,n-1', 'tag n-1 Tamenity=waste_basket']),
        )

    def test_a_new_object_that_refers_to_one_of_the_session(self):
        text = town(*self.LINES)
        data = renumbered(written(text)).replace(
            b'</osm>', b"<way id='-5' action='modify'><nd ref='-101701'/><nd ref='2'/></way></osm>"
        )
        self.assertEqual(josm(text, data, text).lines, ['way T Nn-1,n2'])

    def test_what_josm_dropped_is_deleted(self):
        text = town('node x9.5 y47.14 Tamenity=bench', 'node x9.51 y47.14 Tamenity=bench')
        data = re.sub(b'  <node id="-1" .*?</node>\n', b'', written(text), flags=re.S)
        self.assertEqual(josm(text, data, text).lines, ['delete n-1'])
        later = sessions.goes_on(text, ['node x9.52 y47.14 T', 'tag n-2 Tbackrest=yes']).saved()
        plan = josm(later, data, text)
        self.assertEqual((plan.problems, plan.lines), ([], ['delete n-1']))
        plan = josm(sessions.goes_on(text, ['tag n-1 Tbackrest=yes']).saved(), data, text)
        self.assertEqual(plan.problems, ['n-1 is deleted there, and was changed here'])

    def test_without_the_state_what_isnt_there_stays(self):
        text = town('node x9.5 y47.14 Tamenity=bench', 'node x9.51 y47.14 Tamenity=bench')
        plan = josm(text, re.sub(b'  <node id="-1" .*?</node>\n', b'', written(text), flags=re.S))
        self.assertEqual(
            (plan.lines, plan.notes),
            ([], ["1 new objects of the session aren't in it, and stay, as n-1"]),
        )

    def test_the_session_went_on_meanwhile(self):
        text = town(*self.LINES)
        later = sessions.goes_on(text, ['tag n-1 Tbackrest=yes', 'tag w10 Tname=Lane']).saved()
        plan = josm(later, written(text).replace(b'v="bench"', b'v="waste_basket"'), text)
        self.assertEqual((plan.problems, plan.lines), ([], ['tag n-1 Tamenity=waste_basket']))

    def test_what_went_back_to_the_servers_version(self):
        text = town(*self.LINES)
        data = (
            written(text)
            .replace(b'<way id="10" action="modify"', b'<way id="10"')
            .replace(
                b'    <nd ref="1" />\n    <nd ref="3" />',
                b'<nd ref="1"/><nd ref="2"/><nd ref="3"/>',
            )
        )
        self.assertEqual(josm(text, data, text).lines, ['nodes w10 Nn1,n2,n3'])
        self.assertEqual(josm(text, data).lines, [])

    def test_a_refresh_lies_between(self):
        text = town('tag n4 Tbackrest=yes', 'erase w20')
        later = 'n4 v5 Tamenity=bench,material=wood x9.5007 y47.1403\nw10 v3 Thighway=residential,name=Mill%20%Lane,lit=yes Nn1,n2,n3\n'
        merged = sessions.ran(
            ['resume s.saved', 'download later.opl', 'save'], s_saved=text, later_opl=later
        ).saved()
        self.assertEqual(
            (josm(merged, written(text), text).problems, josm(merged, written(text), text).lines),
            ([], []),
        )
        plan = josm(
            merged,
            written(text)
            .replace(b'v="bench"', b'v="waste_basket"')
            .replace(b'v="Mill Lane"', b'v="Lane"')
            .replace(b'<way id="10"', b'<way id="10" action="modify"'),
            text,
        )
        self.assertEqual(
            plan.problems,
            [
                'n4 has version 4 there, and the session began from version 5',
                'w10 has version 2 there, and the session began from version 3',
            ],
        )

    def test_an_upload_lies_between(self):
        text = town(*self.LINES)
        sent = sessions.ran(
            ['resume s.saved', 'upload 1', 'confirm answers.txt', 'save'],
            s_saved=text,
            answers_txt='create n-1 n901 v1\n',
        ).saved()
        self.assertEqual(
            (josm(sent, written(text), text).problems, josm(sent, written(text), text).lines),
            ([], []),
        )
        self.assertEqual(
            josm(sent, written(text).replace(b'v="Mill Lane"', b'v="Lane"'), text).lines,
            ['tag w10 Tname=Lane'],
        )
        self.assertEqual(
            josm(sent, written(text).replace(b'v="bench"', b'v="waste_basket"'), text).problems[:1],
            [
                "n-1 isn't new in this session: the document was written from another one, or before an upload"
            ],
        )

    def test_a_text_that_xml_cant_carry(self):
        with self.assertRaisesRegex(ValueError, 'n4 has a text with U\\+0001'):
            written(town('tag n4 Tname=%1%'))

    def test_random_sessions(self):
        dice = random.Random(7)
        for _ in range(12):
            text = sessions.ran(
                ['download town.opl'] + list(some_steps(dice, 12)) + ['save'], town_opl=TOWN
            ).saved()
            data = written(text)
            for data in (data, renumbered(data)):
                plan = josm(text, data, text)
                self.assertEqual((plan.problems, plan.lines), ([], []))
            done = table.read(
                sessions.ran(
                    ['resume s.saved'] + list(some_steps(dice, 6)) + ['save'], s_saved=text
                ).saved()
            )
            fresh = {key for key in done.new() if int(key[2:]) >= table.read(text).next_new}
            data = '\n'.join(osm_xml.josm_lines(done, '1-0a1b'))
            for key in fresh:
                data = data.replace(f' user="yoke {key}"', '')
            plan = foreign.plan(
                osm_xml.read_josm(data.encode()).told, table.read(text), table.read(text)
            )
            self.assertEqual((plan.problems, set(plan.made)), ([], fresh))
            self.assertEqual(contents(after(text, plan)), renamed(contents(done), plan.made))
            later = sessions.goes_on(text, plan.lines).saved()
            plan = foreign.plan(
                osm_xml.read_josm(data.encode()).told, table.read(later), table.read(text)
            )
            self.assertEqual((plan.problems, plan.lines), ([], []))


def renamed(things, names):
    """Contents by key with other keys."""

    def name(key):
        return names.get(key, key)

    return {
        name(key): content
        and (
            *content[:3],
            tuple(map(name, content[3])),
            tuple((name(member), role) for member, role in content[4]),
        )
        for key, content in things.items()
    }


def some_steps(dice, number):
    """Steps over the town; some are refused."""
    keys = ['n1', 'n2', 'n3', 'n4', 'n11', 'n12', 'w10', 'w20', 'r30', 'n-1', 'w-2']
    for _ in range(number):
        key = dice.choice(keys)
        yield dice.choice(
            [
                'tag {} T{}={}'.format(
                    key, dice.choice(['name', 'ref']), dice.choice(['', 'a', 'b%20%c'])
                ),
                'delete ' + key,
                'erase ' + key,
                'place {} x{} y{}'.format(
                    dice.choice(keys[:6]), dice.randint(-9, 9), dice.randint(-9, 9)
                ),
                f'node x1 y{dice.randint(0, 9)} T',
                'nodes {} Nn1,{},n3'.format(
                    dice.choice(['w10', 'w20', 'w-2']), dice.choice(keys[:6])
                ),
                'way Thighway=path Nn3,n4',
                f'members r30 M{key}@,{dice.choice(keys)}@x',
                'reverse w10',
                'undo 1',
            ]
        )


class OsmChange(unittest.TestCase):
    OSC = b"""<osmChange version="0.6" generator="a tool">
      <create><node id="-1" lat="47.1409" lon="9.5009"><tag k="amenity" v="bench"/></node>
        <way id="-1"><nd ref="-1"/><nd ref="4"/></way></create>
      <modify><node id="4" version="4" lat="47.1403" lon="9.5007"><tag k="amenity" v="bench"/><tag k="backrest" v="yes"/></node></modify>
      <modify><node id="-1" lat="47.1409" lon="9.5010"><tag k="amenity" v="bench"/></node>
        <node id="4" version="5" lat="47.1403" lon="9.5007"><tag k="amenity" v="bench"/><tag k="backrest" v="no"/></node></modify>
      <create><node id="-2" lat="0" lon="0"/></create>
      <delete if-unused="true"><way id="20" version="1"/><node id="-2"/><node id="11" version="1"/><node id="12" version="1" lat="1" lon="1"/></delete>
      </osmChange>"""

    def test_changes_become_steps(self):
        text = town()
        plan = foreign.plan(osm_xml.read_osc(self.OSC), table.read(text))
        self.assertEqual(
            (plan.problems, plan.lines),
            (
                [],
                [
                    'node x9.501 y47.1409 Tamenity=bench',
                    'way T Nn-1,n4',
                    'tag n4 Tbackrest=no',
                    'delete w20,n11,n12',
                ],
            ),
        )
        after(text, plan)

    def test_what_a_server_did_is_no_edit(self):
        data = b'<osmChange><create><node id="5" version="1" lat="1" lon="1"/></create></osmChange>'
        plan = foreign.plan(osm_xml.read_osc(data), table.read(town()))
        self.assertEqual(
            plan.problems,
            ['n5 is made with an id of a server: what a server did comes in by `download`'],
        )

    def test_a_new_object_that_it_doesnt_make(self):
        for action in ('modify', 'delete'):
            data = '<osmChange><{0}><node id="-5" version="1" lat="1" lon="1"/></{0}></osmChange>'.format(
                action
            ).encode()
            self.assertEqual(
                foreign.plan(osm_xml.read_osc(data), table.read(town())).problems,
                ['n-5 is changed there, and not made there'],
            )

    def test_no_osmchange(self):
        for data, words in [
            (b'<osm/>', '<osmChange> is wanted'),
            (b'<osmChange><change/></osmChange>', '<change> is no part'),
            (b'<osmChange><delete><area id="1"/></delete></osmChange>', '<area> is no object'),
        ]:
            with self.assertRaisesRegex(ValueError, words):
                osm_xml.read_osc(data)


if __name__ == '__main__':
    unittest.main()
