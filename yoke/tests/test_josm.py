"""Files as JOSM saves them: written by hand, and by the layer of `josm.py` over what `yoke to-josm`
wrote.
"""
import json
import pathlib
import random
import re
import unittest
from decimal import Decimal

from yoke import opl, table
from yoke.formats import foreign, osm_xml
from yoke.tests import sessions
from yoke.tests.josm import Layer
from yoke.tests.support import ServerTest
from yoke.tests.test_foreign import contents, some_steps
from yoke.trouble import Refused

# an area as a server gives it: a street with a crossing, a barn, a school of two buildings with a
# courtyard, a route that leads out
AREA = """\
n1 v2 dV c311 t2024-05-06T07:10:00Z i17 uanna T x9.5001 y47.1401
n2 v1 dV c305 t2024-04-02T18:22:41Z i17 uanna Thighway=bus_stop,name=O'Brien%20%<&>%20%"Sons" x9.5006 y47.1402
n3 v1 dV c305 t2024-04-02T18:22:41Z i17 uanna T x9.5011 y47.1402
n4 v4 dV c340 t2024-05-11T12:00:00Z i23 ubeat%20%o'h Tamenity=bench x9.5007 y47.1403
n11 v1 x9.5012 y47.1405
n12 v1 x9.5014 y47.1405
n13 v1 x9.5014 y47.1407
n14 v1 x9.5012 y47.1407
n21 v1 x9.502 y47.14
n22 v1 x9.503 y47.14
n23 v1 x9.503 y47.141
n24 v1 x9.502 y47.141
n25 v1 x9.5023 y47.1403
n26 v1 x9.5027 y47.1403
n27 v1 x9.5025 y47.1407
n31 v1 x9.504 y47.14
n32 v1 x9.505 y47.14
n33 v1 x9.504 y47.141
w10 v2 dV c311 t2024-05-06T07:10:00Z i17 uanna Thighway=residential,name=Mill%20%Lane Nn1,n2,n3
w20 v1 Tbuilding=barn Nn11,n12,n13,n14,n11
w41 v1 T Nn21,n22,n23,n24,n21
w42 v1 T Nn25,n26,n27,n25
w43 v1 T Nn31,n32,n33,n31
r30 v7 dV c340 t2024-05-11T12:00:00Z i23 ubeat Tref=12,route=bus,type=route Mn2@stop,w10@,w77@,r88@
r50 v3 Tbuilding=school,type=multipolygon Mw41@outer,w42@inner,w43@outer
"""

# such a file by hand, byte by byte as JOSM saves a layer that was downloaded: the lane goes through
# a new crossing and gets a sidewalk, the bench moves and gets an inscription of two lines, the barn
# goes, the school loses a part and gets a courtyard in what is left; a new building with a hole,
# and a node that was drawn for nothing
SAVED = b"""<?xml version='1.0' encoding='UTF-8'?>
<osm version='0.6' generator='JOSM'>
  <bounds minlat='47.139' minlon='9.499' maxlat='47.142' maxlon='9.506' origin='CGImap 2.0.1 (4034022 spike-08.openstreetmap.org)' />
  <bounds minlat='47.1395' minlon='9.5' maxlat='47.1425' maxlon='9.5075' origin='OpenStreetMap server' />
  <node id='-101766' action='modify' visible='true' lat='47.14215127881' lon='9.50131342007' />
  <node id='-101765' action='modify' visible='true' lat='47.14205127881' lon='9.50141342007' />
  <node id='-101764' action='modify' visible='true' lat='47.14205127881' lon='9.50131342007' />
  <node id='-101763' action='modify' visible='true' lat='47.1423' lon='9.501' />
  <node id='-101762' action='modify' visible='true' lat='47.1423' lon='9.502' />
  <node id='-101761' action='modify' visible='true' lat='47.142' lon='9.502' />
  <node id='-101760' action='modify' visible='true' lat='47.142' lon='9.501' />
  <node id='-101752' action='modify' visible='true' lat='47.14014123456' lon='9.50034'>
    <tag k='highway' v='crossing' />
  </node>
  <node id='1' timestamp='2024-05-06T07:10:00Z' uid='17' user='anna' visible='true' version='2' changeset='311' lat='47.1401' lon='9.5001' />
  <node id='2' timestamp='2024-04-02T18:22:41Z' uid='17' user='anna' visible='true' version='1' changeset='305' lat='47.1402' lon='9.5006'>
    <tag k='highway' v='bus_stop' />
    <tag k='name' v='O&apos;Brien &lt;&amp;&gt; &quot;Sons&quot;' />
  </node>
  <node id='3' timestamp='2024-04-02T18:22:41Z' uid='17' user='anna' visible='true' version='1' changeset='305' lat='47.1402' lon='9.5011' />
  <node id='4' action='modify' timestamp='2024-05-11T12:00:00Z' uid='23' user='beat o&apos;h' visible='true' version='4' changeset='340' lat='47.14030000012' lon='9.50071234567'>
    <tag k='amenity' v='bench' />
    <tag k='inscription' v='In memory&#xA;of &quot;Ada&quot;' />
  </node>
  <node id='11' action='delete' visible='true' version='1' lat='47.1405' lon='9.5012' />
  <node id='12' action='delete' visible='true' version='1' lat='47.1405' lon='9.5014' />
  <node id='13' action='delete' visible='true' version='1' lat='47.1407' lon='9.5014' />
  <node id='14' action='delete' visible='true' version='1' lat='47.1407' lon='9.5012' />
  <node id='21' visible='true' version='1' lat='47.14' lon='9.502' />
  <node id='22' visible='true' version='1' lat='47.14' lon='9.503' />
  <node id='23' visible='true' version='1' lat='47.141' lon='9.503' />
  <node id='24' visible='true' version='1' lat='47.141' lon='9.502' />
  <node id='31' action='delete' visible='true' version='1' lat='47.14' lon='9.504' />
  <node id='32' action='delete' visible='true' version='1' lat='47.14' lon='9.505' />
  <node id='33' action='delete' visible='true' version='1' lat='47.141' lon='9.504' />
  <way id='-101768' action='modify' visible='true'>
    <nd ref='-101764' />
    <nd ref='-101765' />
    <nd ref='-101766' />
    <nd ref='-101764' />
  </way>
  <way id='-101767' action='modify' visible='true'>
    <nd ref='-101760' />
    <nd ref='-101761' />
    <nd ref='-101762' />
    <nd ref='-101763' />
    <nd ref='-101760' />
  </way>
  <way id='-101753' action='modify' visible='true'>
    <nd ref='-101752' />
    <nd ref='4' />
    <tag k='footway' v='sidewalk' />
    <tag k='highway' v='footway' />
  </way>
  <way id='10' action='modify' timestamp='2024-05-06T07:10:00Z' uid='17' user='anna' visible='true' version='2' changeset='311'>
    <nd ref='1' />
    <nd ref='-101752' />
    <nd ref='2' />
    <nd ref='3' />
    <tag k='highway' v='residential' />
    <tag k='name' v='Mill Lane' />
  </way>
  <way id='20' action='delete' visible='true' version='1'>
    <tag k='building' v='barn' />
  </way>
  <way id='41' visible='true' version='1'>
    <nd ref='21' />
    <nd ref='22' />
    <nd ref='23' />
    <nd ref='24' />
    <nd ref='21' />
  </way>
  <way id='43' action='delete' visible='true' version='1'>
  </way>
  <relation id='-101769' action='modify' visible='true'>
    <member type='way' ref='-101767' role='outer' />
    <member type='way' ref='-101768' role='inner' />
    <tag k='building' v='yes' />
    <tag k='type' v='multipolygon' />
  </relation>
  <relation id='30' timestamp='2024-05-11T12:00:00Z' uid='23' user='beat' visible='true' version='7' changeset='340'>
    <member type='node' ref='2' role='stop' />
    <member type='way' ref='10' role='' />
    <member type='way' ref='77' role='' />
    <member type='relation' ref='88' role='' />
    <tag k='ref' v='12' />
    <tag k='route' v='bus' />
    <tag k='type' v='route' />
  </relation>
  <relation id='50' action='modify' visible='true' version='3'>
    <member type='way' ref='41' role='outer' />
    <member type='way' ref='42' role='inner' />
    <tag k='building' v='school' />
    <tag k='name' v='Schulhaus' />
    <tag k='type' v='multipolygon' />
  </relation>
</osm>
"""


def area(*lines):
    return sessions.session(('download area.opl',) + lines, area_opl=AREA)


class ByHand(unittest.TestCase):
    def test_the_layer_saves_such_a_file(self):
        """The layer of the tests reads the file and saves the same bytes, but for the ids of what
        is new.
        """
        lines = [
            sorted(re.sub("'-[0-9]+'", "'new'", data.decode()).splitlines())
            for data in (Layer(SAVED).save(), SAVED)
        ]
        self.assertEqual(*lines)

    def test_it_becomes_steps(self):
        plan = foreign.plan(osm_xml.read_josm(SAVED).told, table.read(area()))
        self.assertEqual((plan.problems, plan.notes), ([], []))
        found = table.read(sessions.goes_on(area(), plan.lines).saved())
        self.assertEqual(found.mine('n4').tags['inscription'], 'In memory\nof "Ada"')
        self.assertEqual(
            (found.mine('n4').lon, found.mine('n4').lat), (Decimal('9.5007123'), Decimal('47.1403'))
        )
        self.assertEqual(found.mine('r50').members, (('w41', 'outer'), ('w42', 'inner')))
        self.assertEqual(
            found.mine('r50').tags,
            {'building': 'school', 'name': 'Schulhaus', 'type': 'multipolygon'},
        )
        crossing, building = plan.made['n-101752'], plan.made['r-101769']
        self.assertEqual(found.mine('w10').nodes, ('n1', crossing, 'n2', 'n3'))
        self.assertEqual([role for _, role in found.mine(building).members], ['outer', 'inner'])
        rings = [
            [
                (str(found.mine(node).lon), str(found.mine(node).lat))
                for node in found.mine(way).nodes
            ]
            for way, _ in found.mine(building).members
        ]
        self.assertEqual(
            rings[0],
            [
                ('9.501', '47.142'),
                ('9.502', '47.142'),
                ('9.502', '47.1423'),
                ('9.501', '47.1423'),
                ('9.501', '47.142'),
            ],
        )
        self.assertEqual(
            rings[1],
            [
                ('9.5013134', '47.1420513'),
                ('9.5014134', '47.1420513'),
                ('9.5013134', '47.1421513'),
                ('9.5013134', '47.1420513'),
            ],
        )
        self.assertEqual(
            [key for key, known in found.things.items() if known.edit == 'deleted'],
            ['n11', 'n12', 'n13', 'n14', 'n31', 'n32', 'n33', 'w20', 'w43'],
        )
        self.assertEqual(
            dict(plan.counts),
            {'new': 12, 'place': 1, 'tags': 2, 'nodes': 1, 'members': 1, 'deleted': 9},
        )


class Both(ServerTest):
    """`yoke to-josm`, a layer, and `yoke josm`, over a day."""

    town = AREA

    def opened(self):
        """The layer that JOSM makes of what `yoke to-josm` writes."""
        self.done('to-josm', 'day.osm', '--force')
        return Layer(pathlib.Path('day.osm').read_bytes())

    def saved(self, layer):
        pathlib.Path('day.osm').write_bytes(layer.save())

    def test_nothing_done_changes_nothing(self):
        self.begin(
            'tag n4 Tnote=tab%9%and%a%line,name=%22%<&>\'',
            'erase w20',
            'node x9.5009 y47.1409 Tamenity=bench',
            'way T Nn3,n-1',
            'members r50 Mw41@outer,w42@inner',
            town=AREA,
        )
        self.saved(self.opened())
        self.assertEqual(self.done('josm', 'day.osm'), 'day.osm changes nothing here\n')
        self.saved(
            Layer(pathlib.Path('day.osm').read_bytes(), next_id=-7)
        )  # opened and saved once more
        self.assertEqual(self.done('josm', 'day.osm'), 'day.osm changes nothing here\n')

    def test_a_day_by_josm_comes_to_the_server(self):
        self.begin(town=AREA)
        pathlib.Path('day.osm').write_bytes(SAVED)
        self.assertIn(
            'new 12, tags 2, place 1, nodes 1, members 1, deleted 9', self.done('josm', 'day.osm')
        )
        self.assertEqual(0, self.send(), self.err)
        there = {key: one for key, one in self.theirs().items() if one.visible}
        self.assertFalse({'n11', 'n14', 'n31', 'w20', 'w43'} & set(there))
        self.assertEqual(there['n4'].tags['inscription'], 'In memory\nof "Ada"')
        building = next(
            one
            for one in there.values()
            if one.kind == 'relation' and one.tags.get('building') == 'yes'
        )
        self.assertEqual(
            [(member.role, len(there[f'w{member.number}'].nodes)) for member in building.members],
            [('outer', 5), ('inner', 4)],
        )
        self.assertEqual([], self.server.created_twice())

    def test_the_same_drawing_again_makes_nothing_again(self):
        self.begin(town=AREA)
        pathlib.Path('day.osm').write_bytes(SAVED)
        self.done('josm', 'day.osm')
        self.assertEqual(self.done('josm', 'day.osm'), 'day.osm changes nothing here\n')
        self.assertEqual(
            self.err,
            "yoke: day.osm: the session has 12 of its new objects already, as n-1: not made again, unless by --again\n",
        )
        self.assertEqual(0, self.send(), self.err)
        self.assertEqual(self.done('josm', 'day.osm'), 'day.osm changes nothing here\n')
        self.assertIn('the session has 12 of its new objects already', self.err)

    def test_going_on_in_the_same_layer(self):
        self.begin('node x9.5009 y47.1409 Tamenity=bench', town=AREA)
        layer = self.opened()
        basket = layer.add(
            'node', lat=Decimal('47.1411'), lon=Decimal('9.5009'), tags={'amenity': 'waste_basket'}
        )
        corner = layer.add('node', lat=Decimal('47.1410'), lon=Decimal('9.5011'))
        layer.add('way', nodes=[3, corner, basket], tags={'highway': 'path'})
        layer.change(
            'way',
            10,
            nodes=[1, layer.add('node', lat=Decimal('47.14015'), lon=Decimal('9.5003')), 2, 3],
        )
        self.saved(layer)
        self.assertIn('new 4, nodes 1\n', self.done('josm', 'day.osm'))
        for confirmed in (False, True):
            layer.add(
                'way',
                nodes=[
                    corner,
                    layer.add('node', lat=Decimal('47.1415'), lon=Decimal('9.5011') + confirmed),
                ],
                tags={'highway': 'steps'},
            )
            self.saved(layer)
            self.assertIn('new 2\n', self.done('josm', 'day.osm'))
            self.assertEqual(0, self.send(), self.err)
        self.assertEqual([], self.server.created_twice())
        ways = [one for one in self.server.elements() if one.kind == 'way' and one.number >= 1000]
        self.assertEqual(
            ([3, 2, 2], 1),
            (
                [len(way.nodes) for way in ways],
                len(set(ways[0].nodes) & set(ways[1].nodes) & set(ways[2].nodes)),
            ),
        )

    def test_a_drawing_over_a_session_before_others(self):
        """Of several drawings that one counts which was written last, also where `undo` went back
        to an older session.
        """
        self.begin(town=AREA)
        for number in (2, 3, 4):
            self.do(f'tag n4 Tref={number}')
            self.done('to-josm', f'day{number}.osm')
        for _ in range(3):
            self.done('undo')
        self.saved(self.opened())
        self.assertEqual(self.done('josm', 'day.osm'), 'day.osm changes nothing here\n')
        self.assertEqual(3, len(list(pathlib.Path('day').glob('josm-*.start'))))
        self.do('tag n4 Tref=5')
        self.done('to-josm', 'later.osm')
        for name in ('day.osm', 'day4.osm', 'later.osm'):
            self.done('josm', name, '--show')
        for name in ('day2.osm', 'day3.osm'):
            self.assertEqual(Refused.code, self.yoke('josm', name))

    def test_a_drawing_that_isnt_written_has_no_session(self):
        self.begin(town=AREA)
        pathlib.Path('saved.osm').write_bytes(SAVED)
        self.assertEqual(Refused.code, self.yoke('to-josm', 'saved.osm'))
        self.assertEqual(Refused.code, self.yoke('to-josm', '--force', 'day/000001-start.saved'))
        self.assertEqual([], list(pathlib.Path('day').glob('josm-*.start')))

    def test_buildings_with_holes_that_were_imported(self):
        self.begin(town=AREA)

        def square(west, south, size):
            east, north = west + size, south + size
            return [[west, south], [east, south], [east, north], [west, north], [west, south]]

        self.write(
            'a.geojson',
            json.dumps(
                {
                    'type': 'FeatureCollection',
                    'features': [
                        {
                            'type': 'Feature',
                            'properties': {'building': 'yes', 'ref': '1'},
                            'geometry': {
                                'type': 'Polygon',
                                'coordinates': [
                                    square(9.501, 47.142, 0.001),
                                    square(9.5012, 47.1422, 0.0002),
                                ],
                            },
                        },
                        {
                            'type': 'Feature',
                            'properties': {'building': 'yes', 'ref': '2'},
                            'geometry': {
                                'type': 'MultiPolygon',
                                'coordinates': [
                                    [square(9.503, 47.142, 0.001)],
                                    [square(9.505, 47.142, 0.001)],
                                ],
                            },
                        },
                    ],
                }
            ),
        )
        self.done('import', 'a.geojson', '--anywhere', '--accept', 'columns')
        layer = self.opened()
        parts = {
            one.tags['ref']: one for one in layer.living() if one.tags.get('building') == 'yes'
        }
        inner = next(number for _, number, role in parts['1'].members if role == 'inner')
        layer.delete('way', inner)
        layer.change('relation', parts['2'].number, tags={**parts['2'].tags, 'name': 'Zwei'})
        corner = layer.things['way', parts['2'].members[0][1]].nodes[2]
        layer.change('node', corner, lon=Decimal('9.50411111111'))
        nodes = [
            layer.add('node', lat=Decimal(lat), lon=Decimal(lon))
            for lat, lon in (('47.1422', '9.5032'), ('47.1422', '9.5034'), ('47.1424', '9.5034'))
        ]
        hole = layer.add('way', nodes=nodes + nodes[:1])
        layer.change(
            'relation', parts['2'].number, members=parts['2'].members + [('way', hole, 'inner')]
        )
        self.saved(layer)
        self.assertIn(
            'new 4, tags 1, place 1, members 2, deleted 5\n', self.done('josm', 'day.osm')
        )
        self.assertEqual(0, self.send(), self.err)
        there = {
            one.tags['ref']: one
            for one in self.server.elements()
            if one.tags.get('building') == 'yes'
        }
        self.assertEqual(
            [[member.role for member in there[ref].members] for ref in '12'],
            [['outer'], ['outer', 'outer', 'inner']],
        )
        self.assertEqual(
            there['2'].tags, {'type': 'multipolygon', 'building': 'yes', 'ref': '2', 'name': 'Zwei'}
        )
        self.assertEqual([], self.server.created_twice())
        self.assertEqual(0, self.yoke('to-josm', 'night.osm'), self.err)
        self.assertNotIn('action', pathlib.Path('night.osm').read_text())

    def test_deleted_on_both_sides(self):
        self.begin(town=AREA)
        layer = self.opened()
        layer.delete('way', 20)
        layer.delete('node', 4)
        self.saved(layer)
        self.do('erase w20', 'delete n4')
        self.assertEqual(self.done('josm', 'day.osm'), 'day.osm changes nothing here\n')

    def test_deleted_there_and_changed_here(self):
        self.begin(town=AREA)
        layer = self.opened()
        layer.delete('way', 20)
        self.saved(layer)
        self.do('tag w20 Tname=Barn')
        self.assertEqual(Refused.code, self.yoke('josm', 'day.osm'))
        self.assertIn('w20 is deleted there, and was changed here', self.out)

    def test_deleted_here_and_changed_there(self):
        self.begin(town=AREA)
        layer = self.opened()
        layer.change('way', 20, tags={'building': 'yes'})
        self.saved(layer)
        self.do('erase w20')
        self.assertEqual(Refused.code, self.yoke('josm', 'day.osm'))
        self.assertIn('w20 is deleted here, and was changed there', self.out)

    def test_deleted_there_and_used_here_meanwhile(self):
        self.begin(town=AREA)
        layer = self.opened()
        layer.delete('node', 4)
        self.saved(layer)
        self.do('way Thighway=path Nn3,n4')
        self.assertEqual(Refused.code, self.yoke('josm', 'day.osm'))
        self.assertIn('n4 is still used by w-1', self.err)

    def test_deleted_there_and_on_the_server(self):
        self.begin(town=AREA)
        layer = self.opened()
        layer.delete('way', 20)
        self.saved(layer)
        self.server.edit('delete', 'w20')
        self.done('josm', 'day.osm')
        self.assertEqual(0, self.send('--refresh'), self.err)
        self.assertFalse(
            any(self.server.database.is_there(key) for key in ('w20', 'n11', 'n12', 'n13', 'n14'))
        )

    def test_a_new_object_that_is_deleted_there(self):
        self.begin(
            'node x9.5009 y47.1409 Tamenity=bench', 'node x9.501 y47.141 Tamenity=bench', town=AREA
        )
        layer = self.opened()
        for one in [one for one in layer.living() if one.number < 0]:
            layer.delete('node', one.number)
        self.saved(layer)
        self.do('tag n-2 Tref=1')
        self.assertEqual(Refused.code, self.yoke('josm', 'day.osm'))
        self.assertIn('n-2 is deleted there, and was changed here', self.out)
        self.done('undo')
        self.assertIn('deleted 2', self.done('josm', 'day.osm'))
        self.assertEqual(0, self.send())
        self.assertEqual([], self.server.history)

    def test_random_layers(self):
        """Whatever is done in the layer, the session is the layer then."""
        dice = random.Random(3)
        for turn in range(8):
            text = sessions.ran(
                ['download area.opl'] + list(some_steps(dice, 8)) + ['save'], area_opl=AREA
            ).saved()
            layer = Layer(
                '\n'.join(osm_xml.josm_lines(table.read(text), '1-0a1b')).encode(), next_id=-900
            )
            for _ in range(dice.randint(1, 9)):
                scribble(layer, dice)
            plan = foreign.plan(
                osm_xml.read_josm(layer.save()).told, table.read(text), table.read(text)
            )
            self.assertEqual([], plan.problems)
            later = table.read(sessions.goes_on(text, plan.lines).saved())
            self.assertEqual(
                {key: content for key, content in contents(later).items() if content},
                of_layer(layer, plan.made),
                turn,
            )
            again = foreign.plan(osm_xml.read_josm(layer.save()).told, later, table.read(text))
            self.assertEqual(([], []), (again.problems, again.lines), turn)


def scribble(layer, dice):
    """Something that a mapper may do in JOSM."""
    one = dice.choice(layer.living())
    nodes = [node.number for node in layer.living() if node.kind == 'node']
    act = dice.choice(['tag', 'move', 'add', 'nodes', 'members', 'delete'])
    if act == 'tag':
        layer.change(
            one.kind,
            one.number,
            tags={**one.tags, 'name': f'Ada\'s "Lane" <{dice.randint(0, 9)}>\n'},
        )
    elif act == 'move' and one.kind == 'node':
        layer.change(
            'node',
            one.number,
            lat=Decimal(dice.randint(0, 10**9)) / 10**8,
            lon=Decimal(dice.randint(-(10**9), 10**9)) / 10**7,
        )
    elif act == 'add':
        node = layer.add('node', lat=Decimal('47.5'), lon=Decimal(dice.randint(0, 99)) / 10)
        way = layer.add('way', nodes=[node, dice.choice(nodes)], tags={'highway': 'path'})
        layer.add(
            'relation',
            members=[('way', way, 'a'), (one.kind, one.number, '')],
            tags={'type': 'site'},
        )
    elif act == 'nodes' and one.kind == 'way':
        layer.change('way', one.number, nodes=one.nodes + [dice.choice(nodes)])
    elif act == 'members' and one.kind == 'relation':
        layer.change(
            'relation', one.number, members=one.members[1:] + [('node', dice.choice(nodes), 'x')]
        )
    elif act == 'delete' and not layer.uses(one.kind, one.number):
        layer.delete(one.kind, one.number)


def of_layer(layer, made):
    """The contents of what lives in a layer, by the session's keys."""

    def name(kind, number):
        thing, key = layer.things.get((kind, number)), f'{kind[0]}{number}'
        mark = osm_xml.MARK.fullmatch(thing.words.get('user', '')) if thing else None
        return mark[1] if mark and number < 0 else made.get(key, key)

    def rounded(degree):
        return None if degree is None else Decimal(opl.degrees(degree.quantize(osm_xml.SEVENTH)))

    return {
        name(one.kind, one.number): (
            one.tags,
            rounded(one.lon),
            rounded(one.lat),
            tuple(name('node', node) for node in one.nodes),
            tuple((name(kind, number), role) for kind, number, role in one.members),
        )
        for one in layer.living()
    }


if __name__ == '__main__':
    unittest.main()
