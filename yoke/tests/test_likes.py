"""What a document makes and a session has already: made once, and what only lies at the same place
made all the same.
"""
import unittest

from yoke import table
from yoke.formats import foreign, osm_xml
from yoke.tests import sessions, test_foreign
from yoke.tests.test_foreign import DRAWN, TOWN, after, josm, town


def node(number, place, tags='', more=''):
    """A node of a document at a place of two numbers, which are ten-thousandths of a degree beside
    9.5 and 47.14.
    """
    lon, lat = place
    return "<node id='{}' lat='47.{}' lon='9.5{:03}' {}>{}</node>".format(
        number, 1400 + lat, lon, more or "action='modify'", tagged(tags)
    )


def way(number, nodes, tags='', more=''):
    return "<way id='{}' {}>{}{}</way>".format(
        number,
        more or "action='modify'",
        ''.join(f"<nd ref='{one}'/>" for one in nodes),
        tagged(tags),
    )


def relation(number, members, tags='', more=''):
    return "<relation id='{}' {}>{}{}</relation>".format(
        number,
        more or "action='modify'",
        ''.join("<member type='{}' ref='{}' role='{}'/>".format(*member) for member in members),
        tagged(tags),
    )


def tagged(tags):
    return ''.join("<tag k='{}' v='{}'/>".format(*tag.split('=')) for tag in tags.split(',') if tag)


def drawing(*things):
    return '<osm>{}</osm>'.format(''.join(things)).encode()


def change(*things):
    """An osmChange document of what is made, and of modified objects after a None."""
    made, changed = (
        things[: things.index(None)] if None in things else things,
        things[things.index(None) + 1 :] if None in things else (),
    )
    return '<osmChange><create>{}</create><modify>{}</modify></osmChange>'.format(
        ''.join(made), ''.join(changed)
    ).encode()


def osc(text, data, **options):
    return foreign.plan(osm_xml.read_osc(data), table.read(text), **options)


def done(text, plan):
    """The session after the steps of a plan."""
    if plan.problems:
        raise AssertionError(plan.problems)
    return sessions.goes_on(text, plan.lines).saved() if plan.lines else text


def sent(text):
    """The session after a server took all of its edits, with the ids 901 and on for what is new."""
    answer = sessions.ran(['resume s.saved', 'upload 1000'], s_saved=text)
    answers, number = [], 900
    for verb, thing in answer.first_chunk():
        number += verb == 'create'
        answers.append(
            {'create': 'create {0} {1}{2} v1', 'modify': 'modify {0} v{3}', 'delete': 'delete {0}'}[
                verb
            ].format(thing.key, thing.key[0], number, thing.version + 1)
        )
    return sessions.ran(
        ['resume s.saved', 'upload 1000', 'confirm answers.txt', 'save'],
        s_saved=text,
        answers_txt=''.join(line + '\n' for line in answers),
    ).saved()


class Again(unittest.TestCase):
    """A document that comes twice, over a session that nothing else changed, and over one that a
    server took meanwhile.
    """

    def assert_comes_once(self, data, read=josm, text=None):
        before = text or town()
        first = done(before, read(before, data))
        self.assertNotEqual(first, before)
        for later in (first, sent(first)):
            plan = read(later, data)
            self.assertEqual((plan.problems, plan.lines, plan.made), ([], [], {}))
            self.assertEqual(len(plan.notes), 1, plan.notes)
        return first

    def test_drawings(self):
        self.assert_comes_once(DRAWN)
        self.assert_comes_once(test_foreign.OsmChange.OSC, osc)

    def test_two_that_are_equal_in_one_document(self):
        benches = drawing(node(-1, (1, 1), 'amenity=bench'), node(-2, (1, 1), 'amenity=bench'))
        walls = drawing(
            node(-1, (1, 1)),
            node(-2, (2, 2)),
            node(-3, (1, 1)),
            node(-4, (2, 2)),
            way(-5, (-1, -2), 'barrier=wall'),
            way(-6, (-3, -4), 'barrier=wall'),
        )
        for data, number in ((benches, 2), (walls, 6)):
            first = self.assert_comes_once(data)
            self.assertEqual(len(table.read(first).new()), number)
            two_more = data.replace(b'</osm>', data[len(b'<osm>') :].replace(b"'-", b"'-9"))
            self.assertEqual(josm(first, two_more).counts['new'], number)

    def test_rings_and_lists(self):
        """Rings without tags in a new relation and in one that is there; a node without tags in a
        way that is there; a lone node.
        """
        ring = [
            node(-number, place)
            for number, place in enumerate([(1, 1), (2, 1), (2, 2), (3, 3), (4, 3), (4, 4)], 1)
        ]
        text = sessions.session(
            ['download town.opl'], town_opl=TOWN + 'r40 v1 Ttype=multipolygon Mw20@outer\n'
        )
        self.assert_comes_once(
            drawing(
                *ring,
                node(-11, (9, 9)),
                node(-12, (3, 1)),
                way(-7, (-1, -2, -3, -1)),
                way(-8, (-4, -5, -6, -4)),
                relation(-9, [('way', -7, 'outer')], 'type=multipolygon,natural=water'),
                relation(
                    40,
                    [('way', 20, 'outer'), ('way', -8, 'outer')],
                    'type=multipolygon',
                    "action='modify' version='1'",
                ),
                way(
                    10,
                    (1, -12, 2, 3),
                    'highway=residential,name=Mill Lane',
                    "action='modify' version='2'",
                ),
            ),
            text=text,
        )

    def test_relations_in_relations(self):
        data = drawing(
            relation(-1, [('relation', -2, 'a')], 'type=site'),
            relation(
                -2, [('relation', -1, 'b'), ('relation', -2, ''), ('node', 4, 'c')], 'type=site'
            ),
        )
        self.assert_comes_once(data)

    def test_a_way_takes_its_own_nodes(self):
        """Several nodes lie at each of its places, before it and after it."""
        stack = 'n51 v1 x9.5001 y47.14\nn52 v1 x9.5002 y47.14\nn53 v1 x9.5001 y47.14\nn54 v1 x9.5002 y47.14\nw50 v1 Tbarrier=fence Nn51,n52\nw55 v1 Tbarrier=fence Nn53,n54\n'
        text = sessions.session(
            ['download town.opl', 'node x9.5001 y47.14 T', 'way Twaterway=ditch Nn-1,n52'],
            town_opl=TOWN + stack,
        )
        data = drawing(node(-1, (1, 0)), node(-2, (2, 0)), way(-3, (-1, -2), 'barrier=wall'))
        self.assert_comes_once(data, text=text)
        first = done(text, josm(text, data))
        self.assertEqual(table.read(first).mine('w-4').nodes, ('n-1', 'n-3'))
        self.assertEqual(
            josm(
                first,
                drawing(
                    node(-7, (3, 0)),
                    data[len(b'<osm>') : -len(b'</osm>')].decode(),
                    way(-8, (-2, -7), 'highway=path'),
                ),
            ).lines[1:],
            ['way Thighway=path Nn-3,n-5'],
        )

    def test_many_in_one_place(self):
        places = [node(-number, (number % 3, 1), 'amenity=bench') for number in range(1, 400)]
        self.assert_comes_once(drawing(*places))


class GoingOn(unittest.TestCase):
    """What is new since refers to what there is."""

    FIRST = (node(-1, (1, 1), 'amenity=bench'), node(-2, (2, 1)), way(-3, (-1, -2), 'highway=path'))

    def setUp(self):
        self.text = done(town(), josm(town(), drawing(*self.FIRST)))

    def test_only_what_is_new_is_made(self):
        plan = josm(
            self.text,
            drawing(
                node(-9, (5, 5), 'amenity=bench'),
                *self.FIRST,
                way(-10, (-2, -9, 4), 'highway=steps'),
                relation(-11, [('way', -3, ''), ('node', -1, 'x')]),
            ),
        )
        self.assertEqual(
            plan.lines,
            [
                'node x9.5005 y47.1405 Tamenity=bench',
                'way Thighway=steps Nn-2,n-4,n4',
                'relation T Mw-3@,n-1@x',
            ],
        )
        self.assertEqual((plan.made['w-10'], dict(plan.counts)), ('w-5', {'new': 3}))
        self.assertIn('the session has 3 of its new objects already, as n-1', plan.notes[0])
        after(self.text, plan)

    def test_again_makes_all(self):
        plan = foreign.plan(
            osm_xml.read_josm(drawing(*self.FIRST)).told, table.read(self.text), again=True
        )
        self.assertEqual(
            (plan.lines, plan.notes),
            (
                [
                    'node x9.5001 y47.1401 Tamenity=bench',
                    'node x9.5002 y47.1401 T',
                    'way Thighway=path Nn-4,n-5',
                ],
                [],
            ),
        )

    def test_what_was_changed_since_is_made(self):
        moved = josm(self.text, drawing(node(-1, (1, 2), 'amenity=bench'), *self.FIRST[1:]))
        self.assertEqual(
            moved.lines, ['node x9.5001 y47.1402 Tamenity=bench', 'way Thighway=path Nn-4,n-2']
        )
        tagged_since = josm(self.text, drawing(*self.FIRST[:2], way(-3, (-1, -2), 'highway=track')))
        self.assertEqual(tagged_since.lines, ['way Thighway=track Nn-1,n-2'])
        undone = sessions.goes_on(self.text, ['erase w-3']).saved()
        self.assertEqual(
            josm(undone, drawing(*self.FIRST)).lines,
            ['node x9.5002 y47.1401 T', 'way Thighway=path Nn-1,n-4'],
        )


class Apart(unittest.TestCase):
    """What lies at one place, and isn't the same."""

    def test_a_way_that_was_taken_off(self):
        """JOSM's unglue puts a new node at the place of the other; here with tags too."""
        for tags in ('', 'highway=bus_stop'):
            text = town('tag n2 Thighway=' + ('bus_stop' if tags else ''))
            lane = way(
                10, (1, -5, 3), 'highway=residential,name=Mill Lane', "action='modify' version='2'"
            )
            for plan in (
                josm(
                    text,
                    drawing(
                        node(-5, (6, 2), tags),
                        node(2, (6, 2), 'highway=bus_stop', "version='1'"),
                        lane,
                    ),
                ),
                osc(text, change(node(-5, (6, 2), tags), None, lane)),
            ):
                self.assertEqual(plan.lines[-1], 'nodes w10 Nn1,n-1,n3')

    def test_a_new_way_over_others(self):
        """Its nodes aren't those of a way of other tags at the same places, which the server has."""
        data = node(-1, (12, 5)), node(-2, (14, 5)), way(-3, (-1, -2), 'barrier=wall')
        for plan in (josm(town(), drawing(*data)), osc(town(), change(*data))):
            self.assertEqual(plan.lines[-1], 'way Tbarrier=wall Nn-1,n-2')

    def test_in_the_place_of_what_it_changes(self):
        bench = node(-5, (7, 3), 'amenity=bench')
        basket = node(4, (7, 3), 'amenity=waste_basket', "action='modify' version='4'")
        self.assertEqual(
            josm(town(), drawing(bench, basket)).lines,
            ['node x9.5007 y47.1403 Tamenity=bench', 'tag n4 Tamenity=waste_basket'],
        )
        gone = node(4, (7, 3), 'amenity=bench', "action='delete' version='4'")
        self.assertEqual(
            josm(town(), drawing(bench, gone)).lines,
            ['node x9.5007 y47.1403 Tamenity=bench', 'delete n4'],
        )

    def test_in_the_place_of_what_it_drops(self):
        text = town('node x9.5001 y47.1401 Tamenity=bench')
        plan = josm(text, drawing(node(-5, (1, 1), 'amenity=bench')), text)
        self.assertEqual(plan.lines, ['node x9.5001 y47.1401 Tamenity=bench', 'delete n-1'])

    def test_beside_what_a_server_took(self):
        """The layer got what it made from the server too, under the ids that it has there."""
        first = drawing(
            node(-1, (1, 1), 'amenity=bench'),
            node(-2, (2, 1)),
            way(-3, (-1, 4, -2), 'highway=path'),
        )
        text = sent(done(town(), josm(town(), first)))
        keys = {
            known.mine.kind + str(len(known.mine.tags)): known.key[1:]
            for known in table.read(text).things.values()
            if known.mine and int(known.key[1:]) > 900
        }
        both = first.replace(
            b'</osm>',
            drawing(
                node(keys['node1'], (1, 1), 'amenity=bench', "version='1'"),
                node(keys['node0'], (2, 1), '', "version='1'"),
                way(keys['way1'], (keys['node1'], 4, keys['node0']), 'highway=path', "version='1'"),
            )[len(b'<osm>') :],
        )
        plan = josm(text, both)
        self.assertEqual((plan.lines, len(plan.notes)), ([], 1))


if __name__ == '__main__':
    unittest.main()
