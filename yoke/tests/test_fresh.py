"""Whether data is fresh: what stands where new objects are to go, and of when extracts are."""
import os
import pathlib
import shutil
import unittest
from typing import Dict
from unittest import mock

from yoke import fresh, opl
from yoke.conflate.names import Names
from yoke.fresh import Extract, Thing
from yoke.tests.sessions import opened
from yoke.tests.support import TOWN, FolderTest, ServerTest
from yoke.trouble import NoAnswer, Refused


def thing(tags: Dict[str, str], *path: tuple) -> Thing:
    return Thing(opl.Object('n1' if len(path) == 1 else 'w1', tags=tags), path)


def why_same(new: Thing, there: Thing) -> str:
    names = [one.thing.tags.get('name', '') for one in (new, there)]
    return fresh.why_same(new, there, Names(names))


SQUARE = ((13.0, 52.0), (13.0002, 52.0), (13.0002, 52.0002), (13.0, 52.0002), (13.0, 52.0))


class Same(unittest.TestCase):
    def test_addresses(self) -> None:
        new = thing({'addr:housenumber': '7 A', 'addr:street': 'High  Street'}, (13.0, 52.0))
        there = {'addr:housenumber': '7 a', 'addr:street': 'High Street', 'shop': 'bakery'}
        self.assertEqual('the same address', why_same(new, thing(there, (13.0005, 52.0))))
        self.assertEqual('', why_same(new, thing(there, (13.0009, 52.0))))
        self.assertEqual(
            '', why_same(new, thing({**there, 'addr:street': 'Low Street'}, (13.0, 52.0)))
        )
        self.assertEqual(
            '',
            why_same(
                thing({'addr:housenumber': '7'}, (13.0, 52.0)),
                thing({'addr:housenumber': '7'}, (13.0, 52.0001)),
            ),
        )

    def test_names(self) -> None:
        new = thing({'shop': 'bakery', 'name': 'Koch'}, (13.0, 52.0))
        self.assertEqual(
            'the same kind and name',
            why_same(new, thing({'shop': 'bakery', 'name': 'KOCH', 'phone': '1'}, (13.0, 52.0004))),
        )
        self.assertEqual(
            '', why_same(new, thing({'shop': 'bakery', 'name': 'Lang'}, (13.0, 52.0004)))
        )
        self.assertEqual(
            '', why_same(new, thing({'shop': 'butcher', 'name': 'Koch'}, (13.0, 52.0)))
        )

    def test_spellings_of_one_address_are_one(self) -> None:
        new = thing({'addr:housenumber': '7', 'addr:street': 'Hauptstr.'}, (13.0, 52.0))
        for street, number, is_same in (
            ('Hauptstraße', '7', True),
            ('HAUPTSTRASSE', '7', True),
            ('Hauptstraße', '7/1', False),
            ('Hauptplatz', '7', False),
        ):
            there = {'addr:housenumber': number, 'addr:street': street}
            why = why_same(new, thing(there, (13.0005, 52.0)))
            self.assertEqual('the same address' if is_same else '', why, street)
        one, other = ({'addr:housenumber': '7-1', 'addr:place': sign} for sign in '★☆')
        self.assertEqual('', why_same(thing(one, (13.0, 52.0)), thing(other, (13.0, 52.0))))

    def test_spellings_of_one_name_are_one(self) -> None:
        for one, other, is_same in (
            ('Hauptstr.', 'Hauptstraße', True),
            ('BACKEREI KOCH', 'Bäckerei Koch', True),
            ('★', '☆', False),
        ):
            new = thing({'highway': 'bus_stop', 'name': one}, (13.0, 52.0))
            there = thing({'highway': 'bus_stop', 'name': other}, (13.0, 52.0004))
            self.assertEqual('the same kind and name' if is_same else '', why_same(new, there), one)

    def test_like_names(self) -> None:
        new = thing({'shop': 'bakery', 'name': 'BACKEREI KOCH'}, (13.0, 52.0))
        for name, lat, is_same in (
            ('Bäckerei Kocher', 52.0002, True),
            ('Bäckerei Kocher', 52.0004, False),
            ('Bäckerei Lang', 52.0, False),
            ('Bäckerei Kocher', 52.0, True),
        ):
            why = why_same(new, thing({'shop': 'bakery', 'name': name}, (13.0, lat)))
            self.assertEqual('the same kind and a like name' if is_same else '', why, name)
        butcher = thing({'shop': 'butcher', 'name': 'Bäckerei Koch'}, (13.0, 52.0))
        self.assertEqual('', why_same(new, butcher))

    def test_tags(self) -> None:
        new = thing({'natural': 'tree', 'source': 'survey'}, (13.0, 52.0))
        self.assertEqual(
            'the same tags', why_same(new, thing({'natural': 'tree'}, (13.0, 52.00002)))
        )
        self.assertEqual('', why_same(new, thing({'natural': 'tree'}, (13.0, 52.0001))))
        self.assertEqual(
            '',
            why_same(thing({'source': 'x'}, (13.0, 52.0)), thing({'source': 'x'}, (13.0, 52.0))),
        )

    def test_outlines(self) -> None:
        moved = tuple((lon + 0.00005, lat) for lon, lat in SQUARE)
        far = tuple((lon + 0.0003, lat) for lon, lat in SQUARE)
        self.assertEqual(
            'an outline at the same place',
            why_same(thing({'building': 'yes'}, *moved), thing({'building': 'house'}, *SQUARE)),
        )
        self.assertEqual(
            '',
            why_same(thing({'building': 'yes'}, *far), thing({'building': 'house'}, *SQUARE)),
        )
        self.assertEqual(
            '',
            why_same(
                thing({'building': 'yes'}, *moved), thing({'landuse': 'residential'}, *SQUARE)
            ),
        )

    def test_lines(self) -> None:
        new = thing({'highway': 'path'}, (13.0, 52.0), (13.001, 52.0005), (13.002, 52.0))
        there = thing({'highway': 'path', 'name': 'x'}, (13.002, 52.00001), (13.0, 52.0))
        self.assertEqual('a line with the same ends', why_same(new, there))
        self.assertEqual(
            '', why_same(new, thing({'highway': 'path'}, (13.002, 52.001), (13.0, 52.0)))
        )

    def test_boxes_hold_what_is_near(self) -> None:
        found = opened(
            [
                'download town.opl',
                'node x13.5 y52.5 Ta=b',
                'node x13.5001 y52.5 Ta=b',
                'node x-180 y-90 Ta=b',
                'node x13.9 y52.5 T',
            ],
            town_opl=TOWN,
        )
        new = fresh.new_things(found)
        self.assertEqual(['n-1', 'n-2', 'n-3'], [one.thing.key for one in new])
        areas = fresh.around(new)
        self.assertEqual(2, len(areas))
        for one in new[:2]:
            lon, lat = (round(side * 10**7) for side in one.middle)
            self.assertTrue(
                any(
                    box[0] + 5000 < lon < box[2] - 5000 and box[1] + 5000 < lat < box[3] - 5000
                    for box in areas
                )
            )
        self.assertEqual(-180 * 10**7, min(box[0] for box in areas))


class Send(ServerTest):
    """What `send` does where somebody was faster with something new."""

    def test_what_stands_there_stops_it(self) -> None:
        self.begin(
            'node x13.5 y52.5 Tshop=bakery,name=Koch',
            'node x13.6 y52.6 Tshop=bakery,name=Lang',
            'tag w5 Tsurface=asphalt',
        )
        key = self.server.edit(
            'create',
            'n-1',
            place=('13.5001', '52.5'),
            tags={'shop': 'bakery', 'name': 'Koch', 'phone': '1'},
        )
        self.assertEqual(Refused.code, self.send())
        self.assertIn(
            f'n-1 may be {key} Koch: the same kind and name, 7 m away; version 1 by somebody',
            self.out,
        )
        self.assertIn('1 of 2 new objects may be there already', self.err)
        self.assertEqual([], [change for change in self.server.history if change.user == 'mapper'])
        self.do('purge n-1')
        self.assertEqual(0, self.send(), self.err)
        self.assertEqual(
            2, len([change for change in self.server.history if change.user == 'mapper'])
        )

    def test_a_name_in_another_case_and_without_accents_stops_it(self) -> None:
        self.begin('node x13.50001 y52.50001 Tshop=bakery,name=BACKEREI%20%KOCH')
        tags = {'shop': 'bakery', 'name': 'Bäckerei Koch'}
        key = self.server.edit('create', 'n-1', place=('13.5', '52.5'), tags=tags)
        self.assertEqual(Refused.code, self.send())
        self.assertIn(f'n-1 may be {key} Bäckerei Koch: the same kind and name, 1 m away', self.out)

    def test_unseen_passes(self) -> None:
        self.begin('node x13.5 y52.5 Tshop=bakery,name=Koch')
        self.server.edit(
            'create', 'n-1', place=('13.5', '52.5'), tags={'shop': 'bakery', 'name': 'Koch'}
        )
        self.assertEqual(0, self.send('--unseen'), self.err)
        self.assertEqual(0, self.server.requests.count('map'))

    def test_yesterdays_extract(self) -> None:
        """What was sent from another day, over the same extract, isn't made again."""
        lines = [
            'node x13.5 y52.5 Taddr:housenumber=7,addr:street=High%20%Street',
            'node x13.7 y52.5 T',
            'node x13.7001 y52.5 T',
            'node x13.7001 y52.5001 T',
            'way Tbuilding=yes Nn-2,n-3,n-4,n-2',
        ]
        self.begin(*lines)
        self.assertEqual(0, self.send(), self.err)
        shutil.move('day', 'monday')
        self.begin(*lines)
        self.assertEqual(Refused.code, self.send())
        self.assertIn('the same address', self.out)
        self.assertIn('an outline at the same place', self.out)
        self.assertEqual([], self.server.created_twice())

    def test_only_what_is_sent_is_looked_at(self) -> None:
        self.begin(
            'node x13.5 y52.5 Tshop=bakery,name=Koch', 'node x13.6 y52.6 Tshop=bakery,name=Lang'
        )
        self.server.edit(
            'create', 'n-1', place=('13.5', '52.5'), tags={'shop': 'bakery', 'name': 'Koch'}
        )
        self.assertEqual(0, self.send('--only', 'n-2'), self.err)
        self.assertEqual(1, self.server.requests.count('map'))

    def test_nothing_new_asks_for_no_map(self) -> None:
        self.begin('tag w5 Tsurface=asphalt', 'node x13.5 y52.5 T', 'way Thighway=path Nn3,n-1')
        self.assertEqual(0, self.send(), self.err)
        self.assertEqual(1, self.server.requests.count('map'))  # for the way
        self.do('tag w5 Tsurface=paved')
        self.assertEqual(0, self.send(), self.err)
        self.assertEqual(1, self.server.requests.count('map'))

    def test_what_is_edited_or_used_is_no_candidate(self) -> None:
        self.begin('delete n8', 'node x13.002 y52.001 Tamenity=bench')
        self.assertEqual(0, self.send(), self.out + self.err)

    def test_a_box_that_is_too_full_is_cut(self) -> None:
        self.server.limits.map_nodes = 2
        self.begin(
            *[f'node x13.5{number} y52.5 Tshop=bakery,name={number}' for number in range(1, 4)]
        )
        for number in range(1, 4):
            self.server.edit(
                'create', 'n-1', place=(f'13.5{number}', '52.5'), tags={'amenity': 'bench'}
            )
        self.server.edit(
            'create', 'n-1', place=('13.5301', '52.5'), tags={'shop': 'bakery', 'name': '3'}
        )
        self.assertEqual(Refused.code, self.send(), self.err)
        self.assertIn('n-3 may be', self.out)

    def test_too_many_calls(self) -> None:
        self.begin(*[f'node x{13 + number / 10} y52.5 Tshop=bakery' for number in range(5)])
        with mock.patch('yoke.fresh.MOST_CALLS', 4):
            self.assertEqual(Refused.code, self.send())
        self.assertIn('--unseen', self.err)
        self.assertEqual(0, self.server.requests.count('map'))

    def test_no_answer_to_the_look(self) -> None:
        self.begin('node x13.5 y52.5 Tshop=bakery')
        self.server.faults.by_chance('500-before', 1.0, 0, 'map')
        self.assertEqual(NoAnswer.code, self.send())
        self.assertEqual([], self.server.history)

    def test_an_extract_that_is_older_than_the_area(self) -> None:
        self.begin(
            'node x13.003 y52.0001 Tshop=bakery',
            town=TOWN.replace('n1 v1', 'n1 v1 t2020-01-01T00:00:00Z'),
        )
        self.server.edit('modify', 'n3', tags={'crossing': 'no'})
        self.assertEqual(0, self.send(), self.err)
        self.assertIn('and the extract is of 2020-01-01T00:00:00Z', self.err)


class Extracts(FolderTest):
    def test_the_moment(self) -> None:
        self.write(
            'a.opl',
            'n1 v1 t2020-05-01T00:00:00Z x1 y1\nn2 v1 t2021-05-01T00:00:00Z x1 y1\nn3 v1 x1 y1\n',
        )
        self.assertEqual(Extract('2021-05-01T00:00:00Z', 3), fresh.scan('a.opl', 'a.opl'))
        self.write(
            'b.opl', '# as of 2022-01-01T00:00:00Z, from x\nn1 v1 t2020-05-01T00:00:00Z x1 y1\n'
        )
        self.assertEqual('2022-01-01T00:00:00Z', fresh.moment_of('b.opl', 'b.opl'))
        self.write('c.opl', 'n1 v1 x1 y1\n')
        self.assertEqual('', fresh.moment_of('c.opl', 'c.opl'))

    @unittest.skipUnless(shutil.which('osmium'), 'osmium isn\'t installed')
    def test_the_moment_of_a_header(self) -> None:
        self.write(
            'a.osm',
            '<osm version="0.6"><node id="1" version="1" timestamp="2020-01-01T00:00:00Z" lat="1" lon="1"/></osm>\n',
        )
        os.system(
            'osmium cat --no-progress a.osm -o a.osm.pbf --output-header=osmosis_replication_timestamp=2023-03-04T05:06:07Z'
        )
        self.done('start', 'a.osm.pbf')
        found = fresh.extracts_of(pathlib.Path('day'))
        self.assertEqual([Extract('2023-03-04T05:06:07Z', 1)], list(found.values()))

    def test_one_that_is_cut_off(self) -> None:
        self.write('town.opl', TOWN[:-4])
        self.assertEqual(Refused.code, self.yoke('start', 'town.opl'))
        self.assertIn('town.opl ends in the middle of a line', self.err)
        self.assertFalse(os.path.exists('day'))
        self.write('town.opl', TOWN.rstrip('\n'))
        self.assertEqual(Refused.code, self.yoke('start', 'town.opl'))
        self.done('start', 'town.opl', '--as-it-is')

    def test_one_with_fewer_objects_than_before(self) -> None:
        self.begin()
        shutil.move('day', 'monday')
        self.write('town.opl', ''.join(TOWN.splitlines(True)[:2]))
        self.assertEqual(Refused.code, self.yoke('start', 'town.opl'))
        self.assertIn('town.opl has 2 objects, and had 6 for monday', self.err)
        self.done('start', 'town.opl', '--as-it-is')

    def test_one_that_is_older_than_before(self) -> None:
        self.begin(town=TOWN.replace('n1 v1', 'n1 v1 t2024-01-02T00:00:00Z'))
        shutil.move('day', 'monday')
        self.write('town.opl', TOWN.replace('n1 v1', 'n1 v1 t2024-01-01T00:00:00Z'))
        self.assertEqual(Refused.code, self.yoke('start', 'town.opl'))
        self.assertIn('was of 2024-01-02T00:00:00Z for monday', self.err)


class Older(ServerTest):
    def test_an_extract_of_before_a_send(self) -> None:
        town = TOWN.replace('n1 v1', 'n1 v1 t2020-01-01T00:00:00Z')
        self.begin('tag n8 Tbackrest=yes', town=town)
        self.assertEqual(0, self.send(), self.err)
        self.write('old.opl', town)
        self.do('download old.opl')
        self.assertIn(
            'old.opl is of 2020-01-01T00:00:00Z, older than what went out from this day', self.err
        )
        shutil.move('day', 'monday')
        self.begin(town=town)
        self.assertIn('town.opl is of 2020-01-01T00:00:00Z, and monday sent edits at ', self.err)


if __name__ == '__main__':
    unittest.main()
