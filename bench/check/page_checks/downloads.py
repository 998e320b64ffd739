"""Downloads: parts of a file, a second one and what it does to edits, the edge of an extract."""
import re

from bench.check.page_checks.case import case, expect
from bench.check.page_checks.page import phrase
from bench.check.page_checks.room import Room, town


@case(
    'a second download: the same file twice, and two neighbouring extracts, alone or merged first'
)
def neighbouring(program):
    with Room(program) as room:
        room.write('west.opl', 'n1 v1 x1 y1\nn2 v1 x2 y1\nw1 v1 Nn1,n2\n')
        room.write('east.opl', 'n2 v1 x2 y1\nn3 v1 x3 y1\nw2 v1 Nn2,n3\n')
        one_by_one = room.session(
            'download west.opl', 'download west.opl', 'download east.opl', 'print'
        ).splitlines()
        expect(['1 ok', '2 ok', '3 ok', '4 ok'], one_by_one[:4])
        expect((0, ''), room.run(['osmium', 'merge', 'west.opl', 'east.opl', '-o', 'both.opl']))
        expect(one_by_one[4:], room.session('download both.opl', 'print').splitlines()[2:])


@case(
    'a second session: a snapshot is taken, deleted objects too, and counts as unchanged; new objects are refused'
)
def second_session(program):
    with Room(program) as room:

        def again(*steps):
            said = room.session('download town.opl', *steps, 'print')
            room.write(
                'again.opl', ''.join(line + '\n' for line in said.splitlines() if line[0] in 'nwr')
            )
            return room.session('download again.opl', 'count')

        expect(
            '1 ok\n2 ok\ncount nodes 3 ways 1 relations 1 incomplete 1 deleted 0 changed 0 conflicts 0\n',
            again('tag w5 Tref=7'),
        )
        expect('1 refused 20 line 4 fault 15', again('node x1 y1 T').splitlines()[0])
        expect(
            '1 ok\n2 ok\ncount nodes 3 ways 0 relations 0 incomplete 0 deleted 1 changed 0 conflicts 0\n',
            again('purge r9', 'delete w5'),
        )


# one change over several objects: the steps, what others did, what comes of it, and what the page's
# lines and its query find
STREET = ['n1 v1 x1 y1', 'n2 v1 x2 y1', 'n3 v1 x3 y1']


ONE = STREET + ['w5 v3 Thighway=path,name=Old Nn1,n2,n3']


TWO = STREET + ['w5 v3 Thighway=path,name=Old Nn1,n2', 'w6 v3 Thighway=path,name=Old Nn2,n3']


ACROSS = [
    (
        ONE,
        'split w5 n2',
        ['w5 v4 Thighway=path,name=New Nn1,n2,n3'],
        ['w5 New n1,n2', 'w-1 Old n2,n3'],
        ['w5'],
        [],
    ),
    (
        ONE,
        'split w5 n2',
        ['r9 v1 Ttype=route Mw5@'],
        ['w5 Old n1,n2', 'w-1 Old n2,n3', 'r9 - w5@'],
        [],
        ['r9'],
    ),
    (
        TWO,
        'combine w5,w6',
        ['w5 v4 Thighway=path,name=New Nn1,n2'],
        ['w5 New n1,n2,n3'],
        ['w5'],
        [],
    ),
    (TWO, 'combine w5,w6', ['w6 v4 dD'], ['w5 Old n1,n2,n3'], ['w6'], []),
    (
        ONE,
        'reverse w5',
        ['w5 v4 Thighway=path,name=Old,oneway=yes Nn1,n2,n3'],
        ['w5 Old n3,n2,n1'],
        ['w5'],
        [],
    ),
    (
        ONE,
        'tag w5 Tname=New',
        ['w5 v4 Thighway=path,name=Old Nn1,n2', 'w50 v1 Thighway=path,name=Old Nn2,n3'],
        ['w5 New n1,n2', 'w50 Old n2,n3'],
        ['w5'],
        [],
    ),
    (
        ONE,
        'relation Ttype=route Mw5@',
        ['w5 v4 Thighway=path,name=Old Nn1,n2', 'w50 v1 Thighway=path,name=Old Nn2,n3'],
        ['w5 Old n1,n2', 'w50 Old n2,n3', 'r-1 - w5@'],
        [],
        [],
    ),
    (
        TWO,
        'tag w5 Tname=New',
        ['w5 v4 Thighway=path,name=Old Nn1,n2,n3', 'w6 v4 dD'],
        ['w5 New n1,n2,n3'],
        ['w5'],
        [],
    ),
    (
        TWO,
        'delete w6',
        ['w5 v4 Thighway=path,name=Old Nn1,n2,n3', 'w6 v4 dD'],
        ['w5 Old n1,n2,n3'],
        ['w6'],
        [],
    ),
    (
        ONE,
        'tag w5 Tname=New,oneway=yes',
        ['w5 v4 Thighway=path,name=Old Nn3,n2,n1'],
        ['w5 New n3,n2,n1'],
        ['w5'],
        [],
    ),
]


def moved(output):
    """The ways and relations that the first of two uploads has, and the second hasn't in the same
    version: others changed these too.
    """
    first, second = (
        set(re.findall(r'^(?:modify|delete) ([wr]\d+ v\d+)', text, re.M))
        for text in output.split('\nupload changes ')[1:]
    )
    return sorted(line.split(' ')[0] for line in first - second)


@case('a merge joins object by object: each row of the page, from both sides, and what finds it')
def across_objects(program):
    query = phrase(r'`(find relation and not changed and .*?)`')
    for before, step, others, wanted, found, asked in ACROSS:
        with Room(program) as room:
            room.write('high.opl', ''.join(line + '\n' for line in before))
            room.write('others.opl', ''.join(line + '\n' for line in others))
            output = room.session(
                'download high.opl', step, 'upload 10', 'download others.opl', 'upload 10'
            )
            expect(found, moved(output))
            output = room.session(
                'download high.opl', step, 'download others.opl', 'count', 'print', query
            )
            expect(True, ' conflicts 0\n' in output)
            things = re.findall(r'^([wr]\S+) v\d+ dV c0 t i0 u T(\S*) [NM](.*)$', output, re.M)
            expect(
                wanted,
                [
                    ' '.join([key, (re.findall('name=([^,]*)', tags) or ['-'])[0], refs])
                    for key, tags, refs in things
                ],
            )
            expect(
                f'found {len(asked)}\n' + ''.join(key + '\n' for key in asked),
                output[output.index('found ') :],
            )
    # theirs of a way that was split lies over the new piece, until that is erased
    with Room(program) as room:
        room.write('high.opl', ''.join(line + '\n' for line in ONE))
        room.write('others.opl', 'n4 v1 x3 y2\nw5 v4 Thighway=path,name=Old Nn1,n2,n4,n3\n')
        steps = ['download high.opl', 'split w5 n2', 'download others.opl', 'resolve w5 theirs']
        expect(
            True,
            'upload changes 1 chunks 1\nchunk 1 of 1\ncreate w-1 '
            in room.session(*steps, 'upload 10'),
        )
        expect(
            True,
            room.session(*steps, 'erase w-1', 'upload 10').endswith('upload changes 0 chunks 0\n'),
        )
    # the extract in the place of the first one
    with Room(program) as room:
        room.write(
            'fresh.opl',
            ''.join(line + '\n' for line in STREET + ['w5 v4 Thighway=path,name=New Nn1,n2,n3']),
        )
        expect(2, room.session('download fresh.opl', 'split w5 n2', 'print').count('name=New'))


@case(
    'a box is the map call of osmium too, where there are no relations: the same objects, up to the edge'
)
def box_by_osmium(program):
    with Room(program) as room:
        room.write(
            'town.opl', ''.join(line + '\n' for line in town(3000).splitlines() if line[0] in 'nw')
        )
        for box in (
            '13.301,52.4,13.305,52.41',
            '13.3,52.3,13.4,52.5',
            '13.31,52.4,13.311,52.4003',
            '1,1,2,2',
        ):
            expect(
                (0, ''),
                room.run(
                    [
                        'osmium',
                        'extract',
                        '-s',
                        'complete_ways',
                        '-b',
                        box,
                        'town.opl',
                        '-O',
                        '-o',
                        'cut.opl',
                    ]
                ),
            )
            want = room.session('download cut.opl', 'print').splitlines()[2:]
            expect(want, room.session('download town.opl B' + box, 'print').splitlines()[2:])


@case(
    'tags are asked as `osmium tags-filter` asks for them, where there are no relations and no nodes with tags'
)
def tags_by_osmium(program):
    with Room(program) as room:
        room.write(
            'town.opl', ''.join(line + '\n' for line in town(3000).splitlines() if line[0] in 'nw')
        )
        for wanted, asked in [
            ('Fhighway=track', 'w/highway=track'),
            ('Fhighway=*', 'w/highway'),
            ('Fhighway=footway', 'w/highway=footway'),
        ]:
            expect(
                (0, ''),
                room.run(['osmium', 'tags-filter', 'town.opl', asked, '-O', '-o', 'cut.opl']),
            )
            want = room.session('download cut.opl', 'print').splitlines()[2:]
            expect(want, room.session('download town.opl ' + wanted, 'print').splitlines()[2:])


@case('a second download: an extract tells nothing of what was deleted, an osmChange file does')
def deletions(program):
    with Room(program) as room:
        room.write('extract.opl', 'n1 v3 x1 y1\n')
        room.write(
            'day.osc',
            """<osmChange version="0.6">
            <modify><way id="5" version="2"><nd ref="1"/><nd ref="2"/></way></modify>
            <delete><node id="3" version="2"/><relation id="9" version="2"/></delete>
            <modify><way id="5" version="3"><nd ref="1"/></way></modify>
            </osmChange>""",
        )
        expect(
            (0, ''),
            room.run(['osmium', 'merge-changes', '-s', 'day.osc', '-f', 'opl', '-o', 'day.opl']),
        )
        said = [
            line.split()
            for line in room.session(
                'download town.opl', 'download extract.opl', 'download day.opl', 'print', 'count'
            ).splitlines()
        ]
        expect(
            ['n1 v3 dV', 'n2 v1 dV', 'n3 v2 dD', 'w5 v3 dV', 'r9 v2 dD'],
            [' '.join(words[:3]) for words in said if words[0][0] in 'nwr'],
        )
        expect('0', said[-1][-1])


@case(
    'the edge of an extract: who uses a node inside is known; beyond the edge `erase` takes what another way uses'
)
def edge(program):
    with Room(program) as room:
        room.write(
            'land.opl',
            'n1 v1 x1 y1\nn2 v1 x3 y1\nn3 v1 x4 y1\nw1 v1 Nn1,n2\nw2 v1 Nn2,n3\nr7 v1 Ttype=site Mn1@\n',
        )
        for strategy in ('complete_ways', 'smart'):
            expect(
                (0, ''),
                room.run(
                    [
                        'osmium',
                        'extract',
                        '-b',
                        '0,0,2,2',
                        '-s',
                        strategy,
                        'land.opl',
                        '-O',
                        '-o',
                        'cut.opl',
                    ]
                ),
            )
            lines = room.session(
                'download cut.opl', 'delete n1', 'delete r7,n1', 'erase w1', 'print'
            ).splitlines()
            expect(['2 refused 5 n1 w1', '3 refused 5 n1 w1', '4 ok'], lines[1:4])
            expect(True, 'n2 v1 dD c0 t i0 u T x y' in lines)
        expect('2 refused 5 n2 w1', room.session('download land.opl', 'delete n2').splitlines()[1])
