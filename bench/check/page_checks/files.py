"""Files that come in: faults, other formats, texts, new objects, made-up cities."""
import random
import re
import sys

from bench.check.page_checks.case import case, expect
from bench.check.page_checks.page import TOP, Wrong, phrase, table
from bench.check.page_checks.room import Room

# the heads of the table of faults
FAULTS = ('', 'fault', 'it comes where')


def faults():
    """The examples of the table of faults, by the number of their fault."""
    return {int(row[0]): row[-1].strip('`') + '\n' for row in table(*FAULTS).rows}


@case('refusal 20: each example of a fault has its fault')
def fault_examples(program):
    expect(list(range(1, 16)), sorted(faults()))
    with Room(program) as room:
        for number, line in faults().items():
            room.write('fault.opl', line)
            expect(f'1 refused 20 line 1 fault {number}\n', room.session('download fault.opl'))


@case('refusal 20: of the examples `osmium cat` mends faults 7 and 12, and no other')
def osmium_mends(program):
    mended = []
    with Room(program) as room:
        for number, line in faults().items():
            room.write('fault.opl', line)
            status, said = room.run(['osmium', 'cat', 'fault.opl', '-f', 'opl'])
            room.write('mended.opl', said)
            if status == 0 and room.session('download mended.opl') == '1 ok\n':
                mended.append(number)
    expect([7, 12], mended)


@case('refusal 20: a coordinate in another form is fault 8, and `osmium cat` rounds it')
def other_coordinates(program):
    with Room(program) as room:
        for written, place in [
            ('x13.123456789 y52', 'x13.1234568 y52'),
            ('x1e1 y52', 'x10 y52'),
            ('x.5 y13.', 'x0.5 y13'),
            ('x13.10000000 y52', 'x13.1 y52'),
        ]:
            room.write('form.opl', f'n-1 {written}\n')
            expect('1 refused 20 line 1 fault 8\n', room.session('import form.opl'))
            expect((0, ''), room.sh('osmium cat form.opl -f opl -O -o round.opl\n'))
            expect(
                f'1 ok n-1\n2 ok\nn-1 v0 dV c0 t i0 u T {place}\n',
                room.session('import round.opl', 'print'),
            )


@case(
    'import: a file in Latin-1 is fault 6, and `iconv` mends it; an empty value comes in, and a file of positive ids brings nothing'
)
def addresses(program):
    with Room(program) as room:
        (room.folder / 'latin.opl').write_bytes(
            'n-1 x13 y52 Taddr:street=Königsweg\n'.encode('latin-1')
        )
        expect('1 refused 20 line 1 fault 6\n', room.session('import latin.opl'))
        expect((0, ''), room.sh('iconv -f latin1 -t utf-8 latin.opl > utf.opl\n'))
        expect('1 ok n-1\n', room.session('import utf.opl'))
        room.write(
            'empty.opl',
            'n-1 x13 y52 Ta=,b=%3d%\nn-2 Ta=b x13 y52\nn-3 x13 y52 Ta=b,c=\nn-4 Ta=,b=c x13 y52\nn-5 Ta= x13 y52\n',
        )
        expect((0, '1\n3\n4\n5\n'), room.sh("grep -nE '=(,| |$)' empty.opl | cut -d: -f1\n"))
        expect(
            ['1 ok n-1,n-2,n-3,n-4,n-5', '2 ok', 'found 2', 'n-1', 'n-4'],
            room.session('import empty.opl', 'find Ta= and Tb=*').splitlines(),
        )
        room.write('positive.opl', 'n1 v1 x13 y52\n')
        expect(
            [
                '1 ok',
                '2 ok',
                'count nodes 0 ways 0 relations 0 incomplete 0 deleted 0 changed 0 conflicts 0',
            ],
            room.session('import positive.opl', 'count').splitlines(),
        )


@case('refusal 20: what other formats, other programs and extracts without metadata give')
def real_faults(program):
    with Room(program) as room:
        for command, fault in [
            ('osmium cat town.opl -o bad.osm.pbf && mv bad.osm.pbf bad', 1),
            ('osmium cat town.opl -o bad.osm && mv bad.osm bad', 1),
            ('gzip -c town.opl > bad', 1),
            ('osmium cat town.opl -f opl,add_metadata=none -o bad', 10),
            (
                "printf '<osm version=\"0.6\"><node id=\"-1\" lat=\"1\" lon=\"1\"/></osm>' > j.osm && osmium cat j.osm -f opl -o bad",
                15,
            ),
            (
                "printf '<osm version=\"0.6\"><node id=\"1\" version=\"2\"/></osm>' > j.osm && osmium cat j.osm -f opl -o bad",
                9,
            ),
        ]:
            expect((0, ''), room.sh('rm -f bad\n' + command + '\n'))
            expect(f'1 refused 20 line 1 fault {fault}\n', room.session('download bad'))


# lines that osmium takes, what it makes of them, and the fault by which they are refused
STRICTER = [
    ('n1 v1 x181 y2', 'T x y', 8),
    ('n1 v1 x1e1 y2', 'T x10 y2', 8),
    ('n1 v1 x0.00000005 y2', 'T x0.0000001 y2', 8),
    ('n1 v1 x.5 y2', 'T x0.5 y2', 8),
    ('n1 v1 x1. y2', 'T x1 y2', 8),
    ('n1 v1 t2023-02-29T00:00:00Z x1 y2', 't2023-03-01T00:00:00Z', 7),
    ('n1 v1 t2023-02-01T00:00:60Z x1 y2', 't2023-02-01T00:01:00Z', 7),
    ('n1 v1 Ta=%% x1 y2', 'Ta=%25%', 6),
    ('n1 v1 Ta=%0% x1 y2', 'Ta=%25%', 6),
    ('n1 v2000000001 x1 y2', 'v2000000001', 5),
    ('n1000000000000000001 v1 x1 y2', 'n1000000000000000001', 2),
]


@case('where the grammar of files is stricter than osmium')
def stricter_than_osmium(program):
    with Room(program) as room:
        for line, taken, fault in STRICTER:
            room.write('line.opl', line + '\n')
            status, said = room.run(['osmium', 'cat', 'line.opl', '-f', 'opl'])
            expect((0, True), (status, taken in said))
            expect(f'1 refused 20 line 1 fault {fault}\n', room.session('download line.opl'))


# one change over several objects: the steps, what others did, what comes of it, and what the page's
# lines and its query find


@case('which fault comes first in tags and members')
def first_broken(program):
    numbers = {row[1]: row[0] for row in table(*FAULTS).rows}
    found = re.findall(
        r'`([TM]\S*)`(?: is (\w+)|, since)', phrase('the first broken thing counts.*')
    )
    if len(found) < 7:
        raise Wrong(f'{found} were found')
    with Room(program) as room:
        for field, name in found:
            room.write(
                'field.opl',
                f'n1 v1 {field} x0 y0\n' if field[0] == 'T' else f'r1 v1 {field}\n',
            )
            expect(
                f'1 refused 20 line 1 fault {numbers[name]}\n',
                room.session('download field.opl'),
            )


@case('x is the longitude: a place with the two exchanged is taken')
def exchanged(program):
    with Room(program) as room:
        expect('2 ok', room.session('download town.opl', 'place n1 x47.2 y9.5').splitlines()[1])
        expect('2 refused 8 n1', room.session('download town.opl', 'move n1 0 100').splitlines()[1])


@case('texts of all kinds go out and come back')
def texts(program):
    sys.path.insert(0, str(TOP / 'examples' / 'python'))
    import session as driver

    letters = random.Random(1)
    values = [
        'a b',
        'a,b=c',
        'x@y',
        '100%',
        'tab\there',
        'line\nfeed',
        '\u2028\u0085',
        'Straße',
        '中山路',
        '😀',
    ] + [
        ''.join(
            chr(letters.choice([letters.randrange(1, 0x300), letters.randrange(0x10000, 0x11000)]))
            for _ in range(40)
        )
        for _ in range(50)
    ]
    with Room(program) as room:
        said = room.session(
            'download town.opl',
            *('tag n1 T' + driver.tags({f'k{i}': value}) for i, value in enumerate(values)),
            'print',
        )
        node = next(line for line in said.splitlines() if line.startswith('n1 '))
        expect(values, [driver.parse_object(node).tags[f'k{i}'] for i in range(len(values))])


@case('a file that JOSM saved: the new objects come in, and nothing else')
def from_josm(program):
    with Room(program) as room:
        room.write(
            'drawn.osm',
            """<osm version='0.6' generator='JOSM'>
            <node id='-5' action='modify' visible='true' lat='0.05' lon='13.65'/>
            <node id='2' action='modify' visible='true' version='1' lat='1' lon='13.6'/>
            <node id='3' action='delete' visible='true' version='1' lat='0.1' lon='13.7'/>
            <way id='-7' action='modify' visible='true'><nd ref='2'/><nd ref='-5'/><tag k='highway' v='path'/></way>
            <relation id='-6' action='modify' visible='true'><member type='way' ref='-7' role='a b'/><member type='way' ref='5' role=''/></relation>
            </osm>""",
        )
        expect((0, ''), room.run(['osmium', 'cat', 'drawn.osm', '-f', 'opl', '-o', 'drawn.opl']))
        said = room.session('download town.opl', 'import drawn.opl', 'print').splitlines()
        expect(['1 ok', '2 ok n-1,w-2,r-3', '3 ok'], said[:3])
        expect(
            [
                'n-1 v0 dV c0 t i0 u T x13.65 y0.05',
                'w-2 v0 dV c0 t i0 u Thighway=path Nn2,n-1',
                'r-3 v0 dV c0 t i0 u T Mw-2@a%20%b,w5@',
            ],
            [line for line in said if line[1:2] == '-'],
        )
        expect(
            [line for line in room.session('download town.opl', 'print').splitlines()[2:]],
            [line for line in said[3:] if line[1:2] != '-'],
        )


@case('a city of many streets has the objects that the pages reckon')
def city(program):
    with Room(program) as room:
        for streets, objects in [
            (1, (10, 1, 0)),
            (9, (82, 9, 0)),
            (10, (91, 10, 1)),
            (1234, (11107, 1234, 123)),
        ]:
            said = room.session(f'generate {streets}', 'generate 1', 'count', 'print').splitlines()
            expect(
                'count nodes {} ways {} relations {} incomplete 0 deleted 0 changed 0 conflicts 0'.format(
                    *objects
                ),
                said[3],
            )
            head = ' v1 dV c1 t2020-01-01T00:00:00Z i1 ucity '
            for line in [
                'w{}{}Thighway=residential,name=Street%20%{} N{}'.format(
                    j, head, j, ','.join(f'n{k}' for k in range(9 * j - 8, 9 * j + 2))
                )
                for j in (1, streets)
            ] + ['n1001' + head + 'T x0 y0.001'] * (objects[0] > 1000):
                if line not in said:
                    raise Wrong(f'there is no {line}')
