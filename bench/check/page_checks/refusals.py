"""Refusals: each has a place in the pages, and the ways out that they give lead out."""
import re

from bench.check import counted
from bench.check.page_checks.case import case, expect, finds_fault
from bench.check.page_checks.entries import entries
from bench.check.page_checks.page import PAGES, Wrong, headings, table
from bench.check.page_checks.room import Room

HOUSES = '''n1 v1 x13.001 y52
n2 v1 x13.002 y52
n3 v1 x13.002 y52.001
n4 v1 x13.001 y52.001
n5 v1 x13.003 y52
n6 v1 x13.003 y52.001
w181 v2 Tbuilding=house Nn1,n2,n3,n4,n1
w182 v2 Tbuilding=house Nn2,n5,n6,n3,n2
'''


NEIGHBOUR = 'w182 v2 dV c0 t i0 u Tbuilding=house Nn2,n5,n6,n3,n2'


def neighbour_stays(program, step):
    """The house is deleted by the step, and the neighbour's is as it was."""
    with Room(program) as room:
        room.write('houses.opl', HOUSES)
        lines = room.session('download houses.opl', step, 'print').splitlines()
        expect('2 ok', lines[1])
        for line in (NEIGHBOUR, 'w181 v2 dD c0 t i0 u T N'):
            if line not in lines:
                raise Wrong(f'there is no {line}')


@case(
    'refusal 5: leaving the shared nodes out, or `erase` of the way alone, keeps the house next door'
)
def shared_nodes(program):
    with Room(program) as room:
        room.write('houses.opl', HOUSES)
        expect(
            '1 ok\n2 refused 5 n2 w182\n',
            room.session('download houses.opl', 'delete w181,n1,n2,n3,n4'),
        )
    neighbour_stays(program, 'delete w181,n1,n4')
    neighbour_stays(program, 'erase w181')


@case(
    'refusal 5: naming the user, or `erase` with the nodes, harms the house next door, and the check sees it'
)
def old_shared_nodes(program):
    finds_fault(lambda: neighbour_stays(program, 'delete w181,w182,n1,n2,n3,n4'))
    finds_fault(lambda: neighbour_stays(program, 'erase w181,n1,n2,n3,n4'))


@case('refusal 7: its four causes, and a `move` that meets it')
def does_not_fit(program):
    long = 'a' * 256
    with Room(program) as room:
        nodes = [f'n{number}' for number in range(1, 2002)]
        room.write(
            'long.opl',
            ''.join(f'{node} v1 x1 y1\n' for node in nodes) + f'n3000 v1 x1 y1 Tnote={long}\n',
        )
        said = room.session(
            'download long.opl',
            'way T N',
            'way T N' + ','.join(nodes),
            'way T N' + ','.join(nodes[:2000]),
            'relation T M' + ','.join(['n1@'] * 32001),
            'relation T M' + ','.join(['n1@'] * 32000),
            f'node x1 y1 T{long}=1',
            f'node x1 y1 Ta={long}',
            'relation T Mn1@' + long,
            'move n3000 0.1 0',
            'tag n3000 Tnote=',
            'move n3000 0.1 0',
        )
        expect(
            [
                '1 ok',
                '2 refused 7 w-1',
                '3 refused 7 w-1',
                '4 ok w-1',
                '5 refused 7 r-2',
                '6 ok r-2',
                '7 refused 7 n-3',
                '8 refused 7 n-3',
                '9 refused 7 r-3',
                '10 refused 7 n3000',
                '11 ok',
                '12 ok',
            ],
            said.splitlines(),
        )


@case('refusal 17: a file edited by hand; `purge` and a file with the one object take it anew')
def anew(program):
    with Room(program) as room:
        room.write('way.opl', 'w5 v1 dD\n')
        room.write('older.opl', 'w5 v1 Thighway=track Nn1,n3\n')
        expect(
            ['2 refused 17 w5 1', '3 ok', '4 ok', '5 ok'],
            room.session(
                'download town.opl', 'download way.opl', 'purge w5', 'download way.opl', 'print'
            ).splitlines()[1:5],
        )
        said = room.session(
            'download way.opl', 'download older.opl', 'purge w5', 'download older.opl'
        )
        expect('1 ok\n2 refused 17 w5 1\n3 ok\n4 ok\n', said)


@case(
    'refusal 4: a conflict goes with `undo` of the download that it came with, with all that was done since'
)
def taken_back(program):
    with Room(program) as room:
        room.write('later.opl', 'w5 v2 Thighway=track Nn1,n2,n3\n')
        said = room.session(
            'download town.opl',
            'tag w5 Thighway=path',
            'download later.opl',
            'tag w5 Tref=7',
            'count',
            'undo 1',
            'tag w5 Tref=7',
            'count',
        )
        expect(
            ['1 ok', '2 ok', '3 ok', '4 refused 4 w5', '5 ok', '6 ok', '7 ok', '8 ok'],
            [line for line in said.splitlines() if line[0] != 'c'],
        )
        expect(['1', '0'], re.findall(r'conflicts (\d+)', said))


@case(
    'the way out of a conflict: the script again over the newer file alone, where its steps are made on what the server has'
)
def over_the_newer(program):
    with Room(program) as room:
        room.write('later.opl', 'w5 v2 Thighway=track Nn1,n2,n3\n')
        expect(
            ['1 ok', '2 ok', '3 ok', 'w5 v2 dV c0 t i0 u Thighway=path Nn1,n2,n3'],
            room.session('download later.opl', 'tag w5 Thighway=path', 'print').splitlines(),
        )


@case('refusal 14: what `split` mended `combine` refuses, and `undo` takes back')
def cut_restriction(program):
    with Room(program) as room:
        room.write(
            'turn.opl',
            ''.join(f'n{n} v1 x1.00{n} y1\n' for n in range(1, 5))
            + 'w10 v1 Nn1,n2,n3\nw11 v1 Nn3,n4\nr21 v1 Ttype=restriction Mw10@from,n3@via,w11@to\n',
        )
        expect(
            '1 ok\n2 ok w-1\n3 refused 14 r21\n4 ok\n',
            room.session('download turn.opl', 'split w10 n2', 'combine w10,w-1', 'undo 1'),
        )


@case('refusal 14: a route with all of the ways, or with none, is no hindrance')
def route(program):
    with Room(program) as room:
        room.write(
            'route.opl',
            ''.join(f'n{n} v1 x1.00{n} y1\n' for n in range(1, 4))
            + 'w1 v1 Nn1,n2\nw2 v1 Nn2,n3\nr8 v1 Ttype=route Mn1@stop,w1@\n',
        )
        said = room.session(
            'download route.opl',
            'combine w1,w2',
            'members r8 Mn1@stop,w1@,w2@',
            'combine w1,w2',
            'undo 2',
            'members r8 Mn1@stop',
            'combine w1,w2',
        )
        expect('1 ok\n2 refused 14 r8\n3 ok\n4 ok\n5 ok\n6 ok\n7 ok\n', said)


@case('the pages have each refusal and each status that the code has, and no other')
def rows(_):
    listed = table('number', 'reply').rows
    expect(
        sorted(counted.refusals()),
        sorted({int(row[0]) for row in listed if re.match(f'`refused {row[0]}[ `]', row[1])}),
    )
    told = {
        int(row[0]): re.sub(' [A-Z]+$', '', row[1].strip(' `'))
        for row in table('code', 'text').rows
    }
    expect(
        {
            number: 'editor: ' + words if number else ''
            for number, words in counted.statuses().items()
        },
        told,
    )
    for heading in [heading for page in PAGES for heading in headings(page)]:
        number = re.fullmatch('Refusal ([0-9]+)', heading.text)
        if number and int(number[1]) not in counted.refusals():
            raise Wrong(f'{heading.page} has a heading {heading.text}')


@case(
    'each line of a script names its refusals in their order, each by its link, and each refusal stands at a line that gives it'
)
def orders(_):
    given = set()
    for entry in entries():
        order = entry.parts['Refuses']
        links = re.findall(r'\[([0-9]+)\]\([^)]*#refusal-([0-9]+)\)', order)
        given.update(int(number) for number, _ in links)
        bare = re.search(r'\b[0-9]+\b', re.sub(r'\[[^\]]*\]\([^)]*\)|Never .*', '', order))
        if bare or any(number != link for number, link in links):
            raise Wrong('{}: a refusal without its link: {}'.format(', '.join(entry.words), order))
    # an editor of a meeting that waits refuses each line by 37
    expect(sorted(set(counted.refusals()) - {37}), sorted(given - {37}))
    expect(
        ['7'],
        [
            number
            for entry in entries()
            if entry.words == ['move']
            for number in re.findall(r'\[(7)\]', entry.parts['Refuses'])
        ],
    )
