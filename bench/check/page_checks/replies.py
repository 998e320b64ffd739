"""Replies, statuses, bad lines and the command line, and what a shell makes of them."""
import re

from bench.check.page_checks.case import case, expect, finds_fault
from bench.check.page_checks.page import Wrong, blocks_with, tables_with
from bench.check.page_checks.room import SHELLS, STRICT, Room

OLD_GUARD = "yokeorange fix.script > out.txt && ! grep -Eq '^[0-9]+ (refused|skipped)' out.txt\n"


GOOD = 'download town.opl\ntag n1 Tref=7\n'


BAD = {
    'a refused step': GOOD + 'tag n9 Tref=7\n',
    'a group given up': GOOD + 'begin\ntag n9 Tref=7\ntag n1 Tref=8\nend\n',
    'a bad line': GOOD + 'tga n1 Tref=7\n',
    'no script': None,
}


def guards(program, recipe, shells):
    """The recipe goes on after a script without a refusal, and stops at all others."""
    for shell in shells:
        for name, script in [('all accepted', GOOD)] + list(BAD.items()):
            with Room(program) as room:
                if script is not None:
                    room.write('fix.script', script)
                _, said = room.sh(recipe + 'echo NEXT STEP\n', shell)
                if ('NEXT STEP' in said) != (name == 'all accepted'):
                    raise Wrong(f'{shell}, {name}: {said}')


@case(
    'the guard on replies stops at refusals, bad lines and a missing script, with `set -e` and without'
)
def guard(program):
    for recipe in blocks_with('if ! python3 python/session.py fix.script'):
        guards(program, recipe, SHELLS)


@case('the old guard lets refusals pass under `set -e`, and the check sees it')
def old_guard(program):
    for shell in STRICT:
        finds_fault(lambda: guards(program, OLD_GUARD, [shell]))


@case('a `print` in a group that was given up is skipped')
def skipped_print(program):
    with Room(program) as room:
        expect(
            '1 ok\n2 ok\n3 ok\n4 refused 1 n9\n5 skipped\n6 skipped\n',
            room.session(
                'download town.opl', 'begin', 'tag n1 Tref=7', 'tag n9 Tref=7', 'print', 'end'
            ),
        )


@case('the statuses 0, 2, 3, 4, 5, 7 and 8')
def statuses(program):
    with Room(program) as room:
        room.write('good', GOOD)
        room.write('bad', GOOD + 'print \n')
        room.write('long', '#' * 16_777_217)
        for words, status, text in [
            (['good'], 0, '1 ok\n2 ok\n'),
            ([], 2, 'editor: bad words\n'),
            (['good', 'good'], 2, 'editor: bad words\n'),
            (['none'], 3, 'editor: no script\n'),
            (['--help'], 2, 'editor: bad words\n'),
            (['bad'], 4, 'editor: bad script line 3\n'),
            (['long'], 5, 'editor: script too long\n'),
            (['.'], 7, 'editor: read fault\n'),
        ]:
            expect((status, text), room.run(['yokeorange'] + words))
        expect((8, 'editor: write fault\n'), room.sh('yokeorange good > /dev/full', 'sh'))


@case('the command line: what is bad words, and what is taken')
def command_line(program):
    with Room(program) as room:
        for name in ('good', '-x', '-'):
            room.write(name, GOOD)
        objects, size = '--max-objects', '--max-file'
        for words in (
            [objects, '1'],
            [objects + '=5000000'],
            [size, '1073741824'],
            [objects, '00020'],
            [objects, '+20'],
            [objects, '20', size, '1000'],
            [size + '=1000', objects, '20'],
        ):
            for line in (words + ['good'], ['good'] + words):
                if room.run(['yokeorange'] + line)[0] != 0:
                    raise Wrong(f'{line} is refused')
        for words in (['--', '-x'], ['-'], ['--', '-'], [objects, '20', '--', 'good']):
            expect((0, '1 ok\n2 ok\n'), room.run(['yokeorange'] + words))
        for words in (['--', '-y'], [''], ['--', '--help'], ['--', '']):
            expect((3, 'editor: no script\n'), room.run(['yokeorange'] + words))
        for words in (
            [objects, '0'],
            [objects, '5000001'],
            [size, '0'],
            [size, '1073741825'],
            [objects, '99999999999999999999'],
            [objects, '-1'],
            [objects, '1.5'],
            [objects, 'x'],
            [objects, ''],
            [objects + '='],
            [objects, '1 '],
            [objects, '5', objects, '5'],
            [objects + '=5', objects + '=6'],
            ['--max', '5'],
            ['--max-object=5'],
            ['-h'],
            ['-V'],
            ['--version'],
            ['--help'],
            ['-x'],
            ['good'],
            ['--', 'good'],
        ):
            expect((2, 'editor: bad words\n'), room.run(['yokeorange'] + words + ['good']))
        for words in (
            [],
            [objects, 'good'],
            [objects, '5'],
            ['good', objects],
            ['good', size, '--', '5'],
            ['--'],
            ['good', '--', 'good'],
        ):
            expect((2, 'editor: bad words\n'), room.run(['yokeorange'] + words))


@case('the limits hold for each file that a step reads, to the object and to the byte')
def limits(program):
    with Room(program) as room:
        room.write('a.opl', 'n1 v1 x1 y1\nw2 v1 Nn1,n3\n')
        room.write('new.opl', 'n-1 x1 y1\n')
        room.write('answers', 'create n-1 n7 v1\n')
        room.write('s', 'download a.opl\nimport new.opl\nconfirm answers\n')
        for words, want in [
            ([], ['1 ok', '2 ok n-1', '3 ok']),
            (['--max-objects', '4'], ['1 ok', '2 ok n-1', '3 ok']),
            (['--max-objects', '3'], ['1 ok', '2 refused 18', '3 refused 26 1']),
            (['--max-objects', '2'], ['1 refused 18', '2 ok n-1', '3 ok']),
            (['--max-file', '25'], ['1 ok', '2 ok n-1', '3 ok']),
            (['--max-file', '24'], ['1 refused 20 toolong', '2 ok n-1', '3 ok']),
            (['--max-file', '16'], ['1 refused 20 toolong', '2 ok n-1', '3 refused 20 toolong']),
            (
                ['--max-file', '9'],
                ['1 refused 20 toolong', '2 refused 20 toolong', '3 refused 20 toolong'],
            ),
        ]:
            expect(
                (0, want),
                (lambda said: (said[0], said[1].splitlines()))(
                    room.run(['yokeorange'] + words + ['s'])
                ),
            )


BAD_LINES = [
    'download a.opl B13,53,14,52',
    'download a.opl B13,52,13.1',
    'download a.opl Fhighway',
    'download a.opl B12,52,13,91',
    'generate 0',
    'generate 100001',
    'import',
    'confirm',
    ' print',
    'combine w1',
    '\ufeffprint',
    'delete',
]


def code_spans(cell):
    """The lines of a script among a cell's pieces of code."""
    return [
        code
        for code in re.findall('`([^`]+)`', cell)
        if re.match('[A-Za-z]+( |$)', code) and not code.startswith(('sed ', 'Fhighway', 'serve'))
    ]


@case('status 4: each slip that a page names, and what is right in its place')
def slips(program):
    rows = [row for table in tables_with('written', 'right') for row in table.rows]
    wrong = [line for row in rows for line in code_spans(row[0])]
    right = [line for row in rows for line in code_spans(row[1])]
    if len(wrong) < 20 or len(right) < 12:
        raise Wrong(f'{wrong} and {right} lines were found in the table')
    with Room(program) as room:
        for line in BAD_LINES + wrong:
            room.write('slip', 'count\n' + line + '\n')
            found = room.run(['yokeorange', 'slip'])
            if found != (4, 'editor: bad script line 2\n'):
                raise Wrong(f'{line}: {found}')
        for line in right:
            room.write('right', 'count\n' + line + '\n')
            status, said = room.run(['yokeorange', 'right'])
            if status != 0:
                raise Wrong(f'{line}: {said}')


@case(
    'after a refused `resume` an upload has no changes and a `save` no objects; an empty answer file confirms nothing with an ok'
)
def over_nothing(program):
    with Room(program) as room:
        expect(
            [
                '1 refused 19',
                '2 ok',
                'upload changes 0 chunks 0',
                '3 ok',
                'session 1 1',
                'session end',
            ],
            room.session('resume nowhere.saved', 'upload 10', 'save').splitlines(),
        )
        room.write('empty.answers', '')
        once = 'upload changes 1 chunks 1\nchunk 1 of 1\ncreate n-1 v0 dV c0 t i0 u T x1 y1\n'
        expect(
            '1 ok n-1\n2 ok\n' + once + '3 ok\n4 ok\n' + once,
            room.session('node x1 y1 T', 'upload 10', 'confirm empty.answers', 'upload 10'),
        )
