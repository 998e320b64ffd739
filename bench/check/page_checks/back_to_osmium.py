"""What comes out goes back to osmium: snapshots, histories with deletions, and change files."""
import re

from bench.check.page_checks.case import case, expect, finds_fault
from bench.check.page_checks.page import all_sections, blocks_with
from bench.check.page_checks.room import Room, random_steps, room_of, run_section, town

OLD_SNAPSHOT = '''grep '^[nwr]' out.txt > objects.opl
osmium sort objects.opl -o town-again.osm.pbf
'''


def edited_town(room):
    """A town of 3,000 objects after 300 random steps of one download, deletions among them; gives
    the numbers of its `count`.
    """
    room.write('town.opl', town(3000))
    fixes = random_steps(room, 8, 300).decode()
    steps = [
        line
        for line in fixes.splitlines()
        if line not in ('print', 'count') and not re.match(r'(download\s+town-|resume\s)', line)
    ]
    said = room.session(*steps, 'count', 'print')
    room.write('out.txt', said)
    return dict(re.findall(r'(\w+) (\d+)', re.search(r'^count (.*)$', said, re.M)[1]))


def keeps_the_dead_dead(program, recipe, result):
    """After a recipe the result has just the living objects."""
    with Room(program) as room:
        numbers = edited_town(room)
        if int(numbers['deleted']) < 20:
            raise SystemExit('the town has too few deletions for a test')
        status, said = room.sh(recipe)
        expect((0, ''), (status, said))
        status, said = room.run(['osmium', 'cat', result, '-f', 'opl'])
        living = [line for line in said.splitlines() if ' dV ' in line]
        expect(
            [numbers[kind] for kind in ('nodes', 'ways', 'relations')],
            [str(sum(line.startswith(letter) for line in living)) for letter in 'nwr'],
        )
        return said


@case('back to osmium: the snapshot has just what `count` counts as there')
def snapshot(program):
    for recipe in blocks_with('osmium sort snapshot.opl'):
        keeps_the_dead_dead(program, recipe, 'snapshot.osm.pbf')


@case('back to osmium with the deletions: each is there, as deleted')
def with_deletions(program):
    for recipe in blocks_with('osmium sort edited.opl'):
        said = keeps_the_dead_dead(program, recipe, 'edited.osh.pbf')
        with Room(program) as room:
            expect(edited_town(room)['deleted'], str(said.count(' dD ')))


@case('the old recipe back to osmium brings deleted objects to life, and the check sees it')
def old_snapshot(program):
    finds_fault(lambda: keeps_the_dead_dead(program, OLD_SNAPSHOT, 'town-again.osm.pbf'))


@case('`osmium derive-changes` sees no edit, as its own page says')
def derive_changes(program):
    with Room(program) as room:
        room.write(
            'after.opl',
            ''.join(
                line + '\n'
                for line in room.session(
                    'download town.opl', 'tag w5 Tref=7', 'print'
                ).splitlines()[2:]
                if line[0] in 'nwr'
            ),
        )
        expect((0, ''), room.run(['osmium', 'sort', 'town.opl', '-o', 'before.osm.pbf']))
        expect((0, ''), room.run(['osmium', 'sort', 'after.opl', '-o', 'after.osm.pbf']))
        expect(
            (0, ''),
            room.run(
                ['osmium', 'derive-changes', 'before.osm.pbf', 'after.osm.pbf', '-o', 'changes.osc']
            ),
        )
        expect((0, ''), room.run(['osmium', 'cat', 'changes.osc', '-f', 'opl']))


def writes_again(room, line):
    """A line of osmium whose file is there already writes it once more."""
    expect((0, ''), room.sh(line))


@case(
    'what a page has written by osmium it writes a second time, after its section; without -O it does not, and the check sees it'
)
def osmium_again(program):
    for page, _, blocks in all_sections():
        lines = [
            line
            for block in blocks
            if block.kind == 'sh' and block.words != ['elsewhere']
            for line in re.findall(r'^osmium .* -o .*$', block.text, re.M)
        ]
        if not lines:
            continue
        with room_of(program, page) as room:
            run_section(room, blocks, 'sh -eu')
            for line in lines:
                writes_again(room, line)
                finds_fault(lambda line=line: writes_again(room, line.replace(' -O ', ' ')))
