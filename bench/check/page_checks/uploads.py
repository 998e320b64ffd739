"""Uploads: the documents for a server, its answers, and a whole upload in stages."""
import pathlib
import re

from bench.check.page_checks.case import case, expect
from bench.check.page_checks.page import TOP, Wrong, all_blocks, table
from bench.check.page_checks.room import Room, random_steps, town
from yoke import api, osc
from yoke.program import Answer

CHANGESET = 4711


MOST_CHUNKS = 10


def uploads_of(output):
    """Each upload in an output: the output up to its end, and the lines of its chunks without their
    heads.
    """
    ends = [
        found.end()
        for found in re.finditer(
            r'^upload changes .*\n(?:(?:chunk|create|modify|delete) .*\n)*', output, re.M
        )
    ]
    for end in ends:
        until = output[:end]
        changes, chunks = map(
            int, re.findall(r'^upload changes (\d+) chunks (\d+)$', until, re.M)[-1]
        )
        told = until[until.rindex('\nupload changes ') :]
        yield until, changes, [
            part.splitlines()[1:] for part in re.split(r'^(?=chunk )', told, flags=re.M)[1:]
        ]


def as_osmium_writes(change):
    """A line of an upload as osmium writes the change, in OPL, that it read in an osmChange
    document.
    """
    verb, line = change.split(' ', 1)
    if verb == 'delete':
        line += ' dD c0 t i0 u T' + {'n': ' x y', 'w': ' N', 'r': ' M'}[line[0]]
    line = re.sub(
        '%10([0-9a-f]{4})%', r'%1\1%', line
    )  # it reads U+10FFFF, and leaves the zero out when it writes OPL
    return line.replace(' c0 ', f' c{CHANGESET} ', 1)


def same_in_osmchange(room, output, chunks):
    """The document of each chunk has just its changes, as osmium reads it."""
    for chunk, changes in zip(chunks, chunks_of(output), strict=True):
        said = osc.document(changes, str(CHANGESET))
        verbs = [change.split(' ')[0] for change in chunk]
        expect(
            [verb for place, verb in enumerate(verbs) if place == 0 or verbs[place - 1] != verb],
            re.findall(r'^  <(create|modify|delete)>$', said, re.M),
        )
        room.write('chunk.osc', said)
        status, said = room.run(['osmium', 'cat', 'chunk.osc', '-f', 'opl'])
        expect((0, [as_osmium_writes(change) for change in chunk]), (status, said.splitlines()))


def random_uploads(room, seed):
    """The uploads of a random session over a town of 3,000 objects and some files that tell of it
    anew, those with few chunks.
    """
    room.write('town.opl', town(3000))
    (room.folder / 'random.script').write_bytes(random_steps(room, seed, 300))
    # U+007F is no text for the API, so a document with it isn't made
    for path in filter(pathlib.Path.is_file, room.folder.iterdir()):
        path.write_bytes(re.sub(b'\x7f|%0*7[fF]%', b'', path.read_bytes()))
    status, said = room.run(['yokeorange', 'random.script'])
    expect(0, status)
    return [upload for upload in uploads_of(said) if len(upload[2]) <= MOST_CHUNKS]


def chunks_of(output):
    """The chunks of the upload with which an output ends, as yoke reads them."""
    return list(Answer(output, ['upload'] * (output.count('\n') + 1)).chunks())


@case(
    'the documents that yoke sends have as many changes as `upload` counts, and osmium reads each of them as it stands there'
)
def osmchange(program):
    seen = set()
    for seed in (1, 3):
        with Room(program) as room:
            for output, changes, chunks in random_uploads(room, seed):
                expect(changes, sum(map(len, chunks)))
                same_in_osmchange(room, output, chunks)
                seen.update(
                    change.split(' ')[0] + change.split(' ')[1][0]
                    for chunk in chunks
                    for change in chunk
                )
    expect({verb + kind for verb in ('create', 'modify', 'delete') for kind in 'nwr'}, seen)


UPLOAD = TOP / 'examples' / 'upload'


STAGES = [
    (11, 1, 1),
    (19, 1, 2),
    (22, 1, 3),
]  # the script's lines up to an upload, the chunk that was taken, and its answers


@case(
    'examples/upload: each stage is a beginning of the whole script, and yoke makes its answer files of what a server answers'
)
def whole_upload(program):
    with Room(program) as room:
        room.folder = room.folder / 'upload'
        lines = (UPLOAD / 'mill.script').read_text().splitlines(True)
        want = (UPLOAD / 'mill.expected').read_text()
        expect((0, want), room.run(['yokeorange', 'mill.script']))
        for count, chunk, number in STAGES:
            room.write('stage.script', ''.join(lines[:count]))
            status, said = room.run(['yokeorange', 'stage.script'])
            expect((0, True), (status, want.startswith(said)))
            sent = chunks_of(said)[chunk - 1]
            made = osc.answers(sent, (UPLOAD / f'result-{number}.xml').read_text())
            expect((UPLOAD / f'answers-{number}').read_text().splitlines(), made)
            for other in {1, 2, 3} - {number}:
                try:
                    osc.answers(sent, (UPLOAD / f'result-{other}.xml').read_text())
                except ValueError:
                    continue
                raise Wrong(f'the answers to another chunk are taken: {other}')


@case(
    'examples/upload: what the server took, by osmium, over the extract is what the session prints'
)
def whole_upload_by_osmium(program):
    with Room(program) as room:
        room.folder = room.folder / 'upload'
        lines = (UPLOAD / 'mill.script').read_text().splitlines(True)
        expect(
            (0, ''), room.run(['osmium', 'sort', 'extract.opl', 'fresh.opl', '-o', 'area.osh.pbf'])
        )
        expect((0, ''), room.run(['osmium', 'time-filter', 'area.osh.pbf', '-o', 'area.osm.pbf']))
        ids, documents = {}, []
        for count, chunk, number in STAGES:
            said = osc.document(
                chunks_of(room.session(*''.join(lines[:count]).splitlines()))[chunk - 1], '4711'
            )
            for line in (UPLOAD / f'answers-{number}').read_text().splitlines():
                if line.startswith('create '):
                    old, new = (key[1:] for key in line.split(' ')[1:3])
                    ids[old] = new
            for old, new in ids.items():
                said = re.sub(r'( (?:id|ref)=")%s"' % old, r'\g<1>%s"' % new, said)
            said = re.sub(
                r' version="(\d+)"', lambda found: f' version="{int(found[1]) + 1}"', said
            )  # as it is after the change
            room.write(f'took-{number}.osc', said)
            documents.append(f'took-{number}.osc')
        status, said = room.run(
            ['osmium', 'apply-changes', 'area.osm.pbf', *documents, '-f', 'opl']
        )

        def content(line):
            return re.sub(r' c\d+ t\S* i\d+ u\S* ', ' ', line)

        printed = [
            line
            for line in (UPLOAD / 'mill.expected').read_text().split('27 ok\n')[1].splitlines()
            if ' dV ' in line
        ]

        def sort_tags(line):
            return re.sub(
                r' T(\S*)', lambda found: ' T' + ','.join(sorted(found[1].split(','))), line
            )

        expect(
            (0, sorted(map(content, printed))),
            (status, sorted(sort_tags(content(line)) for line in said.splitlines())),
        )


@case('the case of the gate on a whole upload is examples/upload')
def same_upload(_):
    bundle = (TOP / 'crates' / 'session_cases' / 'data' / 'whole_upload.txt').read_text()
    files = dict(re.findall(r'^= file (\S+)\n((?:(?!= ).*\n)*)', bundle, re.M))
    expect(
        ['answers-1', 'answers-2', 'answers-3', 'drawn.opl', 'extract.opl', 'fresh.opl', 'script'],
        sorted(files),
    )
    for name, text in files.items():
        expect((UPLOAD / ('mill.script' if name == 'script' else name)).read_text(), text)
    expect((UPLOAD / 'mill.expected').read_text(), bundle.split('= expect done\n')[1])


def statuses_of(cell):
    """The statuses that a cell names, such as `401, 403 to 406, 451`."""
    found = set()
    for first, last in re.findall(r'\b([1-5][0-9]{2})(?: to ([1-5][0-9]{2}))?', cell):
        found.update(range(int(first), int(last or first) + 1))
    return found


@case(
    'the page on the protocol takes a document as not taken after the statuses after which yoke does, and no other'
)
def not_taken(_):
    refused = set()
    for status, document, _ in table('status of the upload', 'the document').rows:
        if document.startswith('not taken') or '409' in status:
            refused |= statuses_of(status)
    expect(sorted({*api.NOT_DONE, 429}), sorted(refused))
    expect({401, 403, 404, 405, 451}, statuses_of('401, 403 to 405, 451'))


@case('no recipe confirms a file without an answer')
def confirmed(_):
    answered = {
        name
        for block in all_blocks()
        if block.kind == 'answers'
        for name in block.words[:1]
        if re.search('^(create|modify|delete) ', block.text, re.M)
    }
    answered |= {
        path.name
        for path in UPLOAD.glob('answers-*')
        if re.search('^(create|modify|delete) ', path.read_text(), re.M)
    }
    scripts = [block.text for block in all_blocks() if block.kind in ('script', 'sh')] + [
        (UPLOAD / 'mill.script').read_text()
    ]
    named = [name for text in scripts for name in re.findall(r'^confirm (\S+)$', text, re.M)]
    if not {'answers-1', 'answers-2', 'answers-3'} < set(
        named
    ):  # those of examples/upload, and some of a page
        raise Wrong(f'only {named} were found')
    expect([], [name for name in named if name not in answered])
