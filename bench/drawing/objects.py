"""What an object is to a session, and the three sides of a conflict."""
from bench.drawing.data import EXAMPLES, output, printed
from bench.drawing.svg import Box, Picture

UPLOAD = EXAMPLES / 'upload'


# what an object may be: its name, where its box stands, what is said in it, and its colour
STATES = [
    ('unknown', 30, 110, ['no file told of it'], 'edge'),
    ('known', 270, 110, ['as the server has it'], 'blue'),
    ('changed', 510, 110, ['edited here, new,', 'or deleted here'], 'green'),
    ('sent', 720, 110, ['in the last upload'], 'green'),
    ('referred to', 30, 310, ['its tags and place', 'aren\'t known'], 'edge'),
    ('in conflict', 510, 310, ['base, mine', 'and theirs'], 'red'),
]
# what makes it another: the corners of the arrow, what is written at it, where, and how that is set
STEPS = [
    ([(180, 138), (268, 138)], ['download'], (224, 128), 'middle'),
    ([(270, 168), (182, 168)], ['purge'], (226, 188), 'middle'),
    ([(420, 138), (508, 138)], ['tag move', 'delete ..'], (464, 111), 'middle'),
    ([(510, 168), (422, 168)], ['undo'], (466, 188), 'middle'),
    ([(660, 138), (718, 138)], ['upload'], (689, 128), 'middle'),
    (
        [(795, 110), (795, 74), (345, 74), (345, 108)],
        ['confirm: in the server\'s next version'],
        (570, 66),
        'middle',
    ),
    (
        [(690, 232), (690, 168), (662, 168)],
        ['node way relation', 'import: a new one'],
        (700, 218),
        'start',
    ),
    ([(105, 186), (105, 308)], ['another object', 'refers to it'], (114, 250), 'start'),
    ([(180, 348), (310, 348), (310, 188)], ['download'], (200, 340), 'start'),
    (
        [(630, 188), (630, 308)],
        ['download: somebody else', 'changed it otherwise'],
        (640, 276),
        'start',
    ),
    ([(545, 310), (545, 188)], ['resolve', 'mine, parts'], (535, 262), 'end'),
    ([(510, 366), (370, 366), (370, 188)], ['resolve theirs'], (380, 386), 'start'),
]
JOINED = 'Of an object that somebody else changed in other parts, a download joins both, and it stays changed.'


def life():
    """What an object is to a session, and which lines of a script make it another."""
    picture = Picture(
        'What an object is to a session',
        'An object is unknown, only referred to, known, changed, sent, or in conflict. A download makes it known; '
        'an edit makes it changed; an upload sends the change, and what confirms the answer makes it known in the next version of the server. '
        'A download of what somebody else did to a changed object brings a conflict, which resolve settles: it is changed again, or known as the '
        'server has it. ' + JOINED,
        900,
        446,
    )
    picture.text(30, 36, 'What an object is to a session', 17, bold=True)
    for name, x, y, lines, colour in STATES:
        picture.named_box(Box(x, y, 150, 76), name, lines, colour)
    for points, lines, (x, y), at in STEPS:
        picture.line(*points, arrow=True)
        picture.texts_at(
            x,
            y,
            lines,
            17,
            size=13,
            at=at,
            colour='soft',
            font='sans' if lines[0] == 'another object' else 'mono',
        )
    picture.text(30, 424, JOINED, 13, colour='soft')
    return picture


def contents(thing):
    """The tags of an object, a line each."""
    return (
        ['{}={}'.format(*pair) for pair in sorted(thing.tags.items())]
        if thing.is_there
        else ['deleted']
    )


KEY = 'n4'
BEFORE = ['download extract.opl', 'tag n4 Tbackrest=yes', 'download fresh.opl']
CHOICES = ['resolve n4 mine', 'resolve n4 parts mine K', 'resolve n4 theirs']


def sides_and_results():
    """The sides of the conflict of examples/upload by name, and the object after each choice."""
    told = [line.split(' ', 1) for line in output(BEFORE + ['conflicts'], UPLOAD).split('\n')]
    sides = {
        words[0]: next(iter(printed(words[1]).values()))
        for words in told
        if words[0] in ('base', 'mine', 'theirs')
    }
    return sides, [printed(output(BEFORE + [choice, 'print'], UPLOAD))[KEY] for choice in CHOICES]


def conflict():
    """The three sides of a conflict, and what `resolve` makes of them."""
    sides, results = sides_and_results()
    tags = {side: ', '.join(contents(thing)) for side, thing in sides.items()}
    picture = Picture(
        'The three sides of a conflict',
        'The bench {} was downloaded in version {} with {}: the base. Mine has {}. Theirs, version {} of the server, has {}. '.format(
            KEY,
            sides['base'].version,
            tags['base'],
            tags['mine'],
            sides['theirs'].version,
            tags['theirs'],
        )
        + ' '.join(
            '{} gives {}.'.format(choice, ', '.join(contents(result)))
            for choice, result in zip(CHOICES, results)
        ),
        800,
        500,
    )
    picture.text(30, 36, f'A bench in conflict: {KEY}', 17, bold=True)
    for side, x, y, height, colour, note in [
        ('base', 280, 64, 84, 'edge', 'version {}, downloaded'.format(sides['base'].version)),
        ('mine', 60, 204, 100, 'green', 'edited here'),
        (
            'theirs',
            500,
            204,
            100,
            'blue',
            'version {} of the server'.format(sides['theirs'].version),
        ),
    ]:
        picture.box(x, y, 240, height, colour=colour)
        picture.text(
            x + 14, y + 24, side, 15, colour='ink' if colour == 'edge' else colour, bold=True
        )
        picture.text(x + 226, y + 24, note, 12, 'end', 'soft')
        picture.texts_at(x + 14, y + 48, contents(sides[side]), 19, size=14, font='mono')
    picture.text(222, 178, 'tag', 13, 'end', 'soft', 'mono')
    picture.text(578, 178, 'somebody else', 13, 'start', 'soft')
    for number, (choice, result) in enumerate(zip(CHOICES, results)):
        x = 30 + number * 250
        picture.box(x, 372, 240, 108, colour=('green', 'edge', 'blue')[number])
        picture.text(x + 14, 396, choice, 14, font='mono', bold=True)
        picture.texts_at(x + 14, 422, contents(result), 19, size=14, font='mono')
    for ends in [
        ((330, 148), (230, 202)),
        ((470, 148), (570, 202)),
        ((180, 304), (150, 370)),
        ((280, 304), (360, 370)),
        ((520, 304), (440, 370)),
        ((620, 304), (650, 370)),
    ]:
        picture.line(*ends, arrow=True)
    return picture
