"""An upload: what a session writes, what a server answers, and what to do then."""
from bench.drawing.svg import Box, Picture

# a server's answer, what it means, what to do; the colour of its box
ANSWERS = [
    (
        '200',
        'all of the chunk is taken',
        ['confirm its answer, and upload', 'again: the rest of the changes'],
        'green',
    ),
    (
        '409',
        'it has another version by now',
        ['download fresh, conflicts,', 'resolve, and upload again'],
        'orange',
    ),
    (
        '410',
        'it is deleted there already',
        ['download it as deleted,', 'and upload again'],
        'orange',
    ),
    (
        '412',
        'others use it, or what it needs is gone',
        ['download fresh and wider,', 'conflicts, resolve, upload again'],
        'orange',
    ),
    (
        '5xx',
        'or none: nobody knows what is taken',
        ['ask what the changeset has,', 'before anything is sent again'],
        'red',
    ),
]


def upload():
    """An upload, a server's answers, and what to do at each."""
    picture = Picture(
        'An upload, and what to do at each answer',
        'A session writes its changes in chunks, each of which is sent as one document. '
        + ' '.join(
            '{}: {}; {}.'.format(code, means, ' '.join(ways)) for code, means, ways, _ in ANSWERS
        )
        + ' The first goes on with the next chunk; after 409, 410 and 412 the script goes on after the last confirm.',
        900,
        600,
    )
    picture.text(30, 36, 'An upload, and what to do at each answer', 17, bold=True)
    session, chunks, server = Box(30, 64, 220, 84), Box(330, 64, 220, 84), Box(640, 64, 230, 84)
    picture.named_box(session, 'the session', ['all that is changed', 'and not sent yet'])
    picture.named_box(chunks, 'chunks', ['create, modify, delete,', 'in an order that it takes'])
    picture.named_box(server, 'the server', ['takes all of a document', 'or nothing of it'], 'blue')
    picture.line((250, 106), (328, 106), arrow=True)
    picture.text(289, 96, 'upload', 13, 'middle', 'soft', 'mono')
    picture.line((550, 106), (638, 106), arrow=True)
    picture.text(594, 96, 'chunk 1', 13, 'middle', 'soft')
    picture.text(594, 124, 'yoke send', 13, 'middle', 'soft', 'mono')
    first, step, spine = 214, 70, 18
    picture.line(
        (755, 148), (755, 176), (spine, 176), (spine, first + step * (len(ANSWERS) - 1) + 28)
    )
    for x, words in [(48, 'it answers'), (200, 'which means'), (562, 'what to do')]:
        picture.text(x, first - 14, words, 13, colour='soft')
    for number, (code, means, ways, colour) in enumerate(ANSWERS):
        top = first + number * step
        picture.line((spine, top + 28), (46, top + 28), arrow=True)
        picture.box(48, top, 130, 56, colour=colour)
        picture.text(113, top + 35, code, 20, 'middle', colour, bold=True)
        picture.text(200, top + 33, means, 14)
        picture.line((512, top + 28), (548, top + 28), arrow=True)
        picture.box(552, top, 318, 56, colour='edge')
        picture.texts_at(566, top + 24, ways, 19, size=14)
    picture.text(
        48,
        first + step * len(ANSWERS) + 14,
        'After 409, 410 and 412 nothing of this chunk is taken; those that were confirmed before it stand.',
        13,
        colour='soft',
    )
    return picture
