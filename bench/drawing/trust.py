"""What is proved of a session, and what is trusted: from the disk to the live server, by colours.
"""
from bench.drawing.svg import Box, Picture

# the name of each station from left to right, what it is, and its colour
STATIONS = [
    ('disk', ['script, OPL'], 'orange'),
    ('reading', ['a few lines'], 'orange'),
    ('session', ['its text is that', 'of a definition'], 'green'),
    ('writing', ['a few lines'], 'orange'),
    ('yoke', ['makes osmChange,', 'sends, confirms'], 'blue'),
    ('server', ['API 0.6'], 'red'),
]
MEANING = [
    ('green', 'proved'),
    ('orange', 'reviewed and tried'),
    ('blue', 'tested'),
    ('red', 'assumed; a model of it is proved against'),
]


def trust():
    """The stations of an edit, coloured by what vouches for them."""
    picture = Picture(
        'What is proved, and what is trusted',
        ' '.join(
            '{}: {}; {}.'.format(name, ' '.join(words), dict(MEANING)[colour])
            for name, words, colour in STATIONS
        ),
        900,
        250,
    )
    picture.text(30, 36, 'From your disk to the map: who vouches for what', 17, bold=True)
    for number, (name, words, colour) in enumerate(STATIONS):
        left = 30 + 144 * number
        picture.named_box(Box(left, 64, 118, 84), name, words, colour)
        if number:
            picture.line((left - 26, 106), (left - 3, 106), arrow=True)
    for number, (colour, words) in enumerate(MEANING):
        left = 30 + (0, 110, 300, 400)[number]
        picture.box(left, 176, 16, 16, colour=colour)
        picture.text(left + 24, 189, words, 14)
    picture.text(
        30,
        226,
        'Below all of it: the toolkit (prover, compiler, library), the C library, the kernel.',
        14,
        colour='soft',
    )
    return picture
