"""The town of the examples, before and after a script."""
from bench.drawing.data import EXAMPLES, output, printed
from bench.drawing.svg import Picture

WIDTH, HEIGHT = 430, 270
WEST, SOUTH, SCALE_X, SCALE_Y = 13.5, 0.0, 1500, 1000  # pixels a degree
LEFT, FOOT = 70, 178


def at(place, left=0):
    """Where a place of the town lies in the picture."""
    return left + LEFT + (place[0] - WEST) * SCALE_X, FOOT - (place[1] - SOUTH) * SCALE_Y


def label(thing):
    """A node's key, and what it is."""
    return ' '.join([thing.key] + [value for key, value in thing.tags.items() if key == 'amenity'])


def draw(picture, things, left, title, remarks):
    """Draws a town with its title and what is said below it; new objects in green, changed streets
    in blue.
    """
    picture.text(left + 20, 32, title, 16, bold=True)
    for thing in things.values():
        if thing.nodes and thing.tags.get('highway') != 'footway':
            ends = [at(things[node].place, left) for node in thing.nodes]
            picture.line(*ends, colour='street', wide=16, over=True)
            picture.text(
                (ends[0][0] + ends[1][0]) / 2,
                ends[0][1] - 18,
                thing.tags['name'],
                14,
                'middle',
                'soft',
            )
    for thing in things.values():
        if thing.tags.get('highway') == 'footway':
            picture.line(
                *[at(things[node].place, left) for node in thing.nodes],
                colour='green',
                wide=3,
                dashed=True,
                over=True,
            )
    for thing in things.values():
        if thing.place:
            x, y = at(thing.place, left)
            is_new = thing.key.startswith('n-')
            picture.dot(x, y, 7 if is_new else 6, 'green' if is_new else 'ink')
            if is_new:
                picture.text(x - 10, y - 12, label(thing), 14, 'end', 'green', 'mono')
            else:
                picture.text(x, y + 28, label(thing), 14, 'middle', 'ink', 'mono')
    picture.texts_at(left + 20, FOOT + 52, remarks, 19, size=13, colour='soft')


def street(things):
    """What is said of the street and its bus line."""
    line = things['r9']
    return [
        'w5: the street through {}, {} and {}'.format(*things['w5'].nodes),
        'r9: a {} over {}, with {} as its {}'.format(
            line.tags['type'], line.members[0][0], line.members[1][0], line.members[1][1]
        ),
    ]


def before():
    """The town as its file has it."""
    things = printed(output(['download town.opl', 'print']))
    picture = Picture(
        'The town before',
        'A street, w5 High Street, through the nodes n1, n2 and n3 from south-west to north-east, and a bus line r9 over it.',
        WIDTH,
        HEIGHT,
    )
    draw(picture, things, 0, 'examples/town.opl', street(things))
    return picture


def after():
    """The town after examples/edit.script."""
    things = printed(output((EXAMPLES / 'edit.script').read_text().splitlines()))
    picture = Picture(
        'The town after edit.script',
        'The street is Main Street now, and its north-eastern end n3 lies further south. A footway w-2 leads from n2 '
        'to a new bench n-1, north of the street.',
        WIDTH,
        HEIGHT,
    )
    draw(picture, things, 0, 'after edit.script', street(things))
    return picture


def both():
    """The town before and after examples/first.script, side by side."""
    steps = (EXAMPLES / 'first.script').read_text().splitlines()
    text = output(steps)
    old, new = printed(output(['download town.opl', 'print'])), printed(text)
    picture = Picture(
        'The town before and after first.script',
        'On the left the street w5 High Street through the nodes n1, n2 and n3. On the right it is Main '
        'Street, a new bench n-1 stands on it between n2 and n3, and a new footway w-2 leads from n2 to the bench. n1 was not deleted: the street uses it.',
        2 * WIDTH,
        HEIGHT,
    )
    draw(picture, old, 0, 'examples/town.opl', street(old))
    refused = [reply.split(' ') for reply in text.split('\n') if ' refused ' in reply]
    remarks = [
        '{}: {} ({})'.format(
            steps[int(line) - 1], ' '.join(['refused', number, *carried]), 'the street uses it'
        )
        for line, _, number, *carried in refused
    ]
    draw(picture, new, WIDTH, 'after first.script', [street(new)[0]] + remarks)
    picture.line((WIDTH - 24, 128), (WIDTH + 12, 128), wide=3, arrow=True)
    return picture
