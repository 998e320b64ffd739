"""Pictures in SVG, of boxes, lines and texts in a few colours that are read on light and on dark
ground.

A picture has a title and a text alternative, no script, and the fonts that a reader has. `faults`
tells what can't be read: a text that another one or a line runs over, or that the edge cuts. Widths
of texts are reckoned, with some room, since fonts differ.
"""
from collections import namedtuple
from xml.sax.saxutils import escape, quoteattr

# a colour by its name: on light ground, on dark ground
COLOURS = {
    'ground': ('#ffffff', '#0d1117'),
    'ink': ('#1f2328', '#f0f6fc'),
    'soft': ('#59636e', '#9aa4af'),
    'paper': ('#f3f5f7', '#1a212a'),
    'edge': ('#848d97', '#7d8590'),
    'street': ('#d5dae0', '#3a424c'),
    'blue': ('#0757ba', '#6cb0ff'),
    'green': ('#116329', '#56d364'),
    'red': ('#b3202b', '#ff8880'),
    'orange': ('#9a4500', '#f0a04b'),
}
WIDE = {'sans': 0.56, 'mono': 0.61}  # of a letter, of the size of its font
MARGIN = 6  # a text keeps so far from the edge
FONTS = {'sans': 'Helvetica, Arial, sans-serif', 'mono': 'Menlo, Consolas, monospace'}

Box = namedtuple('Box', 'x y width height')
Text = namedtuple('Text', 'words box')


def style():
    """The colours as a style sheet, those on dark ground where the reader has asked for these."""

    def rules(which):
        return ''.join(
            '.{0}{{fill:{1}}}.{0}-line{{stroke:{1};fill:none}}'.format(name, pair[which])
            for name, pair in COLOURS.items()
        )

    fonts = ''.join(f'.{name}{{font-family:{family}}}' for name, family in FONTS.items())
    return f'{fonts}{rules(0)}@media (prefers-color-scheme:dark){{{rules(1)}}}'


class Picture:
    """A picture, as a list of what is drawn one after the other."""

    def __init__(self, title, description, width, height):
        self.title, self.description, self.width, self.height = title, description, width, height
        self.drawn, self.texts, self.lines = [], [], []

    # -- what is drawn --

    def text(self, x, y, words, size=14, at='start', colour='ink', font='sans', bold=False):
        """A line of text whose foot stands at y, and which begins, is centred or ends at x."""
        width = len(words) * size * WIDE[font] * (1.06 if bold else 1)
        left = x - {'start': 0, 'middle': width / 2, 'end': width}[at]
        self.texts.append(Text(words, Box(left, y - 0.76 * size, width, 0.98 * size)))
        self.drawn.append(
            '<text x="{:g}" y="{:g}" font-size="{:g}" text-anchor="{}" class="{} {}"{}>{}</text>'.format(
                x, y, size, at, font, colour, ' font-weight="bold"' if bold else '', escape(words)
            )
        )

    def texts_at(self, x, y, lines, step=18, **how):
        """Lines of text one below the other."""
        for number, words in enumerate(lines):
            self.text(x, y + number * step, words, **how)

    def box(self, x, y, width, height, colour='edge', ground='paper', round_by=6, wide=1.5):
        """A box with rounded corners."""
        self.drawn.append(
            '<rect x="{:g}" y="{:g}" width="{:g}" height="{:g}" rx="{:g}" class="{}"/>'.format(
                x, y, width, height, round_by, ground
            )
        )
        self.drawn.append(
            '<rect x="{:g}" y="{:g}" width="{:g}" height="{:g}" rx="{:g}" class="{}-line" stroke-width="{:g}"/>'.format(
                x, y, width, height, round_by, colour, wide
            )
        )

    def named_box(self, box, name, lines, colour='edge', size=13):
        """A box with a name in bold and lines below it."""
        self.box(*box, colour=colour)
        self.text(
            box.x + box.width / 2,
            box.y + 24,
            name,
            15,
            'middle',
            'ink' if colour == 'edge' else colour,
            bold=True,
        )
        self.texts_at(box.x + box.width / 2, box.y + 44, lines, 17, size=size, at='middle')

    def line(self, *points, colour='edge', wide=2.0, dashed=False, arrow=False, over=False):
        """A line through points, with a head at its end if it is an arrow; `over`: texts may stand
        on it.
        """
        words = ' '.join('{:g},{:g}'.format(*point) for point in points)
        self.drawn.append(
            '<polyline points="{}" class="{}-line" stroke-width="{:g}" stroke-linejoin="round" stroke-linecap="{}"{}/>'.format(
                words,
                colour,
                wide,
                'butt' if dashed or arrow else 'round',
                ' stroke-dasharray="7 5"' if dashed else '',
            )
        )
        if not over:
            self.lines += list(zip(points, points[1:]))
        if arrow:
            self.head(points[-2], points[-1], colour)

    def head(self, before, tip, colour):
        """The head of an arrow."""
        across, down = tip[0] - before[0], tip[1] - before[1]
        length = (across**2 + down**2) ** 0.5
        across, down = across / length, down / length
        foot = tip[0] - 11 * across, tip[1] - 11 * down
        corners = [
            tip,
            (foot[0] - 5 * down, foot[1] + 5 * across),
            (foot[0] + 5 * down, foot[1] - 5 * across),
        ]
        self.drawn.append(
            '<polygon points="{}" class="{}"/>'.format(
                ' '.join('{:.1f},{:.1f}'.format(*corner) for corner in corners), colour
            )
        )

    def dot(self, x, y, radius=6, colour='ink', ring=False):
        """A dot, or a ring of the colour on the ground."""
        if ring:
            self.drawn.append(
                '<circle cx="{:g}" cy="{:g}" r="{:g}" class="ground"/><circle cx="{:g}" cy="{:g}" r="{:g}" class="{}-line" stroke-width="2.5"/>'.format(
                    x, y, radius, x, y, radius, colour
                )
            )
        else:
            self.drawn.append(f'<circle cx="{x:g}" cy="{y:g}" r="{radius:g}" class="{colour}"/>')

    # -- what comes of it --

    def svg(self):
        """The text of the file."""
        head = '<svg xmlns="http://www.w3.org/2000/svg" viewBox="0 0 {0:g} {1:g}" width="{0:g}" height="{1:g}" role="img" aria-label={2}>'.format(
            self.width, self.height, quoteattr(self.title)
        )
        ground = '<rect width="{:g}" height="{:g}" rx="10" class="ground"/>'.format(
            self.width, self.height
        )
        return '\n'.join(
            [
                head,
                f'<title>{escape(self.title)}</title>',
                f'<desc>{escape(self.description)}</desc>',
                f'<style>{style()}</style>',
                ground,
            ]
            + self.drawn
            + ['</svg>', '']
        )

    def faults(self):
        """What can't be read, a sentence each."""
        for number, text in enumerate(self.texts):
            box = text.box
            if (
                box.x < MARGIN
                or box.y < MARGIN
                or box.x + box.width > self.width - MARGIN
                or box.y + box.height > self.height - MARGIN
            ):
                yield f'the edge cuts “{text.words}”'
            for other in self.texts[:number]:
                if overlap(box, other.box):
                    yield f'“{text.words}” stands over “{other.words}”'
            if any(crosses(line, box) for line in self.lines):
                yield f'a line runs through “{text.words}”'


def overlap(one, other):
    """Whether two boxes have a place in common."""
    return (
        one.x < other.x + other.width
        and other.x < one.x + one.width
        and one.y < other.y + other.height
        and other.y < one.y + one.height
    )


def crosses(line, box):
    """Whether a line meets a box, by steps of a pixel or so."""
    (left, top), (right, bottom) = line
    steps = int(max(abs(right - left), abs(bottom - top))) + 1
    return any(
        box.x < left + (right - left) * at / steps < box.x + box.width
        and box.y < top + (bottom - top) * at / steps < box.y + box.height
        for at in range(steps + 1)
    )
