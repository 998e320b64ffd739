"""Speed beside osmium, of the first table of docs/SPEED.md."""
from bench.check.page_checks.page import tables
from bench.drawing.svg import Picture

PAGE = 'docs/SPEED.md'
LEFT, WIDE, ROW = 350, 430, 62


def beside():
    """The largest size that the table has, and each step that stands beside a command of osmium:
    name, its seconds, osmium's.
    """
    table = next(
        table
        for table in tables(PAGE)
        if table.heads[0] == 'CPU seconds' and 'osmium, 1,000,000' in table.heads
    )
    theirs = table.heads.index('osmium, 1,000,000')
    found = []
    for row in table.rows:
        if row[theirs]:
            name = row[0].replace('`', '').replace('the same', found[-1][0] if found else '')
            found.append((name, float(row[theirs - 1]), float(row[theirs])))
    return table.heads[theirs - 1], found


def speed():
    """Bars of the seconds that steps take, and osmium's."""
    size, rows = beside()
    scale = WIDE / max(max(ours, theirs) for _, ours, theirs in rows)
    picture = Picture(
        'Speed beside osmium',
        f'CPU seconds over a town of {size} objects, editor and osmium: '
        + '; '.join('{} {:.2f} and {:.2f}'.format(*row) for row in rows)
        + '.',
        860,
        92 + ROW * len(rows),
    )
    picture.text(20, 36, f'CPU seconds over a town of {size} objects', 17, bold=True)
    picture.box(LEFT, 52, 14, 14, 'blue', 'blue', 2)
    picture.text(LEFT + 22, 64, 'editor', 13)
    picture.box(LEFT + 100, 52, 14, 14, 'edge', 'street', 2)
    picture.text(LEFT + 122, 64, 'osmium', 13)
    for number, (name, ours, theirs) in enumerate(rows):
        top = 84 + number * ROW
        name, _, peer = name.partition(', beside ')
        picture.text(LEFT - 14, top + 20, name, 13, 'end')
        if peer:
            picture.text(LEFT - 14, top + 40, 'beside ' + peer, 13, 'end', 'soft')
        for row, (seconds, colour, ground) in enumerate(
            [(ours, 'blue', 'blue'), (theirs, 'edge', 'street')]
        ):
            picture.box(LEFT, top + 4 + 22 * row, seconds * scale, 18, colour, ground, 2, 1)
            picture.text(LEFT + seconds * scale + 8, top + 18 + 22 * row, f'{seconds:.2f}', 13)
    return picture
