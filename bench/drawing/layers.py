"""The layers of crates, of crates.txt."""
from bench.check.crate_map import longest_chain, read
from bench.drawing.svg import Picture

WIDTH, ROW, LETTER = 900, 32, 8.0
FIRST, LAST = 150, 880  # the crates of a layer stand between these


def rows_of(names):
    """The crates of a layer in rows that fit, each with where it begins and how wide it is."""
    rows, left = [[]], FIRST
    for name in names:
        width = len(name) * LETTER + 22
        if left + width > LAST:
            rows.append([])
            left = FIRST
        rows[-1].append((name, left, width))
        left += width + 10
    return rows


def layers():
    """The crates by layers, those that others stand on below, and the longest chain in blue."""
    crates, told = read()
    chain = longest_chain(crates)
    laid = [
        (layer, rows_of([crate.name for crate in crates.values() if crate.layer == layer]))
        for layer in reversed(told)
    ]
    height = 96 + sum(24 + ROW * len(rows) for _, rows in laid)
    picture = Picture(
        'The crates by layers',
        'From the top: '
        + '; '.join(
            '{}: {}'.format(layer, ', '.join(name for row in rows for name, *_ in row))
            for layer, rows in laid
        )
        + '. The longest chain has {} crates: {}.'.format(len(chain), ', '.join(chain)),
        WIDTH,
        height,
    )
    picture.text(20, 36, f'{len(crates)} crates in {len(told)} layers', 17, bold=True)
    picture.text(
        20,
        58,
        'Each stands on crates of its own layer and those below it. In blue the longest chain, {} crates.'.format(
            len(chain)
        ),
        13,
        colour='soft',
    )
    top = 76
    for layer, rows in laid:
        tall = 14 + ROW * len(rows)
        picture.box(12, top, WIDTH - 24, tall)
        picture.text(26, top + 27, layer, 15, bold=True)
        for number, row in enumerate(rows):
            for name, left, width in row:
                is_link = name in chain
                picture.box(
                    left,
                    top + 9 + ROW * number,
                    width,
                    25,
                    'blue' if is_link else 'edge',
                    'ground',
                    4,
                    2 if is_link else 1,
                )
                picture.text(
                    left + width / 2,
                    top + 26 + ROW * number,
                    name,
                    13,
                    'middle',
                    'blue' if is_link else 'ink',
                    'mono',
                )
        top += tall + 10
    return picture
