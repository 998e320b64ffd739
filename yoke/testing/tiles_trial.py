"""A random script over a random town, by tiles and by one session over all: the same changes,
object by object.

    python3 -m yoke.testing.tiles_trial [--nights] FIRST LAST        seeds; needs osmium and the program, $YOKE_EDITOR

Prints a line for each seed, and ends with 1 where a difference is none of the classes that
docs/HOWTO/tiles.md names.
"""
from __future__ import annotations

import argparse
import os
import pathlib
import random
import sys
import tempfile
from collections.abc import Iterator, Sequence
from dataclasses import replace
from decimal import Decimal
from unittest import mock

from yoke import opl
from yoke.program import Program
from yoke.testing import made_town
from yoke.testing.made_town import Town
from yoke.tiles import edit, engine, extracts, merge, script, worker
from yoke.tiles.cluster import Where
from yoke.tiles.worker import Done, Job

BOX = (Decimal(13), Decimal(52), Decimal('13.01'), Decimal('52.007'))  # of a town of some 50 blocks
QUERIES = [
    'tag ( Tcreated_by=* ) Tcreated_by=',
    'tag ( way and Thighway=residential and not Tmaxspeed=* ) Tsource:maxspeed=DE:urban',
    'tag ( relation and Troute=bus ) Tnetwork=Town',
    'tag ( node and Tshop=bakery ) Tcheck=1',
    'move ( node and Tnatural=tree ) 0.0000100 0',
    'delete ( node and Tnatural=tree and Tcheck=1 )',
    'erase ( way and Taddr:housenumber=7 )',
    'tag ( parent Tbuilding=house ) Tcorner=yes',
    'tag ( way and child Tcheck=1 ) Thas_check=yes',
    'tag ( Tcheck=1 and not Tname=* ) Tcheck=',
]


def in_turn(jobs: Sequence[Job], where: Where, folder: pathlib.Path) -> Iterator[Done]:
    """Does tiles one after the other, in this process."""
    return (worker.run(job) for job in jobs)


def random_script(dice: random.Random, town: Town, count: int) -> list[str]:
    """Lines of all kinds that tiles take, over objects that are there, and now and then over one
    that isn't.
    """
    lines = dice.sample(QUERIES, dice.randint(0, 4))
    for _ in range(count):
        lines.insert(dice.randint(0, len(lines)), _line(dice, town))
    return lines


def _line(dice: random.Random, town: Town) -> str:
    ways, nodes = len(town.ways), len(town.nodes)
    way = dice.randint(1, ways)
    refs, _ = town.ways[way - 1]
    node = dice.choice(refs)
    verb = dice.choice(
        [
            'tag',
            'tag',
            'split',
            'split',
            'combine',
            'erase',
            'squeeze',
            'fuse',
            'reverse',
            'nodes',
            'members',
            'node',
            'way',
            'group',
            'move',
            'place',
            'delete',
            'tags of many',
        ]
    )
    if verb == 'tag':
        return f'tag {dice.choice([f"w{way}", f"n{node}", f"r{dice.randint(1, len(town.relations))}"])} Tnote={dice.randint(1, 9)}'
    if verb == 'tags of many':
        keys = {f'{dice.choice("nw")}{dice.randint(1, min(ways, nodes))}' for _ in range(4)}
        return f'tag {",".join(sorted(keys))} Tgroup={dice.randint(1, 9)}'
    if verb == 'split' and len(refs) > 2:
        return f'split w{way} n{dice.choice(refs[1:-1])}'
    if verb == 'combine':
        street = dice.choice(
            [ways for ways in town.streets.values() if len(ways) > 1] or [[way, way % ways + 1]]
        )
        at = dice.randrange(len(street) - 1)
        return f'combine w{street[at]},w{street[at + 1]}'
    if verb == 'fuse':
        return (
            f'fuse n{node},n{dice.choice(refs)}'
            if dice.random() < 0.3
            else f'fuse {_doubled(dice, town)}'
        )
    if verb == 'nodes':
        return f'nodes w{way} N{",".join(f"n{ref}" for ref in refs + [dice.randint(1, nodes)])}'
    if verb == 'members':
        return f'members r{dice.randint(1, len(town.relations))} Mw{way}@,n{node}@stop'
    if verb == 'node':
        return f'node x{opl.degrees(town.nodes[node - 1][0])} y{opl.degrees(town.nodes[node - 1][1] + .00001)} Tnatural=tree'
    if verb == 'way':
        return f'way Thighway=path Nn{node},n{dice.randint(1, nodes)}'
    if verb == 'move':
        return f'move w{way} 0.0000{dice.randint(1, 99):02} 0'
    if verb == 'place':
        return f'place n{node} x{opl.degrees(town.nodes[node - 1][0] + .00001)} y{opl.degrees(town.nodes[node - 1][1])}'
    if verb == 'delete':
        return f'delete n{dice.randint(1, nodes)}'
    return (
        f'{verb} w{way}'
        if verb in ('erase', 'squeeze', 'reverse')
        else f'tag w{way},w{way % ways + 1} Tgroup=yes'
    )


def _doubled(dice: random.Random, town: Town) -> str:
    """Two nodes at one place, where there are some."""
    places: dict[tuple[float, float], list[int]] = {}
    for number, (lon, lat, _) in enumerate(town.nodes, 1):
        places.setdefault((lon, lat), []).append(number)
    found = [numbers for numbers in places.values() if len(numbers) > 1] or [[1, 2]]
    return ','.join(f'n{number}' for number in dice.choice(found))


def new_ones(dice: random.Random, town: Town, folder: pathlib.Path, seed: int) -> list[str]:
    """Lines that make objects across borders: an import, a turn restriction, and a path whose parts
    have names.
    """

    def node() -> int:
        return dice.randint(1, len(town.nodes))

    lon, lat, _ = town.nodes[node() - 1]
    place = f'x{opl.degrees(lon)} y{opl.degrees(lat + .00002)}'
    file = folder / f'{seed}-new.opl'
    file.write_text(
        f'n-1 {place} Tshop=kiosk\nw-2 Thighway=path Nn-1,n{node()},n{node()}\nr-3 Ttype=site Mw-2@,n{node()}@entrance\n',
        encoding='utf-8',
    )
    refs, _ = town.ways[via_way := dice.randrange(len(town.ways))]
    other = dice.randint(1, len(town.ways))
    return [
        f'import {opl.escape(str(file))}',
        f'relation Ttype=restriction,restriction=no_u_turn Mw{via_way + 1}@from,n{dice.choice(refs)}@via,w{other}@to',
        f'node {place} Tbarrier=gate as gate\nway Thighway=path Nn{node()},gate as path\ntag path Tsurface=gravel',
    ]


def with_new_ones(dice: random.Random, lines: list[str], more: list[str]) -> list[str]:
    """The script with some of these lines at random places; names stand first, since all lines up
    to the last one make a group.
    """
    found = list(lines)
    for line in more[:-1]:
        if dice.random() < 0.4:
            found.insert(dice.randint(0, len(found)), line)
    return more[-1].split('\n') + found if dice.random() < 0.3 else found


def content(verb: str, thing: opl.Object) -> tuple[object, ...]:
    """A change as something to compare; new objects have ids of their own."""
    if verb == 'delete':
        return verb, thing.key, thing.version

    def name(key: str) -> str:
        return key if key[1] != '-' else key[0] + '?'

    return (
        verb,
        name(thing.key),
        thing.version,
        tuple(sorted(thing.tags.items())),
        str(thing.lon),
        str(thing.lat),
        tuple(map(name, thing.nodes)),
        tuple((name(key), role) for key, role in thing.members),
    )


def trial(program: Program, seed: int, blocks: int, folder: pathlib.Path) -> tuple[int, list[str]]:
    """How many changes one session makes, and what tiles make otherwise."""
    dice = random.Random(seed)
    town = made_town.make(blocks, seed, slips=True)
    lines = random_script(dice, town, dice.randint(0, 25))
    more = random.Random(f'new {seed}')
    lines = with_new_ones(more, lines, new_ones(more, town, folder, seed))
    file = folder / f'{seed}.opl'
    file.write_text(''.join(line + '\n' for line in made_town.lines(town)), encoding='utf-8')
    pbf = str(folder / f'{seed}.osm.pbf')
    extracts.osmium('cat', '-O', '-o', pbf, file)
    units = script.take_apart('script', lines, engine.count_new)
    if not units:
        return 0, []
    one = edit.run(program, str(file), units, lambda there: lambda key: True, is_whole=True)
    asked = engine.Asked(
        pbf,
        'script',
        lines,
        dice.randint(1, 5),
        dice.randint(1, 5),
        folder / f'work-{seed}',
        Where(1),
    )
    with mock.patch(
        'yoke.tiles.extracts.MOST_MEMORY', more.choice([0, extracts.MOST_MEMORY])
    ):  # with ids of their own or not
        many = engine.run(program, asked, in_turn)
    expected = sorted(map(repr, (content(change.verb, change.thing) for change in one.changes)))
    got = sorted(map(repr, (content(verb, thing) for verb, thing in many.changes)))
    missing, more = set(expected) - set(got), set(got) - set(expected)
    if not missing and not more and len(expected) != len(got):
        more = {'a change stands twice'}
    return len(expected), [f'one session only: {text}' for text in sorted(missing)] + [
        f'tiles only: {text}' for text in sorted(more)
    ]


def night(program: Program, seed: int, blocks: int, folder: pathlib.Path) -> tuple[int, list[str]]:
    """How many changes all tiles make after others' edits of a day, and what those tiles make
    otherwise in which something differs.

    On the day before the script was done, and its changes were sent.
    """
    folder.mkdir(exist_ok=True)
    dice = random.Random(f'night {seed}')
    town = made_town.make(blocks, seed, slips=True)
    lines = [line for line in QUERIES if not line.startswith(('move', 'delete'))]
    before = {line.partition(' ')[0]: opl.parse(line) for line in made_town.lines(town)}
    wide, high = dice.randint(1, 5), dice.randint(1, 5)

    def run(name: str, script_lines: list[str], since: str = '') -> list[tuple[str, opl.Object]]:
        asked = engine.Asked(
            str(folder / f'{name}.osm.pbf'),
            'script',
            script_lines,
            wide,
            high,
            folder / f'work-{name}{since and "-since"}',
            Where(1),
            since,
            BOX,
        )
        return engine.run(program, asked, in_turn).changes

    _write(before, folder / 'first')
    old = applied(before, run('first', lines))
    _write(old, folder / 'old')
    edits = random_script(dice, town, 12)
    new = applied(
        old,
        run('old', [line for line in edits if not line.startswith('tag (')] + ['tag n1 Tcheck=1']),
    )
    for key in dice.sample(sorted(new), 5):
        new[key] = replace(
            new[key],
            tags={**new[key].tags, 'created_by': 'x', 'check': '1'},
            version=new[key].version + 1,
        )
    _write(new, folder / 'new')
    whole, part = (
        {repr(content(verb, thing)) for verb, thing in run('new', lines, since)}
        for since in ('', str(folder / 'old.osm.pbf'))
    )
    return len(whole), [f'all tiles only: {text}' for text in sorted(whole - part)] + [
        f'some tiles only: {text}' for text in sorted(part - whole)
    ]


def applied(
    things: dict[str, opl.Object], changes: list[tuple[str, opl.Object]]
) -> dict[str, opl.Object]:
    """What a server has after these changes."""
    found = dict(things)
    names = {
        thing.key: f'{thing.key[0]}{1_000_000 + int(thing.key[2:])}'
        for _, thing in changes
        if thing.key[1] == '-'
    }
    for verb, thing in changes:
        thing = merge.renamed(thing, names)
        found.pop(thing.key, None)
        if verb != 'delete':
            found[thing.key] = replace(
                thing,
                version=thing.version + 1,
                changeset=2,
                time='2024-05-07T07:10:00Z',
                uid=23,
                user='mapper',
            )
    return found


def _write(things: dict[str, opl.Object], to: pathlib.Path) -> None:
    """Writes objects as `TO.osm.pbf`."""
    path = to.with_suffix('.opl')
    path.write_text(
        ''.join(opl.line(things[key]) + '\n' for key in sorted(things, key=opl.rank)),
        encoding='utf-8',
    )
    extracts.osmium('cat', '-O', '-o', f'{to}.osm.pbf', path)


def main() -> int:
    words = argparse.ArgumentParser(
        description=__doc__, formatter_class=argparse.RawDescriptionHelpFormatter
    )
    words.add_argument('first', type=int)
    words.add_argument('last', type=int)
    words.add_argument('--blocks', type=int, default=30)
    words.add_argument(
        '--nights',
        action='store_true',
        help='tiles in which something differs since the day before, beside all tiles',
    )
    said = words.parse_args()
    program, bad, changes = Program(os.environ['YOKE_EDITOR']), 0, 0
    for seed in range(said.first, said.last + 1):
        with tempfile.TemporaryDirectory(prefix='yoke-tiles-') as place:
            count, differences = (night if said.nights else trial)(
                program, seed, said.blocks, pathlib.Path(place)
            )
        changes += count
        if differences:
            bad += 1
            print(
                f'seed {seed}: {len(differences)} differences',
                *differences[:4],
                sep='\n    ',
                flush=True,
            )
    print(f'{said.last - said.first + 1} scripts, {changes} changes, {bad} with a difference')
    return 1 if bad else 0


if __name__ == '__main__':
    sys.exit(main())
