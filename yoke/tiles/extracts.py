"""What osmium does: cuts a file into tiles, and gets objects with what they need."""
from __future__ import annotations

import contextlib
import json
import mmap
import os
import pathlib
import shutil
import subprocess
from collections.abc import Iterable, Iterator, Mapping, Sequence, Set
from dataclasses import dataclass
from decimal import Decimal

from yoke import opl, words
from yoke.tiles import grid as grids
from yoke.tiles.grid import Grid
from yoke.trouble import Trouble

MOST_OPEN = 500  # tiles of one run: osmium keeps each of them open
MOST_MEMORY = 2 << 30  # bytes that a cut may take, before ids are made dense
BLOCK = 4 << 20  # bytes of a block of osmium's sets of ids, a bit for each id
SETS = 3


@dataclass(frozen=True)
class Extract:
    """The objects of a file of OPL, by key. Most are only looked at by key, so a line is taken
    apart when it is asked for.
    """

    lines: Mapping[str, str]

    @classmethod
    def read(cls, path: str) -> Extract:
        """The objects of a file; Trouble where it can't be read."""
        try:
            return cls({line.partition(' ')[0]: line for line in lines(path)})
        except (OSError, UnicodeDecodeError) as error:
            raise Trouble(f'{path}: {error}') from None

    def get(self, key: str) -> opl.Object | None:
        """An object; None where it isn't there, or is marked as deleted."""
        line = self.lines.get(key)
        thing: opl.Object | None = opl.parse(line) if line else None
        return thing if thing and not thing.deleted else None

    def relations(self) -> Iterator[opl.Object]:
        """The relations."""
        return (opl.parse(line) for key, line in self.lines.items() if key[0] == 'r')


def osmium(*arguments: str | os.PathLike[str], allowed: Sequence[int] = (0,)) -> bytes:
    """What a run of osmium writes; Trouble with its words where it ends with a code that isn't
    allowed.
    """
    program = shutil.which('osmium')
    if program is None:
        raise Trouble(
            'osmium isn\'t on the path, and tiles need it (Debian: apt-get install osmium-tool)'
        )
    done = subprocess.run(
        [program, *(str(word) for word in arguments)],
        stdout=subprocess.PIPE,
        stderr=subprocess.PIPE,
    )
    if done.returncode not in allowed:
        why = done.stderr.decode('utf-8', 'replace').strip() or f'it ended with {done.returncode}'
        raise Trouble(f'osmium {arguments[0]}: {words.cut(why, 300)}')
    return done.stdout


def box_of(file: str) -> tuple[Decimal, Decimal, Decimal, Decimal]:
    """The box of a file, by its header, else by its objects."""
    for option in (['-g', 'header.boxes'], ['-e', '-g', 'data.bbox']):
        with contextlib.suppress(ValueError):
            return grids.reading_box(osmium('fileinfo', *option, file).decode().split('\n'))
    raise Trouble(f'{file} has no node with a place')


def cut(file: str, grid: Grid, wanted: Sequence[int], folder: pathlib.Path) -> None:
    """Cuts tiles out of a file by one run of osmium: `tile-N.osm.pbf` in a folder that is there
    whole or not at all.

    A tile has each node in its box, each way and each relation that uses one of these, and all
    nodes of these ways. Where ids are so high that the run would want too much memory the tiles
    have ids of their own, and the folder has `ids`, for `as_opl`.
    """
    begun = folder.with_name(folder.name + '.begun')
    shutil.rmtree(begun, ignore_errors=True)
    begun.mkdir(parents=True)
    source: str | os.PathLike[str] = file
    if memory_to_cut(file, len(wanted)) > MOST_MEMORY:
        (begun / 'ids').mkdir()
        source = begun / 'dense.osm.pbf'
        osmium('renumber', '--no-progress', '-O', '-i', begun / 'ids', '-o', source, file)
    tiles = [
        {
            'output': name_of(number),
            'bbox': [float(side) for side in grid.box(number).text().split(',')],
        }
        for number in wanted
    ]
    for at in range(0, len(tiles), MOST_OPEN):
        config = begun / f'tiles-{at}.json'
        config.write_text(
            json.dumps({'directory': str(begun), 'extracts': tiles[at : at + MOST_OPEN]}),
            encoding='ascii',
        )
        osmium('extract', '--no-progress', '-O', '-s', 'complete_ways', '-c', config, source)
    if source != file:
        os.unlink(source)
    os.rename(begun, folder)


def memory_to_cut(file: str, tiles: int) -> int:
    """The bytes that a run of `osmium extract` takes at the most: of each tile three sets of ids,
    each in blocks of so many ids.
    """
    highest = int(osmium('fileinfo', '-e', '-g', 'data.maxid.nodes', file))
    return tiles * SETS * BLOCK * (1 + highest // (8 * BLOCK))


def name_of(number: int) -> str:
    """The name of a tile's extract."""
    return f'tile-{number:05}.osm.pbf'


def as_opl(file: str, to: pathlib.Path, ids: str = '') -> str:
    """Writes a file as OPL, with the ids of the country where it has others; answers with its name.
    `ids` is the folder of `cut`.
    """
    dense = to.with_name('dense.opl') if ids else to
    osmium('cat', '--no-progress', '-O', '-f', 'opl', '-o', dense, file)
    if ids:
        with contextlib.ExitStack() as stack, open(
            to, 'w', encoding='utf-8', newline='\n'
        ) as target:
            former = {
                kind: _index(pathlib.Path(ids, f'{opl.KINDS[kind]}.idx'), stack)
                for kind in opl.KINDS
            }
            target.writelines(_with_former_ids(line, former) + '\n' for line in lines(dense))
        dense.unlink()
    return str(to)


def _index(path: pathlib.Path, stack: contextlib.ExitStack) -> Sequence[int]:
    """The former ids by the new ones, which begin with 1: numbers of 64 bits."""
    if path.stat().st_size == 0:
        return []
    file = stack.enter_context(open(path, 'rb'))
    held = stack.enter_context(mmap.mmap(file.fileno(), 0, access=mmap.ACCESS_READ))
    return stack.enter_context(stack.enter_context(memoryview(held)).cast('q'))


def _with_former_ids(line: str, former: Mapping[str, Sequence[int]]) -> str:
    """A line of osmium's OPL, in which references stand last, with other ids."""

    def key(text: str) -> str:
        return f'{text[0]}{former[text[0]][int(text[1:]) - 1]}'

    first, _, rest = line.partition(' ')
    if first[0] == 'w':
        rest, _, refs = rest.rpartition(' N')
        rest += ' N' + ','.join([key(ref) for ref in refs.split(',') if ref])
    elif first[0] == 'r':
        rest, _, refs = rest.rpartition(' M')
        pairs = [ref.partition('@') for ref in refs.split(',') if ref]
        rest += ' M' + ','.join([f'{key(member)}@{role}' for member, _, role in pairs])
    return f'{key(first)} {rest}'


def lines(path: str | os.PathLike[str]) -> Iterator[str]:
    """The lines of a file of OPL that have an object, without their line feeds."""
    with open(path, encoding='utf-8', newline='\n') as file:
        yield from (line.rstrip('\r\n') for line in file if line[0] in opl.KINDS)


def objects(output: bytes) -> Iterator[opl.Object]:
    """The objects of lines of OPL."""
    return (opl.parse(line) for line in output.decode('utf-8').split('\n') if line)


def get(
    file: str, keys: Iterable[str], place: pathlib.Path, complete: bool = False
) -> dict[str, opl.Object]:
    """Objects of a file by their keys, with all that they refer to where `complete`; those that it
    lacks aren't in it.
    """
    return _by_ids('getid', file, keys, place, ['-r'] if complete else [])


def users(file: str, keys: Iterable[str], place: pathlib.Path) -> dict[str, opl.Object]:
    """The objects that refer to these keys."""
    return _by_ids('getparents', file, keys, place, [])


def write(file: str, keys: Set[str], to: pathlib.Path, place: pathlib.Path) -> None:
    """Writes objects of a file as OPL, those that it has. However many they are, none is held in
    memory.
    """
    if not keys:
        to.write_text('', encoding='ascii')
        return
    osmium(
        'getid',
        '--no-progress',
        '-O',
        '-i',
        _ids(keys, place),
        '-f',
        'opl',
        '-o',
        to,
        file,
        allowed=(0, 1),
    )


def _by_ids(
    verb: str, file: str, keys: Iterable[str], place: pathlib.Path, options: list[str]
) -> dict[str, opl.Object]:
    """Objects by osmium's `getid` or `getparents`, which end with 1 where a key isn't there.
    `place` is a folder for the list.
    """
    wanted = {key for key in keys if key[1] != '-'}
    if not wanted:
        return {}
    output = osmium(verb, *options, '-i', _ids(wanted, place), '-f', 'opl', file, allowed=(0, 1))
    return {thing.key: thing for thing in objects(output)}


def _ids(keys: Iterable[str], place: pathlib.Path) -> pathlib.Path:
    """A file with a list of keys."""
    path = place / 'ids'
    path.write_text(''.join(key + '\n' for key in sorted(keys, key=opl.rank)), encoding='ascii')
    return path


def owners(file: str, keys: Iterable[str], grid: Grid, place: pathlib.Path) -> dict[str, int]:
    """The tile of each key that a tile owns."""
    things = get(file, (key for key in keys if key[0] != 'r'), place)
    firsts = {thing.nodes[0] for thing in things.values() if thing.nodes} - set(things)
    nodes = {**things, **get(file, firsts, place)}
    found = ((key, grid.owner(thing, nodes)) for key, thing in things.items())
    return {key: tile for key, tile in found if tile is not None}


def beside(file: str, keys: Iterable[str], place: pathlib.Path) -> set[str]:
    """The keys to which these refer, and of those that refer to them."""
    found = get(file, keys, place)
    return {ref for thing in found.values() for ref in thing.references} | set(
        users(file, keys, place)
    )


def around(file: str, keys: Iterable[str], place: pathlib.Path) -> list[opl.Object]:
    """Objects with all that an edit of them may look at: their nodes, who uses these and them, and
    all that those refer to.
    """
    inner = get(file, keys, place, complete=True)
    near = {
        key
        for thing in inner.values()
        if thing.key in keys or thing.key[0] == 'w'
        for key in (thing.key, *thing.nodes)
    }
    using = users(file, {*keys, *near}, place)
    found = get(file, {*inner, *using}, place, complete=True)
    return [found[key] for key in sorted(found, key=opl.rank)]


def changed(before: str, now: str) -> set[str]:
    """The keys of objects that two extracts have in another version, or of which one has none."""
    output = osmium('diff', '-c', before, now, allowed=(0, 1)).decode('ascii')
    return {line[1:].split(' ', 1)[0] for line in output.split('\n') if line}
