"""A script taken apart, so that each tile gets its own lines and the others go to the seam.

A *unit* is a line that names keys, or a group from `begin` to `end`: it is done whole, in one
session. Units that share a key hang together, and are done in the session of one tile, in their
order, if that tile owns all their keys. Else they go to the seam: one session over just the objects
that they touch. A line over a query, as `tag ( Thighway=* ) T..`, is done by every session, over
the objects that it owns.
"""
from __future__ import annotations

from collections.abc import Callable, Iterable, Mapping, Sequence
from dataclasses import dataclass
from typing import NoReturn

from yoke.scripts import grammar, names, shorthand
from yoke.trouble import Refused

LOOKS = {
    'print',
    'count',
    'conflicts',
    'check',
    'find',
    'rehearse',
}  # lines that change nothing: they are left out
MAKES = {'node', 'way', 'relation', 'import', 'split'}  # lines that take ids of new objects
REACHES_NODES = ('move', 'erase')  # of a way, they change nodes that they don't name
NOT_HERE = {
    'download': 'the file of the tiles is named on the command line',
    'generate': 'a made-up city belongs to a session of its own',
    'undo': 'leave out the lines that it takes back',
    'redo': 'leave out the lines that it takes back',
    'resume': 'tiles begin from a file',
    'save': 'the tiles write their result by themselves',
    'upload': 'yoke send sends the result',
    'confirm': 'yoke send does that',
    'serve': 'a meeting runs by editor itself',
    'resolve': 'a file has no conflicts',
}


@dataclass(frozen=True)
class Unit:
    """Lines that are done together: their numbers in the script, from 1, and the keys that they
    name. One over a query has none.
    """

    lines: tuple[str, ...]
    numbers: tuple[int, ...]
    keys: frozenset[str]
    is_query: bool = False
    makes: bool = False
    place: tuple[
        str, str
    ] | None = None  # of a new node on a line of its own: longitude and latitude, as they stand

    @property
    def looks_around(self) -> bool:
        """Whether it is over a query that looks from an object at those that it refers to, or that
        refer to it.
        """
        return self.is_query and not {'child', 'parent'}.isdisjoint(grammar.words_of(self.lines[0]))


def take_apart(name: str, lines: Sequence[str], count: Callable[[str], int]) -> list[Unit]:
    """The units of a script; Refused where a line can't be done by tiles. `count` tells how many
    new objects a file has.
    """
    try:
        written = names.expand(list(lines), 1, count)
    except names.BadName as fault:
        raise Refused(f'{name}:{fault.line}: {fault}') from None
    found: list[Unit] = []
    group: list[tuple[str, int]] | None = None
    for line, number in zip(written.lines, written.numbers):
        if grammar.is_skipped(line):
            continue
        verb = _checked(name, line, number)
        if verb == 'tag-csv':
            found += [_unit([(row, number)], is_group=False) for row in _rows(name, line, number)]
        elif verb == 'begin':
            group = []
        elif verb == 'end':
            assert group is not None
            found += [_unit(group, is_group=True)] if group else []
            group = None
        elif group is not None:
            if _is_query(line):
                raise Refused(
                    f'{name}:{number}: a line over a query stands in a group; tiles do such lines outside of groups alone'
                )
            group += [(line, number)] if verb not in LOOKS else []
        elif verb not in LOOKS:
            found.append(_unit([(line, number)], is_group=False))
    if group is not None:
        raise Refused(f'{name}: the last group has no end')
    return found


def _checked(name: str, line: str, number: int) -> str:
    """The verb of a line; Refused where it is none, or stands in no script for tiles."""
    try:
        verb = shorthand.check_line(line)
    except grammar.Bad as bad:
        raise Refused(f'{name}:{number}: {bad}') from None
    if verb in NOT_HERE:
        raise Refused(f'{name}:{number}: {verb} stands in no script for tiles: {NOT_HERE[verb]}')
    if verb == 'mend-turns' and len(grammar.words_of(line)) == 1:
        raise Refused(f'{name}:{number}: mend-turns wants the keys of relations here')
    return verb


def _rows(name: str, line: str, number: int) -> list[str]:
    """The lines of a table of tags, one for each row; Refused where a row can't be taken."""
    written = shorthand.write_out(names.Expanded([line], [number]), _no_look)
    for at, (_, why) in written.problems.items():
        raise Refused(f'{name}:{number}: {written.rows.get(at, "")}: {why}')
    return written.lines


def _no_look(lines: list[str]) -> NoReturn:
    """A table of tags needs nothing of what is there."""
    raise AssertionError(lines)


def _is_query(line: str) -> bool:
    words = grammar.words_of(line)
    return words[0] in shorthand.BY_QUERY and words[1].startswith('(')


def _unit(lines: list[tuple[str, int]], is_group: bool) -> Unit:
    texts = tuple(line for line, _ in lines)
    if is_group:
        texts = ('begin', *texts, 'end')
    numbers = tuple(number for _, number in lines)
    numbers = (numbers[0], *numbers, numbers[-1]) if is_group else numbers
    verbs = {grammar.words_of(line)[0] for line, _ in lines}
    keys = frozenset(key for line, _ in lines for key in keys_of(line))
    alone = grammar.words_of(lines[0][0]) if not is_group else []
    place = (alone[1][1:], alone[2][1:]) if alone[:1] == ['node'] else None
    return Unit(
        texts, numbers, keys, not is_group and _is_query(lines[0][0]), bool(verbs & MAKES), place
    )


def keys_of(line: str) -> list[str]:
    """All keys that a line names, also in lists of nodes and members."""
    verb, *words = grammar.words_of(line)
    if _is_query(line):
        return []
    found = []
    for at in names.KEYS.get(verb, ()):
        if at < len(words) and not (verb == 'insert' and at == 2 and not words[at].startswith('n')):
            found += words[at].split(',')
    if verb in ('way', 'nodes'):
        found += grammar.check_nodes_word(words[-1])
    if verb in ('relation', 'members'):
        found += [key for key, _ in grammar.check_members_word(words[-1])]
    if verb == 'add-member':
        found += [key for key, _ in grammar.check_members_word('M' + words[0])]
    return found


def ways_reached(unit: Unit) -> set[str]:
    """The ways whose nodes a unit changes without naming them."""
    found = set()
    for line in unit.lines:
        verb, *words = grammar.words_of(line)
        if verb in REACHES_NODES and not unit.is_query:
            found |= {key for key in words[0].split(',') if key[0] == 'w'}
    return found


def imported(unit: Unit) -> list[str]:
    """The files of the `import` lines of a unit, as they stand."""
    return [words[1] for words in map(grammar.words_of, unit.lines) if words[0] == 'import']


# ---- who does what ----


@dataclass
class Shares:
    """Which units each tile does, and which go to the seam, as places in the list of units, rising.
    Those over a query are in all.
    """

    tiles: dict[int, list[int]]
    seam: list[int]


def share(
    units: Sequence[Unit], owner: Mapping[str, int], tile_at: Callable[[str, str], int]
) -> Shares:
    """Hands units to tiles. `owner` has the tile of each key that a tile owns; `tile_at` is the
    tile of a longitude and latitude.
    """
    together = components(units)
    found = Shares({}, [])
    for places in together:
        tiles: set[int | None] = set()
        for at in places:
            unit = units[at]
            tiles |= {owner.get(key) for key in unit.keys}
            if unit.place is not None:
                tiles.add(tile_at(*unit.place))
            elif not unit.keys or imported(unit):
                tiles.add(None)
        tile = tiles.pop() if len(tiles) == 1 else None
        if tile is None:
            found.seam += places
        else:
            found.tiles.setdefault(tile, []).extend(places)
    queries = [at for at, unit in enumerate(units) if unit.is_query]
    found.tiles = {tile: sorted(places + queries) for tile, places in found.tiles.items()}
    found.seam.sort()
    return found


def components(units: Sequence[Unit]) -> list[list[int]]:
    """The places of units that hang together; those over queries are left out.

    Where a line names a new object by its id, that counts lines that make objects: then all these
    hang together too.
    """
    above = list(range(len(units)))

    def top(at: int) -> int:
        while above[at] != at:
            above[at] = above[above[at]]
            at = above[at]
        return at

    first: dict[str, int] = {}
    counts_ids = any(key[1] == '-' for unit in units for key in unit.keys)
    for at, unit in enumerate(units):
        if unit.is_query:
            continue
        keys: Iterable[str] = unit.keys
        if counts_ids and (unit.makes or any(key[1] == '-' for key in unit.keys)):
            keys = {*unit.keys, 'new objects'}
        for key in keys:
            other = top(first.setdefault(key, at))
            above[max(other, top(at))] = min(other, top(at))
    found: dict[int, list[int]] = {}
    for at, unit in enumerate(units):
        if not unit.is_query:
            found.setdefault(top(at), []).append(at)
    return list(found.values())
