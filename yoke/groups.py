"""Edits of a session that hang together, and sessions without some of them.

A group is a set of edits that depend on no edit outside of it. So a group can be sent alone, or
taken back alone, and all other edits stay valid. Two edits hang together where

- one makes an object (or brings back one that the server deleted), and the other refers to it: a
  server takes no reference to an object that it doesn't have;
- one deletes an object, and the base of the other refers to it: a server deletes nothing in use;
- one is in conflict with a deletion, and the other refers to that object, here or at the server;
- one takes a segment out of a way, and the other puts that segment into another way: they are
  pieces of one split, or parts of one combine;
- one changes the nodes of a way, and the other the places or roles of that way in a relation: a
  split, a combine or a reverse did both.

    table = table.read(text)
    for group in groups.divide(table): ...
    kept_back = groups.with_groups(groups.divide(table), ['n7'])

A session without some edits is made in two ways:

- `taken_back` and `taken_up` work on the text of a saved session, and keep all keys. `taken_up`
  puts the edits back over what came of the session meanwhile. They can hold back every edit,
  conflicts too.
- `script` writes lines of a script for a user, with the file of bases that they download. It takes
  edits back for good. A conflict is resolved for the server's version.

Both promise the same: each object of `keys` is as the server has it, and every other object is as
it was. They rest on `keys` being whole groups.
"""
from collections import defaultdict
from dataclasses import dataclass
from typing import (
    Callable,
    Dict,
    FrozenSet,
    Iterable,
    Iterator,
    List,
    Mapping,
    Optional,
    Sequence,
    Set,
    Tuple,
)

from yoke import opl, table
from yoke.saved import Known
from yoke.table import Table
from yoke.trouble import Trouble

Group = Tuple[str, ...]  # keys by rank


# ---- what hangs together ----


def edits(found: Table) -> Dict[str, Known]:
    """The objects of a session that are edited or in conflict, by key and by rank."""
    return found.edits()


def divide(found: Table) -> List[Group]:
    """The groups of a session: each edited object is in one of them. They stand by the rank of
    their first key.
    """
    edited = edits(found)
    sets = _Sets(edited)
    for one, other in _links(edited):
        sets.join(one, other)
    return sets.groups()


def with_groups(groups: Iterable[Group], keys: Iterable[str]) -> Set[str]:
    """The keys of all groups that have one of these keys."""
    wanted = set(keys)
    return {key for group in groups if not wanted.isdisjoint(group) for key in group}


def _links(edited: Mapping[str, Known]) -> Iterator[Tuple[str, str]]:
    """Pairs of edits that hang together."""
    yield from follows(edited)
    yield from belongs(edited)


def follows(edited: Mapping[str, Known]) -> Iterator[Tuple[str, str]]:
    """Pairs of edits in an order: where the first is taken back the other can't stay."""
    for key, known in edited.items():
        mine, base, theirs = (
            set(side.references) if side else set()
            for side in (known.mine, known.there, known.theirs)
        )
        for reference in mine - {key}:
            if reference in edited and _is_made(edited[reference]):
                yield reference, key
        for reference in (base | theirs) - {key}:
            if reference in edited and _is_gone(edited[reference]):
                yield key, reference


def belongs(edited: Mapping[str, Known]) -> Iterator[Tuple[str, str]]:
    """Pairs of edits that are parts of one: of a split, a combine or a reverse."""
    yield from _pieces(edited)
    yield from _places_in_relations(edited)


def _is_made(known: Known) -> bool:
    """Whether the server doesn't have an object that exists here, as far as the session knows."""
    return known.there is None or known.theirs is not None and known.theirs.deleted


def _is_gone(known: Known) -> bool:
    """Whether an object is deleted here, or in conflict with a deletion."""
    return known.edit == 'deleted' or known.conflict in ('held', 'withdrawn')


def _segments(way: Optional[opl.Object]) -> Set[FrozenSet[str]]:
    return {frozenset(pair) for pair in zip(way.nodes, way.nodes[1:])} if way else set()


def _pieces(edited: Mapping[str, Known]) -> Iterator[Tuple[str, str]]:
    """Pairs of ways where one lost a segment that the other gained."""
    lost: Dict[FrozenSet[str], List[str]] = defaultdict(list)
    gained: Dict[FrozenSet[str], List[str]] = defaultdict(list)
    for key, known in edited.items():
        if key[0] == 'w':
            before, after = _segments(known.there), _segments(known.mine)
            for segment in before - after:
                lost[segment].append(key)
            for segment in after - before:
                gained[segment].append(key)
    for segment, losers in lost.items():
        for one in losers:
            for other in gained.get(segment, ()):
                yield one, other


def _places_in_relations(edited: Mapping[str, Known]) -> Iterator[Tuple[str, str]]:
    """Pairs of a relation and a way whose places or roles in it were changed together with its
    nodes.
    """
    for key, known in edited.items():
        if key[0] == 'r' and known.there and known.mine:
            for way in _moved_members(known.there, known.mine):
                other = edited.get(way)
                if (
                    way[0] == 'w'
                    and other is not None
                    and other.there
                    and (other.mine is None or other.there.nodes != other.mine.nodes)
                ):
                    yield key, way


def _moved_members(before: opl.Object, after: opl.Object) -> Set[str]:
    """The keys of members whose roles, or how often they are members, differ."""
    roles: List[Dict[str, List[str]]] = [defaultdict(list), defaultdict(list)]
    for side, found in zip((before, after), roles):
        for key, role in side.members:
            found[key].append(role)
    return {key for key in {*roles[0], *roles[1]} if roles[0].get(key) != roles[1].get(key)}


class _Sets:
    """Sets that grow together where two of their keys are joined."""

    def __init__(self, keys: Iterable[str]):
        self._above = {key: key for key in keys}

    def _top(self, key: str) -> str:
        while self._above[key] != key:
            self._above[key] = self._above[self._above[key]]
            key = self._above[key]
        return key

    def join(self, one: str, other: str) -> None:
        """Makes one set of those that have these keys."""
        first, second = sorted((self._top(one), self._top(other)), key=opl.rank)
        self._above[second] = first

    def groups(self) -> List[Group]:
        """The sets, each by rank; the keys were given by rank."""
        found: Dict[str, List[str]] = {}
        for key in self._above:
            found.setdefault(self._top(key), []).append(key)
        return [tuple(keys) for keys in found.values()]


# ---- a session without some edits, by its text ----


@dataclass
class _Records:
    """The lines of a saved session by key: those of `known`, `base`, `mine` and `theirs`, or the
    one of `incomplete`.
    """

    next_new: int
    lines: Dict[str, List[str]]

    @classmethod
    def of(cls, text: str) -> '_Records':
        number = table.next_new(text)
        if not text.endswith('session end\n'):
            raise Trouble('it is no whole saved session')
        lines: Dict[str, List[str]] = {}
        for line in text.split('\n')[1:-2]:
            word, key = line.split(' ', 2)[:2]
            if word in ('known', 'incomplete'):
                lines[key] = [line]
            else:
                lines[key].append(line)
        return cls(number, lines)

    def is_incomplete(self, key: str) -> bool:
        """Whether an object is only referred to."""
        return self.lines[key][0].startswith('incomplete ')

    def is_edited(self, key: str) -> bool:
        """Whether an object is edited, or in conflict."""
        return not self.is_incomplete(key) and not self.lines[key][0].endswith(' same none')

    def references(self, key: str) -> Sequence[str]:
        """What the base of an object refers to; nothing where it has none."""
        bases = [line for line in self.lines.get(key, ()) if line.startswith('base ')]
        found: Sequence[str] = opl.parse(bases[0][len('base ') :]).references if bases else ()
        return found

    def mark_incomplete(self, key: str) -> None:
        """Makes an object one that is only referred to."""
        self.lines[key] = [f'incomplete {key}']

    def text(self) -> str:
        """The saved session."""
        inner = [line for key in sorted(self.lines, key=opl.rank) for line in self.lines[key]]
        return '\n'.join([f'session 1 {self.next_new}'] + inner + ['session end', ''])


def taken_back(text: str, keys: Iterable[str]) -> str:
    """A saved session with the objects of whole groups as the server had them when the edits
    began.

    New ones aren't in it, and a conflict is none: its object is in the version before it. No
    number of a new object is given twice. `resume` takes the text: whoever keeps it lets the
    program read it first.
    """
    records, found = _Records.of(text), table.read(text)
    back = [found.things[key] for key in keys if key in found.things]
    for known in back:
        if known.base is None:
            del records.lines[known.key]
        else:
            state = 'live' if known.there else 'gone'
            base = next(line for line in records.lines[known.key] if line.startswith('base '))
            records.lines[known.key] = [f'known {known.key} {state} same none', base]
    for known in back:
        for key in known.there.references if known.there else ():
            if key not in records.lines or _is_dead(records, key):
                records.mark_incomplete(key)
    _mark_used(
        records,
        found,
        {known.key for known in back if known.base is not None and known.there is None},
    )
    return records.text()


def _is_dead(records: _Records, key: str) -> bool:
    """Whether the server deleted an object, and it doesn't exist here: nothing can refer to it as
    known.
    """
    return records.lines[key][0] == f'known {key} gone same none'


def _mark_used(records: _Records, found: Table, dead: Set[str]) -> None:
    """Makes incomplete what the server deleted, and what an object that is left still refers to."""
    if dead:
        for key in list(records.lines):
            known = found.things.get(key)
            if known is not None and known.mine is not None:
                for reference in dead.intersection(known.mine.references):
                    records.mark_incomplete(reference)


def taken_up(whole: str, newer: str, keys: Iterable[str]) -> str:
    """A saved session with the edits of groups that `taken_back` took back, over what came of the
    session without them.

    `whole` is the session before, and `newer` comes of `taken_back(whole, keys)` by `confirm`
    alone. All other objects are as `newer` has them. An edit of `whole` that isn't one of `keys`
    stays back, also where its object is only referred to meanwhile, and so does what its base
    refers to. `resume` takes the text.
    """
    before, after, wanted = _Records.of(whole), _Records.of(newer), set(keys)
    for key in wanted:
        if key in before.lines:
            after.lines[key] = before.lines[key]
    back = [key for key in before.lines.keys() - wanted if before.is_edited(key)]
    used = {reference for key in back for reference in after.references(key)}
    for key, lines in before.lines.items():
        if (
            key not in after.lines
            and before.is_incomplete(key)
            or key in after.lines
            and after.is_incomplete(key)
            and not before.is_edited(key)
            and key not in used
        ):
            after.lines[key] = lines
    after.next_new = max(before.next_new, after.next_new)
    return after.text()


# ---- a session without some edits, by a script ----


def script(
    found: Table, keys: Iterable[str], base_file: str, first: str = 'purge'
) -> Tuple[List[str], List[str]]:
    """The lines of a script that takes the edits of whole groups back, and the lines of the OPL
    file that it downloads.

    They stand in one group, so all or nothing of it is done. Edits are purged, and their bases
    downloaded: that brings deleted objects back too. Of a conflict the server's version is chosen.
    Mostly the purge comes `first`, since the server's version may refer to what was deleted here.
    Where an object in conflict uses a new one the `resolve` has to come first: whoever asks tries
    both.
    """
    known = [found.things[key] for key in sorted(keys, key=opl.rank) if key in found.things]
    plain = [one for one in known if one.conflict == 'none' and one.edit]
    bases = [opl.line(one.base) for one in plain if one.base is not None]
    purges = ['purge ' + ','.join(one.key for one in plain)] if plain else []
    purges += ['download ' + opl.escape(base_file)] if bases else []
    resolves = [f'resolve {one.key} theirs' for one in known if one.conflict != 'none']
    return ['begin'] + (purges + resolves if first == 'purge' else resolves + purges) + [
        'end'
    ], bases


# ---- groups by place ----

Place = Tuple[float, float]


def by_place(found: Table, groups: Sequence[Group]) -> List[Group]:
    """The groups in an order in which neighbours mostly lie side by side; groups without a place
    come last.
    """
    places = {group: _place(found, group) for group in groups}
    return sorted(groups, key=lambda group: _along_the_curve(places[group]))


def _place(found: Table, group: Group) -> Optional[Place]:
    """The longitude and latitude of the first of a group's objects that has a place."""
    for key in group:
        place = place_of(found, key)
        if place is not None:
            return place
    return None


def place_of(found: Table, key: str, depth: int = 2) -> Optional[Place]:
    """The longitude and latitude of an object, else of the first of its nodes or members that has
    one; None where none is known.
    """
    known = found.things.get(key)
    side = known and (known.mine or known.there)
    if not side:
        return None
    if side.lon is not None and side.lat is not None:
        return float(side.lon), float(side.lat)
    inner = (
        (place_of(found, reference, depth - 1) for reference in side.references)
        if depth
        else iter(())
    )
    return next((place for place in inner if place is not None), None)


def _along_the_curve(place: Optional[Place]) -> Tuple[bool, int]:
    """Where a place lies along a curve that fills the map, with cells of some 10 m: what lies near
    on it lies near on the map.
    """
    if place is None:
        return True, 0
    column, row = (int((place[0] + 180) / 360 * (1 << 22)), int((place[1] + 90) / 360 * (1 << 22)))
    order = 0
    for bit in range(21, -1, -1):
        x, y = column >> bit & 1, row >> bit & 1
        order = order << 2 | (3 * x) ^ y
        if y == 0:
            if x == 1:
                column, row = ~column, ~row
            column, row = row, column
    return False, order


def packed(
    groups: Sequence[Group], most: int, size: Callable[[Group], int] = len
) -> Iterator[List[Group]]:
    """The groups in their order, as many at a time as have `most` changes together; a larger one
    comes alone.
    """
    batch: List[Group] = []
    count = 0
    for group in groups:
        if batch and count + size(group) > most:
            yield batch
            batch, count = [], 0
        batch.append(group)
        count += size(group)
    if batch:
        yield batch
