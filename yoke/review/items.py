"""The edits and conflicts of a session as items to decide on.

A node that is only a corner, without tags before and after, is no item of its own:

| the corner is | it is decided with |
|---|---|
| new | the edited ways that go through it; it goes when all of them are rejected |
| deleted | the edited ways that went through it; it comes back with each of them that is rejected |
| moved | the way through it of which most corners were moved, which is an item `moved` if it isn't edited itself |
"""

from collections import defaultdict
from dataclasses import dataclass, field
from typing import Dict, Iterable, List, Set

from yoke import opl
from yoke.saved import Known
from yoke.table import Table

USERS = (
    'find way and parent ( node and changed )'  # asks for the ways through nodes that were edited
)


@dataclass
class Edits:
    """All edits of a session, and what of them is decided as one.

    `edits` has each edited object, corners too. `items` are the keys to decide on, by rank; `moved`
    those of them that are ways of which corners alone were moved. `corners` has, by the key of a
    way, the corners that are decided with it.
    """

    table: Table
    edits: Dict[str, Known]
    items: List[str] = field(default_factory=list)
    moved: Set[str] = field(default_factory=set)
    corners: Dict[str, List[str]] = field(default_factory=dict)
    is_corner: Set[str] = field(default_factory=set)
    users_of: Dict[str, List[str]] = field(default_factory=dict)  # edited ones that refer to it now
    based_on: Dict[str, List[str]] = field(
        default_factory=dict
    )  # edited ones whose base refers to it

    def known(self, key: str) -> Known:
        """The object of an item."""
        return self.table.things[key]

    def parts_of(self, key: str) -> List[str]:
        """The edited objects that are decided as one item: itself, and its corners."""
        return ([key] if key in self.edits else []) + self.corners.get(key, [])

    def item_of(self, key: str) -> str:
        """The item with which an edited object is decided; empty where there is none."""
        if key in self.is_corner:
            return next((way for way, corners in self.corners.items() if key in corners), '')
        return key if key in self.edits or key in self.moved else ''


def collect(table: Table, users: Iterable[str]) -> Edits:
    """The edits of a session; `users` are the ways through nodes that were edited, which `USERS`
    finds.
    """
    edits = {
        key: known for key, known in table.things.items() if known.edit or known.conflict != 'none'
    }
    found = Edits(table, edits)
    for key, known in edits.items():
        for side, where in ((known.mine, found.users_of), (known.there, found.based_on)):
            for reference in set(side.references) if side else ():
                if reference in edits:
                    where.setdefault(reference, []).append(key)
    moved = _corners(found)
    _moved(found, moved, users)
    keys = [key for key in edits if key not in found.is_corner]
    found.items = sorted({*keys, *found.moved}, key=opl.rank)
    return found


def _is_bare(known: Known) -> bool:
    """Whether an edited object is a node without tags before and after, and not in conflict."""
    is_tagged = (known.there and known.there.tags) or (known.mine and known.mine.tags)
    return known.key[0] == 'n' and known.conflict == 'none' and not is_tagged


def _corners(found: Edits) -> List[str]:
    """Puts new and deleted corners to the ways with which they are decided; the keys of those that
    were moved.
    """
    moved = []
    for key, known in found.edits.items():
        if not _is_bare(known):
            continue
        if known.edit == 'changed':
            moved.append(key)
            continue
        users = found.based_on if known.edit == 'deleted' else found.users_of
        ways = [user for user in users.get(key, ()) if user[0] == 'w']
        if ways:
            found.is_corner.add(key)
            for way in ways:
                found.corners.setdefault(way, []).append(key)
    return moved


def _moved(found: Edits, moved: List[str], users: Iterable[str]) -> None:
    """Puts each corner that was moved to the way through it that has most such corners, of several
    to an edited one.
    """
    through: Dict[str, List[str]] = defaultdict(list)
    for way in users:
        mine = found.table.mine(way)
        for node in set(mine.nodes) if mine else ():
            through[node].append(way)
    count: Dict[str, int] = defaultdict(int)
    for node in moved:
        for way in through.get(node, ()):
            count[way] += 1
    for node in moved:
        ways = through.get(node)
        if not ways:
            continue
        way = max(ways, key=lambda one: (count[one], one in found.edits, -opl.rank(one)[2]))
        found.is_corner.add(node)
        found.corners.setdefault(way, []).append(node)
        if way not in found.edits:
            found.moved.add(way)
