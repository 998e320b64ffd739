"""How much of the map changes span: the bounding box of a changeset, as a server that limits it
reckons it.

The extent of a box is its width plus its height, here in units of 10^-7 degree. A node counts where
it was and where it is now, a way with the nodes that it had and has. Of a relation the nodes and
ways count that went or came as members, and all of them where a tag or a member that is a relation
changed.
"""
from decimal import Decimal
from typing import Dict, Iterable, Iterator, List, NamedTuple, Optional, Sequence, Tuple

from yoke import opl, stored

UNITS = 10**7
Change = Tuple[str, opl.Object]


class Box(NamedTuple):
    """A bounding box, in units of 10^-7 degree."""

    west: int
    south: int
    east: int
    north: int

    @property
    def extent(self) -> int:
        """Its width plus its height."""
        return self.east - self.west + self.north - self.south


def joined(one: Optional[Box], other: Optional[Box]) -> Optional[Box]:
    """The smallest box around both; None stands for none."""
    if one is None or other is None:
        return one or other
    return Box(
        min(one.west, other.west),
        min(one.south, other.south),
        max(one.east, other.east),
        max(one.north, other.north),
    )


def degrees(extent: int) -> str:
    """An extent in degrees, for a message."""
    return f'{Decimal(extent) / UNITS:.7f}'.rstrip('0').rstrip('.')


class Boxes:
    """The boxes of changes of a session, whose objects are looked up as they are needed."""

    def __init__(self, session: stored.Stored) -> None:
        self._session = session
        self._places: Dict[str, Optional[Box]] = {}

    def of_all(self, changes: Iterable[Change]) -> Optional[Box]:
        """The box of changes together; None where none of them has a place."""
        box = None
        for change in changes:
            box = joined(box, self.of(change))
        return box

    def fitting(self, changes: Sequence[Change], box: Optional[Box], extent: int) -> int:
        """How many of the changes, from the first on, keep a box within an extent."""
        for count, change in enumerate(changes):
            box = joined(box, self.of(change))
            if box is not None and box.extent > extent:
                return count
        return len(changes)

    def of(self, change: Change) -> Optional[Box]:
        """The box of a change; None where it has no place."""
        verb, after = change
        known = self._session.get(after.key)
        before = known.there if known else None
        sides = [side for side in (before, None if verb == 'delete' else after) if side is not None]
        box = None
        if after.key[0] == 'n':
            for side in sides:
                box = joined(box, _place(side))
        elif after.key[0] == 'w':
            for node in {node for side in sides for node in side.nodes}:
                box = joined(box, self._of_key(node))
        else:
            for key in _members(before, None if verb == 'delete' else after):
                box = joined(box, self._of_key(key))
        return box

    def _of_key(self, key: str) -> Optional[Box]:
        """The box of a node or of the nodes of a way, as it was and as it is."""
        if key not in self._places:
            known = self._session.get(key)
            box = None
            for side in (known.there, known.mine) if known else ():
                for one in _boxes_of(side, self):
                    box = joined(box, one)
            self._places[key] = box
        return self._places[key]


def _boxes_of(side: Optional[opl.Object], boxes: Boxes) -> Iterator[Optional[Box]]:
    if side is None:
        return
    if side.key[0] == 'n':
        yield _place(side)
    for node in side.nodes:
        yield boxes._of_key(node)


def _place(node: opl.Object) -> Optional[Box]:
    if node.lon is None or node.lat is None:
        return None
    lon, lat = int(node.lon * UNITS), int(node.lat * UNITS)
    return Box(lon, lat, lon, lat)


def _members(before: Optional[opl.Object], after: Optional[opl.Object]) -> List[str]:
    """The members of a relation whose places count for a change of it, without those that are
    relations.
    """
    old, new = (before.members if before else ()), (after.members if after else ())
    changed = [member for member in (*old, *new) if (member in old) != (member in new)]
    tags = [side.tags if side else None for side in (before, after)]
    if tags[0] != tags[1] or any(key[0] == 'r' for key, _ in changed):
        changed = [*old, *new]
    return [key for key, _ in changed if key[0] != 'r']
