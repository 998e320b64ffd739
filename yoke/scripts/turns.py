"""Turns: relations with the roles `from`, `via` and `to`, and whether their ways meet where the
turn is.

A turn restriction, the connectivity of lanes and the lanes of a turn lead from one way over a
junction to another. The junction is the node that is `via`, or the ends of the ways that are. The
way `from` ends there, and the way `to` begins there; of a way that is closed any node will do. Who
comes from several ways may be kept out (`no_entry`), and who leaves by several (`no_exit`); else
each role has one way.

Where a member isn't in the session, nothing is said of where it meets.
"""
from dataclasses import dataclass
from typing import Iterator, List, Optional, Set, Tuple

from yoke import opl
from yoke.table import Table

TYPES = ('restriction', 'connectivity', 'turnlanes:turns')
SEVERAL = {
    'from': 'no_entry',
    'to': 'no_exit',
}  # the restrictions in which a role may have several ways
SAME = ('highway', 'name', 'ref')  # tags in which two pieces of one street are alike

Members = Tuple[Tuple[str, str], ...]


@dataclass(frozen=True)
class Finding:
    """A turn that can't be driven as it stands: the relation, what is wrong, and the members that
    would do, if they can be told.
    """

    key: str
    faults: Tuple[str, ...]
    members: Optional[Members] = None

    @property
    def mend(self) -> str:
        """The line of a script that mends it; empty where there is none."""
        return f'members {self.key} M{opl.members(self.members)}' if self.members else ''


def findings(table: Table) -> Iterator[Finding]:
    """The turns of a session in which something is wrong, by rank."""
    ends = None
    for key, known in table.things.items():
        if key[0] == 'r' and known.mine is not None and is_turn(known.mine):
            ends = ends if ends is not None else _ways_by_end(table)
            found = _Turn(table, known.mine, ends).finding()
            if found:
                yield found


def is_turn(relation: opl.Object) -> bool:
    """Whether a relation is read by the roles `from`, `via` and `to`."""
    kind = relation.tags.get('type', '')
    return kind in TYPES or kind.startswith('restriction:')


def _ways_by_end(table: Table):
    """The keys of the ways by the nodes at which they end."""
    found = {}
    for key, known in table.things.items():
        if key[0] == 'w' and known.mine is not None:
            for node in ends_of(known.mine):
                found.setdefault(node, []).append(key)
    return found


def ends_of(way: opl.Object) -> Set[str]:
    """The nodes at which a way ends."""
    return {*way.nodes[:1], *way.nodes[-1:]}


class _Turn:
    """One relation, tested."""

    def __init__(self, table: Table, relation: opl.Object, ways_by_end):
        self.table, self.relation, self.ways_by_end = table, relation, ways_by_end
        self.faults: List[str] = []
        self.mended: Optional[List[Tuple[str, str]]] = list(relation.members)

    def finding(self) -> Optional[Finding]:
        via = self._members('via')
        if not via:
            self._fault('it has no via', can_mend=False)
        junction = self._junction(via)
        for role in ('from', 'to'):
            self._role(role, junction)
        if not self.faults:
            return None
        can_mend = self.mended is not None and tuple(self.mended) != self.relation.members
        return Finding(
            self.relation.key, tuple(self.faults), tuple(self.mended) if can_mend else None
        )

    def _members(self, role: str) -> List[str]:
        return [key for key, one in self.relation.members if one == role]

    def _fault(self, text: str, can_mend: bool):
        self.faults.append(text)
        if not can_mend:
            self.mended = None

    def _junction(self, via: List[str]) -> Optional[Set[str]]:
        """The nodes at which the ways have to meet; None where they can't be told."""
        nodes, ways = [key for key in via if key[0] == 'n'], [key for key in via if key[0] == 'w']
        if len(nodes) > 1 or nodes and ways or len(nodes) + len(ways) < len(via):
            self._fault(
                'via is neither one node nor ways: {}'.format(','.join(via)), can_mend=False
            )
            return None
        found = [self.table.mine(key) for key in ways]
        if None in found:
            return None
        return set(nodes).union(*map(ends_of, found)) or None

    def _role(self, role: str, junction: Optional[Set[str]]):
        """Tests the ways of a role."""
        keys = self._members(role)
        if not keys:
            self._fault(f'it has no {role}', can_mend=False)
        away = [key for key in keys if junction and self._ends_at(key, junction) is False]
        if len(keys) > 1 and not self._may_be_several(role):
            self._fault(
                '{} are {} ways: {}'.format(role, len(keys), ','.join(keys)),
                can_mend=len(keys) - len(away) == 1,
            )
            self._drop(away, role)
        else:
            for key in away:
                self._away(key, role, junction)

    def _may_be_several(self, role: str) -> bool:
        return any(
            key.startswith('restriction') and value.startswith(SEVERAL[role])
            for key, value in self.relation.tags.items()
        )

    def _ends_at(self, key: str, junction: Set[str]) -> Optional[bool]:
        """Whether a way ends at the junction; None where it isn't known."""
        way = self.table.mine(key)
        if way is None or key[0] != 'w':
            return None
        return bool(junction & (ends_of(way) if len(ends_of(way)) > 1 else set(way.nodes)))

    def _away(self, key: str, role: str, junction: Set[str]):
        """A way that doesn't end at the junction: another piece of its street may, or it has to be
        split there.
        """
        through = sorted(junction & set(self.table.mine(key).nodes), key=opl.rank)
        other = self._other_piece(key, junction)
        if through:
            self._fault(
                f'{role} {key} goes on over {through[0]}: split it there',
                can_mend=False,
            )
        else:
            self._fault(f'{role} {key} doesn\'t meet via', can_mend=other is not None)
            if self.mended is not None:
                self.mended = [
                    (other, role) if member == (key, role) else member for member in self.mended
                ]

    def _drop(self, away: List[str], role: str):
        if self.mended is not None:
            self.mended = [
                member for member in self.mended if not (member[0] in away and member[1] == role)
            ]

    def _other_piece(self, key: str, junction: Set[str]) -> Optional[str]:
        """The one way that goes from the end of a way to the junction and is tagged as the same
        street; None where there isn't just one.
        """
        way = self.table.mine(key)
        found = {
            one
            for node in ends_of(way)
            for one in self.ways_by_end.get(node, ())
            if one != key
            and self._ends_at(one, junction)
            and self._is_same_street(way, self.table.mine(one))
        }
        found -= {member for member, _ in self.relation.members}
        return found.pop() if len(found) == 1 else None

    @staticmethod
    def _is_same_street(way: opl.Object, other: opl.Object) -> bool:
        return 'highway' in way.tags and all(
            way.tags.get(tag) == other.tags.get(tag) for tag in SAME
        )
