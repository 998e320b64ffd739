"""One node put into a way, members into a relation: the lists of `nodes` and `members` lines, made
anew with more.
"""
import math
from typing import List, Optional, Sequence, Tuple

from yoke import opl
from yoke.table import Table
from yoke.trouble import Refused, Usage


def insert_line(table: Table, node: str, way: str, after: Optional[str] = None) -> str:
    """The `nodes` line that puts a node into a way.

    `after` is a node of the way, of which the first place counts, or the number of a place: 1 is
    the first, 0 the front. Without it the node comes between the two neighbours whose segment lies
    nearest to it, the first of equally near ones.
    """
    if node[:1] != 'n' or way[:1] != 'w':
        raise Usage('a node and a way are wanted: yoke insert n7 w5')
    nodes = list(_mine(table, way).nodes)
    if not table.refers(node):
        raise Refused(f'there is no {node} in the session')
    at = (
        _place(after, nodes, way)
        if after is not None
        else nearest(table, _mine(table, node), nodes, way)
    )
    if node in nodes and after is None:
        raise Refused(
            '{} is a node of {} already: once more it is put in at a place that is named'.format(
                node, way
            )
        )
    if node in (nodes[max(at - 1, 0) : at] + nodes[at : at + 1]):
        raise Refused(f'{node} would stand twice side by side in {way}')
    return 'nodes {} N{}'.format(way, ','.join(nodes[:at] + [node] + nodes[at:]))


def _mine(table: Table, key: str) -> opl.Object:
    thing = table.mine(key)
    if thing is None:
        raise Refused(
            '{} {}'.format(
                key,
                'is only referred to: download it'
                if key in table.incomplete
                else 'is deleted here'
                if key in table.things
                else 'isn\'t in the session',
            )
        )
    return thing


def _place(after: str, nodes: List[str], way: str) -> int:
    """The place after a node, or after so many."""
    if after in nodes:
        return nodes.index(after) + 1
    if opl.is_digits(after) and int(after) <= len(nodes):
        return int(after)
    raise Refused(f'{after} is no node of {way}, and no number from 0 to {len(nodes)}')


def nearest(table: Table, node: opl.Object, nodes: List[str], way: str) -> int:
    """The place in the list between the two nodes whose segment lies nearest; segments with a node
    that isn't known are left out.
    """
    places = [table.mine(key) for key in nodes]
    segments = [
        (distance(node, one, other), at)
        for at, (one, other) in enumerate(zip(places, places[1:]), 1)
        if one and other
    ]
    if not segments:
        raise Refused(f'no segment of {way} is known: name the place')
    return min(segments)[1]


def distance(node: opl.Object, one: opl.Object, other: opl.Object) -> float:
    """How far a node lies from a segment, in degrees of latitude, on a plane that is true near the
    node.
    """
    shrink = math.cos(math.radians(float(opl.place(node)[1])))
    x, y = _flat(node, one, shrink)
    dx, dy = (b - a for a, b in zip((x, y), _flat(node, other, shrink)))
    length = dx * dx + dy * dy
    along = min(1.0, max(0.0, -(x * dx + y * dy) / length)) if length else 0.0
    return math.hypot(x + along * dx, y + along * dy)


def _flat(node: opl.Object, thing: opl.Object, shrink: float) -> Tuple[float, float]:
    lon, lat = (one - other for one, other in zip(opl.place(thing), opl.place(node)))
    return float(lon) * shrink, float(lat)


def add_members_line(
    table: Table,
    pairs: Sequence[Tuple[str, str]],
    relation: str,
    at: Optional[int] = None,
    again: bool = False,
    once_more: str = 'yoke add-member --again',
) -> str:
    """The `members` line that makes objects, by key and role, members of a relation: the last ones,
    or from the `at`-th on, where 1 is the first.

    `again` tells that they may be members with the same role already, and `once_more` what else the
    user may write to that end.
    """
    if relation[0] != 'r':
        raise Usage('a relation is wanted: yoke add-member w7 r9 outer')
    members = list(_mine(table, relation).members)
    place = len(members) if at is None else at - 1
    if not 0 <= place <= len(members):
        raise Refused(
            '{} has {} members, so a place is from 1 to {}'.format(
                relation, len(members), len(members) + 1
            )
        )
    for pair in pairs:
        key, role = pair
        if not table.refers(key):
            raise Refused(f'there is no {key} in the session')
        if pair in members and not again:
            raise Refused(
                '{} is a member of {} already{}: {} makes it one once more'.format(
                    key, relation, ' as ' + role if role else '', once_more
                )
            )
        members.insert(place, pair)
        place += 1
    try:
        return f'members {relation} M{opl.members(members)}'
    except ValueError as error:
        raise Refused(str(error)) from None
