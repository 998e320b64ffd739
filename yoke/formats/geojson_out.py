"""Edits and conflicts of a session as GeoJSON, to look at on any map."""
import json
from typing import Any, Dict, List, Optional

from yoke import opl, saved
from yoke.table import Table


def document(table: Table) -> str:
    """A FeatureCollection of all objects that were edited or are in conflict, by rank, one a line.

    The properties of each are `key`, `what` (`new`, `changed`, `deleted` or `conflict`), `parts`
    (which of tags, place, nodes and members were changed here), `conflict` (why, or null),
    `version` and `user` of the base, and the tags `before`, `after` and `theirs`, null where there
    is no such side. An object that was moved has the place `from` too. The geometry is that of what
    the object is here, else that of its base, else of theirs.
    """
    features = [
        _feature(table, known)
        for known in table.things.values()
        if known.edit or known.conflict != 'none'
    ]
    lines = ',\n'.join(json.dumps(feature, ensure_ascii=False) for feature in features)
    return (
        '{"type": "FeatureCollection", "generator": "yoke", "features": [\n'
        + lines
        + ('\n' if lines else '')
        + ']}\n'
    )


def _feature(table: Table, known: saved.Known) -> Dict[str, Any]:
    before, after, theirs = (
        known.there,
        known.mine,
        known.theirs if known.theirs and not known.theirs.deleted else None,
    )
    shown = after or before or theirs
    properties: Dict[str, Any] = {
        'key': known.key,
        'what': known.edit or 'conflict',
        'parts': _parts(before, after),
        'conflict': None if known.conflict == 'none' else known.conflict,
        'version': known.base.version if known.base else None,
        'user': (known.base.user or None) if known.base else None,
        'before': before and before.tags,
        'after': after and after.tags,
        'theirs': theirs and theirs.tags,
    }
    if 'place' in properties['parts']:
        assert before is not None
        properties['from'] = _place(before)
    return {
        'type': 'Feature',
        'id': known.key,
        'geometry': geometry(table, shown) if shown else None,
        'properties': properties,
    }


def _parts(before: Optional[opl.Object], after: Optional[opl.Object]) -> List[str]:
    if not before or not after:
        return []
    sides: Dict[str, Any] = {
        'tags': (before.tags, after.tags),
        'place': ((before.lon, before.lat), (after.lon, after.lat)),
        'nodes': (before.nodes, after.nodes),
        'members': (before.members, after.members),
    }
    return [part for part, (one, other) in sides.items() if one != other]


def geometry(table: Table, thing: opl.Object) -> Optional[Dict[str, Any]]:
    """The geometry of an object by the places that are known; None where none is.

    A way is a line through its nodes, or one point where only one is known; a relation is the
    geometries of its members that are no relations.
    """
    if thing.key[0] == 'n':
        return {'type': 'Point', 'coordinates': _place(thing)}
    if thing.key[0] == 'w':
        line = [_place(node) for node in map(lambda key: _side(table, key), thing.nodes) if node]
        if len(line) < 2:
            return {'type': 'Point', 'coordinates': line[0]} if line else None
        return {'type': 'LineString', 'coordinates': line}
    members = [_side(table, key) for key, _ in thing.members if key[0] != 'r']
    parts = [part for part in (geometry(table, member) for member in members if member) if part]
    return {'type': 'GeometryCollection', 'geometries': parts} if parts else None


def _side(table: Table, key: str) -> Optional[opl.Object]:
    """What an object is here, or was before it was deleted here; None where nothing is known of it."""
    return table.mine(key) or table.base(key)


def _place(node: opl.Object) -> List[float]:
    return [float(degrees) for degrees in opl.place(node)]
