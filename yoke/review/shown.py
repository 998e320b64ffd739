"""Items as the page and the picture have them: what they are called, what became of them, and where
they are.

An item is a mapping of these names:

| name | what it has |
|---|---|
| `key`, `edit`, `title` | its key; `new`, `changed`, `moved`, `deleted`, `conflict` or `question`; its name or first tag |
| `version`, `user`, `time` | of its base; null where no server has it |
| `tags` | rows of a tag's key and its value before, after, and in theirs: lists, since a key may be `__proto__` |
| `parts` | which of tags, place, nodes, members, corners were changed |
| `lists` | rows of place, nodes or members: the name, before, after, theirs, and how they changed in words |
| `before`, `after`, `theirs` | where it is, as `lines` and `points` of longitudes and latitudes in turn |
| `corners` | how many corners are decided with it |
| `kind` | what was done, in a few words that are the same for all edits of the kind |
| `conflict`, `why`, `their_version`, `their_user`, `their_deleted` | of a conflict |
| `by_parts`, `clash_tags`, `clash_part` | whether it may be resolved part by part, the tags that both sides changed, and the place, nodes or members where both did |
| `candidates` | of a question: the key of each object that the feature may be, how like it is, and where it is |
"""

from typing import Any, Dict, List, Optional, Tuple

from yoke import opl, sides
from yoke.review.items import Edits
from yoke.saved import Known
from yoke.table import Table
from yoke.verbs.conflicts import why

Item = Dict[str, Any]
Side = Optional[opl.Object]

TEXTS = (('place', sides.place), ('nodes', sides.nodes), ('members', sides.members))
MOST_MEMBERS = 400  # of a relation that are drawn: of a long route they show where it is
LONGEST_KIND = 70  # characters of all values in the name of a kind of edit
MAIN = (
    'highway building amenity shop addr:housenumber natural landuse leisure barrier railway '
    'waterway man_made tourism power boundary type'
).split()  # the tag that says best what an object is


def items_of(found: Edits) -> List[Item]:
    """All items, in their order."""
    return [item_of(found, key) for key in found.items]


def item_of(found: Edits, key: str) -> Item:
    """One item by its key."""
    known = found.known(key)
    before, after = known.there, known.mine
    theirs = known.theirs if known.theirs and not known.theirs.deleted else None
    in_conflict = known.conflict != 'none'
    shown = after or before or theirs
    item: Item = {
        'key': key,
        'edit': 'moved' if key in found.moved else known.edit or 'conflict',
        'title': title_of(shown),
        'version': known.base.version if known.base else None,
        'user': known.base.user if known.base else None,
        'time': known.base.time if known.base else None,
        'tags': _tags(before, after, theirs if in_conflict else None),
        'parts': ['corners'] if key in found.moved else changed_parts(before, after),
        'lists': _lists(before, after, theirs if in_conflict else None),
        'before': _place_of(found.table, before, True),
        'after': _place_of(found.table, after, False),
        'corners': len(found.corners.get(key, ())),
        'conflict': known.conflict if in_conflict else None,
    }
    if in_conflict:
        item.update(_conflict(found.table, known, theirs))
    item['kind'] = kind_of(item)
    return item


def title_of(thing: Side) -> str:
    """The name of an object, else its first tag."""
    tags = thing.tags if thing else {}
    first = next((f'{key}={value}' for key, value in sorted(tags.items())), '')
    return str(tags.get('name') or first)


def _tags(*there: Side) -> List[List[Optional[str]]]:
    names = sorted({name for side in there if side for name in side.tags})
    return [[name, *(side.tags.get(name) if side else None for side in there)] for name in names]


def changed_parts(before: Side, after: Side) -> List[str]:
    """Which parts of an object were changed; none where it is new or deleted."""
    if not before or not after:
        return []
    pairs = {
        'tags': (before.tags, after.tags),
        'place': ((before.lon, before.lat), (after.lon, after.lat)),
        'nodes': (before.nodes, after.nodes),
        'members': (before.members, after.members),
    }
    return [part for part, (one, other) in pairs.items() if one != other]


def _lists(*there: Side) -> List[List[Optional[str]]]:
    rows = []
    for part, text in TEXTS:
        texts = [text(side) if side else None for side in there]
        if not any(texts):
            continue
        before, after = texts[0], texts[1]
        differs = part != 'place' and before and after and before != after
        change = sides.listed(before.split(','), after.split(',')) if differs else None
        rows.append([part, *texts, change])
    return rows


def _conflict(table: Table, known: Known, theirs: Side) -> Item:
    other = known.theirs
    by_parts = bool(known.conflict == 'changed' and known.there and known.mine and theirs)
    tags, part = clash_of(known.there, known.mine, theirs) if by_parts else ([], '')
    return {
        'why': why(known),
        'their_version': other.version if other else None,
        'their_user': other.user if other else None,
        'their_deleted': bool(other and other.deleted),
        'by_parts': by_parts,
        'clash_tags': tags,
        'clash_part': part,
        'theirs': _place_of(table, theirs, True),
    }


def clash_of(*there: Side) -> Tuple[List[str], str]:
    """The tags that both sides changed, and not alike; and `place`, `nodes` or `members` if both
    changed that so.
    """
    tags = [row[0] for row in _tags(*there) if row[0] is not None and _clashes(row[1:])]
    rows = [[name, *map(text, there)] for name, text in TEXTS if all(there)]
    part = next((str(row[0]) for row in rows if _clashes(row[1:])), '')
    return tags, part


def _clashes(texts: List[Optional[str]]) -> bool:
    was, mine, theirs = texts
    return was != mine and was != theirs and mine != theirs


# ---- where they are ----


def _place_of(table: Table, thing: Side, is_before: bool) -> Optional[Item]:
    """The lines and points of an object, by the places of its nodes before or after the edits; None
    where it isn't there.
    """
    if thing is None:
        return None
    lines: List[List[float]] = []
    points: List[float] = []
    if thing.key[0] == 'n':
        points += _at(thing)
    elif thing.key[0] == 'w':
        lines.append(_path(table, thing, is_before))
    for key, _ in thing.members[:MOST_MEMBERS]:
        member = _side(table, key, is_before)
        if member is not None and key[0] == 'n':
            points += _at(member)
        elif member is not None and key[0] == 'w':
            lines.append(_path(table, member, is_before))
    points += [part for line in lines if len(line) == 2 for part in line]
    return {'lines': [line for line in lines if len(line) > 2], 'points': points}


def _side(table: Table, key: str, is_before: bool) -> Side:
    known = table.things.get(key)
    if known is None:
        return None
    return (known.there or known.mine) if is_before else (known.mine or known.there)


def _path(table: Table, way: opl.Object, is_before: bool) -> List[float]:
    nodes = (_side(table, key, is_before) for key in way.nodes)
    return [part for node in nodes if node is not None for part in _at(node)]


def _at(node: opl.Object) -> List[float]:
    if node.lon is None or node.lat is None:
        return []
    return [float(node.lon), float(node.lat)]


# ---- kinds of edit ----


def kind_of(item: Item) -> str:
    """What was done to an object, in a few words: what is the same in many edits of one script."""
    name = opl.KINDS[item['key'][0]]
    if item['conflict']:
        return f'conflict: {item["why"]}'
    if item['edit'] == 'moved':
        return 'corners moved'
    if item['edit'] != 'changed':
        return f'{item["edit"]} {name}: {main_tag([row[0] for row in item["tags"]])}'
    changed = [(row[0], row[1], row[2]) for row in item['tags'] if row[1] != row[2]]
    texts = [f'{key}: {_value(was)} → {_value(now)}' for key, was, now in changed]
    is_short = sum(map(len, texts)) < LONGEST_KIND
    short = ', '.join(texts if is_short else [key for key, _, _ in changed])
    return ', '.join(filter(None, [short, *(part for part in item['parts'] if part != 'tags')]))


def kind_between(key: str, edit: str, before: Side, after: Side) -> str:
    """The kind of an edit by the object before and after it."""
    item: Item = {
        'key': key,
        'edit': edit,
        'conflict': None,
        'tags': _tags(before, after),
        'parts': changed_parts(before, after),
    }
    return kind_of(item)


def _value(text: Optional[str]) -> str:
    return sides.NOTHING if text is None else text


def main_tag(names: List[str]) -> str:
    """The key of the tag that says best what an object is."""
    first = names[0] if names else 'without tags'
    return next((name for name in MAIN if name in names), first)


# ---- questions of a conflation ----


def questions(table: Table, asked: List[Item]) -> List[Item]:
    """The items of features that may be one of several objects: a column of tags for the feature,
    and one for each object.
    """
    return [_question(table, one) for one in asked]


def _question(table: Table, one: Item) -> Item:
    tags: Dict[str, str] = dict(one['tags'])
    found: List[Tuple[str, float, float, opl.Object]] = []
    for key, score, metres in one['candidates']:
        thing = table.mine(key)
        if thing is not None:
            found.append((key, score, metres, thing))
    theirs = {name for _, _, _, thing in found for name in thing.tags}
    names = sorted({*tags, *theirs}, key=lambda name: (name not in tags, name))
    first = ', '.join(f'{name}={value}' for name, value in list(tags.items())[:2])
    return {
        'key': one['feature'],
        'edit': 'question',
        'title': tags.get('name') or first,
        'version': None,
        'user': None,
        'time': None,
        'tags': [
            [name, tags.get(name), *(thing.tags.get(name) for _, _, _, thing in found)]
            for name in names
        ],
        'parts': [],
        'lists': [],
        'corners': 0,
        'conflict': None,
        'kind': f'import: {one["why"]}',
        'before': None,
        'after': {'lines': [], 'points': list(one['place'])},
        'candidates': [
            [key, f'{score:.2f}, {metres:.0f} m', _place_of(table, thing, False)]
            for key, score, metres, thing in found
        ],
    }
