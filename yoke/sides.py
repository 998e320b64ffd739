"""Sides of an object beside each other, in words: what differs between them, part by part.

A part is one tag, the place, the nodes or the members, as in a merge (docs/MERGING.md).
"""
from typing import List, Optional, Tuple

from yoke import opl
from yoke.opl import Object

NOTHING = '(none)'


def parts(*sides: Optional[Object]) -> List[Tuple[str, List[Optional[str]]]]:
    """The parts in which objects differ: pairs of a part's name and its text on each side. None
    stands for a deleted one.
    """
    found: List[Tuple[str, List[Optional[str]]]] = []
    for key in sorted({key for side in sides if side for key in side.tags}):
        found.append((key, [side.tags.get(key) if side else None for side in sides]))
    for name, text in (('place', place), ('nodes', nodes), ('members', members)):
        found.append((name, [text(side) if side else None for side in sides]))
    return [(name, texts) for name, texts in found if any(text != texts[0] for text in texts)]


def place(thing: Object) -> Optional[str]:
    """Longitude and latitude of a node."""
    return (
        None
        if thing.lon is None or thing.lat is None
        else f'{opl.degrees(thing.lon)} {opl.degrees(thing.lat)}'
    )


def nodes(thing: Object) -> Optional[str]:
    """The nodes of a way."""
    return ','.join(thing.nodes) or None


def members(thing: Object) -> Optional[str]:
    """The members of a relation, with their roles."""
    return ','.join(f'{key}@{role}' if role else key for key, role in thing.members) or None


def plain(text: Optional[str]) -> str:
    """A text of a side for a terminal: in one line, and something visible where there is none."""
    return (
        NOTHING
        if text is None
        else '""'
        if text == ''
        else ''.join(c if c.isprintable() else opl.escape(c) if c < '\xa1' else '?' for c in text)
    )


def change(before: Optional[Object], after: Optional[Object]) -> List[str]:
    """The lines that say what became of an object, from one side to the other; lists only by what
    went and came.
    """
    lines: List[str] = []
    for name, (old, new) in parts(before, after):
        if name in ('nodes', 'members') and old is not None and new is not None:
            lines += ['{}: {}'.format(name, listed(old.split(','), new.split(',')))]
        elif before is None or old is None:
            lines.append(f'{name}: {plain(new)}')
        else:
            lines.append(f'{name}: {plain(old)} -> {plain(new)}')
    return lines


def listed(old: List[str], new: List[str]) -> str:
    """How a list changed: what went, what came, or that the order is another one."""
    gone, came = [one for one in old if one not in new], [one for one in new if one not in old]
    words = [f'{len(old)} -> {len(new)}']
    words += ['without ' + ','.join(gone)] if gone else []
    words += ['with ' + ','.join(came)] if came else []
    if not gone and not came:
        words.append(
            'turned round'
            if old[::-1] == new
            else 'in another order'
            if sorted(old) == sorted(new)
            else 'some more or less often'
        )
    return ', '.join(words)


def title(thing: Object) -> str:
    """What to call an object: its key, and its name or its first tag."""
    tags = thing.tags
    name = tags.get('name') or next((f'{key}={value}' for key, value in sorted(tags.items())), '')
    return f'{thing.key} {plain(name)}' if name else thing.key
