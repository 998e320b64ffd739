"""What the sessions of the tiles made, put together.

Where two sessions made one object unlike, or one of them left it, all that hangs together with it
is set aside: its groups of changes in each tile, and the units of the script that name it. What is
set aside is done anew, in one session over the seam.
"""
from __future__ import annotations

from collections import defaultdict
from collections.abc import Iterable, Mapping, Sequence
from dataclasses import dataclass, field, replace

from yoke import opl
from yoke.tiles.edit import Change, Edited
from yoke.tiles.script import Unit

Name = str  # of a session: a tile or the seam
Group = tuple[Name, int]


@dataclass
class Changes:
    """The changes of all sessions, by their groups, and which groups touch a key that a server has."""

    by_group: dict[Group, list[Change]] = field(default_factory=dict)
    by_key: dict[str, set[Group]] = field(default_factory=lambda: defaultdict(set))
    by_source: dict[str, set[Group]] = field(
        default_factory=lambda: defaultdict(set)
    )  # by ways through which nodes were changed
    sources: dict[Group, set[str]] = field(default_factory=dict)
    by_unit: dict[int, set[Group]] = field(
        default_factory=lambda: defaultdict(set)
    )  # groups with what a unit made
    alike: int = 0  # objects that two sessions made alike

    def add(self, name: Name, edited: Edited, places: Sequence[int]) -> None:
        """Adds the changes of a session; `places` are those of its units among all units."""
        for number, keys in edited.sources.items():
            self.sources[name, number] = keys
            for key in keys:
                self.by_source[key].add((name, number))
        for one in edited.changes:
            group = name, one.group
            if one.unit is not None:
                self.by_unit[places[one.unit]].add(group)
            self.by_group.setdefault(group, []).append(one)
            if one.thing.key[1] != '-':
                self.by_key[one.thing.key].add(group)

    def remove(self, group: Group) -> set[str]:
        """Removes a group; answers with the keys that it touched, and with those through which it
        did.
        """
        keys = {one.thing.key for one in self.by_group.pop(group, []) if one.thing.key[1] != '-'}
        sources = self.sources.pop(group, set())
        for key in keys:
            self.by_key[key].discard(group)
        for key in sources:
            self.by_source[key].discard(group)
        return keys | {key for key in sources if key[1] != '-'}

    def remove_session(self, name: Name) -> None:
        """Removes all changes of a session."""
        for group in [group for group in self.by_group if group[0] == name]:
            self.remove(group)

    def unlike(self) -> set[str]:
        """The keys that two sessions changed, and not alike. What they changed alike, alone, is
        taken once.
        """
        found = set()
        for key, groups in self.by_key.items():
            if len(groups) < 2:
                continue
            made = [one for group in groups for one in self.by_group[group] if one.thing.key == key]
            if (
                all(len(self.by_group[group]) == 1 for group in groups)
                and len({(one.verb, repr(one.thing.content)) for one in made}) == 1
            ):
                for group in sorted(groups)[1:]:
                    self.by_group.pop(group)
                    groups.discard(group)
                    self.alike += 1
            else:
                found.add(key)
        return found

    def in_order(self) -> list[tuple[str, opl.Object]]:
        """All changes as pairs of verb and object: new ones first, deletions last, and new objects
        with ids of their own.
        """
        found: list[tuple[str, opl.Object]] = []
        number = 0
        for group in sorted(self.by_group):
            names: dict[str, str] = {}
            for one in self.by_group[group]:
                if one.thing.key[1] == '-':
                    number += 1
                    names[one.thing.key] = f'{one.thing.key[0]}-{number}'
            found += [(one.verb, renamed(one.thing, names)) for one in self.by_group[group]]
        return sorted(found, key=_place)


def _place(change: tuple[str, opl.Object]) -> tuple[int, int, tuple[int, bool, int]]:
    verb, thing = change
    kind = 'nwr'.index(thing.key[0])
    return (
        {'create': 0, 'modify': 1, 'delete': 2}[verb],
        -kind if verb == 'delete' else kind,
        opl.rank(thing.key),
    )


def renamed(thing: opl.Object, names: Mapping[str, str]) -> opl.Object:
    """The object with other keys for new objects."""
    if not names:
        return thing
    return replace(
        thing,
        key=names.get(thing.key, thing.key),
        nodes=tuple(names.get(node, node) for node in thing.nodes),
        members=tuple((names.get(key, key), role) for key, role in thing.members),
    )


def set_aside(
    changes: Changes, units: Sequence[Unit], seam_units: set[int], keys: Iterable[str]
) -> set[str]:
    """Sets aside all that hangs together with these keys; answers with the keys of all of it.

    `changes` loses the groups, and `seam_units` gets the units that are to be done over the seam.
    """
    by_key: dict[str, set[int]] = defaultdict(set)
    for at, unit in enumerate(units):
        for key in unit.keys:
            by_key[key].add(at)
    aside: set[str] = set()
    waiting = set(keys)
    while waiting:
        key = waiting.pop()
        if key in aside:
            continue
        aside.add(key)
        for group in [*changes.by_key.get(key, ()), *changes.by_source.get(key, ())]:
            waiting |= changes.remove(group)
        for at in by_key.get(key, ()):
            seam_units.add(at)
            waiting |= {other for other in units[at].keys if other[1] != '-'}
            for group in list(changes.by_unit.pop(at, ())):
                waiting |= changes.remove(group)
    return aside
