"""Edits that another tool made, as steps of a session.

The tool began from a content of each object: from what the server had (the session's base), or from
what the session was when it was written for the tool. Part by part, a part being one tag, the
place, all nodes, or all members: what the tool left as it began is left as it is here, what it
changed is changed here, and what both changed, and not alike, is a clash. With a clash, an object
of another version, or one that isn't known, there are no steps at all. What the document makes and
the session has already isn't made again (`likes`).

The steps are to run as one group, directly after the session was taken up: the ids of new objects
are counted from the number that the session gives next.
"""
from collections import Counter
from dataclasses import dataclass, field, replace
from typing import Dict, List, Optional, Set, Tuple

from yoke import opl, printing
from yoke.formats.likes import likes
from yoke.formats.osm_xml import Told
from yoke.table import Table

CREATES = {'n': 'node', 'w': 'way', 'r': 'relation'}


@dataclass
class Plan:
    """What becomes of a document: the steps, or the problems for which there are none.

    `notes` is what the user ought to know beside; `made` has the session's keys of what is made by
    those of the document; `counts` how many objects are new, deleted, and changed in which of their
    parts.
    """

    lines: List[str] = field(default_factory=list)
    problems: List[str] = field(default_factory=list)
    notes: List[str] = field(default_factory=list)
    made: Dict[str, str] = field(default_factory=dict)
    counts: Counter = field(default_factory=Counter)


def plan(told, table: Table, start: Optional[Table] = None, again: bool = False) -> Plan:
    """The steps that bring the edits of a document into a session.

    `told` are the objects of the document. `start` is the session as it was when the document was
    written from it; None where the tool began from what the server has. `again` makes also new
    objects that the session has already.
    """
    return _Planner(list(told), table, start, again).plan()


@dataclass
class _Planner:
    told: List[Told]
    table: Table
    start: Optional[Table]
    again: bool
    found: Plan = field(default_factory=Plan)
    names: Dict[str, str] = field(
        default_factory=dict
    )  # the session's keys by those of the document
    there: Dict[str, str] = field(
        default_factory=dict
    )  # the same of what is new in the document, and not here
    fresh: Set[str] = field(default_factory=set)  # the session's keys of what the document makes
    created: List[str] = field(default_factory=list)  # lines
    places: List[str] = field(default_factory=list)
    lists: List[str] = field(default_factory=list)
    tags: Dict[str, List[str]] = field(default_factory=dict)  # keys by the word `T..` that they get
    gone: List[str] = field(default_factory=list)

    def plan(self) -> Plan:
        edits = [one for one in self.told if one.action or self._went_back(one)]
        self._name([one for one in edits if one.action == 'create'])
        edits = [one for one in edits if self._is_whole(one)]
        for one in edits:
            key = self.names.get(one.thing.key, one.thing.key)
            if one.action == 'create' and not one.mark or self._left_alone(one, key):
                continue
            if key[1] == '-' and not one.mark:
                self._problem('{} is changed there, and not made there', key)
            elif self._is_known(one, key):
                if one.action == 'delete':
                    self._delete(one, key)
                else:
                    self._change(one, key)
        self._create(
            [
                one
                for one in edits
                if one.action == 'create' and not one.mark and one.thing.key not in self.there
            ]
        )
        self._dropped()
        self._others()
        if not self.found.problems:
            self.found.lines = self._steps()
        return self.found

    def _is_whole(self, one: Told) -> bool:
        """Whether the document has each new object to which an object refers: its negative ids mean
        nothing in the session.
        """
        missing = [ref for ref in one.thing.references if ref[1] == '-' and ref not in self.names]
        if missing:
            self._problem(
                '{} refers to {}, which isn\'t in the document',
                self.names.get(one.thing.key, one.thing.key),
                missing[0],
            )
        return not missing

    def _left_alone(self, one: Told, key: str) -> bool:
        """Whether the tool did nothing to an object, or what was done here too; its version is of
        no account then.
        """
        if one.action != 'delete':
            content = self._translated(one.thing).content
            return any(
                side is not None and side.content == content
                for side in (self._began(key), self.table.mine(key))
            )
        return any(
            key in table.things and table.mine(key) is None
            for table in (self.table, self.start)
            if table
        )

    def _went_back(self, one: Told) -> bool:
        """Whether an object that was written as changed or deleted stands there as the server has
        it.
        """
        known = self.start.things.get(one.thing.key) if self.start else None
        return (
            known is not None
            and known.edit in ('changed', 'deleted')
            and known.base.version == one.thing.version
        )

    def _steps(self) -> List[str]:
        tags = ['tag {} {}'.format(','.join(keys), word) for word, keys in self.tags.items()]
        gone = sorted(self.gone, key=lambda key: ('rwn'.index(key[0]), opl.rank(key)))
        return (
            self.created
            + self.places
            + self.lists
            + tags
            + (['delete ' + ','.join(gone)] if gone else [])
        )

    def _problem(self, text, *words):
        self.found.problems.append(printing.line(text.format(*words)))

    # ---- new objects ----

    def _name(self, creates: List[Told]):
        """Gives each new object its key: those of the session their own, those that it has already
        that of their like, others the next ones.
        """
        self.there = {} if self.again else likes(self.told, self.table, self.start)
        self.names.update({one.thing.key: one.mark for one in self.told if one.mark}, **self.there)
        fresh = sorted(
            (
                one.thing.key
                for one in creates
                if one.session_key is None and one.thing.key not in self.there
            ),
            key=lambda key: 'nwr'.index(key[0]),
        )
        for number, key in enumerate(fresh, self.table.next_new):
            self.names[key] = self.found.made[key] = f'{key[0]}-{number}'
        self.fresh.update(self.found.made.values())
        if self.there:
            self.found.notes.append(
                'the session has {} of its new objects already, as {}: not made again, unless by --again'.format(
                    len(self.there), min(self.there.values(), key=opl.rank)
                )
            )

    def _create(self, creates: List[Told]):
        """A line for each new object, nodes first; a relation that refers to a later one gets its
        members when all are made.
        """
        seen, late = set(), []
        for one in sorted(creates, key=lambda one: 'nwr'.index(one.thing.key[0])):
            thing, key = one.thing, self.names.get(one.thing.key)
            if key is None:
                self._problem(
                    '{} is made with an id of a server: what a server did comes in by `download`',
                    thing.key,
                )
                continue
            if not (
                self._fit(key, thing.tags, thing.members)
                and self._may_refer(key, self._named(thing.references))
            ):
                continue
            words = [CREATES[key[0]]] + self._words(
                thing, all(ref in seen or ref not in self.found.made for ref in thing.references)
            )
            seen.add(thing.key)
            self.created.append(' '.join(words))
            if key[0] == 'r' and words[-1] == 'M' and thing.members:
                late.append(f'members {key} M{self._members(thing.members)}')
            self.found.counts['new'] += 1
        self.created += late

    def _words(self, thing: opl.Object, whole: bool) -> List[str]:
        tags = 'T' + opl.tags(thing.tags)
        if thing.key[0] == 'n':
            return ['x' + opl.degrees(thing.lon), 'y' + opl.degrees(thing.lat), tags]
        if thing.key[0] == 'w':
            return [tags, 'N' + ','.join(self._named(thing.nodes))]
        return [tags, 'M' + (self._members(thing.members) if whole else '')]

    def _named(self, keys) -> Tuple[str, ...]:
        return tuple(self.names.get(key, key) for key in keys)

    def _members(self, pairs) -> str:
        return opl.members([(self.names.get(key, key), role) for key, role in pairs])

    def _fit(self, key: str, tags, members=()) -> bool:
        """Whether all texts are ones that the map takes."""
        for text in [*tags, *tags.values(), *(role for _, role in members)]:
            if len(text) > opl.LONGEST:
                self._problem(
                    '{} has a text of {} characters, and the map takes {}: {}..',
                    key,
                    len(text),
                    opl.LONGEST,
                    text[:30],
                )
                return False
        return True

    def _may_refer(self, key: str, references) -> bool:
        """Whether all that an object refers to is there, only referred to, or made by the document."""
        for ref in references:
            if ref not in self.fresh and not self.table.refers(ref):
                self._problem(
                    '{} refers to {}, which {}',
                    key,
                    ref,
                    'is deleted here'
                    if ref in self.table.things
                    else 'the session doesn\'t know: download it',
                )
                return False
        return True

    # ---- objects that are there ----

    def _is_known(self, one: Told, key: str) -> bool:
        """Whether the session has the object, in the version from which the document began; else
        that is a problem.
        """
        known = self.table.things.get(key)
        if key[1] == '-':
            if known is None or known.base is not None:
                self._problem(
                    '{} isn\'t new in this session: the document was written from another one, or before an upload',
                    key,
                )
            return known is not None and known.base is None
        if known is None:
            self._problem(
                '{} {}',
                key,
                'is only referred to here: download it'
                if key in self.table.incomplete
                else 'isn\'t in the session: download it',
            )
        elif known.base.version != one.thing.version:
            self._problem(
                '{} has version {} there, and the session began from version {}',
                key,
                one.thing.version or '(none)',
                known.base.version,
            )
        elif known.conflict != 'none':
            self._problem('{} is in conflict: resolve it first', key)
        else:
            return True
        return False

    def _began(self, key: str) -> Optional[opl.Object]:
        """What the tool began from."""
        if self.start is not None:
            return self.start.mine(key)
        return self.table.mine(key) if key[1] == '-' else self.table.base(key)

    def _delete(self, one: Told, key: str):
        began, mine = self._began(key), self.table.mine(key)
        if began is None or mine is None or began.content != mine.content:
            self._problem('{} is deleted there, and was changed here', key)
            return
        self.gone.append(key)
        self.found.counts['deleted'] += 1

    def _change(self, one: Told, key: str):
        began, mine, thing = self._began(key), self.table.mine(key), self._translated(one.thing)
        if began is None or mine is None:
            self._problem('{} is deleted here, and was changed there', key)
            return
        self._change_tags(key, began.tags, thing.tags, mine.tags)
        self._change_part(
            key, 'place', (began.lon, began.lat), (thing.lon, thing.lat), (mine.lon, mine.lat)
        )
        self._change_part(key, 'nodes', began.nodes, thing.nodes, mine.nodes)
        self._change_part(key, 'members', began.members, thing.members, mine.members)

    def _translated(self, thing: opl.Object) -> opl.Object:
        """The object with the session's keys in the place of the document's."""
        return replace(
            thing,
            nodes=self._named(thing.nodes),
            members=tuple((self.names.get(key, key), role) for key, role in thing.members),
        )

    def _change_tags(self, key: str, began, told, mine):
        changes = {}
        for name in sorted({*began, *told}):
            before, after, here = began.get(name), told.get(name), mine.get(name)
            if after in (before, here):
                continue
            if here != before:
                self._problem(
                    '{}: the tag {} was changed there to {} and here to {}',
                    key,
                    name,
                    _said(after),
                    _said(here),
                )
            elif after == '':
                self._problem('{}: no step gives a tag that is there an empty value: {}', key, name)
            else:
                changes[name] = after or ''
        if changes and self._fit(key, changes):
            self.tags.setdefault('T' + opl.tags(changes), []).append(key)
            self.found.counts['tags'] += 1

    def _change_part(self, key: str, part: str, began, told, mine):
        if told in (began, mine):
            return
        if mine != began:
            self._problem(
                '{}: its {} {} changed there and here',
                key,
                part,
                'was' if part == 'place' else 'were',
            )
            return
        self.found.counts[part] += 1
        if part == 'place':
            self.places.append('place {} x{} y{}'.format(key, *map(opl.degrees, told)))
        elif part == 'nodes' and self._may_refer(key, told):
            self.lists.append('nodes {} N{}'.format(key, ','.join(told)))
        elif (
            part == 'members'
            and self._may_refer(key, [member for member, _ in told])
            and self._fit(key, {}, told)
        ):
            self.lists.append(f'members {key} M{opl.members(told)}')

    # ---- what the document doesn't say ----

    def _dropped(self):
        """New objects of the session that the document was written with, and that aren't in it any
        more, were deleted.
        """
        marked = {one.mark for one in self.told if one.mark}
        if self.start is None:
            known = set(self.names.values())
            missing = [key for key in self.table.new() if key not in known] if marked else []
            if missing:
                self.found.notes.append(
                    '{} new objects of the session aren\'t in it, and stay, as {}'.format(
                        len(missing), missing[0]
                    )
                )
            return
        for key in self.start.new():
            if key not in marked and self.table.mine(key) is not None:
                self._delete(Told(opl.Object(key), 'delete'), key)

    def _others(self):
        """Objects that the document has in another version, and doesn't change."""
        unlike = [
            one.thing.key
            for one in self.told
            if not one.action
            and one.thing.key in self.table.things
            and self.table.things[one.thing.key].base.version != one.thing.version
        ]
        if unlike:
            self.found.notes.append(
                '{} objects that it doesn\'t change are there in another version, as {}'.format(
                    len(unlike), unlike[0]
                )
            )


def _said(value: Optional[str]) -> str:
    return 'nothing' if value is None else f'"{value[:40]}"'
