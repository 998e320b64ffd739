"""What has to be done so that the changesets' objects are as they were before.

The program's own merge is the three-way merge. Of each object the session's base is what the
changesets left, the edit is what was there before, and what came since is downloaded over that. So
an object that nobody touched since is as it was; of one that others changed, only what the
changesets changed goes back; and where both changed the same part, there is a conflict for the
mapper to settle.

A deleted object comes back under its own id. It begins as it was before, with a mark as its edit.
The deletion, downloaded over it, is then a conflict that is resolved for mine; the mark goes, and
an upload makes the next version of the object.
"""
from __future__ import annotations

from collections import Counter
from dataclasses import dataclass, field, replace
from typing import Iterable

from yoke import opl
from yoke.api import Server
from yoke.formats.osm_xml import Told
from yoke.revert.history import History, ObjectHistory, living

USERS_ASKED = 500  # new objects of the changesets of which the server is asked who uses them by now: two calls each
ROUNDS = 6  # how deep deleted references are followed: a node in a way in a relation in relations


@dataclass
class Plan:
    """The files and edits of a revert.

    `base` are the objects with which the session begins, `edits` what is done over them, `restored`
    the keys that come back from a deletion, `news` what is downloaded over the edits. `rest` are
    lines for a second upload, by which relations that came back get the members that would make a
    ring of new references. `left_out` says why an object can't go back.
    """

    base: dict[str, opl.Object] = field(default_factory=dict)
    edits: list[Told] = field(default_factory=list)
    restored: set[str] = field(default_factory=set)
    news: dict[str, opl.Object] = field(default_factory=dict)
    left_out: dict[str, str] = field(default_factory=dict)
    rest: list[str] = field(default_factory=list)
    counts: Counter[str] = field(default_factory=Counter)
    notes: list[str] = field(default_factory=list)


def make(server: Server, history: History, users_asked: int = USERS_ASKED) -> Plan:
    """The plan by which changesets are taken back."""
    plan = Plan(left_out=dict(history.left_out), notes=list(history.notes))
    around = _around(server, history)
    for one in history.objects.values():
        _add(plan, one)
    for key, thing in around.there.items():
        plan.base.setdefault(key, thing)
    for key, (was, now) in around.gone.items():
        _restore(plan, was, now)
        plan.counts['deleted by others since, and needed'] += 1
    _leave_out_what_lacks_a_reference(plan, history)
    _leave_what_is_needed(plan, history)
    _break_rings(plan)
    _add_users(server, plan, history, users_asked)
    return plan


@dataclass
class _Around:
    """Objects to which those of the changesets refer: those that are there, and those that others
    deleted since and that have to come back, as they were and as they are now.
    """

    there: dict[str, opl.Object] = field(default_factory=dict)
    gone: dict[str, tuple[opl.Object, opl.Object]] = field(default_factory=dict)


def _around(server: Server, history: History) -> _Around:
    """What the objects of the changesets refer to, and what that refers to where it has to come
    back.
    """
    around, asked = _Around(), set(history.objects)
    sides = [
        side
        for one in history.objects.values()
        for side in (one.was, one.left, living(one.now))
        if side
    ]
    needed = {ref for one in history.objects.values() if one.was for ref in one.was.references}
    wanted = {ref for side in sides for ref in side.references} - asked
    for _ in range(ROUNDS):
        if not wanted:
            break
        asked |= wanted
        deleted = {}
        for thing in server.things(sorted(wanted, key=opl.rank), lambda key: None):
            if not thing.deleted:
                around.there[thing.key] = thing
            elif thing.key in needed and thing.version > 1:
                deleted[thing.key] = thing
        found, _hidden = server.versions(
            [(key, thing.version - 1) for key, thing in deleted.items()]
        )
        came = {thing.key: (thing, deleted[thing.key]) for thing in found if not thing.deleted}
        around.gone.update(came)
        wanted = {ref for was, _now in came.values() for ref in was.references} - asked
        needed |= wanted
    return around


def _add(plan: Plan, one: ObjectHistory) -> None:
    """What has to be done to one object of the changesets."""
    assert one.now is not None
    if one.left is None and one.was is None:
        plan.counts['made and deleted in them'] += 1
    elif one.left is None:
        assert one.was is not None
        if one.now.deleted and not one.has_changed_since:
            _restore(plan, one.was, one.now)
        elif one.now.deleted:
            plan.counts['deleted again by others since'] += 1
            _restore(plan, one.was, one.now)
        else:
            plan.counts['deleted in them, and there again already'] += 1
            plan.base[one.key] = one.now
    else:
        plan.base[one.key] = one.left
        if one.was is None:
            plan.edits.append(Told(opl.Object(one.key, one.last, True), 'delete'))
        else:
            plan.edits.append(Told(with_version(one.was, one.last), 'modify'))
        if one.has_changed_since:
            plan.news[one.key] = one.now


def _restore(plan: Plan, was: opl.Object, now: opl.Object) -> None:
    """Has a deleted object come back."""
    plan.base[was.key] = was
    plan.news[was.key] = now
    plan.restored.add(was.key)


def with_version(thing: opl.Object, version: int) -> opl.Object:
    """The object with another version."""
    return replace(thing, version=version)


def with_members(thing: opl.Object, members: Iterable[tuple[str, str]]) -> opl.Object:
    """The relation with other members."""
    return replace(thing, members=tuple(members))


# ---- what can't go back ----


def _leave_out_what_lacks_a_reference(plan: Plan, history: History) -> None:
    """Leaves out what would refer to an object that is deleted and can't come back, and what refers
    to that in turn.
    """
    modified = {edit.thing.key: edit.thing for edit in plan.edits if edit.action == 'modify'}
    while True:
        lacking = {}
        for key in [*plan.restored, *modified]:
            thing = plan.base[key] if key in plan.restored else modified[key]
            missing = next(
                (
                    ref
                    for ref in thing.references
                    if ref not in modified and not _will_be_there(plan, ref)
                ),
                None,
            )
            if missing is not None:
                lacking[
                    key
                ] = f'{key}: it would refer to {missing}, which is deleted and can\'t come back'
        if not lacking:
            return
        plan.left_out.update(lacking)
        for key in lacking:
            modified.pop(key, None)
            if key in plan.restored:
                plan.restored.discard(key)
                del plan.base[key]
                del plan.news[key]
        plan.edits = [edit for edit in plan.edits if edit.thing.key not in lacking]


def _leave_what_is_needed(plan: Plan, history: History) -> None:
    """Leaves the objects that the changesets made and that others need: objects that come back, as
    a way whose node somebody else deleted between two of the changesets, and objects of others that
    are looked at here.
    """
    users = {
        key: plan.base[key]
        for key in plan.base
        if key in plan.restored or key not in history.objects
    }
    users.update((edit.thing.key, edit.thing) for edit in plan.edits if edit.action == 'modify')
    needed = {ref: key for key, thing in users.items() for ref in thing.references}
    while True:
        stays = [
            edit.thing.key
            for edit in plan.edits
            if edit.action == 'delete' and edit.thing.key in needed
        ]
        if not stays:
            return
        plan.left_out.update(
            (key, f'{key}: it stays, because {needed[key]} uses it') for key in stays
        )
        plan.edits = [
            edit for edit in plan.edits if edit.action != 'delete' or edit.thing.key not in needed
        ]
        needed.update((ref, key) for key in stays for ref in plan.base[key].references)


def _will_be_there(plan: Plan, key: str) -> bool:
    """Whether an object stands at the server now, or comes back by this revert. (One that is edited
    here and that others deleted since is a conflict of its own.)
    """
    if key in plan.restored:
        return True
    now = plan.news.get(key)
    return key in plan.base and (now is None or not now.deleted)


# ---- rings ----


def _break_rings(plan: Plan) -> None:
    """Takes references out of deleted relations that refer to each other in a ring, and gives them
    back by a second upload.

    A server takes changes one by one, and none of such relations can be the first: each refers to
    one that is still deleted.
    """
    graph = {
        key: [ref for ref in plan.base[key].references if ref in plan.restored and ref[0] == 'r']
        for key in plan.restored
        if key[0] == 'r'
    }
    ring_of = _rings(graph)
    for key in sorted(graph, key=opl.rank):
        later = {
            ref
            for ref in graph[key]
            if ring_of[ref] == ring_of[key] and opl.rank(ref) >= opl.rank(key)
        }
        if later:
            whole = plan.base[key]
            plan.base[key] = with_members(
                whole, [pair for pair in whole.members if pair[0] not in later]
            )
            plan.rest.append(f'members {key} M{opl.members(whole.members, opl.escape)}')
            plan.counts['relations in a ring, whole after a second upload'] += 1


def _rings(graph: dict[str, list[str]]) -> dict[str, int]:
    """A number for each key, the same for keys that reach each other (strongly connected
    components, by Tarjan, without recursion).
    """
    number: dict[str, int] = {}
    low: dict[str, int] = {}
    component: dict[str, int] = {}
    stack: list[str] = []
    for root in graph:
        if root in number:
            continue
        work = [(root, iter(graph[root]))]
        number[root] = low[root] = len(number)
        stack.append(root)
        while work:
            key, refs = work[-1]
            ref = next(refs, None)
            if ref is None:
                work.pop()
                if work:
                    low[work[-1][0]] = min(low[work[-1][0]], low[key])
                if low[key] == number[key]:
                    while True:
                        top = stack.pop()
                        component[top] = number[key]
                        if top == key:
                            break
            elif ref not in number:
                number[ref] = low[ref] = len(number)
                stack.append(ref)
                work.append((ref, iter(graph[ref])))
            elif ref not in component:
                low[key] = min(low[key], number[ref])
    return component


# ---- who uses what was made ----


def _add_users(server: Server, plan: Plan, history: History, most: int) -> None:
    """Adds the objects that use by now what the changesets made: a deletion would be refused for
    each.
    """
    made = sorted(
        (
            one.key
            for one in history.objects.values()
            if one.left and not one.was and living(one.now)
        ),
        key=opl.rank,
    )
    if len(made) > most:
        plan.notes.append(
            f'{len(made)} of their objects were new: the server is asked for {most} of them who uses them by now, '
            f'and says so of the others when they are sent (--users)'
        )
    for key in made[:most]:
        for user in server.users(key):
            if user.key not in plan.base:
                plan.news.setdefault(user.key, user)
