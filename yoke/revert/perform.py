"""Does what a plan says, by the program, and tells what became of each object."""
from __future__ import annotations

import pathlib
import tempfile
from collections import Counter
from dataclasses import dataclass, field
from typing import Iterable

from yoke import opl, saved, table, words
from yoke.formats import foreign
from yoke.program import Answer, Program
from yoke.revert.history import History
from yoke.revert.plan import Plan
from yoke.trouble import Refused

MARK = 'yoke:revert'  # a tag of deleted objects while they come back; nothing of it is left in the session


@dataclass
class Reverted:
    """The saved sessions before and after a revert."""

    before: str
    after: str


@dataclass
class Outcome:
    """What became of the objects: counts by name, those that were joined with what others did, and
    the conflicts.
    """

    counts: Counter[str] = field(default_factory=Counter)
    joined: list[saved.Known] = field(default_factory=list)
    conflicts: list[saved.Known] = field(default_factory=list)
    edited: int = 0


def perform(program: Program, plan: Plan) -> Reverted:
    """The saved sessions before and after; Refused where the program refuses a step.
    `plan.left_out` gets what can't be done.
    """
    with tempfile.TemporaryDirectory(prefix='yoke-') as folder:
        base, news = (pathlib.Path(folder, name) for name in ('base.opl', 'news.opl'))
        _write(base, plan.base.values())
        _write(news, plan.news.values())
        begun = _run(program, [_download(base), 'save'])
        before = begun.saved()
        steps = _steps(plan, table.read(before))
        marked = ','.join(sorted(plan.restored, key=opl.rank))
        lines = [_download(base), 'begin']
        lines += [f'tag {marked} T{opl.quote(MARK)}=yes'] if marked else []
        lines += [*steps, 'end']
        lines += [_download(news)] if plan.news else []
        if marked:
            lines += [
                'begin',
                *(f'resolve {key} mine' for key in sorted(plan.restored, key=opl.rank)),
                f'tag {marked} T{opl.quote(MARK)}=',
                'end',
            ]
        return Reverted(before, _run(program, [*lines, 'save']).saved())


def _steps(plan: Plan, there: table.Table) -> list[str]:
    """The lines of the edits; what can't be done is left out by itself, with all that rests on it,
    and named.
    """
    edits = plan.edits
    while True:
        found = foreign.plan(edits, there, again=True)
        if not found.problems:
            return found.lines
        problems = {problem.split(' ')[0].rstrip(':'): problem for problem in found.problems}
        kept = [edit for edit in edits if edit.thing.key not in problems]
        if len(kept) == len(edits):
            raise Refused(found.problems[0])
        plan.left_out.update(problems)
        edits = kept


def _download(path: pathlib.Path) -> str:
    return f'download {opl.escape(str(path))}'


def _write(path: pathlib.Path, things: Iterable[opl.Object]) -> None:
    lines = (
        opl.line(thing) + '\n' for thing in sorted(things, key=lambda thing: opl.rank(thing.key))
    )
    path.write_text(''.join(lines), encoding='utf-8')


def _run(program: Program, lines: list[str]) -> Answer:
    answer = program.run(lines)
    for reply in answer.refused():
        raise Refused(f'{words.refusal(reply.rest)}: {words.cut(reply.step)}')
    return answer


def outcome(history: History, plan: Plan, after: str) -> Outcome:
    """What became of the objects of the changesets in the session after a revert."""
    things, found = saved.read(after), Outcome()
    for key, one in history.objects.items():
        known = things.get(key)
        name = 'left out' if key in plan.left_out else _became(known, one.was)
        found.counts[name] += 1
        if name == 'joined' and known is not None:
            found.joined.append(known)
    found.counts['left out'] += len(plan.left_out.keys() - history.objects.keys())
    found.conflicts = [known for known in things.values() if known.conflict != 'none']
    found.edited = sum(known.edit is not None for known in things.values())
    return found


def _became(known: saved.Known | None, was: opl.Object | None) -> str:
    """What became of one object, in a word or two."""
    if known is None:
        return 'nothing to do'
    if known.conflict != 'none':
        return 'in conflict'
    if known.edit is None:
        return 'nothing to do'
    if known.mine is None:
        return 'as before' if was is None else 'joined'
    return 'as before' if was is not None and known.mine.content == was.content else 'joined'
