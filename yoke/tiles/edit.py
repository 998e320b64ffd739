"""One session over an extract: what the units of a script make of the objects that it owns."""
from __future__ import annotations

import os
from collections.abc import Callable, Mapping, Sequence, Set
from dataclasses import dataclass, field

from yoke import groups, opl, saved, words
from yoke.program import Answer, Program
from yoke.scripts import grammar
from yoke.table import Table
from yoke.tiles import script
from yoke.tiles.extracts import Extract
from yoke.tiles.script import Unit
from yoke.trouble import Refused, Trouble
from yoke.verbs import expand

LOOKS_AT_OTHER_MEMBERS = (
    'split',
    'combine',
)  # where a piece goes in a relation depends on the members beside it
CHUNK = 10_000

Owns = Callable[[str], bool]


@dataclass
class Change:
    """One change of an upload: `create`, `modify` or `delete`, the object, and the number of the
    group that it hangs together with.

    `unit` is the place of the unit whose line made a new object, among those of the session.
    """

    verb: str
    thing: opl.Object
    group: int
    unit: int | None = None


@dataclass
class Edited:
    """What came of a session: its changes, the steps that were refused, with the cause, and the
    keys that it left to the seam.

    `sources` has, by the number of a group, the ways that a line named to move or erase their
    nodes, where the group has such.
    """

    changes: list[Change] = field(default_factory=list)
    sources: dict[int, set[str]] = field(default_factory=dict)
    refused: list[tuple[str, str]] = field(default_factory=list)
    left: set[str] = field(default_factory=set)
    objects: int = 0


def run(
    program: Program,
    extract: str,
    units: Sequence[Unit],
    owns: Callable[[Extract], Owns],
    is_whole: bool,
) -> Edited:
    """Edits an extract, a file of OPL. `owns` makes, of what is there, the test which keys the
    session owns: lines over a query are done to those.

    An extract that isn't `is_whole` lacks some members of its relations, and some users of the
    nodes outside of its tile. What an edit would have to know of these is left to the seam.
    """
    first = f'download {opl.escape(os.path.abspath(extract))}'
    there = Extract.read(extract)
    found = Edited(objects=len(there.lines))
    mine = owns(there)
    lines = _lines(program, first, units, there, mine, found, is_whole)
    if not lines:
        return found
    answer = _answer(program, [first, *(line for line, _ in lines), f'upload {CHUNK}'])
    upload = answer.last('upload')
    if upload is None or upload.word != 'ok':
        raise Refused(
            f'{extract}: what the script makes can\'t be sent: {upload.rest if upload else "no upload"}'
        )
    found.refused = [(reply.step, reply.rest) for reply in answer.refused()]
    made = {
        key: lines[reply.line - 2][1]
        for reply in answer.replies[1 : len(lines) + 1]
        for key in reply.made()
    }
    changes = _sent(answer)
    after = _edited(changes, there)
    found.changes = _in_groups(changes, after, made)
    found.sources = _sources(
        lines, there, after, {one.thing.key: one.group for one in found.changes}
    )
    return found


def _answer(program: Program, steps: Sequence[str]) -> Answer:
    """The Answer to steps of which the first is a download; Trouble where that is refused."""
    answer: Answer = program.run(list(steps))
    if answer.replies[0].word != 'ok':
        raise Trouble(
            f'{words.cut(steps[0])} is refused by the program: {words.refusal(answer.replies[0].rest)}'
        )
    return answer


Lines = list[tuple[str, int]]  # each with the place of its unit


def _lines(
    program: Program,
    first: str,
    units: Sequence[Unit],
    there: Extract,
    mine: Owns,
    found: Edited,
    is_whole: bool,
) -> Lines:
    """The lines that the session does; `found.left` gets the keys of those that it leaves to the
    seam.

    A query finds what the lines before it made. So it is asked after the units that are left are
    out, and anew where what it finds has to be left and takes further units with it.
    """
    cut_off = set() if is_whole else _ways_of_relations_with_missing_members(there)
    kept = dict(enumerate(units))
    while True:
        if not is_whole:
            _leave_units(kept, there, mine, cut_off, found)
        lines = _restricted(_written(program, first, kept), units, mine)
        if is_whole:
            return lines
        lines, left = _without_what_needs_more(lines, units, there, mine, cut_off)
        found.left |= left
        if all(left.isdisjoint(unit.keys) for unit in kept.values()):
            return lines


def _leave_units(
    kept: dict[int, Unit], there: Extract, mine: Owns, cut_off: Set[str], found: Edited
) -> None:
    """Takes units out that would have to know more than the extract has, and such as share a key
    with what is left.
    """
    for at, unit in list(kept.items()):
        if any(_needs_more(line, there, mine, cut_off) for line in unit.lines if not unit.is_query):
            found.left |= unit.keys
            del kept[at]
    more = True
    while more:
        more = False
        for at, unit in list(kept.items()):
            if not found.left.isdisjoint(unit.keys):
                found.left |= unit.keys
                del kept[at]
                more = True


def _written(program: Program, first: str, units: Mapping[int, Unit]) -> Lines:
    """The lines as the program takes them; `units` has the units by their places."""
    lines = [line for unit in units.values() for line in unit.lines]
    places = [at for at, unit in units.items() for _ in unit.lines]

    def look(steps: list[str]) -> Answer:
        answer = _answer(program, [first, *steps])
        answer.replies.pop(0)
        for reply in answer.replies:
            reply.line -= 1
        return answer

    written = expand.expand('script', lines, 1, look)
    return [(line, places[number - 1]) for line, number in zip(written.lines, written.numbers)]


def _restricted(lines: Lines, units: Sequence[Unit], mine: Owns) -> Lines:
    """The lines, those over a query with the keys alone that are owned."""
    found = []
    for line, at in lines:
        if units[at].is_query:
            verb, keys, *rest = grammar.words_of(line)
            kept = [key for key in keys.split(',') if mine(key)]
            if not kept:
                continue
            line = ' '.join([verb, ','.join(kept), *rest])
        found.append((line, at))
    return found


# ---- what is left to the seam ----


def _without_what_needs_more(
    lines: Lines, units: Sequence[Unit], there: Extract, mine: Owns, cut_off: Set[str]
) -> tuple[Lines, set[str]]:
    """The lines, those over a query without the keys for which the extract has too little; and
    these keys.
    """
    kept: Lines = []
    left: set[str] = set()
    for line, at in lines:
        bad = _needs_more(line, there, mine, cut_off) if units[at].is_query else set()
        if bad:
            verb, keys, *more = grammar.words_of(line)
            left |= bad
            rest = [key for key in keys.split(',') if key not in bad]
            kept += [(' '.join([verb, ','.join(rest), *more]), at)] if rest else []
        else:
            kept.append((line, at))
    return kept, left


def _needs_more(line: str, there: Extract, mine: Owns, cut_off: Set[str]) -> set[str]:
    """The keys of a line for which the extract has too little; `cut_off` are ways in relations of
    which it lacks members.
    """
    verb, *more = grammar.words_of(line)
    keys = more[0].split(',') if more else []
    if verb == 'erase':
        return {key for key in keys if not _is_inside(there, key, mine)}
    return {key for key in keys if key in cut_off} if verb in LOOKS_AT_OTHER_MEMBERS else set()


def _is_inside(there: Extract, key: str, mine: Owns) -> bool:
    """Whether all that an `erase` of an object may take lies in the tile, so that all users of it
    are known.
    """
    thing = there.get(key)
    if thing is None or key[0] == 'n':
        return True
    if key[0] == 'r':
        return False
    return all(mine(node) for node in thing.nodes)


def _ways_of_relations_with_missing_members(there: Extract) -> set[str]:
    """The ways in relations of which the extract lacks a member."""
    found: set[str] = set()
    for thing in there.relations():
        if any(member not in there.lines for member, _ in thing.members):
            found.update(member for member, _ in thing.members if member[0] == 'w')
    return found


# ---- what came ----


def _sources(
    lines: Lines, there: Extract, after: Table, group_of: Mapping[str, int]
) -> dict[int, set[str]]:
    """The ways by which lines changed nodes that they don't name, by the groups of these nodes."""
    found: dict[int, set[str]] = {}
    for line, _ in lines:
        verb, *more = grammar.words_of(line)
        for way in more[0].split(',') if verb in script.REACHES_NODES else ():
            for side in (there.get(way), after.mine(way)):
                for node in side.nodes if side else ():
                    if node in group_of:
                        found.setdefault(group_of[node], set()).add(way)
    return found


def _sent(answer: Answer) -> list[tuple[str, str]]:
    """The changes of the last `upload`: pairs of a verb and a line of OPL."""
    lines = [line for line in answer.text('upload')[1:] if not line.startswith('chunk ')]
    if len(lines) != answer.upload_size():
        raise Trouble('the session wrote no whole `upload`')
    return [(verb, text) for verb, _, text in (line.partition(' ') for line in lines)]


def _edited(changes: Sequence[tuple[str, str]], there: Extract) -> Table:
    """The edited objects as a saved session has them: what they were, and what they are now."""
    found = {}
    for verb, text in changes:
        key = text.partition(' ')[0]
        lines = [f'known {key} live other none']
        lines += [f'base {there.lines[key]}'] if key in there.lines else []
        lines += [f'mine {text}'] if verb != 'delete' else []
        found[key] = saved.known_of(lines)
    return Table({key: found[key] for key in sorted(found, key=opl.rank)}, set(), 0)


def _in_groups(
    changes: Sequence[tuple[str, str]], after: Table, made: Mapping[str, int]
) -> list[Change]:
    """The changes, each with its group; `made` has the units of new objects."""
    number = {key: at for at, group in enumerate(groups.divide(after)) for key in group}
    things = ((verb, opl.parse(text)) for verb, text in changes)
    return [Change(verb, thing, number[thing.key], made.get(thing.key)) for verb, thing in things]
