"""`yoke revert N`: takes changesets back, as edits of a working folder of its own."""
from __future__ import annotations

import argparse
from collections.abc import Iterable

from yoke import api, results, sides
from yoke.day import UNREVERTED, Day
from yoke.program import Program
from yoke.progress import note
from yoke.revert import history, perform, plan
from yoke.sending import note_server
from yoke.trouble import Clash, Refused, Usage
from yoke.verbs import conflicts, start

SUMMARY = 'take changesets back: begin a folder in which their objects are as they were before'
DETAILS = """Nothing is sent. An object that nobody changed since is as it was before. Of one that others changed, only what the
changesets changed goes back; where both changed the same part there is a conflict. A deleted object comes back under its
own id. Several changesets are taken back together, as one.

Then look: yoke diff, yoke review, yoke conflicts. And send: yoke send. Ends with 4 where something is in conflict, or
can't go back."""
REST = 'revert-rest.script'  # a file of the day: the lines of a second upload
SHOWN = 20  # lines of each list, before the rest is counted


def add_arguments(parser: argparse.ArgumentParser) -> None:
    api.add_arguments(parser)
    parser.add_argument(
        'changesets',
        metavar='N',
        nargs='+',
        help='the number of a changeset; several are taken back as one',
    )
    parser.add_argument(
        '--users',
        metavar='N',
        type=int,
        default=plan.USERS_ASKED,
        help='ask of so many of their new objects who uses them by now (%(default)s)',
    )


def run(arguments: argparse.Namespace) -> int:
    numbers = list(dict.fromkeys(arguments.changesets))
    for number in numbers:
        if not (number.isascii() and number.isdigit()):
            raise Usage(f'a changeset is a number, such as 12345, and not {number!r}')
    if arguments.users < 0:
        raise Usage('--users wants a number of objects, 0 or more')
    server, program, day = api.server_of(arguments, note), Program.of(arguments), Day(arguments.day)
    if not day.states():
        start.check_folder(day)
    with day.locked(make=True):
        _clear(day)
        start.check_folder(day)
        done = history.read(server, numbers, note)
        if not done.objects and not done.left_out:
            raise Refused(
                f'changeset {", ".join(numbers)}: it has no changes, so there is nothing to take back'
            )
        planned = plan.make(server, done, arguments.users)
        reverted = perform.perform(program, planned)
        day.keep(UNREVERTED, reverted.before)
        note_server(day, server)
        rest = _write_rest(day, planned)
        day.keep('revert', reverted.after)  # the last write: without it nothing was taken back
    return show(numbers, done, planned, perform.outcome(done, planned, reverted.after), rest)


def _clear(day: Day) -> None:
    """Removes what a revert left that was stopped before its last write, unless something was done
    there since.
    """
    begun = [state.path.name for state in day.states() if state.verb == UNREVERTED]
    left = (
        'server',
        REST,
        REST + '.new',
        *begun,
    )  # the session last: until it is gone the next one knows what this is
    if begun and {path.name for path in day.folder.iterdir()} <= {'lock', *left}:
        for name in left:
            day.remove(name)


def _write_rest(day: Day, planned: plan.Plan) -> str:
    """Writes the lines of a second upload, if there are any: the path of the script, else an empty
    text.
    """
    if not planned.rest:
        return ''
    day.write(REST, ''.join(line + '\n' for line in planned.rest))
    return str(day.path(REST))


def show(
    numbers: list[str], done: history.History, planned: plan.Plan, found: perform.Outcome, rest: str
) -> int:
    """Says what was taken back, and what to do next; the exit code."""
    results.put(
        objects=len(done.objects) + len(done.left_out),
        counts=dict(found.counts),
        left_out=planned.left_out,
        edited=found.edited,
        joined=[known.key for known in found.joined],
        conflicts=[],
        rest=rest or None,
    )
    for text in planned.notes:
        note(sides.plain(text))
    counts = ', '.join(f'{count} {name}' for name, count in sorted(found.counts.items()) if count)
    name = 'changeset' if len(numbers) == 1 else 'changesets'
    print(
        f'{name} {", ".join(numbers)}: {len(done.objects) + len(done.left_out)} objects: {counts}'
    )
    for what, count in sorted(planned.counts.items()):
        print(f'{count} {what}')
    _listed(
        f'joined {sides.title(known.shown)}: others changed other parts since; what goes back: '
        + '; '.join(sides.change(known.there, known.mine))
        for known in found.joined
    )
    _listed(f'left out {sides.plain(problem)}' for problem in planned.left_out.values())
    for known in found.conflicts[:SHOWN]:
        conflicts.show(known)
    if len(found.conflicts) > SHOWN:
        print(f'... {len(found.conflicts) - SHOWN} more: yoke conflicts')
    if rest:
        print(f'after the send: yoke do {rest}, and send again: it closes the rings of relations')
    print(
        f'{found.edited} edited, {len(found.conflicts)} in conflict; next: yoke diff, yoke review, '
        f'yoke send -m "reverts {" ".join(numbers)}: why"'
    )
    return Clash.code if found.conflicts or planned.left_out else 0


def _listed(lines: Iterable[str]) -> None:
    """Prints the first lines of a list, and how many more there are."""
    found = list(lines)
    for line in found[:SHOWN]:
        print(line)
    if len(found) > SHOWN:
        print(f'... {len(found) - SHOWN} more')
