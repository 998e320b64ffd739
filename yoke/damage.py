"""A saved session that is broken: where, and what to do about it.

A verb reads only what it needs of a session, and takes it to be as `editor` wrote it. What a file
does to a verb that was cut off, or that something else wrote into, may so be anything. `found` lets
`editor` take the files up, which tests each line.
"""
from __future__ import annotations

import pathlib
from typing import Iterator

from yoke import opl, words
from yoke.day import Day
from yoke.program import Program, Reply
from yoke.trouble import Refused, Trouble

NO_LINE = 30  # what `resume` says of a bad line
REFUSALS = (
    20,
    NO_LINE,
    31,
)  # with those of a file that can't be read, and of an object that no session can have


class Broken(Trouble):
    """A saved session isn't as `editor` wrote it."""


def found(day: Day, program: Program) -> Broken | None:
    """What is wrong with the sessions of a day that verbs read; None where nothing is."""
    for path in _paths(day):
        reply = program.run(['resume ' + opl.escape(str(path.absolute()))]).replies[0]
        broken = of_reply(day, path, reply)
        if broken is not None:
            return broken
    return None


def _paths(day: Day) -> Iterator[pathlib.Path]:
    states, held = day.states(), day.held()
    for state in reversed(states):
        if state is states[-1] or held is not None and state.number == held.of:
            yield state.path
    yield from sorted(day.folder.glob('josm-*.start'))


def of_reply(day: Day, path: pathlib.Path, reply: Reply) -> Broken | None:
    """What the reply to a `resume` of a file says is wrong with it; None where it says nothing of
    the kind.
    """
    if reply.word != 'refused' or reply.number not in REFUSALS:
        return None
    why = words.refusal(reply.rest).partition(': ')[0]
    if reply.number == NO_LINE:
        line = int(reply.rest.split(' ')[1])
        why = f'line {line} is none of a saved session: {words.cut(_line(path, line))}'
    return Broken(f'{path} is broken: {why}; {_way_out(day, path)}')


def _line(path: pathlib.Path, number: int) -> str:
    """A line of a file, from 1; of a file that ends before it what stands there instead."""
    with open(path, encoding='utf-8', errors='replace') as file:
        for at, text in enumerate(file, 1):
            if at == number:
                return text.rstrip('\n') or '(an empty line)'
    return '(the end of the file)'


def _way_out(day: Day, path: pathlib.Path) -> str:
    states = day.states()
    if not states or path != states[-1].path:
        return 'put a copy of it there that is whole'
    try:
        day.check_back()
    except Refused:
        return 'put a copy of it there that is whole, or begin another day by yoke start, and run your scripts again'
    return f'yoke undo goes back to session {states[-2].number} by {states[-2].verb}; then do the rest again'
