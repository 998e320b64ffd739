"""Choices that last: a tag that `yoke resolve` left as somebody else has it isn't set again unseen.

A choice is of an object and a tag, and says what was given up for what. It holds as long as the
object's tag is what was chosen, and ends when that changes again. It is kept in the day's ledger
and in those that the day shares (`yoke/ledger.py`), so a later day knows it too.
"""
from __future__ import annotations

from dataclasses import dataclass
from typing import Iterable, Iterator, Mapping, Sequence

from yoke import ledger, opl
from yoke.day import Day
from yoke.formats.suspicions import Accepted, Suspicion
from yoke.ledger import Book, Desk, Entry
from yoke.saved import Known
from yoke.scripts import grammar
from yoke.scripts.names import Expanded
from yoke.sides import plain

CODE = 'choice'  # of `--accept`


@dataclass(frozen=True)
class Choice:
    """A tag of an object that was edited to `mine`, and left as `theirs`; empty texts stand for no
    tag.
    """

    key: str
    version: int
    tag: str
    mine: str
    theirs: str

    @property
    def name(self) -> str:
        """What `--accept` takes."""
        return f'{CODE}:{self.key}'


def made(
    before: Mapping[str, Known], now: Mapping[str, Known], keys: Iterable[str]
) -> list[Choice]:
    """The choices in which conflicts of objects were resolved for the version of somebody else."""
    found = []
    for key in keys:
        was, known = before.get(key), now.get(key)
        if (
            was is None
            or known is None
            or was.theirs is None
            or was.theirs.deleted
            or was.mine is None
            or known.mine is None
        ):
            continue
        base = was.there.tags if was.there else {}
        for tag in sorted({*was.mine.tags, *was.theirs.tags, *base}):
            mine, theirs, chosen = (
                side.tags.get(tag, '') for side in (was.mine, was.theirs, known.mine)
            )
            if mine != base.get(tag, '') and mine != theirs and chosen == theirs:
                found.append(Choice(key, was.theirs.version, tag, mine, theirs))
    return found


def keep(day: Day, choices: Iterable[Choice], who: str) -> None:
    """Keeps choices in the ledger of a day; its folder has to be locked."""
    entries = [
        Entry(
            'choice',
            ledger.now(),
            who,
            row=one.version,
            id=one.tag,
            keys=(one.key,),
            server=(day.read('server') or '').strip(),
            mine=one.mine,
            theirs=one.theirs,
        )
        for one in choices
    ]
    if entries:
        Desk(day, who).choose(entries)


def of_day(day: Day) -> list[Choice]:
    """The choices that a day and the ledgers that it shares know."""
    desk = Desk(day)
    books = [ledger.look(desk.path), *map(ledger.look, desk.shared())]
    book = Book(
        entry
        for one in books
        for entry in one.choices.values()
        if not desk.server or entry.server in ('', desk.server)
    )
    return [
        Choice(key, entry.row, tag, entry.mine, entry.theirs)
        for (key, tag), entry in book.choices.items()
    ]


class Choices:
    """The choices that hold over a session, by object, and what was left as it is because of them."""

    def __init__(
        self,
        found: Iterable[Choice],
        known: Mapping[str, Known],
        accepted: Accepted | None = None,
    ):
        self.by_key: dict[str, dict[str, Choice]] = {}
        self.left: list[Choice] = []
        for one in found:
            thing = known[one.key].mine if one.key in known else None
            is_taken = accepted is not None and accepted.takes(Suspicion(CODE, one.key, ''))
            if thing is not None and thing.tags.get(one.tag, '') == one.theirs and not is_taken:
                self.by_key.setdefault(one.key, {})[one.tag] = one

    def without(self, key: str, tags: Mapping[str, str]) -> dict[str, str]:
        """Tags that may be set on an object: all but those that would undo a choice."""
        chosen = self.by_key.get(key, {})
        kept = {}
        for tag, value in tags.items():
            one = chosen.get(tag)
            if one is None or value == one.theirs:
                kept[tag] = value
            else:
                self.left.append(one)
        return kept

    def spare(self, script: Expanded) -> Expanded:
        """A script without what would undo a choice: its `tag` lines, each in parts where some of
        its objects have one.
        """
        if not self.by_key:
            return script
        done = Expanded([], [], script.names, {}, {}, list(script.notes))
        for at, (line, number) in enumerate(zip(script.lines, script.numbers)):
            count = len(self.left)
            lines = list(self._spared(line))
            for one in self.left[count:]:
                done.notes.append((number, told(one)))
            for text in lines:
                if at in script.rows:
                    done.rows[len(done.lines)] = script.rows[at]
                if at in script.problems:
                    done.problems[len(done.lines)] = script.problems[at]
                done.lines.append(text)
                done.numbers.append(number)
        return done

    def _spared(self, line: str) -> Iterator[str]:
        """The lines in place of one."""
        words = [] if grammar.is_skipped(line) else grammar.words_of(line)
        keys = (
            words[1].split(',')
            if len(words) == 3 and words[0] == 'tag' and words[2].startswith('T')
            else []
        )
        if not any(key in self.by_key for key in keys):
            yield line
            return
        tags = opl.parse('n1 ' + words[2]).tags
        by_tags: dict[tuple[tuple[str, str], ...], list[str]] = {}
        for key in keys:
            by_tags.setdefault(tuple(self.without(key, tags).items()), []).append(key)
        for pairs, some in by_tags.items():
            if pairs:
                yield 'tag {} T{}'.format(','.join(some), opl.tags(dict(pairs)))


def told(one: Choice) -> str:
    """What to say of a tag that is left as it is."""

    def shown(text: str) -> str:
        return plain(text) if text else 'unset'

    return (
        f'{one.key}: {plain(one.tag)} stays {shown(one.theirs)}, which you chose over {shown(one.mine)} at version {one.version}; '
        f'--accept {one.name} sets it all the same'
    )


def lines_of(found: Sequence[Choice], most: int = 10) -> Iterator[str]:
    """The first of some tags that are left as they are, as lines."""
    for one in found[:most]:
        yield told(one)
    if len(found) > most:
        yield f'{len(found) - most} more tags stay as you chose; --accept {CODE} sets them all the same'
