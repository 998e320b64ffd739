"""Two people share a ledger: whatever their batches, in whatever order, with imports that are taken
back and processes that are stopped, each row comes to the server once.
"""
import contextlib
import os
import pathlib
import tempfile
import unittest
from typing import Dict, List, Tuple
from unittest import mock

from yoke import ledger
from yoke.day import Day
from yoke.ledger import Book, Desk, Entry, Identity
from yoke.tests.support import MEMORY

try:
    from hypothesis import given, settings, strategies as st
except ImportError:  # Debian: apt-get install python3-hypothesis
    raise unittest.SkipTest(
        'hypothesis isn\'t there (Debian: apt-get install python3-hypothesis)'
    ) from None

ROWS = 8
BATCH = st.tuples(st.integers(1, ROWS), st.integers(1, ROWS)).map(
    lambda ends: (min(ends), max(ends))
)
PEOPLE = st.sampled_from(['anna', 'beat'])
STEP = st.one_of(
    st.tuples(st.just('import'), PEOPLE, BATCH),
    st.tuples(st.just('stopped before it is kept'), PEOPLE, BATCH),
    st.tuples(st.just('stopped after it is kept'), PEOPLE, BATCH),
    st.tuples(st.just('stopped while it writes'), PEOPLE, BATCH),
    st.tuples(st.just('undo'), PEOPLE),
    st.tuples(st.just('send'), PEOPLE),
    st.tuples(st.just('edit'), PEOPLE),
)


def identity(row: int) -> Identity:
    return Identity('a.csv', 'f00d', row, '', f'digest {row}')


class Stopped(Exception):
    """A process ends here."""


class Person:
    """A day without the program: the rows that each kept session has, and what was sent of them."""

    def __init__(self, name: str, folder: pathlib.Path, server: List[int]):
        self.name, self.day, self.server, self.team = (
            name,
            Day(folder / name),
            server,
            str(folder / 'team.csv'),
        )
        self.next, self.sessions = 1, [
            {}
        ]  # the rows by their keys, of each session that undo can go back to
        with self.day.locked(make=True):
            self.day.keep('start', '')

    @contextlib.contextmanager
    def desk(self):
        with self.day.locked():
            desk = Desk(self.day, self.name)
            desk.share([self.team])
            desk.settle()
            yield desk

    def take(self, batch: Tuple[int, int], how: str = 'import') -> None:
        with self.desk() as desk:
            with desk.held() as book:
                rows = [
                    row for row in range(batch[0], batch[1] + 1) if book.find(identity(row)) is None
                ]
                keys = {f'n-{self.next + at}': row for at, row in enumerate(rows)}
                if not rows:
                    return
                found = [(identity(row), (key,), ()) for key, row in keys.items()]
                if how == 'stopped while it writes':
                    self.cut(desk, found)
                    return
                claim = desk.claim(self.day.next_name('import'), found)
            if how == 'stopped before it is kept':
                return
            self.day.keep('import', '')
            self.next += len(keys)
            self.sessions.append({**self.sessions[-1], **keys})
            if how == 'import':
                desk.keep(claim)

    def cut(self, desk: Desk, found) -> None:
        """A claim whose process is stopped while it writes: the lines of the shared ledger end
        somewhere.
        """
        size = os.path.getsize(self.team)
        desk.claim(self.day.next_name('import'), found)
        with open(self.team, 'r+b') as file:
            file.truncate((size + os.path.getsize(self.team)) // 2)

    def edit(self) -> None:
        with self.day.locked():
            self.day.keep('do', '')
            self.sessions.append(dict(self.sessions[-1]))

    def undo(self) -> None:
        with self.day.locked():
            if len(self.sessions) > 1:
                self.day.take_back()
                self.sessions.pop()
                ledger.settle(self.day)

    def send(self) -> None:
        with self.day.locked():
            keys = self.sessions[-1]
            if not keys:
                return
            last = self.day.last()
            self.day.write(
                self.day.beside(last, 'osc'),
                f'<osmChange><node changeset="{len(self.server) + 1}"/></osmChange>',
            )
            self.day.write(
                self.day.beside(last, 'answers'),
                ''.join(
                    f'create {key} n{len(self.server) + at} v1\n' for at, key in enumerate(keys, 1)
                ),
            )
            self.server += keys.values()
            self.day.keep('send', '')
            self.sessions = [{}]
            ledger.settle(self.day)


class Batches(unittest.TestCase):
    def setUp(self) -> None:
        patch = mock.patch('os.fsync', lambda handle: None)
        patch.start()
        self.addCleanup(patch.stop)

    @settings(max_examples=120, deadline=None)
    @given(st.lists(STEP, max_size=12))
    def test_each_row_comes_once(self, steps) -> None:
        with tempfile.TemporaryDirectory(prefix='yoke-test-', dir=MEMORY) as name, mock.patch(
            'yoke.ledger.note'
        ):
            server: List[int] = []
            people: Dict[str, Person] = {
                one: Person(one, pathlib.Path(name), server) for one in ('anna', 'beat')
            }
            for what, who, *more in steps:
                person = people[who]
                if what == 'undo':
                    person.undo()
                elif what == 'send':
                    person.send()
                elif what == 'edit':
                    person.edit()
                else:
                    person.take(more[0], what)
                self.assertEqual(len(server), len(set(server)), 'a row was sent twice')
            for person in people.values():
                with person.desk():
                    pass
            for person in people.values():
                person.take((1, ROWS))
                person.send()
            self.assertEqual(list(range(1, ROWS + 1)), sorted(server))
            book = ledger.look(pathlib.Path(name, 'team.csv'))
            self.assertEqual(
                [('sent', row) for row in range(1, ROWS + 1)],
                sorted((entry.event, entry.row) for entry in book.live()),
            )
            self.assertEqual([], book.doubles())

    @settings(max_examples=200, deadline=None)
    @given(
        st.lists(
            st.tuples(
                st.sampled_from(['taken', 'sent', 'returned']),
                st.sampled_from('ab'),
                st.integers(1, 3),
            ),
            max_size=8,
        ),
        st.randoms(),
    )
    def test_the_order_of_lines_says_nothing(self, lines, picks) -> None:
        entries = [Entry(event, 'now', claim, claim, 'd', 'f', row) for event, claim, row in lines]
        mixed = list(entries)
        picks.shuffle(mixed)
        one, other = Book(entries), Book(mixed + mixed)
        self.assertEqual(
            {(entry.event, entry.place) for entry in one.live()},
            {(entry.event, entry.place) for entry in other.live()},
        )
        for row in (1, 2, 3):
            found = [book.find(Identity('d', 'f', row, '', '')) for book in (one, other)]
            self.assertEqual(*[entry and (entry.event, entry.place) for entry in found])


if __name__ == '__main__':
    unittest.main()
