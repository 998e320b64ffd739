"""The library: a working folder, its edits and its server, by calls instead of commands.

    from yoke import Day, connect

    day = Day('night')
    day.start('town.opl')
    day.run(['tag ( way and Thighway=residential ) Tsurface=asphalt'])
    day.send(connect('http://127.0.0.1:8062'), 'Surfaces of residential streets', source='survey')

`yoke` has these names, and they stay: `yoke.__all__` lists them. The verbs of the command line call
the same functions, so a folder may be used by both, by turns. Nothing here prints or asks; `note`
of a Day gets the lines of progress.

What goes wrong is raised as a `Trouble`, and its `code` is the exit code that the command would
have. After `NoAnswer` and `Later` the same call again goes on from what is on the disk. Edits are
whole or not at all: where a call raises, the folder has the session that it had before, except that
what a send got taken stays taken.
"""
from __future__ import annotations

import argparse
import os
import pathlib
from collections.abc import Callable, Iterable, Mapping, Sequence
from dataclasses import dataclass
from typing import Any

from yoke import journal, osc, parts, saved, sending, stored
from yoke.api import Server
from yoke.day import Day as Folder, State
from yoke.formats import columns as columns_of
from yoke.fresh import Candidate
from yoke.opl import Object
from yoke.parts import Parts, Wanted
from yoke.program import Program
from yoke.progress import silent
from yoke.saved import Known
from yoke.sending import Sending
from yoke.session import Session
from yoke.trouble import Refused, Usage
from yoke.verbs import conflicts, diff, do, import_, refresh, resolve, send, start, tag, undo
from yoke.verbs.do import Done
from yoke.verbs.import_ import Imported
from yoke.verbs.refresh import News
from yoke.verbs.send import Sent
from yoke.verbs.start import Started

Path = str | os.PathLike[str]


@dataclass(frozen=True)
class Planned:
    """What a send would do: pairs of `create`, `modify` or `delete` and an object, in the order of
    the upload, and the keys of the edits that it would leave, by the cause. Of a deletion the
    object has key and version alone.
    """

    changes: list[tuple[str, Object]]
    left: dict[str, list[str]]

    def document(self, changeset: str = '0') -> str:
        """The changes as an osmChange document for a changeset; ValueError where XML can't carry a
        text.
        """
        return osc.document(self.changes, changeset)


@dataclass(frozen=True)
class Status:
    """Where a folder stands: its last session; numbers by name, such as `nodes`, `changed` and
    `conflicts`; the address of its server; the changeset that is open; and the name of the document
    of which it isn't known whether the server took it.
    """

    session: State
    counts: dict[str, int]
    server: str | None
    changeset: str | None
    pending: str | None


class Day:
    """A working folder. A call that edits holds the folder while it runs; Busy where another
    process has it.

    `program` is the path of the program editor, else $YOKE_EDITOR, else `yokeorange` on the path.
    `max_objects` is how many objects a session may hold, 0 for as many as the program holds by
    itself. `note` is called with lines of progress.
    """

    def __init__(
        self,
        folder: Path,
        program: str | Program | None = None,
        max_objects: int = 0,
        note: Callable[[str], object] = silent,
    ) -> None:
        found = program if isinstance(program, Program) else Program.named(program, max_objects)
        self._session, self._note = Session(Folder(pathlib.Path(folder)), found), note

    @property
    def folder(self) -> pathlib.Path:
        """The path of the folder."""
        return self._session.day.folder

    @property
    def session(self) -> State:
        """The last session that was kept; Trouble where there is none yet."""
        return self._session.day.last()

    # ---- begin ----

    def start(self, *extracts: Path, as_it_is: bool = False, after: Path | None = None) -> Started:
        """Begins from extracts, the older first: OPL, or what osmium reads. The folder is made; it
        has to be empty.

        Refused where an extract looks cut off, or has fewer objects than before, unless it is taken
        `as_it_is`. `after` is the folder of an earlier day: what was imported there isn't made
        again.
        """
        return start.begin(
            self._session.day,
            self._session.program,
            [os.fspath(one) for one in extracts],
            as_it_is,
            None if after is None else os.fspath(after),
            self._note,
        )

    # ---- edit ----

    def run(
        self,
        lines: Iterable[str],
        *,
        name: str = 'script',
        keep: bool = False,
        strict: bool = False,
        accept: Sequence[str] = (),
    ) -> Done:
        """Runs the lines of a script, as `yoke do`; messages call it by its `name`.

        Refused where a step is, and then nothing is kept; `details` of it has a line for each. With
        `keep` the other steps are kept, and `Done.refused` has those that weren't. `strict` ends at
        the first refused step. BadLine where a line is none. `accept` has names of what looks wrong
        and is meant, as `same-value:name`.
        """
        done = do.over(
            self._session,
            name,
            list(lines),
            keep=keep,
            strict=strict,
            accept=accept,
            note=self._note,
            tell=self._note,
        )
        if done.refused and not keep:
            raise Refused(
                do.why_nothing(done.answer, strict),
                [do.refusal(name, reply) for reply in done.refused],
            )
        return done

    def run_file(
        self, path: Path, *, keep: bool = False, strict: bool = False, accept: Sequence[str] = ()
    ) -> Done:
        """Runs the script in a file, as `run`."""
        return self.run(
            do.read(os.fspath(path)), name=os.fspath(path), keep=keep, strict=strict, accept=accept
        )

    def tag(
        self,
        tags: Mapping[str, str],
        *,
        find: str | None = None,
        keys: Sequence[str] | None = None,
        accept: Sequence[str] = (),
    ) -> list[str]:
        """Sets tags of all objects that a query finds, or of these; an empty value takes a tag
        away. Answers with their keys.

        Usage unless one of `find` and `keys` is given. Nothing is kept where a query finds nothing.
        """
        if (find is None) == (keys is None):
            raise Usage('tag wants a query or keys, one of them')
        wanted = tag.pairs([f'{key}={value}' for key, value in tags.items()])
        with self._session.day.locked():
            found, lines = tag.steps(self._session, wanted, keys, find, accept, self._note)
            if lines:
                self._session.edit('tag', lines)
        return found

    def import_file(
        self,
        path: Path,
        *,
        columns: Sequence[str] | None = None,
        rules: Path | None = None,
        within: str | None = None,
        accept: Sequence[str] = (),
        ledger: Sequence[Path] = (),
        who: str | None = None,
        **options: Any,
    ) -> Imported:
        """Makes new objects of the features of a GeoJSON or CSV file, as `yoke import`; those
        imported before are left out.

        `columns` are the properties that become tags, or `rules` the file of rules by which they
        do. `within` is a box `W,S,E,N` in degrees. `ledger` are ledgers that a team shares, and
        `who` your name in them. `options` are the other options of the verb, with `_` for `-`, such
        as `latitude_first=True`. Refused where something looks wrong, with `details`, or where no
        feature is taken; Usage where an option is none.
        """
        words = import_words(
            os.fspath(path),
            {
                'columns': None if columns is None else list(columns),
                'tags': None if rules is None else os.fspath(rules),
                'within': within,
                'accept': list(accept),
                'ledger': [os.fspath(one) for one in ledger] or None,
                'who': who,
                **options,
            },
        )
        return import_.into(self._session, words, self._note, columns_of.never_asked)

    def undo(self) -> State:
        """Takes the last call that edited back; answers with the session that is the last again.
        Refused where it was sent.
        """
        return undo.take_back(self._session.day)[1]

    # ---- look ----

    def status(self) -> Status:
        """Where the folder stands."""
        day, changeset = self._session.day, sending.noted(self._session.day)
        return Status(
            day.last(),
            self._session.ask(['count']).counts(),
            (day.read('server') or '').strip() or None,
            changeset.number if changeset else None,
            day.pending(),
        )

    def edits(self) -> list[Known]:
        """The objects that are new, changed or deleted, each with what it was and what it is."""
        return diff.edited(self._known())

    def conflicts(self) -> list[Known]:
        """The objects in conflict, each with its three sides."""
        return conflicts.of_session(self._known())

    def get(self, key: str) -> Known | None:
        """An object by its key, as `n1`; None where the session doesn't have it. It reads no more
        of the folder than it needs.
        """
        with stored.opened(self.session.path) as session:
            return session.get(key)

    def find(self, query: str) -> list[str]:
        """The keys of what is there and meets a query (docs/SCRIPTS.md)."""
        return tag.found(self._session, query)

    def plan(
        self, *, only: Sequence[str] = (), at_most: int | None = None, skip_conflicts: bool = False
    ) -> Planned:
        """What `send` with the same words would send, and what it would leave. No server is asked."""
        answer, left = parts.preview(self._session, 10000, wanted_of(only, at_most, skip_conflicts))
        return Planned(answer.changes(), left)

    def log(self) -> list[dict[str, Any]]:
        """What happened in the folder: each changeset that was opened, and how each send ended,
        with its time `at` in UTC.
        """
        return journal.read(self._session.day)

    # ---- others, and the server ----

    def refresh(self, server: Server, keys: Sequence[str] = ()) -> News:
        """Asks the server for what the edits rest on, and for these objects, and merges it.
        `News.left` has the conflicts.

        NoAnswer, ServerRefused or Later where the server doesn't give it; Trouble where it is
        another server than that of the folder.
        """
        refresh.check_keys(keys)
        with self._session.day.locked():
            return refresh.bring(self._session, server, keys, self._note)

    def resolve(self, keys: Sequence[str] | None, how: str, *words: str) -> list[str]:
        """Ends the conflict of these objects, or of all where it is None, by `mine`, `theirs`,
        `mix` or `parts` with its words.

        Answers with the keys. A tag that becomes theirs is remembered: no table or script sets it
        again unseen.
        """
        return resolve.settle(self._session, keys, resolve.words(how, words), lambda known: None)[1]

    def candidates(
        self,
        server: Server,
        *,
        only: Sequence[str] = (),
        at_most: int | None = None,
        skip_conflicts: bool = False,
    ) -> list[Candidate]:
        """What stands at the server where new objects are to go, and may be the same things. `send`
        refuses while there are any.
        """
        return send.look(
            self._session, server, wanted_of(only, at_most, skip_conflicts), self._note
        ).candidates

    def send(
        self,
        server: Server,
        comment: str,
        *,
        source: str | None = None,
        tags: Mapping[str, str] | None = None,
        bot: bool = False,
        imports: bool = False,
        review: bool = False,
        account: str = '',
        only: Sequence[str] = (),
        at_most: int | None = None,
        skip_conflicts: bool = False,
        refresh_too: bool = False,
        unseen: bool = False,
        chunk: int = sending.CHUNK,
        max_extent: str | None = None,
    ) -> Sent:
        """Sends the edits, each once, wherever an earlier send ended (docs/PROTOCOL.md).

        `comment`, `source` and `tags` are of the changeset; `bot`, `imports` and `review` mark it.
        With the token of another account than `account` nothing goes out. `only`, `at_most` and
        `skip_conflicts` send a part: edits that hang together go together. `refresh_too` refreshes
        and goes on where somebody was faster. `unseen` sends new objects although something stands
        there already. `chunk` is how many changes a document has at most, and `max_extent` how many
        degrees a changeset may span, width plus height.

        Clash where somebody was faster: refresh, resolve, send. NoAnswer where no answer came: send
        again. Later where the server asks to wait for longer than its `patience`. ServerRefused
        where it refuses for another reason.
        """
        send.check_sizes(chunk, at_most)
        marks = [
            key
            for is_set, key in ((bot, 'bot'), (imports, 'import'), (review, 'review_requested'))
            if is_set
        ]
        named = send.changeset_tags(
            comment, source, marks, [f'{key}={value}' for key, value in (tags or {}).items()]
        )
        if not server.token:
            raise Usage('a token of your account is wanted')
        one = Sending(
            self._session,
            server,
            named,
            chunk,
            self._note,
            account=account,
            max_extent=None if max_extent is None else extent_of(max_extent),
        )
        part = Parts(one, wanted_of(only, at_most, skip_conflicts), self._note)
        return send.deliver(part, refresh_too or skip_conflicts, unseen, lambda news: None)

    def _known(self) -> dict[str, Known]:
        return saved.read(self.session.text())


def wanted_of(only: Sequence[str], at_most: int | None, skip_conflicts: bool) -> Wanted:
    """Which edits a send is to take; Usage where the number is none."""
    send.check_sizes(1, at_most)
    return Wanted(tuple(only), at_most, skip_conflicts)


def extent_of(text: str) -> int:
    """Degrees as units of 10^-7 degree; Usage where the text is none."""
    try:
        return send.degrees(text)
    except argparse.ArgumentTypeError as error:
        raise Usage(f'max_extent {error}') from None


def import_words(path: str, given: Mapping[str, Any]) -> argparse.Namespace:
    """The words of `yoke import` with these options, and its defaults for the others; Usage where
    one is none.
    """
    parser = argparse.ArgumentParser()
    import_.add_arguments(parser)
    words = parser.parse_args(['--', path])
    for name, value in given.items():
        if not hasattr(words, name):
            raise Usage(f'import has no option {name}')
        setattr(words, name, value)
    return words
