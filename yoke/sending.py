"""Sends the edits of a day, so that nothing is lost and nothing is sent twice, wherever it ends.

What is on disk tells where a send stands. `N` is the last session that was kept; `changeset` names
the changeset that is open, and `N.osc`, `N.answer` and `N.answers` stand beside the session
(`yoke/day.py`). Each file is whole and on the disk before the next call goes out, and each answer
is on the disk before anything rests on it:

| row | changeset | N.osc | N.answer | what it means | what the next start does |
|---|---|---|---|---|---|
| 1 | | | | nothing is under way. A changeset may be open at the server that nobody noted: its answer was lost. It is empty, and closes by itself | what is left to send goes into a new changeset |
| 2 | C | | | C was opened, and nothing is on its way | asks whether C is open, and how full it is, and goes on in it; else closes it, and row 1 |
| 3 | C | for C | | the document may be unsent, on its way, refused or taken: nobody knows | looks into C. Has C all of its changes: row 4. Has it none: closes C until the server says that it is closed, and looks again. Has C still none, and counts no more changes than were confirmed, the document was never taken and never will be: it goes, then the note of C, row 1 |
| 4 | C | for C | yes | the document was taken, and this is how | makes `N.answers`, confirms them, and keeps session N + 1: row 2, of N + 1 |

From row to row, in this order, of which each line is one write or one call:

    1 -> 2   PUT changeset/create; write server, the first time; write changeset
    2 -> 3   write N.osc; POST changeset/C/upload
    2 -> 1   the next change would make the bounding box of C too large: PUT changeset/C/close; remove changeset
    3 -> 4   the answer is a diffResult of all changes: write N.answer
    3 -> 2   the answer is a 4xx: the document wasn't taken, C doesn't have it, and where that may be the answer to a second time,
             C counts no more changes than were confirmed: remove N.osc
    3 -> 1   no answer, or a 409 for the changeset: C is looked into and closed as above; remove N.osc; remove changeset
    4 -> 2   write N.answers; write (N+1)-send.saved, by which N.osc is no longer beside the last session
    2 -> 1   C is full, or nothing is left to send: PUT changeset/C/close; remove changeset

Row 3 rests on two things that API 0.6 has: a document is taken whole or not at all, and nothing is
taken into a changeset that is closed. The close is the fence: a document still at work at the
server either ends before it, and then the second look sees it, or finds the changeset closed. So
the same changes never go out again while the first time may still count. The look is at
`changeset/C/download`; where that doesn't come, at the version that one of the changes would have
made. How many changes a changeset counts says the same once more, and where the two don't agree
nothing goes out; nor does anything go into one that counts more than was confirmed.

A server may limit how much goes out: by time (429), by the size of a document, or by the bounding
box of a changeset (both 413). Each is a refusal, by which nothing was taken. The next document is
then smaller: half the changes, or, for the box, those that span half as much. After a document that
was taken the next has twice as many changes again, up to those that were wanted. A 429 waits
besides, and ends the send with `Later` where that takes longer than the command may wait.

A new object has no version that would guard it, so row 3 is where another sender would make it
twice; a change that names a version can't be taken twice at all.
"""
import enum
import json
import pathlib
import re
from dataclasses import dataclass, field
from typing import Callable, Dict, List, Optional, Set, Tuple

from yoke import accounts, api, extent, journal, opl, osc, words
from yoke.api import Account, Limits, Server
from yoke.day import Day, State
from yoke.osc import Change
from yoke.program import Answer
from yoke.session import Session
from yoke.stored import Stored
from yoke.trouble import Clash, NoAnswer, Redacted, Refused, ServerRefused, Trouble

CHUNK = 1000  # changes in a document, unless --chunk names another number
SILENCES = 3  # documents in a row that got no answer and weren't taken, before a send ends
WAITS = (10, 60)  # seconds between them
FENCE_WAITS = (5, 15, 60)  # seconds in which a changeset that is closed may still be at work
CLASHES = (409, 410, 412)  # somebody was faster
Identity = Tuple[State, int, int]  # a kept session, and the file that it is now


def always(chunk: List[Change]) -> bool:
    """Lets each chunk go out."""
    return True


class Outcome(enum.Enum):
    """What became of a document. In each case but TAKEN it is gone from the disk, and what it had
    is still to be sent.
    """

    TAKEN = 1
    SILENT = 2  # no answer came, and it wasn't taken
    AGAIN = 3  # another changeset or a smaller chunk is wanted


@dataclass
class Open:
    """A changeset that is open: its id, its tags, how many changes it has, and the box around them,
    where that is known.
    """

    number: str
    tags: Dict[str, str]
    count: int = 0
    box: Optional[extent.Box] = None
    is_measured: bool = False  # whether `box` is around all of its changes


@dataclass
class Sending:
    """One send: a session, a server, the tags for changesets, and how many changes a chunk may
    have.

    `note` is called with lines of progress. `account` is the name of the account that has to send,
    if any; `max_extent` is how much of the map a changeset may span, in units of 10^-7 degree: its
    box's width plus its height. After `run` `sent` is how many changes were taken, and `used` the
    changesets.
    """

    session: Session
    server: Server
    tags: Dict[str, str]
    size: int = CHUNK
    note: Callable[[str], object] = print
    limits: Optional[Limits] = None
    changeset: Optional[Open] = None
    sent: int = 0
    used: List[str] = field(default_factory=list)
    unusable: int = 0  # changesets in a row that were refused before they had a change
    held: int = 0  # edits that are held back (`yoke/parts.py`), and that count as left
    account: str = ''
    max_extent: Optional[int] = None
    sender: Optional[Account] = None  # who sends, where the server says so
    _small: int = (
        0  # how many changes a chunk may have for now, where the server wanted fewer; else 0
    )
    _attempts: int = 0  # documents in a row to which the server said 429
    _ahead: List[Tuple[str, opl.Object]] = field(
        default_factory=list
    )  # the next changes of the session
    _ahead_of: Optional[Identity] = None  # the session that these are of
    _answered: Optional[
        List[str]
    ] = None  # the lines of the answer to the document that was just taken
    _out: Optional[
        List[Tuple[str, opl.Object]]
    ] = None  # the changes of the document that is out, where it was made here
    _boxes_of: Optional[Tuple[Identity, extent.Boxes]] = None

    @property
    def day(self) -> Day:
        return self.session.day

    @property
    def current(self) -> Open:
        """The changeset that is open; one has to be."""
        assert self.changeset is not None
        return self.changeset

    @property
    def most(self) -> int:
        """How many changes the server takes in a changeset."""
        assert self.limits is not None
        return self.limits.changes

    @property
    def _document(self) -> pathlib.Path:
        """The path of the document that is out."""
        return self.day.path(self.day.beside(self.day.last(), 'osc'))

    def run(self) -> None:
        """Sends until nothing is left; the folder of the day has to be locked.

        Raises Clash, NoAnswer, ServerRefused or Refused; what was taken before that is kept.
        """
        self.begin()
        self.send_all()
        self.close()

    def begin(self) -> None:
        """Asks the server for its limits, and goes on from where the last send ended, to row 1 or
        2.
        """
        check_server(self.day, self.server)
        self.limits = self.server.limits()
        if not self.limits.writable:
            raise NoAnswer(f'{self.server.address} takes no edits at present; send again later')
        self.sender = accounts.check(self.day, self.server, self.account, self.note)
        self._take_up()

    def send_all(self, may_go: Callable[[List[Change]], bool] = always) -> bool:
        """Sends the last session, chunk by chunk, and leaves the changeset open. Answers whether
        nothing is left of it.

        `may_go` is asked of each chunk before it goes out; where it says no, the chunk and all
        after it stay here.
        """
        chunk, silences = self._next_chunk(), 0
        while chunk and may_go(chunk):
            if self.changeset is None:
                self._open()
            outcome = self._deliver(chunk)
            if outcome is Outcome.TAKEN:
                chunk, silences = self._confirm(), 0
                continue
            if outcome is Outcome.SILENT:
                silences += 1
                if silences == SILENCES:
                    raise NoAnswer(
                        'no answer came to {} documents in a row, and none was taken; send again later'.format(
                            silences
                        )
                    )
                api.pause(WAITS[silences - 1])
            chunk = self._next_chunk()
        return not chunk

    # ---- where it stands ----

    def _take_up(self) -> None:
        """Goes on from rows 2, 3 and 4 to row 1 or 2."""
        self.changeset = noted(self.day)
        if self.day.pending():
            if self.changeset is None:
                self.changeset = Open(osc.changeset_of(self._there('osc')), self.tags)
            if self._read('answer') is not None or self._settle():
                self._confirm()
        if self.changeset:
            self.current.count, is_open = self._looked_at()
            confirmed = len(self._earlier())
            if self.current.count > confirmed:
                raise Trouble(
                    "{}; where they are none of this day's, remove {}".format(
                        self._others(self.current.count, confirmed), self.day.path("changeset")
                    )
                )
            if not is_open:
                self._drop()
            elif self.current.tags != self.tags or self.current.count >= self.most:
                self.close()

    def _looked_at(self) -> Tuple[int, bool]:
        """How many changes the changeset has, and whether it is open; one that the server doesn't
        know isn't.
        """
        try:
            return self.server.changeset(self.current.number)
        except ServerRefused as refused:
            if refused.status != 404:
                raise
            return 0, False

    def _read(self, ending: str) -> Optional[str]:
        return self.day.read(self.day.beside(self.day.last(), ending))

    def _there(self, ending: str) -> str:
        """The text of a file of the last session, which has to be there."""
        text = self._read(ending)
        assert text is not None
        return text

    def _write(self, ending: str, text: str) -> None:
        self.day.write(self.day.beside(self.day.last(), ending), text)

    def _remove(self, ending: str) -> None:
        self.day.remove(self.day.beside(self.day.last(), ending))

    # ---- rows 1 and 2 ----

    def room(self) -> int:
        """How many changes the next chunk may have; where the changeset is full the chunk goes into
        another one.
        """
        left = self.most - (self.current.count if self.changeset else 0)
        return min(self.largest(), left) if left > 0 else self.largest()

    def largest(self) -> int:
        """How many changes a chunk may have in a changeset of its own."""
        return min(self._small or self.size, self.most)

    def _next_chunk(self) -> List[Change]:
        """The changes of the next chunk; none where nothing is left."""
        if self._ahead_of != identity(self.day.last()):
            self._look_ahead(self.session.ask([f'upload {self.room()}']))
        return self._within_extent(self._ahead[: self.room()])

    def _look_ahead(self, answer: Answer) -> None:
        """Keeps the next changes of the last session, of an Answer whose last `upload` has them:
        after a refusal they are asked for no second time.
        """
        self._ahead, self._ahead_of = answer.first_chunk(), identity(self.day.last())

    def _boxes(self) -> extent.Boxes:
        """The boxes of changes of the last session."""
        wanted = identity(self.day.last())
        if self._boxes_of is None or self._boxes_of[0] != wanted:
            self._boxes_of = wanted, extent.Boxes(Stored(self.day.last().path))
        return self._boxes_of[1]

    def _within_extent(self, chunk: List[Change]) -> List[Change]:
        """As many changes of a chunk as keep the changeset within the extent. Where not even the
        first does the changeset is closed; a change that spans more by itself goes out alone.
        """
        if self.max_extent is None or not chunk:
            return chunk
        count = 0
        if self.changeset and (self.current.is_measured or not self.current.count):
            count = self._boxes().fitting(chunk, self.current.box, self.max_extent)
        if not count and self.changeset and self.current.count:
            self.note(
                'changeset {}: the next change lies too far away, and goes into another one'.format(
                    self.current.number
                )
            )
            self.close()
        return chunk[: count or self._boxes().fitting(chunk, None, self.max_extent) or 1]

    def _open(self) -> None:
        number = self.server.open_changeset(self.tags)
        note_server(self.day, self.server)
        accounts.note_account(self.day, self.sender)
        self.day.write('changeset', json.dumps({'number': number, 'tags': self.tags}) + '\n')
        self.changeset = Open(number, self.tags)
        journal.note(self.day, changeset=number, tags=self.tags)

    def close(self) -> None:
        """Closes the changeset, if one is open, and forgets it."""
        if self.changeset:
            try:
                self.server.close_changeset(self.current.number)
            except ServerRefused as refused:
                if not words.is_of_another_account(refused.text):
                    raise
            self._drop()

    def _drop(self) -> None:
        self.day.remove('changeset')
        self.changeset = None

    # ---- row 3 ----

    def _deliver(self, chunk: List[Change]) -> Outcome:
        """Sends a chunk; answers with its Outcome. Raises Clash or ServerRefused where the server
        refuses what is in it.
        """
        try:
            document = osc.document(chunk, self.current.number)
        except ValueError as error:
            raise Refused(str(error)) from None
        self._write('osc', document)
        self._out, self._answered = chunk, None
        try:
            text = self.server.upload(self.current.number, document)
            self._answered = osc.answers(chunk, text)
        except ServerRefused as refused:
            return self._refused(refused, chunk)
        except (NoAnswer, osc.NoXml) as silence:
            self.unusable = 0  # the server took no offence at this changeset
            self.note(f'{silence}; the changeset {self.current.number} is looked into')
            return Outcome.TAKEN if self._settle() else Outcome.SILENT
        self._write('answer', text)
        return Outcome.TAKEN

    def _refused(self, refused: ServerRefused, chunk: List[Change]) -> Outcome:
        """What a 4xx means."""
        if refused.status == 409 and not words.is_version_mismatch(refused.text):
            return self._other_changeset(refused)
        if refused.status in CLASHES:
            if (
                self._found()
            ):  # a proxy had sent it twice, and this is the answer to the second time
                return Outcome.TAKEN
            self._hold_to_count()
            self._remove('osc')
            keys = users(refused.text)
            raise Clash(
                str(refused)
                + ('; where it doesn\'t know them: yoke refresh ' + ' '.join(keys) if keys else ''),
                keys,
            ) from None
        if refused.status in (413, 429):
            if self._was_taken():
                return Outcome.TAKEN
            self._remove('osc')
            self._make_smaller(refused, chunk)
            return Outcome.AGAIN
        if refused.status == 400:
            self.day.rename(
                self.day.beside(self.day.last(), 'osc'), self.day.beside(self.day.last(), 'refused')
            )
        else:
            self._remove('osc')
        raise refused

    def _was_taken(self) -> bool:
        """Whether a document was taken although it was refused, since a proxy had sent it twice."""
        count, _ = self.server.changeset(self.current.number)
        if not self._counts(count):
            return False
        if not self._found() and not self._found_hidden():
            raise self._unseen()
        return True

    def _make_smaller(self, refused: ServerRefused, chunk: List[Change]) -> None:
        """Sees to it that the next document is smaller than this chunk, or goes into another
        changeset; of a 429 it waits, too.
        """
        if refused.status == 429:
            self._small = max(1, len(chunk) // 2)
            self.server.hold_off(refused, self._attempts)
            self._attempts += 1
            return
        self.note(f'{refused}')
        if self.current.count:
            self.close()
        elif len(chunk) == 1:
            verb, one = chunk[0]
            raise ServerRefused(
                '{}; {} {} is one change, and too large by itself: make it smaller, or take it back'.format(
                    refused, verb, one.key
                ),
                refused.status,
                refused.text,
            )
        elif words.is_too_wide(refused.text):
            self._span_less(chunk)
        else:
            self.size = len(chunk) // 2  # for good: the server's limit of a document doesn't change

    def _span_less(self, chunk: List[Change]) -> None:
        """Lets changesets span half as much as this chunk; where its changes have no place the next
        chunk has half of them.
        """
        box = self._boxes().of_all(chunk)
        if box is None or not box.extent:
            self._small = len(chunk) // 2
        else:
            self.max_extent = box.extent // 2
            self.note(
                'from here on a changeset spans {} degrees at most'.format(
                    extent.degrees(self.max_extent)
                )
            )

    def _other_changeset(self, refused: ServerRefused) -> Outcome:
        """A 409 for the changeset itself: it is closed, or somebody works in it. A second new one
        in a row is another fault.
        """
        self.unusable = 0 if self.current.count else self.unusable + 1
        self.note(f'{refused}')
        if words.is_of_another_account(refused.text):
            self._remove('osc')
            self._drop()
        elif self._settle():
            return Outcome.TAKEN
        if self.unusable > 1:
            raise refused
        return Outcome.AGAIN

    def _settle(self) -> bool:
        """Whether the document that is out was taken. If not it never will be: its changeset is
        closed, and both are gone here.

        NoAnswer where that can't be told yet.
        """
        if self._look() is True:
            return True
        counted, found = self._fence(), self._look()
        if found or counted and self._found_hidden():
            return True
        if counted:
            raise self._unseen()
        self._remove('osc')
        self._drop()
        return False

    def _look(self) -> Optional[bool]:
        """Whether the document that is out is found; None where no answer tells."""
        try:
            return self._found()
        except (NoAnswer, ServerRefused) as silence:
            self.note(f'{silence}')
            return None

    def _fence(self) -> bool:
        """Closes the changeset until it is closed; answers whether it counts the changes of the
        document that is out.

        A close may be refused while a document is at work in it: NoAnswer where that takes too
        long. Trouble where it counts changes that are neither this day's nor those that are out.
        """
        number, waits = self.current.number, list(FENCE_WAITS)
        while True:
            self.server.close_changeset(number)
            count, is_open = self.server.changeset(number)
            if not is_open:
                break
            if not waits:
                raise NoAnswer(f'the changeset {number} is still at work at the server')
            self.note(f'the changeset {number} is still at work; asked again in {waits[0]} s')
            api.pause(waits.pop(0))
        return self._counts(count)

    def _counts(self, count: int) -> bool:
        """Whether so many changes in the changeset are with those of the document that is out.
        Trouble where they are others.
        """
        confirmed, out = len(self._earlier()), len(self._sent())
        if count not in (confirmed, confirmed + out):
            raise self._others(count, confirmed)
        return count == confirmed + out

    def _hold_to_count(self) -> None:
        """NoAnswer where the changeset counts the changes of the document that is out, though it
        was refused and isn't found.
        """
        count, _ = self.server.changeset(self.current.number)
        if self._counts(count):
            raise self._unseen()

    def _unseen(self) -> NoAnswer:
        return NoAnswer(
            'the changeset {} counts the changes of {}, and doesn\'t show them yet'.format(
                self.current.number, self._document
            )
        )

    def _others(self, count: int, confirmed: int) -> Trouble:
        return Trouble(
            'the changeset {} has {} changes, and {} were confirmed: look what they are before anything is sent again'.format(
                self.current.number, count, confirmed
            )
        )

    def _sent(self) -> List[Change]:
        """The changes of the document that is out."""
        return osc.changes(self._there('osc'))

    def _found(self) -> bool:
        """Looks whether the server has the document that is out; keeps what says so as the answer."""
        sent = self._sent()
        try:
            text = self.server.download(self.current.number)
        except (NoAnswer, ServerRefused) as silence:
            return self._found_by_version(sent, silence)
        try:
            osc.looked_up(sent, text, self._given())
        except osc.NotThere:
            return False
        except osc.NoXml as fault:
            return self._found_by_version(
                sent,
                NoAnswer(f'the changeset {self.current.number} can\'t be read: {fault}'),
            )
        except ValueError as fault:
            if self._counts(self.server.changeset(self.current.number)[0]) and self._found_hidden():
                return True
            raise Trouble(
                'the changeset {} isn\'t what API 0.6 makes of {}: {}'.format(
                    self.current.number, self._document, fault
                )
            ) from None
        self._write('answer', text)
        return True

    def _found_hidden(self) -> bool:
        """Whether the document that is out was taken, and the changeset doesn't show some of it
        since these versions were redacted; keeps what says so as the answer. A new object's id is
        nowhere else, so one that is hidden isn't found.
        """
        sent, lines = self._sent(), []
        try:
            found = osc.matched(sent, self.server.download(self.current.number), self._given())
        except (NoAnswer, ServerRefused, osc.NoXml) as silence:
            self.note(f'{silence}')
            return False
        for (verb, one), line in zip(sent, found):
            if line is None and not self._is_hidden(verb, one):
                return False
            lines.append(line or f'{verb} {one.key} v{one.version + 1}')
        self._write('answer', osc.result_of(lines))
        return True

    def _is_hidden(self, verb: str, one: opl.Object) -> bool:
        """Whether the server has the version that a change made, and shows it to nobody."""
        if verb == 'create':
            return False
        try:
            self.server.version(one.key, one.version + 1)
        except Redacted:
            return True
        return False

    def _found_by_version(self, sent: List[Change], silence: Trouble) -> bool:
        """The same where the changeset itself can't be looked into, by the version that a change or
        deletion made.

        The silence is raised where there is neither, or where new objects were taken, whose ids the
        changeset alone tells.
        """
        one = next((thing for verb, thing in sent if verb != 'create'), None)
        if one is None:
            raise silence
        made = self.server.version(one.key, one.version + 1)
        if made is None or str(made.changeset) != self.current.number:
            return False
        if any(verb == 'create' for verb, _ in sent):
            raise silence
        self._write('answer', osc.result(sent))
        return True

    def _given(self) -> Set[str]:
        """The keys that this changeset gave to new objects before: they answer nothing of what is
        out.
        """
        return {line.split(' ')[2] for line in self._earlier() if line.startswith('create ')}

    def _earlier(self) -> List[str]:
        """The lines of all answers that were confirmed before, of documents in the changeset that
        is open.
        """
        lines = []
        for path in sorted(self.day.folder.glob('*.answers')):
            document = self.day.read(path.name.replace('.answers', '.osc'))
            if (
                path.name != self.day.beside(self.day.last(), 'answers')
                and document
                and osc.changeset_of(document) == self.current.number
            ):
                lines += path.read_text(encoding='utf-8').splitlines()
        return lines

    # ---- row 4 ----

    def _confirm(self) -> List[Change]:
        """Takes the answer in, keeps the session after it, and answers with the next chunk."""
        lines = self._lines_of_answer()
        self._write('answers', ''.join(line + '\n' for line in lines))
        self._measure()
        self.current.count += len(lines)
        self._grow()
        answer = self.session.confirm(self.day.beside(self.day.last(), 'answers'), self.room())
        self._look_ahead(answer)
        self.sent, self.unusable = self.sent + len(lines), 0
        if self.current.number not in self.used:
            self.used.append(self.current.number)
        self.note(
            'changeset {}: {} changes taken, {} left'.format(
                self.current.number, len(lines), answer.upload_size() + self.held
            )
        )
        if self.current.count >= self.most:
            self.close()
        return self._next_chunk()

    def _lines_of_answer(self) -> List[str]:
        """The lines by which `confirm` takes the answer in: as it was just read, else from the
        disk.
        """
        lines, self._answered = self._answered, None
        if lines is not None:
            return lines
        sent, text = self._sent(), self._there('answer')
        try:
            return (
                osc.answers(sent, text)
                if '<diffResult' in text
                else osc.looked_up(sent, text, self._given())
            )
        except ValueError as fault:
            raise Trouble(
                '{} doesn\'t answer {}: {}'.format(
                    self.day.path(self.day.beside(self.day.last(), 'answer')), self._document, fault
                )
            ) from None

    def _measure(self) -> None:
        """Lets the box of the changeset be around the changes that were taken, where it was around
        all before them.
        """
        assert self.changeset is not None
        knows = (
            self.max_extent is not None
            and self._out is not None
            and (self.current.is_measured or not self.current.count)
        )
        if knows:
            self.current.box = extent.joined(
                self.current.box, self._boxes().of_all(self._out or [])
            )
        self.current.is_measured, self._out = knows, None

    def _grow(self) -> None:
        """Lets the next chunk have twice as many changes, up to as many as were wanted."""
        self._attempts = 0
        self._small = 0 if self._small * 2 >= self.size else self._small * 2


def identity(state: State) -> Identity:
    """What tells a session from one that is kept under its name later."""
    found = state.path.stat()
    return state, found.st_ino, found.st_mtime_ns


def noted(day: Day) -> Optional[Open]:
    """The changeset that a day has open; None where there is none."""
    text = day.read('changeset')
    return Open(**json.loads(text)) if text else None


def users(text: str) -> List[str]:
    """The keys of the users that a 412 names, the first twenty: the session may not know them."""
    found = re.search('used (?:by|in) (way|relation)s? ([0-9, ]+)', text)
    return (
        [f'{found[1][0]}{number}' for number in re.findall('[0-9]+', found[2])[:20]]
        if found
        else []
    )


def check_server(day: Day, server: Server) -> None:
    """Trouble where a day is of another server."""
    before = (day.read('server') or '').strip()
    if before and before != server.address:
        raise Trouble(
            'this day is of the server {}, and its ids mean nothing to another: start another --day for {}'.format(
                before, server.address
            )
        )


def note_server(day: Day, server: Server) -> None:
    """Notes the server that a day is of from now on."""
    if not day.read('server'):
        day.write('server', server.address + '\n')
