"""Sends a part of the edits of a day, and holds the others back; nothing is lost or sent twice
wherever it ends.

The program refuses an upload while anything is in conflict, and the order of an upload is fixed.
So a part goes out as a session of its own: the groups (`yoke/groups.py`) that are to wait are
taken back in a copy of the session, the copy is sent and confirmed, and then they are taken up
again.

`N` is the session that has all edits. `held` is a file of the day: it names N, and the keys of the
edits that are held back. **What `held` names is as session N has it, and no server has it. All
else is as the last session has it.**

| row | held | last session | what it means | what the next start does |
|---|---|---|---|---|
| A | | any | nothing is held back | |
| B | of N | N | nothing of the part is there yet | removes `held`: row A |
| C | of N | `part` or `send`, after N | a part is being sent, as the rows of `sending.py` tell | settles what is out, takes the held edits up again |
| D | of N | `whole`, after N | all edits are in the last session | removes `held`: row A |

From row to row, each line one write:

    A -> B   write held
    B -> C   write (N+1)-part.saved: session N without the held edits
    C -> C   all of the part was confirmed, and another part is next: write M-part.saved, with the
             edits of that part taken up; write held, without them
    C -> D   write M-whole.saved: the last session, with the held edits as session N has them
    C -> B   nothing of the part was taken: remove (N+1)-part.saved
    D, B -> A   remove held

A group goes out from a session that `held` no longer names it for. Where a stop comes between the
two writes of `C -> C`, `held` still names edits that the last session has too: both have them
alike, since nothing of them was sent. A send ends in row A in all cases but two. The program was
stopped, or nobody knows what the server took of a document: then it is row C, all other verbs that
edit say so, and the next `yoke send` goes on.
"""
import os
import re
import tempfile
from dataclasses import dataclass, field
from decimal import Decimal, InvalidOperation
from typing import Any, Callable, Dict, FrozenSet, Iterable, List, Optional, Sequence, Set, Tuple

from yoke import extent, fresh, groups, opl, table
from yoke.api import Server
from yoke.day import PART, WHOLE, Day, Held
from yoke.groups import Group
from yoke.program import Answer, BadLine
from yoke.sending import Sending
from yoke.session import Session, raise_refused
from yoke.table import Table
from yoke.trouble import Refused, Trouble, Usage

Change = Tuple[str, opl.Object]  # a verb and an object, as `upload` writes them


# ---- which edits ----


@dataclass(frozen=True)
class Wanted:
    """Which edits a send is to take: those that `only` names, at most so many changes, conflicts
    or not.

    Each word of `only` is keys with commas between them, a box `WEST,SOUTH,EAST,NORTH` in degrees,
    or a query. Groups are taken whole: an edit comes with those that it hangs together with.
    `reviewed` tells how the edits of a session were reviewed: then only groups go out of which all
    is accepted.
    """

    only: Tuple[str, ...] = ()
    at_most: Optional[int] = None
    skip_conflicts: bool = False
    reviewed: Optional[Callable[[Session, Table], 'Reviewed']] = None

    @property
    def is_all(self) -> bool:
        """Whether nothing is left out."""
        return (
            not self.only
            and self.at_most is None
            and not self.skip_conflicts
            and self.reviewed is None
        )


@dataclass(frozen=True)
class Reviewed:
    """How the edits of a session were reviewed: the keys of those that are accepted as they are,
    and of those on which nobody decided.
    """

    accepted: FrozenSet[str]
    undecided: FrozenSet[str]


@dataclass
class Chosen:
    """The groups that are to be sent, and the keys of the edits that are left, by the cause."""

    groups: List[Group] = field(default_factory=list)
    left: Dict[str, List[str]] = field(default_factory=dict)

    def leave(self, why: str, group: Group) -> None:
        """Leaves a group."""
        self.left.setdefault(why, []).extend(group)


NOT_NAMED = 'not named by --only'
IN_CONFLICT = 'in conflict, or hanging together with what is'
TOO_MANY = 'beyond --at-most'
NOT_ACCEPTED = (
    'not accepted as they are, or hanging together with what is not (yoke review --write)'
)


Size = Callable[[Group], int]


def choose(
    found: Table,
    wanted: Wanted,
    named: Optional[Set[str]],
    sent: int = 0,
    review: Optional[Reviewed] = None,
) -> Chosen:
    """The groups of a session that a send is to take; `named` has what `only` names, `sent` is how
    many changes went out before, `review` how they were reviewed, if that counts.

    Refused where nothing went out, and none of the groups that could go has so few changes as
    `at_most` allows; or where one of them isn't reviewed.
    """
    size, chosen, count, smallest = size_in(found), Chosen(), sent, 0
    divided = groups.divide(found)
    if review is not None:
        check_reviewed([one for one in divided if named is None or named & set(one)], review)
    for group in divided if wanted.at_most is None else groups.by_place(found, divided):
        if named is not None and named.isdisjoint(group):
            chosen.leave(NOT_NAMED, group)
        elif wanted.skip_conflicts and any(found.things[key].conflict != 'none' for key in group):
            chosen.leave(IN_CONFLICT, group)
        elif review is not None and not review.accepted.issuperset(group):
            chosen.leave(NOT_ACCEPTED, group)
        elif wanted.at_most is not None and count + size(group) > wanted.at_most:
            smallest = min(smallest or size(group), size(group))
            chosen.leave(TOO_MANY, group)
        else:
            chosen.groups.append(group)
            count += size(group)
    if smallest and not chosen.groups and not sent:
        raise Refused(
            f'nothing is sent: the smallest group of edits that hang together has {smallest} '
            f'changes, and --at-most is {wanted.at_most}'
        )
    return chosen


def check_reviewed(wanted: List[Group], review: Reviewed) -> None:
    """Refused where somebody has to decide on one of these edits yet."""
    keys = [key for group in wanted for key in group if key in review.undecided]
    if keys:
        many = f'{len(keys)} edits are' if len(keys) > 1 else '1 edit is'
        raise Refused(
            f'nothing is sent: {many} not reviewed, the first is {keys[0]}: yoke review goes on'
        )


def size_in(found: Table) -> Size:
    """How many changes a group has."""
    return lambda group: sum(found.things[key].edit is not None for key in group)


def named_by(session: Session, found: Table, only: Sequence[str]) -> Optional[Set[str]]:
    """The keys of edits that the words of `--only` name; None where there is no such word.

    Usage where a word is neither keys nor a box nor a query.
    """
    if not only:
        return None
    edited = groups.edits(found)
    named: Set[str] = set()
    for word in only:
        box = box_of(word)
        if all(opl.KEY.fullmatch(key) for key in word.split(',')):
            named.update(word.split(','))
        elif box is not None:
            named.update(key for key in edited if is_in(found, key, box))
        else:
            named.update(_found(session, word))
    return named & set(edited)


def _found(session: Session, query: str) -> List[str]:
    """The keys that a query finds; Usage where it is none."""
    try:
        if '\n' in query:
            raise BadLine('', 1)
        keys: List[str] = session.ask([f'find ( changed or conflict ) and ( {query} )']).found()
        return keys
    except BadLine:
        raise Usage(
            f'--only wants keys, WEST,SOUTH,EAST,NORTH or a query, and not {query}'
        ) from None


Box = Tuple[Decimal, Decimal, Decimal, Decimal]  # west, south, east, north, in degrees


def box_of(word: str) -> Optional[Box]:
    """The box that a word is, as `13.1,52.1,13.2,52.2`; None where it is something else. Usage
    where it is an empty one.
    """
    if not re.fullmatch(r'(-?[0-9]+(\.[0-9]*)?,){3}-?[0-9]+(\.[0-9]*)?', word):
        return None
    try:
        west, south, east, north = map(Decimal, word.split(','))
    except InvalidOperation:
        return None
    if not (-180 <= west <= east <= 180 and -90 <= south <= north <= 90):
        raise Usage(f'a box is WEST,SOUTH,EAST,NORTH in degrees, and not {word}')
    return west, south, east, north


def is_in(found: Table, key: str, box: Box, depth: int = 2) -> bool:
    """Whether an object lies in a box with any of its places, before or after the edits; also by
    its nodes and members.
    """
    known = found.things.get(key)
    for side in (known.mine, known.there) if known else ():
        if side is None:
            continue
        if side.lon is not None:
            lon, lat = opl.place(side)
            if box[0] <= lon <= box[2] and box[1] <= lat <= box[3]:
                return True
        if depth and any(is_in(found, one, box, depth - 1) for one in side.references):
            return True
    return False


# ---- sending them ----


@dataclass
class Parts:
    """A send of chosen edits, group by group.

    After `run` `left` has the keys of the edits that stay here, by the cause.
    """

    sending: Sending
    wanted: Wanted
    note: Callable[[str], Any]
    left: Dict[str, List[str]] = field(default_factory=dict)
    _told: Set[str] = field(default_factory=set)  # first keys of groups that are too large
    _anyway: Set[Group] = field(default_factory=set)  # groups that go out in several documents
    _most: int = 0  # how many changes the next batch may have, where one came out smaller; else 0

    @property
    def session(self) -> Session:
        """The session of the day."""
        return self.sending.session

    @property
    def day(self) -> Day:
        """The day."""
        return self.session.day

    def run(self) -> None:
        """Sends until nothing is left of what is wanted; the folder of the day has to be locked.

        Raises what `Sending.run` raises; what was taken before that is kept, and what was held
        back is taken up again, unless it isn't known what the server took of a document.
        """
        self.sending.begin()
        finish(self.session)
        try:
            self._send()
            finish(self.session)
        except (Trouble, KeyboardInterrupt):
            self.sending.held = 0
            if not self.day.pending():
                finish(self.session)
            raise
        self.sending.held = 0
        self.sending.close()

    def _send(self) -> None:
        self.left = {}
        if self.wanted.is_all and self.sending.send_all(self._cuts_no_group()):
            return
        while not self._send_chosen():
            finish(self.session)  # the server takes less than it said: smaller batches go

    def _send_chosen(self) -> bool:
        """Sends the groups that are wanted; answers whether the server took documents of that
        size.
        """
        text = self.day.last().text()
        found = table.of_file(self.day.last().path)
        named = named_by(self.session, found, self.wanted.only)
        review = self.wanted.reviewed(self.session, found) if self.wanted.reviewed else None
        chosen = choose(found, self.wanted, named, self.sending.sent, review)
        self.left = chosen.left
        return self._send_groups(found, text, groups.by_place(found, chosen.groups))

    def _cuts_no_group(self) -> Callable[[List[Change]], bool]:
        """Whether a chunk of the session has only whole groups, as a function of the chunk."""
        divided: List[Group] = []

        def is_whole(chunk: List[Change]) -> bool:
            if len(chunk) < self.sending.room() and self.sending.max_extent is None:
                return True  # it is all that is left
            if not divided:
                divided.extend(groups.divide(table.of_file(self.day.last().path)))
            keys = {thing.key for _, thing in chunk}
            return all(keys.issuperset(group) for group in divided if not keys.isdisjoint(group))

        return is_whole

    def _send_groups(self, found: Table, text: str, order: List[Group]) -> bool:
        """Sends groups in their order, as many at a time as fit a document; all other edits wait.

        Answers no where a document came out smaller than its groups: they have to be fewer then.
        """
        waiting, spans = set(groups.edits(found)), Spans(found)
        while order:
            batch = self._batch(order, spans)
            count = sum(map(spans.changes, batch))
            anyway = len(batch) == 1 and (
                batch[0] in self._anyway or self._is_too_large(batch[0], spans)
            )
            self._make_room(batch, count, spans)
            waiting.difference_update(*batch)
            hold_back(self.session, text, waiting)
            self.sending.held = len(waiting)
            if not self.sending.send_all(lambda chunk: anyway or len(chunk) >= count):
                if len(batch) == 1:
                    self._anyway.add(batch[0])
                self._most = max(1, count // 2)
                return False
            self._most, order = 0, order[len(batch) :]
        return True

    def _batch(self, order: List[Group], spans: 'Spans') -> List[Group]:
        """The first groups, as many as fit a document and the extent of a changeset; one at least."""
        most, widest = self.sending.largest(), self.sending.max_extent
        most = min(most, self._most) if self._most else most
        batch: List[Group] = []
        count, box = 0, None
        for group in order:
            count, box = count + spans.changes(group), extent.joined(box, spans.box(group))
            is_wide = widest is not None and box is not None and box.extent > widest
            if batch and (count > most or is_wide):
                break
            batch.append(group)
        return batch

    def _is_too_large(self, group: Group, spans: 'Spans') -> bool:
        """Whether a group doesn't fit a document or the extent of a changeset; that is told once."""
        most, widest = self.sending.largest(), self.sending.max_extent
        box, count = spans.box(group), spans.changes(group)
        is_wide = widest is not None and box is not None and box.extent > widest
        if count <= most and not is_wide:
            return False
        if group[0] not in self._told:
            self._told.add(group[0])
            self.note(
                too_large(group, count, most) if count > most else too_wide(group, box, widest)
            )
        return True

    def _make_room(self, batch: List[Group], count: int, spans: 'Spans') -> None:
        """Closes the changeset where a batch doesn't fit into it, and fits into one of its own."""
        open_one, widest = self.sending.changeset, self.sending.max_extent
        if open_one is None or not open_one.count:
            return
        box = open_one.box
        for group in batch:
            box = extent.joined(box, spans.box(group))
        is_wide = widest is not None and box is not None and box.extent > widest
        if is_wide or self.sending.largest() >= count > self.sending.room():
            self.sending.close()


class Spans:
    """How many changes the groups of a session have, and how much of the map they span."""

    def __init__(self, found: Table):
        self._found, self._boxes = found, {}  # type: Table, Dict[str, Optional[extent.Box]]

    def changes(self, group: Group) -> int:
        """How many changes a group has."""
        return sum(self._found.things[key].edit is not None for key in group)

    def box(self, group: Group) -> Optional[extent.Box]:
        """The box around a group, before and after its edits."""
        box = None
        for key in group:
            box = extent.joined(box, self._of(key))
        return box

    def _of(self, key: str, depth: int = 2) -> Optional[extent.Box]:
        if key in self._boxes:
            return self._boxes[key]
        known, box = self._found.things.get(key), None
        for side in (known.mine, known.there) if known is not None else ():
            if side is not None and side.lon is not None and side.lat is not None:
                lon, lat = (int(degrees * extent.UNITS) for degrees in (side.lon, side.lat))
                box = extent.joined(box, extent.Box(lon, lat, lon, lat))
            for reference in side.references if side is not None and depth else ():
                box = extent.joined(box, self._of(reference, depth - 1))
        self._boxes[key] = box
        return box


def preview(session: Session, size: int, wanted: Wanted) -> Tuple[Answer, Dict[str, List[str]]]:
    """The Answer to an `upload` of what a send would take, and the keys that it would leave, by
    the cause.
    """
    if wanted.is_all:
        return session.ask([f'upload {size}']), {}
    text = session.day.last().text()
    found = table.of_file(session.day.last().path)
    review = wanted.reviewed(session, found) if wanted.reviewed else None
    chosen = choose(found, wanted, named_by(session, found, wanted.only), 0, review)
    back = set(groups.edits(found)).difference(*chosen.groups)
    answer = run_over(session, groups.taken_back(text, back), [f'upload {size}'])
    if answer.refused():
        raise_refused(answer)
    return answer, chosen.left


def too_wide(group: Group, box: Optional[extent.Box], widest: Optional[int]) -> str:
    """What to say of a group that spans more of the map than a changeset may."""
    keys = ','.join(group[:5]) + (',...' if len(group) > 5 else '')
    return (
        f'{keys} hang together and span {extent.degrees(box.extent if box else 0)} degrees, and a '
        f'changeset {extent.degrees(widest or 0)}: they go out in several'
    )


def look(
    session: Session, found: Table, wanted: Wanted, server: Server, note: Callable[[str], Any]
) -> fresh.Look:
    """What stands at the server where the new objects of a send are to go."""
    if wanted.is_all:
        return fresh.look(server, found, note)
    review = wanted.reviewed(session, found) if wanted.reviewed else None
    chosen = choose(found, wanted, named_by(session, found, wanted.only), 0, review)
    return fresh.look(server, found, note, {key for group in chosen.groups for key in group})


def too_large(group: Group, count: int, most: int) -> str:
    """What to say of a group that doesn't fit a document."""
    keys = ','.join(group[:5]) + (',...' if len(group) > 5 else '')
    return (
        f'{count} changes hang together ({keys}), and a document has {most}: they go out in '
        f'several, and the map has a part of them meanwhile; a larger --chunk keeps them together'
    )


def hold_back(session: Session, text: str, keys: Iterable[str]) -> None:
    """Lets the last session be one without these edits, of which the server has none: rows A and C
    to C, or to D and A.

    `text` is the session that has all edits, where none are held back yet.
    """
    day, wanted = session.day, tuple(sorted(keys, key=opl.rank))
    held = day.held()
    if held is None:
        if wanted:
            part = groups.taken_back(text, wanted)
            check(session, part)
            day.hold(Held(day.last().number, wanted))
            day.keep(PART, part)
        return
    if set(wanted) == set(held.keys):
        return
    last = day.last().text()
    if set(wanted) - set(held.keys):
        raise ValueError('edits can be held back again only by `finish`')
    part = groups.taken_up(whole_text(day, held), last, set(held.keys) - set(wanted))
    check(session, part)
    day.keep(PART if wanted else WHOLE, part)
    if wanted:
        day.hold(Held(held.of, wanted))
    else:
        day.remove('held')


def whole_text(day: Day, held: Held) -> str:
    """The session that has all edits."""
    found = [state for state in day.states() if state.number == held.of]
    if not found:
        raise Trouble(f'{day.path("held")} names the session {held.of}, which isn\'t there')
    return found[0].text()


def check(session: Session, text: str) -> None:
    """Trouble where the program doesn't take a session that was made here: then nothing of it is
    kept.
    """
    answer = run_over(session, text, [])
    if answer.refused():
        raise Trouble(f'a part of the edits can\'t be held back: {answer.refused()[0].rest}')


def run_over(session: Session, text: str, lines: List[str]) -> Answer:
    """The Answer to lines over a saved session that isn't one of the day's."""
    with tempfile.TemporaryDirectory(prefix='yoke-') as folder:
        path = os.path.join(folder, 'part.saved')
        with open(path, 'w', encoding='utf-8', newline='\n') as file:
            file.write(text)
        answer: Answer = session.program.run(['resume ' + opl.escape(path)] + lines)
    return answer


def finish(session: Session) -> None:
    """Takes up what is held back, where anything is: rows B, C and D to A. Nothing may be out."""
    day = session.day
    held = day.held()
    if held is None:
        return
    states = day.states()
    last, before = states[-1], states[-2] if len(states) > 1 else None
    if last.verb == PART and before is not None and before.number == held.of:
        day.remove(last.path.name)  # nothing of it was taken
    elif last.number != held.of and last.verb != WHOLE:
        hold_back(session, '', ())
        return
    day.remove('held')
