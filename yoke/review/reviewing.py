"""A review of the last session of a day: its items, the decisions on them, and the script that they
become.
"""

import csv
import io
import json
import os
import pathlib
import tempfile
import threading
from collections import Counter
from typing import Any, Callable, Dict, List, Mapping, Optional, Set, Tuple

from yoke import day, files, opl, table, words
from yoke.parts import Reviewed
from yoke.program import Answer, BadLine, Reply
from yoke.review import plan, shown
from yoke.review.around import Around
from yoke.review.decisions import Decision, Decisions, Renames, digest, of_text
from yoke.review.items import USERS, Edits, collect
from yoke.scripts import bound
from yoke.session import Session
from yoke.table import Table
from yoke.trouble import Refused, Trouble
from yoke.verbs import resolve

OPL_MARK = b'# versions that come back'  # in the first line of the file beside the script
ACCEPTED, REJECTED, UNDECIDED, WITHOUT = 'accepted', 'rejected', 'undecided', 'without K'


class Impossible(Refused):
    """Decisions that don't go together; `key` is the item to look at."""

    def __init__(self, message: str, key: str):
        super().__init__(message)
        self.key = key


def tags_of(how: str) -> List[str]:
    """The tags that a decision `without K..` rejects; none of another one."""
    if not how.startswith(WITHOUT):
        return []
    return [opl.unescape(word) for word in how[len(WITHOUT) :].split(',') if word]


class Questions:
    """What a conflation asks, by the files that it wrote under a name."""

    def __init__(self, name: str):
        self.name = name
        path = pathlib.Path(name + '.questions')
        try:
            self.asked: List[Dict[str, Any]] = json.loads(path.read_text(encoding='utf-8'))
            self.by_key = {str(one['feature']): one for one in self.asked}
        except FileNotFoundError:
            raise Trouble(f'there is no file {path}: yoke conflate --to {name} writes it') from None
        except (ValueError, KeyError, TypeError):
            raise Trouble(f'{path} has no questions of yoke conflate') from None

    def digests(self) -> Dict[str, str]:
        """What a decision on each is about."""
        return {key: of_text(json.dumps(one, sort_keys=True)) for key, one in self.by_key.items()}

    def check(self, key: str, how: str) -> None:
        """ValueError where this is no answer."""
        candidates = [one[0] for one in self.by_key[key]['candidates']]
        if how not in ['new', 'skip', UNDECIDED, *candidates]:
            raise ValueError(f'{how} is no answer for {key}')

    def write(self, answers: Mapping[str, str]) -> str:
        """Writes the list of the conflation with what was decided; says so."""
        with open(self.name + '.csv', encoding='utf-8', newline='') as file:
            rows = list(csv.DictReader(file))
        text, done = io.StringIO(), set()
        names = list(rows[0]) if rows else ['feature', 'what', 'decision']
        written = csv.DictWriter(text, names, lineterminator='\n')
        written.writeheader()
        for row in rows:
            feature = row['feature']
            how = answers.get(feature) if row['what'] == 'ambiguous' else None
            if how and feature not in done:
                row['decision'] = how
                done.add(feature)
            written.writerow(row)
        day.write_whole(self.name + '-decided.csv', text.getvalue())
        return (
            f'{len(done)} of {len(self.by_key)} questions answered: '
            f'give {self.name}-decided.csv to yoke conflate by --decided'
        )


class Review:
    """A review. What a page calls may come from several threads at once."""

    def __init__(
        self,
        session: Session,
        path: str,
        to: str = 'review.script',
        tiles: str = '',
        questions: Optional[Questions] = None,
        force: bool = False,
        there: Optional[Table] = None,
    ):
        self.session, self.to, self.tiles, self.force = session, to, tiles, force
        self.questions = questions
        self.state = session.day.last()
        self.text = self.state.text()
        self.found: Edits = collect(there or table.read(self.text), session.ask([USERS]).found())
        self.followers = plan.followers(self.found)
        digests = digests_of(self.found, Renames(session.day.folder))
        digests.update(questions.digests() if questions else {})
        self.decisions = Decisions(path, digests)
        self.made: List[Decision] = []  # in their order, so that a second page hears of them
        self.because: Dict[str, str] = {}
        self.lock, self._around_lock = threading.RLock(), threading.Lock()
        self._around: Optional[Around] = None
        self.said = ''
        self.stop: Callable[[], None] = lambda: None
        self._weigh()

    # ---- what is decided ----

    def check(self, key: str, how: str) -> None:
        """ValueError where this can't be decided."""
        if self.questions and key in self.questions.by_key:
            return self.questions.check(key, how)
        if key not in self.decisions.digests:
            raise ValueError(f'{key} is no item')
        known = self.found.known(key)
        if how == UNDECIDED:
            return None
        if known.conflict != 'none':
            return check_resolve(how)
        if how.startswith(WITHOUT):
            return self._check_tags(key, how)
        if how not in (ACCEPTED, REJECTED):
            raise ValueError(f'{how} is no decision on {key}')
        return None

    def _check_tags(self, key: str, how: str) -> None:
        """ValueError unless these are tags that were changed, and that a `tag` line can give the
        value that they had.
        """
        names, known = tags_of(how), self.found.known(key)
        if not names or len(set(names)) < len(names) or not known.mine:
            raise ValueError(f'{how} is no decision on {key}')
        before = known.there.tags if known.there else {}
        for name in names:
            if before.get(name) == known.mine.tags.get(name) or before.get(name) == '':
                raise ValueError(f'the tag {name} of {key} can\'t be rejected alone')

    def decide(self, pairs: List[Decision]) -> None:
        """Takes decisions, all or none; they are on the disk when this returns. ValueError where
        one is none.
        """
        for key, how in pairs:
            self.check(key, how)
        with self.lock:
            self.decisions.decide(pairs)
            self.made += pairs
            self._weigh()

    def _weigh(self) -> None:
        """Reckons what is rejected with others."""
        rejected = [key for key, how in self.decisions.how.items() if how == REJECTED]
        self.because = plan.closure(self.found, rejected, self.followers).because

    def with_others(self) -> Dict[str, str]:
        """The items and corners that are rejected because another one is, with its key."""
        how = self.decisions.how
        return {key: why for key, why in self.because.items() if how.get(key) != REJECTED}

    def state_of(self, key: str) -> str:
        """`accepted`, `rejected`, or `undecided`; a conflict that is resolved, and a question that
        is answered, count as accepted.
        """
        how = self.decisions.how.get(key, UNDECIDED)
        if key in self.because or how in (REJECTED, 'skip'):
            return REJECTED
        return how if how == UNDECIDED else ACCEPTED

    def keys(self) -> List[str]:
        """All that is to be decided on."""
        return [*(self.questions.by_key if self.questions else ()), *self.found.items]

    def counts(self) -> 'Counter[str]':
        """How many items are accepted, rejected and undecided."""
        return Counter(self.state_of(key) for key in self.keys())

    def accepted(self) -> Set[str]:
        """The keys of the edits that are accepted as they are, corners too. What they need is
        accepted too.

        A conflict isn't among them, nor an object of which a tag is rejected: the script changes
        these.
        """
        how = self.decisions.how
        found = self._with_corners({key for key in self.found.items if how.get(key) == ACCEPTED})
        return {key for key in found if self.found.edits[key].conflict == 'none'}

    def _with_corners(self, items: Set[str]) -> Set[str]:
        """The keys of the edits of items, corners too, but for those that are rejected."""
        return {part for key in items for part in self.found.parts_of(key)} - set(self.because)

    def undecided(self) -> Set[str]:
        """The keys of the edits on which nobody decided, corners too if they belong to no accepted
        item.
        """
        found = {key for key in self.found.items if self.state_of(key) == UNDECIDED}
        return self._with_corners(found) - self.accepted()

    # ---- what the page asks ----

    def calls(self) -> Dict[Tuple[str, str], Callable[[Any], Any]]:
        """The calls of the page by method and path."""
        return {
            ('GET', '/items'): self.ask_items,
            ('POST', '/find'): self.ask_find,
            ('POST', '/decide'): self.ask_decide,
            ('POST', '/around'): self.ask_around,
            ('POST', '/finish'): self.ask_finish,
        }

    def ask_items(self, _: Any) -> Dict[str, Any]:
        """All that the page begins with."""
        asked = self.questions.asked if self.questions else []
        items = shown.questions(self.found.table, asked) + shown.items_of(self.found)
        with self.lock:
            return {
                'day': str(self.session.day.folder),
                'session': self.state.number,
                'tiles': self.tiles,
                'to': self.to,
                'items': items,
                'decisions': list(self.decisions.how.items()),
                'because': list(self.with_others().items()),
                'heard': len(self.made),
            }

    def ask_find(self, asked: Any) -> List[str]:
        """The items that meet a query of the program; one by a corner is the item with which the
        corner is decided.
        """
        query = asked['query']
        if not isinstance(query, str) or '\n' in query or '\0' in query:
            raise ValueError('a query is one line')
        try:
            keys = set(self.session.ask(['find ' + query]).found())
        except BadLine:
            raise Refused(
                'it is no query; docs/SCRIPTS.md has what there is, such as way and Tsurface=asphalt'
            ) from None
        corners = self.found.corners
        return [
            key
            for key in self.found.items
            if key in keys or not keys.isdisjoint(corners.get(key, ()))
        ]

    def ask_decide(self, asked: Any) -> Dict[str, Any]:
        """Takes decisions; answers with all that were made since the page heard last, and with what
        is rejected with others.
        """
        pairs = [(key, how) for key, how in asked['decisions']]
        if not all(isinstance(word, str) for pair in pairs for word in pair):
            raise ValueError('a decision is a key and how')
        with self.lock:
            self.decide(pairs)
            return {
                'decisions': self.made[int(asked['heard']) :],
                'because': list(self.with_others().items()),
                'heard': len(self.made),
            }

    def ask_around(self, asked: Any) -> Dict[str, Any]:
        """What lies in a box besides the edits."""
        west, south, east, north = map(float, asked['box'])
        with self._around_lock:  # the first one takes seconds, and decisions don't wait for it
            if self._around is None:
                self._around = Around(self.found.table)
        return self._around.within((west, south, east, north))

    def ask_finish(self, asked: Any) -> Dict[str, Any]:
        """Writes the script, and ends the review where the page says so."""
        with self.lock:
            self.said = self.finish()
        if asked.get('stop'):
            self.stop()
        return {'said': self.said}

    # ---- the script ----

    def finish(self) -> str:
        """Writes the script and the file beside it; says so. Refused where the decisions don't go
        together.
        """
        self._check_last()
        one = self._plan()
        base_file = os.path.splitext(self.to)[0] + '.opl'
        files.check_outputs([self.to, base_file], [self.decisions.path], self.session.day.folder)
        files.check_own(self.to, bound.MARK, self.force)
        files.check_own(base_file, OPL_MARK, self.force)
        lines, answer = self._tried(one, base_file)
        bases = plan.bases_of(self.found, one)
        texts = [OPL_MARK.decode() + f' by {opl.escape(os.path.basename(self.to))}', *bases]
        text = ''.join(line + '\n' for line in texts)
        self._accept_after(answer)
        if bases:
            day.write_whole(base_file, text)
        summary = self._summary(one)
        heading = [f'# {summary}'] + ([bound.with_file(base_file, text)] if bases else [])
        bound.write(self.to, heading + lines, self.state, self.force)
        counts = answer.counts()
        said = [summary, f'wrote {self.to}' + (f' and {base_file}' if bases else '')]
        said.append(
            f'yoke do {self.to} leaves {counts["changed"]} edited and {counts["conflicts"]} in conflict'
            if lines
            else 'nothing is rejected, so there is nothing to run'
        )
        if self.questions:
            said.append(self.questions.write(self.decisions.how))
        return '\n'.join(said)

    def _check_last(self) -> None:
        last = self.session.day.last()
        if last.number != self.state.number or last.text() != self.text:
            raise Refused(
                f'the session went on meanwhile, to {last.path.stem}: begin the review anew; '
                f'the decisions in {self.decisions.path} are kept, and count where nothing was edited since'
            )

    def _plan(self) -> plan.Plan:
        self._weigh()
        how = self.decisions.how
        conflicts = {key for key in self.found.items if self.found.known(key).conflict != 'none'}
        tags = {key: tags_of(said) for key, said in how.items() if key not in self.because}
        return plan.Plan(
            plan.Undo(self.because),
            {key: said for key, said in how.items() if key in conflicts},
            {key: names for key, names in tags.items() if names and key in self.found.edits},
        )

    def _summary(self, one: plan.Plan) -> str:
        counts = self.counts()
        said = sum(how == REJECTED for how in self.decisions.how.values())
        return (
            f'of {self.state.path.stem}: {counts[ACCEPTED]} accepted, {said} rejected and '
            f'{len(self.because) - said} objects with them, {len(one.tags)} without some tags, '
            f'{len(one.resolved)} conflicts resolved, {counts[UNDECIDED]} not decided'
        )

    def _tried(self, one: plan.Plan, base_file: str) -> Tuple[List[str], Answer]:
        """The lines that the session takes, and its Answer to them; Impossible where it takes them
        in neither order.
        """
        conflicts = [key for key in self.found.items if self.found.known(key).conflict != 'none']
        left = len([key for key in conflicts if key not in one.resolved])
        refused: Optional[Reply] = None
        for first in ('undo', 'resolve'):
            lines = plan.lines_of(self.found, one, base_file, first)
            answer = self._try(lines, one)
            # in the other order an object may come back in a new conflict
            if not answer.refused() and answer.counts()['conflicts'] <= left:
                return lines, answer
            refused = refused or next(iter(answer.refused()), None)
        if refused is None:
            raise Impossible('these decisions bring a new conflict', '')
        why = f'{words.refusal(refused.rest)}: {words.cut(refused.step)}'
        raise Impossible(f'these decisions don\'t go together: {why}', self._item_of(refused))

    def _try(self, lines: List[str], one: plan.Plan) -> Answer:
        """The Answer to lines over the session, of which nothing is kept."""
        with tempfile.TemporaryDirectory(prefix='yoke-') as folder:
            place = os.path.join(folder, 'review.opl')
            bases = plan.bases_of(self.found, one)
            pathlib.Path(place).write_text(''.join(line + '\n' for line in bases), encoding='utf-8')
            steps = [
                'download ' + opl.escape(place) if line.startswith('download ') else line
                for line in lines
            ]
            return self.session.ask([*steps, 'count', USERS, 'save'], allow_refused=True)

    def _accept_after(self, answer: Answer) -> None:
        """Notes what accepted objects are after the script, where it changes them: that is what was
        decided on them.

        So nobody has to decide on a conflict again after it was resolved as decided.
        """
        users = next(reply for reply in answer.replies if reply.step == USERS).text[1:]
        after = collect(table.read(answer.saved()), users)
        taken = self._with_corners(
            {key for key in self.found.items if self.state_of(key) == ACCEPTED}
        )
        digests = digests_of(after, Renames(self.session.day.folder))
        self.decisions.note_after(
            {
                key: of
                for key, of in digests.items()
                if self.decisions.digests.get(key) != of and taken.issuperset(after.parts_of(key))
            }
        )

    def _item_of(self, reply: Reply) -> str:
        """The item of which a refused step tells."""
        named = reply.step.split(' ')[1:2] + reply.rest.split(' ')[1:]
        keys = [self.found.item_of(word) for text in named for word in text.split(',')]
        return next(filter(None, keys), '')


class ReviewedBy:
    """How the edits of a session were reviewed, by a file of decisions, as `yoke.parts` asks for
    it.

    `counts` has how many items were accepted, rejected and not decided when it was asked last.
    """

    def __init__(self, path: str):
        self.path = path
        self.counts: Dict[str, int] = {}

    def __call__(self, session: Session, found: Table) -> Reviewed:
        one = Review(session, self.path, there=found)
        self.counts = dict(one.counts())
        return Reviewed(frozenset(one.accepted()), frozenset(one.undecided()))


def check_resolve(how: str) -> None:
    """ValueError where a conflict can't be resolved so."""
    first, *rest = how.split(' ')
    if first == 'parts' and len(rest) == 2 and rest[1][:1] == 'K':
        rest = [rest[0], *(opl.unescape(one) for one in rest[1][1:].split(',') if one)]
    try:
        is_one = resolve.words(first, rest) == how
    except Trouble:
        is_one = False
    if not is_one:
        raise ValueError(f'{how} ends no conflict')


def digests_of(found: Edits, renames: Renames) -> Dict[str, str]:
    """What a decision on each item is about."""
    return {
        key: digest(
            found.known(key), [found.edits[one] for one in found.corners.get(key, ())], renames
        )
        for key in found.items
    }
