"""What has to be true of a mapper's day: a ledger of the edits that the mapper made and the server
hasn't got yet.

Each verb of `yoke` is told to it with the session before and after; each change that the strict
server took from the mapper is held against it. It raises `Failed` where an edit is lost, where
something is sent that the mapper didn't edit, where something is created twice, and where the work
of others is overwritten unseen.
"""
import collections
import functools
import re
from typing import Any, Dict, Iterable, List, NamedTuple, Optional, Tuple

from yoke.testing.elements import Element, of_opl, opl
from yoke.testing.server import MAPPER, StrictServer


class Failed(Exception):
    """What a day has shown that must not be."""


# ---- what a session has ----


class Known(NamedTuple):
    """An object of a saved session: what the server had, what it is here (None where deleted), and
    what it is in conflict with.
    """

    base: Optional[Element]
    mine: Optional[Element]
    theirs: Optional[Element]
    conflict: str


Session = Dict[str, Known]
Parts = Dict[str, Any]

read_line = functools.lru_cache(maxsize=None)(
    of_opl
)  # most lines of a session are those of the one before


def read_session(text: str) -> Session:
    """The objects of a saved session by key."""
    found: Session = {}
    key, sides, words = '', {}, ['', '', 'none']

    def put() -> None:
        if key:
            base = sides.get('base')
            mine = (
                sides.get('mine')
                if words[1] != 'same'
                else base
                if base is not None and base.visible
                else None
            )
            found[key] = Known(base, mine, sides.get('theirs'), words[2])

    for line in text.split('\n'):
        word, _, rest = line.partition(' ')
        if word == 'known':
            put()
            key, *words = rest.split(' ')
            sides = {}
        elif word in ('base', 'mine', 'theirs'):
            sides[word] = read_line(rest)
    put()
    return found


def parts(element: Optional[Element]) -> Parts:
    """What an element has, part by part: nothing where it is deleted."""
    if element is None or not element.visible:
        return {}
    found: Parts = {'there': True}
    found.update(('tag ' + key, value) for key, value in element.tags.items())
    if element.kind == 'node':
        found['place'] = element.lon, element.lat
    if element.kind == 'way':
        found['nodes'] = tuple(f'n{node}' for node in element.nodes)
    if element.kind == 'relation':
        found['members'] = tuple(
            (member.kind[0] + str(member.number), member.role) for member in element.members
        )
    return found


def difference(before: Parts, after: Parts) -> Parts:
    """The parts that are another after than before, as they are then: None where they went. A
    deletion is one part alone.
    """
    if before and not after:
        return {'there': None}
    return {
        part: after.get(part)
        for part in [*before, *(part for part in after if part not in before)]
        if before.get(part) != after.get(part)
    }


# ---- what has to be true ----


class Wish(NamedTuple):
    """A part of an edit that has to come to the server: its value, and the version of the object
    that the mapper had seen.
    """

    value: Any
    seen: int


class Wishes(collections.UserDict):
    """The wishes by key and part, where those of one key are at hand."""

    def __init__(self, others=()):
        self._parts: Dict[str, set] = collections.defaultdict(set)  # by key
        super().__init__(others)

    def __setitem__(self, place: Tuple[str, str], wish: Wish) -> None:
        self.data[place] = wish
        self._parts[place[0]].add(place[1])

    def __delitem__(self, place: Tuple[str, str]) -> None:
        del self.data[place]
        self._parts[place[0]].discard(place[1])

    def of(self, key: str) -> Parts:
        """The wishes of an object by part."""
        return {part: self.data[key, part] for part in self._parts.get(key, ())}


class Ledger:
    """What the mapper has edited and the server hasn't got yet; each change of the server is held
    against it.
    """

    def __init__(self, server: StrictServer, user: str = MAPPER.name):
        self.server = server
        self.user = user  # the account that sends what is edited here
        self.wishes = Wishes()
        self.names: Dict[str, str] = {}  # the keys that new objects got
        self.read = 0  # changes of the server that were looked at
        self.landed = 0  # changes of the mapper among them

    def renamed(self, value: Any) -> Any:
        """A part with the keys that new objects got."""
        if isinstance(value, tuple):
            return tuple(self.renamed(one) for one in value)
        return (
            self.names.get(value, value)
            if isinstance(value, str) and re.fullmatch('[nwr]-[0-9]+', value)
            else value
        )

    def drop(self, key: str) -> None:
        for part in self.wishes.of(key):
            del self.wishes[key, part]

    # ---- what the mapper did ----

    def edited(self, before: Session, after: Session) -> None:
        """Takes in what a script changed."""
        for key in {**before, **after}:
            old, new = before.get(key), after.get(key)
            changed = difference(parts(old and old.mine), parts(new and new.mine))
            if changed:
                self._edited(key, (new or old).base, parts(new and new.mine), changed)

    def _edited(self, key: str, base: Optional[Element], mine: Parts, changed: Parts) -> None:
        if base is None or not mine:
            self.drop(key)
        if base is None:
            self.wishes.update(((key, part), Wish(value, 0)) for part, value in mine.items())
        elif not mine:
            if base.visible:
                self.wishes[key, 'there'] = Wish(None, base.version)
        else:
            for part, value in changed.items():
                self.wishes.pop((key, part), None)
                if parts(base).get(part) != value:
                    self.wishes[key, part] = Wish(value, base.version)

    def resolved(self, keys: List[str], how: str, before: Session, after: Session) -> None:
        """Takes in a resolve; Failed where it made something else of an object than it says, or
        changed another one.
        """
        for key in {**before, **after}:
            old, new = before.get(key), after.get(key)
            mine_before, mine = parts(old and old.mine), parts(new and new.mine)
            if key not in keys:
                if mine != mine_before or (old and new and old.conflict != new.conflict):
                    raise Failed(f'resolve of {keys} changed {key}')
                continue
            if how == 'theirs' and mine != parts(old.theirs):
                raise Failed(
                    'resolve {} theirs is {}, and theirs was {}'.format(
                        key, mine, parts(old.theirs)
                    )
                )
            if how == 'mine' and mine != ({} if old.conflict == 'withdrawn' else mine_before):
                raise Failed(f'resolve {key} mine is {mine}, and mine was {mine_before}')
            for part, value in mine.items():
                if value not in (mine_before.get(part), parts(old.theirs).get(part)):
                    raise Failed(
                        'resolve {} {} has {} {}, which is of neither side'.format(
                            key, how, part, value
                        )
                    )
            self.drop(key)
            for part, value in difference(parts(new and new.base), mine).items():
                self.wishes[key, part] = Wish(value, old.theirs.version)

    def refreshed(self, session: Session, before: Optional[Session] = None) -> None:
        """Takes in a merge: what somebody else did alike is done. Failed where the session has
        edits that nobody made.

        What the server took and didn't answer is an edit of the session still: with the session
        `before`, what was an edit there is none that nobody made.
        """
        for (key, part), wish in list(self.wishes.items()):
            known = session.get(key)
            if (
                known
                and known.base
                and known.conflict == 'none'
                and self.renamed(parts(known.base).get(part)) == self.renamed(wish.value)
            ):
                del self.wishes[key, part]
        for key, known in session.items():
            was = (before or {}).get(key)
            made = difference(parts(was.base), parts(was.mine)) if was else {}
            extra = [
                part
                for part in difference(parts(known.base), parts(known.mine))
                if (key, part) not in self.wishes and part not in made
            ]
            if known.conflict == 'none' and extra:
                raise Failed(f'the session has edits of {key} that nobody made: {extra}')

    def kept(self, session: Session) -> None:
        """Failed where the session has lost an edit that isn't on the server."""
        for (key, part), wish in self.wishes.items():
            known = session.get(key) or session.get(self.names.get(key, ''))
            # A deletion that was withdrawn since the server used the object is asked of the mapper
            # again if the server deletes it.
            if known and (
                known.conflict == 'withdrawn'
                or known.conflict == 'held'
                and (part, wish.value) == ('there', None)
            ):
                continue
            mine = parts(known and known.mine).get(part)
            if self.renamed(mine) != self.renamed(wish.value):
                raise Failed(
                    'the session lost an edit: {} {} was {} and is {}'.format(
                        key, part, wish.value, mine
                    )
                )

    # ---- what the server took ----

    def look(self) -> None:
        """Holds all new changes of the server against the wishes."""
        history = self.server.history
        for change in history[self.read :]:
            if change.user == self.user:
                self.landed += 1
                self._landed(
                    change.verb, change.element, change.element.kind[0] + str(change.old_id)
                )
        self.read = len(history)

    def _landed(self, verb: str, element: Element, old_key: str) -> None:
        key, before = (
            (old_key, {})
            if verb == 'create'
            else (element.key, parts(self._version(element.key, element.version - 1)))
        )
        if verb == 'create':
            if old_key in self.names:
                raise Failed(
                    '{} was created twice: as {} and as {}'.format(
                        old_key, self.names[old_key], element.key
                    )
                )
            self.names[old_key] = element.key
        changed = difference(before, parts(element))
        if not changed:
            raise Failed(f'{verb} {element.key} v{element.version} changes nothing')
        if verb == 'create' and set(self.wishes.of(key)) != set(changed):
            raise Failed(f'{key} was created as {changed}, and had to be {self.wishes.of(key)}')
        for part, value in changed.items():
            wish = self.wishes.pop((key, part), None)
            if wish is None or self.renamed(wish.value) != self.renamed(value):
                raise Failed(
                    '{} {} v{}: {} is {} now, and was to be {}'.format(
                        verb, element.key, element.version, part, value, wish
                    )
                )
            if verb != 'create':
                self._unseen(element, part, wish)

    def _unseen(self, element: Element, part: str, wish: Wish) -> None:
        """Failed where a part was changed by others between what the mapper saw and what was
        overwritten.
        """
        seen, there = (
            parts(self._version(element.key, version))
            for version in (wish.seen, element.version - 1)
        )
        if (seen != there) if part == 'there' else (seen.get(part) != there.get(part)):
            raise Failed(
                '{} v{} overwrites the {} of others, who changed it after v{}'.format(
                    element.key, element.version, part, wish.seen
                )
            )

    # ---- the end of a day ----

    def compare(self, printed: Iterable[Element], may_be_older: bool) -> None:
        """Failed where the session has an object otherwise than the server: by version and content.

        `may_be_older` tells that the session may not know the last version, where that is of
        somebody else.
        """
        for element in printed:
            there = self.server.database.current(element.key)
            if may_be_older and there is not None and element.version < there.version:
                later = [
                    one
                    for one in self.server.database.versions[element.key]
                    if one.version > element.version
                ]
                if any(one.user == self.user for one in later):
                    raise Failed(
                        'the session has {}, and the mapper sent {}'.format(
                            opl(element), opl(later[-1])
                        )
                    )
                there = next(
                    (
                        one
                        for one in self.server.database.versions[element.key]
                        if one.version == element.version
                    ),
                    None,
                )
            if there is None or (element.version, element.content) != (
                there.version,
                there.content,
            ):
                raise Failed(
                    'the session has {}, and the server {}'.format(
                        opl(element), there and opl(there)
                    )
                )

    def _version(self, key: str, version: int) -> Element:
        return next(
            element for element in self.server.database.versions[key] if element.version == version
        )
