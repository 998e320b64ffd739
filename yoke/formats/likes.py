"""New objects of a document that a session has already, since the document came before.

Who goes on with a drawing saves what is new in it once more, under negative ids that mean nothing
in the session. What tells is the content. The like of a new object is one of the session, of the
same kind, with the same tags, at the same place, and with the same nodes or members and roles; what
is new among these has its own like there. It doesn't matter whether a server took the like
meanwhile. Likes are given in this order, and each to one object alone, so that two equal objects of
a document have two:

1. In a list of an object that both have, what is new has the like that stands there in the session's list.
2. A relation or a way has its like together with all to which it refers. So a way's nodes are those of the session's way,
   and not others at these places.
3. A node with tags that lies in no way of the document has its like at its place.
4. What is left means something only by its place among others: nodes of ways that have no like, and what has no tags.
   Its like is one that was made here, or that nothing uses; others there belong to something else.

What the tool itself had beside a new object is no like of it in 1 and 4: two nodes at one place
that it drew apart stay apart. In 2 and 3 it is one, unless the document edits it: nobody wants two
that are equal in everything.
"""
from typing import Callable, Dict, Iterator, List, Optional, Set, Tuple

from yoke import opl
from yoke.formats.drawing import Shape, place_of, shape_of
from yoke.formats.osm_xml import Told
from yoke.table import Table

MOST = 50  # objects of one shape that are looked at for a new one: more lie at one place only by mistake


def likes(told, table: Table, start: Optional[Table] = None) -> Dict[str, str]:
    """The session's keys of the new objects of a document that it has already, by the document's
    keys.

    `told` and `start` are those of `foreign.plan`.
    """
    new = {
        one.thing.key: one.thing
        for one in told
        if one.action == 'create' and one.session_key is None
    }
    return _Search(new, list(told), table, start).likes() if new else {}


class _Search:
    def __init__(
        self, new: Dict[str, opl.Object], told: List[Told], table: Table, start: Optional[Table]
    ):
        self.new, self.told, self.table = new, told, table
        self.names = {
            one.thing.key: one.mark for one in told if one.mark
        }  # the session's keys by those of the document
        self.taken: Set[str] = set()  # the likes so far
        began = set(start.things) if start else set()
        self.had = began.union(
            one.session_key for one in told if one.session_key
        )  # what the tool had
        self.edited = began.union(one.session_key for one in told if one.session_key and one.action)
        self.in_ways = {node for one in told for node in one.thing.nodes if node in new}
        self.shapes = {key: _shape(thing, self._thing) for key, thing in new.items()}
        self.there = self._by_shape()
        self.used = self._used()

    def likes(self) -> Dict[str, str]:
        for one in self.told:
            if one.session_key and any(ref in self.new for ref in one.thing.references):
                self._of_list(one)
        for letter in 'rwn':
            for key in self.new:
                if key[0] == letter and key not in self.names:
                    self._seek(key)
        return {key: self.names[key] for key in self.new if key in self.names}

    # ---- what there is ----

    def _thing(self, key: str) -> Optional[opl.Object]:
        """The object that the document means by a key: a new one of its own, or one of the session
        as it is here.
        """
        return self.new.get(key) or self.table.mine(self.names.get(key, key))

    def _by_shape(self) -> Dict[Shape, List[str]]:
        """The keys of the session's objects of the shapes that are new in the document, the first
        one last.
        """
        outlines = set(map(_outline, self.new.values()))
        found: Dict[Shape, List[str]] = {shape: [] for shape in self.shapes.values()}
        for known in self.table.things.values():
            thing = known.mine
            if thing is not None and _outline(thing) in outlines:
                shape = _shape(thing, self.table.mine)
                if shape in found:
                    found[shape].append(thing.key)
        return {shape: keys[::-1] for shape, keys in found.items()}

    def _used(self) -> Set[str]:
        """Which of these keys an object of the session refers to."""
        keys = {key for found in self.there.values() for key in found}
        return {
            ref
            for known in self.table.things.values()
            if known.mine
            for ref in known.mine.references
            if ref in keys
        }

    # ---- likes ----

    def _of_list(self, one: Told):
        """Gives their likes to what is new in a list of an object that the session has too, where
        the two lists are alike.

        What stood in the list when the tool began is none of them.
        """
        thing, mine, base = (
            one.thing,
            self.table.mine(one.session_key),
            self.table.base(one.session_key),
        )
        if mine is not None and (len(thing.nodes), _roles(thing)) == (
            len(mine.nodes),
            _roles(mine),
        ):
            began = set(base.references) if base and base.version == thing.version else set()
            self._are_alike(
                zip(thing.references, mine.references),
                lambda key: key not in began and self._is_strange(key),
            )

    def _seek(self, key: str):
        """Gives its like to a new object, and theirs to those to which it refers, where the session
        has them.
        """
        is_whole = bool(self.new[key].tags) and key not in self.in_ways
        for like in self._candidates(self.shapes[key]):
            may_be = self._is_strange if self._is_strange(like) else self._was_kept
            if (is_whole or self._is_free(like)) and self._are_alike([(key, like)], may_be):
                return

    def _candidates(self, shape: Shape) -> Iterator[str]:
        """The objects of the session of a shape that are no likes yet, as far as they are looked
        at.
        """
        found = self.there[shape]
        at = len(found)
        for _ in range(MOST):
            while at and found[at - 1] in self.taken:
                at -= 1
                del found[at]
            if not at:
                return
            at -= 1
            yield found[at]

    def _is_free(self, key: str) -> bool:
        """Whether an object of the session belongs to none that the tool may have had."""
        return self._is_strange(key) and (
            self.table.things[key].base is None or key not in self.used
        )

    def _is_strange(self, key: str) -> bool:
        """Whether the tool didn't have an object of the session."""
        return key not in self.had

    def _was_kept(self, key: str) -> bool:
        """Whether the tool had an object of the session and did nothing to it."""
        return key in self.had and key not in self.edited

    def _are_alike(self, pairs, may_be: Callable[[str], bool]) -> bool:
        """Whether each object of the document is the session's of its pair, or may have it as its
        like; then these are given.
        """
        pairs, given = list(pairs), []
        while pairs:
            key, like = pairs.pop()
            thing, mine = self.new.get(key), self.table.mine(like)
            if thing is None or key in self.names:
                is_alike = like == self.names.get(key, key)
            else:
                is_alike = (
                    mine is not None
                    and like not in self.taken
                    and may_be(like)
                    and _content(thing) == _content(mine)
                )
                if is_alike:
                    self.names[key] = like
                    self.taken.add(like)
                    given.append(key)
                    pairs += zip(thing.references, mine.references)
            if not is_alike:
                self.taken.difference_update([self.names.pop(name) for name in given])
                return False
        return True


def _roles(thing: opl.Object) -> Tuple[str, ...]:
    return tuple(role for _, role in thing.members)


def _content(thing: opl.Object):
    """What is equal in two likes, but for those to which they refer."""
    return thing.kind, thing.tags, thing.lon, thing.lat, len(thing.nodes), _roles(thing)


def _outline(thing: opl.Object):
    """A part of the shape that is quickly seen."""
    return thing.kind, len(thing.references), tuple(sorted(thing.tags.items()))


def _shape(thing: opl.Object, find: Callable[[str], Optional[opl.Object]]) -> Shape:
    """What an object and its like have in common under whatever keys: the tags, the place, and
    where that lies to which it refers.
    """
    places = (
        place_of(thing) if thing.key[0] == 'n' else [_places(key, find) for key in thing.references]
    )
    return shape_of(thing.kind, (places, _roles(thing)), thing.tags)


def _places(key: str, find: Callable[[str], Optional[opl.Object]]):
    """Where a node lies, or a way begins and ends; None of a relation, which may be in itself, and
    of what isn't there.
    """
    thing = find(key)
    if thing is None or key[0] == 'r':
        return None
    return (
        place_of(thing)
        if key[0] == 'n'
        else (
            len(thing.nodes),
            [_places(node, find) for node in thing.nodes[:2] + thing.nodes[-2:]],
        )
    )
