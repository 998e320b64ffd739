"""A saved session, read without the program: of each object its base, what it is here, and what it
is in conflict with.

The lines are those that `save` writes (docs/SAVING.md). Of a large session most objects are only
looked at by key, so a line is taken apart when it is asked for.
"""
from typing import Dict, Optional, Sequence, Union

from yoke import opl
from yoke.trouble import Trouble


class NotWhole(Trouble):
    """A text or a file is no whole saved session."""


class Known:
    """An object of a session, by its key.

    `base` is the version of the server from which the edits began: None of a new object, and marked
    deleted where the server deleted it. `mine` is what the object is here: None where it is deleted
    here or on the server. `conflict` is `none`, `changed`, `held` or `withdrawn`, and `theirs` the
    version of the server that it is in conflict with, else None.
    """

    def __init__(self, key: str, conflict: str) -> None:
        self.key, self.conflict = key, conflict
        self._lines: Dict[str, Union[str, opl.Object]] = {}
        self._same = False

    def _part(self, name: str) -> Optional[opl.Object]:
        found = self._lines.get(name)
        if isinstance(found, str):
            found = self._lines[name] = opl.parse(found)
        return found

    @property
    def base(self) -> Optional[opl.Object]:
        """The version of the server from which the edits began."""
        return self._part('base')

    @property
    def mine(self) -> Optional[opl.Object]:
        """What the object is here."""
        return self.there if self._same else self._part('mine')

    @property
    def theirs(self) -> Optional[opl.Object]:
        """The version of the server with which it is in conflict."""
        return self._part('theirs')

    @property
    def there(self) -> Optional[opl.Object]:
        """The base where the server has it as living, else None."""
        return self.base if self.base and not self.base.deleted else None

    @property
    def shown(self) -> opl.Object:
        """What the object is here; of one that is deleted here, its base."""
        found = self.mine or self.base
        assert found is not None
        return found

    @property
    def is_new(self) -> bool:
        """Whether it was made here, and no server has it."""
        return 'base' not in self._lines

    @property
    def edit(self) -> Optional[str]:
        """`new`, `changed` or `deleted`; None where nothing was edited. This is what `count` counts
        as changed.
        """
        if self.is_new:
            return 'new'
        if self._same:
            return None
        if self.mine is None:
            return 'deleted' if self.there else None
        return None if self.there and self.there.content == self.mine.content else 'changed'


def known_of(lines: Sequence[str]) -> Known:
    """The object of its lines, of which the first is `known ..`; those of another one may follow."""
    _, key, _, mine, conflict = lines[0].split(' ')
    thing = Known(key, conflict)
    thing._same = mine == 'same'
    for line in lines[1:]:
        word, _, rest = line.partition(' ')
        if word not in ('base', 'mine', 'theirs'):
            break
        thing._lines[word] = rest
    return thing


def read(text: str) -> Dict[str, Known]:
    """The objects of a saved session, Known by key, by rank; Trouble where the text is none.
    Incomplete ones aren't in it.
    """
    things: Dict[str, Known] = {}
    thing = Known('', 'none')
    if not text.startswith('session 1 ') or not text.endswith('session end\n'):
        raise NotWhole('it is no whole saved session')
    for line in text.split('\n'):
        word, _, rest = line.partition(' ')
        if word == 'known':
            key, _, mine, conflict = rest.split(' ')
            things[key] = thing = Known(key, conflict)
            thing._same = mine == 'same'
        elif word in ('base', 'mine', 'theirs'):
            thing._lines[word] = rest
    return things
