"""Names for new objects of a script, written out as the keys that the objects get.

    node x13.65 y0.05 Tamenity=bench as bench
    way Thighway=footway Nn2,bench as path
    tag path Tsurface=gravel

The program counts the ids of new objects, and a refused addition moves those of all later ones. So
from the first line that makes an object to the last one with a name all lines become one group: in
it each addition is accepted, and then the ids are as they were counted, or nothing of it is done.
"""
import re
from dataclasses import dataclass, field
from typing import Callable, Dict, List, Optional, Tuple

from yoke.scripts import grammar

NAME = re.compile('[A-Za-z_][A-Za-z0-9_-]*', re.ASCII)
MAKES = {'node': 'n', 'way': 'w', 'relation': 'r'}
WORDS = {'node': 3, 'way': 2, 'relation': 2}  # after the verb, without a name
KEYS = {
    'tag': (0,),
    'move': (0,),
    'place': (0,),
    'nodes': (0,),
    'members': (0,),
    'delete': (0,),
    'erase': (0,),
    'purge': (0,),
    'split': (0, 1),
    'combine': (0,),
    'reverse': (0,),
    'squeeze': (0,),
    'fuse': (0,),
    'resolve': (0,),
    'insert': (0, 1, 2),
    'add-member': (1,),
    'mend-turns': (0,),
}  # which words after a verb are keys


class BadName(Exception):
    """A name of a script can't be written out. `line` is the number of the line, from 1."""

    def __init__(self, line: int, text: str):
        super().__init__(text)
        self.line = line


@dataclass
class Expanded:
    """A script as the program takes it: its lines, the number of the line of the script that each
    comes from, and the keys by name.

    `rows` has, by the place among `lines`, the row of a table that a line comes from, as `a.csv:4`.
    `problems` has, so too, lines that are refused whatever there is, since they stand for one that
    can't be written out: that line, and why not. `notes` are what is to be told of lines, with
    their numbers.
    """

    lines: List[str]
    numbers: List[int]
    names: Dict[str, str] = field(default_factory=dict)
    rows: Dict[int, str] = field(default_factory=dict)
    problems: Dict[int, Tuple[str, str]] = field(default_factory=dict)
    notes: List[Tuple[int, str]] = field(default_factory=list)


def expand(lines: List[str], next_new: int, count: Callable[[str], int]) -> Expanded:
    """Writes the names of a script out; BadName where that can't be done. A script without names
    stays as it is.

    `next_new` is the number that the session gives next. `count` answers with how many new objects
    the file of an `import` has, by its name as it stands in the script.
    """
    if not any(name_of(line) for line in lines):
        return Expanded(list(lines), list(range(1, len(lines) + 1)))
    return _Expander(lines, next_new, count).expand()


def name_of(line: str) -> Optional[str]:
    """The name that a line gives to the object that it makes; None where it gives none."""
    words = [] if grammar.is_skipped(line) else grammar.words_of(line)
    gives = words and words[0] in MAKES and len(words) == WORDS[words[0]] + 3 and words[-2] == 'as'
    return words[-1] if gives else None


@dataclass
class _Expander:
    lines: List[str]
    next_new: Optional[int]
    count: Callable[[str], int]
    names: Dict[str, str] = field(default_factory=dict)

    def expand(self) -> Expanded:
        first = next(
            at for at, line in enumerate(self.lines) if verb_of(line) in {*MAKES, 'import', 'split'}
        )
        written, last = [], first
        for at, line in enumerate(self.lines):
            text, has_name = self._line(at + 1, line)
            written.append(text)
            last = at if has_name else last
        first, last = self._with_groups(first, last)
        found = [(text, at + 1) for at, text in enumerate(written[:first])] + [('begin', first + 1)]
        found += [
            (text, at + 1)
            for at, text in enumerate(written[first : last + 1], first)
            if self._in_group(at + 1, text)
        ]
        found += [('end', last + 1)] + [
            (text, at + 1) for at, text in enumerate(written[last + 1 :], last + 1)
        ]
        return Expanded([text for text, _ in found], [number for _, number in found], self.names)

    def _line(self, number: int, line: str) -> Tuple[str, bool]:
        """A line without names, and whether it had any; counts the ids that it takes."""
        verb, name = verb_of(line), name_of(line)
        if not verb:
            return line, False
        words = grammar.words_of(line)
        words = words[:-2] if name else words
        before = list(words)
        for at in KEYS.get(verb, ()):
            if at + 1 < len(words):
                words[at + 1] = self._keys(number, words[at + 1])
        if verb in ('way', 'nodes') and words[-1].startswith('N'):
            words[-1] = 'N' + self._keys(number, words[-1][1:], 'n')
        if verb in ('relation', 'members') and words[-1].startswith('M'):
            words[-1] = 'M' + self._members(number, words[-1][1:])
        if verb == 'add-member' and len(words) > 1:
            words[1] = self._members(number, words[1])
        self._number(number, verb, words)
        if name:
            self._give(number, name, MAKES[verb])
        return (line, False) if words == before and not name else (' '.join(words), True)

    def _number(self, number: int, verb: str, words: List[str]) -> None:
        """Counts the ids that a line takes; after a `split` nobody knows the next one."""
        if verb in MAKES and self.next_new is not None:
            self.next_new += 1
        elif verb == 'split':
            self.next_new = None
        elif verb == 'import' and self.next_new is not None and len(words) == 2:
            try:
                self.next_new += self.count(words[1])
            except (OSError, ValueError) as error:
                raise BadName(
                    number, f'the new objects of {words[1]} can\'t be counted: {error}'
                ) from None

    def _give(self, number: int, name: str, letter: str) -> None:
        if not NAME.fullmatch(name) or re.fullmatch('[nwr]-?[0-9]+', name):
            raise BadName(
                number,
                '{} is no name: a letter, and letters, digits, - and _, but no key'.format(
                    grammar.shown(name)
                ),
            )
        if name in self.names:
            raise BadName(number, f'the name {name} is given already')
        if self.next_new is None:
            raise BadName(
                number,
                'how many objects a split makes isn\'t known before: put it after the last line that gives a name',
            )
        self.names[name] = f'{letter}-{self.next_new - 1}'

    def _keys(self, number: int, word: str, letter: str = '') -> str:
        return ','.join(self._key(number, text, letter) for text in word.split(','))

    def _key(self, number: int, text: str, letter: str = '') -> str:
        """The key that a text names; a text that is no name stays, and is for the program to judge."""
        if not NAME.fullmatch(text) or re.fullmatch('[nwr]-?[0-9]+', text):
            return text
        if text not in self.names:
            raise BadName(number, f'{text} is no key, and no name that a line before gives')
        if letter and self.names[text][0] != letter:
            raise BadName(
                number,
                '{} is a {}, and the nodes of a way are nodes'.format(
                    text, grammar.KINDS[self.names[text][0]]
                ),
            )
        return self.names[text]

    def _members(self, number: int, text: str) -> str:
        members = (member.partition('@') for member in text.split(','))
        return ','.join(self._key(number, key) + at + role for key, at, role in members)

    def _with_groups(self, first: int, last: int) -> Tuple[int, int]:
        """The lines that become one group, with all of the groups that begin or end among them."""
        begun = None
        for at, line in enumerate(self.lines):
            if verb_of(line) == 'begin':
                begun = at
            if verb_of(line) == 'end' and begun is not None:
                if begun <= last and at >= first:
                    first, last = min(first, begun), max(last, at)
                begun = None
        if begun is not None and begun <= last:
            first, last = min(first, begun), len(self.lines) - 1
        return first, last

    def _in_group(self, number: int, text: str) -> bool:
        """Whether a line stands in the group; the `begin` and `end` of groups that it takes in
        don't.
        """
        verb = verb_of(text)
        if verb in grammar.IN_NO_GROUP and verb != 'begin':
            raise BadName(
                number,
                'a {} can\'t stand here: from the first new object to the last name all is one group'.format(
                    verb
                ),
            )
        return verb not in ('begin', 'end')


def verb_of(line: str) -> str:
    """The first word of a line; empty where the line is skipped."""
    return '' if grammar.is_skipped(line) else (grammar.words_of(line) or [''])[0]


def new_objects(text: str) -> int:
    """How many new objects an OPL file has: those with a negative id that aren't marked as deleted."""
    lines = (
        re.split('[ \t]+', line.rstrip('\r'))
        for line in text.split('\n')
        if re.match('[nwr]-', line)
    )
    return sum('dD' not in words[1:] for words in lines)
