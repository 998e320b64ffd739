"""The objects of an extract, put together from parts: of each the newest version."""
import contextlib
from collections import Counter
from typing import Dict, Iterator, Optional, Set, Tuple

from yoke import opl
from yoke.extracts import header
from yoke.files import write_new


class Whole:
    """Objects by key, each as its version and its line of OPL, which takes less memory than an
    object.

    `changed` has the keys of objects that came in different versions: somebody changed them
    between two calls.
    """

    def __init__(self) -> None:
        self.lines: Dict[str, Tuple[int, str]] = {}
        self.changed: Set[str] = set()

    def add(self, thing: opl.Object) -> None:
        """Takes an object in, unless a newer version of it is there."""
        self.add_line(thing.key, thing.version, opl.line(thing))

    def add_line(self, key: str, version: int, line: str) -> None:
        """The same, of a line."""
        before = self.lines.get(key)
        if before is not None and before[0] != version:
            self.changed.add(key)
        if before is None or before[0] < version:
            self.lines[key] = version, line

    def add_text(self, text: str) -> None:
        """Takes in the lines of a part, as this module wrote them."""
        for line in text.split('\n'):
            if line and line[0] != '#':
                key, version, _ = line.split(' ', 2)
                self.add_line(key, int(version[1:]), line)

    def references(self, letter: str) -> Iterator[str]:
        """The keys to which objects of a kind refer: `w` or `r`; those that repeat too."""
        for key, (_, line) in self.lines.items():
            if key[0] == letter:
                for part in line.rsplit(' ', 1)[1][1:].split(','):
                    if part:
                        yield part.split('@', 1)[0]

    def missing(self, letters: str = 'wr') -> Set[str]:
        """The keys that objects of these kinds refer to and that aren't there."""
        return {key for letter in letters for key in self.references(letter)} - set(self.lines)

    def numbers(self) -> Dict[str, int]:
        """How many objects there are by the letters of their kinds."""
        return Counter(key[0] for key in self.lines)

    def counts(self) -> str:
        """The same in words."""
        kinds = self.numbers()
        return ', '.join(
            f'{kinds.get(letter, 0)} {name}'
            for letter, name in (('n', 'nodes'), ('w', 'ways'), ('r', 'relations'))
        )

    def newest(self) -> Optional[str]:
        """The newest time of an object."""
        newest = ''
        for _, line in self.lines.values():
            with contextlib.suppress(IndexError):
                newest = max(newest, line.split(' ', 5)[4][1:])
        return newest or None

    def write(self, target: str, moment: Optional[str], source: str) -> None:
        """Writes the extract whole, and never over another file."""
        write_new(target, self._lines(moment, source))

    def _lines(self, moment: Optional[str], source: str) -> Iterator[str]:
        yield header.line(moment, source) + '\n'
        for key in sorted(self.lines, key=opl.rank):
            yield self.lines[key][1] + '\n'
