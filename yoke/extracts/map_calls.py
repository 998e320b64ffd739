"""A box from a server of API 0.6, by as many calls of `map` as it takes.

A box larger than the server allows is cut in two, and so is one with too many nodes, until each
part is answered. The parts are of different moments: the newest version of an object counts, and
nodes of ways that are missing after that are asked for.
"""
import time
from dataclasses import dataclass
from decimal import Decimal, InvalidOperation
from typing import Callable, List, Optional, Set

from yoke import api, opl, osc
from yoke.extracts import boxes, header
from yoke.extracts.parts import Parts
from yoke.extracts.whole import Whole
from yoke.formats.drawing import Box
from yoke.trouble import NoAnswer, Refused, ServerRefused

MOST_CALLS = 200  # of one box; a larger one is better cut out of a file
AREA = Decimal('0.25')  # square degrees of a call, if the server doesn't say
SMALLEST = 1000  # units of 10^-7 degree: a box this narrow isn't cut further
ROUNDS = 3  # how often objects are asked for that are missing
CUT = '# cut\n'  # what is kept of a part that had too many nodes
TOO_MUCH = ('too many nodes', 'bbox size', 'too large')


@dataclass
class Fetched:
    """What came: the objects, the number of calls, and the moments of the first and the last one."""

    whole: Whole
    calls: int
    first: str
    last: str
    fetched_after: int


class BoxDownload:
    """The download of boxes into parts."""

    def __init__(
        self,
        server: api.Server,
        parts: Parts,
        note: Callable[[str], None],
        most: int = MOST_CALLS,
        clock: Callable[[], float] = time.time,
    ):
        self.server, self.parts, self.note, self.most, self.clock = server, parts, note, most, clock
        self.whole, self.moments, self.calls = Whole(), [], 0  # type: Whole, List[str], int

    def run(self, wanted: List[Box]) -> Fetched:
        """All objects of the boxes, or Refused if it would take too many calls."""
        largest = self._largest()
        waiting = [part for box in wanted for part in self._cut(box, largest)][::-1]
        while waiting:
            self._check_count(len(waiting))
            box = waiting.pop()
            text = self._part(box, len(waiting))
            if text == CUT:
                waiting += boxes.halves(box)[::-1]
            else:
                self.whole.add_text(text)
        after = self._settle()
        return Fetched(self.whole, self.calls, min(self.moments), max(self.moments), after)

    def _largest(self) -> Decimal:
        """Square degrees of one call."""
        found = self.server.capabilities().find('./api/area')
        try:
            largest = Decimal(found.get('maximum') or '') if found is not None else AREA
        except InvalidOperation:
            largest = AREA
        return largest if largest.is_finite() and largest > 0 else AREA

    def _cut(self, box: Box, largest: Decimal) -> List[Box]:
        """The parts of a box that are small enough by area."""
        if boxes.area(box) > largest * self.most:
            raise self._too_many()
        if boxes.area(box) <= largest:
            return [box]
        return [part for half in boxes.halves(box) for part in self._cut(half, largest)]

    def _check_count(self, waiting: int) -> None:
        if self.calls + waiting > self.most:
            raise self._too_many()

    def _too_many(self) -> Refused:
        return Refused(
            f'the box wants more than {self.most} calls: take a file of the region '
            'and --from FILE, or allow more by --max-calls'
        )

    def _part(self, box: Box, waiting: int) -> str:
        """The text of a part: kept before, or asked for now and kept; CUT if the box is too full."""
        name = '_'.join(map(str, box))
        path = self.parts.path(name)
        if path.exists():
            text = path.read_text(encoding='utf-8')
            if text != CUT:
                self.moments.append(header.moment_of(str(path)) or header.stamp(self.clock()))
            return text
        moment = header.stamp(self.clock())
        self.calls += 1
        found = self._ask(box)
        if found is None:
            text = CUT
        else:
            lines = [header.line(moment, self.server.address), *map(opl.line, found)]
            text = '\n'.join(lines) + '\n'
            self.moments.append(moment)
            self.note(f'{boxes.words(box)}: {len(found)} objects; {waiting} more calls at least')
        self.parts.keep(name, text)
        return text

    def _ask(self, box: Box) -> Optional[List[opl.Object]]:
        """The objects of a box; None if the server says that it has too many."""
        try:
            text = self.server.look('/map?bbox=' + boxes.words(box))
        except ServerRefused as refused:
            is_full = refused.status in (400, 413) and any(
                words in refused.text for words in TOO_MUCH
            )
            if not is_full or min(box[2] - box[0], box[3] - box[1]) <= SMALLEST:
                raise
            return None
        found: List[opl.Object] = self.server._read(osc.things, text)
        return found

    def _settle(self) -> int:
        """Asks for nodes that ways use and that no call had, as of ways that came newer in a later
        call. NoAnswer if the server doesn't give them: the extract wouldn't be whole."""
        count = 0
        for _ in range(ROUNDS):
            missing = sorted(self.whole.missing('w'), key=opl.rank)
            if not missing:
                return count
            for thing in self.server.things(missing, lambda key: None):
                if not thing.deleted:
                    self.whole.add(thing)
                    count += 1
            still = self.whole.missing('w')
            if still:
                self._renew(still)
        left = self.whole.missing('w')
        if left:
            raise NoAnswer(
                f'{min(left, key=opl.rank)} and {len(left) - 1} more nodes of ways '
                'don\'t come from the server: begin again with --anew'
            )
        return count

    def _renew(self, missing: Set[str]) -> None:
        """Asks for the ways that use nodes which are gone: somebody changed them meanwhile."""
        ways = [
            key
            for key, (_, line) in self.whole.lines.items()
            if key[0] == 'w' and not missing.isdisjoint(line.rsplit(' ', 1)[1][1:].split(','))
        ]
        for thing in self.server.things(ways, lambda key: None):
            if thing.deleted:
                self.whole.lines.pop(thing.key, None)
            else:
                self.whole.add(thing)
