"""What goes wrong on purpose between a client and the strict server: once, or by a seeded chance.
"""
import dataclasses
import random
import threading
from typing import List, Optional

KINDS = {
    'close-before': 'the connection is closed before anything is done',
    'drop-after': 'all is done, and the connection is closed without an answer',
    'half-after': 'all is done, and the answer breaks off in the middle',
    '500-before': '500, and nothing is done',
    '500-after': 'all is done, and then 500',
    '504-before': '504, and nothing is done',
    '504-after': 'all is done, and then 504',
    '302-after': 'all is done, and then a redirection, as a gateway makes of its own 504',
    'late-1': 'the connection is closed, and all is done before the next request',
    'late-2': 'the same, before the second request after it',
    'late-3': 'the same, before the third request after it',
    '429-before': '429 with the Retry-After of the limits, and nothing is done',
    '429-bare-before': '429 without Retry-After, and nothing is done',
    '509-before': '509 with the Retry-After of the limits, and nothing is done',
    '413-before': '413 for too many changes, and nothing is done',
    '413-box-before': '413 for the bounding box of the changeset, and nothing is done',
    '403-block-before': '403 since the account is blocked, and nothing is done',
    '403-scope-before': '403 since the token may not edit the map, and nothing is done',
}


@dataclasses.dataclass
class Fault:
    """A fault of an operation (`any` for each), which meets it once after so many others, or each
    time by a chance.
    """

    kind: str
    operation: str
    skip: int = 0
    chance: Optional[float] = None
    picks: Optional[random.Random] = None

    def is_met(self) -> bool:
        """Whether it meets a request of its operation; where it counts, it counts this one."""
        if self.chance is not None:
            return self.picks.random() < self.chance
        self.skip -= 1
        return self.skip < 0


class Faults:
    """The faults that are to come, and those that were met."""

    def __init__(self):
        self.waiting: List[Fault] = []
        self.met: List[str] = []  # the kind and the operation of each, such as `drop-after upload`
        self._lock = threading.Lock()

    def once(self, kind: str, operation: str = 'upload', skip: int = 0) -> None:
        """Lets the next request of an operation meet a fault, or the one after so many that don't."""
        self._add(Fault(known(kind), operation, skip))

    def by_chance(self, kind: str, chance: float, seed: int, operation: str = 'any') -> None:
        """Lets requests of an operation meet a fault with a chance from 0 to 1, the same ones for
        the same seed.
        """
        self._add(Fault(known(kind), operation, 0, chance, random.Random(seed)))

    def clear(self) -> None:
        """Takes all away that are to come."""
        with self._lock:
            self.waiting = []

    def _add(self, fault: Fault) -> None:
        with self._lock:
            self.waiting.append(fault)

    def next(self, operation: str) -> str:
        """The kind of the fault that a request meets, or an empty text."""
        with self._lock:
            for fault in self.waiting:
                if fault.operation in ('any', operation) and fault.is_met():
                    if fault.chance is None:
                        self.waiting.remove(fault)
                    self.met.append(f'{fault.kind} {operation}')
                    return fault.kind
        return ''


def known(kind: str) -> str:
    """The kind of a fault itself; ValueError where there is none of this name."""
    if kind not in KINDS:
        raise ValueError('no fault {!r}: there are {}'.format(kind, ', '.join(KINDS)))
    return kind
