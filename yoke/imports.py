"""An import over what was imported before: which features are left out, which corners are shared,
and what is taken.

What ledgers know of a feature decides, and not its shape: others may have moved it or mended its
tags since.
"""
from __future__ import annotations

from collections import Counter
from dataclasses import dataclass, field
from decimal import Decimal
from typing import Iterator, Tuple

from yoke import opl
from yoke.formats.drawing import Drawing, Place, degrees, named
from yoke.formats.encodings import numbers
from yoke.formats.features import Feature
from yoke.ledger import Book, Corner, Desk, Entry, Identity
from yoke.sides import plain
from yoke.table import Table


@dataclass
class Plan:
    """What an import does with what ledgers know.

    `identities` are those of the features of the file, by number. With `again` features come that
    were taken before, with `apart` also such as touch those that others have taken and not sent.
    After the drawing `known` has the features that were left out since a ledger knows them, by what
    became of them.
    """

    desk: Desk
    book: Book
    found: Table
    identities: dict[int, Identity]
    again: bool = False
    apart: bool = False
    corners: dict[Place, str] = field(default_factory=dict)
    blocked: dict[Place, str] = field(default_factory=dict)
    known: Counter[Tuple[str, str]] = field(default_factory=Counter)
    changed: list[int] = field(default_factory=list)
    _sent: dict[str, Entry] = field(
        default_factory=dict
    )  # the features to which corners of other days belong

    def __post_init__(self) -> None:
        for place, (corner, entry) in self.book.corners(self.desk.server).items():
            if entry.event == 'sent' or self.desk.is_own(entry):
                if self._is_there(corner, entry):
                    self.corners[place] = corner.key
                    self._sent[corner.key] = entry
            elif not self.apart:
                self.blocked[place] = (
                    f'it touches row {entry.row} of {plain(entry.dataset)}, which {plain(entry.who)} has taken and not sent yet: '
                    'import it after that, or by --apart'
                )

    def _is_there(self, corner: Corner, entry: Entry) -> bool:
        """Whether a corner may be referred to: the session has it, or has never heard of it and a
        server has it.
        """
        if corner.key in self.found.things:
            return self.found.mine(corner.key) is not None
        return entry.event == 'sent'

    def before(self, feature: Feature) -> str:
        """Why a feature was taken before, in words; empty where it wasn't."""
        one = self.identities[feature.number]
        entry = None if self.again else self.book.find(one, self.desk.server)
        if entry is None:
            return ''
        if one.id and entry.id == one.id and entry.digest != one.digest:
            self.changed.append(feature.number)
        return self._told(entry)

    def _told(self, entry: Entry) -> str:
        keys, who = ','.join(entry.keys), plain(entry.who)
        if entry.event == 'sent':
            self.known['sent', who] += 1
            sent = f'{"in changeset " if len(entry.changeset.split()) == 1 else "in changesets "}{entry.changeset.replace(" ", ", ")}'
            return (
                f'the session has it already, as {keys}: sent {sent}'
                if self.desk.is_own(entry)
                else f'it was sent by {who} {sent}, as {keys}'
            )
        if self.desk.is_own(entry):
            return f'the session has it already, as {keys}'
        self.known['taken', who] += 1
        return f'it was taken by {who} at {entry.time} (claim {entry.claim}), and isn\'t sent yet'

    def report(self) -> Iterator[str]:
        """How many features were left out since a ledger knows them."""
        for (event, who), count in self.known.items():
            yield f'ledger: {count} feature{"" if count == 1 else "s"} not made again: ' + (
                f'sent by {who}' if event == 'sent' else f'taken by {who}, and not sent yet'
            )
        if self.changed:
            yield (
                f'ledger: {len(self.changed)} of them {"is" if len(self.changed) == 1 else "are"} another in this file than when '
                f'taken: {numbers(self.changed)}; edit what was sent by yoke tag --csv'
            )

    # ---- what is taken ----

    def claimed(
        self, picture: Drawing
    ) -> list[tuple[Identity, tuple[str, ...], tuple[Corner, ...]]]:
        """The features that were drawn, each with the keys that it gets in the session, and its
        corners without tags.
        """
        keys = picture.keys(self.found.next_new)
        places = {key: place for place, key in self.corners.items()}
        found = []
        for made in picture.made:
            corners = []
            for key in made.corners:
                if key in picture.nodes and not picture.nodes[key][1]:
                    corners.append(Corner(keys[key], picture.nodes[key][0]))
                elif named(key, {}) in places:
                    corners.append(Corner(named(key, {}), places[named(key, {})]))
            found.append(
                (
                    self.identities[made.feature.number],
                    tuple(keys[key] for key in made.keys),
                    tuple(corners),
                )
            )
        return found

    def downloads(self, picture: Drawing) -> list[str]:
        """The lines of an extract with the corners that a server has and the session doesn't, as
        they were when they were sent.
        """
        used = dict.fromkeys(
            key
            for made in picture.made
            for key in made.corners
            if key in self._sent and key not in self.found.things
        )
        places = {key: place for place, key in self.corners.items()}
        return [
            opl.line(
                opl.Object(
                    key,
                    1,
                    changeset=int(self._sent[key].changeset.split()[-1] or 0),
                    lon=_degrees(places[key][0]),
                    lat=_degrees(places[key][1]),
                )
            )
            for key in used
        ]


def _degrees(units: int) -> Decimal:
    return Decimal(degrees(units))
