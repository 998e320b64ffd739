"""The rules by which a feature and an object are the same, from a file with a line for each:

    against Tshop=* or Tamenity=*       # the objects in question: a query; several lines are joined
    within 40                           # metres
    id ref:shop                         # an equal value decides, up to ten times as far
    same shop amenity                   # where both have it, it has to be equal: a kind
    equal addr:street addr:housenumber  # the same, regardless of case and punctuation
    like name brand                     # how alike these are counts
    unlike 0.65                         # names less alike than this, of one kind and near: ask
    least 0.62                          # from this score on it is the same
    doubt 0.5                           # below this it isn't; between the two: ask
    margin 0.08                         # so much better than the next one, else: ask
    overlap 0.5                         # share of two outlines or lines that has to agree
    take phone website                  # set where the object has none; `take *` takes all
    over opening_hours                  # set also where the object has another value
    source-id NR                        # the column with the file's own id; it becomes no tag
    gone                                # list objects whose id isn't in the file any more

Empty lines, and what follows a `#`, are skipped.
"""
from dataclasses import dataclass, field
from typing import List

LISTS = ('id', 'same', 'equal', 'like', 'take', 'over')
NUMBERS = ('within', 'least', 'doubt', 'margin', 'unlike', 'overlap')


@dataclass
class Rules:
    """The rules of a file; distances are metres, scores and shares 0 to 1."""

    against: List[str] = field(default_factory=list)
    id: List[str] = field(default_factory=list)
    same: List[str] = field(default_factory=list)
    equal: List[str] = field(default_factory=list)
    like: List[str] = field(default_factory=lambda: ['name'])
    take: List[str] = field(default_factory=list)
    over: List[str] = field(default_factory=list)
    within: float = 30
    least: float = 0.62
    doubt: float = 0.5
    margin: float = 0.08
    unlike: float = 0.65
    overlap: float = 0.5
    source_id: str = ''
    gone: bool = False

    def takes(self, key: str) -> bool:
        """Whether a tag is set on an object that has none of this key."""
        return key in self.take or '*' in self.take


def read(text: str) -> Rules:
    """The rules of a file; ValueError, with the line, where one is none."""
    rules, seen = Rules(), set()
    for number, line in enumerate(text.split('\n'), 1):
        words = line.split(' #')[0].split()
        if not words or words[0][0] == '#':
            continue
        name, *rest = words
        if name in seen and name != 'against':
            raise ValueError(f'line {number}: there is a line {name} already')
        seen.add(name)
        if name == 'against' and rest:
            rules.against.append(' '.join(rest))
        elif name in LISTS and rest:
            setattr(rules, name, rest)
        elif name in NUMBERS and len(rest) == 1:
            setattr(rules, name, number_of(rest[0], number))
        elif name == 'source-id' and rest:
            rules.source_id = ' '.join(rest)
        elif name == 'gone' and not rest:
            rules.gone = True
        else:
            raise ValueError(f'line {number}: {line.strip()[:60]} is no rule')
    if not rules.against:
        raise ValueError('it names no objects: a line against QUERY is wanted')
    if not 0 < rules.doubt <= rules.least <= 1 or not 0 < rules.within <= 100_000:
        raise ValueError('0 < doubt <= least <= 1 is wanted, and within from 0 to 100,000 metres')
    if not 0 < rules.overlap <= 1 or not 0 <= rules.unlike <= 1 or not 0 <= rules.margin <= 1:
        raise ValueError('overlap, unlike and margin are shares, from 0 to 1')
    return rules


def number_of(text: str, line: int) -> float:
    """A number of a rule; ValueError if it is none."""
    try:
        found = float(text)
    except ValueError:
        raise ValueError(f'line {line}: {text[:40]} is no number') from None
    if found != found or found in (float('inf'), float('-inf')):
        raise ValueError(f'line {line}: {text[:40]} is no number')
    return found
