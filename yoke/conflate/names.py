"""How alike two texts are, by their words and by how rare these are."""
import math
import re
import unicodedata
from collections import Counter
from functools import lru_cache
from typing import Dict, FrozenSet, Iterable, List, Tuple

PUNCTUATION = re.compile(r'[^\w]+')
STREET = re.compile(r'(stra(ss|ß)e|str)\b\.?')
LEAST_ALIKE = 0.4  # words less alike than this have nothing in common


@lru_cache(maxsize=200_000)
def plain(text: str) -> str:
    """A text without case, accents and punctuation, and with one form of the German word street. A
    text of nothing but signs has these.
    """
    letters = unicodedata.normalize('NFKD', text.casefold())
    text = ''.join(sign for sign in letters if not unicodedata.combining(sign))
    return PUNCTUATION.sub(' ', STREET.sub('str', text)).strip() or text.strip()


@lru_cache(maxsize=200_000)
def pairs(word: str) -> FrozenSet[str]:
    """The pairs of neighbouring letters of a word."""
    word = f' {word} '
    return frozenset(word[at : at + 2] for at in range(len(word) - 1))


@lru_cache(maxsize=500_000)
def dice(one: str, other: str) -> float:
    """How alike two words are, 0 to 1, by the pairs of letters that both have."""
    first, second = pairs(one), pairs(other)
    return 2 * len(first & second) / (len(first) + len(second))


class Names:
    """How alike names are. A word counts by how rare it is among all names: of two bakeries with
    different families "bakery" says little."""

    def __init__(self, texts: Iterable[str]):
        self.count: 'Counter[str]' = Counter()
        self.known: Dict[Tuple[str, str], float] = {}
        for text in texts:
            self.count.update(set(plain(text).split()))

    def weight(self, word: str) -> float:
        """How much a word counts."""
        return 1 / (1 + math.log1p(self.count.get(word, 1)))

    def alike(self, one: str, other: str) -> float:
        """0 to 1; the same in both directions."""
        one, other = sorted((plain(one), plain(other)))
        if one == other:
            return 1.0
        if (one, other) not in self.known:
            first, second = one.split(), other.split()
            self.known[one, other] = (
                (self._half(first, second) + self._half(second, first)) / 2
                if first and second
                else 0.0
            )
        return self.known[one, other]

    def _half(self, words: List[str], others: List[str]) -> float:
        total = found = 0.0
        for word in words:
            weight, best = self.weight(word), max(dice(word, other) for other in others)
            total += weight
            found += weight * (best if best > LEAST_ALIKE else 0.0)
        return found / total
