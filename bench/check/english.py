#!/usr/bin/env python3
"""Measures how hard pages are to read: the length of their sentences, and words that a reader has
to take twice.

    bench/check/english.py            a line for each page: words, sentences, mean and longest sentence, odd words
    bench/check/english.py --check    ends with 1 where a page of PLAIN isn't plain, or all pages have more words than MOST_WORDS
    bench/check/english.py PAGE..     the sentences of these pages that are too long, and the odd words, each with its line

A page is plain where a sentence has at most 16 words on average and none more than 35, and where it
has none of the odd phrases. Tables, code, quotes and headings don't count as sentences; an item of
a list is one.

The words of a page are all of its text between blanks that has a letter or a digit, tables and code
included: bars, dashes, arrows and fences are no words. Needs Python alone.
"""
from __future__ import annotations

import argparse
import pathlib
import re
import sys
from collections.abc import Iterator
from dataclasses import dataclass

TOP = pathlib.Path(__file__).resolve().parents[2]
MEAN, LONGEST = 16, 35  # words of a sentence
MOST_WORDS = 38_000  # of all pages together

# Pages that are plain, and stay so. A page that is rewritten joins them, and each how-to belongs to
# them.
PLAIN = [
    'docs/PROOF.md',
    'docs/SPEED.md',
    'docs/TRIALS.md',
    'README.md',
    'docs/INSTALL.md',
    'docs/JSON.md',
    'docs/PROVED.md',
    'docs/COMPANION.md',
    'docs/COMPANION-FORMATS.md',
    'docs/REFUSALS.md',
    'docs/CRATES.md',
    'docs/MERGING.md',
    'docs/DOWNLOADS.md',
    'docs/TABLES.md',
    'docs/COMMANDS.md',
    'docs/SCRIPTS.md',
    'docs/UPLOADS.md',
    'docs/ARCHITECTURE.md',
    'docs/OPL.md',
    'docs/DECISIONS.md',
    'docs/RELATIONS.md',
    'CONTRIBUTING.md',
    'docs/MEETINGS.md',
    'docs/SAVING.md',
    'docs/GLOSSARY.md',
    'docs/CHEATSHEET.md',
    'docs/TOUR.md',
    'CHANGELOG.md',
    'yoke/README.md',
    'docs/PYTHON.md',
    'docs/PROTOCOL.md',
    *sorted(str(path.relative_to(TOP)) for path in (TOP / 'docs' / 'HOWTO').glob('*.md')),
]

# Phrases that read as if translated, and what to write in their place.
ODD = {
    r'\bothers than\b': 'other than, or different from',
    r'\bbut for\b': 'except',
    r'\bbut those\b': 'except those',
    r'\b(?:[Aa]sked|[Kk]ept|[Rr]efused|[Tt]aken) (?:is|are)\b': 'the subject first',
    r'\b[Ww]ho has\b': 'if you have',
    r'\b[Ww]ho (?:wants|does|doesn\'t|reads|sends|edits)\b': 'if you ..., or people who',
    r'\ba front of\b': 'a beginning of',
    r'\bdear(?:est|er)?\b': 'slow, or expensive',
    r'\bas it was seen\b': 'a figure in a table, with its machine',
    r'\bslow ones\b': 'a machine by its clock rate',
    r'\bno other one\b': 'no other',
    r'\b[Mm]ended it\b': 'with ... fixed, it',
    r'\b(?:isn\'t|wasn\'t) to be had\b': 'there is no, or can\'t be read',
    r'\bstands? (?:at|in|on|under) length\b': 'is explained in',
}


@dataclass(frozen=True)
class Sentence:
    """A sentence, with the line on which it begins."""

    line: int
    text: str

    @property
    def words(self) -> int:
        """How many words it has: a `code` counts as one."""
        return len(re.findall(r'[\w\'’`][\w\'’`./:*-]*', self.text))


def paragraphs(text: str) -> Iterator[tuple[int, str]]:
    """The paragraphs and items of lists of a page, outside code, tables and headings, each with its
    first line.
    """
    fenced, begun, held = False, 0, []
    for number, line in enumerate([*text.split('\n'), ''], 1):
        stripped = line.strip()
        fenced ^= stripped.startswith('```')
        is_text = (
            bool(stripped)
            and not fenced
            and not stripped.startswith(('```', '|', '#', '![', '<', '---', '>'))
        )
        is_item = bool(re.match(r'(?:[-*]|\d+\.) ', stripped))
        if held and (not is_text or is_item):
            yield begun, ' '.join(held)
            held = []
        if is_text:
            begun = begun if held else number
            held.append(re.sub(r'^(?:[-*>]|\d+\.) ', '', stripped))


def sentences(text: str) -> list[Sentence]:
    """The sentences of a page."""
    found = []
    for line, paragraph in paragraphs(text):
        plain = re.sub(r'`[^`]*`', '`code`', paragraph)
        plain = re.sub(r'!?\[([^\]]*)\]\([^)]*\)', r'\1', plain).replace('**', '').replace('*', '')
        for part in re.split(r'(?<=[.?!:])[)"”]?\s+(?=["“(]?[A-Z`0-9])', plain):
            if re.search('[a-z]', part):
                found.append(Sentence(line, part.strip()))
    return found


def odd_words(text: str) -> list[tuple[int, str, str]]:
    """The odd phrases of a page: the line, the phrase, and what to write in its place."""
    found = []
    for line, paragraph in paragraphs(text):
        for pattern, better in ODD.items():
            found += [(line, hit[0], better) for hit in re.finditer(pattern, paragraph)]
    return found


@dataclass(frozen=True)
class Measure:
    """The figures of a page."""

    page: str
    words: int
    sentences: list[Sentence]
    odd: list[tuple[int, str, str]]

    @property
    def mean(self) -> float:
        """Words of a sentence on average."""
        return (
            sum(one.words for one in self.sentences) / len(self.sentences)
            if self.sentences
            else 0.0
        )

    @property
    def longest(self) -> int:
        """Words of the longest sentence."""
        return max((one.words for one in self.sentences), default=0)

    @property
    def is_plain(self) -> bool:
        """Whether the page keeps to the rules."""
        return self.mean <= MEAN and self.longest <= LONGEST and not self.odd


def count_words(text: str) -> int:
    """How many words a text has: tokens between blanks that have a letter or a digit."""
    return sum(any(map(str.isalnum, token)) for token in text.split())


def measure(page: str) -> Measure:
    """The figures of a page, by its path from the top."""
    text = (TOP / page).read_text(encoding='utf-8')
    return Measure(page, count_words(text), sentences(text), odd_words(text))


def pages() -> list[str]:
    """All pages, by their paths from the top."""
    names = ['README.md', 'CONTRIBUTING.md', 'CHANGELOG.md', 'yoke/README.md']
    return names + sorted(str(path.relative_to(TOP)) for path in (TOP / 'docs').glob('**/*.md'))


def details(page: str) -> None:
    """Prints what is hard to read on a page."""
    found = measure(page)
    for one in found.sentences:
        if one.words > LONGEST:
            print(f'{page}:{one.line}: {one.words} words: {one.text}')
    for line, phrase, better in found.odd:
        print(f'{page}:{line}: {phrase}: write {better}')
    print(
        f'{page}: {len(found.sentences)} sentences of {found.mean:.1f} words, the longest has {found.longest}'
    )


def check() -> int:
    """Whether the plain pages are plain, and all pages few enough words: the exit code."""
    bad = [found for found in map(measure, PLAIN) if not found.is_plain]
    for found in bad:
        details(found.page)
    words = sum(measure(page).words for page in pages())
    print(
        f'{len(PLAIN) - len(bad)} of {len(PLAIN)} plain pages are plain; {words:,} words in {len(pages())} pages, {MOST_WORDS:,} at most'
    )
    return 1 if bad or words > MOST_WORDS else 0


def main() -> int:
    words = argparse.ArgumentParser(
        description=__doc__, formatter_class=argparse.RawDescriptionHelpFormatter
    )
    words.add_argument('--check', action='store_true')
    words.add_argument('pages', metavar='PAGE', nargs='*')
    said = words.parse_args()
    if said.check:
        return check()
    for page in said.pages:
        details(page)
    if not said.pages:
        for found in map(measure, pages()):
            print(
                f'{found.words:6} words {len(found.sentences):4} sentences  mean {found.mean:4.1f}  longest {found.longest:3}  '
                f'odd {len(found.odd):3}  {found.page}'
            )
    return 0


if __name__ == '__main__':
    sys.exit(main())
