"""The entries of the lines of a script: a heading with their words, and paragraphs that begin with
a head in bold letters.
"""
import re
from collections import namedtuple

from bench.check import counted
from bench.check.page_checks.page import PAGES, headings, lines_of

# the heads of an entry in their order; the first four stand in each
HEADS = ['Form', 'Does', 'Refuses', 'Costs', 'Example', 'Why so', 'See also']
NEEDED = 4

Entry = namedtuple(
    'Entry', 'page anchor words heads parts'
)  # heads: one by one; parts: texts by what stands in bold letters


def entries():
    """The entries of all pages."""
    found = []
    for page in PAGES:
        places = headings(page)
        for place, end in zip(
            places, [other.line - 1 for other in places[1:]] + [len(lines_of(page))]
        ):
            words = place.text.split(', ')
            parts = re.findall(
                r'^\*\*([A-Z][a-z, ]*)\.\*\* *((?:.+\n?)*)',
                '\n'.join(lines_of(page)[place.line : end]),
                re.M,
            )
            if set(words) <= set(counted.verbs()) and parts[:1] and parts[0][0] == 'Form':
                heads = [head.capitalize() for name, _ in parts for head in name.split(', ')]
                found.append(Entry(page, place.anchor, words, heads, dict(parts)))
    return found
