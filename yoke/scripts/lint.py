"""Every bad line of a script, with its cause and the right form; the program names the first alone,
and no cause.
"""
from dataclasses import dataclass
from typing import Dict, List

from yoke import words
from yoke.scripts import grammar, mends, shorthand

LARGEST = 16777216  # bytes of a script


@dataclass(frozen=True)
class Finding:
    """A line that is none, or that may not stand where it does: its number, its text, the cause,
    and what would do.

    `is_mend` tells whether `right` is the line itself mended; else it is the form that such a line
    has.
    """

    line: int
    text: str
    cause: str
    right: str
    is_mend: bool = False


def findings(lines: List[str], short: bool = False) -> List[Finding]:
    """What is wrong with the lines of a script, as `grammar.lines_of` has them; with `short` lines
    that are written out are lines too.

    How many steps such a line makes isn't known before, so after one nothing is undone.
    """
    found, place, is_after = [], grammar.Place(), False
    for number, line in enumerate(lines, 1):
        if grammar.is_skipped(line):
            continue
        ones = _line(number, line, place, short)
        if is_after and not ones and grammar.words_of(line)[0] in ('undo', 'redo'):
            ones = [
                Finding(
                    number,
                    line,
                    'how many steps the lines before it make isn\'t known: one is written out by yoke',
                    'in a script of its own',
                )
            ]
        is_after = is_after or short and shorthand.is_short(line)
        found += ones
    return found


def _line(number: int, line: str, place: grammar.Place, short: bool) -> List[Finding]:
    """What is wrong with a line that stands there; the place goes after it."""
    try:
        verb = (shorthand if short else grammar).check_line(line)
    except grammar.Bad as fault:
        right = (shorthand if short else mends).mended(line)
        found = [Finding(number, line, str(fault), right or form(line, short), right is not None)]
        verb = (right or line.strip(grammar.BLANKS) or line).split(' ')[0].split('\t')[0]
    else:
        try:
            place.check(verb)
            found = []
        except grammar.Bad as fault:
            found = [
                Finding(
                    number,
                    line,
                    str(fault),
                    WHERE.get(
                        verb,
                        'a script that doesn\'t begin with serve'
                        if place.in_meeting
                        else 'outside the group',
                    ),
                )
            ]
    if verb in forms(short):
        place.go_on(verb)
    return found


WHERE = {
    'begin': 'end before it',
    'end': 'one end for each begin',
    'serve': 'serve FILE as the first step, and once',
    'editor': 'serve FILE as the first step, and outside a group',
    'send': 'serve FILE as the first step, and outside a group',
    'answer': 'serve FILE as the first step, and outside a group',
    'lost': 'serve FILE as the first step, and outside a group',
    'fetch': 'serve FILE as the first step',
}


def forms(short: bool) -> Dict[str, str]:
    """Each verb with its form."""
    return {**grammar.FORMS, **shorthand.FORMS} if short else grammar.FORMS


def form(line: str, short: bool) -> str:
    """The form of the line that this one was likely meant to be."""
    first = grammar.words_of(line)[:1]
    verb = (shorthand if short else mends).likely_verb(*first) if first else ''
    found = forms(short).get(verb, 'one of ' + ', '.join(sorted(forms(short))))
    return (
        found.replace('KEYS', '( QUERY )')
        if short and verb in shorthand.BY_QUERY and shorthand.is_short(line)
        else found
    )


def told(one: Finding) -> str:
    """A finding as one line of a message."""
    return 'no line of a script: {}: {}; right: {} (yoke lint names all)'.format(
        words.cut(one.text), one.cause, words.cut(one.right)
    )


def report(name: str, found: List[Finding]) -> str:
    """The findings as lines for a reader."""
    lines = []
    for one in found:
        lines += [
            f'{name}:{one.line}: {one.cause}',
            '    written  ' + grammar.shown(one.text),
            '    right    ' + grammar.shown(one.right),
        ]
    return ''.join(line + '\n' for line in lines)
