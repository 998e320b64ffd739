"""The cases beside the blocks of the pages: a title each, and a function of the program that raises
`Wrong`.
"""
from bench.check.page_checks.page import Wrong

CASES = []


def case(title):
    """Keeps a function as the case of this title."""

    def keep(function):
        CASES.append((title, function))
        return function

    return keep


def expect(want, got):
    """Both are the same."""
    if want != got:
        raise Wrong(f'wanted\n{indent(str(want))}got\n{indent(str(got))}')


def finds_fault(check):
    """Passes where the check doesn't."""
    try:
        check()
    except Wrong:
        return
    raise Wrong('the check lets it through')


def indent(text):
    """The first lines of a text, as they stand in a message."""
    return ''.join('        ' + line + '\n' for line in text.splitlines()[:40])
