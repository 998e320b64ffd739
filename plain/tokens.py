"""Cuts Rattle source into tokens."""
from __future__ import annotations

import re
from dataclasses import dataclass

TOKEN = re.compile(
    r'(?P<space>\s+)'
    r'|(?P<line>//[^\n]*)'
    r'|(?P<block>/\*.*?\*/)'
    r'|(?P<string>[bc]?"(?:[^"\\]|\\.)*")'
    r"|(?P<char>b?'(?:[^'\\\n]|\\(?:u\{[^}]*\}|x..|.))')"
    r"|(?P<lifetime>'[A-Za-z_]\w*)"
    r'|(?P<word>[A-Za-z_][A-Za-z0-9_]*(?![\w]))'
    r'|(?P<number>[0-9][0-9A-Za-z_]*)'
    r'|(?P<sign>[!#$%&()*+,\-./:;<=>?@\[\]^{|}~])'
    r'|(?P<other>\w+|.)',
    re.S,
)
OPENS = {'{': '}', '(': ')', '[': ']'}
CLOSES = frozenset(OPENS.values())


class Refused(Exception):
    """A form that the export doesn't know, with its file and line."""

    def __init__(self, path: str, line: int, what: str) -> None:
        super().__init__(f'{path}:{line}: {what}')
        self.path, self.line, self.what = path, line, what


@dataclass(frozen=True)
class Token:
    """A token: its kind (a name of a group of `TOKEN`), its text, and the line on which it begins,
    counted from 1.
    """

    kind: str
    text: str
    line: int

    @property
    def is_code(self) -> bool:
        """Whether it is neither space nor a comment."""
        return self.kind not in ('space', 'line', 'block')


def tokens_of(text: str) -> list[Token]:
    """All tokens of a text. Their texts put together are the text."""
    found, line = [], 1
    for it in TOKEN.finditer(text):
        found.append(Token(str(it.lastgroup), it[0], line))
        line += it[0].count('\n')
    return found
