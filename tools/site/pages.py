"""The pages in one folder, as mkdocs wants them.

mkdocs renders by Python-Markdown, which differs in four ways from what shows a repository. It names
headings otherwise, it wants an empty line before a list, it takes one word after the mark of a
fence, and it keeps the backslash of `\\|` in a table's code.
"""
from __future__ import annotations

import pathlib
import re
import shutil
from collections.abc import Iterator

from bench.check.page_checks.page import OTHERS, PAGES, TOP, headings, lines_of, links

ITEM = re.compile(r'(?:[-*]|\d+\.) ')
FENCE = re.compile(r'(```\S*).*')
CODE = re.compile(r'`([^`]*)`')


def translated(page: str) -> str:
    """The text of a page, by its path from the top, as Python-Markdown shows it right.

    The title gets no name, since mkdocs shows the line of it as it stands."""
    return '\n'.join(
        _lines(lines_of(page), {it.line: it.anchor for it in headings(page) if it.level > 1})
    )


def _lines(lines: list[str], anchors: dict[int, str]) -> Iterator[str]:
    """The lines of a page, where headings have these anchors by their numbers."""
    is_fenced = is_listed = False
    before = ''
    for number, line in enumerate(lines, 1):
        if line.startswith('```'):
            is_fenced = not is_fenced
            yield FENCE.sub(r'\1', line)
        elif is_fenced:
            yield line
        elif number in anchors:
            yield f'{line} {{#{anchors[number]}}}'
        else:
            is_item = bool(ITEM.match(line))
            if is_item and not is_listed and before:
                yield ''
            is_listed = is_item or is_listed and (not line or line.startswith(' ') or bool(before))
            yield _cells(line) if line.startswith('|') else line
        before = line


def _cells(row: str) -> str:
    """A row of a table, whose code has no backslash before a bar."""
    return CODE.sub(
        lambda hit: f'<code>{_escaped(hit[1])}</code>' if r'\|' in hit[1] else hit[0], row
    )


def _escaped(code: str) -> str:
    """Code of a table with a bar, as HTML."""
    return (
        code.replace('&', '&amp;')
        .replace('<', '&lt;')
        .replace('>', '&gt;')
        .replace(r'\|', '&#124;')
        .replace('*', '&#42;')
    )


def stage(folder: pathlib.Path) -> None:
    """Writes all pages into a folder, with the files to which they link, under their paths."""
    every = [*PAGES, *OTHERS]
    for page in every:
        path = folder / page
        path.parent.mkdir(parents=True, exist_ok=True)
        path.write_text(translated(page), encoding='utf-8')
    for target in {link.target for page in every for link in links(page)} - {*every}:
        if (TOP / target).is_file():
            (folder / target).parent.mkdir(parents=True, exist_ok=True)
            shutil.copyfile(TOP / target, folder / target)
