"""Tests of the site: how pages are translated, their order, and the test of links."""
from __future__ import annotations

import importlib.util
import pathlib
import tempfile
import unittest
from collections.abc import Iterator
from contextlib import contextmanager

from bench.check.page_checks.page import OTHERS, PAGES
from tools.site import build, links, pages


def lines(text: str) -> list[str]:
    """A page's lines as they are translated, where a heading has the anchor `a--b`."""
    written = text.split('\n')
    return list(
        pages._lines(
            written,
            {number: 'a--b' for number, line in enumerate(written, 1) if line.startswith('## ')},
        )
    )


@contextmanager
def site(**files: str) -> Iterator[pathlib.Path]:
    """A site of these files, by their names without the ending."""
    with tempfile.TemporaryDirectory() as folder:
        for name, text in files.items():
            (pathlib.Path(folder) / f'{name}.html').write_text(text, encoding='utf-8')
        yield pathlib.Path(folder)


class Translated(unittest.TestCase):
    """What mkdocs wants otherwise than it is written."""

    def test_heading_keeps_its_name(self) -> None:
        self.assertEqual(['# T', '', '## A - b {#a--b}', 'x'], lines('# T\n\n## A - b\nx'))

    def test_list_stands_apart(self) -> None:
        self.assertEqual(['x:', '', '- a', '  b', '- c', '', 'd'], lines('x:\n- a\n  b\n- c\n\nd'))
        self.assertEqual(['x', '', '1. a', '2. b'], lines('x\n\n1. a\n2. b'))

    def test_list_after_a_list_and_a_paragraph(self) -> None:
        self.assertEqual(['- a', '', 'x', '', '- b'], lines('- a\n\nx\n- b'))

    def test_fence_has_one_word(self) -> None:
        self.assertEqual(
            ['```sh', '- x | y', '# z', '```'], lines('```sh needs osmium\n- x | y\n# z\n```')
        )

    def test_bar_in_code_of_a_table(self) -> None:
        self.assertEqual(
            '| <code>a &#124; &lt;b&gt;&#42;</code> | `c` |', pages._cells(r'| `a \| <b>*` | `c` |')
        )


class Order(unittest.TestCase):
    """The order of the pages."""

    def test_how_tos_are_followed_by_their_pages(self) -> None:
        found = build.expanded([{'How to': [build.HOW_TOS]}])[0]['How to']
        self.assertEqual(build.HOW_TOS, found[0])
        self.assertEqual({it for it in PAGES if it.startswith('docs/HOWTO/')}, set(found))
        self.assertEqual(len(found), len(set(found)))


class Links(unittest.TestCase):
    """Faults that the test of links finds, and what it lets through."""

    def test_what_leads_somewhere(self) -> None:
        with site(
            a='<a href="b.html#x">x</a><a href="https://osm.org">y</a><a href="#z"></a><p id="z">',
            b='<h2 id="x">',
        ) as made:
            self.assertEqual([], list(links.faults(made)))

    def test_dead_links(self) -> None:
        with site(a='<a href="b.html#y">x</a><a href="c.html">y</a>', b='<h2 id="x">') as made:
            self.assertEqual(
                [
                    'a.html links to b.html#y, and there is no such heading',
                    'a.html links to c.html, which isn\'t there',
                ],
                list(links.faults(made)),
            )

    def test_what_is_loaded_from_outside(self) -> None:
        for tag in (
            '<script src="https://x.org/a.js"></script>',
            '<link rel="stylesheet" href="//x.org/a.css">',
            '<img src="HTTP://x.org/a.png">',
        ):
            with site(a=tag) as made:
                self.assertEqual(1, len(list(links.faults(made))), tag)
        with site() as made:
            (made / 'a.css').write_text(
                'p { background: url("https://x.org/a.png") }', encoding='utf-8'
            )
            self.assertEqual(['a.css loads https://x.org/a.png'], list(links.faults(made)))


@unittest.skipUnless(importlib.util.find_spec('mkdocs'), 'there is no mkdocs')
class Built(unittest.TestCase):
    """The whole site."""

    def test_every_page_is_there_and_can_be_searched(self) -> None:
        with tempfile.TemporaryDirectory() as folder:
            made = pathlib.Path(folder) / 'site'
            build.build(made)
            self.assertEqual([], list(links.faults(made)))
            for page in [*PAGES, *OTHERS]:
                path = pathlib.PurePosixPath(page)
                name = 'index.html' if path.name == 'README.md' else f'{path.stem}.html'
                self.assertTrue((made / path.parent / name).is_file(), page)
                self.assertIn(
                    f'{path.parent / name}'.removeprefix('./'),
                    (made / 'search' / 'search_index.json').read_text(encoding='utf-8'),
                )


if __name__ == '__main__':
    unittest.main()
