"""The site built by mkdocs, from pages that are staged in a folder of their own."""
from __future__ import annotations

import pathlib
import tempfile
from typing import Any

from bench.check.page_checks.page import TOP, links
from tools.site.pages import stage

CONFIG = TOP / 'mkdocs.yml'
HOW_TOS = 'docs/HOWTO/README.md'


class Failed(Exception):
    """mkdocs isn't there, or refuses the pages."""


def expanded(nav: list[Any]) -> list[Any]:
    """The order of mkdocs.yml, where the page of how-tos is followed by those to which it links."""
    found: list[Any] = []
    for entry in nav:
        if isinstance(entry, dict):
            found.append({title: expanded(pages) for title, pages in entry.items()})
        else:
            found.append(entry)
            found += linked_below(entry) if entry == HOW_TOS else []
    return found


def linked_below(page: str) -> list[str]:
    """The pages in the folder of a page to which it links, in their order."""
    folder = pathlib.PurePosixPath(page).parent
    targets = dict.fromkeys(link.target for link in links(page))
    return [
        it
        for it in targets
        if pathlib.PurePosixPath(it).parent == folder and it.endswith('.md') and it != page
    ]


def build(site: pathlib.Path) -> None:
    """Writes the site into a folder. `Failed` where mkdocs isn't there, or warns of anything."""
    try:
        from mkdocs import config, exceptions
        from mkdocs.commands import build as command
    except ImportError:
        raise Failed('there is no mkdocs: apt-get install mkdocs') from None
    with tempfile.TemporaryDirectory() as folder:
        staged = pathlib.Path(folder)
        stage(staged)
        try:
            told = config.load_config(
                str(CONFIG), docs_dir=str(staged), site_dir=str(site.resolve())
            )
            told['nav'] = expanded(told['nav'])
            command.build(told)
        except exceptions.MkDocsException as error:
            raise Failed(f'mkdocs: {error}') from None
