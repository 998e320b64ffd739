"""Faults of a built site: links that lead nowhere, and what is loaded from outside."""
from __future__ import annotations

import html.parser
import pathlib
import re
import urllib.parse
from collections.abc import Iterator
from dataclasses import dataclass, field
from functools import lru_cache

# The attributes by which each tag loads something when the page is shown.
LOADS = {'link': 'href', 'script': 'src', 'img': 'src', 'iframe': 'src', 'source': 'src'}
OUTSIDE = re.compile(r'(?:https?:)?//', re.I)


@dataclass
class Found(html.parser.HTMLParser):
    """The names, links and loaded files of an HTML page."""

    names: set[str] = field(default_factory=set)
    links: list[str] = field(default_factory=list)
    loads: list[str] = field(default_factory=list)

    def __post_init__(self) -> None:
        super().__init__()

    def handle_starttag(self, tag: str, attrs: list[tuple[str, str | None]]) -> None:
        """Notes what a tag names, loads or links to."""
        there = dict(attrs)
        self.names |= {name for name in (there.get('id'), there.get('name')) if name}
        loaded = there.get(LOADS.get(tag, ''))
        if loaded and there.get('rel') != 'canonical':
            self.loads.append(loaded)
        linked = there.get('href')
        if tag == 'a' and linked:
            self.links.append(linked)


@lru_cache(maxsize=None)
def read(path: pathlib.Path) -> Found:
    """What a page of the site has."""
    found = Found()
    found.feed(path.read_text(encoding='utf-8'))
    return found


def faults(site: pathlib.Path) -> Iterator[str]:
    """What is wrong with the links of a site, a sentence each."""
    read.cache_clear()
    for page in sorted(site.rglob('*.html')):
        name = str(page.relative_to(site))
        found = read(page)
        yield from (f'{name} loads {it} from outside' for it in found.loads if OUTSIDE.match(it))
        yield from (fault for it in [*found.links, *found.loads] for fault in _dead(site, page, it))
    for style in sorted(site.rglob('*.css')):
        text = style.read_text(encoding='utf-8')
        yield from (
            f'{style.relative_to(site)} loads {it}'
            for it in re.findall(r'''url\(["']?((?:https?:)?//[^)"']*)''', text)
        )


def _dead(site: pathlib.Path, page: pathlib.Path, link: str) -> Iterator[str]:
    """A sentence where a link of a page leads nowhere."""
    parts = urllib.parse.urlsplit(link)
    if parts.scheme or parts.netloc:
        return
    path = urllib.parse.unquote(parts.path)
    target = (
        page
        if not path
        else site / path.lstrip('/')
        if path.startswith('/')
        else page.parent / path
    )
    target = target / 'index.html' if target.is_dir() else target
    name = page.relative_to(site)
    if not target.is_file():
        yield f'{name} links to {link}, which isn\'t there'
    elif (
        parts.fragment
        and target.suffix == '.html'
        and urllib.parse.unquote(parts.fragment) not in read(target).names
    ):
        yield f'{name} links to {link}, and there is no such heading'
