"""The words of `python3 -m tools.site`."""
from __future__ import annotations

import argparse
import pathlib
import sys
import tempfile

from tools.site import build, links

TEXT = '''Makes the site: the pages as static HTML with search, by mkdocs (Debian: apt-get install
mkdocs). Nothing in it is loaded from outside. Open index.html of the folder; search needs a server,
as python3 -m http.server --directory FOLDER.'''


def main() -> int:
    """Does what the words ask for: the status."""
    words = argparse.ArgumentParser(prog='python3 -m tools.site', description=TEXT)
    which = words.add_mutually_exclusive_group(required=True)
    which.add_argument(
        '--to',
        type=pathlib.Path,
        metavar='FOLDER',
        help='writes the site into this folder, which is new or empty',
    )
    which.add_argument(
        '--check', action='store_true', help='makes it in a temporary folder, and tests its links'
    )
    said = words.parse_args()
    if said.to and said.to.exists() and any(said.to.iterdir()):
        words.error(f'{said.to} isn\'t empty: name a new folder, or empty this one')
    with tempfile.TemporaryDirectory() as folder:
        site = said.to or pathlib.Path(folder) / 'site'
        try:
            build.build(site)
        except build.Failed as failed:
            print(f'tools.site: {failed}', file=sys.stderr)
            return 1
        wrong = list(links.faults(site))
        for fault in wrong:
            print(f'tools.site: {fault}', file=sys.stderr)
        print(f'{len(list(site.rglob("*.html")))} pages, {len(wrong)} faults')
    return 1 if wrong else 0


if __name__ == '__main__':
    sys.exit(main())
