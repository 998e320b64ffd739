"""`yoke review`: the edits of the session on a map in a browser, to accept or reject one by one."""

import argparse
import html
import json
import os
import pathlib
import tempfile
import threading
import webbrowser
from typing import Dict, Iterator, List, Optional

from yoke import results
from yoke.progress import note
from yoke.review import shown
from yoke.review.reviewing import ACCEPTED, REJECTED, UNDECIDED, Questions, Review
from yoke.review.server import Server
from yoke.session import Session
from yoke.trouble import Refused, Usage

SUMMARY = 'look at edits and conflicts on a map in the browser, and accept or reject each'
DETAILS = """It prints an address, with a secret in it, of a page that this machine serves to you alone, until
"write the script" or Ctrl-C. Each decision is kept at once in --decisions, so a review goes on where it was left. "Write the
script" writes --to, a script for `yoke do`: it undoes what is rejected and resolves conflicts, with FILE.opl beside it, which
has the versions that come back. `yoke send --reviewed` sends what is accepted alone.

Without a browser: --list shows what is to be decided, --accept and --reject decide, --write writes the script.

  yoke review --list
  yoke review --reject w5,n-3 --accept others
  yoke review --write"""


def add_arguments(parser: argparse.ArgumentParser) -> None:
    """The words of the verb."""
    parser.add_argument(
        '--to', metavar='FILE.script', default='review.script', help='the script (%(default)s)'
    )
    parser.add_argument(
        '--force',
        action='store_true',
        help='write the script also over a file that yoke didn\'t write',
    )
    parser.add_argument(
        '--decisions',
        metavar='FILE',
        default='review.decisions',
        help='where decisions are kept (%(default)s)',
    )
    parser.add_argument(
        '--questions', metavar='NAME', help='show what `yoke conflate --to NAME` asks too'
    )
    page = parser.add_argument_group('the page')
    page.add_argument('--open', action='store_true', help='open the browser')
    page.add_argument(
        '--port', metavar='N', type=int, default=0, help='the port of the page (any that is free)'
    )
    page.add_argument(
        '--tiles',
        metavar='URL',
        default='',
        help='tiles as the background, as https://HOST/{z}/{x}/{y}.png; '
        'without it nothing is fetched from anywhere',
    )
    without = parser.add_argument_group('without a page')
    without.add_argument(
        '--list', action='store_true', help='print what is to be decided, and how it is decided'
    )
    without.add_argument(
        '--accept',
        metavar='KEYS',
        help='accept these, or `others`: all that is not decided, without conflicts',
    )
    without.add_argument('--reject', metavar='KEYS', help='reject these, or `others`')
    without.add_argument('--write', action='store_true', help='write the script')


def run(arguments: argparse.Namespace) -> int:
    """Serves the page, or decides, lists and writes without it."""
    questions = Questions(arguments.questions) if arguments.questions else None
    one = Review(
        Session.of(arguments),
        arguments.decisions,
        arguments.to,
        arguments.tiles,
        questions,
        arguments.force,
    )
    if one.decisions.stale:
        note(
            f'{one.decisions.stale} objects were decided with other contents: they are to be decided anew'
        )
    if arguments.accept or arguments.reject or arguments.list or arguments.write:
        without_page(one, arguments)
        return 0
    if results.wanted():
        raise Usage('--json goes with --list, --accept, --reject or --write')
    serve(one, arguments)
    return 0


# ---- without a page ----


def without_page(one: Review, arguments: argparse.Namespace) -> None:
    """Decides, lists and writes as the command line says."""
    if arguments.accept or arguments.reject or arguments.write:
        one.decisions.open()
    if arguments.accept or arguments.reject:
        decide(one, arguments)
    if arguments.list:
        for line in listed(one):
            print(line)
    if arguments.write:
        print(one.finish())
    one.decisions.close()
    print(counted(one))
    results.put(
        items=list(data(one)), counts=dict(one.counts()), script=one.to if arguments.write else None
    )


def data(one: Review) -> Iterator[Dict[str, Optional[str]]]:
    """Each item as `--json` has it."""
    others = one.with_others()
    for key in one.found.items if results.wanted() else ():
        item = shown.item_of(one.found, key)
        how = one.decisions.how.get(key, UNDECIDED)
        yield {
            'key': key,
            'state': one.state_of(key),
            'decision': how,
            'because': others.get(key),
            'kind': item['kind'],
            'title': item['title'],
            'of': one.decisions.digests[key],
        }


def decide(one: Review, arguments: argparse.Namespace) -> None:
    """Takes the decisions of the command line: those on keys first, then those on all others."""
    pairs = []
    for word, how in ((arguments.accept, ACCEPTED), (arguments.reject, REJECTED)):
        pairs += [(key, how) for key in (word or '').split(',') if key and key != 'others']
    named = {key for key, _ in pairs}
    if len(named) < len(pairs):
        raise Usage('a key is accepted or rejected, not both')
    for word, how in ((arguments.accept, ACCEPTED), (arguments.reject, REJECTED)):
        if 'others' in (word or '').split(','):
            pairs += [
                (key, how) for key in one.found.items if key not in named and is_open(one, key)
            ]
            named.update(one.found.items)
    try:
        one.decide(pairs)
    except ValueError as fault:
        raise Refused(
            f'nothing is decided: {fault}; yoke review --list shows what there is'
        ) from None


def is_open(one: Review, key: str) -> bool:
    """Whether an item is undecided and no conflict."""
    return one.state_of(key) == UNDECIDED and one.found.known(key).conflict == 'none'


def listed(one: Review) -> Iterator[str]:
    """A line for each item: its key, how it is decided, what was done, and its name."""
    others = one.with_others()
    for key in one.found.items:
        item = shown.item_of(one.found, key)
        state = one.decisions.how.get(key, UNDECIDED)
        state = f'rejected with {others[key]}' if key in others else state
        words = (plain(text) for text in (item['kind'], item['title']))
        yield ': '.join(filter(None, [key, state, *words]))


def plain(text: str) -> str:
    """A text in one line, without signs that a terminal would obey."""
    return ''.join(sign if sign.isprintable() else '?' for sign in text)


def counted(one: Review) -> str:
    """How far the review is."""
    counts = one.counts()
    return (
        f'{counts[ACCEPTED]} accepted, {counts[REJECTED]} rejected, {counts[UNDECIDED]} not decided'
    )


# ---- the page ----


def serve(one: Review, arguments: argparse.Namespace) -> None:
    """Serves the page until the script is written or the user breaks off."""
    one.decisions.open()
    server = Server(one.calls(), arguments.port, arguments.tiles)
    one.stop = server.stop
    print(f'{len(one.keys())} edits and conflicts; {counted(one)}')
    print(f'open {server.address}', flush=True)
    threading.Thread(target=one.ask_around, args=({'box': (0, 0, 0, 0)},), daemon=True).start()
    files: List[pathlib.Path] = [open_browser(server.address)] if arguments.open else []
    try:
        with server:
            server.serve_forever(poll_interval=0.1)
    except KeyboardInterrupt:
        note(f'ended; {counted(one)}. The decisions are in {one.decisions.path}')
    finally:
        for file in files:
            file.unlink(missing_ok=True)
        one.decisions.close()
    if one.said:
        print(one.said)


def open_browser(address: str) -> pathlib.Path:
    """Opens the page by a file that this user alone can read, and gives its name: the words of a
    command everybody can see.
    """
    folder = os.environ.get('XDG_RUNTIME_DIR')
    handle, name = tempfile.mkstemp(
        prefix='yoke-', suffix='.html', dir=folder if folder and os.path.isdir(folder) else None
    )
    path = pathlib.Path(name)
    quoted = html.escape(address, quote=True)
    with open(handle, 'w', encoding='utf-8') as file:
        file.write(
            '<!doctype html><meta charset="utf-8"><meta name="referrer" content="no-referrer"><title>yoke review</title>\n'
            f'<script>location.replace({json.dumps(address)})</script><a href="{quoted}">open the review</a>\n'
        )
    if not webbrowser.open(path.as_uri()):
        note('no browser was found: open the address above')
    return path
