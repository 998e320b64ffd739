"""`yoke to-josm`: the session as a file that JOSM opens."""
import argparse
import hashlib

from yoke import results, table
from yoke.day import Day
from yoke.files import check_outputs, check_own, write_own
from yoke.formats import osm_xml
from yoke.trouble import Refused

SUMMARY = 'write the session as a file for JOSM, with what is edited marked as edited'
DETAILS = """Open FILE in JOSM, edit, save it, and bring it back by `yoke josm FILE`. JOSM doesn't upload it: the session does, by
`yoke send`. In the meantime the session may go on."""
MARK = b"generator='yoke'"
KEPT = 3  # sessions that were written for JOSM last, kept so that its edits can be told apart from those here


def add_arguments(parser: argparse.ArgumentParser) -> None:
    parser.add_argument(
        'file', metavar='FILE', help='the .osm file to write, or - for standard output'
    )
    parser.add_argument('--force', action='store_true', help='also over a file that JOSM saved')


def run(arguments: argparse.Namespace) -> int:
    day = Day(arguments.day)
    with day.locked():
        last = day.last()
        text = last.text()
        state = f'{last.number:06}-{hashlib.sha256(text.encode()).hexdigest()[:12]}'
        try:
            lines = list(osm_xml.josm_lines(table.read(text), state))
        except ValueError as error:
            raise Refused(f'nothing is written: {error}') from None
        check_outputs([arguments.file] if arguments.file != '-' else [], [], day.folder)
        check_own(arguments.file, MARK, arguments.force)
        start = f'josm-{state}.start'
        day.write(start, text)
        write_own(arguments.file, ''.join(line + '\n' for line in lines), MARK, arguments.force)
        forget(day, start)
    results.put(file=arguments.file, state=state)
    if arguments.file != '-':
        print(f'wrote {arguments.file}')
    return 0


def forget(day: Day, start: str) -> None:
    """Removes the starts of older drawings: all but this one, which was just written, and those
    that were written last before it.

    After `undo` a session with a lower number may be the later one, so numbers say nothing of that.
    """
    others = sorted(
        (path.stat().st_mtime_ns, path)
        for path in day.folder.glob('josm-*.start')
        if path.name != start
    )
    for _, path in others[: 1 - KEPT]:
        path.unlink()
