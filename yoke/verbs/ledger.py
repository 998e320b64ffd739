"""`yoke ledger`: what was imported, by whom, under which ids and in which changesets."""
import argparse
from typing import Dict, List, Tuple

from yoke import ledger, results
from yoke.day import Day
from yoke.files import check_outputs, data_of, write_own
from yoke.ledger import Book, Desk, Entry
from yoke.progress import note
from yoke.session import Session
from yoke.sides import plain
from yoke.trouble import Refused
from yoke.verbs import import_

SUMMARY = 'show what was imported and sent, by file, and write it as a table'
DETAILS = """Of each file that was imported it says how many of its features were taken and sent, in which changesets. With FILE it
says so of FILE alone, and which of its features are left. --to writes a table with a line for each feature: what it is in
which file, who took it, its ids at the server, the changeset. The table is a ledger itself: `yoke import --ledger TABLE.csv`
goes on where it ended. So is what two copies make that are put one after the other."""


def add_arguments(parser: argparse.ArgumentParser) -> None:
    parser.add_argument('file', metavar='FILE', nargs='?', help='a file that was imported')
    parser.add_argument('--to', metavar='TABLE.csv', help='write the table; - is standard output')
    parser.add_argument(
        '--force', action='store_true', help='with --to: also over a file that yoke didn\'t write'
    )
    parser.add_argument(
        '--give-back',
        metavar='CLAIM',
        help='give back what was taken under a claim and not sent, as where its day is gone',
    )
    import_.add_ledger(parser)


def run(arguments: argparse.Namespace) -> int:
    session = Session(Day(arguments.day), None)  # type: ignore[arg-type]
    digest = ledger.digest_of(data_of(arguments.file)) if arguments.file else ''
    if arguments.to and arguments.to != '-':
        check_outputs([arguments.to], filter(None, [arguments.file]), session.day.folder)
    with session.day.locked():
        desk = import_.desk_of(arguments, session)
        with desk.held() as book:
            if arguments.give_back:
                give_back(desk, book, arguments.give_back)
    found = [
        entry
        for entry in book.live()
        if entry.event in ('taken', 'sent') and (not digest or entry.file == digest)
    ]
    results.put(features=[of_entry(entry) for entry in found])
    if arguments.to:
        choices = [] if digest else list(book.choices.values())
        write_own(
            arguments.to,
            ledger.HEADER + ''.join(entry.line() for entry in found + choices),
            ledger.TABLE_MARK,
            arguments.force,
        )
    if arguments.to != '-':
        show(found, book, arguments)
    return 0


def give_back(desk: Desk, book: Book, claim: str) -> None:
    """Gives back what was taken under a claim; Refused where nothing is to be given back, or where
    it is of this day.
    """
    rows = [entry for entry in book.live() if entry.claim == claim and entry.event == 'taken']
    if not rows:
        raise Refused(
            f'nothing is done: nothing that isn\'t sent was taken under the claim {plain(claim)}'
        )
    if claim in desk.own.begun:
        raise Refused(
            f'nothing is done: {plain(claim)} is of this day: yoke undo takes an import back'
        )
    desk.give_back(rows)
    for entry in rows:
        book.returned.add(entry.place)
    print(
        f'given back: {len(rows)} feature{"" if len(rows) == 1 else "s"} that {plain(rows[0].who)} had taken'
    )


def show(found: List[Entry], book: Book, arguments: argparse.Namespace) -> None:
    """Says of each file what became of its features."""
    files: Dict[Tuple[str, str], List[Entry]] = {}
    for entry in found:
        files.setdefault((entry.dataset, entry.file), []).append(entry)
    for (dataset, file), entries in files.items():
        sent = [entry for entry in entries if entry.event == 'sent']
        changesets = dict.fromkeys(number for entry in sent for number in entry.changeset.split())
        print(
            f'{plain(dataset)} {file}: {len(entries)} taken, {len(sent)} sent'
            + (
                f' in changeset{"" if len(changesets) == 1 else "s"} ' f'{", ".join(changesets)}'
                if changesets
                else ''
            )
        )
        for claim, rows in by_claim(entries).items():
            print(
                f'    claim {claim} by {plain(rows[0].who)} at {rows[0].time}: rows {ranges([entry.row for entry in rows])}, not sent'
            )
    if arguments.file and not files:
        print(f'nothing of {arguments.file} was taken')
    elif arguments.file:
        left = sorted(set(range(1, count_of(arguments) + 1)) - {entry.row for entry in found})
        print(f'left: {ranges(left) or "nothing"}')
    for one, other in book.doubles():
        note(
            f'row {one.row} of {plain(one.dataset)} was taken twice: by {plain(one.who)} ({one.claim}) and by {plain(other.who)} ({other.claim})'
        )
    if arguments.to:
        print(f'wrote {arguments.to}')


def by_claim(entries: List[Entry]) -> Dict[str, List[Entry]]:
    """Features that aren't sent, by their claims."""
    found: Dict[str, List[Entry]] = {}
    for entry in entries:
        if entry.event == 'taken':
            found.setdefault(entry.claim, []).append(entry)
    return found


def ranges(rows: List[int]) -> str:
    """Numbers as ranges, the first ones."""
    parts: List[List[int]] = []
    for row in sorted(rows):
        if parts and parts[-1][1] == row - 1:
            parts[-1][1] = row
        else:
            parts.append([row, row])
    texts = [str(first) if first == last else f'{first}-{last}' for first, last in parts]
    return ', '.join(texts[:10]) + (
        f' and {len(texts) - 10} more ranges' if len(texts) > 10 else ''
    )


def count_of(arguments: argparse.Namespace) -> int:
    """How many features a file has."""
    words = argparse.Namespace(file=arguments.file, encoding=None, lon=None, lat=None)
    return len(import_.read(words).features)


def of_entry(entry: Entry) -> Dict[str, object]:
    """A line of the ledger as JSON has it."""
    return {
        'event': entry.event,
        'time': entry.time,
        'who': entry.who,
        'claim': entry.claim,
        'dataset': entry.dataset,
        'file': entry.file,
        'row': entry.row,
        'id': entry.id,
        'keys': list(entry.keys),
        'changesets': entry.changeset.split(),
        'server': entry.server,
    }
