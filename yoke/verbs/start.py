"""`yoke start`: the first session of a day, from extracts."""
import argparse
import os
import pathlib
import shutil
import subprocess
import tempfile
from dataclasses import asdict, dataclass
from typing import Callable, Dict, Optional, Sequence

from yoke import files, fresh, ledger, opl, results, words
from yoke.program import Program
from yoke.day import UNREVERTED, Day, State
from yoke.progress import note, silent
from yoke.trouble import Refused, Trouble

SUMMARY = 'begin a day from extracts: OPL, or what osmium reads (PBF, XML, compressed)'
DETAILS = """Several extracts are downloaded one after the other: the older first, where they are of two days. The day has a folder of its
own, --day, which is made where it isn't there. With --after what an earlier day imported isn't made again, and conflicts that
were resolved there stay so."""
LEFT = (
    'lock',
    '000001-start.saved.new',
    f'000001-{UNREVERTED}.saved.new',
    ledger.NAME,
    ledger.SHARED,
)  # what a start or a revert that came to nothing leaves


def add_arguments(parser: argparse.ArgumentParser) -> None:
    """The words of the verb."""
    parser.add_argument(
        'extracts',
        metavar='EXTRACT',
        nargs='+',
        help='a file; what doesn\'t end in .opl goes through osmium',
    )
    parser.add_argument(
        '--as-it-is',
        action='store_true',
        help='begin also where an extract seems cut off, or has fewer objects than before',
    )
    parser.add_argument(
        '--after',
        metavar='FOLDER',
        help='take over what an earlier day imported, and which conflicts it resolved',
    )


@dataclass(frozen=True)
class Started:
    """The first session of a folder: how many objects it has, by name, what the extracts were, by
    their paths, and how many lines of another folder's ledger were taken over.
    """

    session: State
    counts: Dict[str, int]
    extracts: Dict[str, fresh.Extract]
    taken_over: int = 0


def run(arguments: argparse.Namespace) -> int:
    """Begins a day; answers with the exit code."""
    done = begin(
        Day(arguments.day),
        Program.of(arguments),
        arguments.extracts,
        arguments.as_it_is,
        arguments.after,
        note,
    )
    results.put(
        counts=done.counts,
        session=results.of_state(done.session),
        extracts=[{'path': path, **asdict(extract)} for path, extract in done.extracts.items()],
    )
    print('{nodes} nodes, {ways} ways, {relations} relations'.format(**done.counts))
    if arguments.after:
        print(f'taken over from {arguments.after}: {done.taken_over} lines of the ledger')
    print(f'kept as {done.session.path}')
    return 0


def begin(
    day: Day,
    program: Program,
    paths: Sequence[str],
    as_it_is: bool = False,
    after: Optional[str] = None,
    tell: Callable[[str], object] = silent,
) -> Started:
    """Begins a day from the extracts at these paths; `tell` gets each warning. Refused where an
    extract looks cut off or old, unless it is to be taken `as_it_is`, or where the folder isn't
    empty.
    """
    if not day.states():
        check_folder(day)  # before a lock is put into it
    with tempfile.TemporaryDirectory(prefix='yoke-') as folder:
        found = [
            as_opl(extract, os.path.join(folder, f'{number}.opl'))
            for number, extract in enumerate(paths)
        ]
        extracts = {extract: fresh.scan(extract, file) for extract, file in zip(paths, found)}
        check_extracts(day, dict(zip(paths, found)), extracts, as_it_is, tell)
        lines = ['download ' + opl.escape(os.path.abspath(file)) for file in found]
        with day.locked(make=True):
            check_folder(day)
            with day.draft('start') as draft:
                answer = program.save(
                    lines + ['count'], lambda answer: None if answer.refused() else draft.begin()
                )
                for reply in answer.refused():
                    raise Refused(f'{paths[reply.line - 1]}: {words.refusal(reply.rest)}')
                taken_over = ledger.take_over(day, Day(after)) if after else 0
                state = draft.keep()
            fresh.note_extracts(day, extracts)
    return Started(state, answer.counts(), extracts, taken_over)


def check_extracts(
    day: Day,
    files: Dict[str, str],
    extracts: Dict[str, fresh.Extract],
    as_it_is: bool,
    tell: Callable[[str], object],
) -> None:
    """Refused where an extract seems cut off, or is less or older than it was for the last day,
    unless it is to be taken as it is.
    """
    found = [
        f'{extract} ends in the middle of a line, as a file that is cut off'
        for extract, file in files.items()
        if fresh.is_cut(file)
    ]
    for extract, what in extracts.items():
        found += fresh.suspicions(day.folder, extract, what)
        for text in fresh.warnings(day.folder, extract, what):
            tell(text)
    for text in found if as_it_is else []:
        tell(text)
    if found and not as_it_is:
        raise Refused('{}: get it anew; --as-it-is begins all the same'.format('; '.join(found)))


def check_folder(day: Day) -> None:
    """Refused where a day has begun in the folder, or where the folder has anything else in it: a
    document of another day would count as sent by this one.
    """
    if day.states():
        raise Refused(
            'a day has begun in {}: yoke status shows it; another one wants another --day'.format(
                day.folder
            )
        )
    others = (
        sorted(path.name for path in day.folder.iterdir() if path.name not in LEFT)
        if day.folder.is_dir()
        else []
    )
    if others:
        raise Refused(
            '{} isn\'t empty, {} is in it: a day wants a folder of its own, --day FOLDER, which is made'.format(
                day.folder, others[0]
            )
        )


def as_opl(extract: str, place: str) -> str:
    """The name of an OPL file with what an extract has: itself, or what osmium makes of it at the
    place. Trouble where it is empty.
    """
    path = pathlib.Path(extract)
    if not path.exists():
        raise Trouble(f'there is no file {extract}')
    if path.is_dir():
        raise Trouble(f'{extract} is a folder')
    if path.suffix == '.opl' and path.is_file():
        place = str(path)
    elif path.suffix == '.opl' or not path.is_file():
        shutil.copyfile(path, place) if path.is_file() else pathlib.Path(place).write_bytes(
            files.data_of(extract)
        )
    else:
        convert(extract, place)
    if not has_objects(place):
        raise Trouble(f'{extract} has no object in it')
    return place


def convert(extract: str, place: str) -> None:
    """Makes OPL of a file by osmium."""
    osmium = shutil.which('osmium')
    if osmium is None:
        raise Trouble(
            '{} isn\'t OPL, and osmium, which reads it, isn\'t on the path (Debian: apt-get install osmium-tool)'.format(
                extract
            )
        )
    done = subprocess.run(
        [osmium, 'cat', '--no-progress', files.named(extract), '-f', 'opl', '-O', '-o', place],
        stdout=subprocess.PIPE,
        stderr=subprocess.STDOUT,
    )
    if done.returncode != 0:
        raise Trouble(
            'osmium doesn\'t read {}: {}'.format(
                extract, words.cut(done.stdout.decode('utf-8', 'replace').strip(), 300)
            )
        )


def has_objects(path: str) -> bool:
    """Whether a file has a line that isn't skipped. Whether that is an object `download` says."""
    with open(path, 'rb') as lines:
        return any(line.strip(b' \t\r\n') and line[:1] not in (b'#', b'c') for line in lines)
