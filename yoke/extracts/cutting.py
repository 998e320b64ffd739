"""A part of a file that is on this machine, cut out by osmium."""
import json
import pathlib
import shutil
import subprocess
import sys
from typing import Any, Dict, Iterator, List, Optional, Tuple

from yoke import files, words
from yoke.extracts import boxes, header
from yoke.extracts.parts import Parts
from yoke.files import write_new
from yoke.formats import drawing
from yoke.formats.drawing import UNITS, Box
from yoke.trouble import Refused, Trouble

STRATEGIES = ('simple', 'complete_ways', 'smart')


def program() -> str:
    """The path of osmium; Trouble if there is none."""
    found = shutil.which('osmium')
    if found is None:
        raise Trouble('osmium isn\'t on the path (Debian: apt-get install osmium-tool)')
    return found


def information(source: str) -> Dict[str, Any]:
    """What the header of a file says; Trouble if osmium can't read it."""
    if not pathlib.Path(source).is_file():
        raise Trouble(f'there is no file {source}')
    done = subprocess.run(
        [program(), 'fileinfo', '--json', files.named(source)],
        check=False,
        stdout=subprocess.PIPE,
        stderr=subprocess.PIPE,
    )
    try:
        found = json.loads(done.stdout.decode('utf-8')) if done.returncode == 0 else None
    except ValueError:
        found = None
    if not isinstance(found, dict):
        raise Trouble(f'osmium doesn\'t read {source}: {said(done.stderr)}')
    return found


def said(output: Optional[bytes]) -> str:
    """What a program wrote, cut short."""
    text = ' '.join((output or b'').decode('utf-8', 'replace').split())
    return words.cut(text, 300) or 'it doesn\'t say why'


def check_source(source: str, wanted: List[Box], beyond: bool) -> Optional[str]:
    """The moment of the file, if it says so. Refused if it has old versions beside the newest, or
    if the boxes reach beyond its bounds, so that the extract wouldn't be whole."""
    head = information(source).get('header') or {}
    if head.get('with_history'):
        raise Refused(
            f'{source} has old versions too: make a file of one moment of it '
            '(osmium time-filter)'
        )
    bounds = [tuple(int(side * UNITS) for side in box) for box in head.get('boxes') or []]
    for box in wanted if bounds and not beyond else []:
        if not any(
            there[0] <= box[0] and there[1] <= box[1] and there[2] >= box[2] and there[3] >= box[3]
            for there in bounds
        ):
            raise Refused(
                f'the box reaches beyond {source}, which has '
                f'{",".join(map(drawing.degrees, bounds[0]))}: take another file, or '
                '--beyond for what is in it'
            )
    option = head.get('option') or {}
    stamps = [option.get(name) for name in ('osmosis_replication_timestamp', 'timestamp')]
    return next((stamp for stamp in stamps if header.is_stamp(stamp)), None)


def cut(
    source: str, wanted: List[Box], polygon: Optional[str], strategy: str, parts: Parts
) -> pathlib.Path:
    """Cuts boxes or a polygon out of a file; answers with the path of the OPL that comes."""
    place = parts.folder / 'cut.new'
    if polygon:
        where = ['--polygon', files.named(polygon)]
    elif len(wanted) == 1:
        where = ['--bbox', boxes.words(wanted[0])]
    else:
        shape = parts.folder / 'boxes.geojson'
        shape.write_text(json.dumps(boxes.geojson(wanted)), encoding='utf-8')
        where = ['--polygon', str(shape)]
    is_seen = sys.stderr.isatty()
    done = subprocess.run(
        [
            program(),
            'extract',
            '--progress' if is_seen else '--no-progress',
            '--strategy',
            strategy,
            *where,
            files.named(source),
            '--output-format',
            'opl',
            '--overwrite',
            '--output',
            str(place),
        ],
        check=False,
        stdout=subprocess.DEVNULL,
        stderr=None if is_seen else subprocess.PIPE,
    )
    if done.returncode != 0:
        raise Trouble(f'osmium doesn\'t cut {source}: {said(done.stderr)}')
    return place


def copy(
    place: pathlib.Path, target: str, moment: Optional[str], source: str
) -> Tuple[Dict[str, int], str]:
    """Writes an extract of what osmium made, with its first line. Answers with the number of
    objects of each kind, and with the newest time of one.
    """
    counts, newest = {'n': 0, 'w': 0, 'r': 0}, ['']

    def lines() -> Iterator[str]:
        yield header.line(moment, source) + '\n'
        with open(place, encoding='utf-8', newline='\n') as file:
            for line in file:
                if line[0] not in counts:
                    continue
                fields = line.split(' ', 5)
                if fields[1] in ('v', 'v0'):
                    raise Refused(
                        f'{fields[0]} has no version: {source} was made without '
                        'metadata, so it can\'t be edited'
                    )
                counts[line[0]] += 1
                newest[0] = max(newest[0], fields[4][1:])
                yield line
        if not any(counts.values()):
            raise Refused(f'nothing of {source} lies there')

    write_new(target, lines())
    return counts, newest[0]
