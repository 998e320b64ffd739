"""`yoke tiles`: a script over a file that is too large for one session."""
from __future__ import annotations

import argparse
import pathlib
import time
from collections import Counter
from decimal import Decimal

from yoke import results, words
from yoke.files import check_outputs
from yoke.formats import drawing
from yoke.program import Program
from yoke.tiles import cluster, engine, grid
from yoke.tiles.cluster import Where
from yoke.trouble import Refused, Trouble, Usage
from yoke.verbs import do

SUMMARY = 'run a script over a file too large for one session, tile by tile on many processors or machines'
DETAILS = """EXTRACT is cut into tiles by osmium. A session edits each tile, on workers of Dask, and what lies across their borders is
done anew in one session over just that. So the result is that of one session over all. It is written as one osmChange, NAME.osc,
with the objects that it rests on, NAME.opl. Nothing is sent. Go on with

    yoke start NAME.opl; yoke osc NAME.osc; yoke review; yoke send

A run that was stopped goes on where it was, by the same command. Where a repair is about some tags alone, osmium tags-filter
before one session is simpler; below some millions of objects one session is faster."""


def add_arguments(parser: argparse.ArgumentParser) -> None:
    parser.add_argument('extract', metavar='EXTRACT', help='what osmium reads, best as PBF')
    parser.add_argument('script', metavar='SCRIPT', help='a file of lines; - is standard input')
    parser.add_argument('--to', metavar='NAME', required=True, help='writes NAME.osc and NAME.opl')
    parser.add_argument(
        '--grid', metavar='NxM', default='4x4', help='columns and rows of tiles (%(default)s)'
    )
    parser.add_argument(
        '--bbox', metavar='W,S,E,N', help='the box to cut; else that of the extract'
    )
    parser.add_argument(
        '--workers',
        metavar='N',
        type=int,
        default=4,
        help='sessions at a time on this machine (%(default)s)',
    )
    parser.add_argument(
        '--work',
        metavar='FOLDER',
        default='tiles',
        help='where tiles and their results are kept (%(default)s)',
    )
    parser.add_argument(
        '--since',
        metavar='EXTRACT',
        help='an older extract: do only the tiles in which something differs',
    )
    group = parser.add_argument_group(
        'a cluster of Dask in place of this machine; --work is to be the same folder on all machines'
    )
    group.add_argument('--scheduler', metavar='tls://HOST:PORT')
    group.add_argument('--tls-ca-file', metavar='FILE', default='')
    group.add_argument('--tls-cert', metavar='FILE', default='')
    group.add_argument('--tls-key', metavar='FILE', default='')
    group.add_argument(
        '--in-the-clear',
        action='store_true',
        help='a scheduler without TLS: whoever reaches it runs code there',
    )


def run(arguments: argparse.Namespace) -> int:
    began = time.monotonic()
    outputs = [arguments.to + '.osc', arguments.to + '.opl']
    check_outputs(outputs, [arguments.extract, arguments.script], pathlib.Path(arguments.day))
    for name in outputs:
        if pathlib.Path(name).exists():
            raise Refused(f'{name} is there already: name another --to, or move it away')
    if not pathlib.Path(arguments.extract).is_file():
        raise Trouble(f'there is no file {arguments.extract}')
    wide, high = grid.read(arguments.grid)
    where = Where(
        arguments.workers,
        arguments.scheduler or '',
        arguments.tls_ca_file,
        arguments.tls_cert,
        arguments.tls_key,
        arguments.in_the_clear,
    )
    asked = engine.Asked(
        arguments.extract,
        arguments.script,
        do.read(arguments.script),
        wide,
        high,
        pathlib.Path(arguments.work).resolve(),
        where,
        arguments.since or '',
        box(arguments.bbox),
    )
    where.check()
    cluster.library()
    found = engine.run(Program.of(arguments), asked)
    engine.write(found, asked, arguments.to)
    return show(found, arguments.to, time.monotonic() - began)


def box(text: str | None) -> tuple[Decimal, Decimal, Decimal, Decimal] | None:
    """The box of the words."""
    if text is None:
        return None
    try:
        west, south, east, north = drawing.box_of(text)
    except ValueError as error:
        raise Usage(str(error)) from None
    degree = Decimal(drawing.UNITS)
    return west / degree, south / degree, east / degree, north / degree


def show(found: engine.Outcome, name: str, seconds: float) -> int:
    """Says what came; the exit code: 1 where a step was refused."""
    counts = Counter(verb for verb, _ in found.changes)
    results.put(
        tiles=found.tiles,
        skipped=found.skipped,
        changes=dict(counts),
        alike=found.alike,
        seam=found.seam_keys,
        rounds=found.rounds,
        refused=[
            {'session': where, 'step': step, 'why': why} for where, step, why in found.refused
        ],
        files=[name + '.osc', name + '.opl'],
    )
    for where, step, why in found.refused[:20]:
        print(f'{where}: refused: {words.cut(step)}: {words.refusal(why)}')
    if len(found.refused) > 20:
        print(f'... {len(found.refused) - 20} more refused steps')
    print(
        f'{found.tiles} tiles, {found.skipped} left out; {found.seam_keys} objects done over the seam, in {found.rounds} rounds; '
        f'{seconds:.0f} s'
    )
    print(
        f'{len(found.changes)} changes in {name}.osc: {counts["create"]} new, {counts["modify"]} changed, {counts["delete"]} deleted'
    )
    print(f'next: yoke start {name}.opl; yoke osc {name}.osc; yoke review; yoke send')
    return 1 if found.refused else 0
