"""`yoke get`: an extract for `yoke start`, from a server, from Overpass, or cut out of a file."""
import argparse
import pathlib
import time
from typing import Dict, List, Optional

from yoke import api, results, web
from yoke.extracts import boxes, cutting, header, map_calls, overpass, parts
from yoke.extracts.parts import Parts
from yoke.extracts.whole import Whole
from yoke.files import data_of
from yoke.formats.drawing import Box
from yoke.formats.features import text_of
from yoke.progress import note
from yoke.trouble import NoAnswer, Refused, Trouble, Usage

SUMMARY = 'download an extract: a box, a query of Overpass, or a part of a file'
DETAILS = """\
  yoke get --bbox W,S,E,N --api ADDRESS --to area.opl
  yoke get --overpass ADDRESS --query FILE [--bbox W,S,E,N] --to area.opl
  yoke get --from country.osm.pbf --bbox W,S,E,N --to area.opl      (or --polygon FILE)

The file is whole, or there is none. A download that broke off keeps its parts in FILE.parts,
and the same command goes on with them. No file is ever written over. The first line of the
file says of which moment it is. docs/HOWTO/get-data.md shows each of these."""
OLD = 24 * 3600  # seconds after which data counts as old


def add_arguments(parser: argparse.ArgumentParser) -> None:
    """The words of the verb."""
    api.add_arguments(parser)
    parser.add_argument('--to', metavar='FILE.opl', required=True, help='the extract to write')
    parser.add_argument(
        '--bbox',
        metavar='W,S,E,N',
        help='a box in degrees; west greater than east crosses the 180th meridian',
    )
    parser.add_argument(
        '--overpass',
        metavar='ADDRESS',
        help='an Overpass server, such as https://HOST/api/interpreter',
    )
    parser.add_argument(
        '--query', metavar='FILE', help='its query, in QL or XML; {{bbox}} in it becomes --bbox'
    )
    parser.add_argument(
        '--from',
        dest='from_file',
        metavar='FILE',
        help='a file that osmium reads, such as country.osm.pbf',
    )
    parser.add_argument('--polygon', metavar='FILE', help='cut out a polygon: .poly or .geojson')
    parser.add_argument(
        '--strategy',
        choices=cutting.STRATEGIES,
        default='complete_ways',
        help='what osmium takes with it (%(default)s)',
    )
    parser.add_argument(
        '--beyond', action='store_true', help='also if the box reaches beyond the file'
    )
    parser.add_argument(
        '--max-calls',
        metavar='N',
        type=int,
        default=map_calls.MOST_CALLS,
        help='calls of one box (%(default)s)',
    )
    parser.add_argument(
        '--anew', action='store_true', help='begin again, without the parts that are kept'
    )


def run(arguments: argparse.Namespace) -> int:
    """Gets the extract; answers with the exit code."""
    ways = {'--api': of_api, '--overpass': of_overpass, '--from': of_file}
    given = [
        name
        for name, value in zip(ways, (arguments.api, arguments.overpass, arguments.from_file))
        if value
    ]
    if len(given) != 1:
        raise Usage('one of --api, --overpass and --from says where the data comes from')
    check_words(arguments, given[0])
    parts.check_target(arguments.to)
    folder = Parts(arguments.to)
    try:
        ways[given[0]](arguments, folder)
    except NoAnswer as silence:
        kept = len(folder.all())
        raise NoAnswer(
            f'{silence}; '
            + (
                f'{kept} parts are kept: the same command goes on with them'
                if kept
                else 'nothing was written'
            )
        ) from None
    finally:
        folder.remove_if_empty()
    results.put(file=arguments.to)
    print(f'next: yoke start {arguments.to}')
    return 0


def check_words(arguments: argparse.Namespace, way: str) -> None:
    """Usage if words don't go with the place from which the data comes."""
    others = {
        '--query': (arguments.query, '--overpass'),
        '--polygon': (arguments.polygon, '--from'),
    }
    for name, (value, wanted) in others.items():
        if value and way != wanted:
            raise Usage(f'{name} goes with {wanted}')
    if way == '--overpass' and not arguments.query:
        raise Usage('--overpass wants --query FILE')
    if way == '--api' and not arguments.bbox:
        raise Usage('--api wants --bbox W,S,E,N')
    if way == '--from' and bool(arguments.bbox) == bool(arguments.polygon):
        raise Usage('--from wants --bbox or --polygon')
    if arguments.max_calls < 1:
        raise Usage('--max-calls wants a number from 1 on')


def box_of(arguments: argparse.Namespace) -> List[Box]:
    """The boxes of --bbox; Usage if it is none."""
    if not arguments.bbox:
        return []
    try:
        return boxes.read(arguments.bbox)
    except ValueError as fault:
        raise Usage(f'--bbox: {fault}') from None


def of_api(arguments: argparse.Namespace, folder: Parts) -> None:
    """A box from a server of API 0.6."""
    wanted, server = box_of(arguments), api.server_of(arguments, note)
    request = {'api': server.address, 'bbox': arguments.bbox}
    with folder.held(request, arguments.anew):
        kept = len(folder.all())
        if kept:
            note(f'goes on with {kept} parts of {folder.folder}')
        found = map_calls.BoxDownload(server, folder, note, arguments.max_calls).run(wanted)
        if not found.whole.lines:
            folder.remove()
            raise Refused('nothing is there: is the box where you mean it, longitude first?')
        found.whole.write(arguments.to, found.first, server.address)
        folder.remove()
    several = f', between {found.first} and {found.last}' if found.first != found.last else ''
    print(f'{arguments.to}: {found.whole.counts()}, by {found.calls} calls{several}')
    if found.whole.changed:
        print(
            f'{len(found.whole.changed)} objects changed between two calls: the newest version '
            'of each is in the file'
        )
    if found.fetched_after:
        print(f'{found.fetched_after} nodes of ways were asked for after that')
    tell_whole(found.whole, found.first)


def of_overpass(arguments: argparse.Namespace, folder: Parts) -> None:
    """What a query finds at an Overpass server."""
    address = web.checked(arguments.overpass, '--overpass')
    box_of(arguments)
    try:
        query = overpass.query_of(text_of(data_of(arguments.query)), arguments.bbox)
    except ValueError as fault:
        raise Trouble(f'{arguments.query}: {fault}') from None
    request: Dict[str, str] = {'overpass': address, 'query': query}
    with folder.held(request, arguments.anew):
        path = overpass.fetch(address, query, folder, note)
        try:
            whole, moment = overpass.read(path, query)
        except Trouble:
            pathlib.Path(path).unlink()  # the same answer would be refused again
            raise
        if not whole.lines:
            folder.remove()
            raise Refused('the query finds nothing')
        whole.write(arguments.to, moment, address)
        folder.remove()
    print(f'{arguments.to}: {whole.counts()}')
    tell_whole(whole, moment)


def of_file(arguments: argparse.Namespace, folder: Parts) -> None:
    """A part of a file, by osmium."""
    wanted = box_of(arguments)
    if arguments.polygon and not pathlib.Path(arguments.polygon).is_file():
        raise Trouble(f'there is no file {arguments.polygon}')
    moment = cutting.check_source(arguments.from_file, wanted, arguments.beyond)
    began = time.monotonic()
    request = {'from': arguments.from_file, 'where': arguments.bbox or arguments.polygon}
    with folder.held(request, arguments.anew):
        try:
            place = cutting.cut(
                arguments.from_file, wanted, arguments.polygon, arguments.strategy, folder
            )
            source = pathlib.Path(arguments.from_file).name
            counts, newest = cutting.copy(place, arguments.to, moment, source)
        finally:
            folder.remove()
    print(
        f'{arguments.to}: {counts["n"]} nodes, {counts["w"]} ways, {counts["r"]} relations, '
        f'by osmium in {time.monotonic() - began:.1f} s'
    )
    results.put(missing=None)  # osmium doesn't count them
    tell_counts(counts)
    tell_moment(moment, newest)


def tell_whole(whole: Whole, moment: Optional[str]) -> None:
    """Says how many objects are only referred to, and of which moment the rest is."""
    missing = whole.missing()
    if missing:
        print(f'{len(missing)} objects are only referred to: they lie outside')
    results.put(missing=len(missing))
    tell_counts(whole.numbers())
    tell_moment(moment, whole.newest())


def tell_counts(counts: Dict[str, int]) -> None:
    """Gives the number of objects of each kind as data."""
    results.put(
        counts={
            name: counts.get(letter, 0)
            for letter, name in (('n', 'nodes'), ('w', 'ways'), ('r', 'relations'))
        }
    )


def tell_moment(moment: Optional[str], newest: Optional[str]) -> None:
    """Says of which moment the data is, and what that means."""
    results.put(moment=moment)
    now = header.stamp(time.time())
    if newest and newest > now:
        note(f'an object was made at {newest}, and this machine\'s clock says {now}: set the clock')
    if moment is None:
        print(f'as of an unknown moment; the newest object is of {newest or "no known time"}')
        return
    print(f'as of {moment}: yoke refresh asks for what others did to the objects you edit since')
    if moment < header.stamp(time.time() - OLD):
        note(f'the data is more than a day old: as of {moment}')
