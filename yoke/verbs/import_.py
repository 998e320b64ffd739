"""`yoke import`: features of GeoJSON or CSV as new objects of the session."""
import argparse
import contextlib
import os
import pathlib
import re
import tempfile
from collections import Counter
from dataclasses import dataclass, replace
from typing import Any, Callable, Dict, Iterable, List, Optional, Tuple

from yoke import day, imports, ledger, opl, printing, results, table
from yoke.files import check_outputs, data_of
from yoke.formats import columns, drawing, features, mapping, suspicions, tag_table
from yoke.formats.features import Feature
from yoke.formats.mapping import Mapping, scalar
from yoke.formats.suspicions import Accepted, Suspicion
from yoke.formats.tag_table import Sheet
from yoke.ledger import Desk, Identity
from yoke.session import Session
from yoke.trouble import Refused, Trouble, Usage
from yoke.verbs import do

SUMMARY = 'make new objects of the features of a GeoJSON or CSV file'
DETAILS = """A feature comes whole or not at all; corners at one place are one node. Each feature that is left out is named with the cause.
What was imported before is left out, whatever others did to it since: the day's ledger knows it, and so does one that a team
shares (--ledger). So is what the session has already, with the same tags and within a metre, and what is so near an
earlier feature of the file; --again takes both.
Without --within the bounds are those of the session's nodes, and on each side a tenth more, 0.01 degree at least; where it
has no node there are none. docs/TABLES.md has the form of the file of --tags, and of a ledger. Before you import into
OpenStreetMap: https://wiki.openstreetmap.org/wiki/Import/Guidelines"""
LEAST = 10**5  # by how much the session's own box is widened at least, in units of 10^-7 degree


def add_arguments(parser: argparse.ArgumentParser) -> None:
    parser.add_argument('file', metavar='FILE', help='.geojson, .json, .geojsonl or .csv, .tsv')
    parser.add_argument(
        '--within', metavar='W,S,E,N', help='the bounds in degrees: what lies outside is left out'
    )
    parser.add_argument('--anywhere', action='store_true', help='no bounds')
    parser.add_argument(
        '--tags', metavar='RULES', help='a file of rules by which properties become tags'
    )
    parser.add_argument(
        '--columns',
        metavar='NAMES',
        action='append',
        help='the properties that become tags under their own names, with commas between them',
    )
    do.add_accept(parser)
    parser.add_argument(
        '--encoding', metavar='NAME', help='the encoding of FILE, such as cp1252; else UTF-8'
    )
    parser.add_argument(
        '--latitude-first',
        action='store_true',
        help='in FILE the latitude stands before the longitude',
    )
    parser.add_argument('--lon', metavar='COLUMN', help='the column of the longitude of a CSV')
    parser.add_argument('--lat', metavar='COLUMN', help='the column of the latitude of a CSV')
    parser.add_argument(
        '--features',
        metavar='N-M',
        help='only the features N to M of the file, of which the first is 1',
    )
    parser.add_argument(
        '--again',
        action='store_true',
        help='also features that the session, a ledger or the file before them has already',
    )
    parser.add_argument(
        '--join', action='store_true', help='corners where the session has a node are that node'
    )
    parser.add_argument('--all', action='store_true', help='do nothing where a feature is left out')
    parser.add_argument(
        '--report',
        metavar='FILE',
        help='write what was left out into a file, and not to standard output',
    )
    parser.add_argument(
        '--to',
        metavar='FILE.opl',
        help='write the new objects for `import` into a file, and do nothing',
    )
    of_ledger = parser.add_argument_group('of the ledger')
    add_ledger(of_ledger)
    of_ledger.add_argument(
        '--id',
        metavar='COLUMN',
        help='the property by which a feature is known again in other versions of FILE',
    )
    of_ledger.add_argument(
        '--dataset',
        metavar='NAME',
        help='in which the ids of --id mean something; else the name of FILE',
    )
    of_ledger.add_argument(
        '--apart',
        action='store_true',
        help='also features that touch some which others have taken and not sent',
    )


def add_ledger(parser: Any) -> None:
    """The options of verbs that read or write ledgers."""
    parser.add_argument(
        '--ledger',
        metavar='FILE',
        action='append',
        default=None,
        help='a ledger that a team shares, made where it isn\'t there ($YOKE_LEDGER); the day goes on with it',
    )
    parser.add_argument(
        '--who',
        metavar='NAME',
        help='the name under which you take features ($YOKE_WHO, else your account\'s)',
    )


def desk_of(arguments: argparse.Namespace, session: Session) -> Desk:
    """The ledgers of a day, up to date; the folder of the day has to be locked."""
    desk = Desk(session.day, ledger.name_of_user(arguments.who))
    desk.share(arguments.ledger or filter(None, [os.environ.get('YOKE_LEDGER')]))
    desk.settle()
    return desk


@dataclass(frozen=True)
class Imported:
    """What an import did: how many features it read and took, how many objects it made of each
    kind, the features that it left out with the cause of each, and the session after it; None where
    the objects went into a file.
    """

    read: int
    taken: int
    nodes: int
    ways: int
    relations: int
    left_out: List[Tuple[str, str]]
    session: Optional[day.State]


def run(arguments: argparse.Namespace) -> int:
    into(Session.of(arguments), arguments, print)
    return 0


def into(
    session: Session,
    arguments: argparse.Namespace,
    tell: Callable[[str], object],
    ask: columns.Ask = columns.asked,
) -> Imported:
    """Imports what the words of the verb name into a session; `tell` gets each line of the report,
    and `ask` whether columns are tags.
    """
    if arguments.within and arguments.anywhere:
        raise Usage('--within or --anywhere, not both')
    accepted = Accepted.of(arguments.accept)
    check_outputs(
        filter(None, [arguments.report, arguments.to]),
        filter(None, [arguments.file, arguments.tags]),
        session.day.folder,
    )
    named = rules(arguments.tags) if arguments.tags else None
    given_box(arguments)
    source = read(arguments)
    identities = identities_of(arguments, source)
    chosen = tags_of(arguments, source, named, accepted, ask)
    wanted = part(source.features, arguments.features)
    accepted.stop(of_source(source, wanted, chosen))
    with session.day.locked():
        session.check_settled()
        desk = desk_of(arguments, session)
        with desk.held() as book:
            found = table.read(session.day.last().text())
            plan = imports.Plan(desk, book, found, identities, arguments.again, arguments.apart)
            picture = draw(arguments, found, wanted, chosen, plan)
            accepted.stop(list(suspicions.of_tags(picture.tags)))
            report(picture, plan, arguments.report, tell)
            done = Imported(
                picture.read,
                picture.taken,
                len(picture.nodes),
                len(picture.ways),
                len(picture.relations),
                list(picture.left),
                None,
            )
            results.put(
                file=None,
                session=None,
                left_out=[{'feature': where, 'why': why} for where, why in picture.left],
                counts={
                    'read': picture.read,
                    'taken': picture.taken,
                    'nodes': len(picture.nodes),
                    'ways': len(picture.ways),
                    'relations': len(picture.relations),
                },
            )
            if picture.left and arguments.all:
                raise Refused(f'nothing is done: {len(picture.left)} features were left out')
            if not picture.taken:
                raise Refused('nothing is done: no feature was taken')
            if arguments.to:
                day.write_whole(arguments.to, ''.join(line + '\n' for line in picture.lines()))
                results.put(file=arguments.to)
                tell(f'wrote {arguments.to}')
                return done
            claim = desk.claim(session.day.next_name('import'), plan.claimed(picture))
        try:
            perform(session, plan, picture)
        except BaseException:
            desk.settle()  # gives back what was claimed
            raise
        desk.keep(claim)
        results.put(session=results.of_state(session.day.last()))
        tell(f'kept as {session.day.last().path}')
        return replace(done, session=session.day.last())


def perform(session: Session, plan: imports.Plan, picture: drawing.Drawing) -> None:
    """Makes the objects of a drawing in the session, and keeps it. The folder of the day has to be
    locked.
    """
    with tempfile.TemporaryDirectory(prefix='yoke-') as folder:
        steps = []
        for name, lines in (
            ('corners.opl', plan.downloads(picture)),
            ('new.opl', [] if picture.refers_to_new() else picture.lines()),
        ):
            path = pathlib.Path(folder, name)
            path.write_text(''.join(line + '\n' for line in lines), encoding='utf-8', newline='\n')
            if path.stat().st_size:
                steps.append(
                    '{} {}'.format(
                        'download' if name == 'corners.opl' else 'import', opl.escape(str(path))
                    )
                )
        session.edit(
            'import',
            steps + (list(picture.steps(plan.found.next_new)) if picture.refers_to_new() else []),
        )


@dataclass(frozen=True)
class Source:
    """A file of features: these, the names of their properties, and the table, where it is one."""

    features: List[Feature]
    names: List[str]
    digest: str
    sheet: Optional[Sheet] = None

    def values(self, wanted: List[Feature]) -> Dict[str, List[Tuple[str, str]]]:
        """The values of features by property, each with the place where its feature stands, as
        `line 7`.
        """
        found: Dict[str, List[Tuple[str, str]]] = {name: [] for name in self.names}
        for one in wanted:
            for name, value in one.properties.items():
                with contextlib.suppress(mapping.Left):
                    found[name].append(
                        (
                            one.where,
                            value if isinstance(value, str) else scalar(value, name, Counter()),
                        )
                    )
        return found


def identities_of(arguments: argparse.Namespace, source: Source) -> Dict[int, Identity]:
    """By what each feature of a file is known again, by its number; Usage where there is no such
    column, Trouble where an id stands twice.
    """
    dataset = arguments.dataset or os.path.basename(arguments.file)
    if arguments.id and arguments.id not in source.names:
        raise Usage('--id: ' + columns.unknown(arguments.id, source.names))
    found: Dict[int, Identity] = {}
    places: Dict[str, str] = {}
    for one in source.features:
        text = (
            scalar(one.properties.get(arguments.id), arguments.id, Counter())
            if arguments.id
            else one.id
        )
        found[one.number] = Identity.of(one, dataset, source.digest, text)
        if text and places.setdefault(text, one.where) != one.where and arguments.id:
            raise Trouble(
                '{}: the id {} stands in {} and in {}'.format(
                    arguments.file, text, places[text], one.where
                )
            )
    twice = Counter(one.id for one in found.values())
    return {
        number: replace(one, id='') if twice[one.id] > 1 else one for number, one in found.items()
    }


def draw(
    arguments: argparse.Namespace,
    found: table.Table,
    wanted: List[Feature],
    chosen: Mapping,
    plan: imports.Plan,
) -> drawing.Drawing:
    """The new objects of features, over a session."""
    there = {
        drawing.place_of(known.mine): key
        for key, known in reversed(list(found.things.items()))
        if known.mine and key[0] == 'n'
    }
    nodes = {**(there if arguments.join else {}), **plan.corners}
    picture = drawing.Drawing(
        chosen,
        bounds(arguments, there),
        arguments.latitude_first,
        nodes,
        {} if arguments.again else drawing.shapes_of(found),
        None if arguments.again else drawing.Near(found),
        None if arguments.again else drawing.Earlier(),
        plan.before,
        plan.blocked,
    )
    for feature in wanted:
        picture.add(feature)
    return picture


def part(found: List[Feature], text: Optional[str]) -> List[Feature]:
    """The features of a file that `N-M` names; all where it is None."""
    if text is None:
        return found
    numbers = re.fullmatch('([1-9][0-9]*)-([1-9][0-9]*)', text)
    first, last = map(int, numbers.groups()) if numbers else (1, 0)
    if first > last:
        raise Usage(f'--features wants two numbers, as 1-1000, and not {text}')
    if first > len(found):
        raise Refused(f'nothing is done: the file has {len(found)} features')
    return found[first - 1 : last]


def read(arguments: argparse.Namespace) -> Source:
    """The features of the file."""
    data, name = data_of(arguments.file), arguments.file.lower()
    is_table = pathlib.Path(name[:-3] if name.endswith('.gz') else name).suffix in (
        '.csv',
        '.tsv',
        '.txt',
    )
    try:
        if not is_table:
            found = features.read_geojson(data, arguments.encoding)
            return Source(found, features.names_of(found), ledger.digest_of(data))
        sheet = tag_table.sheet_of(data, arguments.encoding)
        places = features.place_columns(sheet.names, arguments.lon, arguments.lat)
        return Source(
            features.points(sheet.names, sheet.rows, sheet.sign, arguments.lon, arguments.lat),
            [one for at, one in enumerate(sheet.names) if one and at not in places],
            ledger.digest_of(data),
            sheet,
        )
    except ValueError as error:
        raise Trouble(f'{arguments.file}: {error}') from None


def tags_of(
    arguments: argparse.Namespace,
    source: Source,
    named: Optional[Mapping],
    accepted: Accepted,
    ask: columns.Ask = columns.asked,
) -> Mapping:
    """The rules by which properties become tags, all of which the user named or confirmed."""
    texts = {
        name: [text for _, text in values]
        for name, values in source.values(source.features).items()
    }
    return columns.mapping_of(named, arguments.columns, source.names, (), texts, accepted, ask)


def of_source(source: Source, wanted: List[Feature], chosen: Mapping) -> List[Suspicion]:
    """What is suspicious in the values that become tags."""
    values = source.values(wanted)
    used = {name: found for name, found in values.items() if chosen.uses(name)}
    found = list(suspicions.of_columns(used))
    if source.sheet:
        rows = [source.sheet.rows[one.number - 1] for one in wanted]
        found += [
            *suspicions.of_rows(source.sheet.names, rows),
            *suspicions.of_shift(source.sheet.names, rows, used),
        ]
    return found


def rules(name: Optional[str]) -> Mapping:
    """The rules of a file; without one properties are kept as they are."""
    if name is None:
        return mapping.Mapping()
    try:
        return mapping.read(features.text_of(data_of(name)))
    except ValueError as error:
        raise Trouble(f'{name}: {error}') from None


def given_box(arguments: argparse.Namespace) -> Optional[drawing.Box]:
    """The box that the user gave, in units of 10^-7 degree; None where there is none."""
    try:
        return drawing.box_of(arguments.within) if arguments.within else None
    except ValueError as error:
        raise Usage(str(error)) from None


def bounds(arguments: argparse.Namespace, there: Dict[drawing.Place, str]) -> drawing.Box:
    """The box in which features have to lie, in units of 10^-7 degree: the given one, or that of
    the session's nodes, widened.
    """
    given = given_box(arguments)
    if given:
        return given
    return drawing.WORLD if arguments.anywhere else around(there)


def around(there: Iterable[drawing.Place]) -> drawing.Box:
    """The box of some places, widened by a tenth on each side, and by 0.01 degree at least; the
    world where there is none.

    A box that would go over the 180th meridian has all longitudes.
    """
    places = list(there)
    if not places:
        return drawing.WORLD
    lons, lats = zip(*places)
    wide, high = (max(LEAST, (max(side) - min(side)) // 10) for side in (lons, lats))
    west, south, east, north = drawing.WORLD
    if west <= min(lons) - wide and max(lons) + wide <= east:
        west, east = min(lons) - wide, max(lons) + wide
    return west, max(min(lats) - high, south), east, min(max(lats) + high, north)


def report(
    picture: drawing.Drawing, plan: imports.Plan, name: Optional[str], tell: Callable[[str], object]
) -> None:
    """Tells the report, or writes it into a file and tells its counts."""
    said = list(picture.report())
    lines = [printing.line(line) for line in (*said[:2], *plan.report(), *said[2:])]
    if name:
        day.write_whole(os.path.abspath(name), ''.join(line + '\n' for line in lines))
        lines = [line for line in lines if not line.startswith('left out: ')]
    for line in lines:
        tell(line)
