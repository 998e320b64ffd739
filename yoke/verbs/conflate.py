"""`yoke conflate`: features of a file beside what the session has: the same, to update, new,
ambiguous.
"""
import argparse
import pathlib
from typing import Dict, Iterator, List, Mapping, Sequence, Tuple

from yoke import day, opl, results, table
from yoke.conflate import match, outputs, rules as rule_file, shapes
from yoke.conflate.match import Candidate, Found
from yoke.conflate.shapes import Thing
from yoke.files import check_outputs, data_of
from yoke.formats import drawing
from yoke.formats.features import Feature, text_of
from yoke.formats.mapping import Left, Mapping as Tags
from yoke.formats.suspicions import Accepted
from yoke.formats.tag_table import OLD
from yoke.program import BadLine
from yoke.progress import note
from yoke.scripts import bound
from yoke.session import Session
from yoke.trouble import Refused, Trouble, Usage
from yoke.verbs import do, import_

LeftOut = Tuple[str, str]  # where a feature stands, and why it isn't taken

SUMMARY = 'match the features of a GeoJSON or CSV file with objects that are there already'
DETAILS = """\
  yoke conflate shops.csv --rules shops.rules --tags tags.rules --to shops
  yoke do shops.script

Nothing is changed without --do, which runs the script at once. NAME.script sets tags of the objects that are matched, and imports what is new
from NAME.opl. NAME.csv lists what is ambiguous, which values differ, and what is gone. Write a key,
new or skip into its column decision, and give it back by --decided; or decide on a map by
yoke review --questions NAME. docs/HOWTO/conflate.md shows it all."""


def add_arguments(parser: argparse.ArgumentParser) -> None:
    """The words of the verb."""
    parser.add_argument('file', metavar='FILE', help='.geojson, .json, .geojsonl or .csv, .tsv')
    parser.add_argument('--rules', metavar='FILE', required=True, help='what is the same')
    parser.add_argument(
        '--tags', metavar='RULES', help='a file of rules by which properties become tags'
    )
    parser.add_argument(
        '--columns',
        metavar='NAMES',
        action='append',
        help='the properties that become tags under their own names',
    )
    do.add_accept(parser)
    parser.add_argument(
        '--to', metavar='NAME', default='conflate', help='the name of what is written (%(default)s)'
    )
    parser.add_argument(
        '--do', action='store_true', help='run the script at once, as yoke do would'
    )
    parser.add_argument('--decided', metavar='FILE.csv', help='a list with decisions')
    parser.add_argument(
        '--ids',
        metavar='FILE.csv',
        help='which id of the source is which object: read, and written',
    )
    parser.add_argument(
        '--encoding', metavar='NAME', help='the encoding of FILE, such as cp1252; else UTF-8'
    )
    parser.add_argument('--lon', metavar='COLUMN', help='the column of the longitude of a CSV')
    parser.add_argument('--lat', metavar='COLUMN', help='the column of the latitude of a CSV')
    parser.add_argument(
        '--latitude-first', action='store_true', help='in FILE the latitude stands first'
    )
    parser.add_argument(
        '--anywhere', action='store_true', help='take features far from all that the session has'
    )
    parser.add_argument(
        '--force', action='store_true', help='write over files that yoke did not write'
    )


def run(arguments: argparse.Namespace) -> int:
    """Conflates; answers with the exit code."""
    session, accepted = Session.of(arguments), Accepted.of(arguments.accept)
    names = [arguments.to + ending for ending in outputs.ENDINGS]
    read = [arguments.file, arguments.rules, arguments.tags, arguments.decided]
    check_outputs(
        [*names, *filter(None, [arguments.ids])], list(filter(None, read)), session.day.folder
    )
    outputs.check(arguments.to, arguments.force)
    rules = rules_of(arguments.rules)
    if bool(arguments.ids) != bool(rules.source_id):
        raise Usage('--ids FILE goes with a line source-id COLUMN of the rules')
    source = import_.read(arguments)
    chosen = tags_of(arguments, source, rules, accepted)
    state = session.day.last()
    text = state.text()
    there = table.read(text)
    bounds = drawing.WORLD if arguments.anywhere else import_.around(places_of(there))
    once, left = each_once(source.features)
    features, bad = taken(once, chosen, arguments.latitude_first, bounds)
    left += bad
    ids = ids_of(once, rules)
    before = ids_before(arguments.ids)
    known = {name: before[number] for name, number in ids.items() if before.get(number)}
    found = match.match(rules, features, objects(session, there, rules), known)
    decide(found, decisions(arguments.decided, features), there)
    if shapes.shapely() is None and any(feature.is_area for feature in features):
        note('outlines are compared by a raster: python3-shapely compares them exactly')
    one = outputs.Outcome(rules, found, left, still(once))
    picture = drawing.Drawing(
        chosen, bounds, latitude_first=arguments.latitude_first, there=drawing.shapes_of(there)
    )
    one.draw(picture, {feature.where: feature for feature in source.features})
    gone = outputs.gone_by_tags(rules, found, there)
    if rules.gone:
        gone += outputs.gone_by_ids(before, ids, rules.source_id)
    outputs.write(arguments.to, one, bound.head(state, text), gone)
    if arguments.ids:
        day.write_whole(arguments.ids, outputs.ids_text(before, found, ids))
    tell(arguments.to, one, gone, arguments.do)
    return perform(session, arguments, one) if arguments.do else 0


def perform(session: Session, arguments: argparse.Namespace, one: outputs.Outcome) -> int:
    """Runs the script that was written; the exit code. Nothing to do is well too."""
    if not one.tags and not one.counts()['new']:
        print('nothing to do')
        return 0
    script = arguments.to + '.script'
    done = do.over(session, script, do.read(script), accept=arguments.accept, note=note, tell=print)
    do.show(done.name, done.answer, done.kept)
    return do.end(session, done.answer, keep=False)


def tell(
    name: str, one: outputs.Outcome, gone: Sequence[Tuple[str, str, str]], is_done: bool
) -> None:
    """Says what comes of it, and what is next."""
    results.put(
        counts={**one.counts(), 'gone': len(gone)},
        steps=[],
        session=None,
        files=[name + ending for ending in outputs.ENDINGS if pathlib.Path(name + ending).exists()],
    )
    for line in one.report():
        print(line)
    if gone:
        print(f'gone from the file: {len(gone)}')
    if one.counts()['ambiguous']:
        print(f'next: decide in {name}.csv, or by yoke review --questions {name}')
    if not is_done:
        print(f'next: yoke do {name}.script')


def rules_of(name: str) -> rule_file.Rules:
    """The rules of a file; Trouble if it has none."""
    try:
        return rule_file.read(text_of(data_of(name)))
    except ValueError as fault:
        raise Trouble(f'{name}: {fault}') from None


def tags_of(
    arguments: argparse.Namespace,
    source: import_.Source,
    rules: rule_file.Rules,
    accepted: Accepted,
) -> Tags:
    """How properties become tags. The source's own id becomes one only if a rule of --tags says so."""
    if rules.source_id and rules.source_id not in source.names:
        raise Refused(
            f'{arguments.file} has no column {rules.source_id}, which source-id names: '
            f'it has {", ".join(source.names)}'
        )
    named = import_.rules(arguments.tags) if arguments.tags else None
    chosen = import_.tags_of(arguments, source, named, accepted)
    accepted.stop(import_.of_source(source, source.features, chosen))
    return chosen


def still(read: Sequence[Feature]) -> Dict[str, Dict[str, str]]:
    """What tags had when the file was made, by the names of features: its properties `old:KEY`."""
    return {
        one.where: {
            name[len(OLD) :]: str(value or '').strip()
            for name, value in one.properties.items()
            if name.startswith(OLD)
        }
        for one in read
    }


def places_of(there: table.Table) -> Iterator[drawing.Place]:
    """Where the nodes of a session are."""
    for key, known in there.things.items():
        place = drawing.place_of(known.mine) if key[0] == 'n' and known.mine else None
        if place:
            yield place


def each_once(read: Sequence[Feature]) -> Tuple[List[Feature], List[LeftOut]]:
    """The features without those that only repeat another one, and these."""
    seen: Dict[str, str] = {}
    found: List[Feature] = []
    left: List[LeftOut] = []
    for feature in read:
        text = repr((feature.kind, feature.coordinates, feature.properties, feature.problem))
        first = seen.setdefault(text, feature.where)
        if first == feature.where:
            found.append(feature)
        else:
            left.append((feature.where, f'it is the same as {first}'))
    return found, left


def taken(
    read: Sequence[Feature], chosen: Tags, latitude_first: bool, bounds: drawing.Box
) -> Tuple[List[Thing], List[LeftOut]]:
    """The features as Things, and those that are left out, each with the cause."""
    found: List[Thing] = []
    left: List[LeftOut] = []
    for feature in read:
        sketch = drawing.Drawing(chosen, bounds, latitude_first=latitude_first)
        sketch.add(feature)
        if sketch.left:
            left += sketch.left
            continue
        try:
            kind, shape = sketch._shape(feature)
        except Left as why:
            left.append((feature.where, str(why)))
            continue
        places = (
            [shape]
            if kind == 'Point'
            else shape
            if kind == 'LineString'
            else shape[0]
            if kind == 'MultiLineString'
            else shape[0][0]
        )
        path = [(lon / drawing.UNITS, lat / drawing.UNITS) for lon, lat in places]
        found.append(Thing(feature.where, sketch.tags[0], path, kind == 'Polygon'))
    return found, left


def objects(session: Session, there: table.Table, rules: rule_file.Rules) -> List[Thing]:
    """The objects in question, as Things."""
    query = ' or '.join(f'( {one} )' for one in rules.against)
    try:
        keys = session.ask(['find ' + query]).found()
    except BadLine:
        raise Refused(f'{query} is no query, which against wants: docs/SCRIPTS.md') from None
    return [one for key in keys for one in [thing_of(there, key)] if one]


def thing_of(there: table.Table, key: str) -> 'Thing | None':
    """An object as a Thing; None if no place of it is known."""
    mine = there.mine(key)
    path = path_of(there, mine) if mine else []
    if mine is None or not path:
        return None
    return Thing(key, mine.tags, path, key[0] != 'n' and len(path) > 3 and path[0] == path[-1])


def path_of(there: table.Table, thing: opl.Object) -> List[Tuple[float, float]]:
    """Where an object is; of a relation its outer way that spans most."""
    if thing.key[0] == 'n':
        return (
            [(float(thing.lon), float(thing.lat))]
            if thing.lon is not None and thing.lat is not None
            else []
        )
    if thing.key[0] == 'w':
        nodes = [there.mine(key) for key in thing.nodes]
        return [
            (float(node.lon), float(node.lat))
            for node in nodes
            if node and node.lon is not None and node.lat is not None
        ]
    members = [there.mine(key) for key, role in thing.members if key[0] != 'r' and role != 'inner']
    return max((path_of(there, member) for member in members if member), key=span, default=[])


def span(path: Sequence[Tuple[float, float]]) -> float:
    """How much a path spans: the half circumference of the box round it, in degrees; -1 without a
    place.
    """
    if not path:
        return -1.0
    lons, lats = zip(*path)
    return float(max(lons) - min(lons) + max(lats) - min(lats))


def ids_of(read: Sequence[Feature], rules: rule_file.Rules) -> Dict[str, str]:
    """The source's ids by the names of features; Refused if one stands twice."""
    found: Dict[str, str] = {}
    seen: Dict[str, str] = {}
    for feature in read if rules.source_id else ():
        number = str(feature.properties.get(rules.source_id) or '').strip()
        if number:
            if number in seen:
                raise Refused(
                    f'the id {number} stands twice, in {seen[number]} and {feature.where}'
                )
            seen[number] = feature.where
            found[feature.where] = number
    return found


def ids_before(name: 'str | None') -> Dict[str, str]:
    """The list of ids as it is."""
    if not name or not pathlib.Path(name).exists():
        return {}
    try:
        return outputs.read_ids(text_of(data_of(name)))
    except ValueError as fault:
        raise Trouble(f'{name}: {fault}') from None


def decisions(name: 'str | None', features: Sequence[Thing]) -> Mapping[str, str]:
    """What a person decided."""
    if not name:
        return {}
    try:
        return outputs.decided_rows(
            text_of(data_of(name)), {one.name: one.middle for one in features}
        )
    except ValueError as fault:
        raise Trouble(f'{name}: {fault}') from None


def decide(found: Sequence[Found], decided: Mapping[str, str], there: table.Table) -> None:
    """A person's decision counts before what was reckoned."""
    for one in found:
        how = decided.get(one.feature.name)
        if how in ('new', 'skip'):
            one.kind, one.why = how, 'decided'
        elif how:
            thing = thing_of(there, how) if opl.KEY.fullmatch(how) else None
            if thing is None:
                raise Refused(
                    f'{one.feature.name}: {how} is no object that is there, '
                    'and neither new nor skip'
                )
            one.kind, one.why = 'update', 'decided'
            one.candidates.insert(
                0, Candidate(2.0, shapes.metres(one.feature.middle, thing), thing, 'decided')
            )
