"""`yoke tag`: tags of many objects, of those that a query finds or row by row of a table."""
import argparse
from collections import Counter
from typing import Callable, Dict, Iterable, List, Optional, Sequence, Tuple

from yoke import choices, opl, results, table
from yoke.files import check_outputs, data_of
from yoke.formats import columns, features, row_search, suspicions, tag_plan, tag_table
from yoke.formats.mapping import Mapping
from yoke.formats.suspicions import Accepted, Suspicion
from yoke.formats.tag_table import Sheet
from yoke.progress import note
from yoke.scripts import bound
from yoke.scripts.names import Expanded
from yoke.session import Session
from yoke.sides import plain
from yoke.trouble import Refused, Trouble, Usage
from yoke.verbs import do, import_

SUMMARY = 'set tags of many objects: of all that a query finds, or row by row of a table'
DETAILS = """yoke tag created_by= --find 'Tcreated_by=*'      takes the tag away from all that have it
yoke tag surface=asphalt --keys w5,w7
yoke tag --csv surfaces.csv --columns surface,lit
                                                 a row for each object, a column for each tag
yoke tag --csv shops.csv --columns phone --where name={Shop} --where addr:street={Street}
                                                 rows find their objects by tags

A tag is KEY=VALUE; without a value it is taken away. QUERY is that of `find`; of what it finds only what is there counts.
A column `key` of the CSV names the object, as w5 or way/5, or `@type` and `@id` do; or --where finds it. An empty field says
nothing. A column `old:KEY` has what the tag KEY has to be still: where it is something else, the row is left out and listed.
Rows that find no object, or several, are listed too. docs/TABLES.md lists what is taken for suspicious.

With --to FILE nothing is tagged: FILE becomes a script for `yoke do`, which takes it over this session alone."""
OF_TABLE = (
    'key',
    'rules',
    'columns',
    'where',
    'within',
    'among',
    'only_if_still',
    'lists',
    'encoding',
    'lon',
    'lat',
    'keep',
)


def add_arguments(parser: argparse.ArgumentParser) -> None:
    parser.add_argument('tags', metavar='KEY=VALUE', nargs='*')
    which = parser.add_mutually_exclusive_group(required=True)
    which.add_argument('--find', metavar='QUERY', help='the objects that meet it')
    which.add_argument('--keys', metavar='KEYS', help='these objects, with commas between them')
    which.add_argument('--csv', metavar='FILE', help='a table with a row for each object')
    parser.add_argument(
        '--to',
        metavar='FILE',
        help='tag nothing, and write a script that would; - is standard output',
    )
    parser.add_argument(
        '--force', action='store_true', help='with --to: also over a file that yoke didn\'t write'
    )
    do.add_accept(parser)
    of_table = parser.add_argument_group('of a table')
    of_table.add_argument(
        '--columns',
        metavar='NAMES',
        action='append',
        help='the columns that become tags, with commas between them',
    )
    of_table.add_argument(
        '--tags',
        metavar='RULES',
        dest='rules',
        help='a file of rules by which columns become tags, as that of import',
    )
    of_table.add_argument('--key', metavar='COLUMN', help='the column that names the object')
    of_table.add_argument(
        '--where',
        metavar='KEY=VALUE',
        action='append',
        help='a tag that the object has to have, with {COLUMN} for what the row has; may come again',
    )
    of_table.add_argument(
        '--within',
        metavar='METRES',
        type=float,
        help='how far it may be from the row\'s longitude and latitude',
    )
    of_table.add_argument(
        '--among', metavar='QUERY', help='only objects that meet it are looked at by --where'
    )
    of_table.add_argument('--lon', metavar='COLUMN', help='the column of the longitude')
    of_table.add_argument('--lat', metavar='COLUMN', help='the column of the latitude')
    of_table.add_argument(
        '--only-if-still',
        metavar='KEY=VALUE',
        action='append',
        help='only objects whose tag KEY is VALUE now, with {COLUMN} for what the row has; empty: that have none',
    )
    of_table.add_argument(
        '--lists',
        metavar='NAME',
        help='write the rows that found one object, none or several, and those whose '
        'object has changed, into NAME-one.csv, NAME-none.csv, NAME-several.csv and NAME-changed.csv',
    )
    of_table.add_argument(
        '--encoding', metavar='NAME', help='the encoding of the table, such as cp1252; else UTF-8'
    )
    of_table.add_argument(
        '--keep', action='store_true', help='keep what was done although rows were refused'
    )


def run(arguments: argparse.Namespace) -> int:
    if arguments.csv:
        if arguments.tags:
            raise Usage('with --csv the tags stand in the table')
        return tag_rows(Session.of(arguments), arguments)
    for name in OF_TABLE:
        if getattr(arguments, name):
            raise Usage(
                '--{} is of a table: --csv'.format(
                    'tags' if name == 'rules' else name.replace('_', '-')
                )
            )
    tags, session = pairs(arguments.tags), Session.of(arguments)
    with session.day.locked():
        keys, lines = steps(
            session,
            tags,
            arguments.keys.split(',') if arguments.keys else None,
            arguments.find,
            arguments.accept,
            note if arguments.to == '-' else print,
        )
        results.put(keys=keys, rows=None, listed=[], steps=[], file=None, session=None)
        if arguments.to:
            return write(session, arguments, lines)
        if keys:
            session.edit('tag', lines)
            results.put(session=results.of_state(session.day.last()))
    print('{} object{} tagged'.format(len(keys), '' if len(keys) == 1 else 's'))
    if keys:
        print(f'kept as {session.day.last().path}')
    return 0


def steps(
    session: Session,
    tags: Dict[str, str],
    named: Optional[Sequence[str]],
    query: Optional[str],
    accept: Optional[Iterable[str]],
    tell: Callable[[str], object],
) -> Tuple[List[str], List[str]]:
    """The keys of the named objects, or of those that a query finds, and the lines that set their
    tags; the folder of the day has to be locked.

    `tell` gets each line about what is left out. Refused where all objects of a query would get
    what each has for itself.
    """
    accepted = Accepted.of(accept)
    keys = list(named) if named is not None else found(session, query or '')
    if named is None:
        accepted.stop(alike(session, keys, tags))
    lines = ['tag {} T{}'.format(','.join(keys), opl.tags(tags))] if keys else []
    if keys and named is None:
        script = do.spared(session, Expanded(lines, [0] * len(lines)), accepted)
        lines = script.lines
        for _, text in script.notes:
            tell(text)
    return keys, lines


def write(session: Session, arguments: argparse.Namespace, lines: List[str]) -> int:
    """Writes the lines as a script for this session alone; the exit code."""
    bound.write(arguments.to, lines, session.day.last(), arguments.force)
    results.put(file=arguments.to)
    if arguments.to != '-':
        print(f'wrote {arguments.to}: yoke do {arguments.to} tags')
    return 0


def pairs(words: Sequence[str]) -> Dict[str, str]:
    """Tags of a command line, which the map takes; Usage where a word is none."""
    tags: Dict[str, str] = {}
    for word in words:
        key, sign, value = word.partition('=')
        if not key or not sign or key in tags:
            raise Usage(
                f'{key} stands twice' if key in tags else f'KEY=VALUE is wanted, and not {word}'
            )
        tags[key] = value
    if not tags:
        raise Usage('KEY=VALUE is wanted, or KEY= to take a tag away')
    try:
        opl.tags(tags)
    except ValueError as error:
        raise Usage(str(error)) from None
    return tags


def found(session: Session, query: str) -> List[str]:
    """The keys of what is there and meets a query."""
    step = f'find ( {query} ) and not deleted and not incomplete'
    if '\n' in step:
        raise Usage('a query is one line')
    keys: List[str] = session.ask([step]).found()
    return keys


def alike(session: Session, keys: Sequence[str], tags: Dict[str, str]) -> List[Suspicion]:
    """Tags that each object has for itself, and that all objects of a query would get or lose, as
    the same name for all shops.

    What has one value in all of them, such as the old name of a street, may be changed in all of
    them.
    """
    individual = [key for key in tags if suspicions.is_individual(key)]
    if len(keys) < 2 or not individual:
        return []
    known = session.known()
    things = [known[key].mine for key in keys if key in known]
    return list(suspicions.of_query(individual, tags, [thing.tags for thing in things if thing]))


# ---- a table ----


def tag_rows(session: Session, arguments: argparse.Namespace) -> int:
    """Sets the tags of a table, a step for each row that has any; the exit code."""
    accepted, notes = Accepted.of(arguments.accept), Counter[str]()
    search = row_search.search_of(arguments.where or (), arguments.within)
    check_words(arguments, search)
    try:
        sheet = tag_table.sheet_of(data_of(arguments.csv), arguments.encoding)
        keys = () if search.keys else tag_table.key_columns(sheet.names, arguments.key)
        places = place_columns(arguments, sheet, search)
    except ValueError as error:
        raise Trouble(f'{arguments.csv}: {error}') from None
    guards = tag_table.guards(sheet.names, arguments.only_if_still or ())
    mapping = mapping_of(
        arguments,
        sheet,
        keys,
        [*search.columns, *(places or ()), *(name for rule in guards for name in rule.properties)],
        accepted,
    )
    rows = tag_table.rows_of(sheet, keys, mapping, guards, notes)
    accepted.stop(
        [
            *tag_plan.of_sheet(sheet, mapping, [*keys, *search.columns]),
            *suspicions.of_tags([row.tags for row in rows if row.tags]),
        ]
    )
    with session.day.locked():
        found_table = table.read(session.day.last().text())
        plan = tag_plan.Plan(tag_table.each_once(rows))
        if search.keys:
            index = row_search.Index(
                search, found_table, found(session, search.query(arguments.among or ''))
            )
            plan = tag_plan.matched(rows, index, places, sheet.sign)
        plan = tag_plan.guarded(plan, found_table)
        holding = choices.Choices(choices.of_day(session.day), found_table.things, accepted)
        plan = tag_plan.spared(plan, holding)
        accepted.stop(list(tag_plan.shifted(plan, found_table)))
        tell(plan, sheet, arguments, found_table, notes)
        for line in choices.lines_of(holding.left):
            (note if arguments.to == '-' else print)(line)
        return perform(session, arguments, plan, len(sheet.rows))


def check_words(arguments: argparse.Namespace, search: row_search.Search) -> None:
    """Usage where words of the command line don't go together."""
    if arguments.key and search.keys:
        raise Usage('--key or --where, not both')
    if (arguments.within is not None or arguments.among) and not search.keys:
        raise Usage('--within and --among go with --where')
    if arguments.lists:
        check_outputs(
            [f'{arguments.lists}-{name}.csv' for name in tag_plan.LISTS],
            filter(None, [arguments.csv, arguments.rules]),
            arguments.day,
        )


def place_columns(
    arguments: argparse.Namespace, sheet: Sheet, search: row_search.Search
) -> Optional[Tuple[str, str]]:
    """The columns of longitude and latitude, where they are wanted; ValueError where there are
    none.
    """
    if search.metres is None:
        return None
    lon, lat = features.place_columns(sheet.names, arguments.lon, arguments.lat)
    return sheet.names[lon], sheet.names[lat]


def mapping_of(
    arguments: argparse.Namespace,
    sheet: Sheet,
    keys: Sequence[str],
    used: Sequence[str],
    accepted: Accepted,
) -> Mapping:
    """The rules by which columns become tags."""
    rules = import_.rules(arguments.rules) if arguments.rules else None
    columns.check_names_used([name for name in used if name not in sheet.names], sheet.names)
    old = [name for name in sheet.names if name.startswith(tag_table.OLD)]
    return columns.mapping_of(
        rules, arguments.columns, sheet.names, [*keys, *used, *old], sheet.columns(), accepted
    )


def tell(
    plan: tag_plan.Plan,
    sheet: Sheet,
    arguments: argparse.Namespace,
    found_table: table.Table,
    notes: 'Counter[str]',
) -> None:
    """Says what becomes of the rows, and writes the lists; on the error stream where a script goes
    to standard output.
    """
    lines = list(tag_plan.notes_of(notes))
    if arguments.where:
        lines.append(tag_plan.counts(plan))
    if plan.changed:
        lines.append(f'rows whose object has changed: {len(plan.changed)}')
    lines += tag_plan.repeated(plan)
    if arguments.lists:
        lines += [f'wrote {name}' for name in tag_plan.write_lists(plan, sheet, arguments.lists)]
    else:
        lines += tag_plan.printed(plan)
    lines += tag_plan.overwritten(plan, found_table)
    for line in lines:
        (note if arguments.to == '-' else print)(line)


def perform(
    session: Session, arguments: argparse.Namespace, plan: tag_plan.Plan, count: int
) -> int:
    """Does the edits of a plan; the exit code. The folder of the day has to be locked."""
    bad, good = [row for row in plan.rows if row.problem], [
        row for row in plan.rows if row.tags and not row.problem
    ]
    rows = {
        'read': count,
        'taken': 0,
        'refused': len(bad),
        **{name: len(plan.listed(name)) for name in tag_plan.LISTS},
    }
    results.put(
        keys=[row.key for row in good],
        rows=rows,
        listed=listed(plan, bad),
        steps=[],
        file=None,
        session=None,
    )
    for row in bad:
        print(f'{arguments.csv}:{row.line}: refused: {plain(row.problem)}')
    if bad and not arguments.keep:
        raise Refused(
            'nothing is kept: {} of {} rows can\'t be taken: mend these, or --keep takes the others'.format(
                len(bad), count
            )
        )
    if not good:
        raise Refused(
            'nothing is kept: no row has a tag'
            if not plan.changed and len(plan.rows) == count
            else 'nothing is kept: no row is left to do'
        )
    steps = Expanded(
        [f'tag {row.key} T{opl.tags(row.tags)}' for row in good],
        [row.line for row in good],
    )
    if arguments.to:
        return write(session, arguments, steps.lines)
    answer = do.perform(session, 'tag', arguments.csv, steps, arguments.keep)
    do.show(arguments.csv, answer, kept=True)
    code = do.end(session, answer, arguments.keep)
    rows['taken'] = len(good) - len(answer.refused())
    print(f'{len(good) - len(answer.refused())} of {count} rows taken')
    return 1 if code or bad else 0


def listed(plan: tag_plan.Plan, bad: Sequence[tag_table.Row]) -> List[Dict[str, object]]:
    """The rows that aren't taken as data: the list that has each, its line, and what was found,
    such as several keys.
    """
    found: List[Dict[str, object]] = [
        {'list': 'refused', 'line': row.line, 'found': row.problem} for row in bad
    ]
    for name in tag_plan.LISTS[1:]:
        found += [
            {'list': name, 'line': row.line, 'found': text} for row, text in plan.listed(name)
        ]
    return found
