"""What the rows of a table do over a session: which object each means, which are left alone and
why, and what is overwritten.
"""
import csv
import io
from collections import Counter
from dataclasses import dataclass, field, replace
from typing import Dict, Iterator, List, Optional, Sequence, Tuple

from yoke.choices import Choices
from yoke.files import write_own
from yoke.formats import suspicions
from yoke.formats.mapping import Mapping
from yoke.formats.row_search import Index, place_of_row
from yoke.formats.suspicions import Suspicion
from yoke.formats.tag_table import Row, Sheet, changed_since, each_once
from yoke.sides import plain
from yoke.table import Table

SHOWN = 10  # rows of a list that are printed
LINE, FOUND = (
    'yoke:line',
    'yoke:found',
)  # columns that a list begins with: by them it is known as yoke's own
LISTS = ('one', 'none', 'several', 'changed')


@dataclass
class Plan:
    """Rows by what becomes of them.

    `rows` are those that may become edits, also those with a problem. The lists are pairs of a row
    and what is to be said of it: rows that mean one object, none, or several, and rows whose object
    has another value than the one that was expected.
    """

    rows: List[Row] = field(default_factory=list)
    one: List[Tuple[Row, str]] = field(default_factory=list)
    none: List[Tuple[Row, str]] = field(default_factory=list)
    several: List[Tuple[Row, str]] = field(default_factory=list)
    changed: List[Tuple[Row, str]] = field(default_factory=list)

    def listed(self, name: str) -> List[Tuple[Row, str]]:
        """A list by its name."""
        found: List[Tuple[Row, str]] = getattr(self, name)
        return found


def of_sheet(sheet: Sheet, mapping: Mapping, others: Sequence[str]) -> List[Suspicion]:
    """What is suspicious in the values of a table from which tags come, and of some other columns."""
    names = [name for name in sheet.names if name and (name in others or mapping.uses(name))]
    values = {name: sheet.column(name) for name in names}
    return [
        *suspicions.of_columns(values),
        *suspicions.of_rows(sheet.names, sheet.rows),
        *suspicions.of_shift(sheet.names, sheet.rows, names),
    ]


def matched(
    rows: Sequence[Row], index: Index, columns: Optional[Tuple[str, str]], sign: str
) -> Plan:
    """The plan of rows whose objects a search finds; `columns` are those of longitude and latitude."""
    plan = Plan()
    for row in rows:
        if row.problem:
            plan.rows.append(row)
            continue
        found = index.find(row.fields, place_of_row(row.fields, columns, sign))
        if found.problem:
            plan.rows.append(replace(row, problem=found.problem))
        elif len(found.keys) == 1:
            plan.rows.append(replace(row, key=found.keys[0]))
            plan.one.append((row, found.keys[0]))
        elif found.keys:
            plan.several.append((row, ' '.join(found.keys)))
        else:
            plan.none.append(
                (row, f'spelt otherwise: {" ".join(found.near)}' if found.near else '')
            )
    plan.rows = each_once(plan.rows)
    return plan


def guarded(plan: Plan, table: Table) -> Plan:
    """The plan without the rows whose objects have another value by now than the one that the row
    expects.

    A row whose object has all that it sets isn't one of them, and sets nothing: the same table goes
    through twice.
    """
    rows = []
    for row in plan.rows:
        thing = None if row.problem else table.mine(row.key)
        why = changed_since(row, thing.tags) if thing else ''
        if why and thing and row.tags and row.tags.items() <= thing.tags.items():
            rows.append(replace(row, tags={}))
        elif why:
            plan.changed.append((row, f'{row.key}: {why}'))
        else:
            rows.append(row)
    return replace(plan, rows=rows)


def spared(plan: Plan, choices: Choices) -> Plan:
    """The plan without the tags that would undo a choice."""
    return replace(
        plan,
        rows=[
            row if row.problem else replace(row, tags=choices.without(row.key, row.tags))
            for row in plan.rows
        ],
    )


def shifted(plan: Plan, table: Table) -> Iterator[Suspicion]:
    """Columns that stand one row too high or too low, as the present values of the objects tell."""
    values: Dict[str, List[Tuple[int, str, str]]] = {}
    for row in plan.rows:
        thing = None if row.problem else table.mine(row.key)
        for key, value in row.tags.items() if thing else ():
            values.setdefault(key, []).append(
                (row.line, value, thing.tags.get(key, '') if thing else '')
            )
    for key, found in values.items():
        yield from suspicions.of_neighbours(key, found)


def overwritten(plan: Plan, table: Table) -> Iterator[str]:
    """Lines on the values that the rows take the place of, by key, with the first ones."""
    found: Dict[str, List[str]] = {}
    for row in plan.rows:
        thing = None if row.problem else table.mine(row.key)
        for key, value in row.tags.items() if thing else ():
            before = thing.tags.get(key) if thing else None
            if before is not None and before != value:
                found.setdefault(key, []).append(f'{row.key} {plain(before)} -> {plain(value)}')
    for key, texts in found.items():
        more = f', and {len(texts) - 3} more' if len(texts) > 3 else ''
        yield f'overwritten: {plain(key)} of {len(texts)} object{"" if len(texts) == 1 else "s"}: {", ".join(texts[:3])}{more}'


# ---- the lists ----


def counts(plan: Plan) -> str:
    """How many rows mean one object, none or several."""
    return f'rows that found one object: {len(plan.one)}; none: {len(plan.none)}; several: {len(plan.several)}'


def repeated(plan: Plan) -> Iterator[str]:
    """Lines on the rows that only repeat another one, with the first ones."""
    found = [f'{row.line} is line {row.repeats} again' for row in plan.rows if row.repeats]
    if found:
        more = f', and {len(found) - SHOWN} more' if len(found) > SHOWN else ''
        yield f'repeated, and taken once: line {", ".join(found[:SHOWN])}{more}'


def printed(plan: Plan, names: Sequence[str] = LISTS[1:]) -> Iterator[str]:
    """The first rows of each list, as lines."""
    for name in names:
        found = plan.listed(name)
        for row, text in found[:SHOWN]:
            yield f'{name}: line {row.line}: ' + (
                plain(text)
                if text
                else ', '.join(plain(value) for value in row.fields.values() if value)[:80]
            )
        if len(found) > SHOWN:
            yield f'{name}: and {len(found) - SHOWN} more; --lists NAME writes them all'


def write_lists(plan: Plan, sheet: Sheet, name: str) -> List[str]:
    """Writes each list as a CSV, with the rows as they stand in the table; answers with the names
    of the files.

    Refused where one is there that yoke didn't write.
    """
    written = []
    for one in LISTS:
        out = io.StringIO()
        rows = csv.writer(out, delimiter=sheet.sign, lineterminator='\n')
        rows.writerow([LINE, FOUND, *sheet.names])
        for row, text in plan.listed(one):
            rows.writerow([row.line, text, *(row.fields.get(column, '') for column in sheet.names)])
        file = f'{name}-{one}.csv'
        write_own(file, out.getvalue(), LINE.encode(), False)
        written.append(file)
    return written


def notes_of(notes: 'Counter[str]') -> Iterator[str]:
    """What else is to be said, as lines."""
    for note, count in notes.items():
        yield f'note: {plain(note)}: {count}'
