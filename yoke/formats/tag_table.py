"""A table of tags for objects that are there: a CSV with a row for each object, read as tags by
key.

One column names the object, or two do; or a search finds it (`row_search.py`):

| columns | what stands in them |
|---|---|
| `key`, or the one that is given | `w5`, `way/5`, or an address that ends so |
| `@type` and `@id`, or `type` and `id` | `way` and `5`, as Overpass writes them |
| `old:KEY` | what the object's tag KEY has to be still; an empty field says that it has to have none |

Which of the other columns are tags the user says (`columns.py`), under their own names or by rules
(`mapping.py`). An empty field says nothing.
"""
import re
from collections import Counter
from dataclasses import dataclass, field, replace
from typing import Dict, Iterable, Iterator, List, Mapping as MappingOf, Optional, Sequence, Tuple

from yoke import opl
from yoke.formats import features
from yoke.formats.mapping import Left, Mapping, Property, Rule, rule_of
from yoke.trouble import Usage

KEY = 'key'
PAIRS = (('@type', '@id'), ('type', 'id'))
OLD = 'old:'
NAMED = re.compile('(?:.*[/ ])?(node|way|relation)[/ ]([1-9][0-9]{0,18})')


@dataclass(frozen=True)
class Sheet:
    """A table as it stands in its file: the names of its columns, its rows with their lines, and
    the sign between fields.
    """

    names: List[str]
    rows: List[Tuple[int, List[str]]]
    sign: str

    def column(self, name: str) -> List[Tuple[str, str]]:
        """The values of a column, each with its line, as `line 7`, as far as rows have them."""
        at = self.names.index(name)
        return [(f'line {line}', row[at]) for line, row in self.rows if len(row) == len(self.names)]

    def columns(self) -> Dict[str, List[str]]:
        """The values of all columns."""
        return {name: [text for _, text in self.column(name)] for name in self.names if name}


@dataclass(frozen=True)
class Row:
    """A row: the number of its line, and the object and the tags that it names; or the `problem`
    for which it can't be taken.

    `fields` are its values by column, and `still` what tags of the object have to be, empty for
    none. `repeats` is the line that says the same of the object already, else 0.
    """

    line: int
    key: str = ''
    tags: Dict[str, str] = field(default_factory=dict)
    problem: str = ''
    fields: Dict[str, str] = field(default_factory=dict)
    still: Dict[str, str] = field(default_factory=dict)
    repeats: int = 0


def sheet_of(data: bytes, encoding: Optional[str] = None) -> Sheet:
    """The table of a file; ValueError where the file is none."""
    return Sheet(*features.read_rows(data, encoding))


def read(data: bytes, column: Optional[str], mapping: Mapping, notes: 'Counter[str]') -> List[Row]:
    """The rows of a table; ValueError where the file is none. `notes` counts what sets no tag."""
    sheet = sheet_of(data)
    return each_once(
        rows_of(sheet, key_columns(sheet.names, column), mapping, guards(sheet.names), notes)
    )


def key_columns(names: Sequence[str], given: Optional[str]) -> Tuple[str, ...]:
    """The columns that name the object; ValueError where there are none."""
    found: List[Tuple[str, ...]] = [(given,)] if given else [(KEY,), *PAIRS]
    for columns in found:
        if all(name in names for name in columns):
            return columns
    raise ValueError(
        'no column names the objects: {} is wanted, and it has {}'.format(
            given
            or 'key, or @type and @id, or --key COLUMN, or --where KEY={COLUMN} for a tag that finds it',
            ', '.join(names),
        )
    )


def guards(names: Iterable[str], given: Iterable[str] = ()) -> List[Rule]:
    """What tags have to be still: of the columns `old:KEY`, and of words KEY=VALUE; Usage where one
    is none.
    """
    rules = [
        Rule(name[len(OLD) :], (Property(name),))
        for name in names
        if name.startswith(OLD) and name != OLD
    ]
    for text in given:
        key, sign, value = map(str.strip, text.partition('='))
        if not key or not sign or key in [rule.key for rule in rules]:
            raise Usage(
                f'--only-if-still wants KEY=VALUE, such as name={{Old name}}, each key once, and not {text}'
            )
        try:
            rules.append(rule_of(key, value))
        except ValueError as error:
            raise Usage(f'--only-if-still {text}: {error}') from None
    return rules


def rows_of(
    sheet: Sheet,
    columns: Sequence[str],
    mapping: Mapping,
    still: Sequence[Rule],
    notes: 'Counter[str]',
) -> List[Row]:
    """The rows of a table, of which these columns name the object, or none do. `notes` counts what
    sets no tag.
    """
    return [
        _row(line, sheet.names, row, columns, mapping, still, notes) for line, row in sheet.rows
    ]


def _row(
    line: int,
    names: Sequence[str],
    row: Sequence[str],
    columns: Sequence[str],
    mapping: Mapping,
    still: Sequence[Rule],
    notes: 'Counter[str]',
) -> Row:
    if len(row) != len(names):
        return Row(line, problem=f'it has {len(row)} fields, and the first line has {len(names)}')
    fields = {name: value for name, value in zip(names, row) if name}
    text = ' '.join(fields[name].strip() for name in columns)
    key = key_of(text) if columns else ''
    if columns and not key:
        return Row(
            line,
            problem='{} names no object: as w5 or way/5'.format(text[:40] or 'an empty field'),
            fields=fields,
        )
    others = {
        name: value
        for name, value in fields.items()
        if name not in columns and not name.startswith(OLD)
    }
    try:
        tags = mapping.tags(others, notes)
    except Left as why:
        return Row(line, key, problem=str(why), fields=fields)
    return Row(
        line, key, tags, '', fields, {rule.key: rule.value(fields, Counter()) for rule in still}
    )


def key_of(text: str) -> str:
    """The key that a text names, as `w5`, `way/5`, `way 5` or an address that ends so; empty where
    it names none.
    """
    if opl.KEY.fullmatch(text):
        return text
    found = NAMED.fullmatch(text)
    return opl.LETTERS[found[1]] + found[2] if found else ''


def each_once(rows: Iterable[Row]) -> List[Row]:
    """The rows, where a second one of an object sets nothing if it says the same, and is a problem
    if it doesn't.
    """
    return list(_each_once(rows))


def _each_once(rows: Iterable[Row]) -> Iterator[Row]:
    seen: Dict[str, Row] = {}
    for row in rows:
        first = seen.setdefault(row.key, row) if row.key and not row.problem else row
        if first is row:
            yield row
        elif (first.tags, first.still) == (row.tags, row.still):
            yield replace(row, tags={}, repeats=first.line)
        else:
            yield replace(
                row,
                tags={},
                problem='{} stands in line {} already, with other values'.format(
                    row.key, first.line
                ),
            )


def changed_since(row: Row, tags: MappingOf[str, str]) -> str:
    """Which tag of an object isn't what a row says that it is still, in words; empty where all are."""
    for key, old in row.still.items():
        now = tags.get(key, '')
        if now != old:
            return f'{key} is {now or "not set"}, and not {old or "unset"} any more'
    return ''
