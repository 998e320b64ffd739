"""What in a table most likely went wrong before it came here, found before any of it becomes an
edit.

Each finding has a name, such as `spreadsheet-errors:name`: a code, and the column or tag that it is
about. A verb stops at each finding whose name or code the user didn't pass to `--accept`.

| code | what is found |
|---|---|
| `columns` | columns that would become tags, and that nobody named |
| `spreadsheet-errors` | `#REF!`, `#N/A`, `Err:502`, `NULL`, `1,1E+10`, a house number that became a date |
| `control-characters` | a tab, a line feed or another control character inside a value |
| `mojibake` | text in UTF-8 that was once read as another encoding, and text that lost characters |
| `shifted-row` | a row whose values stand one column too far to the left or to the right |
| `shifted-column` | a column whose values stand one row too high or too low |
| `same-value` | one name, number or address for all, where each object has its own |
| `choice` | a tag that `yoke resolve` left as somebody else has it, and that would be set again |
"""
import csv
import re
import shlex
from collections import Counter
from dataclasses import dataclass, field
from typing import Dict, Iterable, Iterator, List, Mapping, Optional, Sequence, Tuple

from yoke.formats.encodings import numbers
from yoke.formats.mapping import CONTROL, METADATA, nearest
from yoke.sides import plain
from yoke.trouble import Refused, Usage

CODES = (
    'columns',
    'spreadsheet-errors',
    'control-characters',
    'mojibake',
    'shifted-row',
    'shifted-column',
    'same-value',
    'choice',
)
ERROR = re.compile(
    '#(REF|N/A|NAME|VALUE|DIV/0|NUM|NULL|SPILL|CALC|FIELD|BEZUG|NV|WERT|ZAHL|ÜBERLAUF|NOM|VALEUR|NOMBRE|¿NOMBRE|VALOR|NUL'
    '|GETTING_DATA|EXTERNAL)[!?]?/?0?!?|#{3,}|Err:[0-9]{3}|NULL|null|None|NaN|nan|undefined|\\[object Object\\]'
    '|[0-9]+([.,][0-9]+)?E\\+[0-9]+',
    re.ASCII,
)
DATE = re.compile(
    '[0-9]{1,2}[-. ]{1,2}(Jan|Feb|M[aä]r|Mrz|Apr|Ma[iy]|Jun|Jul|Aug|Sep|O[ck]t|Nov|De[cz])\\.?|'
    '(Jan|Feb|M[aä]r|Mrz|Apr|Ma[iy]|Jun|Jul|Aug|Sep|O[ck]t|Nov|De[cz])\\.?[- ][0-9]{2}'
)
INDIVIDUAL = re.compile(
    '(.*:)?(name|ref|housenumber|phone|mobile|fax|email|website|wikidata|wikipedia)(:.*)?'
)
GROUPS = (
    'brand',
    'operator',
    'network',
    'owner',
    'subject',
    'artist',
)  # `brand:wikidata` is alike for many objects
LOST = re.compile('\ufffd|(?<=[a-z])\\?(?=[a-z])|(?<=[a-zA-Z])[„”§](?=[a-z])')
STRANGE = re.compile('[\x80-\U0010ffff]+')
GOT = re.compile('[\xa1-\u024f\u0370-\u04ff\u2010-\u203a\u20ac\u2122\u3000-\u9fff\uac00-\ud7a3]+')
LEAST = 5  # rows of a table with one value, before that is found strange
MOST = 3  # values in a message
PROFILE = 0.8  # the part of a column's values that have its form, from which on it has one


@dataclass(frozen=True)
class Suspicion:
    """What is likely wrong: a code, the column or tag that it is about, what was seen, and what to
    do about it.
    """

    code: str
    subject: str
    text: str
    advice: str = ''

    @property
    def name(self) -> str:
        """What `--accept` takes."""
        return f'{self.code}:{self.subject}' if self.subject else self.code


@dataclass
class Accepted:
    """The names and codes that the user passed to `--accept`."""

    names: List[str] = field(default_factory=list)

    @classmethod
    def of(cls, words: Optional[Iterable[str]]) -> 'Accepted':
        """Those of the words of a command line; Usage where a word has no such code."""
        names = [name for word in words or () for name in listed(word)]
        for name in names:
            code = name.partition(':')[0]
            if code not in CODES:
                near = nearest(code, CODES)
                raise Usage(
                    f'--accept {name}: there is no {code}'
                    + (f', did you mean {near}?' if near else ': ' + ', '.join(CODES))
                )
        return cls(names)

    def takes(self, found: Suspicion) -> bool:
        """Whether a finding was accepted."""
        return found.name in self.names or found.code in self.names

    def stop(self, found: Sequence[Suspicion]) -> None:
        """Raises Refused with the findings that weren't accepted; does nothing where all were."""
        left = [one for one in found if not self.takes(one)]
        if not left:
            return
        details = []
        for one in left:
            details += [f'suspicious: {plain(one.name)}: {one.text}'] + (
                [f'    {one.advice}'] if one.advice else []
            )
        raise Refused(
            f'nothing is done: {len(left)} thing{"" if len(left) == 1 else "s"} look{"s" if len(left) == 1 else ""} wrong; '
            f'mend the table, or pass {words_of("--accept", [one.name for one in left])}',
            details,
        )


def listed(text: str) -> List[str]:
    """The names in a word of a command line, with commas between them; one with a comma stands in
    double quotes.
    """
    return [name.strip() for name in next(csv.reader([text], skipinitialspace=True), [])]


def words_of(option: str, names: Sequence[str]) -> str:
    """An option and names, as a shell takes them."""
    quoted = [
        '"{}"'.format(name.replace('"', '""')) if re.search('[,"]', name) else name
        for name in names
    ]
    return f'{option} {shlex.quote(",".join(map(plain, quoted)))}'


# ---- a table ----

Values = Sequence[Tuple[str, str]]  # the values of a column, each with its place, as `line 7`


def of_columns(columns: Mapping[str, Values]) -> Iterator[Suspicion]:
    """What is suspicious in the values of columns by themselves."""
    for name, values in columns.items():
        for code, test, advice in (
            (
                'spreadsheet-errors',
                is_error,
                'mend the formula or the form of the cell, and save the table anew; '
                'accepted, these values go on the map as they are',
            ),
            (
                'control-characters',
                lambda text: bool(CONTROL.search(text.strip())),
                'accepted, these rows are left out',
            ),
        ):
            bad = [(where, text) for where, text in values if test(text)]
            if bad:
                yield Suspicion(code, name, f'{shown(bad)}', advice)
    yield from _mojibake(columns)


def is_error(text: str) -> bool:
    """Whether a value is what a spreadsheet writes for a fault, or what became of a number there."""
    return bool(ERROR.fullmatch(text.strip()) or DATE.fullmatch(text.strip()))


def _mojibake(columns: Mapping[str, Values]) -> Iterator[Suspicion]:
    """Columns that look as if read in a wrong encoding, with how many of the strange values of all
    columns are so.
    """
    bad = {
        name: [
            (where, text)
            for where, text in values
            if reread(text) or LOST.search(text) and '/' not in text
        ]
        for name, values in columns.items()
    }
    strange = sum(not text.isascii() for values in columns.values() for _, text in values)
    count = sum(map(len, bad.values()))
    for name, values in bad.items():
        if values:
            text = reread(values[0][1])
            yield Suspicion(
                'mojibake',
                name,
                f'{shown(values)}' + (f'; {text!r} was meant' if text else ''),
                f'{count} values of {max(strange, count)} that aren\'t ASCII look so: get the file once more, in UTF-8',
            )
    for name in columns:
        text = reread(name)
        if text:
            yield Suspicion(
                'mojibake',
                name,
                f'the name of the column; {text!r} was meant',
                'get the file once more, in UTF-8',
            )


def reread(text: str) -> str:
    """What a text was before its UTF-8 was read as cp1252; empty where it doesn't look so."""
    found, is_other = [], False
    at = 0
    for part in STRANGE.finditer(text):
        got = _decoded(part[0])
        is_other = is_other or bool(got)
        found += [text[at : part.start()], got or part[0]]
        at = part.end()
    return ''.join(found) + text[at:] if is_other else ''


def _decoded(part: str) -> str:
    try:
        data = b''.join(
            bytes([ord(char)]) if ord(char) < 256 else char.encode('cp1252') for char in part
        )
        got = data.decode('utf-8')
    except UnicodeError:
        return ''
    return got if GOT.fullmatch(got) else ''


def of_tags(rows: Sequence[Mapping[str, str]]) -> Iterator[Suspicion]:
    """What is suspicious in the tags that rows get: one value for all, where each object has its
    own.
    """
    values: Dict[str, 'Counter[str]'] = {}
    for tags in rows:
        for key, value in tags.items():
            values.setdefault(key, Counter())[value] += 1
    for key, found in values.items():
        if len(found) == 1 and is_individual(key) and found.total() >= max(LEAST, len(rows)):
            value = next(iter(found))
            yield Suspicion(
                'same-value',
                key,
                f'all {found.total()} rows get {key}={plain(value)}',
                f'an object has its own {key}',
            )


def of_query(
    keys: Sequence[str], tags: Mapping[str, str], things: Sequence[Mapping[str, str]]
) -> Iterator[Suspicion]:
    """Tags with these keys, which each object has for itself, and which objects with such tags
    would all get or lose.
    """
    for key in keys:
        before = Counter(thing.get(key, '') for thing in things)
        if (
            len(before) == 1
            and '' not in before
            or not tags[key]
            and len(before) - ('' in before) < 2
        ):
            continue
        had = (
            ', '.join(plain(value) for value in list(before)[:MOST] if value) or 'none has one now'
        )
        yield Suspicion(
            'same-value',
            key,
            f'{len(things)} objects would all '
            + (f'get {key}={plain(tags[key])}' if tags[key] else f'lose their {key}'),
            f'an object has its own {key}: {had}{", .." if len(before) > MOST else ""}',
        )


def is_individual(key: str) -> bool:
    """Whether a tag with this key is one that each object has for itself, as a name."""
    return bool(INDIVIDUAL.fullmatch(key)) and key.split(':')[0] not in GROUPS


# ---- shifted by a column ----

FORMS = (
    ('number', re.compile('[-+]?[0-9]+([.,][0-9]+)?')),
    ('link', re.compile('https?://.*|www\\..*')),
    ('mail', re.compile('[^@ ]+@[^@ ]+')),
    ('date', re.compile('[0-9]{4}-[0-9]{2}-[0-9]{2}.*|[0-9]{1,2}\\.[0-9]{1,2}\\.[0-9]{4}')),
    ('key', re.compile('[nwr]-?[0-9]+|(node|way|relation)[/ ][0-9]+')),
)


def form(text: str) -> str:
    """What a value looks like: `number`, `link`, `mail`, `date`, `key`, `text`, or empty."""
    text = text.strip()
    return (
        next((name for name, pattern in FORMS if pattern.fullmatch(text)), 'text') if text else ''
    )


def of_rows(names: Sequence[str], rows: Sequence[Tuple[int, Sequence[str]]]) -> Iterator[Suspicion]:
    """Rows whose values fit the columns beside them, and not their own ones."""
    rows = [(line, row) for line, row in rows if len(row) == len(names)]
    forms = [[form(text) for text in row] for _, row in rows]
    usual = [_usual([row[at] for row in forms]) for at in range(len(names))]
    bad: List[int] = []
    for (line, _), found in zip(rows, forms):
        if _misfits(usual, found) >= 2 and _fits_beside(usual, found):
            bad.append(line)
    if bad:
        yield Suspicion(
            'shifted-row',
            '',
            f'line{"" if len(bad) == 1 else "s"} {numbers(bad)}: the values fit one column '
            'further to the left or to the right',
            'a field is missing or too much before them',
        )


def _usual(forms: Sequence[str]) -> str:
    """The form that nearly all values of a column have; empty where there is none, or too few to
    tell.
    """
    found = Counter(one for one in forms if one)
    name, count = found.most_common(1)[0] if found else ('', 0)
    return name if count >= LEAST and count >= PROFILE * found.total() else ''


def _fits_beside(usual: Sequence[str], forms: Sequence[str]) -> bool:
    """Whether the values of a row, from one on, all fit the columns to the left of theirs, or all
    those to the right.
    """
    return any(
        _misfits(usual[at - 1 :], forms[at:]) == 0
        for at in range(1, len(forms))
        if _misfits(usual[:at], forms[:at]) == 0
    ) or any(
        _misfits(usual[at + 1 :], forms[at:]) == 0 and not forms[-1]
        for at in range(len(forms))
        if _misfits(usual[:at], forms[:at]) == 0
    )


def _misfits(usual: Sequence[str], forms: Sequence[str]) -> int:
    return sum(bool(is_so and one and one != is_so) for is_so, one in zip(usual, forms))


# ---- shifted by a row ----


def of_shift(
    names: Sequence[str], rows: Sequence[Tuple[int, Sequence[str]]], columns: Iterable[str]
) -> Iterator[Suspicion]:
    """Columns whose values stand one row too high or too low, as their ends tell.

    Of a column that is shifted down the first field is empty, and a last row has nothing but it; or
    its name stands in a row. Of one that is shifted up, the last field alone is empty, and its
    first value stands in the place of its name.
    """
    rows = [(line, row) for line, row in rows if len(row) == len(names)]
    if len(rows) < 3:
        return
    for name in columns:
        at = list(names).index(name)
        own = [row[at].strip() for _, row in rows]
        others = [
            any(text.strip() for place, text in enumerate(row) if place != at) for _, row in rows
        ]
        if own[0] == name:
            yield Suspicion(
                'shifted-column',
                name,
                f'line {rows[0][0]} has the name of the column as its value',
                'the column stands one row too low',
            )
        elif not own[0] and own[-1] and not others[-1] and all(own[1:]):
            yield Suspicion(
                'shifted-column',
                name,
                f'line {rows[0][0]} has no value, and line {rows[-1][0]} has nothing else',
                'the column stands one row too low',
            )


def of_neighbours(key: str, rows: Sequence[Tuple[int, str, str]]) -> Iterator[Suspicion]:
    """The same, told by what the objects have: rows with the number of the line, the value of the
    table, and that of the object.

    Where the values are those of the rows before or after, far more often than those of their own
    rows, they are shifted.
    """

    def alike(one: str, other: str) -> bool:
        return bool(one) and one.casefold() == other.casefold()

    own = sum(alike(mine, theirs) for _, mine, theirs in rows)
    for step, text in ((1, 'low'), (-1, 'high')):
        other = sum(
            alike(rows[at][1], rows[at - step][2]) and not alike(rows[at][1], rows[at][2])
            for at in range(max(step, 0), len(rows) + min(step, 0))
        )
        if other >= max(3, 2 * own + 1):
            yield Suspicion(
                'shifted-column',
                key,
                f'{other} of {len(rows)} values are those of the object in the row {"before" if step > 0 else "after"}, '
                f'and {own} are those of their own',
                f'the column stands one row too {text}',
            )


# ---- values in messages ----


def shown(found: Values) -> str:
    """Some values with their lines, and how many more there are."""
    texts = [f'{plain(text[:40])} ({where})' for where, text in found[:MOST]]
    more = len(found) - MOST
    return ', '.join(texts) + (f' and {more} more' if more > 0 else '')


# ---- which columns are tags ----


def samples(values: Iterable[str]) -> str:
    """What a column has in it, in a line: its first values that differ, and how many there are."""
    found = Counter(text.strip() for text in values if text.strip())
    texts = [plain(text[:30]) for text in list(found)[:MOST]]
    return f'{", ".join(texts) or "(nothing)"}{", .." if len(found) > MOST else ""}  ({len(found)} different, in {found.total()} rows)'


def is_metadata(name: str) -> bool:
    """Whether a column is metadata, which never becomes a tag."""
    return name.startswith(METADATA)
