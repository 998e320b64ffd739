"""What a conflation writes: a script, new objects, a list, a map, questions and a list of ids."""
import csv
import io
import json
import os
import pathlib
from collections import Counter
from types import MappingProxyType
from typing import Any, Dict, Iterator, List, Mapping, Sequence, Tuple

from yoke import day, opl
from yoke.conflate.match import Found
from yoke.conflate.names import plain
from yoke.conflate.rules import Rules
from yoke.files import check_own
from yoke.formats.drawing import Drawing
from yoke.formats.features import Feature
from yoke.scripts import bound
from yoke.table import Table

ENDINGS = ('.script', '.opl', '.csv', '.geojson', '.questions')
COLUMNS = (
    'feature',
    'what',
    'decision',
    'why',
    'candidate',
    'score',
    'metres',
    'name',
    'its name',
    'lon',
    'lat',
)
SHOWN = 5  # candidates of one feature
UNFINISHED = (
    'yoke conflate was stopped while it wrote these files: run it again'  # no line of a script
)
FORMULA = ('=', '+', '-', '@', '\t', '\r')


class Outcome:
    """What comes of the features: tags that are set, values that differ and stay, new objects.

    `still` has, by the names of features, the values that the file's author saw on the map: where
    the map still has such a value, the feature's own is set; where it hasn't, somebody changed it.
    """

    def __init__(
        self,
        rules: Rules,
        found: Sequence[Found],
        left: List[Tuple[str, str]],
        still: Mapping[str, Mapping[str, str]] = MappingProxyType({}),
    ):
        self.rules, self.found, self.left, self.still = rules, found, left, still
        self.tags: Dict[str, Dict[str, str]] = {}
        self.differs: List[Tuple[Found, str]] = []
        self.changed: List[Tuple[Found, str]] = []
        self.drawing = Drawing()
        for one in found:
            if one.kind == 'update':
                self._compare(one)

    def _compare(self, one: Found) -> None:
        there, wanted = one.best.tags, {}
        seen = self.still.get(one.feature.name, {})
        for key, value in one.feature.tags.items():
            if there.get(key) == value:
                continue
            if key in seen:
                if there.get(key, '') == seen[key]:
                    wanted[key] = value
                else:
                    self.changed.append((one, key))
            elif key in self.rules.over or key not in there and self.rules.takes(key):
                wanted[key] = value
            elif key in there and plain(there[key]) != plain(value):
                self.differs.append((one, key))
        if wanted:
            self.tags[one.best.name] = {**self.tags.get(one.best.name, {}), **wanted}
        else:
            one.kind = 'same'

    def draw(self, drawing: Drawing, features: Mapping[str, Feature]) -> None:
        """Makes the new objects; what is there with the same tags at the same place isn't new."""
        self.drawing = drawing
        for one in self.found:
            if one.kind == 'new':
                before = len(drawing.left)
                drawing.add(features[one.feature.name])
                if len(drawing.left) > before:
                    one.kind, one.why = 'left out', drawing.left[-1][1]
        self.left += drawing.left

    def counts(self) -> Dict[str, int]:
        """How many features are what."""
        kinds = Counter(one.kind for one in self.found)
        return {
            **{kind: kinds[kind] for kind in ('same', 'update', 'new', 'ambiguous', 'skip')},
            'left out': len(self.left),
        }

    def report(self) -> Iterator[str]:
        """The same in words, and which tags."""
        yield '{} features: {}'.format(
            sum(self.counts().values()),
            ', '.join(f'{count} {kind}' for kind, count in self.counts().items()),
        )
        for title, keys in (
            ('tags to set', Counter(key for tags in self.tags.values() for key in tags)),
            ('values that differ and stay', Counter(key for _, key in self.differs)),
            ('values that somebody changed', Counter(key for _, key in self.changed)),
        ):
            shown = ', '.join(f'{key} {count}' for key, count in keys.most_common(12))
            if keys or title != 'values that somebody changed':
                yield f'{title}: {shown or "none"}'


def check(name: str, force: bool) -> None:
    """Refused if a file would be written over that isn't of an earlier conflation."""
    script = pathlib.Path(name + '.script')
    check_own(str(script), bound.MARK, force)
    for ending in ENDINGS[1:]:
        if not script.exists():
            check_own(name + ending, bound.MARK, force)


def write(name: str, one: Outcome, head: List[str], gone: Sequence[Tuple[str, str, str]]) -> None:
    """Writes all files. Those of an earlier run that have nothing to say now go."""
    by_tags: Dict[str, List[str]] = {}
    for key, tags in one.tags.items():
        by_tags.setdefault(opl.tags(tags), []).append(key)
    lines = [f'tag {",".join(keys)} T{tags}' for tags, keys in by_tags.items()]
    new, path = ''.join(line + '\n' for line in one.drawing.lines()), os.path.abspath(name + '.opl')
    # the old script is for the old .opl; this one says whose the files are if yoke is stopped here
    day.write_whole(name + '.script', ''.join(line + '\n' for line in [*head, UNFINISHED]))
    if new:
        day.write_whole(path, new)
        head = [*head, bound.with_file(path, new)]
        lines.append('import ' + opl.escape(path))
    else:
        pathlib.Path(path).unlink(missing_ok=True)
    day.write_whole(name + '.csv', table(one, gone))
    day.write_whole(
        name + '.geojson',
        json.dumps(
            {'type': 'FeatureCollection', 'features': list(shapes(one))}, ensure_ascii=False
        ),
    )
    day.write_whole(name + '.questions', json.dumps(list(questions(one)), ensure_ascii=False))
    day.write_whole(name + '.script', ''.join(line + '\n' for line in [*head, *lines]))


def table(one: Outcome, gone: Sequence[Tuple[str, str, str]]) -> str:
    """The list of what a person may want to look at, as CSV."""
    text = io.StringIO()
    rows = csv.writer(text, lineterminator='\n')
    rows.writerow(COLUMNS)

    def row(*fields: Any) -> None:
        rows.writerow(
            [
                safe(str(field)) if at not in (9, 10) else field
                for at, field in enumerate([*fields, *[''] * (len(COLUMNS) - len(fields))])
            ]
        )

    for each in one.found:
        lon, lat = each.feature.middle
        for found in each.candidates[:SHOWN] if each.kind == 'ambiguous' else ():
            row(
                each.feature.name,
                'ambiguous',
                '',
                each.why,
                found.thing.name,
                f'{found.score:.2f}',
                f'{found.metres:.0f}',
                each.feature.tags.get('name', ''),
                found.thing.tags.get('name', ''),
                f'{lon:.7f}',
                f'{lat:.7f}',
            )
    for what, pairs in (('differs', one.differs), ('changed', one.changed)):
        for each, key in pairs:
            row(
                each.feature.name,
                what,
                '',
                key,
                each.best.name,
                '',
                '',
                each.feature.tags[key],
                each.best.tags.get(key, ''),
            )
    for key, why, value in gone:
        row('', 'gone', '', why, key, '', '', '', value)
    for where, why in one.left:
        row(where, 'left out', '', why)
    return text.getvalue()


def safe(text: str) -> str:
    """A text for a spreadsheet, which takes one that begins so for a formula."""
    return "'" + text if text.startswith(FORMULA) else text


def shapes(one: Outcome) -> Iterator[Dict[str, Any]]:
    """Lines from ambiguous features to their candidates."""
    for each in one.found:
        for found in each.candidates[:SHOWN] if each.kind == 'ambiguous' else ():
            yield {
                'type': 'Feature',
                'geometry': {
                    'type': 'LineString',
                    'coordinates': [list(each.feature.middle), list(found.thing.path[0])],
                },
                'properties': {
                    'feature': each.feature.name,
                    'candidate': found.thing.name,
                    'score': round(found.score, 2),
                    'why': found.why,
                },
            }


def questions(one: Outcome) -> Iterator[Dict[str, Any]]:
    """What `yoke review --questions` asks."""
    for each in one.found:
        if each.kind == 'ambiguous':
            yield {
                'feature': each.feature.name,
                'why': each.why,
                'tags': list(each.feature.tags.items()),
                'place': each.feature.middle,
                'candidates': [
                    [found.thing.name, round(found.score, 2), round(found.metres, 1)]
                    for found in each.candidates[:SHOWN]
                ],
            }


def gone_by_tags(rules: Rules, found: Sequence[Found], there: Table) -> List[Tuple[str, str, str]]:
    """Objects whose id the file doesn't have any more: their keys, the tag, and its value."""
    gone = []
    for key in rules.id if rules.gone else ():
        values = {plain(one.feature.tags[key]) for one in found if key in one.feature.tags}
        for name, known in there.things.items():
            mine = known.mine
            if mine is not None and key in mine.tags and plain(mine.tags[key]) not in values:
                gone.append((name, key, mine.tags[key]))
    return gone


# ---- ids of the source ----


def read_ids(text: str) -> Dict[str, str]:
    """The objects of a list of ids; an object that wasn't sent yet has an empty key. ValueError if
    the text is no such list."""
    rows = csv.DictReader(io.StringIO(text))
    if rows.fieldnames != ['id', 'key']:
        raise ValueError('it is no list of ids: its columns are id and key')
    return {row['id']: row['key'] or '' for row in rows}


def ids_text(before: Mapping[str, str], found: Sequence[Found], ids: Mapping[str, str]) -> str:
    """The list of ids after a conflation. An object that is new has no key that lasts yet: the next
    run, after it was sent, finds it by its place and writes its key."""
    now = dict(before)
    for one in found:
        number = ids.get(one.feature.name)
        if number:
            key = one.best.name if one.kind in ('same', 'update') else ''
            now[number] = key if key and '-' not in key else now.get(number, '')
    text = io.StringIO()
    rows = csv.writer(text, lineterminator='\n')
    rows.writerow(['id', 'key'])
    rows.writerows(sorted(now.items()))
    return text.getvalue()


def gone_by_ids(
    before: Mapping[str, str], ids: Mapping[str, str], name: str
) -> List[Tuple[str, str, str]]:
    """Objects of the list whose id isn't in the file any more."""
    there = set(ids.values())
    return [(key, name, number) for number, key in before.items() if key and number not in there]


def decided_rows(text: str, places: Mapping[str, Tuple[float, float]]) -> Dict[str, str]:
    """What a person decided, by the names of features. ValueError if the list is of another file:
    then its features lie elsewhere."""
    rows = csv.DictReader(io.StringIO(text))
    if not {'feature', 'decision'} <= set(rows.fieldnames or ()):
        raise ValueError('it is no list of a conflation: it has no columns feature and decision')
    found: Dict[str, str] = {}
    for row in rows:
        feature, how = (row.get('feature') or '').strip(), (row.get('decision') or '').strip()
        if not how:
            continue
        if feature not in places:
            raise ValueError(f'there is no {feature}: the list is of another file')
        lon, lat = row.get('lon') or '', row.get('lat') or ''
        if lon and (lon, lat) != tuple(f'{one:.7f}' for one in places[feature]):
            raise ValueError(f'{feature} lies elsewhere now: the list is of another file')
        if found.setdefault(feature, how) != how:
            raise ValueError(f'{feature} has two decisions: {found[feature]} and {how}')
    return found
