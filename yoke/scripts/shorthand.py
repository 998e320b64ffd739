"""Lines of a script that the program doesn't have, each written out as lines that it has.

| line | written out as |
|---|---|
| `tag ( QUERY ) T..`, and so `move`, `delete`, `erase`, `purge` | the line with the keys of what is there and meets the query; nothing where none does |
| `tag-csv FILE [COLUMN] [columns=NAME,..]` | a `tag` line for each row of a table, whose columns with these names become tags |
| `insert NODE WAY [AFTER]` | a `nodes` line |
| `add-member KEY@ROLE.. RELATION [PLACE]` | a `members` line |
| `mend-turns [KEYS]` | a `members` line for each turn whose ways don't meet, and of which it is known how they would |

What such a line finds is what is there at its place: the lines before it are run, and it is written
out over what they leave. Where it can't be written out, a line stands for it that is refused
whatever there is: so it gives up its group, ends a strict script, and is counted as any other step
that is refused.
"""
import os
import re
from collections import Counter
from typing import Callable, List, Mapping, Optional, Sequence, Set, Tuple

from yoke import opl, sides, table, words
from yoke.files import data_of
from yoke.formats import columns, suspicions, tag_plan, tag_table
from yoke.formats.suspicions import Accepted
from yoke.program import Answer, BadLine
from yoke.scripts import grammar, lists, mends, turns
from yoke.scripts.names import Expanded
from yoke.trouble import Refused, Trouble

BY_QUERY = (
    'tag',
    'move',
    'delete',
    'erase',
    'purge',
)  # what may have ( QUERY ) in the place of KEYS: their order says nothing
FORMS = {
    'tag-csv': 'tag-csv FILE [COLUMN] [columns=NAME,..]',
    'insert': 'insert NODE WAY [AFTER]',
    'add-member': 'add-member KEY@ROLE,.. RELATION [PLACE]',
    'mend-turns': 'mend-turns [KEYS]',
}
STANDS_FOR = 'reverse n1'  # refused whatever there is: a node isn't reversed
COLUMNS = 'columns='  # with which the word of `tag-csv` begins that names the columns that are tags


# ---- which are lines ----


def is_short(line: str) -> bool:
    """Whether a line is one that is written out, also where its words are wrong."""
    if grammar.is_skipped(line):
        return False
    verb, *rest = grammar.words_of(line)
    return verb in FORMS or verb in BY_QUERY and bool(rest) and rest[0].startswith('(')


def check_line(line: str) -> str:
    """The verb of a line that isn't skipped, one of the program's or one that is written out; Bad
    where it is neither.
    """
    if not is_short(line):
        return grammar.check_line(line)
    verb, *rest = grammar.taken_apart(line)
    if verb in FORMS:
        CHECKS[verb](rest)
    else:
        if rest[0] != '(':
            grammar.bad('a bracket is a word of its own, and here is {}', rest[0])
        query, more = query_of(rest)
        grammar.check_find(grammar.words_of(find_line(query))[1:])
        grammar.READERS[verb](['n1'] + more)
    return verb


def query_of(rest: List[str]) -> Tuple[List[str], List[str]]:
    """The words of the query between the brackets with which words begin, and those after it; Bad
    where there is none.
    """
    depth = 0
    for at, word in enumerate(rest):
        depth += (word == '(') - (word == ')')
        if depth == 0:
            if at == 1:
                grammar.bad('QUERY is missing')
            return rest[1:at], rest[at + 1 :]
    grammar.bad('a bracket isn\'t closed')


def tags_of(word: str) -> Mapping[str, str]:
    """The tags of a word `T..`."""
    return opl.parse('n1 ' + word).tags


def _in_a_script(names: Sequence[str]) -> str:
    """How the columns that are tags are named in a line of a script."""
    return COLUMNS + ','.join(map(opl.escape, names))


def find_line(query: List[str]) -> str:
    """The line that finds what is there and meets a query."""
    return 'find ( {} ) and not deleted and not incomplete'.format(' '.join(query))


def _at_most(rest: List[str], least: int, *names: str) -> List[str]:
    """Words, as many as names, of which those after the first `least` may be missing."""
    return grammar.exactly(rest, *names[: max(least, min(len(rest), len(names)))])


def _with_columns(rest: List[str]) -> Tuple[List[str], Optional[List[str]]]:
    """The words of `tag-csv` without the one that names columns, and these names, None where there
    is no such word.
    """
    if not rest[1:] or not rest[-1].startswith(COLUMNS):
        return rest, None
    return rest[:-1], rest[-1][len(COLUMNS) :].split(',')


def _check_tag_csv(rest):
    rest, names = _with_columns(rest)
    for name in names or ():
        if not grammar.check_text(name, 'the column'):
            grammar.bad('a column of {} is empty', COLUMNS)
    _at_most(rest, 1, 'FILE', 'COLUMN')
    grammar.check_file(rest[0])
    if rest[1:] and not grammar.check_text(rest[1], 'the column'):
        grammar.bad('COLUMN is empty')


def _check_insert(rest):
    _at_most(rest, 2, 'NODE', 'WAY', 'AFTER')
    _check_kind(rest[0], 'n')
    _check_kind(rest[1], 'w')
    if rest[2:] and rest[2].startswith('n'):
        _check_kind(rest[2], 'n')
    elif rest[2:]:
        grammar.check_number(rest[2], 9999999, 0)


def _check_add_member(rest):
    _at_most(rest, 2, 'KEY@ROLE', 'RELATION', 'PLACE')
    grammar.check_members_word('M' + rest[0])
    _check_kind(rest[1], 'r')
    if rest[2:]:
        grammar.check_number(rest[2], 9999999)


def _check_mend_turns(rest):
    _at_most(rest, 0, 'KEYS')
    for key in rest[0].split(',') if rest else []:
        _check_kind(key, 'r')


def _check_kind(word: str, kind: str):
    if grammar.check_key(word)[0] != kind:
        grammar.bad('{} is no {}', word, grammar.KINDS[kind])


CHECKS = {
    'tag-csv': _check_tag_csv,
    'insert': _check_insert,
    'add-member': _check_add_member,
    'mend-turns': _check_mend_turns,
}


# ---- what a bad line was likely meant to be ----


def mended(line: str) -> Optional[str]:
    """A line that is written out and that this one was likely meant to be, or one of the program's;
    None where nothing is likely.
    """
    for candidate in candidates(line):
        try:
            if is_short(candidate) and check_line(candidate):
                return candidate
        except grammar.Bad:
            continue
    return mends.mended(line)


def candidates(line: str):
    """Lines to try, the least changed first."""
    plain = re.sub('[ \t]+(#|//).*$', '', line.strip(' \t\r'))
    verb, *rest = grammar.words_of(plain) or ['']
    verb = likely_verb(verb)
    yield ' '.join([verb] + rest)
    if verb in BY_QUERY and rest and (rest[0] == 'find' or rest[0].startswith('(')):
        yield _query(verb, rest)
    elif verb == 'tag-csv' and rest:
        names = [word for word in rest[1:] if word.startswith(COLUMNS)]
        yield ' '.join(
            [verb, mends.file(' '.join(word for word in rest if word not in names)), *names]
        )
    elif verb == 'insert':
        rest = [word for word in rest if word not in ('into', 'after')]
        yield ' '.join([verb] + rest)
        yield ' '.join([verb] + rest[1::-1] + rest[2:])
    elif verb == 'add-member':
        rest = [
            word[1:] if word.startswith('M') else word
            for word in rest
            if word not in ('to', 'as', 'at')
        ]
        if rest and '@' not in rest[0]:
            yield ' '.join(
                [verb, '{}@{}'.format(rest[0], ''.join(rest[2:3]))] + rest[1:2] + rest[3:]
            )
        yield ' '.join([verb] + rest)
        yield ' '.join([verb] + rest[1::-1] + rest[2:])


def _query(verb: str, rest: List[str]) -> str:
    """The line with a query in brackets, each a word of its own, round all words but those that
    come after it.
    """
    after = {'tag': 1, 'move': 2}.get(verb, 0)
    inside = re.sub('([()])', ' \\1 ', ' '.join(rest[rest[0] == 'find' :])).split()
    query, more = inside[: len(inside) - after], inside[len(inside) - after :]
    if query[:1] == ['('] and query[-1:] == [')']:
        query = query[1:-1]
    return ' '.join([verb, '(', mends.query(query), ')'] + more)


def likely_verb(word: str) -> str:
    """The verb that a word was meant to be, or the word itself."""
    plain = re.sub('[^a-z]', '', word.lower())
    return next((verb for verb in FORMS if plain == verb.replace('-', '')), mends.likely_verb(word))


# ---- written out ----


def write_out(
    script: Expanded, look: Callable[[List[str]], Answer], accepted: Optional[Accepted] = None
) -> Expanded:
    """Writes the lines of a script without names out, as the program takes them; each has to be a
    line by `check_line`.

    `look` answers to lines of the program, refused ones too, over what the script begins with;
    nothing is kept of it. `accepted` is what the user takes although it looks wrong.
    """
    if not any(map(is_short, script.lines)):
        return script
    return _Writer(script, look, accepted or Accepted()).write()


class _GivenUp(Exception):
    """The line stands in a group that was given up, so it is skipped."""


class _Writer:
    """Writes a script out, line by line.

    `table` is what is there at the place that is reached, None where it isn't known; of the objects
    `changed` it has the lists as they were, which matters to who changes one of them again.
    """

    def __init__(self, script: Expanded, look: Callable[[List[str]], Answer], accepted: Accepted):
        self.script, self.look, self.accepted, self.number = script, look, accepted, 0
        self.done = Expanded([], [], script.names)
        self.table: Optional[table.Table] = None
        self.changed: Set[str] = set()

    def write(self) -> Expanded:
        for line, self.number in zip(self.script.lines, self.script.numbers):
            if not is_short(line):
                self._add(line)
                continue
            try:
                verb, *rest = grammar.words_of(line)
                {
                    'tag-csv': self._tag_csv,
                    'insert': self._insert,
                    'add-member': self._add_member,
                    'mend-turns': self._mend_turns,
                }.get(verb, lambda rest: self._by_query(verb, rest))(rest)
            except Refused as why:
                for text in why.details:
                    self._note(text)
                self._refuse(str(why), line)
            except _GivenUp:
                self._add(STANDS_FOR)
        return self.done

    def _add(self, line: str, row: str = ''):
        """Adds a line of the program."""
        if row:
            self.done.rows[len(self.done.lines)] = row
        self.done.lines.append(line)
        self.done.numbers.append(self.number)
        if not grammar.is_skipped(line):
            self.table = None

    def _refuse(self, why: str, line: str = '', row: str = ''):
        """Adds a line that is refused, in the place of one that can't be written out."""
        self.done.problems[len(self.done.lines)] = line, why
        self._add(STANDS_FOR, row)

    def _note(self, text: str):
        self.done.notes.append((self.number, text))

    # ---- what is there ----

    def _answer(self, step: str) -> Answer:
        """The Answer to the lines so far, and to a step that looks."""
        try:
            answer = self.look(self.done.lines + [step])
        except BadLine as bad:
            bad.line = (self.done.numbers + [self.number])[bad.line - 1]
            raise
        if answer.replies[-1].word == 'skipped':
            raise _GivenUp
        return answer

    def _known(self, key: str = '') -> table.Table:
        """What is there, with the list of the object with this key as it is now; without a key with
        all lists.
        """
        if self.table is None or (key in self.changed if key else self.changed):
            self.table, self.changed = table.read(self._answer('save').saved()), set()
        return self.table

    def _add_list(self, line: str, key: str):
        """Adds a line that gives an object another list, after which all else of the table is as it
        was.
        """
        found = self.table
        self._add(line)
        self.table = found
        self.changed.add(key)
        self._note(words.cut(line))

    # ---- the lines ----

    def _by_query(self, verb: str, rest: List[str]):
        query, more = query_of(rest)
        keys = self._answer(find_line(query)).found()
        self._note('{} object{} found'.format(len(keys) or 'no', '' if len(keys) == 1 else 's'))
        if verb == 'tag':
            self._check_alike(keys, tags_of(more[0]))
        if keys:
            self._add(' '.join([verb, ','.join(keys)] + more))

    def _tag_csv(self, rest: List[str]):
        rest, named = _with_columns(rest)
        name, *column = (opl.unescape(word) for word in rest)
        notes: 'Counter[str]' = Counter()
        try:
            sheet = tag_table.sheet_of(
                data_of(os.path.join(os.curdir, name) if name == '-' else name)
            )
            keys = tag_table.key_columns(sheet.names, column[0] if column else None)
            rows = self._rows(sheet, keys, named, notes)
        except Trouble as trouble:
            raise Refused(
                str(trouble), trouble.details if isinstance(trouble, Refused) else ()
            ) from None
        except ValueError as error:
            raise Refused(f'{name}: {error}') from None
        for note, count in notes.items():
            self._note(f'{name}: {note}: {count}')
        good = [row for row in rows if row.tags and not row.problem]
        if not good and not any(row.problem for row in rows):
            raise Refused(f'{name}: no row has a tag')
        self._note(f'{name}: {len(good)} of {len(rows)} rows have tags')
        for row in rows:
            where = f'{name}:{row.line}'
            if row.problem:
                self._refuse(row.problem, row=where)
            elif row.tags:
                self._add(f'tag {row.key} T{opl.tags(row.tags)}', where)

    def _rows(
        self,
        sheet: tag_table.Sheet,
        keys: Sequence[str],
        named: Optional[List[str]],
        notes: 'Counter[str]',
    ) -> List[tag_table.Row]:
        """The rows of a table, without those whose objects have another value than the one
        expected; Refused where the table looks wrong.
        """
        given = None if named is None else [columns.word_of(map(opl.unescape, named))]
        guards = tag_table.guards(sheet.names)
        used = [*keys, *(name for name in sheet.names if name.startswith(tag_table.OLD))]
        mapping = columns.mapping_of(
            None,
            given,
            sheet.names,
            used,
            sheet.columns(),
            self.accepted,
            columns.never_asked,
            _in_a_script,
        )
        plan = tag_plan.Plan(
            tag_table.each_once(tag_table.rows_of(sheet, keys, mapping, guards, notes))
        )
        self.accepted.stop(
            tag_plan.of_sheet(sheet, mapping, keys)
            + list(suspicions.of_tags([row.tags for row in plan.rows if row.tags]))
        )
        if guards:
            plan = tag_plan.guarded(plan, self._known())
            notes['rows whose object has changed, and that are left out'] += len(plan.changed)
        return plan.rows

    def _check_alike(self, keys: Sequence[str], tags: Mapping[str, str]) -> None:
        """Refused where tags that each object has for itself would be the same in all."""
        individual = [key for key in tags if suspicions.is_individual(key)]
        if len(keys) > 1 and individual:
            things = [self._known().mine(key) for key in keys]
            self.accepted.stop(
                list(
                    suspicions.of_query(individual, tags, [thing.tags for thing in things if thing])
                )
            )

    def _insert(self, rest: List[str]):
        self._add_list(lists.insert_line(self._known(rest[1]), *rest), rest[1])

    def _add_member(self, rest: List[str]):
        relation = rest[1]
        line = lists.add_members_line(
            self._known(relation),
            grammar.check_members_word('M' + rest[0]),
            relation,
            *map(int, rest[2:]),
            once_more=f'members {relation} M.. with the whole list',
        )
        self._add_list(line, relation)

    def _mend_turns(self, rest: List[str]):
        keys = rest[0].split(',') if rest else []
        found = self._known()
        for key in keys:
            if found.mine(key) is None:
                raise Refused(f'there is no {key} in the session')
        left = [one for one in turns.findings(found) if not keys or one.key in keys]
        for one in left:
            text = '{}: {}'.format(sides.title(found.things[one.key].shown), '; '.join(one.faults))
            if keys and not one.mend:
                raise Refused(f'{text}: how to mend it isn\'t known')
            self._note(
                '{}; {}'.format(text, 'mended: ' + words.cut(one.mend) if one.mend else 'by hand')
            )
        for one in left:
            if one.mend:
                self._add(one.mend)
        if not left:
            self._note('all turns meet')
