"""The lines of a script: which are lines, and of those that aren't the cause.

It is the grammar of docs/SCRIPTS.md, docs/COMMANDS.md and docs/OPL.md, one function for each item,
and it has to agree with the program on every line: `yoke/tests/test_lint.py` holds it to that. A
script is a text in which bytes that aren't UTF-8 stand as lone surrogates (`text_of`), since such
bytes do no harm in a comment.
"""
import re
from dataclasses import dataclass
from typing import Callable, Dict, List, NoReturn, Tuple

ID_MOST = 10**18
BLANKS = ' \t'
ESCAPE = re.compile('%([0-9a-fA-F]{1,6})%')
COORDINATE = re.compile('-?[0-9]{1,3}(\\.[0-9]{1,7})?')
KINDS = {'n': 'node', 'w': 'way', 'r': 'relation'}
QUERY_MOST = 1000  # words of a query
NESTING_MOST = 64  # `not`, `child`, `parent` and brackets round a word of a query

# Each verb with its form, as docs/COMMANDS.md has it.
FORMS = {
    'download': 'download FILE [Bwest,south,east,north] [Fkey=value]',
    'generate': 'generate N',
    'import': 'import FILE',
    'resume': 'resume FILE',
    'begin': 'begin',
    'end': 'end',
    'undo': 'undo N',
    'redo': 'redo N',
    'print': 'print',
    'count': 'count',
    'conflicts': 'conflicts',
    'save': 'save',
    'find': 'find QUERY',
    'check': 'check',
    'rehearse': 'rehearse',
    'upload': 'upload SIZE',
    'confirm': 'confirm FILE',
    'node': 'node x13.65 y0.05 Tkey=value',
    'way': 'way Tkey=value Nn1,n2',
    'relation': 'relation Tkey=value Mn1@role,w2@',
    'tag': 'tag KEYS Tkey=value',
    'move': 'move KEYS DX DY',
    'place': 'place KEY x13.65 y0.05',
    'nodes': 'nodes KEY Nn1,n2',
    'members': 'members KEY Mn1@role,w2@',
    'resolve': 'resolve KEY mine|theirs, resolve KEY mix S S, resolve KEY parts S K..',
    'delete': 'delete KEYS',
    'erase': 'erase KEYS',
    'purge': 'purge KEYS',
    'split': 'split KEY KEYS',
    'combine': 'combine KEYS',
    'reverse': 'reverse KEY',
    'squeeze': 'squeeze KEYS',
    'fuse': 'fuse KEYS',
    'serve': 'serve FILE',
    'editor': 'editor N',
    'fetch': 'fetch M [Bwest,south,east,north] [Fkey=value]',
    'send': 'send K',
    'answer': 'answer',
    'lost': 'lost',
}
ALONE = {
    'begin',
    'end',
    'print',
    'count',
    'conflicts',
    'save',
    'check',
    'rehearse',
    'answer',
    'lost',
}
IN_NO_GROUP = {
    'begin',
    'undo',
    'redo',
    'rehearse',
    'upload',
    'confirm',
    'resume',
    'editor',
    'send',
    'answer',
    'lost',
}
IN_NO_MEETING = {'download', 'generate', 'confirm', 'resume', 'serve'}
IN_A_MEETING = {'editor', 'fetch', 'send', 'answer', 'lost'}
STATES = {'node', 'way', 'relation', 'new', 'changed', 'deleted', 'incomplete', 'conflict'}


Reader = Callable[[List[str]], object]  # what tests the words after a verb; Bad where they are none


class Bad(Exception):
    """A line is none of a script's; its text is the cause."""


def bad(text: str, *words: object) -> NoReturn:
    """Raises Bad; words are cut."""
    raise Bad(text.format(*(shown(word) for word in words)))


def shown(word: object) -> str:
    """A word of a line as a message shows it."""
    text = ''.join(c if c.isprintable() else '?' for c in str(word))
    return text if len(text) <= 60 else text[:57] + '...'


def text_of(data: bytes) -> str:
    """The text of a script."""
    return data.decode('utf-8', 'surrogateescape')


def lines_of(text: str) -> List[str]:
    """The lines of a script, each without its line feed and one carriage return."""
    lines = text.split('\n')
    return [
        line[:-1] if line.endswith('\r') else line for line in (lines if lines[-1] else lines[:-1])
    ]


def words_of(line: str) -> List[str]:
    """The words of a line, between its blanks."""
    return [word for word in re.split('[ \t]', line) if word]


def is_skipped(line: str) -> bool:
    """Whether a line is empty, of blanks alone, or a comment."""
    return not line.strip(BLANKS) or line[0] == '#'


def taken_apart(line: str) -> List[str]:
    """The words of a line that isn't skipped; Bad where a blank stands at an end of it."""
    if line[0] in BLANKS or line[-1] in BLANKS:
        bad(
            'a blank stands {}',
            'before the first word' if line[0] in BLANKS else 'after the last word',
        )
    return words_of(line)


def check_line(line: str) -> str:
    """The verb of a line that isn't skipped; Bad where it is none of a script's."""
    verb, *words = taken_apart(line)
    if verb not in FORMS:
        bad('there is no line {}', verb)
    if verb in ALONE:
        if words:
            bad('nothing stands after {}, and here is {}', verb, words[0])
    else:
        READERS[verb](words)
    return verb


# ---- where lines stand ----


@dataclass
class Place:
    """Where the next line of a script stands: after none, in a group, in a meeting."""

    is_first: bool = True
    in_group: bool = False
    in_meeting: bool = False

    def check(self, verb: str) -> None:
        """Bad where a line with the verb may not stand here."""
        if verb == 'serve' and not self.is_first:
            bad('serve is the first step of a script, or none')
        if self.in_meeting and verb in IN_NO_MEETING:
            bad('in a meeting, which begins with serve, stands no {}', verb)
        if not self.in_meeting and verb in IN_A_MEETING:
            bad('{} stands only in a script that begins with serve', verb)
        if self.in_group and verb in IN_NO_GROUP:
            bad(
                'in a group stands no begin: the one before has no end'
                if verb == 'begin'
                else 'in a group stands no {}',
                verb,
            )
        if verb == 'end' and not self.in_group:
            bad('there is no group to end')

    def go_on(self, verb: str) -> None:
        """Goes after a line with the verb."""
        self.in_meeting = self.in_meeting or (self.is_first and verb == 'serve')
        self.in_group = verb == 'begin' or (self.in_group and verb != 'end')
        self.is_first = False


# ---- words ----


def exactly(words: List[str], *names: str) -> List[str]:
    """The words, where they are as many as the names."""
    if len(words) < len(names):
        bad('{} is missing', ' '.join(names[len(words) :]))
    if len(words) > len(names):
        bad('{} is too much', ' '.join(words[len(names) :]))
    return words


def check_key(word: str) -> str:
    """A key: `n`, `w` or `r` and an id."""
    if (
        not re.fullmatch('[nwr]-?[0-9]{1,19}', word, re.ASCII)
        or not 1 <= abs(int(word[1:])) <= ID_MOST
    ):
        bad('{} is no key: n, w or r and an id, as n1 and w-2', word)
    return word


def check_keys(word: str, least: int = 1) -> List[str]:
    """Keys with commas between them."""
    keys = [check_key(text) for text in word.split(',')]
    if len(keys) < least:
        bad('{} is one key, and two or more are wanted', word)
    return keys


def check_text(text: str, what: str) -> str:
    """The text that an OPL text spells."""
    outside = ESCAPE.sub('', text)
    if re.search('[\ud800-\udfff]', text):
        bad('{} {} has bytes that aren\'t UTF-8', what, text)
    found = re.search('[\x00-\x20,=]', outside)
    if found and found[0] < ' ':
        bad('{} {} has a control character', what, text)
    if found:
        bad(
            '{} {} has a {}, which is written %{}%',
            what,
            text,
            found[0],
            f'{ord(found[0]):02x}',
        )
    if '%' in outside:
        bad('{} {} has a % that is no escape: it is written %25%', what, text)
    codes = [int(code, 16) for code in ESCAPE.findall(text)]
    if any(code == 0 or 0xD800 <= code <= 0xDFFF or code > 0x10FFFF for code in codes):
        bad('{} {} has an escape of no character', what, text)
    return ESCAPE.sub(lambda found: chr(int(found[1], 16)), text)


def check_tags(text: str) -> Dict[str, str]:
    """Tags, without the letter before them."""
    tags: Dict[str, str] = {}
    for item in text.split(',') if text else []:
        key, *values = item.split('=')
        name = check_text(key, 'the key')
        if not values:
            bad('{} is no tag: a = is missing, or a comma in a value is written %2c%', item)
        if not name:
            bad('the tag {} has no key', item)
        if name in tags:
            bad('the key {} stands twice', key)
        tags[name] = check_text(values[0], 'the value')
        if len(values) > 1:
            bad('the tag {} has two =: in a key or a value it is written %3d%', item)
    return tags


def letter(word: str, sign: str, what: str) -> str:
    """What stands after the letter of a word."""
    if not word.startswith(sign):
        bad('{} has no {} before it: {}', word, sign, what)
    return word[len(sign) :]


def check_tags_word(word: str) -> Dict[str, str]:
    return check_tags(letter(word, 'T', 'tags are Tkey=value, or T alone'))


def check_nodes_word(word: str) -> List[str]:
    text = letter(word, 'N', 'nodes are Nn1,n2')
    if 'x' in text:
        bad('{} has a place, and the nodes of a line have none', word)
    for ref in text.split(',') if text else []:
        if not ref.startswith('n'):
            bad('{} is no node in {}', ref or '(nothing)', word)
        check_key(ref)
    return text.split(',') if text else []


def check_members_word(word: str) -> List[Tuple[str, str]]:
    text = letter(word, 'M', 'members are Mn1@role,w2@')
    found = []
    for member in text.split(',') if text else []:
        key, at, role = member.partition('@')
        check_key(key)
        if not at:
            bad('the member {} has no @ after its key', member)
        found.append((key, check_text(role, 'the role')))
    return found


def check_coordinate(text: str) -> int:
    """Degrees, in units of 10^-7."""
    if not COORDINATE.fullmatch(text):
        bad(
            '{} is no number of degrees: 1 to 3 digits, and at most 7 after a point',
            text or '(nothing)',
        )
    whole, _, part = text.lstrip('-').partition('.')
    units = int(whole) * 10**7 + int(part.ljust(7, '0'))
    return -units if text[0] == '-' else units


def check_place(x: str, y: str) -> Tuple[int, int]:
    """A longitude and a latitude on the map, in units of 10^-7 degree."""
    lon, lat = check_coordinate(x), check_coordinate(y)
    for value, most, text, name in ((lon, 180, x, 'longitude'), (lat, 90, y, 'latitude')):
        if abs(value) > most * 10**7:
            bad('{} is off the map: a {} is from -{} to {}', text, name, most, most)
    return lon, lat


def check_place_words(x: str, y: str) -> None:
    check_place(letter(x, 'x', 'a longitude is x13.65'), letter(y, 'y', 'a latitude is y0.05'))


def check_number(word: str, most: int, least: int = 1) -> None:
    """A number of 1 to 7 digits, within bounds."""
    if not re.fullmatch('[0-9]{1,7}', word, re.ASCII) or not least <= int(word) <= most:
        bad('{} is no number from {} to {}', word, least, most)


def check_file(word: str) -> None:
    check_text(word, 'the file')


def check_box(text: str) -> None:
    sides = text.split(',')
    if len(sides) != 4:
        bad('B{} is no box: it has west, south, east and north', text)
    west, south = check_place(*sides[:2])
    east, north = check_place(*sides[2:])
    if west > east or south > north:
        bad(
            'B{} is no box: its {} is beyond its {}',
            text,
            *(('west', 'east') if west > east else ('south', 'north')),
        )


def check_part(words: List[str]) -> None:
    """What may stand after a `download FILE` and a `fetch M`: a box, and tags."""
    if words and words[0].startswith('B'):
        check_box(words.pop(0)[1:])
    if words and words[0].startswith('F'):
        if not check_tags(words.pop(0)[1:]):
            bad('F has no tag: Fhighway=*, or no F')
    if words and words[0].startswith('B'):
        bad('the box {} stands before the tags', words[0])
    if words:
        bad('{} is too much', ' '.join(words))


# ---- lines ----


def check_download(words: List[str]) -> None:
    if not words:
        bad('FILE is missing')
    check_file(words[0])
    check_part(words[1:])


def check_fetch(words: List[str]) -> None:
    if not words:
        bad('M is missing')
    check_number(words[0], 9999999, 0)
    check_part(words[1:])


def check_side(word: str) -> None:
    if word not in ('mine', 'theirs'):
        bad('{} is no side: mine or theirs', word)


def check_resolve(words: List[str]) -> None:
    if len(words) < 2:
        bad('{} is missing', 'KEY and a choice' if not words else 'a choice')
    check_key(words[0])
    choice, rest = words[1], words[2:]
    if choice in ('mine', 'theirs'):
        exactly(rest)
    elif choice == 'mix':
        for side in exactly(rest, 'S', 'S'):
            check_side(side)
    elif choice == 'parts':
        side, keys = exactly(rest, 'S', 'K..')
        check_side(side)
        check_tag_keys(letter(keys, 'K', 'keys of tags are Kname,ref, or K alone'))
    else:
        bad('{} is no choice: mine, theirs, mix or parts', choice)


def check_tag_keys(text: str) -> None:
    names = [check_text(key, 'the key') for key in text.split(',')] if text else []
    if '' in names:
        bad('a key of K{} is empty', text)
    if len(set(names)) < len(names):
        bad('a key of K{} stands twice', text)


def check_find(words: List[str]) -> None:
    """A query, read from the left. `waiting` has what waits for a factor, the innermost last:
    openings, and `and` and `or`.
    """
    if len(words) > QUERY_MOST:
        bad('a query has at most {} words', QUERY_MOST)
    waiting: List[str] = []
    has_factor = False
    for word in words:
        if has_factor:
            has_factor = _follow(word, waiting)
        elif word in ('not', 'child', 'parent', '('):
            if sum(one not in ('and', 'or') for one in waiting) >= NESTING_MOST:
                bad('more than {} of not, child, parent and ( stand round {}', NESTING_MOST, word)
            waiting.append(word)
        else:
            _check_factor(word)
            has_factor = True
            _take(waiting)
    if not has_factor:
        bad(
            'the query ends where a word like way or Thighway=* is wanted'
            if words
            else 'QUERY is missing'
        )
    if '(' in waiting:
        bad('a bracket isn\'t closed')


def _take(waiting: List[str]) -> None:
    """A factor is taken by all that waits for it, up to a bracket or an `or`."""
    while waiting and waiting[-1] in ('not', 'child', 'parent', 'and'):
        waiting.pop()


def _follow(word: str, waiting: List[str]) -> bool:
    """A word after a factor; whether there is a factor then too."""
    if word in ('and', 'or'):
        if word == 'or' and waiting and waiting[-1] == 'or':
            waiting.pop()
        waiting.append(word)
        return False
    if word != ')':
        bad('before {} an and, an or or a ) is wanted', word)
    if waiting and waiting[-1] == 'or':
        waiting.pop()
    if not waiting:
        bad('there is no bracket to close')
    waiting.pop()
    _take(waiting)
    return True


def _check_factor(word: str) -> None:
    if word in STATES:
        return
    if not word.startswith('T'):
        bad('{} is no word of a query where it stands', word)
    if len(check_tags(word[1:])) != 1:
        bad('{} isn\'t one tag: each is a T of its own, with and between them', word)


def _keys(words: List[str]) -> None:
    check_keys(exactly(words, 'KEYS')[0])


def _two_keys(words: List[str]) -> None:
    check_keys(exactly(words, 'KEYS')[0], 2)


def _node(words: List[str]) -> None:
    x, y, tags = exactly(words, 'x..', 'y..', 'T..')
    check_place_words(x, y)
    check_tags_word(tags)


def _way(words: List[str]) -> None:
    tags, nodes = exactly(words, 'T..', 'N..')
    check_tags_word(tags)
    check_nodes_word(nodes)


def _relation(words: List[str]) -> None:
    tags, members = exactly(words, 'T..', 'M..')
    check_tags_word(tags)
    check_members_word(members)


def _tag(words: List[str]) -> None:
    keys, tags = exactly(words, 'KEYS', 'T..')
    check_keys(keys)
    check_tags_word(tags)


def _move(words: List[str]) -> None:
    keys, dx, dy = exactly(words, 'KEYS', 'DX', 'DY')
    check_keys(keys)
    check_coordinate(dx)
    check_coordinate(dy)


def _place(words: List[str]) -> None:
    key, x, y = exactly(words, 'KEY', 'x..', 'y..')
    check_key(key)
    check_place_words(x, y)


def _nodes(words: List[str]) -> None:
    key, nodes = exactly(words, 'KEY', 'N..')
    check_key(key)
    check_nodes_word(nodes)


def _members(words: List[str]) -> None:
    key, members = exactly(words, 'KEY', 'M..')
    check_key(key)
    check_members_word(members)


def _split(words: List[str]) -> None:
    key, keys = exactly(words, 'KEY', 'KEYS')
    check_key(key)
    check_keys(keys)


def _number(most: int, name: str) -> Reader:
    return lambda words: check_number(exactly(words, name)[0], most)


def _file(words: List[str]) -> None:
    check_file(exactly(words, 'FILE')[0])


READERS: Dict[str, Reader] = {
    'download': check_download,
    'fetch': check_fetch,
    'import': _file,
    'resume': _file,
    'confirm': _file,
    'serve': _file,
    'generate': _number(100000, 'N'),
    'undo': _number(1000000, 'N'),
    'redo': _number(1000000, 'N'),
    'upload': _number(10000, 'SIZE'),
    'send': _number(10000, 'K'),
    'editor': _number(4, 'N'),
    'find': check_find,
    'node': _node,
    'way': _way,
    'relation': _relation,
    'tag': _tag,
    'move': _move,
    'place': _place,
    'nodes': _nodes,
    'members': _members,
    'resolve': check_resolve,
    'delete': _keys,
    'erase': _keys,
    'purge': _keys,
    'squeeze': _keys,
    'combine': _two_keys,
    'fuse': _two_keys,
    'split': _split,
    'reverse': lambda words: check_key(exactly(words, 'KEY')[0]),
}
