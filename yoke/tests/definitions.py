"""Which line of a script is the first bad one, read off the definitions that the program is proved
against.

Each function is a definition of `crates/edit_script/specs`, `map_search`, `opl_line`, `opl_text` or
`osm_base`, in its words and over bytes as there, and nothing of `yoke/scripts/grammar.py` is in it.
So the two are readings of one grammar that can be held against each other where the program isn't
there.
"""
from __future__ import annotations

from collections.abc import Callable

LETTERS = {ord('n'): 'node', ord('w'): 'way', ord('r'): 'relation'}
ALONE = {
    b'begin',
    b'end',
    b'print',
    b'count',
    b'conflicts',
    b'save',
    b'check',
    b'rehearse',
    b'answer',
    b'lost',
}
FILES = {b'import', b'resume', b'confirm', b'serve'}
MOST = {
    b'generate': 100000,
    b'undo': 1000000,
    b'redo': 1000000,
    b'upload': 10000,
    b'send': 10000,
    b'editor': 4,
}
KEY_LISTS = {
    b'delete': 1,
    b'erase': 1,
    b'purge': 1,
    b'squeeze': 1,
    b'combine': 2,
    b'fuse': 2,
}  # with the fewest keys
OPENINGS = {b'not': 'not', b'child': 'child', b'parent': 'parent', b'(': 'bracket'}
ASKS = {b'node', b'way', b'relation', b'new', b'changed', b'deleted', b'incomplete', b'conflict'}


# ---- numbers, keys, places: osm_base ----


def number_text(most: int, text: bytes) -> int | None:
    """The number that 1 to `most` decimal digits spell."""
    return int(text) if 1 <= len(text) <= most and all(48 <= byte <= 57 for byte in text) else None


def signed_text(plain: Callable[[bytes], int | None], text: bytes) -> int | None:
    """What a text is after an optional `-`, and with it."""
    value = plain(text[1:] if text[:1] == b'-' else text)
    return None if value is None else -value if text[:1] == b'-' else value


def id_size(text: bytes) -> int | None:
    number = number_text(19, text)
    return number if number is not None and 1 <= number <= 10**18 else None


def key_text(text: bytes) -> bytes | None:
    """A letter and an id text."""
    return (
        None
        if not text or text[0] not in LETTERS or signed_text(id_size, text[1:]) is None
        else text
    )


def size_text(text: bytes) -> int | None:
    """1 to 3 digits, and perhaps a point and 1 to 7 digits."""
    before, point, after = text.partition(b'.')
    whole, part = number_text(3, before), number_text(7, after) if point else 0
    return (
        None
        if whole is None or part is None
        else whole * 10**7 + part * 10 ** (7 - len(after) if point else 0)
    )


def place_texts(lon_text: bytes, lat_text: bytes) -> tuple[int, int] | None:
    lon, lat = signed_text(size_text, lon_text), signed_text(size_text, lat_text)
    return (
        None
        if lon is None or lat is None or abs(lon) > 1800000000 or abs(lat) > 900000000
        else (lon, lat)
    )


# ---- texts, tags, references, members: opl_text and opl_line ----


def unescaped(field: bytes) -> str | None:
    """The characters that the bytes of a field spell; a character that is none, and an escape that
    doesn't end, give none.
    """
    try:
        characters = field.decode('utf-8')
    except UnicodeDecodeError:
        return None
    found: list[str] = []
    escape: str | None = None
    for character in characters:
        if escape is None and character == '%':
            escape = ''
        elif escape is None:
            if ord(character) <= 32 or character in ',=':
                return None
            found.append(character)
        elif character == '%':
            code = int(escape or '0', 16)
            if code == 0 or code > 0x10FFFF or 0xD800 <= code <= 0xDFFF:
                return None
            found.append(chr(code))
            escape = None
        elif character in '0123456789abcdefABCDEF' and len(escape) < 6:
            escape += character
        else:
            return None
    return None if escape is not None else ''.join(found)


def tags_text(text: bytes) -> dict[str, str] | None:
    """Nothing, or tags with `,` between them."""
    tags: dict[str, str] = {}
    for item in text.split(b',') if text else []:
        key, equals, rest = item.partition(b'=')
        value, second, _ = rest.partition(b'=')
        name, meant = unescaped(key), unescaped(value)
        if not name or not equals or name in tags or meant is None or second:
            return None
        tags[name] = meant
    return tags


def is_reference(item: bytes) -> bool:
    return item[:1] == b'n' and signed_text(id_size, item[1:]) is not None


def is_member(item: bytes) -> bool:
    key, at, role = item.partition(b'@')
    return key_text(key) is not None and at == b'@' and unescaped(role) is not None


# ---- words: edit_script, Items ----


def behind(letter: bytes, word: bytes) -> bytes | None:
    return word[1:] if word[:1] == letter else None


def is_keys(word: bytes, least: int = 1) -> bool:
    keys = word.split(b',')
    return len(keys) >= least and all(key_text(key) is not None for key in keys)


def is_tags(word: bytes) -> bool:
    text = behind(b'T', word)
    return text is not None and tags_text(text) is not None


def is_refs(word: bytes) -> bool:
    text = behind(b'N', word)
    return (
        text is not None
        and b'x' not in text
        and all(map(is_reference, text.split(b',') if text else []))
    )


def is_members(word: bytes) -> bool:
    text = behind(b'M', word)
    return text is not None and all(map(is_member, text.split(b',') if text else []))


def is_place(x: bytes, y: bytes) -> bool:
    lon, lat = behind(b'x', x), behind(b'y', y)
    return lon is not None and lat is not None and place_texts(lon, lat) is not None


def is_coordinate(word: bytes) -> bool:
    return signed_text(size_text, word) is not None


def is_number(most: int, word: bytes) -> bool:
    number = number_text(7, word)
    return number is not None and 1 <= number <= most


def is_area(text: bytes) -> bool:
    texts = text.split(b',')
    low, high = (
        (place_texts(*texts[:2]), place_texts(*texts[2:])) if len(texts) == 4 else (None, None)
    )
    return low is not None and high is not None and low[0] <= high[0] and low[1] <= high[1]


def is_part(words: list[bytes]) -> bool:
    """What may stand behind `download FILE`: `B..` and `F..`, of which each can be left out."""
    if words and words[0][:1] == b'B':
        if not is_area(words[0][1:]):
            return False
        words = words[1:]
    if words and words[0][:1] == b'F':
        if not tags_text(words[0][1:]):
            return False
        words = words[1:]
    return not words


def is_side(word: bytes) -> bool:
    return word in (b'mine', b'theirs')


def is_tag_keys(word: bytes) -> bool:
    text = behind(b'K', word)
    names = [unescaped(key) for key in text.split(b',')] if text else []
    return text is not None and all(names) and len(set(names)) == len(names)


# ---- queries: map_search, Reading. What waits stands with the innermost first ----


def takes_factor(waiting: list[str]) -> bool:
    return bool(waiting) and waiting[0] in ('not', 'child', 'parent', 'and')


def taken(waiting: list[str]) -> list[str]:
    while takes_factor(waiting):
        waiting = waiting[1:]
    return waiting


def joined(waiting: list[str]) -> list[str]:
    return waiting[1:] if waiting[:1] == ['or'] else waiting


def is_asking(word: bytes) -> bool:
    tags = tags_text(word[1:]) if word[:1] == b'T' else None
    return word in ASKS or tags is not None and len(tags) == 1


def is_query(words: list[bytes]) -> bool:
    has_query = False
    waiting: list[str] = []
    for word in words:
        if not has_query and word in OPENINGS:
            if sum(one not in ('and', 'or') for one in waiting) >= 64:
                return False
            waiting = [OPENINGS[word]] + waiting
        elif not has_query and is_asking(word):
            has_query, waiting = True, taken(waiting)
        elif has_query and word == b'and':
            has_query, waiting = False, ['and'] + waiting
        elif has_query and word == b'or':
            has_query, waiting = False, ['or'] + joined(waiting)
        elif has_query and word == b')' and joined(waiting)[:1] == ['bracket']:
            waiting = taken(joined(waiting)[1:])
        else:
            return False
    return len(words) <= 1000 and has_query and not joined(waiting)


# ---- lines: edit_script, Forms and Meeting ----


def is_choice(words: list[bytes]) -> bool:
    if words[:1] in ([b'mine'], [b'theirs']):
        return len(words) == 1
    if words[:1] == [b'mix']:
        return len(words) == 3 and is_side(words[1]) and is_side(words[2])
    return (
        words[:1] == [b'parts'] and len(words) == 3 and is_side(words[1]) and is_tag_keys(words[2])
    )


def is_key(word: bytes) -> bool:
    return key_text(word) is not None


TESTS: dict[
    bytes, tuple[int, Callable[..., bool]]
] = {  # of the words behind a verb, where they are as many
    b'node': (3, lambda x, y, tags: is_place(x, y) and is_tags(tags)),
    b'way': (2, lambda tags, refs: is_tags(tags) and is_refs(refs)),
    b'relation': (2, lambda tags, members: is_tags(tags) and is_members(members)),
    b'tag': (2, lambda keys, tags: is_keys(keys) and is_tags(tags)),
    b'move': (3, lambda keys, dx, dy: is_keys(keys) and is_coordinate(dx) and is_coordinate(dy)),
    b'place': (3, lambda key, x, y: is_key(key) and is_place(x, y)),
    b'nodes': (2, lambda key, refs: is_key(key) and is_refs(refs)),
    b'members': (2, lambda key, members: is_key(key) and is_members(members)),
    b'split': (2, lambda key, keys: is_key(key) and is_keys(keys)),
    b'reverse': (1, is_key),
}


def is_line(verb: bytes, words: list[bytes]) -> bool:
    if verb in ALONE:
        return not words
    if verb in FILES:
        return len(words) == 1 and unescaped(words[0]) is not None
    if verb in MOST:
        return len(words) == 1 and is_number(MOST[verb], words[0])
    if verb in KEY_LISTS:
        return len(words) == 1 and is_keys(words[0], KEY_LISTS[verb])
    if verb in TESTS:
        return len(words) == TESTS[verb][0] and TESTS[verb][1](*words)
    if verb == b'find':
        return is_query(words)
    if verb == b'download':
        return bool(words) and unescaped(words[0]) is not None and is_part(words[1:])
    if verb == b'fetch':
        return bool(words) and number_text(7, words[0]) is not None and is_part(words[1:])
    return verb == b'resolve' and bool(words) and is_key(words[0]) and is_choice(words[1:])


# ---- where lines stand: edit_script, Order and Place ----


def may_stand(is_inside: bool, verb: bytes) -> bool:
    if is_inside:
        return verb not in (
            b'begin',
            b'undo',
            b'redo',
            b'rehearse',
            b'upload',
            b'confirm',
            b'resume',
            b'editor',
            b'send',
            b'answer',
            b'lost',
        )
    return verb != b'end'


def belongs(in_meeting: bool, verb: bytes) -> bool:
    if verb == b'serve':
        return False
    if verb in (b'download', b'generate', b'confirm', b'resume'):
        return not in_meeting
    return in_meeting or verb not in (b'editor', b'fetch', b'send', b'answer', b'lost')


def first_bad(script: bytes) -> int:
    """The number of the first line outside the grammar, or that may not stand where it does; 0
    where there is none.
    """
    is_start, in_meeting, is_inside = True, False, False
    lines = script.split(b'\n')
    for number, line in enumerate(lines if lines[-1] else lines[:-1], 1):
        line = line[:-1] if line[-1:] == b'\r' else line
        if not line.strip(b' \t') or line[:1] == b'#':
            continue
        words = [word for word in line.replace(b'\t', b' ').split(b' ') if word]
        if line[:1] in b' \t' or line[-1:] in b' \t' or not is_line(words[0], words[1:]):
            return number
        begins_meeting = is_start and words[0] == b'serve'
        if not begins_meeting and not (
            belongs(in_meeting, words[0]) and may_stand(is_inside, words[0])
        ):
            return number
        is_start, in_meeting = False, in_meeting or begins_meeting
        is_inside = words[0] == b'begin' or is_inside and words[0] != b'end'
    return 0
