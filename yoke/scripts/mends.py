"""What a bad line was most likely meant to be: the right form of docs/REFUSALS.md ("Bad lines of a
script") for the slips that it names.

A mend is only a proposal, and only one that is a line by the grammar is made. Nothing is mended
unseen.
"""
import difflib
import re
from decimal import Decimal, InvalidOperation
from typing import List, Optional

from yoke import opl
from yoke.scripts import grammar

# What comes after each verb: keys, one key, coordinates, and the words that begin with a letter.
SLOTS = {
    'node': ['x', 'y', 'T'],
    'way': ['T', 'N'],
    'relation': ['T', 'M'],
    'tag': ['KEYS', 'T'],
    'move': ['KEYS', 'D', 'D'],
    'place': ['KEY', 'x', 'y'],
    'nodes': ['KEY', 'N'],
    'members': ['KEY', 'M'],
    'delete': ['KEYS'],
    'erase': ['KEYS'],
    'purge': ['KEYS'],
    'split': ['KEY', 'KEYS'],
    'combine': ['KEYS'],
    'fuse': ['KEYS'],
    'squeeze': ['KEYS'],
    'reverse': ['KEY'],
}
KEYS = re.compile('[nwr]-?[0-9]{1,19}(,[nwr]-?[0-9]{1,19})*,?')
LIST = re.compile('[NM]?[nwr]-?[0-9]+([,@x]|$)|[NM]$')
NUMBER = re.compile('[xy]?[-+]?([0-9]+[.,]?[0-9]*|[.,][0-9]+)([eE][-+]?[0-9]+)?', re.ASCII)
OTHER_WORDS = {
    'add': 'node',
    'remove': 'delete',
    'rm': 'delete',
    'merge': 'combine',
    'join': 'combine',
    'rename': 'tag',
    'set': 'tag',
    'load': 'download',
    'open': 'download',
    'commit': 'end',
    'list': 'print',
    'show': 'print',
    'search': 'find',
    'query': 'find',
}


def mended(line: str) -> Optional[str]:
    """A line that is one and that this one was likely meant to be; None where nothing is likely."""
    for candidate in candidates(line):
        try:
            grammar.check_line(candidate)
            return candidate
        except (grammar.Bad, IndexError):
            continue
    return None


def candidates(line: str):
    """Lines to try, the least changed first."""
    plain = re.sub('[\u00a0\u200b\ufeff]', ' ', line).strip(' \t\r\x0b\x0c')
    without = re.sub('[ \t]+(#|//).*$', '', plain)
    yield plain
    for text in dict.fromkeys(
        [without, re.sub('[ \t]*,[ \t]*', ',', without), without.rstrip(';.,')]
    ):
        yield text
        words = grammar.words_of(text)
        if words:
            verb = likely_verb(words[0])
            yield ' '.join([verb] + words[1:])
            yield verb
            if verb == 'undo' or verb == 'redo':
                yield verb + ' 1'
            yield from rebuilt(verb, words[1:])


def likely_verb(word: str) -> str:
    """The verb of a line that a word was meant to be, or the word itself."""
    low = word.lower().strip(':;')
    if low in grammar.FORMS:
        return low
    close = difflib.get_close_matches(low, grammar.FORMS, 1, 0.7)
    return close[0] if close else OTHER_WORDS.get(low, low)


def rebuilt(verb: str, words: List[str]):
    """The line made anew out of its words, each put where it belongs."""
    if verb in SLOTS:
        yield ' '.join([verb] + filled(SLOTS[verb], words))
    elif verb == 'find':
        yield 'find ' + query(words)
    elif verb in ('download', 'fetch'):
        yield from parts(verb, words)
    elif verb in ('import', 'resume', 'confirm', 'serve') and words:
        yield verb + ' ' + file(' '.join(words))
    elif verb == 'resolve' and len(words) == 3 and words[1] == 'parts':
        yield ' '.join([verb] + words + ['K'])
    elif verb == 'resolve' and len(words) > 3 and words[1] == 'parts':
        yield ' '.join([verb] + words[:3] + ['K' + ','.join(words[3:]).lstrip('K')])
    elif verb in ('upload', 'send', 'undo', 'redo', 'generate', 'editor') and words:
        yield verb + ' ' + re.sub('[^0-9]', '', words[0])


def filled(slots: List[str], words: List[str]) -> List[str]:
    """A word for each slot, out of those that are there."""
    left, found = list(words), []
    for slot in slots:
        if slot == 'KEYS':
            found.append(taken_keys(left, slots))
        elif slot == 'KEY':
            found.append(left.pop(0) if left else '')
        elif slot in 'xyD':
            found.append(taken_number(left, slot))
        elif slot == 'T':
            found.append('T' + tags(taken_tags(left, slots)))
        else:
            found.append(slot + re.sub('x[-0-9.]*y[-0-9.]*', '', ','.join(taken_list(left, slot))))
    return found + left


def taken_keys(left: List[str], slots: List[str]) -> str:
    keys = []
    while left and KEYS.fullmatch(left[0]):
        keys.append(left.pop(0).strip(','))
    return ','.join(keys)


def taken_number(left: List[str], slot: str) -> str:
    """The first number among the words, as degrees; 0 where a `move` has but one."""
    at = next(
        (
            at
            for at, word in enumerate(left)
            if NUMBER.fullmatch(word) and word[0] in slot + '-+.,0123456789'
        ),
        None,
    )
    if at is None:
        return '0' if slot == 'D' else ''
    text = left.pop(at).lstrip('xy').replace(',', '.')
    try:
        return (slot if slot != 'D' else '') + opl.degrees(Decimal(text))
    except InvalidOperation:
        return text


def taken_tags(left: List[str], slots: List[str]) -> str:
    """The words that are tags, with blanks between them: from the first that begins with T or has a
    =, up to another field.
    """
    ends = 'N' in slots or 'M' in slots
    start = next((at for at, word in enumerate(left) if word[0] == 'T' or '=' in word), None)
    if start is None:
        return ''
    end = next(
        (at for at in range(start + 1, len(left)) if ends and LIST.match(left[at])), len(left)
    )
    text = ' '.join(left[start:end])
    del left[start:end]
    return text[1:] if text.startswith('T') else text


def tags(text: str) -> str:
    """Tags in which blanks, a second =, a stray % and a comma in a value are escaped, and each key
    stands once, the first time.
    """
    found = {}
    for item in joined(text):
        key, _, value = item.partition('=')
        found.setdefault(mended_text(key.strip(' "\'')), mended_text(value.strip(' "\'')))
    return ','.join('{}={}'.format(*pair) for pair in found.items())


def joined(text: str) -> List[str]:
    """The tags of a text; a piece without a = belongs to the value before it."""
    items = []
    for item in text.split(',') if text else []:
        if '=' in item or not items:
            items.append(item)
        else:
            items[-1] += ',' + item
    return items


def mended_text(text: str) -> str:
    """A text with its escapes kept, and all else escaped that has to be."""
    try:
        return ''.join(
            part if grammar.ESCAPE.fullmatch(part) else opl.escape(part)
            for part in re.split('(%[0-9a-fA-F]{1,6}%)', text)
        )
    except ValueError:
        return text


def taken_list(left: List[str], slot: str) -> List[str]:
    """The references or members that are left."""
    words = [word[1:] if word[0] == slot else word for word in left]
    del left[:]
    found = [item for word in words for item in word.split(',') if item]
    return [item if '@' in item or slot == 'N' else item + '@' for item in found]


def file(name: str) -> str:
    """The name of a file, without quotes."""
    return mended_text(name.strip('"\''))


def parts(verb: str, words: List[str]):
    """A file, or how far back, and then the box and the tags, in this order."""
    box = [word for word in words[1:] if re.match('B[-0-9]', word)]
    wanted = [word for word in words[1:] if word[0] in 'FT' and word not in box]
    first = [word for word in words if word not in box and word not in wanted]
    asked = joined(','.join(word[1:] for word in wanted))
    wanted = (
        ['F' + tags(','.join(item if '=' in item else item + '=*' for item in asked))]
        if asked
        else []
    )
    yield ' '.join(
        [verb, file(' '.join(first)) if verb == 'download' else ' '.join(first)]
        + [mended_box(word) for word in box]
        + wanted
    )


def mended_box(word: str) -> str:
    """A box with its sides in their order."""
    try:
        west, south, east, north = map(Decimal, word[1:].split(','))
    except (ValueError, InvalidOperation):
        return word
    return 'B' + ','.join(
        map(opl.degrees, (min(west, east), min(south, north), max(west, east), max(south, north)))
    )


def query(words: List[str]) -> str:
    """A query with blanks round its brackets, a T before its tags, and an `and` between factors
    that stand side by side.
    """
    found = []
    for word in re.sub('([()])', ' \\1 ', ' '.join(words)).split():
        low = word.lower()
        if low in grammar.STATES or low in ('and', 'or', 'not', 'child', 'parent', '(', ')'):
            found.append(low)
        else:
            items = joined(word[1:] if word.startswith('T') else word)
            found += ' and '.join(
                'T' + (tags(item) if '=' in item else mended_text(item) + '=*') for item in items
            ).split(' ')
    return ' '.join(with_and(found))


def with_and(words: List[str]) -> List[str]:
    def is_asking(word: str) -> bool:
        return word in grammar.STATES or word.startswith('T')

    found: List[str] = []
    for word in words:
        ends = bool(found) and (found[-1] == ')' or is_asking(found[-1]))
        if ends and (word in ('(', 'not', 'child', 'parent') or is_asking(word)):
            found.append('and')
        found.append(word)
    return found
