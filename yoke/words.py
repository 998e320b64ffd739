"""Refusals, statuses and answers of a server in words, each with the way out.

The meaning of each number is docs/REFUSALS.md's, and its numbers never change; the words here are
those of a line in a terminal.
"""
import re
from typing import List

from yoke import printing

# What each refusal says, with places for what it carries, and the way out. docs/REFUSALS.md has
# each at length.
REFUSALS = {
    1: ('there is no {0}', 'download it, or mend the key; of an import put it into the file'),
    2: (
        '{0} is only referred to: it was never downloaded, or it is deleted',
        'download it (yoke refresh {0}), or take it out of what refers to it',
    ),
    3: ('{0} is deleted', 'name another one, or take the deletion back'),
    4: ('{0} is in conflict', 'yoke conflicts {0}, then yoke resolve {0} mine, or theirs'),
    5: (
        '{0} is still used by {1}',
        'leave {0} out; or erase the way alone, which keeps nodes that others use',
    ),
    6: ('{0} is of a kind that this command doesn\'t take', 'mend the key'),
    7: (
        '{0} would not fit the map: a way has 1 to 2,000 nodes, a relation at most 32,000 members, and a text at most 255 characters',
        'split the way, or shorten the text',
    ),
    8: ('{0} would leave the map', 'move it by less: longitude comes first, and both are degrees'),
    9: ('{0} stands twice in the list', 'name it once'),
    10: ('{0} isn\'t a node of the way', 'look at the way\'s nodes'),
    11: (
        'fewer than two pieces of {0} would come',
        'name a node between the ends; of a closed way two places',
    ),
    12: (
        '{0} doesn\'t meet the ways joined so far',
        'name the ways in the order in which they meet',
    ),
    13: ('the values of {0} are unlike', 'tag them alike first, or leave them two'),
    14: (
        'the relation {0} has only some of the ways, or not side by side with one role',
        'give it all of them side by side, or none, by members',
    ),
    15: ('{0} isn\'t in conflict', 'yoke conflicts shows what is'),
    16: (
        '{0}: only one side changed it, or one side deleted it',
        'yoke resolve {0} mine, or theirs',
    ),
    17: (
        '{0} is told in two ways in its version {1}',
        'make the file anew from its source: one of the two isn\'t what the server had',
    ),
    18: (
        'there would be too many objects',
        'work on a smaller area, or allow more by --max-objects',
    ),
    19: (
        'there is no file of that name',
        'look at the name and the folder; a blank is written %20%',
    ),
    20: ('the file is refused: {0}', 'docs/REFUSALS.md has each fault by its number'),
    21: ('fewer steps were done', 'undo fewer; yoke undo goes back to the session kept before'),
    22: ('fewer steps were undone', 'redo fewer, or write the steps anew'),
    23: ('{0} objects are in conflict, the first is {1}', 'yoke conflicts, and yoke resolve each'),
    24: (
        '{0} would be sent and refers to {1}, of which nobody says that the server has it',
        'yoke refresh {1}, or leave the reference out',
    ),
    25: (
        'new relations refer to each other in a ring: {0}',
        'take one reference out by members, send, and put it in again',
    ),
    26: (
        'line {0} of the answers isn\'t the answer to its change',
        'the answers are of another session than the one that was sent',
    ),
    27: (
        'the server gave the id {0}, and something stands under it already',
        'the files are of another server, or a download had what was sent',
    ),
    29: ('the tag {0} needs no choice', 'leave it out: it is taken from the side that changed it'),
    30: ('line {0} of the saved session is none', 'go back to the one kept before: yoke undo'),
    31: ('{0} is an object that no session can have', 'go back to the one kept before: yoke undo'),
    32: ('the way {0} has no node twice side by side', 'leave it out: check shows which have'),
    33: ('the node {0} lies elsewhere than the first one', 'leave it out, or place it there first'),
    34: ('{0} refers to what isn\'t there in the file', 'serve a file that is whole'),
    35: ('the server has only {0} earlier states', 'ask for fewer'),
    36: ('the editor waits for no answer', 'send first'),
    37: ('the editor waits for the answer to what it sent', 'answer, or lost'),
    38: ('{0} is in the last version that there can be', 'leave it as it is'),
}

FAULTS = {
    1: 'it doesn\'t begin with n, w or r: the file isn\'t OPL, or isn\'t unpacked',
    2: 'there is no id',
    3: 'a field comes twice',
    4: 'there is no such field',
    5: 'a number is none',
    6: 'a text is none',
    7: 'a time is none',
    8: 'a coordinate is none, or off the map',
    9: 'a node has no place',
    10: 'the object has no version: the extract was made without metadata',
    11: 'tags are none, or a key stands twice',
    12: 'a node of a way is none',
    13: 'a member is none',
    14: 'a field is of objects of another kind',
    15: 'the id is negative: a new object comes in by import',
}

STATUSES = {
    2: 'the words of the command line are wrong',
    3: 'there is no script of that name',
    4: 'a line of the script is none; nothing was run',
    5: 'the script has more than 16,777,216 bytes: put new objects into a file, and import it',
    6: 'a tool is missing',
    7: 'a file can\'t be read: a folder, a file that you may not read, or a fault of the disk',
    8: 'its output could not be written',
    9: 'memory ran out: work on a smaller area',
}

# What a server of API 0.6 means by a status, and what to do.
ANSWERS = {
    400: (
        'it calls what was sent malformed',
        'nothing was taken; the document is kept in the folder of the day',
    ),
    401: (
        'it doesn\'t know the token',
        'make a new token that may edit the map, and give it by $YOKE_TOKEN or --token-file',
    ),
    403: (
        'the account may not do that',
        'log in to the website, and look for a message or a block',
    ),
    404: (
        'it doesn\'t know what was asked for',
        'look at the address, and whether the extract is of this server',
    ),
    409: ('somebody was faster', 'yoke refresh, then yoke conflicts, and send again'),
    410: (
        'what is to be changed is deleted there',
        'yoke refresh, then yoke conflicts, and send again',
    ),
    412: (
        'something there uses what is to go, or what is used is gone',
        'yoke refresh, then yoke conflicts, and send again',
    ),
    413: ('it calls what was sent too large', 'send in smaller chunks: --chunk'),
    429: ('it asks to wait', 'wait, and send again'),
}


def refusal(rest: str) -> str:
    """What follows the word `refused` of a reply, in words: the cause, the way out, and the number."""
    number, *carried = rest.split(' ')
    cause, way = REFUSALS.get(int(number), ('', 'docs/REFUSALS.md has it'))
    if int(number) == 20:
        carried = [_file_fault(carried)]
    filled = [text.format(*carried, *[''] * 4) for text in (cause, way)]
    return f'{filled[0].strip()}: {filled[1]} (refusal {number})'


def _file_fault(carried: List[str]) -> str:
    if carried[:1] == ['line'] and len(carried) == 4:
        return 'line {}: {} (fault {})'.format(
            carried[1], FAULTS.get(int(carried[3]), 'it is outside the format'), carried[3]
        )
    kinds = {
        'twice': 'line {} has an object that an earlier line has',
        'longline': 'line {} is too long',
        'toolong': 'it is too large',
    }
    return kinds.get(' '.join(carried[:1]), '').format(*carried[1:])


def status(code: int, message: str) -> str:
    """A status of the program in words, with its own text."""
    if code < 0:
        return f'editor was stopped by the signal {-code}: did memory run out?'
    return 'editor ended with status {}: {} ({})'.format(
        code, STATUSES.get(code, 'a fault'), message or 'without a word'
    )


def bad_line(step: str) -> str:
    """What to say of a line that is none of a script's."""
    slip = re.search(r'(?<= )[a-z][\w:]*=\S*', step)
    if step.startswith('find ') and slip:
        return f'no query: {cut(slip[0])} is no word of one; a tag is written T{cut(slip[0])}, with %20% for a blank'
    return 'no line of a script: {}; docs/REFUSALS.md, "Bad lines of a script", has the common slips'.format(
        cut(step)
    )


def is_version_mismatch(text: str) -> bool:
    """Whether the text of a 409 is about the version of an object, and not about the changeset."""
    return text.startswith('Version mismatch')


def is_too_wide(text: str) -> bool:
    """Whether the text of a 413 is about the bounding box of the changeset, and not about the
    number of changes.
    """
    return bool(re.search('bounding box|bbox|^size limit exceeded', text.strip(), re.IGNORECASE))


def is_scope_missing(text: str) -> bool:
    """Whether the text of a 403 says that the token lacks a right, and not that the account is
    blocked.
    """
    return bool(re.search('not (granted|permitted)|permission|scope', text, re.IGNORECASE))


def is_of_another_account(text: str) -> bool:
    """Whether the text of a 409 says that the changeset was opened by another account."""
    return 'own that changeset' in text


def answer(code: int, text: str) -> str:
    """A refusal of a server, with its own text."""
    cause, way = ANSWERS.get(code, ('it refuses', 'its text says why'))
    if code == 409 and not is_version_mismatch(text):
        cause, way = 'the changeset isn\'t open', 'another one is needed'
    if code == 413 and is_too_wide(text):
        cause, way = (
            'the changeset would span too large an area',
            'send less of the map in one changeset: --max-extent',
        )
    if code == 403 and is_scope_missing(text):
        cause, way = (
            'the token may not do that',
            'make a token that may edit the map (write_api) and read your account\'s name (read_prefs)',
        )
    said = cut(' '.join(text.split()), 300)
    return 'the server answers {}, {}{}; {}'.format(code, cause, ': ' + said if said else '', way)


def cut(text: str, longest: int = 100) -> str:
    """A text that may be very long, as one line of a message."""
    text = printing.line(re.sub('[\\t\\n\\r]', ' ', text))
    return text if len(text) <= longest else text[: longest - 3] + '...'
