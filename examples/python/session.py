#!/usr/bin/env python3
"""Drives the editor from Python: quotes texts, writes a script, runs it, and reads its replies and
objects.

Needs Python 3.8 and nothing else. A whole use:

    from session import Script, run

    script = Script()
    script.download('town.opl')
    script.begin()
    bench = script.node(13.65, 0.05, {'amenity': 'bench'})
    script.tag(['w5'], {'name': 'Main Street'})
    script.end()
    script.print()
    for thing in run(script).objects():
        print(thing.key, thing.tags)

`run` raises `Refused` at the first refused step, so that nothing that a later step did goes on
unseen. `Script.node`, `way` and `relation` answer with the key that the new object gets where no
addition before it is refused; as `run` stops at a refusal, a key that was wrong never gets further
than that. After a `split`, an import, and lines of your own, they answer None: the reply has the
key then.

Many new objects come better by a `Drawing`, a file for `import`: there they have keys of the file's
own, and nothing is foretold.

As a command it runs a script and puts what the session writes into a file, whole or not at all:

    session.py [--allow-refused] [--max-objects N] [--max-file N] SCRIPT -o OUTPUT

Where a step is refused it says which, ends with 1 and leaves OUTPUT as it was, unless refusals are
allowed. Where the session doesn't run to its end it says why, and ends with the session's status.
OUTPUT is never a file that the session reads, nor the script itself, and a download of which
nothing can come ends it before anything runs. The program is `yokeorange` on the path.
"""
import argparse
import contextlib
import math
import os
import pathlib
import re
import shutil
import subprocess
import sys
import tempfile
from collections import namedtuple
from decimal import Decimal

from whole import not_among, output_named, write_whole

LONGEST = 255  # characters of a key, a value or a role
SHOWN = 120  # characters of a step or a text in an error
DIGITS = '0123456789'
NOT_CARRIED = re.compile(
    '[^\t\n\r -~\x80-\ud7ff\ue000-\ufffd\U00010000-\U0010ffff]'
)  # by XML, and U+007F, which the API refuses, so by no upload either
NO_KEY = 'the key of a new object is told by the reply alone here, after a `resume`, an import or a split: put it into a Drawing'

Reply = namedtuple('Reply', 'line word rest text')
Reply.__doc__ = """The answer to a step: its line in the script, `ok`, `refused` or `skipped`, what stands after, and the lines of text that follow."""

Object = namedtuple(
    'Object', 'key version deleted changeset time uid user tags lon lat nodes members'
)
Object.__doc__ = """An object as `print` writes it: lon and lat are Decimals of a node, nodes are the keys of a way's nodes, members pairs of key and role."""

Conflict = namedtuple('Conflict', 'key why base mine theirs')
Conflict.__doc__ = """An object in conflict: why (`changed`, `held` or `withdrawn`), and its three sides as Objects."""


class Stopped(Exception):
    """The session didn't run to its end: its status, its message, as docs/REFUSALS.md has them, and
    the step with status 4.
    """

    def __init__(self, status, message, step=None):
        super().__init__(
            f'status {status}: {message}' + (': ' + shortened(step) if step is not None else '')
        )
        self.status, self.step = status, step


class Refused(Exception):
    """A step was refused: the reply, the step as it stands in the script, and the answer with all
    that the session wrote.
    """

    def __init__(self, reply, step, answer):
        super().__init__(f'line {reply.line}: refused {shortened(reply.rest)}: {shortened(step)}')
        self.reply, self.step, self.answer = reply, step, answer
        self.number = int(reply.rest.split(' ')[0])


# ---- texts ----


def shortened(text):
    """A text as an error shows it: one line, of which at most SHOWN characters are left."""
    line = ''.join(c if c.isprintable() else repr(c)[1:-1] for c in text[: SHOWN + 1])
    return line if len(line) <= SHOWN else line[:SHOWN] + '...'


def quote(text):
    """A text as it stands in a script and in OPL; ValueError if it is too long for the map or has
    U+0000.
    """
    if len(text) > LONGEST:
        raise ValueError(
            '{} characters, and the map takes {}: {}...'.format(
                len(text), LONGEST, shortened(text[:40])
            )
        )
    return escaped(text)


def escaped(text):
    """A text of any length as it stands in a script, such as a file's name; ValueError if it has
    U+0000.
    """
    if '\0' in text:
        raise ValueError('a text with U+0000')
    return ''.join(
        f'%{ord(c):x}%' if c <= ' ' or c in '%,=@' or '\x7f' <= c <= '\xa0' or c >= '\u0600' else c
        for c in text
    )


def unquote(text):
    return re.sub('%([0-9a-fA-F]+)%', lambda escape: chr(int(escape[1], 16)), text)


def degrees(number):
    """Degrees with at most seven digits after the point, as a script has them."""
    text = f'{number:.7f}'.rstrip('0').rstrip('.')
    return '0' if text == '-0' else text


def value_text(value):
    """A value as a text: a text itself, a number by its digits, True and False as `yes` and `no`;
    ValueError where it is no such value.
    """
    if isinstance(value, str):
        return value
    if isinstance(value, bool):
        return 'yes' if value else 'no'
    if (
        isinstance(value, int)
        or isinstance(value, float)
        and value.is_integer()
        and abs(value) < 1e15
    ):
        return str(int(value))
    if isinstance(value, (float, Decimal)) and math.isfinite(value):
        return str(value)
    raise ValueError(f'{shortened(repr(value))} is no value of a tag')


def tag_text(key, value, test=lambda text: None):
    """A tag as a script and OPL have it; ValueError, with the key, where one of both can't be one
    or a test of one of them raises it.
    """
    try:
        if not isinstance(key, str) or not key:
            raise ValueError('a key is a text, and not empty')
        texts = [key, value_text(value)]
        for text in texts:
            test(text)
        return '='.join(map(quote, texts))
    except ValueError as error:
        raise ValueError(f'tag {shortened(repr(key))}: {error}') from None


def tags(pairs):
    """Tags as a script and OPL have them; ValueError, with the key, where one can't be a tag."""
    return ','.join(tag_text(key, value) for key, value in pairs.items())


def drawn_text(text):
    """ValueError where a text of a new object can't be uploaded, or has blanks round it, which are
    mostly left over from a table.
    """
    found = NOT_CARRIED.search(text)
    if found:
        raise ValueError(f'a text with U+{ord(found[0]):04X}, which XML can\'t carry')
    if text != text.strip():
        raise ValueError(f'blanks round {shortened(repr(text))}')


def listed(keys):
    """One key, or keys with commas between them; ValueError where one isn't known."""
    keys = [keys] if keys is None or isinstance(keys, str) else list(keys)
    if None in keys:
        raise ValueError(NO_KEY)
    return ','.join(keys)


def member_list(members, test=lambda text: None):
    """Pairs of key and role as a script and OPL have them; ValueError where a key isn't known, or a
    role can't be one.
    """
    found = []
    for key, role in members:
        if key is None:
            raise ValueError(NO_KEY)
        try:
            role = value_text(role)
            test(role)
            found.append(f'{key}@{quote(role)}')
        except ValueError as error:
            raise ValueError(f'role of {key}: {error}') from None
    return ','.join(found)


# ---- a script ----


class Script:
    """The lines of a script. Each call adds one; keys are texts such as 'n1' and 'w-2'."""

    def __init__(self):
        self.lines = []
        self.made = 0

    def step(self, *words):
        """Any line, such as `undo 1`. No id is foretold after it, since it may make objects or give
        ids back.
        """
        self._step(*words)
        self.made = None

    def _step(self, *words):
        self.lines.append(' '.join(words))

    def _new(self, letter):
        if self.made is None:
            return None
        self.made += 1
        return f'{letter}-{self.made}'

    def download(self, name, box=None, wanted=None):
        """A file, or of it a part: a box of west, south, east and north, and tags, where the value
        `*` stands for any.
        """
        words = ['B' + ','.join(map(degrees, box))] if box else []
        words += ['F' + tags(wanted)] if wanted else []
        self._step('download', escaped(str(name)), *words)

    def generate(self, streets):
        self._step('generate', str(streets))

    def import_file(self, name):
        """The new objects of a file. No id is foretold after it, since how many there are isn't
        known here; the reply has the keys.
        """
        self.step('import', escaped(str(name)))

    def node(self, lon, lat, pairs):
        self._step('node', 'x' + degrees(lon), 'y' + degrees(lat), 'T' + tags(pairs))
        return self._new('n')

    def way(self, nodes, pairs):
        self._step('way', 'T' + tags(pairs), 'N' + listed(nodes))
        return self._new('w')

    def relation(self, members, pairs):
        """Members are pairs of key and role."""
        self._step('relation', 'T' + tags(pairs), 'M' + member_list(members))
        return self._new('r')

    def tag(self, keys, pairs):
        """Sets tags; an empty value takes the tag away. Values are texts, numbers, True (`yes`) and
        False (`no`).
        """
        self._step('tag', listed(keys), 'T' + tags(pairs))

    def move(self, keys, lon, lat):
        self._step('move', listed(keys), degrees(lon), degrees(lat))

    def place(self, key, lon, lat):
        self._step('place', listed(key), 'x' + degrees(lon), 'y' + degrees(lat))

    def nodes(self, key, nodes):
        self._step('nodes', listed(key), 'N' + listed(nodes))

    def members(self, key, members):
        self._step('members', listed(key), 'M' + member_list(members))

    def delete(self, keys):
        self._step('delete', listed(keys))

    def erase(self, keys):
        self._step('erase', listed(keys))

    def purge(self, keys):
        self._step('purge', listed(keys))

    def combine(self, keys):
        """Ways in the direction of travel."""
        self._step('combine', listed(keys))

    def reverse(self, key):
        self._step('reverse', listed(key))

    def split(self, key, nodes):
        """The pieces' ids stand in the reply. No id is foretold after it, since the number of
        pieces isn't known here.
        """
        self.step('split', listed(key), listed(nodes))

    def conflicts(self):
        self._step('conflicts')

    def resolve(self, key, side):
        """A side is 'mine' or 'theirs'."""
        self._step('resolve', listed(key), side)

    def resolve_mix(self, key, tags, body):
        """The tags of one side, and the place, the nodes or the members of one."""
        self._step('resolve', listed(key), 'mix', tags, body)

    def resolve_parts(self, key, body, keys):
        """Joined part by part: of what both sides changed the tags with these keys are theirs, and
        the body is that of the side named.
        """
        self._step('resolve', listed(key), 'parts', body, 'K' + ','.join(map(quote, keys)))

    def upload(self, size):
        """In chunks of so many changes, 1 to 10,000."""
        self._step('upload', str(size))

    def confirm(self, name):
        """The answers of a server to the first changes of an upload; ids of new objects count on."""
        self._step('confirm', escaped(str(name)))

    def rehearse(self):
        self._step('rehearse')

    def find(self, query):
        """Words such as `way and not Tname=*`; a tag is `T` and `tags` of it."""
        self._step('find', query)

    def check(self):
        self._step('check')

    def squeeze(self, keys):
        self._step('squeeze', listed(keys))

    def fuse(self, keys):
        """Two nodes or more at one place."""
        self._step('fuse', listed(keys))

    def save(self):
        self._step('save')

    def resume(self, name):
        """A saved session. No id is foretold after it, since they count on from those of that
        session.
        """
        self.step('resume', escaped(str(name)))

    def begin(self):
        self._step('begin')

    def end(self):
        self._step('end')

    def print(self):
        self._step('print')

    def count(self):
        self._step('count')

    def __str__(self):
        return ''.join(line + '\n' for line in self.lines)


class Drawing:
    """New objects for `import`, whose keys are good for this file alone: each call answers with the
    key of its object.

    Keys of the table, such as 'n1', may be named too. `write` makes the file, and `named` tells
    from the reply to its import which keys the objects have in the session.

    What a table or a GeoJSON file has goes in as it is: values are texts, numbers, True (`yes`) and
    False (`no`); a tag whose value is None or empty is left out. What can't be uploaded is a
    ValueError when it is given, with the key of the tag: a text of more than 255 characters, one
    that XML can't carry, one with blanks round it, a value of another kind. So is a node off the
    map, or outside the box `within` of west, south, east and north.
    """

    def __init__(self, within=None):
        self.keys, self.lines, self.within = [], [], within
        self.corners = {}

    def _new(self, letter, *fields):
        self.keys.append(f'{letter}-{len(self.keys) + 1}')
        self.lines.append(' '.join((self.keys[-1],) + fields))
        return self.keys[-1]

    @staticmethod
    def _tags(pairs):
        return 'T' + ','.join(
            tag_text(key, value, drawn_text)
            for key, value in pairs.items()
            if value is not None and value != ''
        )

    @contextlib.contextmanager
    def feature(self):
        """A feature with all that it is made of, whole or not at all: where the block ends by an
        exception, nothing of it is left.

        with drawing.feature():
            corners = [drawing.node(lon, lat, {}, shared=True) for lon, lat in ring]
            drawing.way(corners + corners[:1], row)
        """
        count = len(self.keys)
        try:
            yield
        except BaseException:
            del self.keys[count:], self.lines[count:]
            self.corners = {
                fields: key for fields, key in self.corners.items() if int(key[2:]) <= count
            }
            raise

    def _place(self, lon, lat):
        west, south, east, north = self.within or (-180, -90, 180, 90)
        for number in (lon, lat):
            if isinstance(number, bool) or not isinstance(number, (int, float, Decimal)):
                raise ValueError(f'{shortened(repr(number))} is no number of degrees')
        if not (west <= lon <= east and south <= lat <= north):
            raise ValueError(
                'a node at longitude {} and latitude {}, outside {},{},{},{}: are the two exchanged?'.format(
                    lon, lat, west, south, east, north
                )
            )
        return 'x' + degrees(lon), 'y' + degrees(lat)

    def node(self, lon, lat, pairs, shared=False):
        """A node. With `shared` it is the one that an earlier such call made at this place with
        these tags, where there is one: so houses side by side have their corners in common.
        """
        fields = (self._tags(pairs),) + self._place(lon, lat)
        if not shared:
            return self._new('n', *fields)
        if fields not in self.corners:
            self.corners[fields] = self._new('n', *fields)
        return self.corners[fields]

    def way(self, nodes, pairs):
        return self._new('w', self._tags(pairs), 'N' + listed(nodes))

    def relation(self, members, pairs):
        """Members are pairs of key and role."""
        return self._new('r', self._tags(pairs), 'M' + member_list(members, drawn_text))

    def write(self, path):
        write_whole(path, ''.join(line + '\n' for line in self.lines))

    def named(self, reply):
        """The session's keys by the drawing's, from the reply to the import of all of it;
        ValueError where it is another reply.
        """
        names = reply.rest.split(',') if reply.word == 'ok' and reply.rest else []
        if reply.word != 'ok' or len(names) != len(self.keys):
            raise ValueError(
                'line {}: {} {}: no import of these {} objects'.format(
                    reply.line, reply.word, reply.rest[:40], len(self.keys)
                )
            )
        return dict(zip(self.keys, names))


# ---- a run ----


class Answer:
    """What a session wrote: its replies in order, beside the script that it ran; and which files it
    read.
    """

    def __init__(self, output, script, files=()):
        self.replies, self.files = [], files
        self.steps = str(script).split('\n')
        for line in output.split('\n')[:-1]:
            found = re.match(r'([0-9]+) (ok|refused|skipped)(?: (.*))?$', line)
            if found:
                self.replies.append(Reply(int(found[1]), found[2], found[3] or '', []))
            else:
                self.replies[-1].text.append(line)

    def step(self, reply):
        """The step that was answered, as it stands in the script."""
        return self.steps[reply.line - 1].rstrip('\r')

    def _written(self, verb):
        """The text after the last step with this verb; none where it was refused or skipped, or
        where there is no such step.
        """
        return next(
            (
                reply.text
                for reply in reversed(self.replies)
                if re.split('[ \t]', self.step(reply))[0] == verb
            ),
            [],
        )

    def objects(self):
        """The objects of the last `print`, the deleted ones too; none where nothing was printed."""
        return [parse_object(line) for line in self._written('print')]

    def counts(self):
        """The numbers of the last `count`, by their names."""
        words = ' '.join(self._written('count')).split(' ')[1:]
        return dict(zip(words[::2], map(int, words[1::2])))

    def conflicts(self):
        """What the last `conflicts` wrote, by rank."""
        lines = self._written('conflicts')
        return [
            Conflict(
                *lines[at].split(' ')[1:],
                *(parse_object(line.split(' ', 1)[1]) for line in lines[at + 1 : at + 4]),
            )
            for at in range(0, len(lines), 4)
        ]

    def found(self):
        """The keys of the last `find`, by rank."""
        return self._written('find')[1:]

    def findings(self):
        """What the last `check` found: lists of words, of which the first is `doubled`, `repeated`
        or `openring`.
        """
        return [line.split(' ') for line in self._written('check')[1:]]

    def saved(self):
        """The text of the last `save`, which a file for `resume` has; empty where nothing was
        saved.
        """
        return ''.join(line + '\n' for line in self._written('save'))

    def keep(self, path):
        """Puts the text of the last `save` into a file, whole or not at all. ValueError where
        nothing was saved, where a `resume` was refused, since the session began from nothing then,
        or where the session read that file.
        """
        text = self.saved()
        if not text:
            raise ValueError('nothing was saved')
        for reply in self.replies:
            if reply.word != 'ok' and self.step(reply).startswith('resume'):
                raise ValueError(
                    'line {}: {} {}: {}'.format(
                        reply.line, reply.word, reply.rest, shortened(self.step(reply))
                    )
                )
        not_among(path, self.files)
        write_whole(path, text)

    def chunks(self):
        """The chunks of the last `upload`: lists of pairs, the verb and the Object, which for
        `delete` has key and version alone.

        None where nothing is left to send, and none where the `upload` was refused: its reply tells
        which.
        """
        return parse_chunks(self._written('upload'))


class Nothing(ValueError):
    """A file of which nothing can come; nothing was run."""


def run(
    script,
    program='yokeorange',
    folder='.',
    allow_refused=False,
    max_objects=None,
    max_file=None,
    output=None,
    keep=None,
    allow_empty=False,
):
    """Runs a script over the files of the folder, with other limits where they are given. The
    program is on the path, or named as seen from where Python runs.

    With `output` all that the session wrote comes into that file, and with `keep` what its last
    `save` wrote, each whole or not at all, named as seen from where Python runs. ValueError, before
    anything runs, where the script reads that file.

    Raises `Stopped` where the status isn't 0, and `Refused` at the first refused step, unless
    refusals are allowed; then no file is written. Raises `Nothing`, before anything runs, where
    nothing can come of a file that the script names: a `download` or a `serve` of a file without an
    object, of a box in which no node lies or of tags that nothing has, an `import` of a file
    without a new object. The session itself would say `ok` to all of these. `allow_empty` lets them
    pass.
    """
    text, found = str(script), shutil.which(program)
    if found is None:
        raise FileNotFoundError(
            f'there is no program {program}: README, "Get it", puts it on the path'
        )
    steps = file_steps(text, folder)
    files = [path for _, path in steps]
    for path in (output, keep):
        not_among(path, files)
    if not allow_empty:
        for step, path in steps:
            if os.path.isfile(path) and not brings_something(step, path):
                raise Nothing(f'{shortened(step)}: nothing comes of this file')
    options = [f'--max-objects={max_objects}'] if max_objects is not None else []
    options += [f'--max-file={max_file}'] if max_file is not None else []
    with tempfile.TemporaryDirectory() as place:
        path = pathlib.Path(place) / 'script'
        path.write_bytes(text.encode('utf-8'))
        done = subprocess.run(
            [os.path.abspath(found), *options, str(path)],
            cwd=folder,
            stdout=subprocess.PIPE,
            stderr=subprocess.PIPE,
        )
    if done.returncode != 0:
        message = done.stderr.decode('utf-8', 'replace').strip()
        found = re.match('editor: bad script line ([0-9]+)$', message)
        raise Stopped(
            done.returncode, message, text.split('\n')[int(found[1]) - 1] if found else None
        )
    answer = Answer(done.stdout.decode('utf-8'), text, files)
    if not allow_refused:
        for reply in answer.replies:
            if reply.word == 'refused':
                raise Refused(reply, answer.step(reply), answer)
    if keep is not None:
        answer.keep(keep)
    if output is not None:
        write_whole(output, done.stdout.decode('utf-8'))
    return answer


# ---- files ----

READING = ('download', 'import', 'confirm', 'resume', 'serve')


def file_steps(text, folder):
    """The steps of a script that read a file, each with the file as seen from where Python runs."""
    found = []
    for line in text.split('\n'):
        words = re.split('[ \t]+', line.rstrip('\r'))
        if words[0] in READING and len(words) > 1:
            with contextlib.suppress(
                ValueError, OverflowError
            ):  # no name of a file: the session tells of the bad line
                name = unquote(words[1])
                if '\0' not in name:
                    found.append((' '.join(words), os.path.join(folder, name)))
    return found


def brings_something(step, path):
    """Whether anything can come of a file by a `download`, a `serve` or an `import`; of other steps
    it isn't asked.
    """
    verb, *words = step.split(' ')
    if verb not in ('download', 'serve', 'import'):
        return True
    first = next(object_lines(path), None)
    if first is None or not is_object(first):  # of what is no object the session says what is wrong
        return first is not None
    if verb == 'import':
        return any(
            line[1] == '-' and ' dD' not in line or not is_object(line)
            for line in object_lines(path)
        )
    try:
        return is_taken(path, *parts_of(words[1:]))
    except ValueError:  # of a bad line, and of one of the file, the session tells
        return True


def object_lines(path):
    """The lines of an OPL file that aren't skipped."""
    with open(path, encoding='utf-8', errors='replace', newline='\n') as lines:
        for line in lines:
            if line[0] not in '#c' and line.strip(' \t\r\n'):
                yield line


def is_object(line):
    return re.match('[nwr]-?[0-9]+([ \t\r]|$)', line) is not None


def parts_of(words):
    """The box of a `download`, as west, south, east and north, and its wanted tags, as pairs; None
    and none where it has none. ValueError where a word is neither.
    """
    box, wanted = None, []
    for word in words:
        if word[:1] == 'B':
            box = tuple(map(float, word[1:].split(',')))
            if len(box) != 4:
                raise ValueError('no box: ' + word)
        else:
            wanted = [
                (unquote(key), unquote(value))
                for key, value in (pair.split('=', 1) for pair in word[1:].split(','))
            ]
    return box, wanted


def is_taken(path, box, wanted):
    """Whether a box and tags take anything of a file: a node in the box with the tags, a way with
    the tags that has a node there, or what is marked as deleted. Relations come with these, and
    never alone.
    """
    if box is None and not wanted:
        return True
    inside = {
        line.split(None, 1)[0]
        for line in object_lines(path)
        if box is not None and lies_in(line, box)
    }
    for line in object_lines(path):
        if ' dD' in line or not is_object(line):
            return True
        if line[0] != 'r' and has_tags(line, wanted):
            thing = parse_object(line)
            if box is None or thing.key in inside or not inside.isdisjoint(thing.nodes):
                return True
    return False


def lies_in(line, box):
    """Whether an OPL line is that of a node in a box of west, south, east and north."""
    places = [re.search(f'[ \t]{letter}(-?[0-9.]+)', line) for letter in 'xy']
    if line[0] != 'n' or None in places:
        return False
    lon, lat = (float(place[1]) for place in places)
    return box[0] <= lon <= box[2] and box[1] <= lat <= box[3]


def has_tags(line, wanted):
    """Whether an OPL line is that of an object with each of these tags, where the value `*` stands
    for any.
    """
    if not all(key in line or '%' in line for key, _ in wanted):  # most lines end here
        return False
    found = parse_object(line).tags
    return all(key in found and value in ('*', found[key]) for key, value in wanted)


# ---- objects ----


def parse_object(line):
    """The object of one OPL line, whatever the order of its fields; ValueError where it begins with
    no key.
    """
    first, *rest = re.split('[ \t]+', line.strip(' \t\r\n'))
    if not re.fullmatch('[nwr]-?[0-9]+', first):
        raise ValueError(f'no object: {shortened(line)}')
    fields = {word[0]: word[1:] for word in rest}

    def number(letter: str) -> int:
        return int(fields.get(letter) or 0)

    def place(letter: str) -> 'Decimal | None':
        return Decimal(fields[letter]) if fields.get(letter) else None

    pairs = [pair.split('=', 1) for pair in fields.get('T', '').split(',') if pair]
    members = [member.split('@', 1) for member in fields.get('M', '').split(',') if member]
    return Object(
        first,
        number('v'),
        fields.get('d') == 'D',
        number('c'),
        fields.get('t', ''),
        number('i'),
        unquote(fields.get('u', '')),
        {unquote(key): unquote(value) for key, value in pairs},
        place('x'),
        place('y'),
        [node.split('x')[0] for node in fields.get('N', '').split(',') if node],
        [(key, unquote(role)) for key, role in members],
    )


def read_objects(path):
    """The objects by key of an OPL file, or of the last `print` in a kept output."""
    things, replied = {}, False
    with open(path, encoding='utf-8', newline='\n') as lines:
        for line in lines:
            if line[0] in DIGITS:  # a reply; comments and empty lines of a file are none
                replied = True
            if not re.match('[nwr]-?[0-9]+[ \t]', line):  # a key alone was found
                continue
            if replied:
                things, replied = {}, False
            thing = parse_object(line)
            things[thing.key] = thing
    return things


# ---- uploads ----


def parse_chunks(lines):
    """The chunks that an `upload` wrote, as `Answer.chunks` has them; ValueError where they aren't
    all there.
    """
    chunks = []
    for line in lines[1:]:
        verb, _, rest = line.partition(' ')
        if verb == 'chunk':
            chunks.append([])
        elif verb in ('create', 'modify', 'delete') and chunks:
            thing = parse_object(rest)
            chunks[-1].append((verb, thing._replace(deleted=True) if verb == 'delete' else thing))
        else:
            raise ValueError(f'no line of an upload: {shortened(line)}')
    found = f'upload changes {sum(map(len, chunks))} chunks {len(chunks)}'
    if lines and lines[0] != found:
        raise ValueError(
            'it is cut off: {} was told, and what there is has {}'.format(
                shortened(lines[0]), found
            )
        )
    return chunks


def uploads(path):
    """The lines of each `upload` in a kept output; none for one that was refused, or that a refused
    `rehearse` follows.
    """
    found, inside = [], False
    with open(path, encoding='utf-8', newline='\n') as output:
        for line in output:
            if line.startswith('upload changes '):
                found.append([])
                inside = True
            elif line[0] in DIGITS:
                inside = False
                if re.match('[0-9]+ refused 2[345] ', line):
                    found.append([])
            if inside and line[-1] == '\n':
                found[-1].append(line[:-1].rstrip('\r'))
    return found


def upload_lines(path):
    """The lines of the last `upload` in a kept output; none where it, or a `rehearse` after it, was
    refused.
    """
    return (uploads(path) or [[]])[-1]


# ---- a command ----


def main(words):
    words, output = output_named(words)
    known = argparse.ArgumentParser(
        prog='session.py',
        usage='session.py [--allow-refused] [--max-objects N] [--max-file N] SCRIPT -o OUTPUT',
    )
    known.add_argument('--allow-refused', action='store_true')
    known.add_argument('--max-objects', type=int)
    known.add_argument('--max-file', type=int)
    known.add_argument('script')
    asked = known.parse_args(words)
    if output is None:
        known.error('OUTPUT is missing')
    try:
        not_among(output, [asked.script])
        with open(asked.script, encoding='utf-8', newline='\n') as script:
            run(
                script.read(),
                'yokeorange',
                '.',
                asked.allow_refused,
                asked.max_objects,
                asked.max_file,
                output,
            )
    except Stopped as stopped:
        print(f'session.py: {stopped}', file=sys.stderr)
        sys.exit(stopped.status)
    except (OSError, Refused, ValueError) as error:
        sys.exit(f'session.py: {error}')


if __name__ == '__main__':
    main(sys.argv[1:])
