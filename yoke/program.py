"""Runs the program `editor` over the lines of a script, and reads what it writes.

    answer = Program.of(arguments).run(['download town.opl', 'tag n1 Tref=7', 'save'])
    for reply in answer.refused(): ...
    text = answer.saved()

The program is `--program`, else $YOKE_EDITOR, else `yokeorange` on the path, else the one in the
package (`builds.find`).
"""
from __future__ import annotations

import argparse
import contextlib
import os
import re
import subprocess
import tempfile
from collections.abc import Callable, Iterator
from dataclasses import dataclass, field
from typing import IO, NoReturn, Optional, Sequence

from yoke import builds, opl, words
from yoke.trouble import Trouble

LARGEST_FILE = 1073741824  # bytes: the most that editor allows, since a saved session is longer than its extract
PIECE = 1 << 20  # bytes that are copied at a time
END = b'session end\n'
REPLY = re.compile('([0-9]+) (ok|refused|skipped)(?: (.*))?')


class BadLine(Trouble):
    """The script has a line that is none, so nothing was run (status 4 of editor). `line` is its
    number, from 1.
    """

    code = 1

    def __init__(self, message: str, line: int) -> None:
        super().__init__(message)
        self.line = line


@dataclass
class Reply:
    """The reply to a step: the number of its line, `ok`, `refused` or `skipped`, what follows, and
    the lines of text after it.

    Of a script that was written out `row` is the row of a table from which the step comes, and
    `problem` why it couldn't be written out: then another step was refused in its place.
    """

    line: int
    word: str
    rest: str
    step: str
    text: list[str] = field(default_factory=list)
    row: str = ''
    problem: str = ''

    @property
    def number(self) -> int:
        """The number of a refusal."""
        return int(self.rest.split(' ')[0])

    @property
    def verb(self) -> str:
        """The word with which the step begins."""
        return re.split('[ \t]', self.step, maxsplit=1)[0]

    def made(self) -> list[str]:
        """The keys of the objects that an accepted step made."""
        return self.rest.split(',') if self.word == 'ok' and self.rest else []


class Answer:
    """The replies to a script, in order."""

    def __init__(self, output: str, lines: Sequence[str]) -> None:
        self.replies: list[Reply] = []
        for text in output.split('\n')[:-1]:
            found = REPLY.fullmatch(text) if '0' <= text[:1] <= '9' else None
            if found:
                self.replies.append(
                    Reply(int(found[1]), found[2], found[3] or '', lines[int(found[1]) - 1])
                )
            else:
                self.replies[-1].text.append(text)

    @classmethod
    def of(cls, replies: list[Reply]) -> Answer:
        """An Answer of these replies."""
        answer = cls('', [])
        answer.replies = replies
        return answer

    def refused(self) -> list[Reply]:
        """The replies of refused steps. Steps of a group that were skipped aren't among them."""
        return [reply for reply in self.replies if reply.word == 'refused']

    def last(self, verb: str) -> Reply | None:
        """The reply to the last step with this verb; None where there is none."""
        return next((reply for reply in reversed(self.replies) if reply.verb == verb), None)

    def text(self, verb: str) -> list[str]:
        """The lines that the last step with this verb wrote; none where it was refused."""
        reply = self.last(verb)
        return reply.text if reply else []

    def saved(self) -> str:
        """The text of the last `save`, as a file for `resume` has it; Trouble where it isn't whole."""
        lines = self.text('save')
        if not lines or lines[-1] != 'session end':
            raise Trouble('the session wrote no whole `save`')
        return '\n'.join(lines) + '\n'

    def counts(self) -> dict[str, int]:
        """The numbers of the last `count` by their names, such as `changed`."""
        found = ' '.join(self.text('count')).split(' ')[1:]
        return dict(zip(found[::2], map(int, found[1::2])))

    def found(self) -> list[str]:
        """The keys of the last `find`."""
        return self.text('find')[1:]

    def upload_size(self) -> int:
        """How many changes the last `upload` has; 0 where it was refused."""
        lines = self.text('upload')
        return int(lines[0].split(' ')[2]) if lines else 0

    def first_chunk(self) -> list[tuple[str, opl.Object]]:
        """The changes of the first chunk of the last `upload`: pairs of a verb (`create`, `modify`,
        `delete`) and an Object.

        Of a `delete` the object has key and version alone. None where nothing is left; Trouble
        where the text is cut off.
        """
        return next(iter(self.chunks()), [])

    def changes(self) -> list[tuple[str, opl.Object]]:
        """The changes of all chunks of the last `upload`, as those of the first one."""
        return [change for chunk in self.chunks() for change in chunk]

    def chunks(self) -> Iterator[list[tuple[str, opl.Object]]]:
        """The chunks of the last `upload`, each taken apart when it is asked for."""
        lines, size = self.text('upload'), self.upload_size()
        if lines and len(lines) != 1 + size + sum(line.startswith('chunk ') for line in lines):
            raise Trouble('the session wrote no whole `upload`')
        found: list[tuple[str, opl.Object]] = []
        for text in lines[2:]:
            verb, rest = text.split(' ', 1)
            if verb == 'chunk':
                yield found
                found = []
            else:
                found.append((verb, opl.parse(rest)))
        if found:
            yield found


Target = Callable[
    [Answer], Optional[IO[bytes]]
]  # the file into which a session is saved after an Answer, or none


@dataclass(frozen=True)
class Program:
    """The program `editor`, by the path of its file."""

    path: str
    max_objects: int = 0

    @classmethod
    def of(cls, arguments: argparse.Namespace) -> Program:
        """The program that the words of a command line name; Trouble where there is none."""
        return cls.named(arguments.program, arguments.max_objects or 0)

    @classmethod
    def named(cls, path: str | None = None, max_objects: int = 0) -> Program:
        """The program at a path, else the one that is found (`builds.find`); Trouble where there is
        none.
        """
        found = builds.find(path)
        if found is None:
            name = path or os.environ.get('YOKE_EDITOR') or builds.NAME
            raise Trouble(
                'there is no program {}: name it by --program or $YOKE_EDITOR, or put it on the path as yokeorange'.format(
                    name
                )
            )
        return cls(found, max_objects)

    def run(self, lines: list[str]) -> Answer:
        """The Answer to a script, with its refusals in it. File names in it are seen from the
        folder where Python runs.

        Raises BadLine where a line is none, and Trouble where the session didn't run to its end for
        another reason.
        """
        with self.output(lines) as output:
            data = output.read()
        return self._answer(data, lines)

    def save(self, lines: list[str], target: Target) -> Answer:
        """The Answer to a script, after which the session is saved into the file that `target`
        gives for this Answer: where it gives none, nothing is saved. The text of the session is
        never in memory as a whole. Raises as `run`, and then the file isn't whole.
        """
        steps = [*lines, 'save']
        with self.output(steps) as output:
            head, reply = _until(output, len(steps))
            file = target(self._answer(head, lines)) if reply else None
            is_whole = _copied(output, file)
        answer = self._answer(head, lines)
        if not is_whole or reply.split()[1:] != [b'ok']:
            raise Trouble('the session wrote no whole `save`')
        return answer

    @contextlib.contextmanager
    def output(self, lines: list[str]) -> Iterator[IO[bytes]]:
        """What the program writes for a script, as it comes. Raises as `run`, at the end of the
        context.
        """
        if any('\n' in line for line in lines):
            raise ValueError('a line of a script with a line feed in it')
        options = [f'--max-file={LARGEST_FILE}'] + (
            [f'--max-objects={self.max_objects}'] if self.max_objects else []
        )
        with tempfile.TemporaryDirectory(prefix='yoke-') as folder, open(
            os.path.join(folder, 'errors'), 'w+b'
        ) as errors:
            path = os.path.join(folder, 'script')
            with open(path, 'w', encoding='utf-8', newline='\n') as script:
                script.writelines(line + '\n' for line in lines)
            with subprocess.Popen(
                [self.path, *options, path], stdout=subprocess.PIPE, stderr=errors
            ) as process:
                assert process.stdout is not None
                try:
                    yield process.stdout
                    _copied(process.stdout, None)
                except BaseException:
                    process.kill()
                    raise
            errors.seek(0)
            if process.returncode != 0:
                _stopped(process.returncode, errors.read(), lines)

    def _answer(self, output: bytes, lines: list[str]) -> Answer:
        try:
            return Answer(output.decode('utf-8'), lines)
        except (UnicodeDecodeError, IndexError):
            raise Trouble(f'{self.path} is no program editor: its output has no replies') from None


def _stopped(code: int, errors: bytes, lines: list[str]) -> NoReturn:
    """Raises what it means that the program ended with a status."""
    message = errors.decode('utf-8', 'replace').strip()
    found = re.search('bad script line ([0-9]+)$', message)
    if code == 4 and found:
        line = int(found[1])
        raise BadLine(words.bad_line(lines[line - 1]), line)
    raise Trouble(words.status(code, message))


def _until(output: IO[bytes], number: int) -> tuple[bytes, bytes]:
    """What a program writes before the reply to the step with a number, and that reply; it is empty
    where none comes.
    """
    head: list[bytes] = []
    mark = b'%d ' % number
    for line in output:
        if line.startswith(mark):
            return b''.join(head), line
        head.append(line)
    return b''.join(head), b''


def _copied(source: IO[bytes], target: IO[bytes] | None) -> bool:
    """Copies what is left of a stream into a file, if there is one; answers whether it ends as a
    saved session does.
    """
    tail = b''
    while piece := source.read(PIECE):
        if target is not None:
            target.write(piece)
        tail = (tail + piece)[-len(END) :]
    return tail == END
