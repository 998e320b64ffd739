"""Rooms in which blocks of pages are run as a reader runs them, and cases are tried."""
import contextlib
import importlib.util
import os
import pathlib
import re
import shutil
import signal
import subprocess
import sys
import tempfile

from bench.check.page_checks.case import indent
from bench.check.page_checks.page import COMMANDS, FILES, TOP, Wrong

SHELLS = {'sh': ['sh'], 'sh -eu': ['sh', '-eu'], 'bash -euo pipefail': ['bash', '-euo', 'pipefail']}
STRICT = ['sh -eu', 'bash -euo pipefail']
MODEL = TOP / 'bench' / 'model'


class Room:
    """A folder of its own, with the program on the path as a reader has it."""

    def __init__(self, program, like_checkout=False):
        self.holder = tempfile.TemporaryDirectory(prefix='pages-')
        top = pathlib.Path(self.holder.name)
        (top / 'bin').mkdir()
        (top / 'bin' / 'yokeorange').symlink_to(program)
        (top / 'bin' / 'yoke').write_text(f'#!/bin/sh\nexec {sys.executable} -m yoke "$@"\n')
        (top / 'bin' / 'yoke').chmod(0o755)
        (top / 'editor').symlink_to(program)
        (top / 'crates' / 'editor' / 'out').mkdir(parents=True)
        (top / 'crates' / 'editor' / 'out' / 'editor').symlink_to(program)
        shutil.copytree(
            TOP / 'examples', top / 'examples', ignore=shutil.ignore_patterns('__pycache__')
        )
        self.folder = top if like_checkout else top / 'examples'
        self.environment = dict(
            os.environ,
            PATH='{}:{}'.format(top / 'bin', os.environ['PATH']),
            LC_ALL='C.UTF-8',
            HOME=str(top / 'home'),
            PYTHONDONTWRITEBYTECODE='1',
            PYTHONPATH=str(TOP),
        )

    def __enter__(self):
        return self

    def __exit__(self, *_):
        for path in self.folder.glob('*.pid'):
            with contextlib.suppress(OSError, ValueError):
                os.kill(int(path.read_text()), signal.SIGTERM)
        self.holder.cleanup()

    def run(self, words, text=None, timeout=300):
        """Status and output, the error stream among it, of a command, which has so many seconds."""
        try:
            done = subprocess.run(
                words,
                cwd=self.folder,
                env=self.environment,
                input=text,
                text=True,
                timeout=timeout,
                stdout=subprocess.PIPE,
                stderr=subprocess.STDOUT,
                errors='surrogateescape',
            )
        except subprocess.TimeoutExpired as late:
            raise Wrong(
                'it had not ended after {} seconds: {}'.format(timeout, ' '.join(map(str, words)))
            ) from late
        return done.returncode, done.stdout

    def sh(self, text, shell='sh -eu'):
        """As a reader runs it: from a file, so that commands may read standard input."""
        path = pathlib.Path(self.holder.name) / 'bin' / 'commands'
        path.write_text(text)
        return self.run(SHELLS[shell] + [str(path)])

    def write(self, name, text):
        path = self.folder / name
        path.parent.mkdir(parents=True, exist_ok=True)
        path.write_text(text)

    def session(self, *lines):
        """The output of a session that has to run to its end."""
        self.write('case.script', ''.join(line + '\n' for line in lines))
        status, said = self.run(['yokeorange', 'case.script'])
        if status != 0:
            raise Wrong(f'status {status}: {said[-300:]}')
        return said


def room_of(program, page):
    """The folder in which a reader of the page stands: that of the checkout for the pages at the
    top, else examples/.
    """
    return Room(program, like_checkout='/' not in page)


def compare(want, got):
    """The lines are the same, where `...` stands for any."""
    parts = [re.escape(line) for line in want.split('\n')]
    pattern = '\n'.join(parts).replace(re.escape('...') + '\n', r'(?:.*\n)*?')
    if not re.fullmatch(pattern, got):
        raise Wrong(f'the page says\n{indent(want)}and what comes is\n{indent(got)}')


def run_section(room, blocks, shell):
    """Runs a section's blocks in their order; Missing where one needs what isn't installed."""
    for block in blocks:
        for needed in block.words[1:] if block.words[:1] == ['needs'] else ():
            if shutil.which(needed) is None and importlib.util.find_spec(needed) is None:
                raise Missing(needed)
    said = None
    for block in blocks:
        try:
            said = run_block(room, block, shell, said)
        except Wrong as wrong:
            raise Wrong(f'{shell}, line {block.line}: {wrong}')


class Missing(Exception):
    """Something that a block needs isn't installed."""


def run_block(room, block, shell, said):
    name = block.words[0] if block.words and block.words[0] != 'needs' else None
    if block.kind == 'sh' and name != 'elsewhere':
        ended = pathlib.Path(room.holder.name) / 'bin' / 'ended'
        status, said = room.sh(f"trap 'pwd -P > {ended}' EXIT\n" + block.text, shell)
        if status != int(name or 0):
            raise Wrong(f'status {status}\n{indent(said)}')
        if ended.read_text() != f'{room.folder.resolve()}\n':
            raise Wrong(
                'it ends in another folder, {}so in one terminal the next block fails'.format(
                    ended.read_text()
                )
            )
    elif block.kind == 'output':
        if said is None:
            raise Wrong('nothing was run before this output')
        compare(block.text, said)
    elif block.kind in FILES and name:
        path = room.folder / name
        if path.exists() and path.read_text() != block.text:
            raise Wrong(f'the file {name} is another one')
        room.write(name, block.text)
    elif block.kind == 'script':
        said = room.session(*block.text.splitlines())
    elif block.kind == 'opl':
        room.write('block.opl', block.text)
        if room.session('download block.opl') != '1 ok\n':
            raise Wrong('it is refused')
    elif block.kind == 'text':
        if any(COMMANDS.match(line) for line in block.text.split('\n')):
            raise Wrong('a command that nothing runs')
    elif block.kind != 'sh':
        raise Wrong(f'a fence with an unknown word, {block.kind}')
    return said


def town(objects):
    """A town of so many objects."""
    return subprocess.run(
        [MODEL / 'town', str(objects)], stdout=subprocess.PIPE, text=True, check=True
    ).stdout


def random_steps(room, seed, steps):
    """The bytes of a random session of so many steps over the room's town.opl."""
    words = [MODEL / 'sessions', 'town.opl', str(seed), str(steps)]
    return subprocess.run(words, cwd=room.folder, stdout=subprocess.PIPE, check=True).stdout
