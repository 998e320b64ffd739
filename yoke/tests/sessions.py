"""Saved sessions and tables for the tests, made by the program of `support`."""
import contextlib
import functools
import os
import pathlib
import subprocess
import tempfile

from yoke import table
from yoke.tests import support


@contextlib.contextmanager
def folder_with(files):
    """A folder with files by their names, where a `_` stands for the point, as the current one."""
    before = os.getcwd()
    with tempfile.TemporaryDirectory(prefix='yoke-test-') as folder:
        for name, text in files.items():
            pathlib.Path(folder, name.replace('_', '.')).write_bytes(text.encode())
        os.chdir(folder)
        try:
            yield folder
        finally:
            os.chdir(before)


def ran(lines, **files):
    """The Answer to a script over files by their names, where a `_` stands for the point."""
    with folder_with(files):
        return support.program().run(list(lines))


def session(lines, **files):
    """The saved session at the end of a script; a step that is refused is a failure."""
    answer = ran(list(lines) + ['save'], **files)
    if answer.refused():
        raise AssertionError(answer.refused())
    return answer.saved()


def goes_on(text, lines, **files):
    """The Answer to lines in one group over a saved session, and to a save after them."""
    return ran(['resume s.saved', 'begin'] + list(lines) + ['end', 'save'], s_saved=text, **files)


@functools.lru_cache(maxsize=None)
def has_program():
    """Whether the program itself is there, which alone knows which lines are none: the second
    editor takes them for granted.
    """
    program = support.program()
    if isinstance(program, support.Model):
        return False
    with folder_with({'bad_script': 'print\nundo 0\n'}):
        done = subprocess.run(
            [program.path, 'bad.script'], stdout=subprocess.PIPE, stderr=subprocess.PIPE
        )
    return done.returncode == 4 and done.stderr == b'editor: bad script line 2\n'


def opened(lines, **files):
    """The table at the end of a script."""
    return table.read(session(lines, **files))
