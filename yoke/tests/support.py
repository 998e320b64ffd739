"""What the tests share: a program, a folder, a small town, and the command as a user runs it.

The program is $YOKE_EDITOR where it is set, so that the tests can be run with the built program;
else `bench/model`, the second editor in Python, in this process, which is as good here and starts
at once.
"""
import contextlib
import io
import os
import pathlib
import re
import shutil
import tempfile
import unittest
from unittest import mock

from bench.model import model
from yoke import command, words
from yoke.day import Day
from yoke.program import BadLine, Program
from yoke.session import Session
from yoke.testing.elements import lines_of_opl
from yoke.testing.server import TOKEN, Limits, StrictServer

TOP = pathlib.Path(__file__).resolve().parent.parent.parent
MEMORY = (
    '/dev/shm' if os.access('/dev/shm', os.W_OK) else None
)  # a folder in memory, where there is one
TOWN = '''n1 v1 x13.001 y52
n2 v1 x13.002 y52
n3 v1 x13.003 y52
n8 v2 x13.002 y52.001 Tamenity=bench
w5 v3 Thighway=residential,name=High%20%Street Nn1,n2
r9 v1 Ttype=route Mw5@
'''


class Model(Program):
    """The second editor, in this process."""

    @contextlib.contextmanager
    def output(self, lines):
        limits = model.Limits(objects=self.max_objects or 2_000_000, file=1_073_741_824)
        try:
            output = ''.join(
                model.written(model.Session(limits), ''.join(line + '\n' for line in lines))
            )
        except SystemExit as bad:
            number = int(re.search('script line ([0-9]+)', str(bad))[1])
            raise BadLine(words.bad_line(lines[number - 1]), number) from None
        yield io.BytesIO(output.encode())


def program():
    """The program that the tests drive."""
    named = os.environ.get('YOKE_EDITOR')
    return Program(os.path.abspath(shutil.which(named))) if named else Model('bench/model/model')


class FolderTest(unittest.TestCase):
    """A folder of its own for each test, in which it runs, without waits, and without waiting for
    the disk (test_day does).
    """

    def setUp(self):
        holder = tempfile.TemporaryDirectory(prefix='yoke-test-', dir=MEMORY)
        self.addCleanup(holder.cleanup)
        self.folder = pathlib.Path(holder.name)
        self.addCleanup(os.chdir, os.getcwd())
        os.chdir(self.folder)
        self.waited = []
        for patch in (
            mock.patch('yoke.api.pause', self.waited.append),
            mock.patch('os.fsync', lambda handle: None),
            mock.patch('yoke.program.Program.of', lambda arguments: program()),
            mock.patch.dict(os.environ, {'YOKE_TOKEN': TOKEN, 'no_proxy': '127.0.0.1'}),
        ):
            patch.start()
            self.addCleanup(patch.stop)
        os.environ.pop('YOKE_DAY', None)

    def write(self, name, text):
        """Writes a file of the test's folder."""
        (self.folder / name).write_text(text, encoding='utf-8')

    def yoke(self, *given):
        """The exit code of the command, what it writes, and what it says on the error stream."""
        out, err = io.StringIO(), io.StringIO()
        with contextlib.redirect_stdout(out), contextlib.redirect_stderr(err):
            try:
                code = command.main(list(given))
            except SystemExit as end:
                code = end.code
        self.out, self.err = out.getvalue(), err.getvalue()
        return code

    def done(self, *given):
        """What the command writes, which has to be done."""
        code = self.yoke(*given)
        self.assertEqual(0, code, self.out + self.err)
        return self.out

    def begin(self, *lines, town=TOWN):
        """A day that begins with the town, and with these steps."""
        self.write('town.opl', town)
        self.done('start', 'town.opl')
        if lines:
            self.do(*lines)

    def do(self, *lines):
        """Steps that have to be done."""
        self.write('steps.script', ''.join(line + '\n' for line in lines))
        return self.done('do', 'steps.script')

    @property
    def day(self):
        return Day(self.folder / 'day')

    @property
    def session(self):
        return Session(self.day, program())


class ServerTest(FolderTest):
    """The same, and a strict server that has the town."""

    town, limits = TOWN, {}

    def setUp(self):
        super().setUp()
        self.server = self.serve(**self.limits)

    def serve(self, **limits):
        """A server that has the town."""
        server = StrictServer(
            lines_of_opl(self.town.splitlines()), limits=Limits(**limits), first_id=1000
        )
        server.__enter__()
        self.addCleanup(server.__exit__)
        return server

    def ask(self, verb, *given):
        """The exit code of a verb that asks the server."""
        return self.yoke(verb, '--api', self.server.api, *given)

    def send(self, *given):
        """The exit code of a send."""
        return self.ask('send', '-m', 'a test', *given)

    def theirs(self):
        """What the server has: version, content by key, deleted ones as None."""
        return {element.key: element for element in self.server.elements()}
