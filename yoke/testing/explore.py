"""Walks through a send whole: every order of a few faults over small plans, and what is left in
each end.

    python3 -m yoke.testing.explore [--faults N] [--plan NAME] [--program PROGRAM]

`yoke` runs in this process, and so does the strict server: a transport calls it directly, without
sockets, and a wait takes no time. A *point* is where something can go wrong: before each call to
the server, and before each file that appears, gets another name or is removed. At each point the
walk goes on, and it tries each fault that can come there, as long as it has any left: the program
is stopped; the answer is lost, before or after the server did what it was asked; 429, 413 for the
number of changes and for the box, 500, a redirection; the document is taken late; the changeset
was closed; a stranger changes, deletes or uses an object of the plan, by which 409, 410 and 412
come.

After each command the walk takes the step that a user takes: the same command again, or `refresh`
and `resolve` where somebody was faster. At each end of a command, and of the walk, it is shown
that

- no edit is at the server twice;
- each edit is at the server, or in the session of the day with what it holds back, or a user chose
  the server's version;
- no command ends with another exit code than those that the pages name;
- in the end all is sent, and nothing is held back, out or open.

A state is all that the rest of the walk depends on: the files of the day, the data of the server,
the command, the place in the program with the values of all its variables, and how many faults are
left. One that was seen, with as many faults left or more, isn't walked again.
"""
import argparse
import contextlib
import dataclasses
import enum
import functools
import hashlib
import io
import json
import os
import pathlib
import pickle
import re
import sys
import tempfile
import time
import types
from typing import (
    Any,
    Callable,
    Dict,
    Iterator,
    List,
    Mapping,
    NamedTuple,
    Optional,
    Sequence,
    Tuple,
)
from unittest import mock

from yoke import command, saved, transport
from yoke.program import Program
from yoke.testing.database import Limits, Refusal
from yoke.testing.elements import lines_of_opl
from yoke.testing.server import MAPPER, TOKEN, Late, StrictServer, route_of
from yoke.trouble import NoAnswer

ADDRESS = 'http://127.0.0.1:1/api/0.6'
MOST_COMMANDS = (
    30  # in a row without a fault, before it counts as a command that doesn't come to an end
)
HUNG_UP = ('close-before', 'drop-after', 'half-after')
STOP = 'stop'
FAULTS_OF_WRITES = ('close-before', 'drop-after', '500-before', '302-after', '429-before')
FAULTS = {
    'upload': FAULTS_OF_WRITES
    + (
        'late-1',
        '429-bare-before',
        '413-before',
        '413-box-before',
        'closed',
        'stranger changes',
        'stranger deletes',
        'stranger uses',
    ),
    'create': FAULTS_OF_WRITES,
    'close': FAULTS_OF_WRITES,
}
FAULTS_OF_LOOKS = ('close-before', '302-after')
DONE, REFUSED, CLASH, NO_ANSWER, SERVER_REFUSED, LATER = 0, 1, 4, 5, 6, 75  # exit codes of yoke


class Finding(Exception):
    """What the walk has shown that must not be."""


class Stopped(BaseException):
    """The program ends here, as by a loss of power."""


class Seen(BaseException):
    """The walk was here before."""


# ---- plans ----


@dataclasses.dataclass(frozen=True)
class Plan:
    """A town, edits of it, and the words of the send. `marks` are the values of a tag that new and
    changed objects get, and `deleted` the keys that go. A stranger changes, deletes and uses the
    objects named so.
    """

    lines: Tuple[str, ...]
    words: Tuple[str, ...]
    marks: Tuple[str, ...]
    deleted: Tuple[str, ...] = ()
    elements: int = 10_000
    changes: str = 'w5'
    deletes: str = 'n8'
    uses: str = 'r9'


TOWN = '''n1 v1 x13.001 y52
n2 v1 x13.002 y52
n8 v2 x13.002 y52.001 Tamenity=bench
w5 v3 Thighway=residential Nn1,n2
r9 v1 Ttype=route Mw5@
'''
NEW_WAY = ('node x13.004 y52 Tmark=a', 'way Tmark=b Nn1,n-1')
PLANS = {
    'four': Plan(
        NEW_WAY + ('tag w5 Tmark=c', 'delete r9'), ('--chunk', '2'), ('a', 'b', 'c'), ('r9',)
    ),
    'two changesets': Plan(
        NEW_WAY + ('tag w5 Tmark=c', 'tag n8 Tmark=d'),
        ('--chunk', '2'),
        ('a', 'b', 'c', 'd'),
        elements=2,
    ),
    'a part': Plan(
        ('tag w5 Tmark=c', 'tag n8 Tmark=d', 'delete r9'),
        ('--only', 'w5,r9', '--chunk', '1'),
        ('c', 'd'),
        ('r9',),
    ),
    'whole groups': Plan(
        (
            'node x13.004 y52 Tmark=a',
            'node x13.005 y52 Tmark=d',
            'way Tmark=b Nn1,n-2',
            'tag w5 Tmark=c',
        ),
        ('--chunk', '2', '--refresh'),
        ('a', 'b', 'c', 'd'),
    ),
    'conflicts are skipped': Plan(
        NEW_WAY + ('tag w5 Tmark=c', 'tag n8 Tmark=d'),
        ('--chunk', '2', '--skip-conflicts'),
        ('a', 'b', 'c', 'd'),
    ),
}


# ---- a state ----


class State(NamedTuple):
    """What is on disk and at the server between two commands, and the command that is next; none
    where all is sent.
    """

    files: Tuple[Tuple[str, bytes], ...]
    server: bytes
    command: Tuple[str, ...]


def noon() -> float:
    """The time at the server."""
    return 1_800_000_000.0


def at_noon(
    gmtime: Callable[[float], time.struct_time], seconds: Optional[float] = None
) -> time.struct_time:
    """What `time.gmtime` gives, by which it is always noon."""
    return gmtime(noon() if seconds is None else seconds)


def frozen(server: StrictServer) -> bytes:
    """All of a server that counts."""
    database = server.database
    late = [(one.request, one.requests) for one in server._late]
    return pickle.dumps((database, late))


def thawed(data: bytes) -> StrictServer:
    """A server of it."""
    server = StrictServer()
    server.database, late = pickle.loads(data)
    for request, requests in late:
        server._late.append(
            Late(
                route_of('POST', f'/api/0.6/changeset/{request.parts[0]}/upload')[0],
                request,
                requests,
            )
        )
    return server


def server_digest(server: StrictServer) -> str:
    """What tells one state of a server from another."""
    database = server.database
    return repr(
        (
            sorted(database.versions.items()),
            sorted(database.changesets.items()),
            database.last,
            [(one.verb, one.element.key, one.element.version) for one in database.history],
            [(one.request, one.requests) for one in server._late],
        )
    )


# What has a state of its own that stands in the key of a state already, or none that changes.
WITHOUT_STATE = (
    StrictServer,
    transport.Transport,
    types.ModuleType,
    type,
    Program,
    argparse.ArgumentParser,
)


class Digest:
    """Texts that are the same for values from which a program goes on in the same way. A value
    that comes once more is named by its number; it is kept, so that no other one gets its id.
    """

    def __init__(self) -> None:
        self._numbers: Dict[int, Tuple[int, Any]] = {}

    def of(self, value: Any) -> str:
        """The text of a value."""
        if value is None or isinstance(value, (str, bytes, int, float, enum.Enum)):
            return repr(value)
        known = self._numbers.get(id(value))
        if known is not None:
            return f'<{known[0]}>'
        self._numbers[id(value)] = len(self._numbers), value
        return self._inner(value)

    def _inner(self, value: Any) -> str:
        if isinstance(value, (list, tuple)):
            return f'{type(value).__name__}({",".join(map(self.of, value))})'
        if isinstance(value, (set, frozenset)):
            return f'set({",".join(sorted(map(self.of, value)))})'
        if isinstance(value, dict):
            return (
                f'dict({",".join(self.of(key) + ":" + self.of(one) for key, one in value.items())})'
            )
        if isinstance(value, BaseException):
            return f'{type(value).__name__}({value})'
        if isinstance(value, os.PathLike):
            return os.fspath(value)
        if isinstance(value, types.MethodType):
            return f'{value.__func__.__qualname__} of {self.of(value.__self__)}'
        if isinstance(value, types.FunctionType):
            cells = [cell.cell_contents for cell in value.__closure__ or () if _is_set(cell)]
            return f'{value.__qualname__}({",".join(map(self.of, cells))})'
        if isinstance(value, types.GeneratorType):
            frame = value.gi_frame
            return f'{value.__qualname__}({self.frame(frame) if frame is not None else ""})'
        if isinstance(value, WITHOUT_STATE):
            return type(value).__name__
        inner = getattr(value, '__dict__', {})
        return f'{type(value).__qualname__}({self.of(inner)})'

    def frame(self, frame: types.FrameType) -> str:
        """A place in the program, with its variables."""
        return f'{frame.f_code.co_qualname if hasattr(frame.f_code, "co_qualname") else frame.f_code.co_name}@{frame.f_lasti}{self.of(frame.f_locals)}'


def _is_set(cell: Any) -> bool:
    try:
        cell.cell_contents
    except ValueError:
        return False
    return True


YOKE = str(pathlib.Path(command.__file__).parent) + os.sep
COMMAND = YOKE + 'command.py'  # its variables are those of the command line
TESTING = str(pathlib.Path(__file__).parent) + os.sep


def place() -> str:
    """Where the program is, with the values of the variables of all its functions.

    What called the program, such as a test with all that its runner knows, is none of it.
    """
    found, digest = [], Digest()
    frame: Optional[types.FrameType] = sys._getframe(1)
    while frame is not None and frame.f_code.co_filename != COMMAND:
        name = frame.f_code.co_filename
        if name.startswith(YOKE) and not name.startswith(TESTING):
            found.append(digest.frame(frame))
        frame = frame.f_back
    return '\n'.join(found)


# ---- one command ----


class Point(NamedTuple):
    """A place where something can go wrong: its number in the command, and what can."""

    number: int
    faults: Tuple[str, ...]


Schedule = Tuple[Tuple[int, str], ...]  # the numbers of points, rising, and the fault at each


class Run:
    """A command that runs from a state, with faults at some of its points."""

    def __init__(self, walk: 'Walk', state: State, schedule: Schedule, left: int):
        self.walk, self.state, self.schedule, self.left = walk, state, dict(schedule), left
        self.last = max(self.schedule, default=0)
        self.count = 0
        self.points: List[Point] = []
        self.server = thawed(state.server)
        self.files: Optional[
            str
        ] = None  # a digest of the files of the day, and one of the server, while they are the same
        self.data: Optional[str] = None

    def point(self, kind: str, faults: Sequence[str]) -> str:
        """Counts a point; gives the fault that comes there, or an empty text. Seen where the walk
        was here before.
        """
        self.count += 1
        fault = self.schedule.get(self.count, '')
        if fault == STOP:
            raise Stopped()
        if self.count > self.last and not fault:
            self.walk.arrive(self.key(kind), self.left)
            self.points.append(Point(self.count, (STOP, *faults)))
        return fault

    def key(self, kind: str) -> bytes:
        """A state in the middle of a command."""
        if self.files is None:
            self.files = repr(self.walk.files())
        if self.data is None:
            self.data = server_digest(self.server)
        text = '\n'.join([kind, repr(self.state.command), self.files, self.data, place()])
        return hashlib.sha256(text.encode('utf-8', 'surrogateescape')).digest()

    # ---- calls ----

    def call(
        self, method: str, address: str, headers: Mapping[str, str], body: Optional[bytes]
    ) -> transport.Response:
        """What the server answers; NoAnswer where no answer comes."""
        path = address[len('http://127.0.0.1:1') :]
        operation = route_of(method, path.partition('?')[0])[0].operation
        fault = self.point('call ' + method + path, FAULTS.get(operation, FAULTS_OF_LOOKS))
        self._prepare(fault, operation)
        met, answer = self.server.answer(method, path, headers, body or b'')
        if method != 'GET' or fault or self.server._late:
            self.data = None
        if met in HUNG_UP or met.startswith('late-'):
            raise NoAnswer('no answer from the server: the connection was closed')
        return transport.Response(answer.status, dict(answer.headers), answer.body)

    def _prepare(self, fault: str, operation: str) -> None:
        """Lets a fault come with the next request."""
        plan = self.walk.plan
        if not fault:
            return
        if fault == 'closed':
            self.server.close_idle()
        elif fault.startswith('stranger'):
            with contextlib.suppress(Refusal):  # a stranger is refused too
                self._stranger(fault, plan)
        else:
            self.server.faults.once(fault, operation)

    def _stranger(self, fault: str, plan: Plan) -> None:
        if fault == 'stranger changes':
            element = self.server.database.current(plan.changes)
            assert element is not None
            self.server.edit(
                'modify', plan.changes, tags={**element.tags, 'theirs': str(element.version)}
            )
        elif fault == 'stranger deletes':
            self.server.edit('delete', plan.deletes)
        else:
            self.server.edit(
                'create',
                'r-1',
                members=[('relation', int(plan.uses[1:]), '')],
                tags={'type': 'network'},
            )

    # ---- files ----

    def write(self, act: Any, kind: str) -> Any:
        """An act on the disk with a point before it."""

        def stepped(*given: Any, **named: Any) -> Any:
            names = [
                os.path.abspath(os.fspath(one))
                for one in given
                if isinstance(one, (str, os.PathLike))
            ]
            if any(os.path.dirname(name) == str(self.walk.day) for name in names):
                self.point(' '.join([kind, *map(os.path.basename, names)]), ())
                self.files = None
            return act(*given, **named)

        return stepped

    def go(self) -> Tuple[Optional[int], str]:
        """Runs the command; gives its exit code, None where it was stopped, and what it wrote."""
        self.walk.put(self.state.files)
        written = io.StringIO()
        with contextlib.ExitStack() as patches:
            for patch in (
                mock.patch('os.replace', self.write(os.replace, 'write')),
                mock.patch('os.rename', self.write(os.rename, 'rename')),
                mock.patch.object(
                    pathlib.Path, 'unlink', self.write(pathlib.Path.unlink, 'remove')
                ),
                direct(self),
            ):
                patches.enter_context(patch)
            patches.enter_context(contextlib.redirect_stdout(written))
            patches.enter_context(contextlib.redirect_stderr(written))
            try:
                return command.main(list(self.state.command)), written.getvalue()
            except Stopped:
                return None, written.getvalue()


def direct(run: Run) -> Any:
    """A patch by which each transport calls the strict server of a run, without a socket."""
    return mock.patch.object(
        transport.Transport,
        'call',
        lambda _, method, address, headers, body=None: run.call(method, address, headers, body),
    )


# ---- the walk ----


@dataclasses.dataclass
class Counts:
    """What was walked: states that were seen, runs of commands (each takes one transition and all
    that follow it), commands that came to an end, and the ends of the walk.
    """

    states: int = 0
    runs: int = 0
    commands: int = 0
    ends: int = 0


class Walk:
    """A walk over a plan, in a folder of its own."""

    def __init__(self, plan: Plan, folder: pathlib.Path):
        self.plan, self.folder, self.day = plan, folder.resolve(), folder.resolve() / 'day'
        self.seen: Dict[bytes, int] = {}
        self.counts = Counts()
        self.send = ('send', '--day', 'day', '-m', 'x', '--api', ADDRESS, *plan.words)

    # ---- files ----

    def files(self) -> Tuple[Tuple[str, bytes], ...]:
        """The files of the day, but for the lock and for what is half written."""
        found = sorted(
            path
            for path in self.day.iterdir()
            if path.name != 'lock' and not path.name.endswith('.new')
        )
        return tuple((path.name, path.read_bytes()) for path in found)

    def put(self, files: Tuple[Tuple[str, bytes], ...]) -> None:
        """Lets the day have these files."""
        for path in self.day.iterdir():
            path.unlink()
        for name, data in files:
            (self.day / name).write_bytes(data)

    # ---- states ----

    def arrive(self, key: bytes, left: int) -> None:
        """Notes a state; Seen where the walk was there, with as many faults left."""
        if self.seen.get(key, -1) >= left:
            raise Seen()
        self.seen[key] = left
        self.counts.states += 1

    def begin(self) -> State:
        """The state before the first send."""
        (self.folder / 'town.opl').write_text(TOWN, encoding='utf-8')
        (self.folder / 'edits.script').write_text(
            '\n'.join(self.plan.lines) + '\n', encoding='utf-8'
        )
        self.day.mkdir()
        for words in (
            ['start', '--day', 'day', 'town.opl'],
            ['do', '--day', 'day', 'edits.script'],
        ):
            with contextlib.redirect_stdout(io.StringIO()):
                if command.main(words) != DONE:
                    raise Finding(f'the plan is refused: {words}')
        server = StrictServer(
            lines_of_opl(TOWN.splitlines()),
            limits=Limits(changeset_elements=self.plan.elements),
            first_id=1000,
        )
        server.database.clock = noon
        return State(self.files(), frozen(server), self.send)

    def run(self, faults: int) -> Counts:
        """Walks with so many faults at most; Finding where something isn't as it must be."""
        todo: List[Tuple[State, Schedule, int, Tuple[str, ...]]] = [(self.begin(), (), faults, ())]
        while todo:
            state, schedule, left, trail = todo.pop()
            run = Run(self, state, schedule, left - len(schedule))
            self.counts.runs += 1
            try:
                code, written = run.go()
            except Seen:
                code, written = -1, ''
            told = trail + (
                ' '.join(state.command[:1] + state.command[7:])
                + ''.join(f'; at {number} {fault}' for number, fault in schedule),
            )
            if run.left:
                todo += [
                    (state, schedule + ((point.number, fault),), left, trail)
                    for point in run.points
                    for fault in point.faults
                ]
            if code == -1:
                continue
            self.counts.commands += 1
            try:
                following = self.ended(run, code, written)
            except Finding as finding:
                raise Finding('{}\n  {}\n{}'.format(finding, '\n  '.join(told), written)) from None
            if len(told) > MOST_COMMANDS:
                raise Finding('no end after\n  ' + '\n  '.join(told))
            after = State(self.files(), frozen(run.server), following)
            if following:
                key = hashlib.sha256(
                    repr((after.files, server_digest(run.server), following)).encode()
                ).digest()
                if self.seen.get(key, -1) < run.left:
                    self.seen[key] = run.left
                    self.counts.states += 1
                    todo.append((after, (), run.left, told))
            else:
                self.counts.ends += 1
        return self.counts

    # ---- what has to be true ----

    def ended(self, run: Run, code: Optional[int], written: str) -> Tuple[str, ...]:
        """Looks at the end of a command, and gives the next one; none where all is sent."""
        session = self.session()
        self.check(run.server, session)
        verb = self.state_verb(run)
        if code is None or code in (NO_ANSWER, SERVER_REFUSED, LATER):
            return run.state.command if code is None or verb == 'send' else self.send
        if verb == 'resolve' and code == REFUSED:
            return self.send  # a stop came after it was kept
        if code == CLASH:
            conflicts = sorted(key for key, known in session.items() if known.conflict != 'none')
            if conflicts and (verb != 'send' or 'in conflict' in written):
                how = 'theirs' if session[conflicts[0]].conflict == 'withdrawn' else 'mine'
                return 'resolve', '--day', 'day', conflicts[0], how
            named = re.findall('yoke refresh((?: [nwr][0-9]+)+)', written)
            return (
                'refresh',
                '--day',
                'day',
                '--api',
                ADDRESS,
                *(named[-1].split() if named else ()),
            )
        if code != DONE:
            raise Finding(f'{verb} ends with {code}')
        if verb != 'send':
            return self.send
        return self.done(run, session)

    @staticmethod
    def state_verb(run: Run) -> str:
        """The verb that was run."""
        return run.state.command[0]

    def done(self, run: Run, session: Dict[str, saved.Known]) -> Tuple[str, ...]:
        """Looks at what a send leaves that is done; where it was one of a part, all is sent after
        that.
        """
        if (self.day / 'held').exists() or (self.day / 'changeset').exists():
            raise Finding('a send is done, and something is held back, or a changeset open')
        conflicts = sorted(key for key, known in session.items() if known.conflict != 'none')
        if conflicts:
            return (
                'resolve',
                '--day',
                'day',
                conflicts[0],
                'theirs' if session[conflicts[0]].conflict == 'withdrawn' else 'mine',
            )
        left = [key for key, known in session.items() if known.edit]
        if left and '--only' in run.state.command:
            return tuple(word for word in self.send if word not in ('--only', self.plan.words[1]))
        if left:
            raise Finding(f'a send is done, and {left} are left')
        missing = [mark for mark in self.plan.marks if self.landed(run.server, mark) != 1]
        if missing:
            raise Finding(f'all is sent, and {missing} never came to the server')
        if run.server._late:
            return ()
        for changeset in run.server.database.changesets.values():
            if changeset.user == MAPPER and changeset.changes and changeset.closed_at is None:
                raise Finding(f'the changeset {changeset.number} is left open')
        return ()

    def session(self) -> Dict[str, saved.Known]:
        """What the last session has, with what is held back."""
        sessions = {
            int(name.split('-')[0]): data for name, data in self.files() if name.endswith('.saved')
        }
        last = max(sessions)
        found = saved.read(sessions[last].decode())
        held = dict(self.files()).get('held')
        if held is not None:
            words = json.loads(held)
            if words['of'] != last:
                whole = saved.read(sessions[words['of']].decode())
                found.update((key, whole[key]) for key in words['keys'])
        return found

    def landed(self, server: StrictServer, mark: str) -> int:
        """How often an edit came to the server, by its mark: a new object, or one that didn't have
        the mark before.
        """
        count = 0
        for change in server.database.history:
            element = change.element
            if change.user == MAPPER.name and element.tags.get('mark') == mark:
                before = [
                    one
                    for one in server.database.versions[element.key]
                    if one.version == element.version - 1
                ]
                count += not before or before[0].tags.get('mark') != mark
        return count

    def check(self, server: StrictServer, session: Dict[str, saved.Known]) -> None:
        """Each edit is at the server once, or still here."""
        here = {
            known.mine.tags.get('mark')
            for known in session.values()
            if known.mine is not None and (known.edit or known.conflict != 'none')
        }
        for mark in self.plan.marks:
            landed = self.landed(server, mark)
            if landed > 1:
                raise Finding(f'the edit {mark} is at the server {landed} times')
            if not landed and mark not in here:
                raise Finding(f'the edit {mark} is lost')
        for key in self.plan.deleted:
            known, element = session.get(key), server.database.current(key)
            gone = element is not None and not element.visible
            is_used = bool(
                server.database.users_of.get(key)
            )  # a stranger uses it, and a user may have chosen so
            if (
                not gone
                and not is_used
                and (known is None or known.edit != 'deleted' and known.conflict == 'none')
            ):
                raise Finding(f'the deletion of {key} is lost')


@contextlib.contextmanager
def quiet(program: Program) -> Iterator[pathlib.Path]:
    """A folder in memory, without waits, and without waiting for the disk. It is always noon: two
    states that differ by the time in a log would count as two.
    """
    memory = '/dev/shm' if os.access('/dev/shm', os.W_OK) else None
    before, parser = os.getcwd(), command.parser()
    with tempfile.TemporaryDirectory(prefix='yoke-explore-', dir=memory) as folder, mock.patch(
        'yoke.command.parser', lambda: parser
    ), mock.patch('yoke.api.pause', lambda seconds: None), mock.patch(
        'os.fsync', lambda handle: None
    ), mock.patch(
        'yoke.program.Program.of', lambda arguments: program
    ), mock.patch.dict(
        os.environ, {'YOKE_TOKEN': TOKEN}
    ), mock.patch(
        'time.gmtime', functools.partial(at_noon, time.gmtime)
    ):
        os.chdir(folder)
        try:
            yield pathlib.Path(folder)
        finally:
            os.chdir(before)


def walk(name: str, faults: int, program: Program) -> Counts:
    """Walks over a plan with so many faults at most."""
    with quiet(program) as folder:
        return Walk(PLANS[name], folder).run(faults)


def main() -> None:
    from yoke.tests import support

    words = argparse.ArgumentParser(
        description=__doc__, formatter_class=argparse.RawDescriptionHelpFormatter
    )
    words.add_argument('--faults', type=int, default=2, help='how many at most (%(default)s)')
    words.add_argument(
        '--plan', choices=sorted(PLANS), action='append', help='one of the plans; all if not said'
    )
    said = words.parse_args()
    for name in said.plan or PLANS:
        began = time.monotonic()
        try:
            counts = walk(name, said.faults, support.program())
        except Finding as finding:
            sys.exit(f'{name}: {finding}')
        print(
            f'{name}, {said.faults} faults at most: {counts.states} states, {counts.runs} transitions, {counts.commands} commands, '
            f'{counts.ends} ends, {time.monotonic() - began:.0f} s',
            flush=True,
        )


if __name__ == '__main__':
    main()
