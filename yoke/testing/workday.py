"""A working day at the strict server: `yoke` run as a user runs it, its commands counted, each held
against the ledger.

    with Runner(folder_with_yoke) as runner, StrictServer(elements) as server:
        work = WorkDay(folder, server, program, runner)
        work.begin('area.opl')
        work.do('old.script', 'tag ( Tcreated_by=* ) Tcreated_by=')
        work.send('-m', 'no created_by')
        work.end()

`by_hand` counts the commands that sending the same takes without yoke, by a person who has
`editor`, `curl`, `osmium` and scripts that make documents and answer files.
"""
import pathlib
import subprocess
from typing import List

from yoke.testing.elements import of_opl, quoted
from yoke.testing.ledger import Failed, Ledger, Session, read_session
from yoke.testing.runner import Runner
from yoke.testing.server import TOKEN, StrictServer

SECONDS = 3600  # the longest that one command may take
TAKEN = 7  # commands by hand for a document: make it, send it, read the status, make the answers, two lines into the script, run it, look
NOT_TAKEN = 3  # make it, send it, read the status; then it is done again, or refused
LOOKED_UP = 1  # ask for what the changeset has, where no answer came
CHANGESET = 2  # open it, close it
NEWER = (
    4  # fetch what is newer, make OPL of it, a line into the script and run it, look for conflicts
)
CONFLICT = 2  # a line into the script and run it, look


def check_tenth(commands: List[str], by_hand: int) -> None:
    """Failed where there are more commands than a tenth of those by hand."""
    if len(commands) * 10 > by_hand:
        raise Failed(f'{len(commands)} commands are more than a tenth of {by_hand}')


class WorkDay:
    """A day in a folder: `commands` has the verbs that were run, `refreshes` and `resolved` how
    often what is newer came in, and a conflict was settled.
    """

    def __init__(
        self,
        folder: pathlib.Path,
        server: StrictServer,
        program: str,
        runner: Runner,
        name: str = 'day',
    ):
        self.folder, self.server, self.program, self.runner, self.name = (
            folder,
            server,
            program,
            runner,
            name,
        )
        self.ledger = Ledger(server)
        self.commands: List[str] = []
        self.refreshes = self.resolved = 0

    # ---- commands ----

    def run(self, verb: str, *words: str, codes=(0,)) -> str:
        """Runs a verb, counts it, and gives what it wrote; Failed where it ends with another code."""
        output = self.folder / 'output'
        process = self.runner.start(
            [verb, '--day', self.name, '--program', self.program, *words],
            str(self.folder),
            {'YOKE_TOKEN': TOKEN, 'TMPDIR': str(self.folder)},
            str(output),
        )
        code = self.runner.wait(process, SECONDS)
        written = output.read_text(encoding='utf-8', errors='replace')
        self.commands.append(verb)
        if code not in codes or 'Traceback (most recent call last)' in written:
            raise Failed(
                'yoke {} {} ends with {}: {}'.format(
                    verb, ' '.join(words), code, written.strip()[-2000:]
                )
            )
        return written

    def begin(self, extract: str) -> str:
        """`yoke start` over what the server has."""
        (self.folder / extract).write_text(self.server.opl(), encoding='utf-8')
        self.ledger.read = len(self.server.history)
        return self.run('start', extract)

    def edit(self, verb: str, *words: str, codes=(0,)) -> str:
        """A verb that edits the session, offline."""
        before = self.session()
        written = self.run(verb, *words, codes=codes)
        after = self.session()
        self.ledger.edited(before, after)
        self.ledger.kept(after)
        return written

    def do(self, name: str, *lines: str) -> str:
        """`yoke do` of a script."""
        (self.folder / name).write_text(''.join(line + '\n' for line in lines), encoding='utf-8')
        return self.edit('do', name)

    def send(self, *words: str, codes=(0,)) -> str:
        """`yoke send`, which may refresh: what the server took is held against the ledger, and what
        came is too.
        """
        written = self.run('send', '--api', self.server.api, *words, codes=codes)
        self.refreshes += written.count(' objects asked for, ')
        self.ledger.look()
        after = self.session()
        self.ledger.refreshed(after)
        self.ledger.kept(after)
        return written

    def resolve(self, keys: List[str], how: str) -> str:
        """`yoke resolve` of objects, all in one way."""
        before = self.session()
        written = self.run('resolve', ','.join(keys), how)
        after = self.session()
        self.ledger.resolved(keys, how, before, after)
        self.ledger.kept(after)
        self.resolved += len(keys)
        return written

    # ---- what is there ----

    def last(self) -> pathlib.Path:
        """The file of the last session that was kept."""
        return max(
            (self.folder / self.name).glob('*.saved'), key=lambda path: int(path.name.split('-')[0])
        )

    def session(self) -> Session:
        """What the last session has."""
        return read_session(self.last().read_text(encoding='utf-8'))

    def document(self) -> str:
        """The document that is on its way."""
        return max(
            (self.folder / self.name).glob('*.osc'), key=lambda path: int(path.name.split('.')[0])
        ).read_text(encoding='utf-8')

    # ---- the end ----

    def end(self) -> int:
        """Failed unless all is on the server, and the session has each object as the server has it;
        gives how many it has.
        """
        if self.ledger.wishes:
            raise Failed(
                'all is sent, and this isn\'t on the server: {}'.format(
                    list(self.ledger.wishes.items())[:5]
                )
            )
        if self.server.created_twice():
            raise Failed(f'made twice: {self.server.created_twice()[:3]}')
        script = self.folder / 'print'
        script.write_text(f'resume {quoted(str(self.last().resolve()))}\nprint\n', encoding='utf-8')
        done = subprocess.run(
            [self.program, '--max-file=1073741824', str(script)],
            cwd=self.folder,
            stdout=subprocess.PIPE,
            check=True,
        )
        printed = [
            of_opl(line)
            for line in done.stdout.decode('utf-8').splitlines()
            if line[:1] in ('n', 'w', 'r')
        ]
        self.ledger.compare(printed, may_be_older=True)
        return len(printed)

    def by_hand(self) -> int:
        """How many commands sending would have taken by hand: the documents, changesets, refreshes
        and conflicts, each by its recipe.
        """
        answers, faults = self.server.answers, [
            met.split(' ')[0] for met in self.server.faults.met if met.endswith(' upload')
        ]
        refused = sum(count for name, count in answers.items() if name.startswith('upload 4'))
        unsent = sum(fault.endswith('-before') for fault in faults)
        return (
            TAKEN * answers['upload 200']
            + NOT_TAKEN * (refused + unsent)
            + LOOKED_UP * len(faults)
            + CHANGESET * answers['create 200']
            + NEWER * self.refreshes
            + CONFLICT * self.resolved
        )
