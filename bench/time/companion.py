"""What `yoke` adds to the program `editor` over a large town: time and peak memory, each beside the
program by itself.

    python3 -m bench.time.companion [--rounds N] [--size N] [--changes N] [--program P]

A day begins with a town of SIZE objects (500,000 if not said). Each verb is run N times, the
program over the same steps right after it, all in turn; the table has the medians. CPU seconds and
peak memory are those of the verb with all that it starts. The server is the strict one on loopback,
in a process of its own whose time isn't counted; it has the nodes that are sent. It is tested that
`yoke do` keeps what the program saves byte for byte, and that each change is sent.
"""
from __future__ import annotations

import argparse
import contextlib
import os
import pathlib
import shutil
import statistics
import subprocess
import sys
import tempfile
import time
from collections.abc import Iterator
from dataclasses import dataclass, field

from bench.time.timed import EDITOR, TOP, same, show, write_town
from yoke.program import LARGEST_FILE
from yoke.testing.server import TOKEN

KEY = 'n1'  # the object that gets one tag, and that is shown
EVERY = 44  # of so many nodes one is changed


@dataclass
class Timed:
    """A command with what its runs took: CPU seconds, seconds by the clock, peak MB."""

    words: list[str]
    out: str = 'out'
    environment: dict[str, str] = field(default_factory=dict)
    processor: list[float] = field(default_factory=list)
    clock: list[float] = field(default_factory=list)
    megabytes: list[float] = field(default_factory=list)

    def run(self, folder: pathlib.Path) -> None:
        """Runs it once; ends this program where it ends otherwise than with 0."""
        began = time.monotonic()
        with open(folder / self.out, 'wb') as target:
            child = subprocess.Popen(
                self.words, cwd=folder, stdout=target, env={**os.environ, **self.environment}
            )
            _, status, usage = os.wait4(child.pid, 0)
        if status != 0:
            sys.exit(f'{" ".join(self.words)[:200]}: status {os.waitstatus_to_exitcode(status)}')
        self.clock.append(time.monotonic() - began)
        self.processor.append(usage.ru_utime + usage.ru_stime)
        self.megabytes.append(usage.ru_maxrss / 1024)


class Trial:
    """The commands over a town in a folder."""

    def __init__(self, folder: pathlib.Path, said: argparse.Namespace) -> None:
        self.folder, self.said = folder, said
        self.changes = self._write_changes()
        (folder / 'one.script').write_text(f'tag {KEY} Tref=7\n', encoding='utf-8')

    def _write_changes(self) -> int:
        """Writes a script that changes nodes, and a file of these nodes for the server; answers
        with how many they are.
        """
        count = 0
        with open(self.folder / 'map.opl', encoding='utf-8') as town, open(
            self.folder / 'many.script', 'w', encoding='utf-8'
        ) as script, open(self.folder / 'server.opl', 'w', encoding='utf-8') as served:
            for number, line in enumerate(town):
                if number % EVERY == 0 and line[0] == 'n' and count < self.said.changes:
                    script.write(f'tag {line.split(" ", 1)[0]} Tchecked=yes\n')
                    served.write(line)
                    count += 1
        return count

    def yoke(self, *words: str, out: str = 'out') -> Timed:
        """A verb."""
        return Timed(
            [sys.executable, '-m', 'yoke', *words],
            out,
            {
                'PYTHONPATH': str(TOP),
                'YOKE_EDITOR': self.said.program,
                'YOKE_TOKEN': TOKEN,
                'no_proxy': '127.0.0.1',
            },
        )

    def editor(self, name: str, *steps: str) -> Timed:
        """The program over these steps."""
        (self.folder / name).write_text(''.join(step + '\n' for step in steps), encoding='utf-8')
        return Timed([self.said.program, f'--max-file={LARGEST_FILE}', name], name + '.out')

    def day(self, name: str) -> None:
        """Lets the day be the one that was put aside under a name."""
        shutil.rmtree(self.folder / 'day', ignore_errors=True)
        shutil.copytree(self.folder / name, self.folder / 'day')

    def measure(self) -> list[tuple[str, Timed, Timed | None]]:
        """Each verb with what it takes, and the program beside it."""
        first = 'resume first/000001-start.saved'
        start, started = self.yoke('start', 'map.opl'), self.editor(
            'started', 'download map.opl', 'count', 'save'
        )
        one, ones = self.yoke('do', 'one.script'), self.editor(
            'ones', first, f'tag {KEY} Tref=7', 'save'
        )
        many = self.yoke('do', 'many.script')
        manies = self.editor(
            'manies',
            first,
            *(self.folder / 'many.script').read_text(encoding='utf-8').splitlines(),
            'save',
        )
        look = self.yoke('show', KEY)
        send = self.yoke('send', '--api', '', '-m', 'a trial', '--chunk', '10000')
        sent = self.editor(
            'sent', 'resume second/000002-do.saved', f'upload {self.changes}', 'save'
        )
        for _ in range(self.said.rounds):
            shutil.rmtree(self.folder / 'day', ignore_errors=True)
            start.run(self.folder)
            started.run(self.folder)
            self.day_aside('first')
            one.run(self.folder)
            ones.run(self.folder)
            self.check_saved('ones.out')
            look.run(self.folder)
            self.day('first')
            many.run(self.folder)
            manies.run(self.folder)
            self.day_aside('second')
            with self.served() as address:
                send.words[send.words.index('--api') + 1] = address
                send.run(self.folder)
            sent.run(self.folder)
            if f'{self.changes} changes sent' not in (self.folder / 'out').read_text(
                encoding='utf-8'
            ):
                sys.exit('not each change was sent')
        return [
            ('`start`', start, started),
            ('`do` of one tag', one, ones),
            (f'`do` of {self.changes:,} tags', many, manies),
            ('`show` of one object', look, None),
            (f'`send` of {self.changes:,} changes', send, sent),
        ]

    def day_aside(self, name: str) -> None:
        """Puts a copy of the day aside."""
        shutil.rmtree(self.folder / name, ignore_errors=True)
        shutil.copytree(self.folder / 'day', self.folder / name)

    def check_saved(self, output: str) -> None:
        """Ends this program where the session that was kept isn't the one that the program saved."""
        with open(self.folder / output, 'rb') as whole, open(self.folder / 'saved', 'wb') as saved:
            for line in whole:
                if line.startswith(b'session 1 '):
                    saved.write(line)
                    break
            shutil.copyfileobj(whole, saved)
        same(
            self.folder / 'saved',
            self.folder / 'day' / '000002-do.saved',
            'yoke do keeps something else than the program saves',
        )

    @contextlib.contextmanager
    def served(self) -> Iterator[str]:
        """The address of a server that has the nodes."""
        words = [sys.executable, '-m', 'yoke.testing.server', str(self.folder / 'server.opl')]
        with subprocess.Popen(words, cwd=TOP, stdout=subprocess.PIPE, text=True) as server:
            assert server.stdout is not None
            try:
                yield server.stdout.readline().strip()
            finally:
                server.terminate()


def cells(name: str, ours: Timed, theirs: Timed | None) -> list[str]:
    """A row of the table."""
    row = [name]
    for form, mine, beside in (
        ('{:.2f}', ours.processor, theirs.processor if theirs else []),
        ('{:.0f}', ours.megabytes, theirs.megabytes if theirs else []),
    ):
        middle = statistics.median(mine)
        row += [form.format(middle)]
        row += (
            [
                form.format(statistics.median(beside)),
                f'{middle / statistics.median(beside):.2f}',
            ]
            if beside
            else ['', '']
        )
    return [*row, f'{statistics.median(ours.clock):.2f}']


def main() -> None:
    parser = argparse.ArgumentParser(
        description=__doc__, formatter_class=argparse.RawDescriptionHelpFormatter
    )
    parser.add_argument('--rounds', type=int, default=3)
    parser.add_argument(
        '--size', type=int, default=500_000, help='objects of the town (%(default)s)'
    )
    parser.add_argument(
        '--changes', type=int, default=10_000, help='changes that are sent (%(default)s)'
    )
    parser.add_argument(
        '--program', default=str(EDITOR), type=lambda word: str(pathlib.Path(word).resolve())
    )
    said = parser.parse_args()
    loads = [os.getloadavg()[0]]
    with tempfile.TemporaryDirectory(prefix='yoke-companion-') as name:
        folder = pathlib.Path(name)
        write_town(folder / 'map.opl', said.size)
        found = Trial(folder, said).measure()
    loads.append(os.getloadavg()[0])
    show(
        [
            f'{said.size:,} objects',
            'CPU seconds',
            'of editor',
            'ratio',
            'peak MB',
            'of editor',
            'ratio',
            'seconds',
        ],
        [cells(*row) for row in found],
    )
    print(
        f'{os.cpu_count()} processors, load {loads[0]:.1f} to {loads[1]:.1f}, medians of {said.rounds} rounds'
    )


if __name__ == '__main__':
    main()
