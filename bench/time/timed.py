"""Commands timed on one core: CPU seconds and peak memory of each run, by what the system tells of
the process when it ends.

The peak that the system tells of a command is at least what its parent had, some 14 MB of a program
in Python that holds no file in memory: so the programs that use this hold none.
"""
import argparse
import filecmp
import os
import pathlib
import re
import shutil
import statistics
import subprocess
import sys

TOP = pathlib.Path(__file__).resolve().parents[2]
EDITOR = TOP / 'crates' / 'editor' / 'out' / 'editor'
TOWN = TOP / 'bench' / 'model' / 'town'
TAIL = 2000  # so many bytes of an output are looked at for its end


class Command:
    """A command with the CPU seconds of its runs, and the least peak MB that one took."""

    def __init__(self, words, out='out', ends=b'', statuses=(0,), is_session=False):
        """`out`: the file of its output; `ends`: how this has to end; of a session no step may be
        refused, unless it ends so.
        """
        self.words, self.out, self.ends, self.statuses, self.is_session = (
            [str(word) for word in words],
            out,
            ends,
            statuses,
            is_session,
        )
        self.runs, self.megabytes = [], float('inf')

    def run(self, folder, core):
        """Runs it once, and ends this program where it ends or writes otherwise than it has to."""
        with open(folder / self.out, 'wb') as target:
            child = subprocess.Popen(
                ['taskset', '-c', core] + self.words,
                cwd=folder,
                stdout=target,
                stderr=subprocess.DEVNULL,
            )
            _, status, usage = os.wait4(child.pid, 0)
        status = os.waitstatus_to_exitcode(status)
        if status not in self.statuses:
            sys.exit('{}: status {}'.format(' '.join(self.words)[:200], status))
        self.look(folder)
        self.runs.append(usage.ru_utime + usage.ru_stime)
        self.megabytes = min(self.megabytes, usage.ru_maxrss / 1024)

    def look(self, folder):
        """Tests what it wrote."""
        tail = end_of(folder / self.out)
        if not tail.endswith(self.ends):
            sys.exit('{} ends with {!r}'.format(' '.join(self.words)[:200], tail[-300:]))
        if (
            self.is_session
            and not self.ends
            and subprocess.run(
                ['grep', '-qE', '^[0-9]+ (refused|skipped)', self.out], cwd=folder
            ).returncode
            == 0
        ):
            sys.exit('{}: a step was refused'.format(' '.join(self.words)[:200]))

    @property
    def seconds(self):
        """The least of the runs."""
        return min(self.runs)

    @property
    def median(self):
        """The median of the runs, which a moment in which the host is faster doesn't move."""
        return statistics.median(self.runs)

    def instructions(self, folder):
        """How many instructions one run takes, by valgrind's callgrind."""
        said = subprocess.run(
            ['valgrind', '--tool=callgrind', '--callgrind-out-file=/dev/null'] + self.words,
            cwd=folder,
            stdout=subprocess.DEVNULL,
            stderr=subprocess.PIPE,
            text=True,
            check=True,
        ).stderr
        found = re.search(r'Collected : (\d+)', said)
        if not found:
            sys.exit(f'callgrind counts no instructions of {self.words[0]}')
        return int(found[1])


def end_of(path):
    """The last bytes of a file."""
    if not path.is_file():
        return b''
    with open(path, 'rb') as said:
        said.seek(max(0, path.stat().st_size - TAIL))
        return said.read()


def session(folder, name, steps, program=EDITOR, out=None, ends=b'', options=()):
    """A session of these steps, whose script is the file of this name; the program has these
    options.
    """
    with open(folder / name, 'w', encoding='utf-8') as script:
        script.writelines(step + '\n' for step in steps)
    return Command([program, *options, name], out or name + '.out', ends, is_session=True)


def in_turn(commands, folder, said):
    """Runs all commands in turn, so many rounds long."""
    for _ in range(said.rounds):
        for command in commands:
            command.run(folder, said.core)


def counted(nodes=0, ways=0, relations=0, deleted=0, changed=0, conflicts=0):
    """The line that `count` writes of so many objects."""
    return 'count nodes {} ways {} relations {} incomplete 0 deleted {} changed {} conflicts {}\n'.format(
        nodes, ways, relations, deleted, changed, conflicts
    ).encode()


def write_town(path, size):
    """Writes a town of so many objects."""
    with open(path, 'wb') as target:
        subprocess.run([TOWN, str(size)], stdout=target, check=True)


def join(target, head, source):
    """Writes a file of these bytes and those of another file."""
    with open(target, 'wb') as out, open(source, 'rb') as text:
        out.write(head)
        shutil.copyfileobj(text, out)


def same(one, other, what):
    """Ends this program where two files differ."""
    if not filecmp.cmp(one, other, shallow=False):
        sys.exit(what)


def words(doc, rounds=3):
    """The words that these programs take."""
    parser = argparse.ArgumentParser(
        description=doc, formatter_class=argparse.RawDescriptionHelpFormatter
    )
    parser.add_argument('--rounds', type=int, default=rounds)
    parser.add_argument('--core', default='0')
    parser.add_argument(
        '--program', default=str(EDITOR), type=lambda word: str(pathlib.Path(word).resolve())
    )
    return parser


def show(heads, rows):
    """Prints a table."""
    for cells in [heads, ['---'] * len(heads)] + rows:
        print('| ' + ' | '.join(cells) + ' |')
    print(flush=True)
