"""Runs `yoke` many times, each time in a process of its own, which may die by SIGKILL at any line.

    with Runner('/folder/with/the/package') as runner:
        run = runner.start(['status'], cwd='/a/day', environment={}, output='/a/day/out', line=0)
        code = runner.wait(run, seconds=60)

A process of Python with `yoke` in it stands by and forks for each run, so that none has to start
anew. `line` is the number of the line before which it is killed, counted where a day is kept and a
server is asked: in `sending.py`, `parts.py`, `day.py`, `session.py`, `api.py` and the verbs; with 0
it isn't. Waiting for a server takes no time.
"""
import json
import os
import pathlib
import select
import signal
import subprocess
import sys
import time
import traceback
from typing import Dict, List

MODULES = ('sending.py', 'parts.py', 'day.py', 'session.py', 'api.py')


class Runner:
    """A process that stands by with `yoke` of a folder."""

    def __init__(self, folder: str):
        self.folder = os.path.abspath(folder)

    def __enter__(self) -> 'Runner':
        self._stands_by = subprocess.Popen(
            [sys.executable, '-B', os.path.abspath(__file__), self.folder],
            stdin=subprocess.PIPE,
            stdout=subprocess.PIPE,
            bufsize=0,
        )  # what is read ahead isn't seen by select
        return self

    def __exit__(self, *why) -> None:
        self._stands_by.stdin.close()
        self._stands_by.wait()
        self._stands_by.stdout.close()

    def start(
        self, words: List[str], cwd: str, environment: Dict[str, str], output: str, line: int = 0
    ) -> int:
        """Starts a run with words, in a folder, with more environment, and with a file for what it
        writes; gives its process.
        """
        asked = {
            'words': words,
            'cwd': str(cwd),
            'environment': environment,
            'output': str(output),
            'line': line,
        }
        self._stands_by.stdin.write(json.dumps(asked).encode() + b'\n')
        return self._told('started')[0]

    def wait(self, process: int, seconds: float) -> int:
        """Waits for the end of the run, and kills it after so many seconds (TimeoutError); gives
        its exit code, or minus the signal.
        """
        in_time = bool(select.select([self._stands_by.stdout], [], [], seconds)[0])
        if not in_time:
            os.kill(process, signal.SIGKILL)
        ended, code = self._told('ended')
        if not in_time:
            raise TimeoutError(f'killed after {seconds} s')
        if ended != process:
            raise RuntimeError(f'{ended} ended, and not {process}')
        return code

    def _told(self, what: str) -> List[int]:
        """The numbers of the next line that says that a run started or ended; one that says
        something else is of a run that nobody waited for.
        """
        while True:
            word, *numbers = self._stands_by.stdout.readline().split()
            if word.decode() == what:
                return [int(number) for number in numbers]


def kill_at(line: int, folder: str) -> None:
    """Lets this process die before it runs so many lines of the modules."""
    left = line

    def count(frame, event, _):
        nonlocal left
        if event == 'line':
            left -= 1
            if left <= 0:
                os.kill(os.getpid(), signal.SIGKILL)
        return count

    def enter(frame, event, _):
        path = frame.f_code.co_filename
        is_counted = path.startswith(folder) and (
            os.path.basename(path) in MODULES or os.path.basename(os.path.dirname(path)) == 'verbs'
        )
        return count if is_counted else None

    sys.settrace(enter)


def run(asked: dict, folder: str) -> int:
    """A run, in the process that was forked for it; gives its exit code."""
    from yoke.command import main as yoke  # which is there already

    with open(os.devnull) as nothing, open(asked['output'], 'wb') as output:
        os.dup2(nothing.fileno(), 0)
        os.dup2(output.fileno(), 1)
        os.dup2(output.fileno(), 2)
    sys.stdout = open(1, 'w', encoding='utf-8', closefd=False)
    sys.stderr = open(2, 'w', encoding='utf-8', buffering=1, closefd=False)
    os.chdir(asked['cwd'])
    os.environ.update(asked['environment'])
    try:
        if asked['line'] > 0:
            kill_at(asked['line'], str(pathlib.Path(folder) / 'yoke'))
        code = yoke(asked['words'])
    except SystemExit as ended:
        code = ended.code if isinstance(ended.code, int) else 1
    except BaseException:
        traceback.print_exc()
        code = 1
    sys.settrace(None)
    sys.stdout.flush()
    return code or 0


def stand_by(folder: str) -> None:
    """Forks for each line of standard input, and writes the process and then how it ended; ends
    where nobody reads that any more.
    """
    sys.path[0] = folder
    time.sleep = lambda seconds: None
    from yoke import command

    command.parser()  # takes in all verbs
    for line in sys.stdin:
        process = os.fork()
        if process == 0:
            code = 1
            try:
                code = run(json.loads(line), folder)
            finally:
                os._exit(code)
        try:
            print('started', process, flush=True)
            status = os.waitpid(process, 0)[1]
            print(
                'ended',
                process,
                -os.WTERMSIG(status) if os.WIFSIGNALED(status) else os.WEXITSTATUS(status),
                flush=True,
            )
        except BrokenPipeError:
            os._exit(0)  # without another try to write it


if __name__ == '__main__':
    stand_by(os.path.abspath(sys.argv[1]))
