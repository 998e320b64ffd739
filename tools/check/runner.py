"""Runs steps side by side, says how each ended, and counts."""
from __future__ import annotations

import os
import signal
import subprocess
import sys
import tempfile
import time
from collections.abc import Iterable
from dataclasses import dataclass
from typing import IO

from tools.check import needs
from tools.check.needs import TOP
from tools.check.steps import BUILD, PROGRAM, PYTHON, Step

EACH_LOOK = 0.05
# Of what a failed step wrote: the last lines, and the most letters of each.
LINES, WIDTH = 25, 300


@dataclass
class Running:
    """A step that runs."""

    step: Step
    process: subprocess.Popen[bytes]
    log: IO[bytes]
    begun: float

    def text(self) -> str:
        """What it wrote so far."""
        self.log.seek(0)
        return self.log.read().decode('utf-8', 'replace')


@dataclass
class Counts:
    """How many steps ended how."""

    passed: int = 0
    failed: int = 0
    skipped: int = 0

    def line(self) -> str:
        """The last line of a run."""
        return f'{self.passed} passed, {self.failed} failed, {self.skipped} skipped'


class Runner:
    """Runs some steps, at most so many at a time."""

    def __init__(self, steps: Iterable[Step], at_once: int, out: IO[str] = sys.stdout) -> None:
        self.waiting, self.at_once, self.out = list(steps), at_once, out
        self.running: list[Running] = []
        self.counts = Counts()
        self.program = ''
        self.builds = any(it.name == BUILD for it in self.waiting)

    def run(self) -> Counts:
        """Runs all of them."""
        try:
            while self.waiting or self.running:
                while len(self.running) < self.at_once and self.begin_next():
                    pass
                time.sleep(EACH_LOOK)
                for it in [it for it in self.running if self.has_ended(it)]:
                    self.running.remove(it)
                    self.end(it)
        finally:
            for it in self.running:
                stop(it.process)
        return self.counts

    def begin_next(self) -> bool:
        """Begins the next step that may begin, or skips one; whether there was one."""
        for step in self.waiting:
            if step.wants_program and self.builds:
                continue
            self.waiting.remove(step)
            why = next(filter(None, map(needs.lacks, step.needs)), '')
            if not why and step.wants_program and not self.program:
                why = f'it needs the program, and the step "{BUILD}" made none'
            if why:
                self.skip(step, why)
            else:
                self.begin(step)
            return True
        return False

    def skip(self, step: Step, why: str) -> None:
        """Says why a step isn't done."""
        self.counts.skipped += 1
        self.say(f'skipped {step.name}: {why}')
        if step.name == BUILD:
            self.builds = False

    def begin(self, step: Step) -> None:
        """Begins a step."""
        places = {PROGRAM: self.program, PYTHON: needs.python()}
        command = [places.get(it, it) for it in step.command]
        log = tempfile.TemporaryFile()
        environment = {**os.environ, 'PYTHONDONTWRITEBYTECODE': '1', **step.environment}
        environment = {
            name: value
            for name, value in environment.items()
            if value or name not in step.environment
        }
        process = subprocess.Popen(
            command,
            cwd=TOP / step.folder,
            stdin=subprocess.DEVNULL,
            stdout=log,
            stderr=subprocess.STDOUT,
            env=environment,
            start_new_session=True,
        )
        self.running.append(Running(step, process, log, time.monotonic()))

    def has_ended(self, it: Running) -> bool:
        """Whether a step ended; one that takes too long is stopped."""
        if it.process.poll() is None and time.monotonic() - it.begun > it.step.limit:
            stop(it.process)
        return it.process.returncode is not None

    def end(self, it: Running) -> None:
        """Says how a step ended."""
        seconds, text = time.monotonic() - it.begun, it.text()
        it.log.close()
        passed = it.process.returncode == 0
        if it.step.name == BUILD:
            self.builds = False
            if passed:
                self.program = text.splitlines()[-1]
        if passed:
            self.counts.passed += 1
            self.say(f'ok      {it.step.name} ({seconds:.1f} s)')
            return
        self.counts.failed += 1
        why = (
            f'stopped after {seconds:.0f} s'
            if it.process.returncode < 0
            else f'status {it.process.returncode}'
        )
        self.say(f'FAILED  {it.step.name} ({why}, {seconds:.1f} s)')
        for line in text.splitlines()[-LINES:]:
            self.say('    ' + line[:WIDTH])

    def say(self, text: str) -> None:
        """Writes a line."""
        print(text, file=self.out, flush=True)


def stop(process: subprocess.Popen[bytes]) -> None:
    """Ends a step and all that it started."""
    try:
        os.killpg(process.pid, signal.SIGKILL)
    except ProcessLookupError:
        pass
    process.wait()
