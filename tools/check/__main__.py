"""The words of `./check`."""
from __future__ import annotations

import argparse
import signal
import subprocess
import sys
import time

from tools.check import needs, steps
from tools.check.needs import TOP
from tools.check.runner import Counts, Runner

TEXT = '''Runs every check of the repository: the proof gate (rt ci), then Python tests, session cases, page checks and linters.
A tool that is missing is skipped by name. The last line is "N passed, N failed, N skipped"; it ends with 1 where one failed.'''


def main() -> int:
    """Does what the words ask for: the status."""
    words = argparse.ArgumentParser(prog='./check', description=TEXT)
    which = words.add_mutually_exclusive_group()
    which.add_argument(
        '--quick',
        action='store_true',
        help='what needs no proof, in a few minutes; it says what it left out',
    )
    which.add_argument('--after-proof', action='store_true', help='everything but rt ci')
    words.add_argument('--list', action='store_true', help='lists the checks and runs none')
    words.add_argument(
        '--jobs', type=int, default=needs.processors(), metavar='N', help='checks at a time'
    )
    words.add_argument(
        'only', nargs='*', metavar='WORD', help='only checks whose names have one of these'
    )
    said = words.parse_args()
    every = [
        it
        for it in steps.all_steps()
        if not said.only or any(word in it.name for word in said.only)
    ]
    left = [it for it in every if said.quick and it.when != steps.QUICK]
    every = [it for it in every if it not in left]
    if (
        said.only
        and any(it.wants_program for it in every)
        and all(it.name != steps.BUILD for it in every)
    ):
        every.insert(0, next(it for it in steps.listed() if it.name == steps.BUILD))
    proves = not (said.quick or said.after_proof or said.only)
    if said.list:
        print('\n'.join([*[steps.PROOF] * proves, *(it.name for it in every)]))
        return 0
    return run(every, left, proves, said.quick, max(1, said.jobs))


def run(
    every: list[steps.Step], left: list[steps.Step], proves: bool, is_quick: bool, jobs: int
) -> int:
    """Runs the checks: the status."""
    begun = time.monotonic()
    for number in (signal.SIGTERM, signal.SIGHUP):
        signal.signal(number, lambda it, _: sys.exit(128 + it))  # so that the steps end too
    proof = prove() if proves else Counts()
    counts = Runner(every, jobs).run()
    counts = Counts(
        counts.passed + proof.passed, counts.failed + proof.failed, counts.skipped + proof.skipped
    )
    if is_quick:
        print('not done by --quick: ' + '; '.join([steps.PROOF, *(it.name for it in left)]))
    print(f'{time.monotonic() - begun:.0f} s, {jobs} at a time')
    print(counts.line())
    return 1 if counts.failed else 0


def prove() -> Counts:
    """Runs the gate, whose lines are shown as they come."""
    why = needs.lacks('command rt')
    if why:
        print(f'skipped {steps.PROOF}: {why}', flush=True)
        return Counts(skipped=1)
    passed = subprocess.run(['rt', 'ci'], cwd=TOP, stdin=subprocess.DEVNULL).returncode == 0
    print(f'{"ok     " if passed else "FAILED "} {steps.PROOF}', flush=True)
    return Counts(passed=int(passed), failed=int(not passed))


if __name__ == '__main__':
    sys.exit(main())
