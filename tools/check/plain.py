"""plain build | cases | debug | real PROGRAM: makes the plain build in the launcher's folder, and
runs the session cases in it.

`build` prints the path of the program as its last line. `cases` runs every session case in the
release build, `debug` in a debug build, with overflow checks, together with the unit tests of the
crates. `build` comes first. `real` builds the program with the real libraries that Debian has
installed as sources, and compares it with PROGRAM, which has stand-ins: session cases and calls.
"""
from __future__ import annotations

import pathlib
import subprocess
import sys
import tempfile

from launcher import main as launcher
from launcher import plain_build, sources
from launcher.messages import Stop
from launcher.store import Store, default_folder
from plain import workspace
from tools.check import calls
from tools.check.needs import REGISTRY, TOP

CASES = TOP / 'crates' / 'session_cases'


def build() -> int:
    """Builds the program where it isn't kept, and prints its path."""
    store = Store(default_folder())
    print(launcher.plain_program(store, sources.found(str(TOP), store)))
    return 0


def cargo(*words: str) -> int:
    """Calls cargo in the workspace of the store."""
    store = Store(default_folder())
    plain_build.export(str(TOP), store, launcher.plain_version())
    command = [
        'cargo',
        *words,
        '--locked',
        '--offline',
        '--target-dir',
        store.path('plain', 'target'),
    ]
    return subprocess.run(
        command, cwd=store.path('plain', 'workspace'), stdin=subprocess.DEVNULL
    ).returncode


def cases() -> int:
    """Runs every session case in the release build, and holds its lines to those that the proved
    program prints.
    """
    status = cargo('build', '--release', '--quiet', '--package', 'session_cases')
    if status:
        return status
    return held(Store(default_folder()).path('plain', 'target', 'release', 'session_cases'))


def held(program: str) -> int:
    """Holds what a runner of the session cases prints to the lines that the proved one prints: the
    status.
    """
    done = subprocess.run(
        [program], cwd=CASES / 'data', stdin=subprocess.DEVNULL, capture_output=True, text=True
    )
    expected = (CASES / 'stdout').read_text(encoding='utf-8')
    lines, wanted = done.stdout.splitlines(), expected.splitlines()
    for number, (line, other) in enumerate(zip(lines, wanted), 1):
        if line != other:
            print(f'line {number}: {line!r}, and {other!r} was expected')
            return 1
    print(f'{len(lines)} lines, {len(wanted)} expected, status {done.returncode}')
    return 0 if len(lines) == len(wanted) and not done.returncode else 1


def debug() -> int:
    """Runs the session cases and the unit tests in a debug build."""
    return cargo('test', '--quiet')


def real() -> int:
    """Builds the program with the real libraries that are there, and compares it with one that has
    stand-ins.
    """
    choice = workspace.choice_of(f'vendor={REGISTRY}')
    if not choice.real:
        print(f'{REGISTRY} has none of {", ".join(workspace.VERSIONS)}')
        return 1
    print('real: ' + ', '.join(sorted(choice.real)))
    with tempfile.TemporaryDirectory() as holder:
        folder = pathlib.Path(holder, 'workspace')
        workspace.write(TOP, folder, choice, launcher.plain_version())
        command = [
            'cargo',
            'build',
            '--release',
            '--offline',
            '--quiet',
            '--package',
            'editor',
            '--package',
            'session_cases',
        ]
        status = subprocess.run(command, cwd=folder, stdin=subprocess.DEVNULL).returncode
        made = folder / 'target' / 'release'
        return (
            status
            or held(str(made / 'session_cases'))
            or calls.main([str(made / 'yokeorange'), sys.argv[2]])
        )


if __name__ == '__main__':
    try:
        sys.exit({'build': build, 'cases': cases, 'debug': debug, 'real': real}[sys.argv[1]]())
    except (IndexError, KeyError):
        sys.exit(__doc__)
    except Stop as why:
        sys.exit(str(why))
