"""The checks of the repository, a line each."""
from __future__ import annotations

import fnmatch
import os
import pathlib
import re
from dataclasses import dataclass, field

from tools.check import needs
from tools.check.needs import TOP

# Stands in a command for the path of the plain build, and for the interpreter that runs the tests.
PROGRAM, PYTHON = '{program}', '{python}'
# The step that makes the program, and the one that proves.
BUILD, PROOF = 'plain build', 'rt ci'
# When a step runs: always, or not by --quick.
QUICK, FULL = 'quick', 'full'
# Where a file of tests can't do without a module of Python: an import at its top, or a word that
# leaves out all of it.
ALL_OF_IT = r'^(?:import|from) {0}\b|^    raise unittest\.SkipTest\(\W*{0}\b'
# Folders in which no test is looked for.
PASSED_OVER = ('.*', 'out', '__pycache__', 'node_modules', 'must-fail', 'target')


@dataclass(frozen=True)
class Step:
    """A check: what it is called, its command, what it needs, when it runs, the seconds after which
    it has failed, variables of its environment ('' takes one away), and the folder in which it
    runs.
    """

    name: str
    command: tuple[str, ...]
    needs: tuple[str, ...] = ()
    when: str = QUICK
    limit: float = 600.0
    environment: dict[str, str] = field(default_factory=dict, compare=False)
    folder: str = '.'

    @property
    def wants_program(self) -> bool:
        """Whether it waits for the plain build."""
        return 'program' in self.needs


def own(
    name: str, *words: str, needs: tuple[str, ...] = (), when: str = QUICK, limit: float = 600.0
) -> Step:
    """A check by a program of the repository, which is called by its path."""
    return Step(
        ' '.join((name, *(it for it in words if it != PROGRAM))),
        (PYTHON, name, *words),
        needs,
        when,
        limit,
    )


def listed() -> list[Step]:
    """The checks besides the proof and the Python tests, those that take longest first."""
    program = ('program',)
    return [
        Step(BUILD, (PYTHON, '-m', 'tools.check.plain', 'build'), ('command cargo',)),
        Step(
            'session cases, release build',
            (PYTHON, '-m', 'tools.check.plain', 'cases'),
            ('command cargo', *program),
        ),
        Step(
            'session cases and unit tests, debug build with overflow checks',
            (PYTHON, '-m', 'tools.check.plain', 'debug'),
            ('command cargo', *program),
        ),
        Step(
            'session cases and calls with the real libraries',
            (PYTHON, '-m', 'tools.check.plain', 'real', PROGRAM),
            ('command cargo', f'file {needs.REGISTRY}', *program),
            FULL,
        ),
        Step('calls and statuses', (PYTHON, '-m', 'tools.check.calls', PROGRAM), program),
        Step(
            'random sessions beside the second editor',
            (PYTHON, '-m', 'tools.check.sessions', PROGRAM, '4', '2'),
            program,
        ),
        Step(
            'random sessions beside the second editor, more of them',
            (PYTHON, '-m', 'tools.check.sessions', PROGRAM, '20', '10'),
            program,
            FULL,
        ),
        Step(
            'instructions of each step',
            (PYTHON, '-m', 'tools.check.instructions', PROGRAM),
            ('command valgrind', 'command cargo', *program),
        ),
        Step(
            'each fault at each call and write of five sends',
            (PYTHON, '-m', 'yoke.testing.explore', '--faults', '1'),
            ('module urllib3',),
            FULL,
        ),
        own('bench/check/hostile', '--program', PROGRAM, needs=program, when=FULL),
        own('bench/check/pages', '--text'),
        own('bench/check/pages', PROGRAM, needs=program, when=FULL),
        Step('site', (PYTHON, '-m', 'tools.site', '--check'), ('module mkdocs',)),
        own('bench/check/layers'),
        own('bench/check/crates', '--page'),
        own('bench/check/believe', '--page'),
        own('bench/check/axioms', '--page', needs=('command rt',)),
        own('bench/check/promises', '--page'),
        own('bench/check/clauses.py'),
        own('bench/check/numbers'),
        own('bench/check/launcher', when=FULL),
        Step(
            'packages of the last commit, made twice',
            (PYTHON, '-m', 'tools.release', '--check'),
            ('command cargo', 'command git', 'command dpkg-shlibdeps'),
            FULL,
            1800.0,
        ),
        Step(
            'black',
            (PYTHON, '-m', 'black', '--check', '--quiet', '.'),
            ('module black', 'section tool.black'),
        ),
        Step('flake8', (PYTHON, '-m', 'flake8'), ('module flake8', 'file .flake8')),
        Step('mypy', (PYTHON, '-m', 'mypy'), ('module mypy', 'section tool.mypy')),
    ]


def test_files(top: pathlib.Path = TOP) -> list[str]:
    """All Python tests, by their paths in the repository."""
    found = []
    for holder, folders, names in os.walk(top):
        folders[:] = sorted(
            it for it in folders if not any(fnmatch.fnmatch(it, form) for form in PASSED_OVER)
        )
        found += [
            os.path.relpath(os.path.join(holder, it), top)
            for it in names
            if re.fullmatch(r'test_\w+\.py', it)
        ]
    return sorted(found)


def test_step(path: str) -> Step:
    """The step of a file of tests: by pytest where it is there, else by unittest. It counts as one
    check either way.
    """
    if path.startswith(
        'examples' + os.sep
    ):  # these are programs that are given the program, and run in examples/
        inside = os.path.relpath(path, 'examples')
        return Step(path, (PYTHON, inside, PROGRAM), ('program',), folder='examples')
    wanted: tuple[str, ...] = ('module urllib3',) if path.startswith('yoke' + os.sep) else ()
    environment = {'YOKE_EDITOR': ''}
    if not needs.lacks('module pytest'):
        words: tuple[str, ...] = ('-m', 'pytest', '-q', '-p', 'no:cacheprovider', path)
    else:
        text = (TOP / path).read_text(encoding='utf-8')
        wanted += tuple(
            f'module {it}'
            for it in ('pytest', 'hypothesis')
            if re.search(ALL_OF_IT.format(it), text, re.M)
        )
        words = ('-m', 'unittest', path)
    return Step(path, (PYTHON, *words), wanted, QUICK, 600.0, environment)


def all_steps() -> list[Step]:
    """The checks besides the proof. Those that others wait for, or that take long, come first."""
    every = listed()
    return [*every[:1], *[test_step(it) for it in test_files()], *every[1:]]
