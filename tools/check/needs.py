"""What a step can need, and whether it is there.

A need is a text: `command NAME`, `module NAME` (of Python), `file PATH` (in the repository),
`section NAME` (of pyproject.toml), or `program` (the plain build, which the step of that name
makes).
"""
from __future__ import annotations

import os
import pathlib
import shutil
import subprocess
import sys
from functools import lru_cache

TOP = pathlib.Path(__file__).resolve().parents[2]
# What the tests want of an interpreter: the one that has most of these runs them.
MODULES = ('urllib3', 'pytest', 'hypothesis', 'mypy', 'black', 'flake8')
OTHER = '/usr/bin/python3'
# Where Debian's packages put the sources of Rust's libraries (librust-clap-dev and the like).
REGISTRY = '/usr/share/cargo/registry'


@lru_cache(maxsize=None)
def modules_of(python: str) -> frozenset[str]:
    """Which of `MODULES` an interpreter has. It has to be 3.11 or later to have any."""
    code = (
        'import importlib.util, sys; sys.exit(0) if sys.version_info < (3, 11) else '
        f'print(*[it for it in {MODULES!r} if importlib.util.find_spec(it)])'
    )
    try:
        done = subprocess.run(
            [python, '-c', code], stdin=subprocess.DEVNULL, capture_output=True, text=True
        )
    except OSError:
        return frozenset()
    return frozenset(done.stdout.split())


@lru_cache(maxsize=None)
def python() -> str:
    """The interpreter that runs the tests: this one, or the system's where that has more of what
    they need.
    """
    return max((sys.executable, OTHER), key=lambda it: len(modules_of(it)))


@lru_cache(maxsize=None)
def lacks(need: str) -> str:
    """What is missing for a need, as it is told, or ''."""
    kind, _, name = need.partition(' ')
    if kind == 'command':
        return '' if shutil.which(name) else f'there is no command {name}'
    if kind == 'module':
        if name in MODULES:
            return '' if name in modules_of(python()) else f'{python()} has no module {name}'
        done = subprocess.run(
            [python(), '-c', f'import {name}'], stdin=subprocess.DEVNULL, capture_output=True
        )
        return '' if not done.returncode else f'{python()} has no module {name}'
    if kind == 'file':
        return '' if (TOP / name).exists() else f'there is no {name}'
    if kind == 'section':
        path = TOP / 'pyproject.toml'
        there = path.is_file() and f'[{name}]' in path.read_text(encoding='utf-8').splitlines()
        return '' if there else f'pyproject.toml has no [{name}]'
    if kind == 'program':
        return ''
    raise ValueError(f'no such need: {need}')


def processors() -> int:
    """The processors that may be used."""
    return len(os.sched_getaffinity(0))
