"""The wheel of yoke, which carries the static program."""
from __future__ import annotations

import os
import pathlib
import shutil
import subprocess

from launcher.messages import Stop
from launcher.store import NAME
from tools.check import needs
from tools.release import bundle, commit, programs
from yoke import builds

# In this order: setuptools has to be imported before pip.
MODULES = ('setuptools', 'wheel', 'pip')
# What the wheel is made from.
SOURCES = ('pyproject.toml', 'setup.py', 'LICENSE', 'README.md')


def python() -> str:
    """An interpreter that can make a wheel. Raises `Stop` where there is none."""
    code = f'import {", ".join(MODULES)}'
    for path in (needs.python(), needs.OTHER):
        done = subprocess.run([path, '-W', 'ignore', '-c', code], capture_output=True)
        if not done.returncode:
            return path
    raise Stop(
        f'no python3 has {", ".join(MODULES)}: apt-get install '
        'python3-pip python3-setuptools python3-wheel',
        127,
    )


def make(
    top: pathlib.Path,
    folder: pathlib.Path,
    to: pathlib.Path,
    made: programs.Programs,
    of: commit.Commit,
) -> pathlib.Path:
    """Makes the wheel of a checkout in a folder, and puts it into `to`: its path."""
    source = folder / 'source'
    shutil.copytree(top / 'yoke', source / 'yoke', ignore=shutil.ignore_patterns(*bundle.LEFT_OUT))
    for name in SOURCES:
        shutil.copy(top / name, source / name)
    inside = source / 'yoke'
    (inside / 'bin').mkdir()
    shutil.copy(made.static, inside / 'bin' / NAME)
    record = inside / builds.RECORD
    record.parent.mkdir(parents=True)
    record.write_text(made.record(made.static), encoding='utf-8')
    for path in source.rglob('*'):
        path.chmod(
            0o755 if path.is_dir() or path.name == NAME and path.parent.name == 'bin' else 0o644
        )
    command = [
        python(),
        '-m',
        'pip',
        'wheel',
        '--quiet',
        '--no-build-isolation',
        '--no-deps',
        '--no-index',
        '--disable-pip-version-check',
        '--wheel-dir',
        str(folder / 'wheels'),
        '.',
    ]
    subprocess.run(
        command,
        cwd=source,
        env={**os.environ, 'SOURCE_DATE_EPOCH': str(of.time)},
        stdin=subprocess.DEVNULL,
        check=True,
        umask=0o022,
    )
    (wheel,) = (folder / 'wheels').glob('*.whl')
    return pathlib.Path(shutil.move(wheel, to))
