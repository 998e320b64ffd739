"""RELEASE: the hashes of released programs and packages, and what they were made from."""
from __future__ import annotations

import pathlib

from launcher import keys, programs
from launcher.programs import RELEASE

SUMS = 'RELEASE.sha256'
AGREE = 'two builds in two folders have the same bytes'


def of_packages(
    release: programs.Release | None, plain: dict[str, str], files: list[pathlib.Path]
) -> str:
    """RELEASE: lines on the proved program, if there is one, on plain programs and packages."""
    text = release.proved_text() if release else ''
    text += ''.join(f'{name}: {value}\n' for name, value in plain.items())
    return text + ''.join(f'package {it.name}: {keys.of_file(it)}\n' for it in files)


def sums(files: list[pathlib.Path]) -> str:
    """The hashes as `sha256sum -c` reads them."""
    return ''.join(f'{keys.of_file(it)}  {it.name}\n' for it in files)


def say_twice(folder: pathlib.Path) -> None:
    """Adds to the RELEASE of a folder that two builds agree, and its new hash to RELEASE.sha256."""
    path = folder / RELEASE
    lines = path.read_text(encoding='utf-8').splitlines()
    last = max(at for at, line in enumerate(lines) if line.startswith('plain-'))
    lines.insert(last + 1, f'plain-builds: {AGREE}')
    path.write_text('\n'.join(lines) + '\n', encoding='utf-8')
    listed = (folder / SUMS).read_text(encoding='utf-8').splitlines()
    (folder / SUMS).write_text(
        sums([folder / it.split('  ')[1] for it in listed]), encoding='utf-8'
    )
