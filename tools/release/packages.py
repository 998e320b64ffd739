"""Makes all packages of its own checkout: python3 -m tools.release.packages FOLDER."""
from __future__ import annotations

import os
import pathlib
import platform
import subprocess
import sys
import tempfile

from launcher import keys
from launcher import programs as released
from launcher.messages import Stop
from launcher.store import NAME
from tools.release import bundle, commit, debian, programs, record, wheel


def make(top: pathlib.Path, to: pathlib.Path) -> None:
    """Makes the packages of a checkout, RELEASE and RELEASE.sha256 in a new folder."""
    of = commit.of(top=top)
    to.mkdir(parents=True)
    with tempfile.TemporaryDirectory(prefix='packages-', dir=to.parent) as holder:
        folder = pathlib.Path(holder)
        made = programs.make(top, below(folder, 'programs'))
        files = [
            debian.make(top, below(folder, 'debian'), to, made, of),
            wheel.make(top, below(folder, 'wheel'), to, made, of),
            static(top, folder, to, made, of),
            sources(top, to, of),
        ]
        text = record.of_packages(released.release_of(str(top)), plain_lines(made, of), files)
    (to / record.RELEASE).write_text(text, encoding='utf-8')
    (to / record.SUMS).write_text(record.sums([*files, to / record.RELEASE]), encoding='utf-8')


def below(folder: pathlib.Path, name: str) -> pathlib.Path:
    """A new folder in a folder."""
    path = folder / name
    path.mkdir()
    return path


def plain_lines(made: programs.Programs, of: commit.Commit) -> dict[str, str]:
    """What RELEASE says of the plain program."""
    return {
        'plain-version': commit.version(),
        'plain-commit': of.hash,
        'plain-sha256': keys.of_file(made.shared),
        'plain-static-sha256': keys.of_file(made.static),
        'plain-sources': made.sources,
        'plain-rust': made.rust,
    }


def static(
    top: pathlib.Path,
    folder: pathlib.Path,
    to: pathlib.Path,
    made: programs.Programs,
    of: commit.Commit,
) -> pathlib.Path:
    """Packs a folder with the static program: the path of the tar."""
    inside = folder / f'{NAME}-{commit.version()}-linux-{platform.machine()}'
    bundle.write(top, inside, made.static, {'build.json': made.record(made.static)})
    path = to / f'{inside.name}.tar.gz'
    bundle.tar(inside, path, of.time)
    return path


def sources(top: pathlib.Path, to: pathlib.Path, of: commit.Commit) -> pathlib.Path:
    """Packs the sources of the commit: the path of the tar."""
    name = f'{NAME}-{commit.version()}'
    path = to / f'{name}.tar.gz'
    done = subprocess.run(
        ['git', '-C', str(top), 'archive', '--format=tar', f'--prefix={name}/', of.hash],
        stdout=subprocess.PIPE,
        check=True,
    )
    path.write_bytes(debian.packed(done.stdout))
    return path


if __name__ == '__main__':
    os.umask(0o022)
    try:
        make(commit.TOP, pathlib.Path(sys.argv[1]))
    except Stop as why:
        print(f'release: {why}', file=sys.stderr)
        sys.exit(why.status)
