"""The words of `python3 -m tools.release`."""
from __future__ import annotations

import argparse
import pathlib
import shutil
import subprocess
import sys
import tempfile

from launcher.messages import Stop
from tools.release import commit, packages, proved, record

TEXT = """Makes a release from one commit. Needs git and a checkout in which all is committed.

  python3 -m tools.release --to FOLDER --twice
      the packages, in which the program is plain Rust: a .deb, a wheel, a tar with the static
      program, and the sources; with RELEASE, which has the SHA-256 of each, and RELEASE.sha256.
      Needs cargo, dpkg-dev, and setuptools with wheel and pip.

  python3 -m tools.release --to FOLDER --proved --gate LOG
      the proved program, built twice from nothing by ./editor --prove, with RELEASE, its companion,
      manual pages and install.sh. Needs the Rattle toolkit. It isn't to be published.

RELEASE goes to the top of the repository: ./editor knows released programs by their hashes."""


def words() -> argparse.ArgumentParser:
    """The parser of the words."""
    read = argparse.ArgumentParser(
        prog='python3 -m tools.release',
        description=TEXT,
        formatter_class=argparse.RawDescriptionHelpFormatter,
    )
    read.add_argument(
        '--to',
        metavar='FOLDER',
        type=pathlib.Path,
        help='what is made goes there; it must not be there yet',
    )
    read.add_argument(
        '--commit',
        metavar='COMMIT',
        default='HEAD',
        help='a tag or commit of this repository (HEAD)',
    )
    read.add_argument(
        '--twice',
        action='store_true',
        help='makes all in two folders, and refuses where a byte differs',
    )
    read.add_argument(
        '--check',
        action='store_true',
        help='makes the packages twice and holds them to lintian, where it is there; keeps nothing',
    )
    group = read.add_argument_group('the proved program')
    group.add_argument('--proved', action='store_true', help='makes this instead of the packages')
    group.add_argument('--gate', metavar='LOG', help='the gate\'s log, or its last line itself')
    group.add_argument(
        '--without-gate', action='store_true', help='though the gate wasn\'t run; RELEASE says so'
    )
    group.add_argument(
        '--programs',
        nargs=2,
        metavar='FILE',
        type=pathlib.Path,
        help='two programs built in two folders, in the place of two builds',
    )
    return read


def main(given: list[str] | None = None) -> int:
    """Does what the words ask for: the status."""
    read = words()
    asked = read.parse_args(given)
    if bool(asked.to) == asked.check:
        read.error('--to FOLDER or --check is wanted')
    try:
        with tempfile.TemporaryDirectory(prefix='release-') as holder:
            if asked.check:
                check(asked.commit, pathlib.Path(holder))
                return 0
            commit.hold_to_clean()
            if asked.to.exists():
                raise Stop(f'{asked.to} is there already', 2)
            act(asked, pathlib.Path(holder))
        return 0
    except Stop as why:
        print(f'release: {why}', file=sys.stderr)
        return why.status
    except subprocess.CalledProcessError as error:
        print(f'release: {error}', file=sys.stderr)
        return 1


def check(name: str, holder: pathlib.Path) -> None:
    """Makes the packages of a commit twice, and has lintian look at the .deb."""
    made = holder / 'packages'
    packages_of(commit.of(name), made, holder, True)
    if not shutil.which('lintian'):
        print('release: lintian isn\'t there, and didn\'t look')
        return
    (package,) = made.glob('*.deb')
    done = subprocess.run(
        ['lintian', '--allow-root', '--fail-on', 'error', str(package)],
        stdin=subprocess.DEVNULL,
        stdout=subprocess.PIPE,
        text=True,
    )
    print(done.stdout, end='')
    if done.returncode:
        raise Stop(f'lintian ended with status {done.returncode}')


def act(asked: argparse.Namespace, holder: pathlib.Path) -> None:
    """Makes the packages or the proved program; `holder` is a folder for what isn't kept."""
    if asked.proved:
        if bool(asked.gate) == asked.without_gate:
            raise Stop(
                'a proved program wants the gate\'s last line: --gate LOG, or --without-gate', 2
            )
        if asked.commit != 'HEAD':
            raise Stop('the proved program is made from what is checked out: leave out --commit', 2)
        gate = 'not run' if asked.without_gate else proved.gate_line(asked.gate)
        proved.make(asked.to, holder, gate, asked.programs)
    else:
        packages_of(commit.of(asked.commit), asked.to, holder, asked.twice)
    print(f'release: made {asked.to}. Copy its RELEASE to the top of the repository and commit it')


def packages_of(wanted: commit.Commit, to: pathlib.Path, holder: pathlib.Path, twice: bool) -> None:
    """Makes the packages of a commit by the tools of that commit, in one new clone or in two."""
    made = []
    # Names of another length, so that a path in what is built is seen.
    for name in ['one', 'the-second'][: 1 + twice]:
        clone, folder = holder / name / 'clone', holder / name / 'made'
        commit.clone(wanted, clone)
        print(f'release: building {wanted.short} in {clone}', flush=True)
        subprocess.run(
            [sys.executable, '-B', '-m', packages.__name__, str(folder)],
            cwd=clone,
            stdin=subprocess.DEVNULL,
            check=True,
        )
        made.append(folder)
    if twice:
        hold_to_same(*made)
        record.say_twice(made[0])
    to.parent.mkdir(parents=True, exist_ok=True)
    shutil.move(made[0], to)


def hold_to_same(one: pathlib.Path, two: pathlib.Path) -> None:
    """Raises `Stop` where two folders don't have the same files with the same bytes."""
    names = [sorted(it.name for it in folder.iterdir()) for folder in (one, two)]
    if names[0] != names[1]:
        raise Stop(f'two builds made other files: {names[0]} and {names[1]}')
    bad = [it for it in names[0] if (one / it).read_bytes() != (two / it).read_bytes()]
    if bad:
        raise Stop(f'two builds in two folders differ in {", ".join(bad)}')
    print(f'release: {len(names[0])} files have the same bytes in both folders')


if __name__ == '__main__':
    sys.exit(main())
