"""The plain program, built for packages: linked to the system's C library, and static."""
from __future__ import annotations

import os
import pathlib
import re
import shutil
import subprocess
from dataclasses import dataclass

from launcher import build, example, keys, plain_build
from launcher.messages import Stop
from plain import workspace
from tools.release import commit
from yoke import builds

STATIC = '-C target-feature=+crt-static'


@dataclass(frozen=True)
class Programs:
    """Two builds of a program: paths, the Rust that compiled them, the hash of the sources."""

    shared: pathlib.Path
    static: pathlib.Path
    rust: str
    sources: str

    def record(self, program: pathlib.Path) -> str:
        """What a package has beside a program, so that yoke knows of which build it is."""
        return builds.Build('plain', commit.version(), keys.of_file(program), self.sources).text()


def target() -> str:
    """The system for which Rust builds here."""
    found = re.search(r'^host: (\S+)$', plain_build.answer(['rustc', '-vV']), re.M)
    if not found:
        raise Stop(f'there is no rustc that tells its system: {plain_build.INSTALL}', 127)
    return found[1]


def make(top: pathlib.Path, folder: pathlib.Path) -> Programs:
    """Exports a checkout and builds it twice, in a folder."""
    cargo, why = plain_build.find()
    if not cargo:
        raise Stop(f'{why}: {plain_build.INSTALL}', 127)
    rust = folder / 'workspace'
    workspace.write(top, rust, version=commit.version())
    made = [
        built(cargo, rust, folder, name, flags)
        for name, flags in (('shared', ''), ('static', STATIC))
    ]
    for program in made:
        example.hold(str(top), str(program))
    hold_to_static(made[1])
    return Programs(*made, cargo.rust, keys.of_plain(str(top), build.needed(str(top))))


def built(
    cargo: plain_build.Cargo, rust: pathlib.Path, folder: pathlib.Path, name: str, flags: str
) -> pathlib.Path:
    """Builds the program of a workspace with some flags of rustc: its path."""
    environment = {
        it: value for it, value in os.environ.items() if not plain_build.LEFT_OUT.fullmatch(it)
    }
    environment[
        'RUSTFLAGS'
    ] = f'-C strip=symbols --remap-path-prefix={rust}=/yokeorange {flags}'.strip()
    to, system = folder / f'target-{name}', target()
    done = subprocess.run(
        [
            cargo.path,
            'build',
            '--release',
            '--locked',
            '--offline',
            '--quiet',
            '--package',
            workspace.PROGRAM,
            '--target',
            system,
            '--target-dir',
            str(to),
        ],
        cwd=rust,
        env=environment,
        stdin=subprocess.DEVNULL,
        stderr=subprocess.PIPE,
        text=True,
    )
    if done.returncode:
        raise Stop(f'cargo ended with status {done.returncode}:\n{done.stderr}')
    program = folder / name / workspace.NAME
    program.parent.mkdir()
    shutil.copyfile(to / system / 'release' / workspace.NAME, program)
    program.chmod(0o755)
    return program


def hold_to_static(program: pathlib.Path) -> None:
    """Raises `Stop` where another program has to load this one: then it isn't static."""
    if b'/ld-' in program.read_bytes() and needs_loader(program):
        raise Stop(f'{program} isn\'t static: rustc took no notice of "{STATIC}"')


def needs_loader(program: pathlib.Path) -> bool:
    """Whether an ELF file has a segment that names its loader."""
    said = subprocess.run(
        ['readelf', '--program-headers', '--wide', str(program)],
        capture_output=True,
        text=True,
        check=True,
    )
    return re.search(r'^\s+INTERP\s', said.stdout, re.M) is not None
