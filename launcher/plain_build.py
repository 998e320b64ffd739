"""Builds the program as plain Rust, by cargo, and keeps it. Nothing of it is proved.

The workspace and cargo's folder stay in the store, so that a changed crate alone, and what stands
on it, is built again.
"""
from __future__ import annotations

import json
import os
import pathlib
import re
import shutil
import subprocess
import time
from dataclasses import dataclass

from launcher import example, keys
from launcher.guard import Guard
from launcher.messages import Stop, say
from launcher.store import NAME, Store, remove, write_whole

# The oldest Rust that builds it, as the manifests say.
OLDEST = (1, 70)
LOCK = 'plain-lock'
PROGRAMS = 'plain-programs'
EACH_LOOK = 0.05
# What of the environment could change how the program is built, and not how fast.
LEFT_OUT = re.compile(
    r'RUSTFLAGS|CARGO_ENCODED_RUSTFLAGS|CARGO_BUILD_.*|CARGO_PROFILE_.*|CARGO_TARGET_.*'
)
INSTALL = 'install cargo, with Rust {}.{} or later: "sudo apt-get install cargo-web rustc-web" on Debian 12, else https://rustup.rs'.format(
    *OLDEST
)


@dataclass(frozen=True)
class Cargo:
    """The cargo on the path, and the Rust that it calls, as it names itself."""

    path: str
    rust: str


def find() -> tuple[Cargo | None, str]:
    """The cargo that can build the program, or None and why there is none."""
    path = shutil.which('cargo')
    if not path:
        return None, 'there is no command cargo on the path'
    rust = answer([os.environ.get('RUSTC') or 'rustc', '--version'])
    told = re.match(r'rustc (\d+)\.(\d+)', rust)
    if not told:
        return None, f'{path} is there, and no rustc that tells its version'
    if (int(told[1]), int(told[2])) < OLDEST:
        return None, f'{path} is there, and its Rust is too old ({told[1]}.{told[2]})'
    return Cargo(path, rust), ''


def answer(words: list[str]) -> str:
    """What a command writes, '' where it fails."""
    try:
        done = subprocess.run(
            words,
            stdin=subprocess.DEVNULL,
            stdout=subprocess.PIPE,
            stderr=subprocess.DEVNULL,
            text=True,
        )
    except OSError:
        return ''
    return done.stdout.strip() if not done.returncode else ''


def build(home: str, store: Store, cargo: Cargo, key: str, version: str) -> str:
    """Builds the program of the sources with this hash, one launcher at a time: its path."""
    store.make(home)
    mine = f'process {os.getpid()}, since {time.strftime("%H:%M")}'
    with store.lock(mine, told_of_other, LOCK):
        found = store.program(key, None, PROGRAMS)
        return found[0] if found else built(home, store, cargo, key, version)


def told_of_other(other: str) -> None:
    """Says that another launcher is at work."""
    say(f'another ./editor ({other or "of this user"}) builds the program: this one waits for it')


def built(home: str, store: Store, cargo: Cargo, key: str, version: str) -> str:
    """Writes the workspace, builds it and keeps the program: its path."""
    is_first = not os.path.isdir(store.path('plain', 'target'))
    say(
        f'building the program as plain Rust with {" ".join(cargo.rust.split()[:2])}'
        + (': about half a minute, once' if is_first else '')
    )
    workspace = export(home, store, version)
    log = store.path('plain', 'build.log')
    os.makedirs(store.path('plain', 'tmp'), mode=0o700, exist_ok=True)
    hold_to_rust(store, cargo)
    program = called(store, cargo, workspace, log)
    if keys.plain_again(home) != key:
        raise Stop('the sources changed while the program was built: run ./editor again')
    part = store.path('plain', NAME)
    shutil.copyfile(program, part)
    os.chmod(part, 0o755)
    example.hold(home, part)
    record = {
        'key': key,
        'sources': key,
        'kind': 'plain',
        'rust': cargo.rust,
        'sha256': keys.of_file(part),
    }
    return store.keep_program(part, record, PROGRAMS)


def export(home: str, store: Store, version: str) -> str:
    """Writes the sources as plain Rust: the folder. It is the store's own, so what isn't as it was
    written is written anew.
    """
    from plain import tokens, workspace

    folder = pathlib.Path(store.path('plain', 'workspace'))
    try:
        try:
            workspace.write(pathlib.Path(home), folder, version=version)
        except Stop:
            remove(str(folder))
            workspace.write(pathlib.Path(home), folder, version=version)
    except tokens.Refused as why:
        raise Stop(
            f'{why}\nThe export to plain Rust doesn\'t know this form: plain/__init__.py says how to add one. The toolkit\'s\n'
            '`rt check` says whether Rattle knows it'
        ) from why
    return str(folder)


def hold_to_rust(store: Store, cargo: Cargo) -> None:
    """Empties cargo's folder where another Rust filled it, so that it doesn't grow with each."""
    path = store.path('plain', 'rust')
    try:
        with open(path, encoding='utf-8') as file:
            same = file.read() == cargo.rust
    except OSError:
        same = False
    if not same:
        remove(store.path('plain', 'target'))
        write_whole(path, cargo.rust)


def called(store: Store, cargo: Cargo, workspace: str, log: str) -> str:
    """Calls cargo: the path of the program that it made."""
    words = [
        cargo.path,
        'build',
        '--release',
        '--locked',
        '--offline',
        '--package',
        'editor',
        '--target-dir',
        store.path('plain', 'target'),
        '--message-format',
        'json-render-diagnostics',
    ]
    guard = Guard(store.path('plain', 'tmp'))
    guard.environment = {
        name: value for name, value in guard.environment.items() if not LEFT_OUT.fullmatch(name)
    }
    try:
        process = guard.start(words, workspace, log)
        while process.poll() is None:
            time.sleep(EACH_LOOK)
    finally:
        guard.end()
    with open(log, encoding='utf-8', errors='replace') as file:
        lines = file.read().splitlines()
    if process.returncode:
        said = '\n'.join('    ' + it for it in [it for it in lines if not it.startswith('{')][-20:])
        raise Stop(f'cargo ended with status {process.returncode}. The end of {log}:\n{said}')
    made = [program for line in lines if line.startswith('{') and (program := executable(line))]
    if not made:
        raise Stop(f'cargo doesn\'t say which program it made: {log}')
    return made[-1]


def executable(line: str) -> str:
    """The program of which a message of cargo tells, '' where it tells of none."""
    try:
        told = json.loads(line)
    except ValueError:
        return ''
    return (
        str(told.get('executable') or '')
        if isinstance(told, dict) and told.get('reason') == 'compiler-artifact'
        else ''
    )
