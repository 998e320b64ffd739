"""The folder of a proved program, built twice. It holds parts of the toolkit: don't publish it."""
from __future__ import annotations

import os
import pathlib
import re
import subprocess

from launcher import build, example, keys, programs, toolkit
from launcher.messages import Stop
from launcher.store import NAME, Store, read_record
from tools.release import bundle, commit, record

GATE = re.compile(r'[1-9][0-9]* passed, 0 failed')


def say(text: str) -> None:
    """Writes a line of what is done."""
    print('release: ' + text, flush=True)


def gate_line(text: str) -> str:
    """The gate's last line, from a log or as given. Raises `Stop` where the gate didn't pass."""
    path = pathlib.Path(text)
    if path.is_file():
        lines = path.read_text(encoding='utf-8', errors='replace').splitlines()
        text = lines[-1].strip() if lines else ''
    if not GATE.fullmatch(text):
        raise Stop(
            f'the gate didn\'t pass: its last line has to be "N passed, 0 failed", and is {text!r}'
        )
    return text


def sources() -> str:
    """The hash of all texts that the program is made from."""
    top = str(commit.TOP)
    return str(keys.of_sources(keys.of_texts(top, build.needed(top))))


def built_in(folder: pathlib.Path) -> tuple[pathlib.Path, str]:
    """Proves and builds in a new clone, with nothing kept: the program, and the toolkit's line."""
    clone, kept = folder / 'clone', folder / 'kept'
    commit.clone(commit.of(), clone)
    say(f'proving and building in {clone}')
    done = subprocess.run(
        [str(clone / 'editor'), '--prove'],
        env={**os.environ, 'XDG_CACHE_HOME': str(kept)},
        cwd=clone,
    )
    found = Store(str(kept / NAME)).program(sources(), None) if done.returncode == 0 else None
    if not found:
        raise Stop(f'./editor --prove ended with status {done.returncode} in {clone}')
    return pathlib.Path(found[0]), str(found[1]['line'])


def hold_to_agreement(first: pathlib.Path, second: pathlib.Path) -> None:
    """Raises `Stop` where two programs differ by a byte, or are one file."""
    if os.path.samefile(first, second):
        raise Stop(f'{first} and {second} are one file, and two builds are wanted')
    one, two = first.read_bytes(), second.read_bytes()
    if one != two:
        at = next(
            (at for at, (a, b) in enumerate(zip(one, two)) if a != b), min(len(one), len(two))
        )
        raise Stop(
            f'the two builds differ: {len(one)} bytes and {len(two)} bytes, first at byte {at}'
        )
    say(f'the two builds agree, byte by byte: {len(one)} bytes')


def hold_to_sources(program: pathlib.Path) -> None:
    """Raises `Stop` where the record beside a program tells of other sources."""
    found = read_record(str(program.absolute().parent / 'record.json'))
    if found and found.get('sources') != sources():
        raise Stop(f'{program} was built from other sources than these')


def make(
    to: pathlib.Path, holder: pathlib.Path, gate: str, given: list[pathlib.Path] | None
) -> None:
    """Makes the folder from two builds, or two given programs; `gate` is the gate's last line."""
    if given:
        first, second = given
        line = toolkit.answer(['rt', 'version']) or 'unknown'
    else:
        (first, line), (second, _) = (built_in(holder / it) for it in ('one', 'two'))
    for program in (first, second):
        hold_to_sources(program)
    hold_to_agreement(first, second)
    example.hold(str(commit.TOP), str(first.absolute()))
    release = programs.Release(
        version=commit.version(),
        commit=commit.of().hash,
        sha256=keys.of_file(first),
        sources=sources(),
        toolkit=line,
        gate=gate,
        builds=record.AGREE,
    )
    bundle.write(commit.TOP, to, first, {record.RELEASE: release.proved_text()})
