"""How many instructions a session takes, counted by callgrind: no clock decides what got slower.

    python3 -m tools.check.instructions PROGRAM            fails where one takes a twentieth more
    python3 -m tools.check.instructions PROGRAM --write    writes the counts of this program down

The sessions run over a made town. A count depends on the compiler and the kind of processor. So
those in instructions.json are compared only where both are the same; elsewhere nothing is compared,
and the program says so. Write the counts down anew for a change that is meant to cost something.
PROGRAM is the plain build: it has the source of the proved program, and the same loops.
"""
from __future__ import annotations

import argparse
import json
import pathlib
import platform
import re
import subprocess
import sys
import tempfile
from dataclasses import dataclass

TOP = pathlib.Path(__file__).resolve().parents[2]
COUNTS = pathlib.Path(__file__).with_suffix('.json')
OBJECTS = 20_000  # of the town
EDITS = 400  # steps that edit an object each
MORE = 1.05  # a session may take so many times what was written down

# The steps of each session, over map.opl, next.opl (a twentieth of it is newer) and saved.opl.
SESSIONS = {
    'download': 'download map.opl\n',
    'download and print': 'download map.opl\nprint\n',
    'two downloads and print': 'download map.opl\ndownload next.opl\nprint\n',
    'download and check': 'download map.opl\ncheck\n',
    'download and find': 'download map.opl\nfind way and Thighway=*\n',
    'download and save': 'download map.opl\nsave\n',
    'resume and print': 'resume saved.opl\nprint\n',
}


@dataclass(frozen=True)
class Counts:
    """The counts of all sessions, and of what they depend on."""

    compiler: str
    machine: str
    instructions: dict[str, int]


def compiler() -> str:
    """The version of the compiler that cargo calls."""
    return subprocess.run(
        ['rustc', '--version'], check=True, capture_output=True, text=True
    ).stdout.strip()


def make(folder: pathlib.Path, program: pathlib.Path) -> dict[str, str]:
    """Writes the files of the sessions, and gives the scripts of all."""
    town = subprocess.run(
        [sys.executable, str(TOP / 'bench/model/town'), str(OBJECTS)],
        check=True,
        capture_output=True,
        text=True,
    ).stdout
    lines = town.splitlines(keepends=True)
    (folder / 'map.opl').write_text(town, encoding='utf-8')
    newer = [
        re.sub(r' v(\d+) ', lambda hit: f' v{int(hit[1]) + 1} ', line, count=1)
        if number % 20 == 0
        else line
        for number, line in enumerate(lines)
    ]
    (folder / 'next.opl').write_text(''.join(newer), encoding='utf-8')
    keys = [line.split(' ', 1)[0] for line in lines[:: len(lines) // EDITS]]
    edits = ''.join(f'tag {key} Tchecked={number}\n' for number, key in enumerate(keys))
    scripts = {**SESSIONS, 'edit and upload': f'download map.opl\n{edits}upload 10000\n'}
    (folder / 'script').write_text(SESSIONS['download and save'], encoding='utf-8')
    saved = subprocess.run([program, 'script'], cwd=folder, check=True, capture_output=True).stdout
    (folder / 'saved.opl').write_bytes(saved.split(b'\n', 2)[2])
    return scripts


def counted(folder: pathlib.Path, program: pathlib.Path, script: str) -> int:
    """How many instructions the session of a script takes."""
    (folder / 'script').write_text(script, encoding='utf-8')
    command = [
        'valgrind',
        '--tool=callgrind',
        '--callgrind-out-file=/dev/null',
        str(program),
        'script',
    ]
    done = subprocess.run(
        command,
        cwd=folder,
        stdin=subprocess.DEVNULL,
        stdout=subprocess.DEVNULL,
        stderr=subprocess.PIPE,
        text=True,
    )
    hit = re.search(r'Collected : (\d+)', done.stderr)
    if done.returncode or hit is None:
        sys.exit(f'{script.splitlines()[0]} ..: status {done.returncode}\n{done.stderr}')
    return int(hit[1])


def counts_of(program: pathlib.Path) -> Counts:
    """Counts all sessions of a program."""
    with tempfile.TemporaryDirectory() as holder:
        folder = pathlib.Path(holder)
        scripts = make(folder, program)
        found = {name: counted(folder, program, script) for name, script in scripts.items()}
    return Counts(compiler(), platform.machine(), found)


def read() -> Counts:
    """The counts that were written down."""
    return Counts(**json.loads(COUNTS.read_text(encoding='utf-8')))


def write(found: Counts) -> None:
    """Writes counts down."""
    COUNTS.write_text(json.dumps(found.__dict__, indent=1) + '\n', encoding='utf-8')


def slower(wanted: Counts, found: Counts) -> list[str]:
    """A line for each session that takes more than it may, or that one of the two lacks."""
    faults = [
        f'{name}: only in one of the two'
        for name in sorted(wanted.instructions.keys() ^ found.instructions.keys())
    ]
    for name in sorted(wanted.instructions.keys() & found.instructions.keys()):
        before, now = wanted.instructions[name], found.instructions[name]
        if now > before * MORE:
            faults.append(
                f'{name}: {now:,} instructions, {before:,} before: ' f'{now / before:.2f} times'
            )
    return faults


def table(wanted: Counts | None, found: Counts) -> str:
    """The counts, an object each, beside those of before."""
    lines = [f'{"session":28}{"millions":>10}{"an object":>11}{"before":>8}']
    for name, now in found.instructions.items():
        before = wanted.instructions.get(name) if wanted else None
        ratio = f'{now / before:.3f}' if before else ''
        lines.append(f'{name:28}{now / 1e6:10.1f}{now / OBJECTS:11.0f}{ratio:>8}')
    return '\n'.join(lines)


def main(words: list[str] | None = None) -> int:
    """Counts, and compares or writes down."""
    parser = argparse.ArgumentParser(
        description=__doc__, formatter_class=argparse.RawDescriptionHelpFormatter
    )
    parser.add_argument('program', type=pathlib.Path)
    parser.add_argument('--write', action='store_true')
    asked = parser.parse_args(words)
    program = asked.program.resolve()
    if asked.write:
        found = counts_of(program)
        write(found)
        print(table(None, found))
        return 0
    wanted = read()
    if (compiler(), platform.machine()) != (wanted.compiler, wanted.machine):
        print(
            f'The counts are of {wanted.compiler} on {wanted.machine}; this is {compiler()} on '
            f'{platform.machine()}: nothing compared.'
        )
        return 0
    found = counts_of(program)
    print(table(wanted, found))
    faults = slower(wanted, found)
    print('\n'.join(faults) or 'no session takes a twentieth more')
    return 1 if faults else 0


if __name__ == '__main__':
    sys.exit(main())
