"""Writes the crates as one cargo workspace."""
from __future__ import annotations

import hashlib
import json
import os
import pathlib
import re
from collections import Counter
from collections.abc import Iterable
from dataclasses import dataclass, field

from launcher import crates
from launcher.messages import Stop
from plain import known, reader
from plain.tokens import Refused

HERE = pathlib.Path(__file__).resolve().parent
LIBRARY = 'rattle_std'
# The program's crate, what cargo calls the program, and the crate that runs the session cases, with
# what it needs.
PROGRAM, NAME, CASES = 'editor', 'yokeorange', 'session_cases'
# The oldest Rust that builds the workspace.
RUST = '1.70'
EDITION = '2021'
# The versions of the real libraries for which `library/real` is written.
VERSIONS = {
    'anyhow': '"1"',
    'clap': '{ version = "4", default-features = false, features = ["std", "string"] }',
    'indexmap': '">=1.9, <3"',
    'itoa': '"1"',
    'jiff': '{ version = ">=0.1, <0.3", default-features = false, features = ["std"] }',
    'memchr': '"2"',
    'thiserror': '">=1, <3"',
}
RECORD = '.exported.json'
MARK = '# Written by `./editor --rust`. Nothing in this folder is proved.\n'


@dataclass
class Choice:
    """Which libraries are real, and the folder of their sources, where they don't come from a
    registry.
    """

    real: frozenset[str] = frozenset()
    vendor: str = ''

    @property
    def words(self) -> str:
        """As a text, for a key."""
        return f'{sorted(self.real)} {self.vendor}'


def choice_of(word: str) -> Choice:
    """What `--crates` asks for: `stand-in`, `real` or `vendor=DIR`. Of a folder those libraries are
    taken that are there.
    """
    if word == 'stand-in':
        return Choice()
    if word == 'real':
        return Choice(frozenset(VERSIONS))
    folder = word.partition('vendor=')[2]
    if not word.startswith('vendor=') or not os.path.isdir(folder):
        raise Stop(
            f'--crates takes stand-in, real or vendor=DIR with a folder that is there, and not {word}',
            2,
        )
    found = {
        it
        for it in VERSIONS
        for path in pathlib.Path(folder).iterdir()
        if re.fullmatch(it + r'(-\d.*)?', path.name) and (path / 'Cargo.toml').is_file()
    }
    return Choice(frozenset(found), os.path.abspath(folder))


@dataclass
class Export:
    """What an export wrote: its crates, its lines of Rust, how often each rule changed something,
    and what had to be read.
    """

    crates: list[str] = field(default_factory=list)
    lines: int = 0
    rules: Counter[str] = field(default_factory=Counter)
    read: int = 0


def digest(data: bytes) -> str:
    """The SHA-256 of some bytes."""
    return hashlib.sha256(data).hexdigest()


class Folder:
    """The folder that is written. It remembers the hash of each file that it wrote, and overwrites
    nothing else.
    """

    def __init__(self, path: pathlib.Path) -> None:
        self.path = path
        self.before: dict[str, str] = {}
        self.made: dict[str, str] = {}
        try:
            record = json.loads((path / RECORD).read_text(encoding='utf-8'))
            self.before = dict(record['files'])
            self.notes: dict[str, list[str]] = dict(record['notes'])
        except (OSError, ValueError, KeyError, TypeError):
            self.notes = {}
            if path.exists() and (not path.is_dir() or any(path.iterdir())):
                raise Stop(
                    f'{path} isn\'t empty, and no earlier export wrote it: name another folder', 2
                ) from None

    def hold(self) -> None:
        """Refuses a folder in which a file was changed that an export wrote."""
        for name, sum_before in self.before.items():
            path = self.path / name
            if path.is_file() and digest(path.read_bytes()) != sum_before:
                raise Stop(
                    f'{path} was changed after it was written: move it away, or name another folder',
                    2,
                )

    def put(self, name: str, text: str) -> None:
        """Writes a file where its text is another, so that cargo builds again only what changed."""
        data = text.encode('utf-8')
        self.made[name] = digest(data)
        path = self.path / name
        if self.before.get(name) == self.made[name] and path.is_file():
            return
        if name not in self.before and path.exists() and path.read_bytes() != data:
            raise Stop(
                f'{path} is there, and no export wrote it: move it away, or name another folder', 2
            )
        path.parent.mkdir(parents=True, exist_ok=True)
        part = path.with_name(path.name + '.part')
        part.write_bytes(data)
        os.replace(part, path)

    def keep(self, name: str) -> bool:
        """Leaves a file as an earlier export wrote it, if it is there."""
        if name not in self.before or not (self.path / name).is_file():
            return False
        self.made[name] = self.before[name]
        return True

    def end(self, notes: dict[str, list[str]]) -> None:
        """Removes files of an earlier export that this one didn't make, and writes the record."""
        for name in self.before.keys() - self.made.keys():
            (self.path / name).unlink(missing_ok=True)
        record = json.dumps({'files': self.made, 'notes': notes}, indent=1, sort_keys=True) + '\n'
        part = self.path / (RECORD + '.part')
        part.write_text(record, encoding='utf-8')
        os.replace(part, self.path / RECORD)


def own_sum() -> str:
    """One hash over the export's own sources."""
    total = hashlib.sha256()
    for path in sorted(HERE.glob('*.py')):
        total.update(path.read_bytes())
    return total.hexdigest()


def needed(listed: dict[str, tuple[str, ...]]) -> list[str]:
    """The crates that the program and the session cases need, in the order of crates.txt."""
    found, left = set(), [PROGRAM, CASES]
    while left:
        name = left.pop()
        if name in listed and name not in found:
            found.add(name)
            left += listed[name]
    return [it for it in listed if it in found]


def write(
    top: pathlib.Path, to: pathlib.Path, choice: Choice | None = None, version: str = '0.0.0'
) -> Export:
    """Writes the workspace of the repository in `top` into a folder.

    Raises `Refused` where a source has a form that isn't known, before anything is written; `Stop`
    where the folder holds something else.
    """
    choice = choice or Choice()
    listed = crates.listed((top / 'crates.txt').read_text(encoding='utf-8'))
    names = needed(listed)
    sources = {name: sorted((top / 'crates' / name / 'src').rglob('*.rt')) for name in names}
    texts = {
        path: decoded(path.relative_to(top).as_posix(), path.read_bytes())
        for it in sources.values()
        for path in it
    }
    functions = reader.functions_in(texts.values())
    folder = Folder(to)
    folder.hold()
    made = Export(names)
    key = digest(repr((own_sum(), sorted(functions), choice.words)).encode())
    notes: dict[str, list[str]] = {}
    files: dict[str, str | None] = {}
    for name, paths in sources.items():
        scope = reader.Scope(frozenset(listed[name]), functions, choice.real)
        for path in paths:
            source = path.relative_to(top).as_posix()
            target = source[:-3] + '.rs'
            mark = digest(f'{key} {listed[name]} {digest(texts[path].encode())}'.encode())
            kept = folder.notes.get(target, [''])
            if kept[0] == mark and (to / target).is_file():
                notes[target], files[target] = kept, None
                made.lines += int(kept[1])
                continue
            written = reader.plain(
                source,
                texts[path],
                scope,
                path.parent.name == 'src' and path.stem in ('lib', 'main'),
            )
            made.read += 1
            made.rules += written.rules
            count = sum(
                1
                for it in written.text.splitlines()
                if it.strip() and not it.strip().startswith('//')
            )
            made.lines += count
            notes[target], files[target] = [mark, str(count)], written.text
    to.mkdir(parents=True, exist_ok=True)
    for target, said in files.items():
        if said is None:
            folder.keep(target)
        else:
            folder.put(target, said)
    for target, said in others(top, names, listed, choice, version).items():
        folder.put(target, said)
    folder.end(notes)
    return made


def decoded(source: str, data: bytes) -> str:
    """A source as text."""
    try:
        return data.decode('utf-8')
    except UnicodeDecodeError as error:
        raise Refused(
            source, data[: error.start].count(b'\n') + 1, 'bytes that are no UTF-8'
        ) from None


# ---- what isn't source of a crate ----


def others(
    top: pathlib.Path,
    names: list[str],
    listed: dict[str, tuple[str, ...]],
    choice: Choice,
    version: str,
) -> dict[str, str]:
    """Manifests, the lock, the library, the session cases, the licence and a README, by their
    places.
    """
    found = {
        'Cargo.toml': workspace_manifest(names),
        'LICENSE': (top / 'LICENSE').read_text(encoding='utf-8'),
        'README.md': readme(choice),
        '.gitignore': 'target\n',
    }
    for name in names:
        found[f'crates/{name}/Cargo.toml'] = manifest(name, below(listed[name], choice), version)
    found[f'{LIBRARY}/Cargo.toml'] = manifest(
        LIBRARY, {it: VERSIONS[it] for it in sorted(choice.real - {'thiserror'})}, version
    )
    for path in sorted((HERE / 'library' / 'src').glob('*.rs')):
        found[f'{LIBRARY}/src/{path.name}'] = path.read_text(encoding='utf-8')
    for name in VERSIONS:
        if name != 'thiserror':
            path = (
                HERE / 'library' / ('real' if name in choice.real else 'stand_in') / (name + '.rs')
            )
            found[f'{LIBRARY}/src/{name}.rs'] = path.read_text(encoding='utf-8')
    if CASES in names:
        found.update(cases(top / 'crates' / CASES))
    if choice.vendor:
        found['.cargo/config.toml'] = (
            MARK + '[source.crates-io]\nreplace-with = "vendored"\n\n[source.vendored]\n'
            f'directory = "{choice.vendor}"\n'
        )
    if not choice.real:
        found['Cargo.lock'] = lock(names, listed, version)
    return found


def cases(crate: pathlib.Path) -> dict[str, str]:
    """The session cases, what they have to print, and the test that runs them."""
    to = f'crates/{CASES}'
    found = {
        f'{to}/data/{it.name}': it.read_text(encoding='utf-8')
        for it in sorted((crate / 'data').iterdir())
    }
    found[f'{to}/expected'] = (crate / 'stdout').read_text(encoding='utf-8')
    found[f'{to}/tests/session_cases.rs'] = (HERE / 'library' / 'session_cases.rs').read_text(
        encoding='utf-8'
    )
    return found


def below(libraries: Iterable[str], choice: Choice) -> dict[str, str]:
    """The dependencies of a crate as cargo has them."""
    found = {LIBRARY: f'{{ path = "../../{LIBRARY}" }}'}
    for name in libraries:
        if name == 'thiserror' and name in choice.real:
            found[name] = VERSIONS[name]
        elif name not in known.KIT_CRATES:
            found[name] = f'{{ path = "../{name}" }}'
    return found


def workspace_manifest(names: list[str]) -> str:
    """The manifest of the workspace."""
    members = ''.join(f'    "{it}",\n' for it in [LIBRARY, *(f'crates/{name}' for name in names)])
    return (
        f'{MARK}[workspace]\nresolver = "2"\nmembers = [\n{members}]\n\n'
        '[profile.release]\nopt-level = 3\noverflow-checks = true\ndebug = false\npanic = "abort"\n\n'
        '[profile.dev]\nopt-level = 1\noverflow-checks = true\n'
    )


def manifest(name: str, dependencies: dict[str, str], version: str) -> str:
    """The manifest of a crate."""
    text = (
        f'{MARK}[package]\nname = "{name}"\nversion = "{version}"\nedition = "{EDITION}"\n'
        f'rust-version = "{RUST}"\nlicense = "MIT"\npublish = false\n'
    )
    if name == PROGRAM:
        text += (
            'description = "OpenStreetMap editing by script, without a network (plain build, not proved)"\n'
            f'\n[[bin]]\nname = "{NAME}"\npath = "src/main.rs"\n'
        )
    if dependencies:
        text += '\n[dependencies]\n' + ''.join(
            f'{it} = {said}\n' for it, said in dependencies.items()
        )
    return text


def lock(names: list[str], listed: dict[str, tuple[str, ...]], version: str) -> str:
    """The lock of a workspace that needs nothing from elsewhere."""
    text = '# This file is automatically @generated by Cargo.\n# It is not intended for manual editing.\nversion = 3\n'
    for name in sorted([LIBRARY, *names]):
        text += f'\n[[package]]\nname = "{name}"\nversion = "{version}"\n'
        needs = sorted(below(listed[name], Choice())) if name != LIBRARY else []
        if needs:
            text += 'dependencies = [\n' + ''.join(f' "{it}",\n' for it in needs) + ']\n'
    return text


def readme(choice: Choice) -> str:
    """What the folder says of itself."""
    text = (HERE / 'library' / 'WORKSPACE.md').read_text(encoding='utf-8')
    real = ', '.join(sorted(choice.real)) or 'none'
    stand_in = ', '.join(sorted(VERSIONS.keys() - choice.real)) or 'none'
    return text.format(
        rust=RUST, real=real, stand_in=stand_in, locked='' if choice.real else ' --locked'
    )
