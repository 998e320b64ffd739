"""Where the program is, and of which build: plain (ordinary Rust, not proved), proved, or unknown.

A package puts a record beside its program: PREFIX/bin/yokeorange has
PREFIX/share/yokeorange/build.json. A record counts only for the program whose SHA-256 it names. In
a checkout RELEASE names the hashes of the released programs.
"""
from __future__ import annotations

import hashlib
import json
import os
import pathlib
import re
import shutil
from dataclasses import asdict, dataclass

NAME = 'yokeorange'
HERE = pathlib.Path(__file__).resolve().parent
RECORD = pathlib.Path('share', NAME, 'build.json')
KINDS = {'plain': 'a plain build, not proved', 'proved': 'the proved build'}
HASH = re.compile('[0-9a-f]{64}')


@dataclass(frozen=True)
class Build:
    """What is known of a program. `sources` is one hash over its source texts, '' where no record
    has it.
    """

    kind: str
    version: str
    sha256: str
    sources: str = ''

    def text(self) -> str:
        """As build.json has it."""
        return json.dumps(asdict(self), indent=1, sort_keys=True) + '\n'


def find(named: str | None) -> str | None:
    """The path of the program that is named, else by $YOKE_EDITOR, else on the path, else beside
    this package.

    None where it isn't there. A program that is named and missing is never replaced by another one.
    """
    wanted = named or os.environ.get('YOKE_EDITOR')
    found = shutil.which(wanted or NAME)
    if found is None and not wanted:
        found = shutil.which(str(HERE / 'bin' / NAME))
    return os.path.abspath(found) if found else None


def sha256_of(program: str) -> str:
    """The SHA-256 of a program's bytes. Raises OSError where it can't be read."""
    with open(program, 'rb') as file:
        return hashlib.file_digest(file, 'sha256').hexdigest()


def read(text: str) -> Build | None:
    """The build that a record tells of; None where it isn't a record."""
    try:
        found = json.loads(text)
        build = Build(found['kind'], found['version'], found['sha256'], found.get('sources', ''))
    except (ValueError, KeyError, TypeError, AttributeError):
        return None
    is_text = all(isinstance(it, str) for it in asdict(build).values())
    return build if is_text and build.kind in KINDS and HASH.fullmatch(build.sha256) else None


def of_release(text: str) -> list[Build]:
    """The builds that a RELEASE names: the proved program as `sha256`, plain ones as `plain-sha256`
    and `plain-static-sha256`.
    """
    fields = dict(re.findall(r'^([a-z0-9-]+): (.+)$', text, re.M))
    version = fields.get('version', 'unknown')
    named = [Build('proved', version, fields.get('sha256', ''), fields.get('sources', ''))]
    named += [
        Build(
            'plain',
            fields.get('plain-version', version),
            fields.get(name, ''),
            fields.get('plain-sources', ''),
        )
        for name in ('plain-sha256', 'plain-static-sha256')
    ]
    return [it for it in named if HASH.fullmatch(it.sha256)]


def of(program: str, checkout: pathlib.Path = HERE.parent) -> Build | None:
    """Of which build a program is, by its record or the checkout's RELEASE; None where neither
    names its bytes.
    """
    sha256 = sha256_of(program)
    record = pathlib.Path(os.path.realpath(program)).parent.parent / RECORD
    build = read(text_of(record))
    known = [build] if build else []
    if (checkout / 'launcher').is_dir():
        known += of_release(text_of(checkout / 'RELEASE'))
    return next((it for it in known if it.sha256 == sha256), None)


def is_of_clone(program: str, checkout: pathlib.Path = HERE.parent) -> bool:
    """Whether it is bin/yokeorange of this checkout, which has no build of its own."""
    return (
        os.path.realpath(program) == str(checkout / 'bin' / NAME)
        and (checkout / 'launcher').is_dir()
    )


def text_of(path: pathlib.Path) -> str:
    """The text of a small file, '' where it can't be read."""
    try:
        return path.read_text(encoding='utf-8')
    except (OSError, UnicodeError):
        return ''


def described(named: str | None = None) -> str:
    """The lines of `yoke --version` on the program."""
    program = find(named)
    if program is None:
        wanted = named or os.environ.get('YOKE_EDITOR') or NAME
        return f'program: none ({wanted} isn\'t there): name it by --program or $YOKE_EDITOR'
    if is_of_clone(program):
        return f'program: {program}, which runs what ./editor of this clone runs: plain, unless you proved it here'
    try:
        build, sha256 = of(program), sha256_of(program)
    except OSError as error:
        return f'program: {program} can\'t be read: {error.strerror}'
    kind = f'{NAME} {build.version}, {KINDS[build.kind]}' if build else 'of unknown build'
    sources = f'\nsources: {build.sources}' if build and build.sources else ''
    return f'program: {program}, {kind}\nsha256: {sha256}{sources}'
