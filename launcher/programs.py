"""Which program may be run: one that was proved here from these sources, or a released one."""
from __future__ import annotations

import os
import re
from dataclasses import dataclass

from launcher import keys
from launcher.store import NAME

RELEASE = 'RELEASE'
FIELD = re.compile(
    r'(version|commit|sha256|sources|toolkit|gate|builds|plain-commit|plain-sha256|plain-static-sha256|plain-sources): (.+)'
)
HASH = re.compile('[0-9a-f]{64}')


@dataclass(frozen=True)
class Release:
    """What RELEASE says of a program: '' where it doesn't say."""

    version: str = ''
    commit: str = ''
    sha256: str = ''
    sources: str = ''
    toolkit: str = ''
    gate: str = ''
    builds: str = ''
    plain_commit: str = ''
    plain_sha256: str = ''
    plain_static_sha256: str = ''
    plain_sources: str = ''

    def proved_text(self) -> str:
        """The lines on the proved program, as the file has them."""
        return ''.join(
            f'{name}: {value}\n'
            for name, value in vars(self).items()
            if value and not name.startswith('plain_')
        )

    def is_plain(self, sha256: str) -> bool:
        """Whether a hash is that of a released program of which nothing is proved."""
        return sha256 in (self.plain_sha256, self.plain_static_sha256)


def read_release(text):
    """What a RELEASE says, or None where it names no program. Lines that aren't fields are left
    out.
    """
    found = {
        it[1].replace('-', '_'): it[2]
        for it in (FIELD.fullmatch(line.strip()) for line in text.splitlines())
        if it
    }
    release = Release(**found)
    hashes = (release.sha256, release.plain_sha256, release.plain_static_sha256)
    return release if any(HASH.fullmatch(it) for it in hashes) else None


def release_of(home):
    """What the repository's RELEASE says, or None where there is none or it is empty."""
    try:
        with open(os.path.join(home, RELEASE), encoding='utf-8') as file:
            return read_release(file.read())
    except FileNotFoundError:
        return None


def beside(home, release):
    """The released program that stands beside the launcher, and what is to be said of it: a path or
    None, and a text.
    """
    path = os.path.join(home, NAME)
    if not os.path.isfile(path):
        return None, ''
    if not release:
        return None, '{} isn\'t used: there is no released program whose hash it could have'.format(
            path
        )
    found = keys.of_file(path)
    if found != release.sha256 and not release.is_plain(found):
        return None, (
            '{} isn\'t used: its SHA-256 is {}, and that of the released program {}'.format(
                path, found, release.sha256 or release.plain_sha256
            )
        )
    if not os.access(path, os.X_OK):
        return None, '{0} is the released program, and may not be run: chmod +x {0}'.format(path)
    if release.is_plain(found):
        return (
            path,
            'running the released plain build of commit {}, of which nothing is proved'.format(
                release.plain_commit or 'unknown'
            ),
        )
    return path, 'running the released program of commit {}'.format(release.commit or 'unknown')


def said_of(release: Release, sources: str, is_plain: bool = False) -> str:
    """What is added where the sources here aren't those of the released program, the proved one or
    the plain one.
    """
    made_of = release.plain_sources if is_plain else release.sources
    if not made_of or made_of == sources:
        return ''
    return '; the sources here are others, and ./editor --prove proves and builds those'
