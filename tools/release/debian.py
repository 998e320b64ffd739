"""The .deb: the plain program and yoke, with manual pages, completion, docs/ and the examples."""
from __future__ import annotations

import email.utils
import gzip
import hashlib
import os
import pathlib
import shutil
import subprocess
from datetime import datetime, timezone

from launcher import manual
from launcher.messages import Stop
from launcher.store import NAME
from tools.release import bundle, commit, completion, programs
from yoke import builds

MAINTAINER = 'Yokeorange maintainers <maintainers@users.noreply.yokeorange.example>'
HOLDER = 'Yokeorange contributors'
PACKAGES = 'usr/lib/python3/dist-packages'
DOCS = f'usr/share/doc/{NAME}'
CONTROL = '''Package: {name}
Version: {version}
Architecture: {architecture}
Maintainer: {maintainer}
Installed-Size: {size}
Depends: {libraries}, python3 (>= 3.11), python3-urllib3 (>= 1.26)
Recommends: osmium-tool, python3-shapely
Suggests: josm, python3-distributed
Section: science
Priority: optional
Description: edits OpenStreetMap data by script, and sends the result
 yokeorange is an engine that runs a script of edits over downloaded data, and
 refuses what would break it. yoke keeps a folder of edits, merges what others
 did meanwhile, shows edits on a map, and sends them to a server.
 .
 The engine in this package is plain Rust, made from sources that are proved.
 It gives the same answers as the proved program, and nothing of it is proved.
'''
YOKE = '''#!/usr/bin/python3
"""The command yoke."""
import sys

from yoke.command import main

sys.exit(main())
'''
# As dh_python3 writes them: bytecode is made where the package is installed, and goes with it.
POSTINST = f'''#!/bin/sh
set -e
if command -v py3compile > /dev/null 2>&1; then
    py3compile -p {NAME}
fi
'''
PRERM = f'''#!/bin/sh
set -e
if command -v py3clean > /dev/null 2>&1; then
    py3clean -p {NAME}
else
    find /{PACKAGES}/yoke -name __pycache__ -type d -prune -exec rm -r {{}} +
fi
'''
COPYRIGHT = '''Format: https://www.debian.org/doc/packaging-manuals/copyright-format/1.0/
Upstream-Name: Yokeorange

Files: *
Copyright: {holder}
License: MIT

License: MIT
{licence}'''
CHANGELOG = '''{name} ({version}) unstable; urgency=medium

  * Made from commit {commit}.

 -- {maintainer}  {date}
'''


def version(of: commit.Commit) -> str:
    """The version as Debian orders it: one that isn't released yet comes before it."""
    if commit.is_released():
        return f'{commit.version()}-1'
    day = datetime.fromtimestamp(of.time, timezone.utc).strftime('%Y%m%d')
    return f'{commit.version()}~{day}+{of.short}-1'


def make(
    top: pathlib.Path,
    folder: pathlib.Path,
    to: pathlib.Path,
    made: programs.Programs,
    of: commit.Commit,
) -> pathlib.Path:
    """Makes the package of a checkout in a folder, and puts it into `to`: its path."""
    root = folder / 'root'
    for name, data in files(top, made, of).items():
        put(root / name, data)
    copy_folders(top, root)
    for name in (f'usr/bin/{NAME}', 'usr/bin/yoke'):
        (root / name).chmod(0o755)
    control = CONTROL.format(
        name=NAME,
        version=version(of),
        architecture=said('dpkg', '--print-architecture'),
        maintainer=MAINTAINER,
        size=size_of(root),
        libraries=libraries(made.shared, folder),
    )
    for name, text in (
        ('control', control),
        ('md5sums', sums(root)),
        ('postinst', POSTINST),
        ('prerm', PRERM),
    ):
        put(root / 'DEBIAN' / name, text.encode())
        (root / 'DEBIAN' / name).chmod(0o755 if name in ('postinst', 'prerm') else 0o644)
    package = to / f'{NAME}_{version(of)}_{said("dpkg", "--print-architecture")}.deb'
    environment = {**os.environ, 'SOURCE_DATE_EPOCH': str(of.time)}
    for path in [root, *root.rglob('*')]:
        os.utime(path, (of.time, of.time))
    subprocess.run(
        [
            'dpkg-deb',
            '--root-owner-group',
            '-Zxz',
            '--threads-max=1',
            '--build',
            str(root),
            str(package),
        ],
        env=environment,
        stdin=subprocess.DEVNULL,
        stdout=subprocess.DEVNULL,
        check=True,
    )
    return package


def files(top: pathlib.Path, made: programs.Programs, of: commit.Commit) -> dict[str, bytes]:
    """The files of the package that aren't copied by the folder, by their places."""
    found = {
        f'usr/bin/{NAME}': made.shared.read_bytes(),
        'usr/bin/yoke': YOKE.encode(),
        'usr/' + builds.RECORD.as_posix(): made.record(made.shared).encode(),
        f'{DOCS}/copyright': copyright_of((top / 'LICENSE').read_text(encoding='utf-8')).encode(),
        f'{DOCS}/changelog.gz': packed((top / 'CHANGELOG.md').read_bytes()),
        f'{DOCS}/changelog.Debian.gz': packed(changelog(of).encode()),
        f'{DOCS}/README.md': (top / 'README.md').read_bytes(),
    }
    for name, text in manual.of(top, commit.version()).items():
        found[f'usr/share/man/man{name[-1]}/{name}.gz'] = packed(text.encode())
    for name, text in completion.of().items():
        found[f'usr/share/bash-completion/completions/{name}'] = text.encode()
    return found


def copy_folders(top: pathlib.Path, root: pathlib.Path) -> None:
    """Copies yoke, the pages and the examples."""
    places = (('yoke', PACKAGES), ('docs', DOCS), ('examples', DOCS))
    for name, place in places:
        shutil.copytree(
            top / name, root / place / name, ignore=shutil.ignore_patterns(*bundle.LEFT_OUT)
        )
    for path in root.rglob('*'):
        is_program = (
            path.is_file() and path.read_bytes()[:2] == b'#!' and path.stat().st_mode & 0o100
        )
        path.chmod(0o755 if path.is_dir() or is_program else 0o644)


def put(path: pathlib.Path, data: bytes) -> None:
    """Writes a file, with the folders above it."""
    path.parent.mkdir(parents=True, exist_ok=True)
    path.write_bytes(data)


def packed(data: bytes) -> bytes:
    """Bytes as gzip packs them, without a time."""
    return gzip.compress(data, 9, mtime=0)


def copyright_of(licence: str) -> str:
    """The file copyright, from the text of the licence."""
    lines = licence.strip().splitlines()
    holder = next(
        (it.partition(' ')[2].removeprefix('(c) ') for it in lines if it.startswith('Copyright')),
        HOLDER,
    )
    text = '\n'.join(f' {it}' if it.strip() else ' .' for it in lines)
    return COPYRIGHT.format(holder=holder, licence=text + '\n')


def changelog(of: commit.Commit) -> str:
    """Debian's own changelog, of one entry."""
    return CHANGELOG.format(
        name=NAME,
        version=version(of),
        commit=of.hash,
        maintainer=MAINTAINER,
        date=email.utils.formatdate(of.time),
    )


def size_of(root: pathlib.Path) -> int:
    """The KiB of a package's files, each rounded up, and one for each folder."""
    return sum(-(-it.stat().st_size // 1024) if it.is_file() else 1 for it in root.rglob('*'))


def sums(root: pathlib.Path) -> str:
    """The file md5sums."""
    found = sorted(
        it for it in root.rglob('*') if it.is_file() and 'DEBIAN' not in it.relative_to(root).parts
    )
    return ''.join(
        f'{hashlib.md5(it.read_bytes()).hexdigest()}  {it.relative_to(root).as_posix()}\n'
        for it in found
    )


def libraries(program: pathlib.Path, folder: pathlib.Path) -> str:
    """The packages with the libraries that a program loads, as dpkg-shlibdeps names them."""
    put(
        folder / 'debian' / 'control',
        f'Source: {NAME}\n\nPackage: {NAME}\nArchitecture: any\n'.encode(),
    )
    inside = folder / 'debian' / NAME / 'usr' / 'bin' / NAME
    put(inside, program.read_bytes())
    put(folder / 'debian' / NAME / 'DEBIAN' / 'control', b'')
    text = said('dpkg-shlibdeps', '-O', str(inside), folder=folder)
    name, _, found = text.partition('=')
    if name != 'shlibs:Depends' or not found:
        raise Stop(f'dpkg-shlibdeps says {text!r}, and no packages')
    return found


def said(*words: str, folder: pathlib.Path | None = None) -> str:
    """What a command writes."""
    done = subprocess.run(
        words, cwd=folder, stdin=subprocess.DEVNULL, stdout=subprocess.PIPE, text=True, check=True
    )
    return done.stdout.strip()
