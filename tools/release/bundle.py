"""A folder with a program, its companion, manual pages, completion and install.sh; and its tar."""
from __future__ import annotations

import gzip
import io
import pathlib
import shutil
import tarfile
import tempfile
import zipfile

from launcher import keys, manual
from launcher.store import NAME
from tools.release import commit, completion

INSTALL = '''#!/bin/sh
# Puts yokeorange and its companion yoke on the path, with manual pages and completion:
# sh install.sh [PREFIX], $HOME/.local where it isn't said.
set -eu
cd "$(dirname "$0")"
prefix=${1:-$HOME/.local}
sha256sum -c yokeorange.sha256
install -D -m 755 yokeorange "$prefix/bin/yokeorange"
install -D -m 755 yoke "$prefix/bin/yoke"
for page in yoke*.[157]; do
    install -D -m 644 "$page" "$prefix/share/man/man${page##*.}/$page"
done
for name in yokeorange yoke; do
    install -D -m 644 "$name.bash" "$prefix/share/bash-completion/completions/$name"
done
if [ -f build.json ]; then
    install -D -m 644 build.json "$prefix/share/yokeorange/build.json"
fi
echo "installed: $prefix/bin/yokeorange, $prefix/bin/yoke"
case :$PATH: in
    *":$prefix/bin:"*) ;;
    *) echo "$prefix/bin isn't on the path yet: PATH=\\"$prefix/bin:\\$PATH\\"" ;;
esac
'''
# What of the package yoke isn't installed.
LEFT_OUT = ('tests', 'test_*.py', '__pycache__', 'bin', 'share')
TIME_OF_ZIP = (1980, 1, 1, 0, 0, 0)


def write(
    top: pathlib.Path, folder: pathlib.Path, program: pathlib.Path, texts: dict[str, str]
) -> None:
    """Writes the folder, which isn't there yet; `texts` are further files that it gets."""
    folder.mkdir(parents=True)
    write_companion(top, folder / 'yoke')
    shutil.copyfile(program, folder / NAME)
    sums = f'{keys.of_file(folder / NAME)}  {NAME}\n{keys.of_file(folder / "yoke")}  yoke\n'
    files = {
        f'{NAME}.sha256': sums,
        'install.sh': INSTALL,
        **manual.of(top, commit.version()),
        **{f'{name}.bash': text for name, text in completion.of().items()},
        'LICENSE': (top / 'LICENSE').read_text(encoding='utf-8'),
        **texts,
    }
    for name, text in files.items():
        (folder / name).write_text(text, encoding='utf-8')
    for name in (NAME, 'yoke', 'install.sh'):
        (folder / name).chmod(0o755)


def write_companion(top: pathlib.Path, path: pathlib.Path) -> None:
    """Writes yoke, without tests, as one file that Python runs: the same bytes each time."""
    with tempfile.TemporaryDirectory() as holder:
        root = pathlib.Path(holder)
        shutil.copytree(top / 'yoke', root / 'yoke', ignore=shutil.ignore_patterns(*LEFT_OUT))
        shutil.copy(top / 'yoke' / '__main__.py', root / '__main__.py')
        found = io.BytesIO()
        with zipfile.ZipFile(found, 'w', zipfile.ZIP_DEFLATED) as archive:
            for file in sorted(it for it in root.rglob('*') if it.is_file()):
                entry = zipfile.ZipInfo(file.relative_to(root).as_posix(), TIME_OF_ZIP)
                entry.external_attr = 0o644 << 16
                archive.writestr(entry, file.read_bytes(), zipfile.ZIP_DEFLATED)
        path.write_bytes(b'#!/usr/bin/env python3\n' + found.getvalue())


def tar(folder: pathlib.Path, to: pathlib.Path, time: int) -> None:
    """Packs a folder, under its name; each file has the time of the commit and belongs to root."""

    def plain(entry: tarfile.TarInfo) -> tarfile.TarInfo:
        entry.uid = entry.gid = 0
        entry.uname = entry.gname = 'root'
        entry.mtime = time
        entry.mode = 0o755 if entry.isdir() or entry.mode & 0o100 else 0o644
        return entry

    found = io.BytesIO()
    with tarfile.open(fileobj=found, mode='w', format=tarfile.PAX_FORMAT) as archive:
        archive.add(folder, folder.name, recursive=False, filter=plain)
        for path in sorted(folder.rglob('*')):
            archive.add(
                path,
                f'{folder.name}/{path.relative_to(folder).as_posix()}',
                recursive=False,
                filter=plain,
            )
    to.write_bytes(gzip.compress(found.getvalue(), 9, mtime=0))
