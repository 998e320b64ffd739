"""Files that a user names: read whole, compressed or not, and written without taking another file's
place unseen.
"""
from __future__ import annotations

import bz2
import contextlib
import gzip
import lzma
import os
import pathlib
import stat
import sys
import zlib
from typing import IO, Callable, Iterable, Iterator, Union

from yoke import day, printing
from yoke.trouble import Refused, Trouble

Unpacked = Union[gzip.GzipFile, bz2.BZ2File, lzma.LZMAFile]
UNPACK: dict[str, Callable[[IO[bytes]], Unpacked]] = {
    '.gz': lambda file: gzip.GzipFile(fileobj=file),
    '.bz2': bz2.BZ2File,
    '.xz': lzma.LZMAFile,
}
MOST = 1 << 30  # bytes of a file, unpacked: what `editor` takes
PIECE = 1 << 20


def data_of(name: str, most: int = MOST) -> bytes:
    """The bytes of a file, unpacked where its name ends in .gz, .bz2 or .xz; of `-` those of
    standard input. Trouble where there are none, or more than `most`.
    """
    path, data = pathlib.Path(name), b''
    try:
        with contextlib.ExitStack() as stack:
            packed: IO[bytes] = (
                _standard_input()
                if name == '-'
                else stack.enter_context(open(_no_device(path), 'rb'))
            )
            file: IO[bytes] | Unpacked = packed
            if path.suffix in UNPACK:
                file = stack.enter_context(UNPACK[path.suffix](packed))
            data = b''.join(_pieces(file, name, most))
    except FileNotFoundError:
        raise Trouble(f'there is no file {name}') from None
    except IsADirectoryError:
        raise Trouble(f'{name} is a folder') from None
    except (OSError, EOFError, lzma.LZMAError, zlib.error) as error:
        raise Trouble(f'{name} can\'t be read: {error}') from None
    return data


def _standard_input() -> IO[bytes]:
    if sys.stdin is None:
        raise Trouble('standard input is closed, so - has nothing to read')
    return sys.stdin.buffer


def _no_device(path: pathlib.Path) -> pathlib.Path:
    """The path itself; Trouble where it is a device without an end, as /dev/zero."""
    mode = path.stat().st_mode
    if (stat.S_ISCHR(mode) or stat.S_ISBLK(mode)) and str(path) not in (
        os.devnull,
        '/dev/stdin',
        '/dev/tty',
    ):
        raise Trouble(f'{path} is a device, and no file')
    return path


def _pieces(file: IO[bytes] | Unpacked, name: str, most: int) -> Iterator[bytes]:
    """What a file has; Trouble where it is more than so many bytes."""
    count = 0
    while piece := file.read(PIECE):
        count += len(piece)
        if count > most:
            raise Trouble(
                f'{name} has more than {most} bytes when it is unpacked: split it, or take a part of it'
            )
        yield piece


def named(name: str) -> str:
    """The name of a file for another program's command line: one that begins with a dash is none of
    its options.
    """
    return './' + name if name.startswith('-') else name


def check_outputs(
    names: Iterable[str], read: Iterable[str], folder: os.PathLike[str] | str
) -> None:
    """Refused where an output of a command is a file that the same command reads, another of its
    outputs, or a file of the day in a folder.
    """
    taken = [('/dev/stdin' if name == '-' else name, 'read by the same command') for name in read]
    for name in names:
        for other, what in taken:
            if is_same(name, other):
                raise Refused(f'{name} isn\'t written: it is {what}; name another file')
        if is_of_day(name, folder):
            raise Refused(
                f'{name} isn\'t written: it is a file of the day itself; name another file'
            )
        taken.append((name, 'another output of the same command'))


def is_same(one: str, other: str) -> bool:
    """Whether two names are of one file, which may not be there yet."""
    if os.path.exists(one) and os.path.exists(other):
        return os.path.samefile(one, other)
    return os.path.realpath(one) == os.path.realpath(other)


def is_of_day(name: str, folder: os.PathLike[str] | str) -> bool:
    """Whether a name, or what it is a link to, is one that files of a day have, and in the folder
    of the day.
    """
    places = [
        os.path.join(os.path.realpath(os.path.dirname(name)), os.path.basename(name)),
        os.path.realpath(name),
    ]
    return any(
        os.path.dirname(place) == os.path.realpath(folder) and day.is_own(os.path.basename(place))
        for place in places
    )


def write_own(name: str, text: str, mark: bytes, force: bool) -> None:
    """Writes a file whole or not at all, of `-` to standard output; Refused as by `check_own`."""
    check_own(name, mark, force)
    if name == '-':
        printing.document(text)
    else:
        day.write_whole(name, text)


def check_own(name: str, mark: bytes, force: bool) -> None:
    """Refused where a file is there already and wasn't written so by yoke, which its `mark` near
    its begin tells, unless `force`.

    It may hold work that is nowhere else. Trouble where it is a folder.
    """
    path = pathlib.Path(name)
    if name == '-':
        return
    if path.is_dir():
        raise Trouble(f'{name} is a folder')
    if path.exists() and not force:
        with open(path, 'rb') as there:
            if mark not in there.read(400):
                raise Refused(
                    '{} is there, and wasn\'t written by yoke: name another file, or --force'.format(
                        name
                    )
                )


def write_new(name: str, lines: Iterable[str]) -> None:
    """Writes lines, each with its line feed, to a file whole or not at all, and never over another
    one: Refused if a file has the name by then."""
    path = pathlib.Path(name)
    new = path.with_name(f'{path.name}.{os.getpid()}.new')
    try:
        with open(new, 'x', encoding='utf-8', newline='\n') as file:
            file.writelines(lines)
            file.flush()
            os.fsync(file.fileno())
        give_name(new, path)
    finally:
        with contextlib.suppress(FileNotFoundError):
            new.unlink()
    day.sync_folder(path.parent)


def give_name(new: pathlib.Path, path: pathlib.Path) -> None:
    """Gives a whole file its name, unless another file has it: then Refused."""
    try:
        os.link(new, path)
    except FileExistsError:
        raise Refused(
            f'{path} is there by now, and isn\'t written over: name another file'
        ) from None
    except OSError:  # a file system without hard links
        if os.path.lexists(path):
            raise Refused(
                f'{path} is there by now, and isn\'t written over: name another file'
            ) from None
        os.rename(new, path)
