#!/usr/bin/env python3
"""whole.py -o FILE: puts standard input into a file, whole or not at all.

A shell empties the file that stands after its `>` before the command begins. So a command that
fails leaves an empty file, one that is stopped leaves a part, and one that reads the same file
finds nothing in it. Here FILE stays as it was until all of the new text is on the disk. Where
nothing comes it says so, ends with 1 and leaves FILE alone.

The programs beside this one write their files by the functions below.
"""
import os
import pathlib
import sys


def write_whole(path, text):
    """Writes a text to a file, whole or not at all: what stood there before stands there until all
    of the new text is on the disk, and when this returns the file's name is on the disk too.
    ValueError where something else than a file has the name.
    """
    write_bytes_whole(path, text.encode('utf-8'))


def write_bytes_whole(path, data):
    """The same with bytes."""
    path = pathlib.Path(os.path.realpath(path))
    if path.exists() and not path.is_file():
        raise ValueError(f'{path} is no file')
    new = path.with_name(f'{path.name}.{os.getpid()}.new')
    with open(new, 'xb') as file:
        try:
            file.write(data)
            file.flush()
            os.fsync(file.fileno())
        except BaseException:
            os.unlink(new)
            raise
    os.replace(new, path)
    sync_folder(path.parent)


def sync_folder(path):
    """Puts the names in a folder on the disk: without it a power cut may take back that a file was
    made, renamed or removed.
    """
    folder = os.open(path, os.O_RDONLY)
    try:
        os.fsync(folder)
    finally:
        os.close(folder)


def not_among(path, files):
    """ValueError where a file that is to be written is one of those that are read. Without a path
    nothing is written.
    """
    for file in files if path is not None else ():
        if (
            os.path.realpath(path) == os.path.realpath(file)
            or os.path.exists(path)
            and os.path.exists(file)
            and os.path.samefile(path, file)
        ):
            raise ValueError(f'{path} is read, so it is not written: name another file')


def output_named(words):
    """The words of a command without `-o FILE`, and FILE, or None where it isn't there."""
    if '-o' not in words[:-1]:
        return words, None
    at = words.index('-o')
    return words[:at] + words[at + 2 :], words[at + 1]


def put_out(lines, path=None):
    """Writes lines to standard output, or with a path to that file, whole or not at all."""
    text = ''.join(line + '\n' for line in lines)
    if path is None:
        sys.stdout.buffer.write(text.encode('utf-8'))
        sys.stdout.flush()
    else:
        write_whole(path, text)


def main(words):
    words, path = output_named(words)
    if words or path is None:
        sys.exit('whole.py -o FILE')
    data = sys.stdin.buffer.read()
    if not data:
        sys.exit(f'whole.py: nothing came, and {path} is as it was')
    try:
        write_bytes_whole(path, data)
    except (OSError, ValueError) as error:
        sys.exit(f'whole.py: {error}')


if __name__ == '__main__':
    main(sys.argv[1:])
