"""The crates of the repository, as crates.txt lists them."""
import os
from dataclasses import dataclass

from launcher.messages import Stop

PARTS = ('src', 'specs', 'proofs')


@dataclass(frozen=True)
class Crate:
    """A crate: its line of crates.txt, the libraries that it names, and those of them that are the
    repository's.
    """

    name: str
    line: str
    libraries: tuple
    below: tuple
    is_program: bool
    lines: int


def lines_of_code(folder):
    """The lines of Rattle (.rt) in a crate's folder."""
    total = 0
    for holder, _, names in os.walk(os.path.join(folder, 'src')):
        for name in names:
            if name.endswith('.rt'):
                with open(os.path.join(holder, name), 'rb') as file:
                    total += file.read().count(b'\n')
    return total


def listed(text):
    """The libraries that each crate of a crates.txt names, by the crate's name."""
    found = {}
    for line in text.splitlines():
        head, colon, libraries = line.partition('#')[0].partition(':')
        if not head.strip():
            continue
        words = head.split()
        if not colon or len(words) != 1:
            raise Stop(
                'crates.txt has the line "{}", and the launcher reads NAME: DEP DEP .. alone'.format(
                    line.strip()
                )
            )
        if words[0] in found:
            raise Stop(f'crates.txt lists {words[0]} twice')
        found[words[0]] = tuple(libraries.split())
    return found


def read(home, names):
    """The crates named and all of the repository that they stand on, by name, each after those
    below it.

    Raises `Stop` where one isn't listed, has no source, or stands on itself.
    """
    with open(os.path.join(home, 'crates.txt'), encoding='utf-8') as file:
        every = listed(file.read())
    found, opened = {}, []

    def add(name):
        if name in found:
            return
        if name in opened:
            raise Stop(
                'crates.txt: {} stands on itself'.format(
                    ' on '.join([*opened[opened.index(name) :], name])
                )
            )
        if name not in every:
            raise Stop(f'crates.txt doesn\'t list {name}')
        opened.append(name)
        below = tuple(it for it in every[name] if it in every)
        for it in below:
            add(it)
        opened.pop()
        found[name] = crate(home, name, every[name], below)

    for name in names:
        add(name)
    return found


def crate(home, name, libraries, below):
    """One crate, with what its folder tells."""
    folder = os.path.join(home, 'crates', name)
    is_program = os.path.isfile(os.path.join(folder, 'src', 'main.rt'))
    if not is_program and not os.path.isfile(os.path.join(folder, 'src', 'lib.rt')):
        raise Stop(
            'crates.txt lists {}, and {} has neither src/lib.rt nor src/main.rt'.format(
                name, folder
            )
        )
    line = '{}: {}'.format(name, ' '.join(libraries))
    return Crate(name, line, libraries, below, is_program, lines_of_code(folder))


def all_below(crates):
    """The names of all crates on which each one stands, directly or not. `crates` has each after
    those below it.
    """
    found = {}
    for name, it in crates.items():
        found[name] = set(it.below).union(*(found[below] for below in it.below))
    return found
