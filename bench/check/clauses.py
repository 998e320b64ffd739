#!/usr/bin/env python3
"""clauses.py [--explained FILE] [BEFORE [AFTER]]: which promises differ between two states of this
repository.

BEFORE and AFTER are folders of a checkout, or commits of this one; BEFORE is by default the release
that RELEASE names, and AFTER the files as they stand. It compares

- each clause of each function that a crate lends to those above: an `ensures` that is gone or reads
  otherwise, a `requires` that is new or reads otherwise, and a function that isn't lent any more;
- each field of each record of specs/: one that is gone or reads otherwise;
- each other definition of specs/ that is gone or reads otherwise, since it says what a clause means.

What is only added weakens nothing, but for a `requires`, and isn't told unless `--all` asks for it.
Each difference has a line

    KIND CRATE NAME: WHAT

A line of FILE explains one, as `CRATE NAME: why no promise is weaker`; NAME may end with `*`. Since
the release that is bench/check/clauses.txt. The status is 0 where each difference is explained and
each explanation is of one. It compares the text, without layout and comments, and judges no
meaning: that is for who reads its lines. Where the checkout has no history, the release can't be
read, and it says so.
"""
import argparse
import fnmatch
import pathlib
import re
import subprocess
import sys
from dataclasses import dataclass
from typing import Dict, Iterator, List, Mapping, Optional, Protocol, Tuple

TOP = pathlib.Path(__file__).resolve().parents[2]

# why no promise is weaker than in the release
EXPLAINED = TOP / 'bench/check/clauses.txt'

FUNCTION = re.compile(r'^( *)(pub(?:\([a-z]+\))? )?(?:const )?fn (\w+)')
CLAUSE = re.compile(r'^\s*(ensures|requires)\b ?(\w*) ?\{')
OWNER = re.compile(r'^(?:impl(?:<.*?>)? (?:(\w+)(?:<.*>)? for )?(\w+)|pub trait (\w+))')
HEAD = re.compile(r'^(?:(?:abbrev|unfoldable) pub |pub (record|data) )(\S+)')
FIELD = re.compile(r'^  pub (\S+) : ?(.*)$')


class Source(Protocol):
    """A state of the repository."""

    def names(self) -> List[str]:
        """The paths of its files below crates/, from its top."""

    def text(self, name: str) -> str:
        """The text of one of them."""


@dataclass(frozen=True)
class Folder:
    """A checkout."""

    top: pathlib.Path

    def names(self) -> List[str]:
        """The paths of its files below crates/, from its top."""
        found = self.top.glob('crates/*/s*/**/*')
        return sorted(
            str(it.relative_to(self.top)) for it in found if it.suffix in ('.rt', '.antt')
        )

    def text(self, name: str) -> str:
        """The text of one of them."""
        return (self.top / name).read_text(encoding='utf-8')


@dataclass(frozen=True)
class Commit:
    """A commit of the repository in this folder."""

    home: pathlib.Path
    name: str

    def _git(self, *words: str) -> str:
        done = subprocess.run(
            ['git', '-C', str(self.home), *words], stdout=subprocess.PIPE, check=True
        )
        return done.stdout.decode('utf-8')

    def names(self) -> List[str]:
        """The paths of its files below crates/, from its top."""
        listed = self._git('ls-tree', '-r', '--name-only', self.name, 'crates').splitlines()
        return [it for it in listed if re.match(r'crates/\w+/(src/.*\.rt|specs/.*\.antt)$', it)]

    def text(self, name: str) -> str:
        """The text of one of them."""
        return self._git('show', f'{self.name}:{name}')


@dataclass(frozen=True, order=True)
class Said:
    """What is said at one place: the crate, what kind of promise it is, its name, and its text in
    one line.
    """

    crate: str
    kind: str
    name: str
    text: str


def plain(text: str) -> str:
    """A text in one line, without comments."""
    lines = [re.sub(r'(^|\s)(//|--).*', '', line) for line in text.split('\n')]
    return ' '.join(' '.join(lines).split())


def in_braces(text: str, start: int) -> str:
    """What stands between the brace at `start` and the one that closes it."""
    depth = 0
    for at in range(start, len(text)):
        depth += {'{': 1, '}': -1}.get(text[at], 0)
        if not depth:
            return text[start + 1 : at]
    raise ValueError('a brace is not closed: ' + text[start : start + 80])


def lent(text: str) -> List[str]:
    """The names that a crate's root lends to the crates above, or a program's own functions."""
    uses = re.findall(r'^pub use ([^;]*);', text, re.M)
    own = re.findall(r'^(?:pub )?(?:fn|struct|enum|trait) (\w+)', text, re.M)
    return re.findall(r'\w+', ' '.join(uses)) + own


def owner_of(line: str) -> Optional[str]:
    """The type or trait to which the functions below this line belong, None where it begins no such
    part.
    """
    found = OWNER.match(line)
    if not found:
        return None
    trait, kind, own = found.groups()
    return own or (f'{kind} as {trait}' if trait else kind)


@dataclass(frozen=True)
class Clause:
    """A clause: `ensures` or `requires`, its name, '' where it has none, and its text in one line."""

    kind: str
    name: str
    text: str


def functions_of(text: str, is_program: bool = False) -> Iterator[Tuple[str, List[Clause]]]:
    """The functions of a file that others may call, each with its clauses."""
    owner, shares, lines, at = '', False, text.split('\n'), 0
    offsets = [0]
    for line in lines:
        offsets.append(offsets[-1] + len(line) + 1)
    while at < len(lines):
        line = lines[at]
        begun = owner_of(line)
        owner = begun or ('' if line == '}' else owner)
        shares = is_program or (
            ' as ' in begun or line.startswith('pub trait') if begun else shares and bool(owner)
        )
        head = FUNCTION.match(line)
        at += 1
        if not head or not (head[2] or shares):
            continue
        clauses: List[Clause] = []
        ends = (head[1] + '{', head[1] + '}')
        while at < len(lines) and lines[at].rstrip() not in ends and not FUNCTION.match(lines[at]):
            found = CLAUSE.match(lines[at])
            if found:
                said = in_braces(text, offsets[at] + found.end() - 1)
                clauses.append(Clause(found[1], found[2], plain(said)))
            at += 1
        yield (f'{owner}::{head[3]}' if owner else head[3]), clauses


def clauses_of(crate: str, roots: List[str], path: str, text: str) -> Iterator[Said]:
    """The clauses of the functions of a file that its crate lends to those above."""
    is_program = path.endswith('main.rt')
    for name, clauses in functions_of(text, is_program):
        if is_program or re.split(r'::| as ', name)[0] in roots:
            yield Said(crate, 'call', name, '')
            for number, it in enumerate(clauses):
                yield Said(crate, it.kind, f'{name} {it.name or number}', it.text)


def parts_of(text: str) -> Iterator[Tuple[str, str]]:
    """The definitions that a file of specs/ lends, each with its lines."""
    name = ''
    block: List[str] = []
    for line in text.split('\n'):
        head = HEAD.match(line)
        if head or name and line and not line[0].isspace() and not line.startswith(name):
            if name:
                yield name, '\n'.join(block)
            name, block = (head[2], []) if head else ('', [])
        if name:
            block.append(line)
    if name:
        yield name, '\n'.join(block)


def definitions_of(crate: str, text: str) -> Iterator[Said]:
    """The definitions of a file of specs/, records by their fields."""
    for name, block in parts_of(text):
        if not block.startswith('pub record '):
            yield Said(crate, 'definition', name, plain(block))
            continue
        first, *rest = re.split(r'^(?=  pub )', block, flags=re.M)
        yield Said(crate, 'record', name, plain(first))
        for field in rest:
            found = FIELD.match(field.split('\n')[0])
            if found:
                yield Said(crate, 'field', f'{name} {found[1]}', plain(field))


# all that a state of the repository promises, by crate, kind and name
Promises = Dict[Tuple[str, str, str], str]


def said_in(source: Source) -> Promises:
    """All that a state of the repository promises."""
    found: Promises = {}
    names = source.names()
    roots: Dict[str, List[str]] = {}
    for name in names:
        if name.endswith(('src/lib.rt', 'src/main.rt')):
            roots.setdefault(name.split('/')[1], []).extend(lent(source.text(name)))
    for name in names:
        crate = name.split('/')[1]
        if name.endswith('.rt'):
            told = clauses_of(crate, roots.get(crate, []), name, source.text(name))
        else:
            told = definitions_of(crate, source.text(name))
        for it in told:
            found[it.crate, it.kind, it.name] = it.text
    return found


def differences(before: Promises, after: Promises, everything: bool = False) -> List[Said]:
    """What differs, in the order of crates: what is gone or reads otherwise, what is asked anew,
    and what else is new where everything is wanted.
    """
    found = []
    for (crate, kind, name), text in before.items():
        if (crate, kind, name) not in after:
            if kind != 'requires':
                found.append(Said(crate, kind, name, 'gone'))
        elif after[crate, kind, name] != text:
            found.append(Said(crate, kind, name, 'reads otherwise'))
    for crate, kind, name in after:
        if (crate, kind, name) not in before:
            of_new = kind == 'requires' and (crate, 'call', name.rpartition(' ')[0]) not in before
            if everything or kind == 'requires' and not of_new:
                found.append(Said(crate, kind, name, 'new'))
    return sorted(found)


def explanations(text: str) -> Dict[str, str]:
    """The explanations of a file, by `CRATE NAME`."""
    found = {}
    for line in text.splitlines():
        name, colon, why = line.partition(': ')
        if line.strip() and not line.startswith('#'):
            if not colon or not why.strip():
                raise ValueError(f'this line explains nothing: {line}')
            found[name] = why
    return found


def explained_by(found: Said, listed: Mapping[str, str]) -> Optional[str]:
    """The name of the explanation of a difference, None where there is none."""
    name = f'{found.crate} {found.name}'
    return next((it for it in listed if fnmatch.fnmatchcase(name, it)), None)


def source_of(word: str) -> Source:
    """The state that a word names."""
    path = pathlib.Path(word)
    if (path / 'crates').is_dir():
        return Folder(path)
    return Commit(TOP, word)


def released(text: str) -> str:
    """The commit of the release, from the text of RELEASE."""
    found = re.search(r'^commit: ([0-9a-f]{40})$', text, re.M)
    if not found:
        raise ValueError('RELEASE names no commit')
    return found[1]


def is_there(commit: str) -> bool:
    """Whether this checkout has the commit."""
    asked = ['git', '-C', str(TOP), 'cat-file', '-e', f'{commit}^{{commit}}']
    return subprocess.run(asked, stderr=subprocess.DEVNULL, check=False).returncode == 0


def compare(
    before: Promises, after: Promises, listed: Mapping[str, str], everything: bool = False
) -> Tuple[List[str], List[str]]:
    """The lines of the differences, and what isn't as it has to be: a difference that no line
    explains, and an explanation of none.
    """
    used, told, wrong = set(), [], []
    for it in differences(before, after, everything):
        why = explained_by(it, listed)
        used.add(why)
        line = f'{it.kind} {it.crate} {it.name}: {it.text}'
        told.append(line + (f' ({listed[why]})' if why else ''))
        if why is None and (it.text != 'new' or it.kind == 'requires'):
            wrong.append(f'nothing explains: {line}')
    wrong += [f'there is no such difference: {name}' for name in listed if name not in used]
    return told, wrong


def main() -> int:
    """Prints the differences; 1 where one isn't explained, or an explanation is of none."""
    words = argparse.ArgumentParser(
        description=__doc__, formatter_class=argparse.RawDescriptionHelpFormatter
    )
    words.add_argument('before', nargs='?')
    words.add_argument('after', nargs='?', default=str(TOP))
    words.add_argument('--explained', metavar='FILE', type=pathlib.Path)
    words.add_argument('--all', action='store_true', help='what is only added too')
    given = words.parse_args()
    before = given.before or released((TOP / 'RELEASE').read_text(encoding='utf-8'))
    file = given.explained or (None if given.before else EXPLAINED)
    if not given.before and not is_there(before):
        print(
            f'clauses: not compared: this checkout has no history, so not the release at {before}'
        )
        return 0
    listed = explanations(file.read_text(encoding='utf-8')) if file else {}
    told, wrong = compare(
        said_in(source_of(before)), said_in(source_of(given.after)), listed, given.all
    )
    print('\n'.join(told))
    for line in wrong:
        print(f'clauses: {line}', file=sys.stderr)
    print(f'{len(told)} differences, {len(wrong)} not explained or not there')
    return 1 if wrong else 0


if __name__ == '__main__':
    sys.exit(main())
