"""What results are kept under: hashes of the text and the toolkit that they were made from.

A key covers all that a proof read: the toolkit (its own line and the bytes of its programs), the
words of the call but for folders and jobs, the crate's line of crates.txt, each file of its src/,
specs/ and proofs/ by name and bytes, and the keys of the crates below it, so theirs too.
"""
import hashlib
import json
import os
import stat

from launcher import calls
from launcher.crates import PARTS
from launcher.messages import Stop

FORM, FORM_PLAIN = 'yokeorange launcher 1', 'yokeorange plain 1'


def of(*parts):
    """One hash over texts, in which no two lists of texts come out alike."""
    return hashlib.sha256(json.dumps(parts).encode('ascii')).hexdigest()


def of_file(path):
    """The SHA-256 of a file's bytes."""
    total = hashlib.sha256()
    with open(path, 'rb') as file:
        for piece in iter(lambda: file.read(1 << 20), b''):
            total.update(piece)
    return total.hexdigest()


def files_below(folder):
    """The names of all files below a folder, relative to it, sorted. A link or another thing that
    is no file is refused.
    """
    found = []
    for holder, folders, names in os.walk(folder):
        for name in folders + names:
            path = os.path.join(holder, name)
            mode = os.lstat(path).st_mode
            if stat.S_ISREG(mode):
                found.append(os.path.relpath(path, folder))
            elif not stat.S_ISDIR(mode):
                raise Stop(f'{path} is neither a file nor a folder')
    return sorted(found)


def of_folder(folder, names=None):
    """One hash over the names and bytes of a folder's files: of all, or of those named."""
    names = files_below(folder) if names is None else names
    return of(*([os.fsencode(name).hex(), of_file(os.path.join(folder, name))] for name in names))


def of_text(home, crate):
    """One hash over a crate's sources and its line of crates.txt."""
    folder = os.path.join(home, 'crates', crate.name)
    names = []
    for part in PARTS:
        names += [os.path.join(part, it) for it in files_below(os.path.join(folder, part))]
    return of(crate.line, of_folder(folder, names))


def of_texts(home, crates):
    """The hash of each crate's text, by name."""
    return {name: of_text(home, it) for name, it in crates.items()}


def of_sources(texts):
    """One hash over the texts of all crates that a program needs: what tells whether it is of these
    sources.
    """
    return of(FORM, sorted(texts.items()))


def of_plain(home, crates):
    """One hash over all that a plain build reads: the sources of the crates and their lines, the
    export itself, the version.
    """
    found = [
        [name, it.line, of_folder(os.path.join(home, 'crates', name, 'src'))]
        for name, it in sorted(crates.items())
    ]
    folder = os.path.join(home, 'plain')
    own = [
        it
        for it in files_below(folder)
        if not it.startswith('tests' + os.sep) and '__pycache__' not in it
    ]
    return of(
        FORM_PLAIN, found, of_folder(folder, own), of_file(os.path.join(home, 'CHANGELOG.md'))
    )


def plain_again(home):
    """The same, read once more."""
    from launcher import build

    return of_plain(home, build.needed(home))


def of_crates(crates, texts, toolkit):
    """The key of each crate's proof, by name. `crates` has each after those below it; `toolkit` is
    its identity.
    """
    found = {}
    for name, crate in crates.items():
        words = calls.proof(crate, crates, 'KIT', 'RLIBS', 'TO')
        found[name] = of(
            FORM, toolkit, words, texts[name], sorted([it, found[it]] for it in crate.below)
        )
    return found
