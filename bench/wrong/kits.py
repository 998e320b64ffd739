"""What `run`, and bench/time/proofs, need of the toolkit, by the `rt` that there is.

`rattle-kit-13f` keeps beside itself what `rt ci` proved: `Keeping` takes the libraries from there.
With `rattle-kit-13b`, which keeps nothing (`Building`), and where `rt ci` kept none, those are
taken that `./editor --prove --keep` left in the launcher's folder (`Launched`), which are of the
same text by the same toolkit or aren't taken. Each other one is built as `rt ci` does.
"""
import hashlib
import importlib.machinery
import importlib.util
import os
import pathlib
import re
import shutil
import subprocess
import sys
import tempfile

from launcher import calls, crates as crates_txt, keys, toolkit
from launcher.store import Store, default_folder

REFUSED, MISSED, BAD, UNSURE = 'refused', 'NOT REFUSED', 'BAD EDIT', 'NOT TRIED'

# what is read of each `rt`, and what the one has that keeps what it proved
READ_OF_ALL = [
    'Crate',
    'crates_of',
    'free',
    'handles_of',
    'must_fail',
    'need',
    'processors',
    'read_edit',
    'rtlib',
]
READ_OF_KEEPING = [
    'AT_LIMIT',
    'BAD',
    'Kept',
    'MISSED',
    'REFUSED',
    'checked',
    'copy_crates',
    'stamp_of',
]
# the parts of a crate's folder that its proof reads
PARTS = ('src', 'specs', 'proofs')


def load_rt():
    """The toolkit's `rt`, as a module."""
    if not shutil.which('rt'):
        sys.exit('there is no rt: install the toolkit that README.md names')
    page = subprocess.run(['rt', 'doc'], stdout=subprocess.PIPE, text=True).stdout.strip()
    loader = importlib.machinery.SourceFileLoader(
        'rt', str(pathlib.Path(page).parent / 'bin' / 'rt')
    )
    rt = importlib.util.module_from_spec(importlib.util.spec_from_loader('rt', loader))
    loader.exec_module(rt)
    return rt


def kit_of(rt, top, root, room):
    """The kit for this `rt`, for a copy of the checkout at `top` that comes to stand at `root`,
    with a folder for what it needs.
    """
    missing = [name for name in READ_OF_ALL if not hasattr(rt, name)]
    if missing:
        sys.exit(
            "run: this toolkit's rt has no {}; the one that README.md names has".format(
                ', '.join(missing)
            )
        )
    keeps = all(hasattr(rt, name) for name in READ_OF_KEEPING)
    return (Keeping if keeps else Building)(rt, top, root, room)


class Kit:
    """What all kits do alike: a copy of the crates, and libraries in their places below those that
    are tried.
    """

    def __init__(self, rt, top, root, room):
        self.rt, self.top, self.root, self.room = rt, str(top), root, room
        self.copy()
        os.mkdir(root + '/.git')  # to rt it is the top of a repository
        os.chdir(root)
        rt.rtlib.guarded()  # ends what this starts, however this ends; only the first thread may call it
        rt.Crate.allowed, rt.Crate.cuts_libraries = rt.handles_of(root), True
        self.crates = {crate.name: crate for crate in self.read()}
        self.launched = Launched(top, self.crates)

    def lay(self, names, jobs):
        """Puts the libraries below these crates in their places: those that are kept, and else as
        they are proved now.
        """
        below = {crate.name for name in names for crate in self.crates[name].below()}
        for crate in self.crates.values():  # lowest first
            if crate.name in below:
                if not self.give(crate):
                    print(f'{crate.name}: {self.LACKS}, so it is proved first', flush=True)
                    self.build(crate, jobs)
                self.laid(crate)

    def build(self, crate, jobs):
        """Builds a library as `rt ci` does: proved from nothing, with its statements alone."""
        with tempfile.TemporaryFile('w+', errors='replace') as crate.out:
            if crate.build_rlib(['--jobs', str(jobs)], anew=True):
                crate.out.seek(0)
                sys.exit(f'run: {crate.name} is not proved:\n{crate.out.read()[-3000:]}')

    def laid(self, crate):
        """A library is in its place."""


class Keeping(Kit):
    """A kit whose `rt ci` keeps beside the toolkit what it proved."""

    LACKS = 'neither rt ci nor ./editor --prove --keep left a proof of it on this machine'

    def __init__(self, rt, top, root, room):
        super().__init__(rt, top, root, room)
        rt.Kept.drop = (
            lambda kept, path: None
        )  # the store is the gate's: it is read, and nothing in it is removed
        self.kept, self.stamps, self.seeds = rt.Kept(list(self.crates.values())), {}, {}

    def copy(self):
        self.rt.copy_crates(self.top, self.root)

    def read(self):
        return self.rt.crates_of(self.root)

    def stamp(self, name):
        """A sum of all that a verdict on a crate stands on."""
        return self.rt.stamp_of(self.crates[name], self.stamps)

    def give(self, crate):
        """Whether the library was kept, and stands in its place now."""
        return self.kept.give(crate, False, self.kept.key(crate)) or self.launched.give(crate)

    def laid(self, crate):
        self.kept.is_built(crate)

    def begin(self, name):
        """Checks a crate as it stands, so that edits of it which are tried alone go over what that
        leaves.
        """
        seed = f'{self.room}/seed-{name}'
        os.mkdir(seed)
        if self.rt.checked(self.crates[name], {}, ['--jobs', '1'], seed).returncode == 0:
            self.seeds[name] = seed

    def must_fail(self, name, edit):
        """What comes of an edit that is tried alone, and rt's line on it: over what a check of the
        crate as it stands left, if there is that, and else, or where that doesn't refuse it, from
        nothing.
        """
        if name in self.seeds:
            with tempfile.TemporaryDirectory(dir=self.room) as over:
                shutil.copytree(self.seeds[name], over, dirs_exist_ok=True)
                told = self.told(self.rt.must_fail(self.crates[name], edit, ['--jobs', '1'], over))
            if told[0] == REFUSED:
                return told
        return self.told(self.rt.must_fail(self.crates[name], edit, ['--jobs', '1']))

    def told(self, tried):
        """What rt says of an edit, in the words of this file."""
        rt, (kind, text) = self.rt, tried
        return {rt.REFUSED: REFUSED, rt.AT_LIMIT: REFUSED, rt.BAD: BAD, rt.MISSED: MISSED}.get(
            kind, UNSURE
        ), text


class Building(Kit):
    """A kit whose `rt ci` keeps nothing."""

    LACKS = './editor --prove --keep left no proof of it on this machine'

    def __init__(self, rt, top, root, room):
        super().__init__(rt, top, root, room)

    def copy(self):
        os.mkdir(self.root)
        for name in ('crates.txt', 'HANDLES'):
            if os.path.exists(os.path.join(self.top, name)):
                shutil.copyfile(os.path.join(self.top, name), os.path.join(self.root, name))
        for crate in os.listdir(os.path.join(self.top, 'crates')):
            for part in PARTS:
                if os.path.isdir(os.path.join(self.top, 'crates', crate, part)):
                    shutil.copytree(
                        os.path.join(self.top, 'crates', crate, part),
                        os.path.join(self.root, 'crates', crate, part),
                    )

    def read(self):
        aside = self.room + '/aside'
        os.mkdir(aside)
        found = self.rt.crates_of(self.root, aside)
        # rtlib reckons the sum of a crate anew for each one above it; of a copy that nobody changes
        # once is enough
        sums, stamp = {}, self.rt.rtlib.Crate.stamp

        def stamp_once(crate):
            if crate.folder not in sums:
                sums[crate.folder] = stamp(crate)
            return sums[crate.folder]

        self.rt.rtlib.Crate.stamp = self.rt.Crate.stamp = stamp_once
        return found

    def begin(self, name):
        """Nothing: this `rt` tries each edit from nothing."""

    def stamp(self, name):
        """A sum of all that a verdict on a crate stands on."""
        return hashlib.sha256(repr((self.crates[name].stamp(), 'built')).encode()).hexdigest()

    def give(self, crate):
        """Whether the launcher kept the library, and it stands in its place now."""
        return self.launched.give(crate)

    def must_fail(self, name, edit):
        """What comes of an edit that is tried alone, and rt's line on it."""
        well, text = self.rt.must_fail(self.crates[name], edit, ['--jobs', '1'])
        if well:
            return REFUSED, text
        if 'NOT REFUSED' in text:
            return MISSED, text
        # where it ended before the prover, a front end that refuses the text says so; else it was
        # killed
        return (
            BAD
            if 'did not reach the prover' not in text or re.search(r'\berror\b', text)
            else UNSURE
        ), text


class Launched:
    """The libraries that the launcher proved and kept of this text, by this toolkit."""

    def __init__(self, top, crates):
        self.store, self.given = Store(default_folder()), set()
        self.keys, self.logic = self.keys_of(str(top), list(crates))

    def keys_of(self, top, names):
        """The key under which the launcher keeps each library, and the sum of the logic that it was
        proved over.
        """
        kit = toolkit.find(self.store)
        if not kit or not os.path.isdir(self.store.path('rlib')):
            return {}, ''
        listed = crates_txt.read(top, names)
        return keys.of_crates(listed, keys.of_texts(top, listed), kit.identity), kit.logic

    def give(self, crate):
        """Whether the launcher kept this library of the same text by the same toolkit, over
        libraries that are taken too: then it stands in its place now. Statements fit only the
        libraries over which they were proved.
        """
        verdict = (
            self.store.verdict_of(crate.name, self.keys[crate.name])
            if crate.name in self.keys
            else None
        )
        if (
            not verdict
            or not calls.is_verdict(False, verdict, self.logic)
            or not self.given.issuperset(it.name for it in crate.below())
        ):
            return False
        shutil.rmtree(os.path.dirname(crate.rlib), ignore_errors=True)
        shutil.copytree(self.store.rlib(crate.name), crate.rlib, copy_function=link_or_copy)
        self.given.add(crate.name)
        return True


def link_or_copy(source, target):
    """A second name for a file that nobody writes to, or a copy on another file system."""
    try:
        os.link(source, target)
    except OSError:
        shutil.copy2(source, target)
