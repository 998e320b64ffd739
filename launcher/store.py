"""The user's own folder for what is kept: the proved libraries of a build that isn't done, built
programs, and logs.

It lies where no clone and no archive can bring it: `$XDG_CACHE_HOME/yokeorange`, else
`~/.cache/yokeorange`, with a mode that lets nobody else in. A result is written apart and renamed,
and counts once its record is there; a record is removed before its result. What is taken again is
held against the record, byte by byte.
"""
import contextlib
import fcntl
import json
import os
import pwd
import shutil
import stat
import tempfile

from launcher import keys
from launcher.messages import Stop

NAME = 'yokeorange'
PROGRAMS_KEPT = 3
# The folders in it. What isn't proved is kept apart from what is.
PARTS = ('log', 'part', 'programs', 'rlib', 'tmp', 'plain', 'plain-programs', 'sources')


def default_folder():
    """Where the folder is to be, by the environment."""
    base = os.environ.get('XDG_CACHE_HOME', '')
    if not os.path.isabs(base):
        base = os.path.join(os.path.expanduser('~'), '.cache')
    if not os.path.isabs(base):
        raise Stop('there is no home folder: say by XDG_CACHE_HOME where the proofs are to be kept')
    return os.path.join(base, NAME)


def user_name(number):
    """The name of a user, else the number."""
    try:
        return pwd.getpwuid(number).pw_name
    except KeyError:
        return f'user {number}'


def write_whole(path, text):
    """Writes a file so that it has all of its text or isn't there, after a loss of power too."""
    folder = os.path.dirname(path)
    handle, part = tempfile.mkstemp(dir=folder)
    try:
        with os.fdopen(handle, 'w', encoding='utf-8') as file:
            file.write(text)
            file.flush()
            os.fsync(file.fileno())
        os.replace(part, path)
    except BaseException:
        with contextlib.suppress(OSError):
            os.unlink(part)
        raise
    handle = os.open(folder, os.O_RDONLY | os.O_DIRECTORY)
    try:
        os.fsync(handle)
    finally:
        os.close(handle)


def read_record(path):
    """The record that a file holds, or None where there is none that can be read."""
    try:
        with open(path, encoding='utf-8') as file:
            found = json.load(file)
    except (OSError, ValueError):
        return None
    return found if isinstance(found, dict) else None


def remove(path):
    """Removes a file or a folder, if it is there."""
    if os.path.isdir(path) and not os.path.islink(path):
        shutil.rmtree(path)
    else:
        with contextlib.suppress(FileNotFoundError):
            os.unlink(path)


class Store:
    """The folder, which is the user's and nobody else's."""

    def __init__(self, folder):
        self.folder = folder
        if os.path.lexists(folder):
            self.hold_to_owner()

    def make(self, home):
        """Makes the folder and its parts where they aren't there. `home` is the checkout, in which
        it may not lie.
        """
        folder = self.folder
        if os.path.realpath(folder).startswith(os.path.realpath(home) + os.sep):
            raise Stop(f'{folder} lies in the checkout: set XDG_CACHE_HOME to a folder outside it')
        try:
            os.makedirs(os.path.dirname(folder), mode=0o700, exist_ok=True)
            with contextlib.suppress(FileExistsError):
                os.mkdir(folder, 0o700)
            self.hold_to_owner()
            for part in PARTS:
                os.makedirs(self.path(part), mode=0o700, exist_ok=True)
            with tempfile.TemporaryFile(dir=folder):
                pass
        except OSError as error:
            raise Stop(
                '{} can\'t be written: {}. XDG_CACHE_HOME names another folder'.format(
                    folder, error.strerror
                )
            ) from error

    def hold_to_owner(self):
        """Refuses a folder that another user made or can write to: what lies in it is believed."""
        found = os.lstat(self.folder)
        if not stat.S_ISDIR(found.st_mode):
            raise Stop(
                '{} is no folder, and what is proved is kept in one of that name'.format(
                    self.folder
                )
            )
        if found.st_uid != os.geteuid():
            raise Stop(
                '{} belongs to {}, so what lies in it isn\'t believed'.format(
                    self.folder, user_name(found.st_uid)
                )
            )
        if found.st_mode & 0o077:
            raise Stop(
                '{0} is open to other users, so what lies in it isn\'t believed: chmod 700 {0}'.format(
                    self.folder
                )
            )

    def path(self, *parts):
        """A path in the folder."""
        return os.path.join(self.folder, *parts)

    def log(self, name):
        """The path of a log."""
        return self.path('log', name)

    @contextlib.contextmanager
    def lock(self, text, wait, name='lock'):
        """Holds the folder, or the part of it that a lock of this name stands for, for one
        launcher. Where another has it, `wait` is called with what that one wrote, and it waits.
        """
        with open(self.path(name), 'a+', encoding='utf-8') as file:
            try:
                fcntl.flock(file, fcntl.LOCK_EX | fcntl.LOCK_NB)
            except BlockingIOError:
                file.seek(0)
                wait(file.read().strip())
                fcntl.flock(file, fcntl.LOCK_EX)
            file.truncate(0)
            file.write(text + '\n')
            file.flush()
            yield

    def clear(self, *parts):
        """Empties folders of what no run needs any more."""
        for part in parts:
            for name in os.listdir(self.path(part)):
                remove(self.path(part, name))

    # ---- libraries ----

    def rlib(self, name):
        """The path of a kept library."""
        return self.path('rlib', name + '.rlib')

    def part(self, name):
        """The path to which a library is built, before it is kept."""
        return self.path('part', name + '.rlib')

    def record(self, name):
        """The path of a kept library's record."""
        return self.path('rlib', name + '.json')

    def keep(self, name, key, verdict):
        """Keeps the library that was built at `part`, with its record."""
        total = keys.of_folder(self.part(name))
        self.forget(name)
        os.rename(self.part(name), self.rlib(name))
        record = {'crate': name, 'key': key, 'verdict': verdict, 'sum': total}
        write_whole(self.record(name), json.dumps(record, indent=1) + '\n')

    def forget(self, name):
        """Removes a kept library, its record first."""
        remove(self.record(name))
        remove(self.rlib(name))

    def verdict_of(self, name, key):
        """The verdict of a kept library, or None where there is none of this key whose bytes are
        those of its record.
        """
        record = read_record(self.record(name))
        if not record or record.get('key') != key or not os.path.isdir(self.rlib(name)):
            return None
        try:
            return (
                record.get('verdict')
                if keys.of_folder(self.rlib(name)) == record.get('sum')
                else None
            )
        except (OSError, Stop):
            return None

    def names(self):
        """The names of all that lies among the kept libraries, with or without a record."""
        return sorted({os.path.splitext(it)[0] for it in os.listdir(self.path('rlib'))})

    # ---- programs ----

    def keep_program(self, part, record, among='programs'):
        """Keeps a built program under its key, with its record, and the newest few of those before
        it.
        """
        folder = self.path(among, record['key'])
        remove(folder)
        os.mkdir(folder, 0o700)
        os.rename(part, os.path.join(folder, NAME))
        write_whole(os.path.join(folder, 'record.json'), json.dumps(record, indent=1) + '\n')
        every = [self.path(among, it) for it in os.listdir(self.path(among))]
        for it in sorted(every, key=os.path.getmtime)[:-PROGRAMS_KEPT]:
            remove(it)
        return os.path.join(folder, NAME)

    def program(self, sources, toolkit, among='programs'):
        """A built program of these sources, by the toolkit of this identity or by any (None): its
        path and its record, or None. Its bytes are held against its record.
        """
        with contextlib.suppress(FileNotFoundError, NotADirectoryError):
            return self.program_among(os.listdir(self.path(among)), sources, toolkit, among)
        return None

    def program_among(self, names, sources, toolkit, among):
        """The same, among the programs of these names."""
        for name in names:
            record = read_record(self.path(among, name, 'record.json')) or {}
            if record.get('sources') != sources or toolkit and record.get('toolkit') != toolkit:
                continue
            path = self.path(among, name, NAME)
            if os.path.isfile(path) and keys.of_file(path) == record.get('sha256'):
                return path, record
        return None
