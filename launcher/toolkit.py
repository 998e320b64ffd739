"""Where the Rattle toolkit is, which one it is, and whether it is of the kind that the launcher was
made for.
"""
import contextlib
import json
import os
import re
import shutil
import subprocess
from dataclasses import dataclass

from launcher import calls, keys
from launcher.messages import Stop
from launcher.store import read_record, write_whole

PROGRAMS = ('bin/rattle', 'bin/rattle-link', *calls.ARCHIVES)
PARTS = (*PROGRAMS, 'logic_built', calls.LOGIC, 'rlibs/std.rlib', 'toolchain')
WORDS = (
    '--statements',
    '--logic-built',
    '--crate-checked',
    '--jobs',
    '--extern',
    '--links',
    '--antt-project',
    '--toolchain',
    '--backend',
)
MEMO = 'toolkit.json'


@dataclass(frozen=True)
class Toolkit:
    """A toolkit: its folder ('' where `rt doc` names none), the line by which it names itself, and
    a hash that tells it from every other one.
    """

    folder: str
    line: str
    identity: str

    @property
    def logic(self):
        """The sum of the logic over which it proves, '' where its line names none."""
        found = re.search(r'\blogic ([0-9a-f]+)\b', self.line)
        return found[1] if found else ''


def logic_wanted(home):
    """The sum of the logic that the file TOOLKIT names, '' where it names none."""
    with open(os.path.join(home, 'TOOLKIT'), encoding='utf-8') as page:
        found = re.search(r'\blogic ([0-9a-f]{16})\b', page.read())
    return found[1] if found else ''


def answer(words):
    """What a command writes to standard output; '' where it can't be run."""
    try:
        done = subprocess.run(
            words, stdin=subprocess.DEVNULL, stdout=subprocess.PIPE, stderr=subprocess.DEVNULL
        )
    except OSError:
        return ''
    return done.stdout.decode('utf-8', 'replace').strip()


def marks(paths):
    """What changes where a file is written again or exchanged: so a toolkit of 100 MB isn't hashed
    for each run.
    """
    found = []
    for path in paths:
        try:
            it = os.stat(path)
            found.append([path, it.st_dev, it.st_ino, it.st_size, it.st_mtime_ns, it.st_ctime_ns])
        except OSError:
            found.append([path])
    return found


def find(store):
    """The toolkit whose `rt` is on the path, or None where there is none. Where the store is there
    it remembers the answer.
    """
    rt = shutil.which('rt')
    if not rt:
        return None
    rt = os.path.realpath(rt)
    memo = store.path(MEMO)
    kept = read_record(memo)
    if (
        kept
        and kept.get('rt') == rt
        and kept.get('marks') == marks([rt, *read_by(kept.get('folder'))])
    ):
        return Toolkit(kept['folder'], kept['line'], kept['identity'])
    found = look(rt)
    if os.path.isdir(store.folder):
        record = {'rt': rt, 'folder': found.folder, 'line': found.line, 'identity': found.identity}
        record['marks'] = marks([rt, *read_by(found.folder)])
        with contextlib.suppress(OSError):  # then it is looked at again
            write_whole(memo, json.dumps(record, indent=1) + '\n')
    return found


def read_by(folder):
    """The files by which a toolkit in a folder is known."""
    return [os.path.join(folder, it) for it in ('KIT-ID', *PROGRAMS)] if folder else []


def look(rt):
    """The toolkit of the command `rt`, looked at whole."""
    page = answer([rt, 'doc'])
    folder = (
        os.path.dirname(os.path.realpath(page))
        if os.path.isabs(page) and os.path.isfile(page)
        else ''
    )
    line = answer([rt, 'version'])
    sums = [keys.of_file(it) if os.path.isfile(it) else '' for it in read_by(folder)]
    return Toolkit(folder, line, keys.of(line, sums or [keys.of_file(rt)]))


def misfits(toolkit, home):
    """What makes this another toolkit than the one that the launcher's own calls were made for:
    nothing where it fits.
    """
    if not toolkit.folder:
        return ['rt doc names no page of it']
    found = [
        f'it has no {it}' for it in PARTS if not os.path.exists(os.path.join(toolkit.folder, it))
    ]
    wanted = logic_wanted(home)
    if wanted and toolkit.logic != wanted:
        found.append(
            'its logic is {}, and TOOLKIT names {}'.format(toolkit.logic or 'not told', wanted)
        )
    if not found:
        said = answer([os.path.join(toolkit.folder, 'bin', 'rattle'), 'build', '--help'])
        found = [f'its rattle build has no {it}' for it in WORDS if it not in said]
    return found


def named(toolkit):
    """The toolkit's name as it is told."""
    return toolkit.line or 'a toolkit that doesn\'t tell its name'


def demand(toolkit, home):
    """The toolkit, or `Stop` where there is none."""
    if toolkit:
        return toolkit
    raise Stop(
        'there is no proved program of these sources yet, and what proves and builds it is missing:\n'
        'there is no command rt, the Rattle toolkit\'s, on the path. {} says which toolkit it is'.format(
            os.path.join(home, 'docs', 'INSTALL.md')
        ),
        127,
    )
