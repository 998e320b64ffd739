"""Installs the .deb in a new Debian 12 and works with it; or times a first run from a clone there.

    python3 -m tools.release.try_package package FILE.deb [--base FOLDER]
    python3 -m tools.release.try_package clone [--base FOLDER] [--check]

`package` installs the package by apt, runs what README.md has under "First run" and "A day with
yoke" as a user without rights, removes the package, and fails where a file is left. `clone`
installs cargo-web and rustc-web, clones this checkout, and times README's first command on two
processors, once more, and after a change in a crate at the top; --check runs ./check --quick too.

Needs root, debootstrap and Debian's archive. The new system goes into a temporary folder; --base
keeps it before anything is installed, so that the next trial begins at once. No process that it
started outlives it.
"""
from __future__ import annotations

import argparse
import os
import pathlib
import re
import shutil
import subprocess
import sys
import tempfile
import threading
import time
from dataclasses import dataclass

from launcher.messages import Stop
from tools.release import commit

MIRROR = 'http://deb.debian.org/debian'
SOURCES = '''deb http://deb.debian.org/debian bookworm main
deb http://deb.debian.org/debian bookworm-updates main
deb http://deb.debian.org/debian-security bookworm-security main
'''
CARGO = ('python3', 'python3-urllib3', 'git', 'ca-certificates', 'cargo-web', 'rustc-web')
USER, WORK = 'mapper', '/home/mapper'
PATH = '/usr/local/bin:/usr/bin:/bin:/usr/sbin:/sbin'
# What apt and the trial themselves change.
PASSED_OVER = (
    '/proc',
    '/sys',
    '/dev',
    '/tmp',
    '/var/cache',
    '/var/lib/apt',
    '/var/lib/dpkg',
    '/var/log',
    WORK,
    '/trial.deb',
)
# The most that a trial of a clone may take: seconds and, for memory, bytes.
FIRST, AGAIN, EDITED, MEMORY = 40.0, 0.2, 10.0, 300e6
TOP_CRATE = 'edit_session'
EACH_LOOK = 0.05


@dataclass(frozen=True)
class Told:
    """What a command took: seconds, seconds of processors, and the most memory in bytes.

    `largest` is the most that one process had, with the parts of programs and libraries that it
    shares with others; `own` is what all had at once that only they have.
    """

    seconds: float
    processor: float
    largest: int
    own: int

    def text(self) -> str:
        """As a line has it."""
        memory = (
            f'largest process {self.largest / 1e6:.0f} MB, all their own {self.own / 1e6:.0f} MB'
        )
        return f'{self.seconds:.2f} s, {self.processor:.2f} s of processors, {memory}'


class Debian:
    """A Debian 12 in a folder."""

    def __init__(self, root: pathlib.Path) -> None:
        self.root = root

    def make(self, base: pathlib.Path | None) -> None:
        """Makes it, out of what `base` keeps where that is there."""
        if base and base.is_dir():
            subprocess.run(['cp', '-a', f'{base}/.', str(self.root)], check=True)
        else:
            made = ['debootstrap', '--variant=minbase', 'bookworm', str(self.root), MIRROR]
            subprocess.run(made, stdin=subprocess.DEVNULL, stdout=subprocess.DEVNULL, check=True)
            if base:
                subprocess.run(['cp', '-a', str(self.root), str(base)], check=True)
        (self.root / 'etc/apt/sources.list').write_text(SOURCES, encoding='utf-8')
        shutil.copy('/etc/resolv.conf', self.root / 'etc/resolv.conf')
        self.run('useradd', '--create-home', USER)
        self.run('apt-get', 'update', '-q')

    def command(self, *words: str, user: str = 'root', folder: str = '/') -> list[str]:
        """A command inside, in a group of processes that ends with it."""
        home = WORK if user == USER else '/root'
        return [
            'unshare',
            '--mount',
            '--pid',
            '--fork',
            '--kill-child',
            f'--mount-proc={self.root}/proc',
            'chroot',
            f'--userspec={user}:{user}',
            str(self.root),
            'env',
            '-i',
            f'PATH={PATH}',
            f'HOME={home}',
            'LC_ALL=C.UTF-8',
            'DEBIAN_FRONTEND=noninteractive',
            'sh',
            '-c',
            'cd "$0" && exec "$@"',
            folder,
            *words,
        ]

    def ended(self, *words: str, user: str = 'root', folder: str = '/') -> tuple[int, str]:
        """Runs a command inside: its status, and what it writes."""
        done = subprocess.run(
            self.command(*words, user=user, folder=folder),
            stdin=subprocess.DEVNULL,
            stdout=subprocess.PIPE,
            stderr=subprocess.STDOUT,
            text=True,
        )
        return done.returncode, done.stdout

    def run(self, *words: str, user: str = 'root', folder: str = '/') -> str:
        """The same: what it writes. Raises `Stop` where it fails."""
        status, said = self.ended(*words, user=user, folder=folder)
        if status:
            raise Stop(f'{" ".join(words)[:200]} ended with {status}:\n{said[-4000:]}')
        return said

    def install(self, *names: str, recommends: bool = True) -> None:
        """Installs packages by apt."""
        self.run(
            'apt-get',
            'install',
            '-y',
            '-q',
            *[] if recommends else ['--no-install-recommends'],
            *names,
        )

    def files(self) -> set[str]:
        """All files and folders, except those that apt and the trial change."""
        found = set()
        for holder, folders, names in os.walk(self.root):
            here = '/' + os.path.relpath(holder, self.root).lstrip('.').lstrip('/')
            folders[:] = [it for it in folders if os.path.join(here, it) not in PASSED_OVER]
            found.update(os.path.join(here, it) for it in folders + names)
        return found - set(PASSED_OVER)


def blocks(page: str, heading: str) -> list[str]:
    """The blocks of shell commands under a heading of a page that are to be run everywhere."""
    section = re.split(r'^## ', page, flags=re.M)
    found = next((it for it in section if it.startswith(heading + '\n')), '')
    return re.findall(r'^```sh\n(.*?)^```$', found, re.M | re.S)


def try_package(debian: Debian, package: pathlib.Path) -> None:
    """Installs a package, works with it, and removes it."""
    shutil.copy(package, debian.root / 'trial.deb')
    needed = subprocess.run(
        ['dpkg-deb', '-f', str(package), 'Depends', 'Recommends'],
        capture_output=True,
        text=True,
        check=True,
    )
    names = {
        re.split(r'[ (]', it.strip())[0]
        for line in needed.stdout.splitlines()
        for it in line.partition(':')[2].split(',')
    }
    debian.install(*sorted(names))
    before = debian.files()
    debian.run('apt', 'install', '-y', './trial.deb')
    page = (commit.TOP / 'README.md').read_text(encoding='utf-8')
    shutil.copytree(
        debian.root / 'usr/share/doc/yokeorange/examples', debian.root / WORK[1:] / 'examples'
    )
    debian.run('chown', '-R', f'{USER}:', WORK)
    for heading in ('First run', 'A day with yoke'):
        found = blocks(page, heading)
        if not found:
            raise Stop(f'README.md has no commands under "{heading}"')
        for text in found:
            print(
                f'$ {text.strip()}\n{debian.run("sh", "-euc", text, user=USER, folder=WORK)}',
                flush=True,
            )
    print(debian.run('yoke', '--version', user=USER, folder=WORK))
    debian.run('yoke', 'status', user='root', folder=f'{WORK}/examples')
    debian.run('apt-get', 'purge', '-y', 'yokeorange')
    hold_to_same(before, debian.files())
    print(f'the package is removed, and nothing is left behind: {len(before)} files and folders')


def hold_to_same(before: set[str], after: set[str]) -> None:
    """Raises `Stop` where a file or folder is left behind, or is gone."""
    for what, names in (('left behind', after - before), ('gone', before - after)):
        if names:
            raise Stop(f'{what}: {", ".join(sorted(names)[:20])}')


def descendants(process: int) -> list[int]:
    """The processes below one, that one too."""
    found, parents = [process], {}
    for name in filter(str.isdigit, os.listdir('/proc')):
        try:
            text = pathlib.Path('/proc', name, 'stat').read_text(encoding='ascii', errors='replace')
        except OSError:
            continue
        parents[int(name)] = int(text.rpartition(')')[2].split()[1])
    for it in found:
        found += [child for child, parent in parents.items() if parent == it]
    return found


def memory_of(process: int) -> tuple[int, int]:
    """The bytes of the largest of a process and all below it, and those that only they have."""
    largest = own = 0
    for it in descendants(process):
        try:
            text = pathlib.Path('/proc', str(it), 'smaps_rollup').read_text(encoding='ascii')
        except OSError:
            continue
        found = {
            name: int(size) * 1024 for name, size in re.findall(r'^(\w+): +(\d+) kB', text, re.M)
        }
        largest = max(largest, found.get('Rss', 0))
        own += found.get('Pss_Anon', 0)
    return largest, own


def timed(debian: Debian, folder: str, text: str) -> Told:
    """Runs shell commands on two processors: what they took."""
    command = [
        'taskset',
        '-c',
        '0,1',
        *debian.command('sh', '-euc', text, user=USER, folder=folder),
    ]
    before, begun, most = os.times(), time.monotonic(), [(0, 0)]
    process = subprocess.Popen(
        command,
        stdin=subprocess.DEVNULL,
        stdout=subprocess.DEVNULL,
        stderr=subprocess.PIPE,
        text=True,
    )

    def watch() -> None:
        while process.poll() is None:
            most.append(memory_of(process.pid))
            time.sleep(EACH_LOOK)

    looking = threading.Thread(target=watch)
    looking.start()
    said = process.communicate()[1]
    seconds = time.monotonic() - begun
    looking.join()
    if process.returncode:
        raise Stop(f'{text!r} ended with status {process.returncode}:\n{said}')
    after = os.times()
    spent = after.children_user + after.children_system
    spent -= before.children_user + before.children_system
    largest, own = (max(it[at] for it in most) for at in (0, 1))
    return Told(seconds, spent, largest, own)


def try_clone(debian: Debian, checks: bool) -> None:
    """Times README's first command in a new clone, again, and after a change; runs the checks."""
    debian.install(*CARGO, recommends=False)
    shutil.copytree(commit.TOP / '.git', debian.root / 'origin')
    debian.run('chown', '-R', f'{USER}:', '/origin')
    first = blocks_elsewhere((commit.TOP / 'README.md').read_text(encoding='utf-8'))
    print(debian.run('sh', '-c', 'cargo --version; rustc --version').strip())
    inside = f'{WORK}/editor'
    change = f'echo "// changed" >> crates/{TOP_CRATE}/src/lib.rt'
    clone = f'git clone -q /origin editor; cd editor; {first}'
    bad = told_of(debian, 'clone, build, first answer', WORK, FIRST, clone)
    bad += told_of(debian, 'again, the best of five', inside, AGAIN, first, 5)
    changed = f'after a change in {TOP_CRATE}'
    bad += told_of(debian, changed, inside, EDITED, f'{change}; {first}')
    if checks:
        debian.run('git', 'checkout', '-q', '.', user=USER, folder=inside)
        begun = time.monotonic()
        status, said = debian.ended('./check', '--quick', user=USER, folder=inside)
        print(re.sub(r'^ok .*\n', '', said, flags=re.M))
        print(f'./check --quick: {time.monotonic() - begun:.0f} s{load()}')
        bad += [f'./check --quick ended with {status}'] * (status != 0)
    if bad:
        raise Stop('\n'.join(bad))


def load() -> str:
    """What else the machine does, as a line has it."""
    return f' (load {os.getloadavg()[0]:.1f} on {os.cpu_count()} processors)'


def told_of(
    debian: Debian, name: str, folder: str, most: float, text: str, times: int = 1
) -> list[str]:
    """What of some commands was too much: it times them, and prints the best of a few times."""
    told = min((timed(debian, folder, text) for _ in range(times)), key=lambda it: it.seconds)
    print(f'{name}: {told.text()}{load()}', flush=True)
    bad = [f'{name}: {told.seconds:.2f} s, and {most} s are the most'] * (told.seconds > most)
    return bad + [f'{name}: a process of {told.largest / 1e6:.0f} MB'] * (told.largest > MEMORY)


def blocks_elsewhere(page: str) -> str:
    """README's first command, which the page checks don't run."""
    found = re.search(r'^```sh elsewhere\n(.*?)^```$', page, re.M | re.S)
    if not found:
        raise Stop('README.md has no first command')
    return found[1].strip()


def main() -> int:
    """Does what the words ask for: the status."""
    read = argparse.ArgumentParser(
        prog='python3 -m tools.release.try_package',
        description=__doc__,
        formatter_class=argparse.RawDescriptionHelpFormatter,
    )
    read.add_argument('what', choices=('package', 'clone'))
    read.add_argument('file', nargs='?', type=pathlib.Path)
    read.add_argument(
        '--base', type=pathlib.Path, help='keeps the new system there, and takes it from there'
    )
    read.add_argument('--check', action='store_true', help='with clone: ./check --quick too')
    asked = read.parse_args()
    if (asked.what == 'package') != (asked.file is not None):
        read.error('package takes a FILE.deb, clone none')
    try:
        with tempfile.TemporaryDirectory(prefix='debian-') as holder:
            debian = Debian(pathlib.Path(holder, 'root'))
            debian.root.mkdir()
            debian.make(asked.base)
            if asked.what == 'package':
                try_package(debian, asked.file)
            else:
                try_clone(debian, asked.check)
        return 0
    except (Stop, subprocess.CalledProcessError) as why:
        print(f'try_package: {why}', file=sys.stderr)
        return 1


if __name__ == '__main__':
    sys.exit(main())
