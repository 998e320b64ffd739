"""The launcher: reads the words, finds a program or has one built, and runs it; or has it proved,
or exported.
"""
from __future__ import annotations

import os
import re
import shutil
import signal
import sys
import time
from typing import NoReturn

from launcher import keys, programs, sources, words
from launcher.messages import Stop, count, gigabytes, minutes, say
from launcher.store import Store, default_folder

HOME = os.path.dirname(os.path.dirname(os.path.abspath(__file__)))
# The name under which the program is started, as its messages have it, and the part of the store
# with programs that aren't proved.
PROGRAM, PLAIN = 'editor', 'plain-programs'
# Bytes of memory that proofs side by side take at the most, where there is enough.
USUAL_MEMORY = 7e9


def main(arguments):
    """Does what the words ask for, and returns the exit status."""
    try:
        return act(words.read(arguments))
    except Stop as why:
        say(str(why))
        return why.status
    except KeyboardInterrupt:
        return 130
    except OSError as error:
        say('{}: {}'.format(error.filename or 'a call of the system failed', error.strerror))
        return 1


def act(asked):
    """Does what was asked for: the status."""
    if asked.action == 'brief':
        sys.stderr.write(words.BRIEF)
        return 2
    if asked.action == 'help':
        sys.stdout.write(help_text())
        return 0
    if asked.action == 'version':
        sys.stdout.write(version_text())
        return 0
    if asked.action == 'look':
        from launcher import look

        words.hold_to_script(asked.rest)
        return look.run(HOME, asked.rest)
    if asked.action == 'rust':
        return export(*asked.rest)
    if asked.action == 'man':
        return write_manuals(*asked.rest)
    if asked.action == 'prove':
        return prove(asked.flags)
    return run(asked.rest)


def plain_version():
    """The number of the version, as cargo takes it."""
    found = re.match(r'\d+\.\d+\.\d+', version())
    return found[0] if found else '0.0.0'


def export(folder, libraries):
    """Writes the program as a cargo workspace in plain Rust: the status."""
    import pathlib

    from plain import tokens, workspace

    try:
        made = workspace.write(
            pathlib.Path(HOME),
            pathlib.Path(folder),
            workspace.choice_of(libraries),
            plain_version(),
        )
    except tokens.Refused as why:
        raise Stop(
            '{}\nThe export doesn\'t know this form, so it wrote nothing: plain/__init__.py says how to add one'.format(
                why
            )
        ) from why
    say(
        'wrote {} with {:,} lines of plain Rust to {}. Nothing of it is proved. {} says how to build it'.format(
            count(len(made.crates), 'crate'), made.lines, folder, os.path.join(folder, 'README.md')
        )
    )
    return 0


def write_manuals(folder: str) -> int:
    """Writes the manual pages: the status."""
    from launcher import manual

    made = manual.write(HOME, folder, plain_version())
    say(
        f'wrote {count(len(made), "manual page")} to {folder}: man -l {os.path.join(folder, made[0])}'
    )
    return 0


def crates_and_texts():
    """The crates that the program needs, and the hash of each one's text."""
    from launcher import build  # what only a build needs isn't read for each run

    crates = build.needed(HOME)
    return crates, keys.of_texts(HOME, crates)


def run(arguments: list[str]) -> NoReturn:
    """Runs the program: the one that was proved here, else the released one, else a plain build,
    else the toolkit's look.
    """
    store = Store(default_folder())
    found = sources.found(HOME, store)
    path = proved(store, found.proved) or released(found) or unproved(store, found, arguments)
    # Python ignores these, and the program would inherit that.
    for number in (signal.SIGPIPE, signal.SIGXFSZ):
        signal.signal(number, signal.SIG_DFL)
    os.execv(path, [PROGRAM, *arguments])


def unproved(store: Store, found: sources.Sources, arguments: list[str]) -> str:
    """A program of these sources that isn't proved, built where it has to be: its path."""
    kept = store.program(found.plain, None, PLAIN)
    path, is_look = (kept[0], False) if kept else built_now(store, found, arguments)
    if is_look:
        say(
            'running the program as the toolkit compiles it before any proof: nothing of it is proved. ./editor --prove proves it'
        )
    else:
        say(
            'running a plain Rust build of these sources: nothing of it is proved. ./editor --prove proves it, with the toolkit'
        )
    return path


def built_now(store: Store, found: sources.Sources, arguments: list[str]) -> tuple[str, bool]:
    """A plain build, or the toolkit's look where there is no cargo: its path, and whether it is a
    look.
    """
    from launcher import kept_look, plain_build

    cargo, why = plain_build.find()
    look = None if cargo else store.program(kept_look.look_of(found.plain), None, PLAIN)
    if look:
        return look[0], True
    words.hold_to_script(arguments)
    ends_by_signal()
    if cargo:
        return plain_build.build(HOME, store, cargo, found.plain, plain_version()), False
    if shutil.which('rt'):
        say(
            f'{why}, so the toolkit compiles the program. For a build of half a minute, {plain_build.INSTALL}'
        )
        return kept_look.build(HOME, store, found.plain), True
    raise Stop(f'{why}, and no Rattle toolkit: {plain_build.INSTALL}', 127)


def plain_program(store: Store, found: sources.Sources) -> str:
    """A plain build of these sources by cargo, made where it isn't kept: its path."""
    from launcher import plain_build

    kept = store.program(found.plain, None, PLAIN)
    if kept:
        return str(kept[0])
    cargo, why = plain_build.find()
    if not cargo:
        raise Stop(f'{why}: {plain_build.INSTALL}', 127)
    return plain_build.build(HOME, store, cargo, found.plain, plain_version())


def ends_by_signal() -> None:
    """Has the launcher end by what stops it, so that what it started ends too."""
    for number in (signal.SIGTERM, signal.SIGHUP):
        if signal.getsignal(number) != signal.SIG_IGN:  # nohup ignores SIGHUP
            signal.signal(number, lambda it, _: sys.exit(128 + it))


def proved(store, sources):
    """A kept program of these sources by the toolkit that is on the path, or by any where none is:
    its path or None.
    """
    found = store.program(sources, None)
    if not found:
        return None
    from launcher import build, toolkit

    kit = toolkit.find(store)
    found = store.program(sources, kit.identity) if kit else found
    if not found:
        return None
    build.copy_to_checkout(HOME, found[0], tells=False)
    return found[0]


def released(found: sources.Sources) -> str | None:
    """The released program that stands beside the launcher, if it is one that RELEASE names: its
    path or None.
    """
    release = programs.release_of(HOME)
    path, said = programs.beside(HOME, release)
    if path:
        is_plain = release.is_plain(keys.of_file(path))
        said += programs.said_of(release, found.plain if is_plain else found.proved, is_plain)
    if said:
        say(said)
    return path


def proved_now(store, crates, texts, flags):
    """Proves and builds the program, one launcher at a time: its path."""
    from launcher import toolkit

    jobs = words.jobs_wanted()
    toolkit.demand(toolkit.find(store), HOME)
    store.make(HOME)
    ends_by_signal()
    mine = 'process {}, since {}'.format(os.getpid(), time.strftime('%H:%M'))
    with store.lock(mine, told_of_other):
        kit = toolkit.demand(toolkit.find(store), HOME)
        found = store.program(keys.of_sources(texts), kit.identity)
        if found:
            return found[0]
        other = store.program(keys.of_sources(texts), None)
        if other:
            say(
                'there is a program of these sources, proved by {}; the toolkit on the path is another, {}'.format(
                    other[1].get('line'), toolkit.named(kit)
                )
            )
        return built(store, kit, crates, texts, flags, jobs)


def told_of_other(other):
    """Says that another launcher is at work."""
    say(
        'another ./editor ({}) proves and builds: this one waits for it. Ctrl-C ends this one alone'.format(
            other or 'of this user'
        )
    )


def built(store, kit, crates, texts, flags, jobs):
    """Proves and builds the program by this toolkit: its path. The lock is held."""
    from launcher import build, by_rt, toolkit

    why = toolkit.misfits(kit, HOME)
    if why:
        return by_rt.build(HOME, store, kit, crates, texts, why, jobs)
    return build.Build(HOME, store, kit, crates, texts, build.Wishes(jobs, **flags)).run()


def prove(flags):
    """Proves and builds the program where it isn't proved yet, and compares it with a released one:
    the status.
    """
    store = Store(default_folder())
    crates, texts = crates_and_texts()
    path = proved(store, keys.of_sources(texts))
    if path:
        say(f'proved and built already: {path}')
    else:
        path = proved_now(store, crates, texts, flags)
    return compared(path, keys.of_sources(texts))


def compared(path, sources):
    """Says whether a program that was proved here has the bytes of the released one: the status."""
    release = programs.release_of(HOME)
    if not release or not release.sha256:
        return 0
    same = keys.of_file(path) == release.sha256
    if release.sources and release.sources != sources:
        say(
            'it isn\'t compared with the released program of commit {}, whose sources are others'.format(
                release.commit
            )
        )
        return 0
    say(
        'its bytes are {} of the released program of commit {}'.format(
            'those' if same else 'NOT those', release.commit
        )
    )
    return 0 if same else 1


def version():
    """The version, as the newest heading of CHANGELOG.md has it."""
    with open(os.path.join(HOME, 'CHANGELOG.md'), encoding='utf-8') as file:
        found = re.search(r'^## (\d.*)$', file.read(), re.M)
    return found[1] if found else 'unknown'


def version_text():
    """What --version answers. It proves nothing and writes nothing."""
    from launcher import build, toolkit

    store = Store(default_folder())
    kit = toolkit.find(store)
    crates, texts = crates_and_texts()
    found = store.program(keys.of_sources(texts), kit.identity if kit else None)
    plain = store.program(keys.of_plain(HOME, crates), None, PLAIN)
    release = programs.release_of(HOME)
    lines = ['yokeorange ' + version(), 'commit: ' + (build.commit(HOME) or 'unknown')]
    lines.append('toolkit: ' + (toolkit.named(kit) if kit else 'none on the path'))
    if found:
        lines.append(
            'program: {}, proved from these sources by {}'.format(found[0], found[1].get('line'))
        )
        lines.append('sha256: ' + found[1].get('sha256', ''))
    else:
        lines.append(
            'program: not proved yet from these {}: ./editor --prove does it'.format(
                count(len(crates), 'crate')
            )
        )
    if plain:
        lines.append(
            'without proof: {}, a plain build of these sources by {}'.format(
                plain[0], plain[1].get('rust')
            )
        )
    lines.append(
        'release: '
        + (
            f'{release.version}, commit {release.commit}'
            if release and release.sha256
            else 'none yet'
        )
    )
    return '\n'.join(lines) + '\n'


def help_text():
    """What --help answers."""
    from launcher import build, machine

    crates = build.needed(HOME)
    plan = build.plan(crates, words.jobs_wanted() or machine.processors())
    seconds = plan.seconds_left(list(crates), set(), [])
    largest = max(plan.need(it) for it in crates)
    disk = build.DISK_OF_WORK + build.DISK_OF_LINE * sum(it.lines for it in crates.values())
    return words.HELP.format(
        minutes=minutes(seconds),
        memory=gigabytes(max(largest, min(USUAL_MEMORY, plan.memory))),
        disk=gigabytes(disk),
        log=os.path.join(default_folder(), 'log', 'build.log'),
    )
