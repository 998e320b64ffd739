"""Builds the program by `rt all check` and `rt run`, where the toolkit is another than the one the
launcher was made for.
"""
import os
import re
import time

from launcher.build import PROGRAM, keep_program
from launcher import keys, machine
from launcher.guard import Guard
from launcher.messages import Stop, count, end_of, minutes, say, stopped_by

EACH_LOOK = 0.5
KILLED = re.compile(r'\bkilled\b')


class Follower:
    """Reads a log as it grows, and tells of each crate that is proved."""

    def __init__(self, path, crates):
        self.path, self.at, self.rest = path, 0, b''
        self.crates, self.crate, self.proved = crates, '', 0
        self.begun = time.monotonic()

    def read(self):
        """Reads what came since."""
        with open(self.path, 'rb') as file:
            file.seek(self.at)
            came = file.read()
        self.at += len(came)
        *lines, self.rest = (self.rest + came).split(b'\n')
        self.tell(line.decode('utf-8', 'replace') for line in lines)

    def tell(self, lines):
        """Tells of each crate that these lines call proved."""
        for line in lines:
            if line.startswith('== '):
                self.crate = line[3:]
            elif line.startswith('logic=proved '):
                self.proved += 1
                say(
                    '{} of {} proved after {}: {}'.format(
                        self.proved, self.crates, minutes(time.monotonic() - self.begun), self.crate
                    )
                )


def build(home, store, toolkit, crates, texts, why, jobs):
    """Proves and builds the program by rt's own commands: its path. The store's lock is held."""
    jobs = jobs or machine.processors()
    say(
        'the Rattle toolkit on the path is another than the one that this launcher was made for: '
        + '; '.join(why)
    )
    say(
        'so rt itself proves the {} and builds the program: this takes longer, more memory (up to 10 GB) and more disk\n'
        '(up to 15 GB, in crates/*/out)'.format(count(len(crates), 'crate'))
    )
    store.clear('log', 'tmp')
    folder, log = os.path.join(home, 'crates', PROGRAM), store.log('build.log')
    say('It may be interrupted, and goes on later from what is proved. Log: ' + log)
    guard = Guard(store.path('tmp'))
    try:
        call(guard, ['rt', 'all', 'check', '--jobs', str(jobs)], folder, log, len(crates), jobs)
        say('linking the program')
        call(
            guard, ['rt', 'run', '--', os.devnull], folder, store.log('linking'), len(crates), jobs
        )
        if keys.of_texts(home, crates) != texts:
            raise Stop('the sources changed while the program was built: run ./editor again')
        part = store.path('part', PROGRAM)
        with open(os.path.join(folder, 'out', PROGRAM), 'rb') as built, open(part, 'wb') as to:
            to.write(built.read())
        os.chmod(part, 0o755)
        return keep_program(
            home,
            store,
            toolkit,
            texts,
            part,
            keys.of(toolkit.identity, sorted(texts.items())),
            'rt',
        )
    except (KeyboardInterrupt, SystemExit):
        say('interrupted: what is proved is kept, and ./editor goes on from there')
        raise
    finally:
        guard.end()
        store.clear('tmp')


def call(guard, words, folder, log, crates, jobs):
    """Runs a command of rt's and tells of each crate; ends the build where it fails or is stopped."""
    free = machine.free_memory()
    process = guard.start(words, folder, log)
    follower = Follower(log, crates)
    while process.poll() is None:
        time.sleep(EACH_LOOK)
        follower.read()
    follower.read()
    status = process.returncode
    proof = 'the proof of ' + (follower.crate or PROGRAM)
    if status < 0 or status > 128:
        raise Stop(stopped_by(proof, -status if status < 0 else status - 128, jobs, free))
    if status:
        end = end_of(log)
        if KILLED.search(end):
            raise Stop(end + stopped_by(proof, 9, jobs, free))
        raise Stop(
            '{} ended with status {}. The end of {}:\n{}'.format(
                ' '.join(words[:3]), status, log, end
            )
        )
