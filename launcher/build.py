"""Proves the crates that the program needs, by rattle's own words, and builds the program from what
was proved.
"""
import os
import shutil
import subprocess
import time
from dataclasses import dataclass, field

from launcher import calls, crates, example, keys, machine, measure
from launcher.guard import Guard
from launcher.messages import Stop, count, end_of, gigabytes, minutes, say, stopped_by
from launcher.schedule import RATES, Running, Schedule, Start
from launcher.store import NAME, remove

PROGRAM = 'editor'
# Bytes of disk: of a kept library for each line of Rattle, and of temporary files beside them.
DISK_OF_LINE, DISK_OF_WORK = 80e3, 0.5e9
# With fewer bytes of free disk than these a proof that ended badly most likely had no room.
FULL = 0.1e9
# Of the free memory, what proofs side by side may take, and the most bytes that they are planned
# for. They take a fifth less, since they don't all need most at once. With less, proofs that the
# top waits for begin late: by the seconds of a whole build played through, 7 GB end three minutes
# later on four processors, and more than 8.5 end no sooner.
PART_OF_MEMORY, MOST_MEMORY = 0.85, 8.5e9
# Reckoned seconds that count as if they had been held against the clock, so that one small proof
# doesn't turn the time that is told; and seconds after which something is said though nothing
# ended.
PRIOR, SILENCE = 300.0, 120.0
# The part of what a proof has taken that it is taken to need still, where it takes longer than
# reckoned.
MORE = 0.15
EACH_LOOK = 0.5


@dataclass
class Proof:
    """A proof that runs: its schedule, its process, and what it took."""

    start: object
    process: subprocess.Popen
    text: str
    begun: float
    free: float
    used: object = None
    peak: int = 0
    status: int = 0
    ended: float = 0.0

    def has_ended(self):
        """Whether it ended; then with its status and what it took."""
        pid, status, used = os.wait4(
            self.process.pid, os.WNOHANG
        )  # Popen would throw away what it took
        if pid:
            self.status = self.process.returncode = os.waitstatus_to_exitcode(status)
            self.used, self.ended = used, time.monotonic()
        return bool(pid)

    @property
    def seconds(self):
        """The seconds that it has run, or ran."""
        return (self.ended or time.monotonic()) - self.begun

    @property
    def worked(self):
        """The seconds of processors that it took."""
        return self.used.ru_utime + self.used.ru_stime

    @property
    def signal(self):
        """The signal that stopped it, 0 where none did."""
        return -self.status if self.status < 0 else self.status - 128 if self.status > 128 else 0


@dataclass
class Wishes:
    """What the user asked of a build."""

    jobs: int = 0
    anyway: bool = False
    keeps: bool = False
    measures: bool = False


@dataclass
class Build:
    """A build of one program from the sources in `home`."""

    home: str
    store: object
    toolkit: object
    crates: dict
    texts: dict
    wishes: Wishes
    rows: list = field(default_factory=list)

    def __post_init__(self):
        self.begun = time.monotonic()
        self.jobs = self.wishes.jobs or machine.processors()
        self.keys = keys.of_crates(self.crates, self.texts, self.toolkit.identity)
        self.schedule = plan(self.crates, self.jobs)
        self.proved, self.alone, self.running = set(), set(), []
        self.reckoned = self.taken = 0.0
        self.told = self.begun
        self.guard = self.meter = None

    # ---- the run ----

    def run(self):
        """Proves, builds and keeps the program: its path. The store's lock is held."""
        self.store.clear('log', 'part', 'tmp')
        self.note(
            '{} with {}, {} at a time\n'.format(
                self.toolkit.line, count(len(self.crates), 'crate'), self.jobs
            )
        )
        self.take_kept()
        self.hold_to_machine()
        self.guard = Guard(self.store.path('tmp'))
        self.meter = (
            measure.Meter(self.guard.shell.pid, self.store.folder) if self.wishes.measures else None
        )
        try:
            self.tell_begin()
            self.prove()
            part = self.link()
            example.hold(self.home, part)
            return self.keep(part)
        except (KeyboardInterrupt, SystemExit):
            say(
                'interrupted: {} of {} crates are proved and kept, and ./editor goes on from there'.format(
                    len(self.proved), len(self.crates)
                )
            )
            raise
        finally:
            self.guard.end()
            self.note(self.table())
            self.store.clear('part', 'tmp')

    def take_kept(self):
        """Takes what an earlier run proved of the same text by the same toolkit, and removes all
        else that it left.
        """
        if self.store.names():
            say('looking at what an earlier build proved')
        for name in self.store.names():
            if name not in self.crates or not self.store.verdict_of(name, self.keys[name]):
                self.store.forget(name)
        kept = set(self.store.names())
        for name, crate in self.crates.items():
            if name in kept and self.proved.issuperset(crate.below):
                self.proved.add(name)
        for name in kept - self.proved:
            self.store.forget(name)

    def hold_to_machine(self):
        """Says what is missing before anything is proved."""
        lacks = self.lacks()
        if lacks and not self.wishes.anyway:
            raise Stop('\n'.join([*lacks, 'To try it all the same: ./editor --anyway --prove']))
        for line in lacks:
            say(line)

    def lacks(self):
        """What the machine lacks, a line each."""
        found, left = [], self.waiting()
        memory, swap = machine.free_memory(), machine.free_swap()
        largest = max(left, key=self.schedule.need)
        if self.schedule.need(largest) > memory + swap:
            found.append(
                'too little memory: the proof of {} may take {}, and {} are free. Close other programs first'.format(
                    largest, gigabytes(self.schedule.need(largest)), gigabytes(memory + swap)
                )
            )
        disk, needed = machine.free_disk(self.store.folder), self.disk(left)
        if needed > disk:
            found.append(
                'too little disk: {} may take up to {} until the program is built, and {} are free. XDG_CACHE_HOME\n'
                'names another folder'.format(self.store.folder, gigabytes(needed), gigabytes(disk))
            )
        return found

    def disk(self, names):
        """The bytes of disk that the proofs of some crates may take."""
        return DISK_OF_WORK + DISK_OF_LINE * sum(self.crates[it].lines for it in names)

    def waiting(self):
        """The names of the crates that are neither proved nor being proved."""
        busy = {it.start.name for it in self.running}
        return [it for it in self.crates if it not in self.proved and it not in busy]

    def tell_begin(self):
        """Says what is about to be done, how long it takes, and where the log is."""
        left, kept = len(self.waiting()), len(self.proved)
        say(
            'proving {}{} and building the program, with {}: {}'.format(
                count(left, 'crate'),
                f' ({kept} proved already)' if kept else '',
                count(self.jobs, 'processor'),
                minutes(self.seconds_left()),
            )
        )
        say(
            'It may be interrupted, and goes on later from what is proved. Log: '
            + self.store.log('build.log')
        )

    # ---- proofs ----

    def prove(self):
        """Proves crates side by side, each once those below it are proved."""
        while self.waiting() or self.running:
            while self.begin_next():
                pass
            time.sleep(EACH_LOOK)
            if self.meter:
                self.meter.look(self.running)
            for proof in [it for it in self.running if it.has_ended()]:
                self.running.remove(proof)
                self.end(proof)
            self.break_silence()

    def begin_next(self):
        """Begins the next proof, if one may begin now."""
        start = self.schedule.next(self.waiting(), self.proved, self.left_of_running(), self.alone)
        free = machine.free_memory()
        if not start or self.running and start.memory > free:
            return False
        crate = self.crates[start.name]
        to = self.store.path('part', 'checked') if crate.is_program else self.store.part(start.name)
        remove(to)
        words = calls.proof(crate, self.crates, self.toolkit.folder, self.store.path('rlib'), to)
        text = keys.of_text(self.home, crate)
        process = self.guard.start(
            [*words, '--jobs', str(start.jobs)],
            self.folder_of(start.name),
            self.store.log(start.name),
            start.nice,
        )
        self.running.append(Proof(start, process, text, time.monotonic(), free))
        self.note(f'begun: {start.name}, jobs {start.jobs}, nice {start.nice}\n')
        return True

    def folder_of(self, name):
        """A crate's folder."""
        return os.path.join(self.home, 'crates', name)

    def left_of_running(self):
        """The proofs that run, with what is left of each as far as its reckoned time tells. One
        that takes longer than that is taken to need some more.
        """
        pace = self.pace()
        found = []
        for it in self.running:
            done = RATES[it.start.jobs] * it.seconds / pace
            found.append(
                Running(
                    it.start, max(10.0, MORE * done, self.schedule.seconds[it.start.name] - done)
                )
            )
        return found

    def pace(self):
        """How many seconds a reckoned second takes here, as far as the proofs tell that ended or
        take longer than reckoned.
        """
        taken, reckoned = self.taken, self.reckoned
        for it in self.running:
            so_far, whole = RATES[it.start.jobs] * it.seconds, self.schedule.seconds[it.start.name]
            if so_far > whole:
                taken, reckoned = taken + so_far, reckoned + whole
        return (taken + PRIOR) / (reckoned + PRIOR)

    def seconds_left(self):
        """The seconds until all is proved, as far as the schedule and the proofs that ended tell."""
        left = self.schedule.seconds_left(
            self.waiting(), self.proved, self.left_of_running(), self.alone
        )
        return left * self.pace()

    def end(self, proof):
        """Takes what a proof found: it is kept, or tried once more, or ends the build."""
        name = proof.start.name
        self.rows.append(proof)
        if proof.signal and name not in self.alone:
            self.alone.add(name)
            say(
                'the proof of {} was stopped by signal {}, {}: once more, with one job and nothing beside it'.format(
                    name,
                    proof.signal,
                    'most likely for memory' if proof.signal == 9 else 'from outside',
                )
            )
            return
        self.hold_to_verdict(proof)
        self.proved.add(name)
        self.reckoned += self.schedule.seconds[name]
        self.taken += proof.seconds * RATES[proof.start.jobs]
        left = f', {minutes(self.seconds_left())} left' if self.waiting() or self.running else ''
        self.tell(f'{len(self.proved)} of {len(self.crates)} proved{left}: {name}')

    def hold_to_verdict(self, proof):
        """Keeps a crate's result where all of it is proved and its text is what it was; else ends
        the build.
        """
        name, log = proof.start.name, self.store.log(proof.start.name)
        crate = self.crates[name]
        with open(log, encoding='utf-8', errors='replace') as file:
            last = (file.read().splitlines() or [''])[-1]
        if proof.signal:
            raise Stop(
                stopped_by('the proof of ' + name, proof.signal, self.jobs, proof.free)
                + '. What is proved is kept'
            )
        if proof.status and machine.free_disk(self.store.folder) < FULL:
            raise Stop(
                'the proof of {} ended with status {}, and the disk is full: {} are free in {}. What is proved is kept'.format(
                    name,
                    proof.status,
                    gigabytes(machine.free_disk(self.store.folder)),
                    self.store.folder,
                )
            )
        if proof.status:
            raise Stop(
                '{} isn\'t proved: rattle ended with status {}. The end of {}:\n{}What is proved is kept'.format(
                    name, proof.status, log, end_of(log)
                )
            )
        if not calls.is_verdict(crate.is_program, last, self.toolkit.logic):
            raise Stop(
                'the verdict on {} has words that this launcher doesn\'t know, so it isn\'t taken for a proof:\n    {}'.format(
                    name, last
                )
            )
        if not proof.text == self.texts[name] == keys.of_text(self.home, crate):
            raise Stop(
                'the sources of {} changed while it was proved, so its proof isn\'t kept: run ./editor again. What is\n'
                'proved and unchanged is kept'.format(name)
            )
        if not crate.is_program:
            self.store.keep(name, self.keys[name], last)

    # ---- the program ----

    def link(self):
        """Compiles the program from what was proved, and links it: its path."""
        crate = self.crates[PROGRAM]
        kit, part = self.toolkit.folder, self.store.path('part', NAME)
        checked, compiled = self.store.path('part', 'checked'), part + '.o'
        self.tell(
            'all {} proved: compiling and linking the program'.format(
                count(len(self.proved), 'crate')
            )
        )
        self.call(
            'compiling',
            calls.compiling(crate, self.crates, kit, self.store.path('rlib'), checked, compiled),
        )
        self.call('linking', calls.linking(kit, compiled, part))
        return part

    def call(self, what, words):
        """Runs a step after the proofs, and ends the build where it fails."""
        log, free = self.store.log(what), machine.free_memory()
        process = self.guard.start(words, self.folder_of(PROGRAM), log)
        step = Proof(Start(what, 1, 0, 0.0, 0.0), process, '', time.monotonic(), free)
        self.rows.append(step)
        while not step.has_ended():
            time.sleep(EACH_LOOK)
            if self.meter:
                self.meter.look([step])
        if step.signal:
            raise Stop(stopped_by(what + ' the program', step.signal, 1, free))
        if step.status:
            raise Stop(
                '{} the program failed with status {}. The end of {}:\n{}'.format(
                    what, step.status, log, end_of(log)
                )
            )

    def keep(self, part):
        """Keeps the program with its record, and removes the libraries, unless they are wanted: its
        path.
        """
        if keys.of_texts(self.home, self.crates) != self.texts:
            raise Stop('the sources changed while the program was built: run ./editor again')
        path = keep_program(
            self.home, self.store, self.toolkit, self.texts, part, self.keys[PROGRAM], 'rattle'
        )
        if not self.wishes.keeps:
            for name in self.store.names():
                self.store.forget(name)
        say(f'proved and built after {minutes(time.monotonic() - self.begun)}: {path}')
        return path

    # ---- what is told ----

    def tell(self, text):
        """Says a line, and writes it to the log."""
        self.told = time.monotonic()
        say(text)
        self.note(text + '\n')

    def break_silence(self):
        """Says what is being proved, where nothing was said for a while."""
        if self.running and time.monotonic() - self.told > SILENCE:
            names = ', '.join(it.start.name for it in self.running)
            self.tell(
                '{} of {} proved, {} left; now: {}'.format(
                    len(self.proved), len(self.crates), minutes(self.seconds_left()), names
                )
            )

    def note(self, text):
        """Writes to the build's log."""
        seconds = int(time.monotonic() - self.begun)
        with open(self.store.log('build.log'), 'a', encoding='utf-8') as log:
            log.write(f'{seconds // 60:3}:{seconds % 60:02} {text}')

    def table(self):
        """What each proof took, and what all of them took together."""
        form = '{:24} {:>6} {:>4} {:>8} {:>12} {:>9} {:>9}{}\n'
        lines = [
            'what each proof took\n',
            form.format(
                'crate', 'lines', 'jobs', 'minutes', 'processors', 'largest', 'all of it', ''
            ),
        ]
        for it in [it for it in self.rows if it.used]:
            crate = self.crates.get(it.start.name)
            lines.append(
                form.format(
                    it.start.name,
                    crate.lines if crate else '',
                    it.start.jobs,
                    f'{it.seconds / 60:.1f}',
                    f'{it.worked:.0f} s',
                    gigabytes(1024 * it.used.ru_maxrss),
                    gigabytes(it.peak) if it.peak else '-',
                    f' stopped by signal {it.signal}' if it.signal else '',
                )
            )
        lines.append(
            form.format(
                'all',
                sum(it.lines for it in self.crates.values()),
                '',
                f'{(time.monotonic() - self.begun) / 60:.1f}',
                f'{sum(it.worked for it in self.rows if it.used):.0f} s',
                '',
                '',
                '',
            )
        )
        if self.meter:
            lines.append(self.meter.told())
        return ''.join(lines)


def keep_program(home, store, toolkit, texts, part, key, how):
    """Keeps a built program in the store, and a copy of it in the checkout for who wants to install
    it: the kept one's path.
    """
    record = {
        'key': key,
        'sources': keys.of_sources(texts),
        'toolkit': toolkit.identity,
        'line': toolkit.line,
        'sha256': keys.of_file(part),
        'by': how,
        'commit': commit(home),
    }
    path = store.keep_program(part, record)
    copy_to_checkout(home, path)
    return path


def copy_to_checkout(home, path, tells=True):
    """Copies the program into the checkout (crates/editor/out), from where it is installed and
    measured, if it isn't there.
    """
    to = os.path.join(home, 'crates', PROGRAM, 'out', PROGRAM)
    try:
        if os.path.isfile(to) and keys.of_file(to) == keys.of_file(path):
            return
        os.makedirs(os.path.dirname(to), exist_ok=True)
        shutil.copyfile(path, to + '.part')
        os.chmod(to + '.part', 0o755)
        os.replace(to + '.part', to)
    except OSError as error:
        if tells:
            say(
                '{} can\'t be written ({}): the program is in {} alone'.format(
                    to, error.strerror, path
                )
            )


def commit(home):
    """The commit of the checkout, with "and changes" where files differ from it; '' where there is
    none.
    """
    try:
        words = [
            'git',
            '-C',
            home,
            'describe',
            '--always',
            '--dirty= and changes',
            '--abbrev=40',
            '--exclude=*',
        ]
        done = subprocess.run(
            words, stdin=subprocess.DEVNULL, stdout=subprocess.PIPE, stderr=subprocess.DEVNULL
        )
    except OSError:
        return ''
    return done.stdout.decode('utf-8', 'replace').strip() if done.returncode == 0 else ''


def plan(crates_needed, jobs):
    """The schedule of these crates' proofs on this machine."""
    return Schedule(crates_needed, jobs, min(MOST_MEMORY, PART_OF_MEMORY * machine.free_memory()))


def needed(home):
    """The crates that the program stands on, and itself."""
    return crates.read(home, [PROGRAM])
