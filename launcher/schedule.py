"""Which proof begins next, with how many jobs, and how long all of them will take.

Proofs are ordered by the longest chain of proofs that waits for them, and a proof's time is
reckoned from the lines of Rattle of its crate and of those below it. Seconds that were stored would
go stale with each crate that is renamed, split or grown, and gain nothing: over this repository's
crates the order by lines ends within a minute of the order by measured seconds. The reckoned time
is held against the clock as proofs end, so what is left is told in this machine's minutes.
"""
from dataclasses import dataclass

from launcher.crates import all_below

# Seconds of one job: what any proof takes, what a line of its crate adds, and a line of what it
# stands on, since libraries are read and their lemmas searched. They order the proofs and begin the
# time that is told; nothing else hangs on them. Without the last the crates at the top would be
# reckoned at half of what they take.
SECONDS, SECONDS_A_LINE, SECONDS_A_LINE_BELOW = 8.0, 0.115, 0.006
# Bytes of memory: a proof's own, what a thousand lines of its crate add, a thousand lines below it,
# and a further job.
MEMORY, MEMORY_OF_LINES, MEMORY_BELOW, MEMORY_OF_JOB = 1.0e9, 0.4e9, 0.03e9, 0.3e9
# How much faster a proof is with more jobs; more than four seldom help.
RATES = {1: 1.0, 2: 1.4, 3: 1.65, 4: 1.85}
MOST_JOBS = max(RATES)
# A crate with fewer seconds to spare than these is taken for one of the longest chain.
CLOSE = 30.0
# The end hangs on the longest chain where that is so many times what each processor has to do; its
# crates then have so many jobs at least. A second job takes two fifths more of the processors for
# the same proof, which everything else waits for. So it is only worth it where the others have time
# to spare: played through with the measured seconds of this repository's crates, and with seconds
# that differ from those by a quarter, two and a half ends first on three and four processors, and
# nearly so on eight.
HANGS, FAVOURED = 2.5, 2


@dataclass(frozen=True)
class Start:
    """A proof that is to begin: its jobs, by how much it yields (`nice`), and the memory that it
    may take.
    """

    name: str
    jobs: int
    nice: int
    memory: float
    spare: float


@dataclass
class Running:
    """A proof that runs, with the seconds of one job that are left of it."""

    start: Start
    left: float


class Schedule:
    """The order of proofs of some crates on some processors, within some bytes of memory."""

    def __init__(self, crates, processors, memory):
        self.crates, self.processors, self.memory = crates, processors, memory
        below = all_below(crates)
        self.lines_below = {name: sum(crates[it].lines for it in below[name]) for name in crates}
        self.seconds = {
            name: SECONDS
            + SECONDS_A_LINE * it.lines
            + SECONDS_A_LINE_BELOW * self.lines_below[name]
            for name, it in crates.items()
        }
        self.above = {name: sum(name in below[it] for it in crates) for name in crates}
        self.chain = self.chains()
        # Nearly equal chains: first what most crates wait for.
        self.order = sorted(
            crates,
            key=lambda it: (-(self.chain[it] // CLOSE), -self.above[it], -self.chain[it], it),
        )

    def chains(self):
        """The seconds of the longest chain of proofs that begins with each crate."""
        found = {}
        for name in reversed(list(self.crates)):
            above = [found[it] for it in found if name in self.crates[it].below]
            found[name] = self.seconds[name] + max(above, default=0.0)
        return found

    def need(self, name, jobs=1):
        """The bytes of memory that a proof may take."""
        own, below = self.crates[name].lines / 1000, self.lines_below[name] / 1000
        return MEMORY + MEMORY_OF_LINES * own + MEMORY_BELOW * below + MEMORY_OF_JOB * (jobs - 1)

    def next(self, waiting, proved, running, alone=()):
        """The proof that is to begin now, or None. `alone` names those that want nothing beside
        them.

        Where the end hangs on the longest chain, the crate that begins it has a second job and
        needn't wait for a processor, since what has time to spare yields to it. A further job costs
        processor time, so any other crate has one job while another is ready and has room in
        memory.
        """
        ready = [
            it for it in self.order if it in waiting and proved.issuperset(self.crates[it].below)
        ]
        if any(it.start.name in alone for it in running):
            return None
        for name in ready:
            if name in alone:
                return None if running else Start(name, 1, 0, self.need(name), 0.0)
        if not ready:
            return None
        name = ready[0]
        room = self.memory - sum(it.start.memory for it in running)
        jobs, spare = self.share(name, waiting, running, self.beside(ready, room))
        while jobs > 1 and self.need(name, jobs) > room:
            jobs -= 1
        if not jobs or running and self.need(name, jobs) > room:
            return None
        # What has time to spare yields by a step for each minute of it.
        return Start(name, jobs, min(15, int(spare // 60)), self.need(name, jobs), spare)

    def beside(self, ready, room):
        """How many of the crates that are ready, but the first, have room in memory beside it."""
        found, left = 0, room - self.need(ready[0])
        for name in ready[1:]:
            if self.need(name) <= left:
                found, left = found + 1, left - self.need(name)
        return found

    def share(self, name, waiting, running, others):
        """How many jobs a crate gets, 0 where it is to wait, and the seconds that its chain has to
        spare.
        """
        ends = [self.chain[it.start.name] - self.seconds[it.start.name] + it.left for it in running]
        longest = max(ends + [self.chain[it] for it in waiting])
        spare = max(0.0, longest - self.chain[name])
        work = sum(self.seconds[it] for it in waiting) + sum(it.left for it in running)
        idle = self.processors - sum(it.start.jobs for it in running)
        jobs = min(MOST_JOBS, max(1, idle - others)) if idle > 0 else 0
        is_led = any(it.start.jobs > 1 and it.start.spare < CLOSE for it in running)
        hangs = self.processors > 2 and longest > HANGS * work / self.processors
        if hangs and spare < CLOSE and len(running) <= self.processors and not is_led:
            return max(FAVOURED, jobs), spare
        return jobs, spare

    def seconds_left(self, waiting, proved, running, alone=()):
        """The reckoned seconds until all is proved, by playing the rest of the schedule through."""
        waiting, proved = set(waiting), set(proved)
        running = [Running(it.start, it.left) for it in running]
        clock = 0.0
        while waiting or running:
            start = self.next(waiting, proved, running, alone)
            if start:
                waiting.remove(start.name)
                running.append(Running(start, self.seconds[start.name]))
                continue
            if not running:
                return clock
            rates = self.rates(running)
            step = min(it.left / rate for it, rate in zip(running, rates))
            clock += step
            for it, rate in zip(running, rates):
                it.left -= step * rate
            proved.update(it.start.name for it in running if it.left < 1e-6)
            running = [it for it in running if it.left >= 1e-6]
        return clock

    def rates(self, running):
        """How fast each proof goes, in seconds of one job a second: those that yield share what the
        others leave.
        """
        found, free = {}, float(self.processors)
        for nice in sorted({it.start.nice for it in running}):
            same = [it for it in running if it.start.nice == nice]
            wanted = sum(it.start.jobs for it in same)
            part = max(0.05, min(1.0, free / wanted))
            free = max(0.0, free - part * wanted)
            found.update((it.start.name, part * RATES[it.start.jobs]) for it in same)
        return [found[it.start.name] for it in running]
