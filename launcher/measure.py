"""How much memory all processes of a proof take together, looked at while it runs (`--measure`)."""
import os
import re
import time

from launcher import machine
from launcher.messages import gigabytes

# A look is taken so many seconds after the one before at the earliest, and later where looks take
# long: a large process is slowed by each.
EACH, SHARE = 5.0, 50


def processes(group):
    """The parent of each process of a group, by its number."""
    found = {}
    for name in os.listdir('/proc'):
        if name.isdigit():
            try:
                with open(f'/proc/{name}/stat', encoding='ascii', errors='replace') as file:
                    words = file.read().rpartition(')')[2].split()
            except OSError:
                continue
            if int(words[2]) == group:
                found[int(name)] = int(words[1])
    return found


def memory_of(process):
    """The bytes that a process holds, with its part of what it shares with others."""
    try:
        with open(f'/proc/{process}/smaps_rollup', encoding='ascii') as file:
            return 1024 * sum(
                int(it) for it in re.findall(r'^(?:Pss|SwapPss):\s+(\d+)', file.read(), re.M)
            )
    except OSError:
        return 0


def disk_of(folder):
    """The bytes of disk that a folder's files take."""
    total = 0
    for holder, _, names in os.walk(folder):
        for name in names:
            try:
                total += 512 * os.lstat(os.path.join(holder, name)).st_blocks
            except OSError:
                pass
    return total


class Meter:
    """The most that the proofs took: each one, and all together."""

    def __init__(self, group, folder):
        self.group, self.folder = group, folder
        self.next, self.memory, self.disk, self.least_free = 0.0, 0, 0, machine.free_memory()

    def look(self, running):
        """Looks at the proofs that run, every few seconds."""
        begun = time.monotonic()
        if begun < self.next:
            return
        parents = processes(self.group)
        roots = {it.process.pid: it for it in running}
        sums = dict.fromkeys(roots, 0)
        for process in parents:
            root = process
            while root in parents and root not in roots:
                root = parents[root]
            if root in roots:
                sums[root] += memory_of(process)
        for root, it in roots.items():
            it.peak = max(it.peak, sums[root])
        self.memory = max(self.memory, sum(sums.values()))
        self.disk = max(self.disk, disk_of(self.folder))
        self.least_free = min(self.least_free, machine.free_memory())
        now = time.monotonic()
        self.next = now + max(EACH, SHARE * (now - begun))

    def told(self):
        """What was seen, in a line."""
        return 'all proofs together: {} of memory and {} of disk at the most; the least memory that was free: {}\n'.format(
            gigabytes(self.memory), gigabytes(self.disk), gigabytes(self.least_free)
        )
