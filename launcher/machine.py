"""What the machine has: processors, memory, disk."""
import os
import re

CPU_LIMIT, MEMORY_LIMIT, MEMORY_HELD = (
    '/sys/fs/cgroup/' + it for it in ('cpu.max', 'memory.max', 'memory.stat')
)


def found_in(path, pattern):
    """The numbers that a pattern finds in a file, or None."""
    try:
        with open(path, encoding='ascii', errors='replace') as file:
            found = re.search(pattern, file.read(), re.M)
    except OSError:
        return None
    return [int(it) for it in found.groups()] if found else None


def processors():
    """How many processors this process may use, by a control group's limit too."""
    usable = len(os.sched_getaffinity(0))
    limit = found_in(CPU_LIMIT, r'^(\d+) (\d+)')
    return max(1, min(usable, limit[0] // limit[1])) if limit else usable


def free_memory():
    """The bytes of memory that may be taken, by a control group's limit too, without swap."""
    free = 1024 * (found_in('/proc/meminfo', r'^MemAvailable:\s+(\d+)') or [0])[0]
    limit, held = found_in(MEMORY_LIMIT, r'^(\d+)'), found_in(MEMORY_HELD, r'^anon (\d+)')
    return max(0, min(free, limit[0] - held[0])) if limit and held else free


def free_swap():
    """The bytes of swap that are free."""
    return 1024 * (found_in('/proc/meminfo', r'^SwapFree:\s+(\d+)') or [0])[0]


def free_disk(folder):
    """The bytes that this user may still write to the file system of a folder."""
    found = os.statvfs(folder)
    return found.f_bavail * found.f_frsize
