"""What the machine, or the control group that this runs in, has to give: processors and memory."""
import os

GROUP = "/sys/fs/cgroup"
# What the check of one crate takes at most, and each further module that it checks at the same time, in bytes, as measured.
CHECK, JOB = 3_500_000_000, 1_500_000_000
# The part of the free memory that is planned with.
PLANNED = 0.85


def numbers_in(path):
    """Returns the words of a file's first line as numbers, none where there is no such file or limit."""
    try:
        with open(path, encoding="utf-8") as file:
            return [int(it) for it in file.readline().split()]
    except (OSError, ValueError):
        return []


def processors():
    """Returns how many processors there are to use."""
    quota, found = numbers_in(f"{GROUP}/cpu.max"), len(os.sched_getaffinity(0))
    return min(found, max(1, quota[0] // quota[1])) if quota else found


def free_memory():
    """Returns how much memory is free, in bytes."""
    with open("/proc/meminfo", encoding="utf-8") as file:
        free = 1024 * next(int(row.split()[1]) for row in file if row.startswith("MemAvailable:"))
    limit, used = numbers_in(f"{GROUP}/memory.max"), numbers_in(f"{GROUP}/memory.current")
    return min(free, limit[0] - used[0]) if limit and used else free


def lanes_and_jobs(count, available, memory):
    """Returns how many crates to try at the same time, of so many, and how many modules each may check at the same time."""
    planned = int(PLANNED * memory)
    lanes = max(1, min(count, available, planned // CHECK))
    return lanes, max(1, min(available // lanes, 1 + (planned // lanes - CHECK) // JOB))
