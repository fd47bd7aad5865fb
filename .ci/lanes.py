"""How many checks `rt ci` is to make side by side."""

import os
import re

# Bytes of memory that hold a check of any crate here, on one processor.
CHECK = 5 * 10**9
# Where control groups, of either version, say how much processor time a period may take, and the period.
QUOTAS = (
    (("cpu.max", r"^(\d+) "), ("cpu.max", r" (\d+)$")),
    (("cpu/cpu.cfs_quota_us", r"^(\d+)"), ("cpu/cpu.cfs_period_us", r"^(\d+)")),
)
# Where they say how much memory may be held, and how much is.
LIMITS = (
    (("memory.max", r"^(\d+)"), ("memory.stat", r"(?m)^anon (\d+)")),
    (("memory/memory.limit_in_bytes", r"^(\d+)"), ("memory/memory.stat", r"(?m)^total_rss (\d+)")),
)


def number_in(file, pattern):
    """The number in a file, or None where there is none."""
    try:
        with open(os.path.join("/sys/fs/cgroup", file), encoding="utf-8") as it:
            return int(re.search(pattern, it.read())[1])
    except (OSError, TypeError):
        return None


def numbers_in(pairs):
    """The two numbers of each pair both of which are reported."""
    found = [[number_in(*it) for it in pair] for pair in pairs]
    return [it for it in found if None not in it]


def processors():
    """How many processors there are to use: those that this process may run on, or fewer by the quota of its control group."""
    return min([len(os.sched_getaffinity(0)), *[max(quota // period, 1) for quota, period in numbers_in(QUOTAS)]])


def memory():
    """How much memory there is to use, in bytes: what is available, or less by the limit of the control group."""
    available = 1024 * (number_in("/proc/meminfo", r"MemAvailable:\s+(\d+)") or 0)
    return min([available, *[limit - held for limit, held in numbers_in(LIMITS)]])


def one_processor_a_check():
    """Where memory holds as many checks as there are processors, has `rt ci` make each check on one: a check on several takes more processor time.
    Where it doesn't, or the caller has named a number, `rt ci` goes by its own measure or by that."""
    lanes = processors()
    if memory() >= lanes * CHECK:
        os.environ.setdefault("RT_JOBS", str(lanes))
