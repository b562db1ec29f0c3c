"""What of this machine a build may use: processors and memory, of which a control group may have fewer, as the kit counts them."""
import os
import re
from pathlib import Path

GROUPS = Path("/sys/fs/cgroup")
# Where a group's quota of processor time and the period of it stand, and its limit on memory and what it holds: in both forms that systems have.
QUOTAS = (("cpu.max", r"^(\d+)", "cpu.max", r" (\d+)"), ("cpu/cpu.cfs_quota_us", r"^(\d+)", "cpu/cpu.cfs_period_us", r"^(\d+)"))
LIMITS = (("memory.max", r"^(\d+)", "memory.stat", r"anon (\d+)"),
          ("memory/memory.limit_in_bytes", r"^(\d+)", "memory/memory.stat", r"total_rss (\d+)"))
# The memory that must be free for a run to begin beside others.
RUN_TAKES = 3 << 30


def number_in(file: Path, pattern: str) -> int | None:
    """The number that the pattern finds in a file, if both are there."""
    try:
        found = re.search(pattern, file.read_text())
    except OSError:
        return None
    return int(found[1]) if found else None


def pairs(places: tuple[tuple[str, str, str, str], ...]) -> list[tuple[int, int]]:
    """The pairs of numbers that the control group tells in these places."""
    found = [(number_in(GROUPS / one, first), number_in(GROUPS / other, second)) for one, first, other, second in places]
    return [(one, other) for one, other in found if one is not None and other is not None]


def processors() -> int:
    """How many processors there are to use."""
    return min([len(os.sched_getaffinity(0)), *(max(quota // period, 1) for quota, period in pairs(QUOTAS) if period)])


def has_room() -> bool:
    """Whether there is memory for a run beside others."""
    there = number_in(Path("/proc/meminfo"), r"MemAvailable:\s+(\d+)") or 0
    return min([1024 * there, *(limit - held for limit, held in pairs(LIMITS))]) >= RUN_TAKES


def runs_at_once() -> int:
    """How many runs of the kit, of a crate each, best work side by side: it gives a crate that is alone half of the processors, four at most, and one run
    more works while another is at its last functions. Just one where a crate gets one processor anyhow, as where RT_JOBS tells how many to use."""
    return 1 if processors() < 4 or os.environ.get("RT_JOBS") else min(processors() // 2 + 1, 5)
