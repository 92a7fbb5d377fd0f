#!/usr/bin/env python3
"""What the machine can do for a gate.

  machine.py jobs    prints how many checks `rt ci` is to run side by side: one a processor, as far as the free memory has 3.5 GB for
                     each, and at least one. Processors are those that this process may run on, or fewer by the quota of its group
  machine.py unit    prints the processor seconds that `rt verdict` of the crate crew_tally takes, which depends on no other crate.
                     They are the unit of the times in docs/proving.md, since machines differ by more than a factor of two

`rt ci` reckons with some 2.5 times the memory that its checks take, and leaves processors idle for it. It does not ask for memory
if RT_JOBS is set.
"""
import contextlib
import os
import pathlib
import re
import shutil
import subprocess
import sys
import tempfile

ROOT = pathlib.Path(__file__).resolve().parent.parent
# The memory that is kept for each check. The largest takes 4.1 GB, and most take less than 2.
FOR_A_CHECK = 3_500_000_000
UNIT = "crew_tally"


def groups(controller):
    """The folders of this process's control group and of those above it, for a controller of the first kind of groups, or ''."""
    with contextlib.suppress(OSError):
        for line in pathlib.Path("/proc/self/cgroup").read_text().splitlines():
            _, names, path = line.split(":", 2)
            if controller in names.split(","):
                top = pathlib.Path("/sys/fs/cgroup") / names
                inside = pathlib.PurePosixPath(path.lstrip("/"))
                for part in (inside, *inside.parents):
                    yield top / part


def number_in(path, pattern=r"\s*(\d+)\s*\Z"):
    """The number in a file, or None."""
    with contextlib.suppress(OSError):
        found = re.match(pattern, path.read_text())
        return int(found[1]) if found else None
    return None


def processors():
    """How many processors there are to use."""
    found = len(os.sched_getaffinity(0))
    quotas = [(number_in(it / "cpu.max", r"(\d+)"), number_in(it / "cpu.max", r"\S+\s+(\d+)")) for it in groups("")]
    quotas += [(number_in(it / "cpu.cfs_quota_us"), number_in(it / "cpu.cfs_period_us")) for it in groups("cpu")]
    return min([found, *(max(quota // period, 1) for quota, period in quotas if quota and period)])


def free_memory():
    """The free memory in bytes, of the machine and of the control group."""
    with open("/proc/meminfo") as file:
        found = [1024 * int(re.search(r"MemAvailable:\s+(\d+)", file.read())[1])]
    limits = [(number_in(it / "memory.max"), number_in(it / "memory.current")) for it in groups("")]
    limits += [(number_in(it / "memory.limit_in_bytes"), number_in(it / "memory.usage_in_bytes")) for it in groups("memory")]
    return min(found + [limit - used for limit, used in limits if limit is not None and used is not None])


def jobs():
    return max(1, min(processors(), free_memory() // FOR_A_CHECK))


def used():
    """The processor seconds of the children that have ended, and of theirs."""
    times = os.times()
    return times.children_user + times.children_system


def unit():
    """The processor seconds that `rt verdict` of the crate takes, in a repository with this crate alone."""
    with tempfile.TemporaryDirectory() as folder:
        top = pathlib.Path(folder)
        (top / "crates.txt").write_text(f"{UNIT}:\n")
        shutil.copy(ROOT / "HANDLES", top)
        for part in ("src", "specs", "proofs"):
            shutil.copytree(ROOT / "crates" / UNIT / part, top / "crates" / UNIT / part)
        subprocess.run(["git", "init", "-q", folder], check=True)
        before = used()
        done = subprocess.run(["rt", "verdict"], cwd=top / "crates" / UNIT, stdin=subprocess.DEVNULL, stdout=subprocess.PIPE, stderr=subprocess.STDOUT, errors="replace")
        if done.returncode != 0:
            sys.exit(f"rt verdict of {UNIT} fails:\n{done.stdout[-2000:]}")
        return used() - before


def is_new():
    """Whether `rt ci` has kept no proof on this machine yet."""
    page = subprocess.run(["rt", "doc"], capture_output=True, text=True, check=True).stdout.strip()
    kept = pathlib.Path(page).resolve().parent.parent / "rattle-kept"
    return not any(kept.glob("proof-*"))


if __name__ == "__main__":
    if sys.argv[1:] == ["jobs"]:
        print(jobs())
    elif sys.argv[1:] == ["unit"]:
        print(f"{unit():.0f}")
    else:
        sys.exit(__doc__)
