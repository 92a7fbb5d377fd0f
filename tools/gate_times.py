#!/usr/bin/env python3
"""Runs the gate at the top of the repository and says where its time goes: for each crate the processor seconds that its proof,
the proofs of its tests and its must-fail edits took, and the longest single check; and the longest chain of crates, each of
which waits for the one before. It also says for how many seconds how many checks were at work, how much memory they took together,
and what else the processors did, so that idle places and other work are seen. The whole output goes to out/gate.log, with the time in seconds before each line. The exit status
is that of the gate.

  gate_times.py            runs `make check`
  gate_times.py WORD..     runs this command instead, such as `make`

Before that it takes the unit in which docs/proving.md has its times (`machine.py unit`).
"""
import collections
import os
import subprocess
import sys
import threading
import time

import machine
import repository

TICK = os.sysconf("SC_CLK_TCK")
PAGE = os.sysconf("SC_PAGE_SIZE")
EVERY = 0.5


def running(root):
    """The checks that run below a process: (process, crate, kind, processor seconds)."""
    children, words, used = collections.defaultdict(list), {}, {}
    for name in filter(str.isdigit, os.listdir("/proc")):
        try:
            with open(f"/proc/{name}/stat", "rb") as file:
                fields = file.read().rpartition(b")")[2].split()
            with open(f"/proc/{name}/cmdline", "rb") as file:
                words[int(name)] = file.read().decode(errors="replace").split("\0")
        except OSError:
            continue
        children[int(fields[1])].append(int(name))
        used[int(name)] = (int(fields[11]) + int(fields[12])) / TICK
    below, found = [root], []
    while below:
        process = below.pop()
        below += children[process]
        line = words.get(process, [""])
        if os.path.basename(line[0]) != "rattle" or "--crate-name" not in line:
            continue
        try:
            folder = os.readlink(f"/proc/{process}/cwd")
        except OSError:
            continue
        kind = "edits" if "rt-edit-" in folder else "tests" if "--test" in line else "proof"
        found.append((process, line[line.index("--crate-name") + 1], kind, used.get(process, 0.0)))
    return found


def memory_of(processes):
    """The resident memory of processes, in bytes."""
    found = 0
    for process in processes:
        try:
            with open(f"/proc/{process}/statm") as file:
                found += int(file.read().split()[1]) * PAGE
        except OSError:
            pass
    return found


def processor_times():
    """The seconds that all processors worked, were idle, and were taken by the host."""
    with open("/proc/stat") as file:
        times = [int(it) / TICK for it in file.readline().split()[1:9]]
    user, nice, system, idle, waiting, interrupts, soft, stolen = times
    return user + nice + system + interrupts + soft, idle + waiting, stolen


def longest_chain(total):
    """Returns the chain of crates whose proofs take the longest one after the other, and its seconds."""
    rows, chains = repository.rows(), {}

    def chain(crate):
        if crate not in chains:
            below = max((chain(it) for it in rows[crate] if it in rows), default=(0, []))
            chains[crate] = below[0] + total[crate, "proof"], [*below[1], crate]
        return chains[crate]

    return max(chain(crate) for crate in rows)


def main():
    os.makedirs("out", exist_ok=True)
    unit = machine.unit()
    began, used_before, times_before = time.time(), machine.used(), processor_times()
    words = sys.argv[1:] or ["make", "check"]
    gate = subprocess.Popen(words, stdout=subprocess.PIPE, stderr=subprocess.STDOUT, errors="replace")

    def copy():
        with open("out/gate.log", "w") as log:
            for line in gate.stdout:
                print(f"{time.time() - began:6.0f} {line}", end="", file=log, flush=True)

    copying = threading.Thread(target=copy)
    copying.start()
    seen, lanes, most = {}, collections.Counter(), 0
    while gate.poll() is None:
        found = running(gate.pid)
        for process, crate, kind, used in found:
            seen[process] = crate, kind, max(used, seen.get(process, ("", "", 0.0))[2])
        # A check of several jobs is several processes.
        lanes[len({(crate, kind) for _, crate, kind, _ in found})] += EVERY
        most = max(most, memory_of(process for process, *_ in found))
        time.sleep(EVERY)
    copying.join()
    total, longest = collections.Counter(), collections.Counter()
    for crate, kind, used in seen.values():
        total[crate, kind] += used
        longest[crate, kind] = max(longest[crate, kind], used)
    print(f"{'crate':<14}{'what':<8}{'seconds':>8}{'longest':>9}")
    for (crate, kind), used in total.most_common():
        print(f"{crate:<14}{kind:<8}{used:>8.0f}{longest[crate, kind]:>9.0f}")
    for kind in ("proof", "tests", "edits"):
        print(f"{'all':<14}{kind:<8}{sum(used for (_, it), used in total.items() if it == kind):>8.0f}")
    seconds, crates = longest_chain(total)
    print(f"longest chain: {seconds:.0f} seconds: {', '.join(crates)}")
    print("checks at once, and for how many seconds: " + ", ".join(f"{count}: {lanes[count]:.0f}" for count in sorted(lanes)))
    print(f"the most memory that they took together: {most / 1e9:.1f} GB")
    used, (worked, idle, stolen) = machine.used() - used_before, (now - before for now, before in zip(processor_times(), times_before))
    print(f"processors: {worked:.0f} seconds of work, {worked - used:.0f} of them of other programs, {idle:.0f} idle, {stolen:.0f} taken by the host")
    print(f"{time.time() - began:.0f} seconds in all on {machine.processors()} processors, {used:.0f} of the processors: {used / unit:.0f} units of {unit:.1f}")
    with open("out/gate.log") as log:
        print("last line:", log.read().rstrip().rpartition("\n")[2])
    return gate.returncode


sys.exit(main())
