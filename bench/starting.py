#!/usr/bin/env python3
"""Times the start of commands on tiny files, as an editor or a hook starts them, of several programs in turn.

    bench/starting.py BEFORE [PROGRAM]..      each may have its acrun-tools beside it
    bench/starting.py --rounds N ..           N runs of each command in place of 300

Each row has the median of the milliseconds from the start to the end of a run, how many more that is than for BEFORE, and the least of
them. The exit status is 1 if `lint`, `port` or `why` takes over 3 ms more than BEFORE, or ends otherwise.
"""
import argparse
import os
import pathlib
import statistics
import subprocess
import sys
import tempfile
import time

MOST_MORE = 3
FILES = {
    "configure.ac": "AC_INIT([demo],[1.0])\nAC_PROG_CC\nAC_OUTPUT\n",
    "config.log": "checking for sys/stat.h... \n$ cc -c conftest1.c\nstatus 1\nfailed program was:\n| int main(void);\nno\n",
}
# The words, whether the limit counts, and how a run ends.
COMMANDS = [("lint", True, 0), ("port", True, 0), ("why sys/stat.h", True, 0), ("--version", False, 0)]


def milliseconds(program, words, folder):
    """How long one run takes, and its exit status."""
    began = time.perf_counter()
    done = subprocess.run([program, *words], cwd=folder, stdin=subprocess.DEVNULL, stdout=subprocess.DEVNULL, stderr=subprocess.DEVNULL)
    return (time.perf_counter() - began) * 1000, done.returncode


def main():
    parser = argparse.ArgumentParser(description=__doc__, formatter_class=argparse.RawDescriptionHelpFormatter)
    parser.add_argument("--rounds", type=int, default=300)
    parser.add_argument("programs", nargs="+", metavar="PROGRAM")
    given = parser.parse_args()
    programs, wrong = [os.path.realpath(it) for it in given.programs], False
    with tempfile.TemporaryDirectory() as folder:
        for name, text in FILES.items():
            pathlib.Path(folder, name).write_text(text)
        for command, is_limited, wanted in COMMANDS:
            taken, ends = {it: [] for it in programs}, {it: set() for it in programs}
            for _ in range(given.rounds):
                for program in programs:
                    took, status = milliseconds(program, command.split(), folder)
                    taken[program].append(took)
                    ends[program].add(status)
            medians = {it: statistics.median(found) for it, found in taken.items()}
            for program, median in medians.items():
                more = median - medians[programs[0]]
                wrong |= is_limited and more > MOST_MORE or ends[program] != {wanted}
                told = "" if ends[program] == {wanted} else f"  ends with {ends[program]}"
                print(f"{command:<16} {median:6.2f} ms  {more:+6.2f} ms  {min(taken[program]):6.2f} ms  {program}{told}", flush=True)
    return int(wrong)


if __name__ == "__main__":
    sys.exit(main())
