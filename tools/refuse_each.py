#!/usr/bin/env python3
"""Refuses each allocation of the program `tests_growth` in turn, and checks what it then answers. `make
check` runs this after `rt ci`, which proves the program and leaves it as
crates/tests_growth/out/tests_growth. It may be run alone:

    tools/refuse_each.py [PROGRAM] [--jobs N]

The program calls `configure`, `remake`, `read_record` and `write_record` over memory, and compares
each answer itself. Its exit status is 0 if every answer is whole, 3 if a call answers that memory
ran out, 4 if it answers that a put was refused for that, and 2 if memory ran out before a call. It
prints the name of a call whose answer isn't right, and nothing else.

Each allocation is refused twice: alone, and with all after it. No run may print anything. If all
are refused, it has to end with 2, 3 or 4. If one alone is, a whole answer is right too: `collect`
asks for room for all that may come, and if that is refused, for as much as it needs. Both 3 and 4
have to come. If nothing is refused, the run has to end with 0.

The library tools/refuse_growth.c, which is loaded before the C library, makes allocations fail.
The compiler of the toolchain builds it, or `cc` if it has none. The last line is 'N passed, M
failed', with 1 for all of it, and the exit status is M.
"""
import argparse
import collections
import os
import pathlib
import shutil
import subprocess
import sys
import tempfile
from concurrent.futures import ThreadPoolExecutor

ROOT = pathlib.Path(__file__).resolve().parent.parent
PROGRAM = ROOT / "crates/tests_growth/out/tests_growth"
WORDS = {3: "answers of no memory", 4: "refused puts", 0: "whole answers", 2: "before a call"}


def compiler():
    """Returns the words that build a library: the toolchain's compiler, or `cc`."""
    page = subprocess.run(["rt", "doc"], capture_output=True, text=True).stdout.strip()
    folder = pathlib.Path(page).parent / "toolchain/bin"
    if (folder / "clang").exists() and (folder / "ld.lld").exists():
        return [folder / "clang", f"-fuse-ld={folder / 'ld.lld'}"]
    return [shutil.which("cc") or "cc"]


def build(library):
    """Builds the library that refuses an allocation. It needs no header."""
    words = ["-shared", "-fPIC", "-O1", "-nostdlib", "-o", library, ROOT / "tools/refuse_growth.c"]
    subprocess.run([*compiler(), *words], check=True)


def run(program, library, number, **more):
    """Runs the program with an allocation refused. Returns its exit status, and what it prints."""
    env = {"LD_PRELOAD": str(library), "REFUSE_AT": str(number), **more}
    words = {"stdin": subprocess.DEVNULL, "stdout": subprocess.PIPE, "stderr": subprocess.STDOUT}
    done = subprocess.run([program], env=env, timeout=60, **words)
    return done.returncode, done.stdout.decode(errors="replace").strip()


def try_each(program, library, total, jobs, how, **more):
    """Refuses each allocation in turn. Prints each run that is wrong and the counts, and returns
    whether all are right."""
    counts, wrong, numbers = collections.Counter(), 0, range(1, total + 1)
    with ThreadPoolExecutor(jobs) as pool:
        results = pool.map(lambda number: run(program, library, number, **more), numbers)
        for number, (status, said) in zip(numbers, results):
            if said or status not in WORDS or (more and status == 0):
                wrong += 1
                print(f"allocation {number} refused{how}: {said or f'status {status}'}", flush=True)
            else:
                counts[status] += 1
    shown = ", ".join(f"{counts[it]:,} {WORDS[it]}" for it in WORDS)
    print(f"{total:,} allocations, each refused{how}: {shown}; {wrong} wrong", flush=True)
    return wrong == 0 and counts[3] > 0 and counts[4] > 0


def check(program=PROGRAM, jobs=None):
    """Refuses each allocation in turn, prints what is wrong, and returns how many checks passed and
    failed."""
    if not os.access(program, os.X_OK):
        print(f"{program} is not built, so no allocation is refused")
        return 0, 1
    with tempfile.TemporaryDirectory() as place:
        library, count = pathlib.Path(place) / "refuse.so", pathlib.Path(place) / "count"
        build(library)
        status, said = run(program, library, 0, REFUSE_COUNT=str(count))
        total = int(count.read_text()) if count.exists() else 0
        if status or said or not total:
            print(f"{program} ends with status {status} after {total} allocations: {said}")
            return 0, 1
        given = program, library, total, jobs or len(os.sched_getaffinity(0))
        is_right = try_each(*given, " alone")
        is_right &= try_each(*given, " with all after it", REFUSE_ALL="1")
        return int(is_right), int(not is_right)


def main():
    parser = argparse.ArgumentParser()
    parser.add_argument("program", nargs="?", default=PROGRAM)
    parser.add_argument("--jobs", type=int)
    arguments = parser.parse_args()
    passed, failed = check(pathlib.Path(arguments.program).resolve(), arguments.jobs)
    print(f"{passed} passed, {failed} failed")
    return failed


if __name__ == "__main__":
    sys.exit(main())
