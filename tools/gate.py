#!/usr/bin/env python3
"""The gate, `make check`: `rt ci`, then what no proof sees of the repository (`repository.py`), what comes of memory that runs out
at each allocation (`refuse_each.py`), and runs of the built programs: over children that are acrun too (`examples/standin`), that
are killed and go on (`examples/answers`), on a terminal (`try_terminal.py`), with errors (`examples/errors` and the examples of docs/errors.md), of the commands whose words no clause
has (`examples/help`, `examples/lint` and `examples/port`), and of acrun with other programs in the place of acrun-tools
(`examples/tools`). The scripts `share/configure`, `share/port` and `share/acrun-compare` have runs of their own (`examples/wrapper` and
`examples/compare`).

  gate.py            the gate
  gate.py --proofs   proves all crates and their tests, without the must-fail edits, in a room. What it proves is kept on this
                     machine, and the gate then has only the rest to do: the two together take as long as the gate alone, for
                     machines on which that is too long for one run

Unless RT_JOBS is set, `rt ci` runs as many checks side by side as the machine has processors and memory for (`machine.py`). On a
machine on which nothing is proved yet, the gate first takes the unit of docs/proving.md, and says at its end how many units of
processor time it took.

Its last line is 'N passed, M failed' over all of them, and the exit status is 1 if M is not 0.
"""
import os
import pathlib
import re
import shutil
import subprocess
import sys
import time

import machine
import refuse_each
import repository

# The built programs, beside each other.
PROGRAMS = pathlib.Path("out/programs")
COUNTS = re.compile(r"(\d+) passed, (\d+) failed\s*\Z")


def prove(top="."):
    """Runs `rt ci` in a repository, passes on what it prints, and returns how many items passed and failed."""
    os.environ.setdefault("RT_JOBS", str(machine.jobs()))
    print(f"gate: {os.environ['RT_JOBS']} checks side by side on {machine.processors()} processors", flush=True)
    words = {"stdin": subprocess.DEVNULL, "stdout": subprocess.PIPE, "stderr": subprocess.STDOUT, "errors": "replace"}
    last = ""
    with subprocess.Popen(["rt", "ci"], cwd=top, **words) as gate:
        for line in gate.stdout:
            print(line, end="", flush=True)
            last = line
    counts = COUNTS.match(last)
    if not counts:
        return 0, 1
    passed, failed = map(int, counts.groups())
    return passed, max(failed, int(gate.returncode != 0))


def prove_in_room():
    """Proves all crates and their tests in a repository of copies without must-fail edits."""
    room = pathlib.Path("out/rooms/all")
    shutil.copytree("crates", room / "crates", ignore=shutil.ignore_patterns("out", "must-fail", "wrong-bodies", "tested-bodies"))
    for name in ("crates.txt", "HANDLES"):
        shutil.copy(name, room)
    subprocess.run(["git", "init", "-q", room], check=True)
    return prove(room)


def gather():
    """Puts the programs that `rt ci` built into one directory, since acrun starts the acrun-tools beside it."""
    shutil.rmtree(PROGRAMS, ignore_errors=True)
    PROGRAMS.mkdir(parents=True)
    for crate, name in {"acrun": "acrun", "acrun_tools": "acrun-tools", "tests_cases": "tests_cases"}.items():
        built = pathlib.Path("crates", crate, "out", crate)
        if built.exists():
            shutil.copy(built, PROGRAMS / name)
        else:
            print(f"gate: there is no {built}", flush=True)


def tried(*command):
    """Runs a command that tries something, and returns how many checks passed and failed."""
    done = subprocess.run(command, stdin=subprocess.DEVNULL)
    return int(done.returncode == 0), int(done.returncode != 0)


def examples():
    """Tries acrun as the compiler of its own runs, after kills, on a terminal, with errors, in commands that explain something, and with other tools.
    Then it tries the scripts that need no acrun."""
    gather()
    for name in ("terminal", "errors"):
        yield tried(sys.executable, f"tools/try_{name}.py", PROGRAMS / "acrun")
    for name in ("standin", "answers", "help", "errors", "lint", "port", "tools"):
        yield tried("sh", f"examples/{name}/run.sh", PROGRAMS / "acrun")
    yield tried("sh", "examples/wrapper/run.sh")
    yield tried("sh", "examples/wrapper/port.sh")
    yield tried("sh", "examples/compare/run.sh", "--first")


def main():
    if sys.argv[1:] not in ([], ["--proofs"]):
        sys.exit(__doc__)
    # `rt ci` refuses a repository inside this one, such as the room in which `make` proves.
    shutil.rmtree("out/rooms", ignore_errors=True)
    if sys.argv[1:]:
        passed, failed = prove_in_room()
        print(f"{passed} passed, {failed} failed")
        return int(failed > 0)
    unit = machine.unit() if machine.is_new() else None
    began, before = time.time(), machine.used()
    passed, failed = prove()
    for more, wrong in (repository.check(), refuse_each.check(), *examples()):
        passed, failed = passed + more, failed + wrong
    seconds, used = time.time() - began, machine.used() - before
    print(f"gate: {seconds:.0f} seconds, {used:.0f} of the processors" + (f", {used / unit:.0f} units of {unit:.1f}" if unit else ""))
    print(f"{passed} passed, {failed} failed")
    return int(failed > 0)


if __name__ == "__main__":
    sys.exit(main())
