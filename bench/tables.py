#!/usr/bin/env python3
"""Prints how tables and templates do in time and memory, as ratios: python3 bench/tables.py

It makes a repository in a temporary directory, of bench/tables.rt.txt and of the crates that it uses, proves and builds the
program there with rt, and measures it. It needs rt and no network. Run `make` first: what is proved is not proved again.
"""
import os
import pathlib
import tempfile

from building import build

RUNS = 12
# Names of which a table is made ten times over, or arguments that are read ten times over.
ROWS = (("definitions", 45_000), ("variables", 60_000), ("names", 60_000), ("arguments", 300_000))
USED = ["template", "options", "deftable"]


def measured(*command):
    """Runs the command, and returns its output, its user time in seconds and its peak of memory in kilobytes."""
    reading, writing = os.pipe()
    child = os.posix_spawn(command[0], [str(word) for word in command], {}, file_actions=[(os.POSIX_SPAWN_DUP2, writing, 1)])
    os.close(writing)
    with os.fdopen(reading) as pipe:
        output = pipe.read()
    _, status, used = os.wait4(child, 0)
    if status:
        raise SystemExit(f"{command}: status {status}")
    return output, used.ru_utime, used.ru_maxrss


def main():
    with tempfile.TemporaryDirectory() as folder:
        program = build(pathlib.Path(folder), "tables", USED, "work", "definitions", "1")
        print("user time of ten tables of twice as many names, as a multiple of that of once as many:")
        for name, count in ROWS:
            pairs = [[measured(program, "work", name, size)[1] for size in (count, 2 * count)] for _ in range(RUNS)]
            once, twice = (min(times) for times in zip(*pairs))
            print(f"  {name}: {count} in {once:.3f} s, {2 * count} in {twice:.3f} s: {twice / max(once, 1e-6):.2f}")
        print("time to fill a template of 50,000,000 bytes, as a multiple of that of a copy, in hundredths:")
        print("  " + measured(program)[0].strip().replace("\n", "\n  "))
        print("peak of memory, as a multiple of template and filled text together:")
        for name in ("plain", "few", "keys", "@A", "empty"):
            output, _, peak = measured(program, "peak", name)
            template, filled = (int(word) for word in output.split())
            print(f"  {name}: {template} to {filled} bytes, peak {peak} kB: {1024 * peak / (template + filled):.2f}")


main()
