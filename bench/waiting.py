#!/usr/bin/env python3
"""Prints how long slots lie idle while a run waits for its children, for several programs side by side.

    bench/waiting.py [--checks N] [--rounds R] [--window W] [--mean MS] [--deviation D] PROGRAM..

Each program runs a list of N checks with W children at once. A small program takes the compiler's place: it sleeps for a time that
deviates from the mean by the part D of it (one standard deviation), and that its conftest's name alone determines. So all programs
wait for the same children. It prints the median of the times of each program on the clock, as a ratio to that of the first one, and
its idle share: the part of W slots and that time in which no child slept. That has the starts and the end of the list in it too.
"""
import argparse
import pathlib
import shutil
import statistics
import tempfile

from configuring import BUILT, compiled, measured

SLEEPER = r"""
#include <stdio.h>
#include <stdlib.h>
#include <string.h>
#include <unistd.h>

int main(int argc, char **argv)
{
    double mean = atof(getenv("SLEEP_MEAN")), deviation = atof(getenv("SLEEP_DEVIATION"));
    for (int i = 1; i < argc; i++) {
        size_t length = strlen(argv[i]);
        if (length < 2 || strcmp(argv[i] + length - 2, ".c") != 0)
            continue;
        unsigned long state = 88172645463325252u;
        for (const char *c = argv[i]; *c; c++)
            state = (state ^ (unsigned char)*c) * 1099511628211u;
        double normal = -6;
        for (int k = 0; k < 12; k++) {
            state ^= state << 13, state ^= state >> 7, state ^= state << 17;
            normal += (double)(state >> 11) / 9007199254740992.0;
        }
        double time = mean * (1 + deviation * normal);
        if (time < mean / 10)
            time = mean / 10;
        FILE *slept = fopen(getenv("SLEPT"), "a");
        fprintf(slept, "%.0f\n", time * 1000);
        fclose(slept);
        usleep((useconds_t)(time * 1000));
    }
    return 0;
}
"""


def arguments():
    parser = argparse.ArgumentParser(description=__doc__, formatter_class=argparse.RawDescriptionHelpFormatter)
    parser.add_argument("--checks", type=int, default=256)
    parser.add_argument("--rounds", type=int, default=5)
    parser.add_argument("--window", type=int, default=16)
    parser.add_argument("--mean", type=float, default=50, help="milliseconds")
    parser.add_argument("--deviation", type=float, default=0.2)
    parser.add_argument("--compiler", default="gcc")
    parser.add_argument("programs", nargs="*", type=pathlib.Path, default=[BUILT])
    return parser.parse_args()


def write_list(directory, count):
    """Writes a configure.ac with one list of that many declarations, which acrun asks for at once."""
    names = ", ".join(f"name_{number}" for number in range(count))
    directory.mkdir()
    (directory / "configure.ac").write_text(f"AC_INIT([waiting], [1.0])\nAC_CHECK_DECLS([{names}])\nAC_OUTPUT\n")


def waited(room, given, program, sleeper):
    """Runs a program once. Returns its time on the clock and its idle share."""
    build = room / "build"
    shutil.rmtree(build, ignore_errors=True)
    build.mkdir()
    slept = room / "slept"
    slept.write_text("")
    words = [program.resolve(), f"-j{given.window}", "configure", f"--srcdir={room / 'package'}", f"CC={sleeper}"]
    environment = {"SLEEP_MEAN": str(given.mean), "SLEEP_DEVIATION": str(given.deviation), "SLEPT": str(slept)}
    run = measured(words, build, environment)
    times = [int(line) / 1e6 for line in slept.read_text().split()]
    if run.status != 0 or len(times) != given.checks:
        raise SystemExit(f"{program}: status {run.status}, {len(times)} children\n{run.output[-2000:]}")
    return run.seconds, 1 - sum(times) / (given.window * run.seconds)


def main():
    given = arguments()
    if not 1 <= given.checks <= 256:
        raise SystemExit("a list has 1 to 256 entries")
    with tempfile.TemporaryDirectory() as name:
        room = pathlib.Path(name)
        write_list(room / "package", given.checks)
        (room / "sleeper.c").write_text(SLEEPER)
        sleeper = compiled(given.compiler, room / "sleeper.c", room / "sleeper")
        found = {program: [] for program in given.programs}
        for _ in range(given.rounds):
            for program in given.programs:
                found[program].append(waited(room, given, program, sleeper))
    print(f"{given.checks} checks, {given.window} at once, {given.mean:.0f} ms each, deviation {given.deviation:.0%}, {given.rounds} rounds")
    first = statistics.median(seconds for seconds, _ in found[given.programs[0]])
    for program, runs in found.items():
        seconds = statistics.median(seconds for seconds, _ in runs)
        idle = statistics.median(idle for _, idle in runs)
        print(f"{program}: {seconds:.2f} s, {seconds / first:.2f} of the first, {idle:.0%} of the slots' time idle")


main()
