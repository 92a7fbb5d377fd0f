#!/usr/bin/env python3
"""Prints what a run of many checks costs beside the compiler calls alone, and beside Autoconf's configure.

    bench/checks.py [--checks N] [--rounds R] [--windows 1,4] [--alone A] [--program PATH] [--compiler CC] [--autoconf PROGRAM]

It writes a configure.ac with N checks, and records the compiler calls of a run, with their conftests. Then it runs in turn, R times:
those calls, by a small C program (bench/calls.c) that does nothing else; acrun; and the configure that Autoconf makes of the same
file, if there is an Autoconf. So each ratio is one of times that were taken side by side. The same is done with a compiler that
does nothing: what is left is the own cost. Last, it runs acrun with all answers in a cache, and `acrun status`.

With --alone, it only compares acrun with each window with the calls A at a time, in an order that is shuffled anew in each round. As
--alone 4 --windows 4,6,8,16 that says which window keeps four processors busy.

Each figure is the median of the rounds. The compiler is a path or a name without flags. It needs Linux, for processor times.
"""
import argparse
import filecmp
import os
import pathlib
import random
import shlex
import shutil
import statistics
import subprocess
import tempfile

from configuring import BUILT, HERE, compiled, measured, write_package

# Writes the words of each call and its conftest to a directory of its own, and makes the call.
RECORDER = """#!/bin/sh
number=$(ls "$RECORDED" | wc -l)
mkdir "$RECORDED/$number"
printf '%s\\t' "$RECORDED/$number" "$RECORDED_COMPILER" "$@" > "$RECORDED/$number/call"
for word; do
    case $word in *.c) cp "$word" "$RECORDED/$number/" ;; esac
done
exec "$RECORDED_COMPILER" "$@"
"""
NOTHING = "int main(void) { return 0; }\n"
WARM_RUNS = 40


def arguments():
    parser = argparse.ArgumentParser(description=__doc__, formatter_class=argparse.RawDescriptionHelpFormatter)
    parser.add_argument("--checks", type=int, default=300)
    parser.add_argument("--rounds", type=int, default=5)
    parser.add_argument("--windows", default="1,4")
    parser.add_argument("--alone", type=int)
    parser.add_argument("--program", type=pathlib.Path, default=BUILT)
    parser.add_argument("--compiler", default=os.environ.get("CC", "gcc"))
    parser.add_argument("--autoconf", default="autoconf")
    given = parser.parse_args()
    given.program = given.program.resolve()
    given.windows = [int(window) for window in given.windows.split(",")]
    return given


def fresh(directory):
    """Empties a directory, so that a run begins without anything from an earlier one."""
    shutil.rmtree(directory, ignore_errors=True)
    directory.mkdir()
    return directory


def wanted(run, status=0):
    """Returns the run if it ended with this status, and stops with its output otherwise."""
    if run.status != status:
        raise SystemExit(run.output[-2000:])
    return run


def recorded_calls(room, program, package, compiler):
    """Runs acrun once with a recorder in the compiler's place. Returns the list of the calls, and how many succeeded."""
    recorder = room / "recorder"
    recorder.write_text(RECORDER)
    recorder.chmod(0o755)
    calls = fresh(room / "recorded")
    environment = {"RECORDED": str(calls), "RECORDED_COMPILER": shutil.which(compiler) or compiler}
    build = fresh(room / "recording")
    wanted(measured([program, "configure", f"--srcdir={package}", f"CC={recorder}"], build, environment))
    folders = sorted(calls.iterdir(), key=lambda folder: int(folder.name))
    listed = room / "calls"
    listed.write_text("".join((folder / "call").read_text() + "\n" for folder in folders))
    succeeded = (build / "config.log").read_text().count("\nstatus 0\n")
    return listed, len(folders), succeeded


def with_compiler(room, listed, compiler):
    """Returns the same list of calls, of another compiler."""
    other = room / "other_calls"
    lines = [line.split("\t") for line in listed.read_text().splitlines()]
    other.write_text("".join("\t".join([line[0], str(compiler), *line[2:]]) + "\n" for line in lines))
    return other


def made_configure(room, package, autoconf):
    """Makes configure by Autoconf, and returns its path, or None if there is no Autoconf."""
    if not shutil.which(autoconf):
        return None
    subprocess.run([autoconf], cwd=package, check=True, stderr=subprocess.DEVNULL)
    return package / "configure"


def run_acrun(room, given, package, window, compiler, *more):
    words = [given.program, f"-j{window}", "configure", f"--srcdir={package}", f"CC={compiler}", *more]
    return wanted(measured(words, fresh(room / "acrun")))


def run_calls(room, driver, window, listed, succeeded):
    run = wanted(measured([driver, str(window), listed], fresh(room / "bare")))
    if succeeded is not None and int(run.output) != succeeded:
        raise SystemExit(f"{run.output.strip()} of the bare calls succeeded, and {succeeded} of acrun's")
    return run


def run_configure(room, configure, compiler):
    environment = {"CONFIG_SHELL": "/bin/sh"}
    return wanted(measured([configure, f"CC={compiler}"], fresh(room / "configure"), environment))


def middle(values):
    return statistics.median(values)


def print_pair(title, count, bare, ours):
    """Prints the times of the rounds, and the ratio of each round's two."""
    ratios = [mine.seconds / alone.seconds for mine, alone in zip(ours, bare)]
    busy = [(mine.own + mine.children) / (alone.own + alone.children) for mine, alone in zip(ours, bare)]
    print(f"{title}: calls alone {middle(run.seconds for run in bare):.3f} s, acrun {middle(run.seconds for run in ours):.3f} s")
    print(f"  ratio {middle(ratios):.3f}, of the rounds {min(ratios):.3f} to {max(ratios):.3f}")
    print(f"  ratio of the processor times of all processes {middle(busy):.3f}, {min(busy):.3f} to {max(busy):.3f}")
    own = middle(run.own for run in ours)
    share = middle(run.own / run.children for run in ours)
    print(f"  acrun's own processor time {1000 * own:.2f} ms, {1000 * own / count:.4f} ms a call, {100 * share:.2f} % of its children's")


def compare_calls(room, given, package, driver, listed, count, succeeded, configure):
    """Runs the calls alone, acrun and configure in turn."""
    bare, ours, theirs = {}, {}, []
    for _ in range(given.rounds):
        for window in given.windows:
            bare.setdefault(window, []).append(run_calls(room, driver, window, listed, succeeded))
            ours.setdefault(window, []).append(run_acrun(room, given, package, window, given.compiler))
        if configure:
            theirs.append(run_configure(room, configure, given.compiler))
    for window in given.windows:
        print_pair(f"{count} calls of {given.compiler}, {window} at once", count, bare[window], ours[window])
    if not theirs:
        print("no Autoconf: configure was not run")
        return
    # What configure finds is what acrun finds.
    same = filecmp.cmp(room / "acrun" / "config.h", room / "configure" / "config.h", shallow=False)
    print(f"configure by Autoconf: {middle(run.seconds for run in theirs):.3f} s, config.h is {'the same' if same else 'another'}")
    for window in given.windows:
        ratios = [mine.seconds / other.seconds for mine, other in zip(ours[window], theirs)]
        busy = [(mine.own + mine.children) / (other.own + other.children) for mine, other in zip(ours[window], theirs)]
        print(f"  acrun with {window} at once takes {middle(ratios):.3f} of it, {min(ratios):.3f} to {max(ratios):.3f}")
        print(f"  and {middle(busy):.3f} of its processor time")


def compare_windows(room, given, package, driver, listed, count, succeeded):
    """Runs the calls A at a time, and acrun with each window, in shuffled turns."""
    bare, ours = [], {window: [] for window in given.windows}
    for _ in range(given.rounds):
        turns = [None, *given.windows]
        random.shuffle(turns)
        for window in turns:
            if window is None:
                bare.append(run_calls(room, driver, given.alone, listed, succeeded))
            else:
                ours[window].append(run_acrun(room, given, package, window, given.compiler))
    for window, runs in ours.items():
        print_pair(f"{count} calls of {given.compiler}, alone {given.alone} at once, acrun {window}", count, bare, runs)


def compare_nothing(room, given, package, driver, listed, count):
    """Does the same with a compiler that does nothing."""
    source = room / "nothing.c"
    source.write_text(NOTHING)
    nothing = compiled(given.compiler, source, room / "nothing", "-static")
    other = with_compiler(room, listed, nothing)
    for window in given.windows:
        bare, ours = [], []
        for _ in range(4 * given.rounds):
            bare.append(run_calls(room, driver, window, other, None))
            ours.append(run_acrun(room, given, package, window, nothing))
        over = [(mine.seconds - alone.seconds) / count for mine, alone in zip(ours, bare)]
        print(
            f"{count} calls of a program that does nothing, {window} at once: alone {1000 * middle(run.seconds for run in bare):.1f} ms,"
            f" acrun {1000 * middle(run.seconds for run in ours):.1f} ms"
        )
        print(f"  so acrun adds {1000 * middle(over):.4f} ms to a call, {1000 * min(over):.4f} to {1000 * max(over):.4f}")
        own = [1000 * middle(run.own for run in runs) / count for runs in (bare, ours)]
        print(f"  processor time of the process itself: alone {own[0]:.4f} ms a call, acrun {own[1]:.4f}, {own[1] - own[0]:.4f} more")


def show_warm(room, given, package, count):
    """Runs acrun with every answer in a cache, and then makes the outputs again."""
    build = fresh(room / "warm")
    words = [given.program, "configure", "-C", f"--srcdir={package}", f"CC={given.compiler}"]
    wanted(measured(words, build))
    rows = ((f"{count} cached checks", words), ("status", [given.program, "status"]), ("version", [*words, "--version"]))
    for title, command in rows:
        runs = [wanted(measured(command, build)) for _ in range(WARM_RUNS)]
        print(
            f"{title}: {1000 * middle(run.seconds for run in runs):.2f} ms, the least {1000 * min(run.seconds for run in runs):.2f} ms,"
            f" processor time {1000 * middle(run.own for run in runs):.2f} ms"
        )


def main():
    given = arguments()
    with tempfile.TemporaryDirectory() as name:
        room = pathlib.Path(name)
        package = room / "package"
        write_package(package, given.checks)
        driver = compiled(given.compiler, HERE / "calls.c", room / "calls_program")
        listed, count, succeeded = recorded_calls(room, given.program, package, given.compiler)
        load = " ".join(shlex.split(pathlib.Path("/proc/loadavg").read_text())[:3])
        print(f"{given.checks} checks, {given.rounds} rounds, {os.cpu_count()} processors, load {load}")
        if given.alone:
            compare_windows(room, given, package, driver, listed, count, succeeded)
            return
        configure = made_configure(room, package, given.autoconf)
        show_warm(room, given, package, given.checks)
        compare_nothing(room, given, package, driver, listed, count)
        compare_calls(room, given, package, driver, listed, count, succeeded, configure)


main()
