#!/usr/bin/env python3
"""Checks that a run leaves the same bytes however many children run at once.

    bench/windows.py [--checks N] [--runs R] [--window W] [--program PATH] [--compiler CC] [--quick]

It runs acrun on N checks one at a time, and R times with W at once. What is printed, the exit status, config.h, config.status, the
cache and config.log must be the same, byte by byte. It does so three times:

- with the compiler;
- with one that a signal ends at every tenth conftest of a list;
- with a directory in the place of every tenth conftest, so that it can't be written and the start of its child is refused.

So the children that are killed or refused are the same ones however many run at once.

With --quick, a small program takes the compiler's place: it refuses a conftest that has the text "missing", with a line on standard
error, after up to four milliseconds that are others in each run. So children end in another order each time, and soon.

In the log, the names that a compiler gives its temporary files are left out of the comparison. If anything differs, it prints what,
and its exit status is 1.
"""
import argparse
import os
import pathlib
import re
import shutil
import tempfile

from configuring import BUILT, compiled, measured, write_package

KILLED = """#!/bin/sh
case "$*" in *5.c*) kill -9 $$ ;; esac
exec "$REAL_COMPILER" "$@"
"""
QUICK = r"""
#define _GNU_SOURCE
#include <stdio.h>
#include <string.h>
#include <unistd.h>

int main(int argc, char **argv)
{
    static char text[1 << 20];
    for (int i = 1; i < argc; i++) {
        size_t length = strlen(argv[i]);
        if (length < 2 || strcmp(argv[i] + length - 2, ".c") != 0)
            continue;
        FILE *file = fopen(argv[i], "r");
        if (!file)
            return 2;
        text[fread(text, 1, sizeof text - 1, file)] = 0;
    }
    usleep(getpid() * 7919u % 4000);
    if (!strstr(text, "missing"))
        return 0;
    fprintf(stderr, "this is missing\n");
    return 1;
}
"""
TEMPORARY = re.compile(rb"/tmp/cc[A-Za-z0-9]{6}")
FILES = ("config.h", "config.status", "config.cache", "config.log", "output.txt")


def arguments():
    parser = argparse.ArgumentParser(description=__doc__, formatter_class=argparse.RawDescriptionHelpFormatter)
    parser.add_argument("--checks", type=int, default=256)
    parser.add_argument("--runs", type=int, default=100)
    parser.add_argument("--window", type=int, default=16)
    parser.add_argument("--program", type=pathlib.Path, default=BUILT)
    parser.add_argument("--compiler", default=os.environ.get("CC", "gcc"))
    parser.add_argument("--quick", action="store_true")
    given = parser.parse_args()
    given.program = given.program.resolve()
    return given


def left_by(room, given, window, compiler, refused):
    """Runs acrun in a new directory. Returns its exit status, and the bytes of each file that it leaves, or None if it leaves none."""
    build = room / "build"
    shutil.rmtree(build, ignore_errors=True)
    build.mkdir()
    for number in range(5, given.checks + 1, 10) if refused else ():
        (build / f"conftest{number}.c").mkdir()
    words = [given.program, f"-j{window}", "configure", "-C", f"--srcdir={room / 'package'}", f"CC={compiler}"]
    run = measured(words, build, {"REAL_COMPILER": given.compiler})
    left = {name: (build / name).read_bytes() if (build / name).exists() else None for name in FILES}
    left["config.log"] = TEMPORARY.sub(b"/tmp/cc", left["config.log"])
    return run.status, left


def compare(room, given, title, compiler, status, refused=False):
    """Compares runs with a window with one of one child at a time. Returns how many differ."""
    expected = left_by(room, given, 1, compiler, refused)
    if expected[0] != status:
        raise SystemExit(f"{title}: one at a time, the exit status is {expected[0]}\n{expected[1]['output.txt'].decode()[-2000:]}")
    different = 0
    for number in range(1, given.runs + 1):
        found = left_by(room, given, given.window, compiler, refused)
        names = [name for name in FILES if found[1][name] != expected[1][name]]
        if found[0] != expected[0] or names:
            different += 1
            print(f"{title}: run {number} differs: status {found[0]}, {' '.join(names)}")
    log = expected[1]["config.log"]
    print(
        f"{title}: {given.checks} checks, {given.runs} runs with {given.window} at once, {different} differ from one at a time"
        f" (status {expected[0]}; {log.count(b'status 0')} children succeeded, {log.count(b'status 256')} were killed,"
        f" {log.count(b'start refused')} were refused)"
    )
    return different


def main():
    given = arguments()
    with tempfile.TemporaryDirectory() as name:
        room = pathlib.Path(name)
        write_package(room / "package", given.checks)
        if given.quick:
            source = room / "quick.c"
            source.write_text(QUICK)
            given.compiler = str(compiled(given.compiler, source, room / "quick"))
        killed = room / "killed"
        killed.write_text(KILLED)
        killed.chmod(0o755)
        different = compare(room, given, "compiler", given.compiler, 0)
        different += compare(room, given, "killed compiler", killed, 0)
        different += compare(room, given, "refused starts", given.compiler, 3, refused=True)
    raise SystemExit(1 if different else 0)


main()
