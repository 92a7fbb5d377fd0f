#!/usr/bin/env python3
"""Runs the built program on the largest input that each limit allows, and prints processor seconds and peak memory.

    bench/limits.py [PROGRAM]

The seconds are those of the program and of its children, the least of three runs. Each row says how the run has to end; the exit
status is 1 if one ends otherwise, or takes a second or more and isn't known to. A template's words from `lint` may take twice as long
as its run.
"""
import os
import pathlib
import subprocess
import sys
import tempfile

RUNS = 3
LARGEST_SOURCE = 1_048_576
LARGEST_CACHE = 4_194_304
INIT, END = b"AC_INIT([x],[1])\n", b"AC_OUTPUT\n"
DONE = (0, b"")


def source(lines):
    """A source that has as many bytes as one may have, the last of them in a comment."""
    text = INIT + lines + b"\n#"
    return text + b"x" * (LARGEST_SOURCE - len(text) - len(END) - 1) + b"\n" + END


def filled(piece):
    return source(piece * ((LARGEST_SOURCE - len(INIT) - len(END) - 10) // len(piece)))


def numbered(form, count):
    return b"".join(form % i for i in range(count))


def filter_row(text, template=b""):
    return {"words": [], "given": text + b"%%\n" + template, "files": {}}


def configure_row(text, files=None, words=()):
    return {"words": ["configure", *words], "given": b"", "files": {"configure.ac": text, **(files or {})}}


def tool_row(command, text, files=None):
    return {"words": [command], "given": b"", "files": {"configure.ac": text, **(files or {})}}


HEADERS = b"AC_CHECK_HEADERS([" + numbered(b" v%03d.h", 256) + b"])\n"
KNOWN_HEADERS = numbered(b"ac_cv_header_v%03d_h=yes\n", 256)
NAMES = numbered(b"a_cv_%06x=1\n", LARGEST_CACHE // 14)
ALL_LISTS = (b"AC_CONFIG_FILES([" + numbered(b" f%04d", 1024) + b"])\nAC_CONFIG_HEADERS([" + numbered(b" h%04d", 1024) + b"])\n"
             + b"".join(b"AC_ARG_VAR([v%04d],[h])\nAC_ARG_ENABLE([f%04d])\nAC_ARG_WITH([p%04d])\n" % (i, i, i) for i in range(1024)))
ENDLESS = b"CC=sh CFLAGS='yes>&2'\n"

TEMPLATE = "template of 67,108,864 bytes"
FILLED = {"f.in": b"@PACKAGE_NAME@ 32 bytes of text.\n"[:32] * (1 << 21)}
# These are known to take longer than a second: port reads what is in an `if` once for each level.
SLOW = {"port of 30 ifs in each other, around 100,000 bytes": 15}

ROWS = [
    ("source of 1,048,576 blanks", lambda: filter_row(b" " * (LARGEST_SOURCE - 1) + b"\n"), (2, b"acrun: parse 8\n")),
    ("the same, and one byte", lambda: filter_row(b" " * LARGEST_SOURCE + b"\n"), (2, b"acrun: parse 1.5\n")),
    ("1,048,576 bytes, of one comment", lambda: filter_row(source(b"")), DONE),
    ("1,048,576 bytes of AC_DEFINE([A],[1])", lambda: filter_row(filled(b"AC_DEFINE([A],[1])\n")), DONE),
    ("1,048,576 bytes with 64 brackets open again and again", lambda: filter_row(
        filled(b"AC_DEFINE([A]," + b"[" * 63 + b"]" * 63 + b")\n")), DONE),
    ("1,048,576 bytes with 65 open brackets", lambda: filter_row(b"[" * (LARGEST_SOURCE - 1) + b"\n"), (2, b"acrun: parse 1.6\n")),
    ("32 lists in each other, around 1,048,000 bytes", lambda: filter_row(
        INIT + b"AS_IF([:],[" * 31 + b"a=1 " * 65000 + b"#" + b"x" * 787_000 + b"\n" + b"])" * 31 + b"\n" + END), DONE),
    ("each list of a source with 1,024 names", lambda: configure_row(source(ALL_LISTS), words=["-n"]), DONE),
    ("weight 65,535, of different assignments", lambda: filter_row(source(numbered(b"a%05d=1\n", 65_533))), DONE),
    ("weight 65,535, of cases of AS_CASE", lambda: filter_row(source(b"AS_CASE([x]" + b",[a*b],[]" * 65_530 + b")")), DONE),
    ("weight 65,535, of 254 lists of 256 known headers", lambda: configure_row(
        source(HEADERS * 254), {"config.cache": KNOWN_HEADERS}, ["-C", "-q"]), DONE),
    ("1,024 precious variables and a cache of their marks", lambda: configure_row(
        source(numbered(b"AC_ARG_VAR([v%04d],[h])\n", 1024)), {"config.cache": numbered(b"ac_cv_env_v%04d_set=\n", 1024)}, ["-C"]), DONE),
    ("cache of 4,194,304 newlines", lambda: configure_row(INIT + END, {"config.cache": b"\n" * LARGEST_CACHE}, ["-C"]), DONE),
    ("the same, and one byte", lambda: configure_row(
        INIT + END, {"config.cache": b"\n" * (LARGEST_CACHE + 1)}, ["-C"]), (2, b"acrun: cache 3\n")),
    ("cache of 299,593 names, 4,194,302 bytes", lambda: configure_row(INIT + END, {"config.cache": NAMES}, ["-C"]), DONE),
    ("a PATH of 524,000 directories, the first child refused", lambda: filter_row(
        INIT + b"PATH=" + b"a:" * 524_000 + b"\nAC_PATH_PROG([P],[p])\n" + END), (3, b"configure: cut short at child 1\n")),
    ("weight 65,535, of a search in libraries, its first child refused", lambda: filter_row(
        INIT + b"CC=cc\nAC_SEARCH_LIBS([f],[" + numbered(b" l%05d", 65_529) + b"])\n" + END), (3, b"configure: cut short at child 1\n")),
    ("a child that never stops writing", lambda: configure_row(INIT + ENDLESS + b"AC_CHECK_HEADER([a.h])\n" + END), DONE),
    ("16 such children at once", lambda: configure_row(
        INIT + ENDLESS + b"AC_CHECK_HEADERS([" + numbered(b" a%d.h", 16) + b"])\n" + END, words=["-j16"]), DONE),
    (TEMPLATE, lambda: configure_row(INIT + b"AC_CONFIG_FILES([f])\n" + END, FILLED), DONE),
    ("lint of it", lambda: tool_row("lint", INIT + b"AC_CONFIG_FILES([f])\n" + END, FILLED), DONE),
    ("lint of 1,000 ifs of a shell", lambda: tool_row("lint", INIT + numbered(
        b'if test "x$A%04d" = xyes; then\n  B=1\nelse\n  B=2\nfi\n', 1000) + END), (1, b"")),
    ("port of 30 ifs in each other, around 100,000 bytes", lambda: tool_row("port", INIT + numbered(
        b'if test "x$A%02d" = xyes; then\n', 30) + numbered(b"a%05d=1\n", 11_000) + b"fi\n" * 30 + END), DONE),
    ("port of a megabyte of calls", lambda: tool_row("port", INIT + numbered(
        b"AC_CHECK_HEADER([a%05d.h], [AC_DEFINE([A%05d], [1])])\n".replace(b"[A%05d]", b"[A]"), 19_000) + END), DONE),
]


# Runs words, and prints the exit status, the processor seconds and the peak memory in KB. It is a small process of its own, because
# the peak of a child is at least that of the process that starts it.
RUNNER = """
import os, sys
child = os.posix_spawn(sys.argv[1], sys.argv[1:], os.environ)
_, status, used = os.wait4(child, 0)
with open(3, "w") as told: print(os.waitstatus_to_exitcode(status), used.ru_utime + used.ru_stime, used.ru_maxrss, file=told)
"""


def tried(program, row):
    """The exit status and errors of one run, its processor seconds, and its peak memory in MB."""
    with tempfile.TemporaryDirectory() as room:
        for name, text in row["files"].items():
            (pathlib.Path(room) / name).write_bytes(text)
        words = [it for it in row["words"] if it.startswith("-j")] + [it for it in row["words"] if not it.startswith("-j")]
        with tempfile.TemporaryFile() as given, tempfile.TemporaryFile() as errors, tempfile.TemporaryFile() as told:
            given.write(row["given"])
            given.seek(0)
            os.dup2(told.fileno(), 3)
            subprocess.run([sys.executable, "-SEc", RUNNER, program, *words], cwd=room, stdin=given, stdout=subprocess.DEVNULL,
                           stderr=errors, pass_fds=(3,), check=True)
            errors.seek(0)
            told.seek(0)
            status, seconds, kilobytes = told.read().split()
            return int(status), errors.read(200), float(seconds), int(kilobytes) / 1000


def main():
    program = os.path.realpath(sys.argv[1] if len(sys.argv) > 1 else "out/acrun")
    wrong, taken = 0, {}
    os.open(os.devnull, os.O_RDONLY)  # 3, which stays that of the runner
    for title, made, wanted in ROWS:
        row = made()
        found = [tried(program, row) for _ in range(RUNS)]
        seconds, megabytes = min(it[2] for it in found), max(it[3] for it in found)
        size = (len(row["given"]) + sum(map(len, row["files"].values()))) / 1_000_000
        ends = all(it[:2] == wanted for it in found)
        wrong |= not ends or seconds >= SLOW.get(title, 1)
        taken[title] = seconds
        told = "" if ends else f"  ends with {found[0][:2]}"
        print(f"{title:<56} {size:7.2f} MB {seconds:6.3f} s {megabytes:6.0f} MB{told}", flush=True)
    ratio = taken["lint of it"] / taken[TEMPLATE]
    print(f"lint of a template takes {ratio:.1f} times as long as its run")
    return wrong or int(round(ratio, 1) > 2)


sys.exit(main())
