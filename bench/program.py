#!/usr/bin/env python3
"""Times the built program on inputs of a size and of twice that size, and prints user seconds and their ratio.

    bench/program.py [PROGRAM]..      several programs are timed side by side in one run

Each time is the least of three runs. A ratio near 2 says that the time grows with the work.
"""
import os
import resource
import subprocess
import sys
import tempfile

RUNS = 3
END = b"AC_OUTPUT\n%%\n"


def source(lines):
    return b"AC_INIT([x],[1])\n" + b"".join(lines) + END


def definitions(n):
    return source(b"AC_DEFINE(A%05d,1)\n" % i for i in range(n))


def assignments(n):
    return source(b"a%05d=1\n" % i for i in range(n))


def one_variable(n):
    return source(b"a=1\n" for _ in range(n))


def cases(n):
    return source([b"AS_IF(", b",".join(b"false,a=%d" % (i % 10) for i in range(n)), b")\n"])


def part_of_a_pattern(n):
    """A part of a pattern that is found at no place, though all but its last byte are there at each."""
    return source([b"AS_CASE([", b"a" * n, b"],[*", b"a" * (n // 2), b"b*],[y=1])\n"])


def parts_of_a_pattern(n):
    return source([b"AS_CASE([", b"ab" * n, b"],[", b"*ab" * n, b"],[y=1])\n"])


def part_with_a_question_mark(n):
    return source([b"AS_CASE([", b"a" * n, b"],[*?", b"a" * (n // 2), b"b*],[y=1])\n"])


def output_variables(n):
    lines = [b"AC_CONFIG_FILES([f])\n"] + [b"AC_SUBST([v%04d],[value])\n" % i for i in range(1024)]
    return source(lines) + b"".join(b"@v%04d@ some plain text\n" % (i % 1024) for i in range(n))


def plain_template(n):
    return source([b"AC_CONFIG_FILES([f])\n"]) + b"a line of plain text without any key\n" * n


def few_keys(n):
    return source([b"AC_CONFIG_FILES([f])\n"]) + b"@PACKAGE_NAME@ 24 bytes.\n" * n


def at_signs(n):
    return source([b"AC_CONFIG_FILES([f])\n"]) + b"@A" * n


ROWS = [
    ("definitions of different names", definitions, 22_500),
    ("assignments to different names", assignments, 30_000),
    ("assignments to one name", one_variable, 30_000),
    ("cases of AS_IF", cases, 15_000),
    ("bytes of a part of a pattern", part_of_a_pattern, 40_000),
    ("parts of a pattern", parts_of_a_pattern, 100_000),
    ("bytes of a part with ?", part_with_a_question_mark, 10_000),
    ("uses of 1,024 output variables", output_variables, 1_000_000),
    ("lines of a template without keys", plain_template, 700_000),
    ("lines of a template with a key", few_keys, 1_000_000),
    ("bytes @A of a template", at_signs, 10_000_000),
]


def user_seconds(program, path):
    """The user seconds of one run, and its peak memory in MB."""
    with open(path, "rb") as given, open(os.devnull, "wb") as nowhere:
        child = subprocess.Popen([program], stdin=given, stdout=nowhere, stderr=nowhere)
        _, _, used = os.wait4(child.pid, 0)
    return used.ru_utime, used.ru_maxrss / 1024


def best(program, path):
    tried = [user_seconds(program, path) for _ in range(RUNS)]
    return min(it[0] for it in tried), max(it[1] for it in tried)


def main():
    programs = sys.argv[1:] or ["out/acrun"]
    with tempfile.TemporaryDirectory() as room:
        for title, made, n in ROWS:
            paths = []
            for times in (1, 2):
                path = f"{room}/input{times}"
                with open(path, "wb") as file:
                    file.write(made(n * times))
                paths.append(path)
            for program in programs:
                (once, _), (twice, peak) = best(program, paths[0]), best(program, paths[1])
                ratio = f"{twice / once:5.1f}" if once >= 0.005 else "    -"
                print(f"{title:<34} {n:>9} {once:7.2f} s {2 * n:>9} {twice:7.2f} s  ratio {ratio}  {peak:5.0f} MB  {program}", flush=True)


main()
