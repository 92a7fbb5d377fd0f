#!/usr/bin/env python3
"""Gives the examples of docs/errors.md to the program, and compares the error line with the row.

    tools/try_errors.py PROGRAM

Prints a line for each example whose error line is another, and then exits with status 1. An example is code, or one of these forms: a
number of blanks or newlines; `N times` code, several of these joined by "then"; `N lines` of two codes, the first and the last, whose
numbers go up by one. In a code `a0 a1 .. aN` are N + 1 words.
"""
import os
import pathlib
import re
import shutil
import subprocess
import sys
import tempfile

PAGE = pathlib.Path(__file__).resolve().parent.parent / "docs/errors.md"
FRONT, END = "AC_INIT([x],[1])\n", "\nAC_OUTPUT\n"
FILLERS = {"blanks": " ", "newlines": "\n"}


def rows(heading):
    """Yields the cells of each row of the first table below a heading."""
    text = re.split(r"(?m)^#+ ", PAGE.read_text().partition(f"### {heading}\n")[2])[0]
    for line in re.findall(r"(?m)^\| .*\|$", text)[1:]:
        yield [it.strip().replace("\\|", "|") for it in re.split(r"(?<!\\)\|", line)[1:-1]]


def spelled(code):
    """Returns the text of a code: with its escapes, and with the words that `..` leaves out."""
    code = re.sub(r"(\w*?)0 \w+ \.\. \w*?(\d+)(?=\W)", lambda it: " ".join(f"{it[1]}{n}" for n in range(int(it[2]) + 1)), code)
    return code.replace("\\n", "\n").replace("\\0", "\0").replace("\\t", "\\t")


def example(cell):
    """Returns the text of an example."""
    filler = re.fullmatch(r"([\d,]+) (blanks|newlines)", cell)
    if filler:
        return FILLERS[filler[2]] * int(filler[1].replace(",", ""))
    lines = re.fullmatch(r"([\d,]+) lines `(.*)` to `.*`", cell)
    if lines:
        return "\n".join(lines[2].replace("0", str(n)) for n in range(int(lines[1].replace(",", ""))))
    parts = re.findall(r"(?:(\d+) times )?`([^`]*)`", cell)
    return "".join(spelled(code) * int(times or 1) for times, code in parts)


def said(program, files, words, environment=()):
    """Returns the first line of an error that a run prints."""
    with tempfile.TemporaryDirectory() as folder:
        for name, text in files.items():
            pathlib.Path(folder, name).write_bytes(text.encode())
        known = {name: value for name, value in os.environ.items() if not name.startswith("ACRUN") and name != "CC"}
        run = subprocess.run([program, *words], cwd=folder, capture_output=True, env={**known, **dict(environment)})
        lines = [it for it in run.stderr.decode(errors="replace").splitlines() if it.startswith("acrun: ")]
        return lines[0].removeprefix("acrun: ") if lines else f"no error, and status {run.returncode}"


def wanted(kind, number, place):
    """Returns the error line of a row."""
    return f"{kind} {number} at {place}" if place else f"{kind} {number}"


def said_alone(program):
    """Returns the first line of an error that an acrun without acrun-tools prints, without its directory."""
    with tempfile.TemporaryDirectory() as folder:
        copy = shutil.copy(program, f"{os.path.realpath(folder)}/acrun")
        return said(copy, {}, ["lint"]).replace(os.path.dirname(copy), "..")


def tried(program):
    """Yields what is tried, the error line of its row, and that of the program."""
    plain = {"configure.ac": "AC_INIT([x],[1])\nAC_PROG_CC\nAC_OUTPUT\n"}
    for number, _, cell, place in rows("Errors of a source"):
        text = example(cell)
        whole = cell.endswith("the whole file") or not re.search("`", cell)
        source = {"configure.ac": text if whole else f"{FRONT}{text}{END}"}
        yield cell, wanted("parse", number, place), said(program, source, ["configure"])
    for number, _, cell, place in rows("Errors of a command line"):
        yield cell, wanted("option", number, place), said(program, plain, ["configure", *re.findall(r"`([^`]*)`", cell)])
    for number, _, cell, place in rows("Errors of a cache"):
        for one in re.findall(r"`([^`]*)`", cell) or [cell]:
            text = f"{one}\n" if one != cell else example(one)
            yield one, wanted("cache", number, place), said(program, {**plain, "config.cache": text}, ["configure", "-C"])
    for number, _, cell, now in rows("Errors of a precious variable"):
        marks = "".join(f"{it}\n" for it in re.findall(r"`([^`]*)`", cell))
        words = [f"CC={now.strip('`')}"] if now != "unset" else []
        yield cell, f"precious {number} CC", said(program, {**plain, "config.cache": marks}, ["configure", "-C", *words])
    yield "no acrun-tools beside acrun", "tools ../acrun-tools: No such file or directory", said_alone(program)
    tools = f"{os.path.dirname(program)}/acrun-tools"
    yield "acrun-tools of another version", "tools acrun-tools: another version", said(tools, {}, ["--acrun=0", "lint"])
    yield "a word that isn't UTF-8", "tools \\xff: not UTF-8", said(program, {}, ["lint", b"\xff"])
    for number, _, cell, place in rows("Errors of a record"):
        yield cell, wanted("record", number, place), said(program, {"config.status": example(cell)}, ["status"])


def main(program):
    count, wrong = 0, 0
    for what, row, found in tried(os.path.realpath(program)):
        count += 1
        if row != found:
            wrong += 1
            print(f"{PAGE.name}: {what}: the row has {row}; the program says {found}")
    print(f"errors: {count - wrong} of {count} examples have the error line of their row")
    return int(bool(wrong) or not count)


if __name__ == "__main__":
    sys.exit(main(sys.argv[1]) if len(sys.argv) == 2 else __doc__)
