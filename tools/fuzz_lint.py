#!/usr/bin/env python3
"""Runs `acrun lint` on mutated sources, and `acrun configure --help` beside it, and reports each run that is wrong.

    tools/fuzz_lint.py PROGRAM [--from N] [--count N] [--seconds N]
    tools/fuzz_lint.py PROGRAM --replay N        shows source N, and what comes of it

A source is a function of its number: one of examples/lint/sources.txt or of the examples' configure.ac, in which some bytes are changed,
slices are dropped, repeated or moved, or the end is cut off.

A run is wrong if a signal ends it, its exit status is neither 0 nor 1, it writes to standard error, it takes over a second of processor
time, a finding lies outside its file, if there is an error of the source where `configure` accepts it, or none where it doesn't, or if a
source that ends before the first statement that can't be resumed can't be resumed either. The exit status of this script is 1 if a run is wrong.
"""
import argparse
import json
import os
import pathlib
import random
import resource
import subprocess
import sys
import tempfile
import time

ROOT = pathlib.Path(__file__).resolve().parent.parent
PIECES = [b"[", b"]", b"(", b")", b",", b"\n", b"#", b"dnl ", b"AC_", b"AC_NOPE([x])", b"AX_Y", b"if x; then\n", b"`", b"$(x)", b"\0", b"\xff", b"'", b'"', b"@<:@",
          b"AS_IF([", b"AC_OUTPUT\n", b"\r\n", b"\t", b"m4_x", b"x = 1\n", b"&& y"]


def sources():
    found = []
    for row in (ROOT / "examples/lint/sources.txt").read_bytes().splitlines():
        name, _, text = row.partition(b" ")
        found.append(subprocess.run(["printf", "%b", text], stdout=subprocess.PIPE).stdout if name else b"")
    return found + [file.read_bytes() for file in sorted(ROOT.glob("examples/*/configure.ac"))]


def mutated(pick, text):
    for _ in range(pick.randrange(4)):
        at, end = sorted(pick.randrange(len(text) + 1) for _ in range(2))
        kind = pick.randrange(6)
        if kind == 0:
            text = text[:at] + pick.choice(PIECES) + text[at:]
        elif kind == 1:
            text = text[:at] + text[at + pick.randrange(1, 12):]
        elif kind == 2:
            text = text[:at] + text[at:end] * 2 + text[end:]
        elif kind == 3:
            other = pick.randrange(len(text) + 1)
            text = text[:other] + text[at:end] + text[other:]
        elif kind == 4:
            text = text[:at] + bytes([pick.randrange(256)]) + text[at + 1:]
        elif pick.random() < 0.2:
            text = text[:at]
    return text


def run(program, words, folder):
    before = resource.getrusage(resource.RUSAGE_CHILDREN)
    done = subprocess.run([program, *words], cwd=folder, stdin=subprocess.DEVNULL, capture_output=True, env={"PATH": "/usr/bin:/bin"}, timeout=600)
    after = resource.getrusage(resource.RUSAGE_CHILDREN)
    return done, after.ru_utime + after.ru_stime - before.ru_utime - before.ru_stime


def breaks_earlier(program, text, findings, folder):
    """Returns whether the source can't be resumed that ends before the statement which, as a warning says, is the first to break it."""
    for it in findings:
        if it["code"] == "not-resumable":
            front = b"".join(line + b"\n" for line in text.split(b"\n")[: it["line"] - 1])
            front += text.split(b"\n")[it["line"] - 1][: it["column"] - 1]
            (folder / "front").mkdir(exist_ok=True)
            (folder / "front/configure.ac").write_bytes(front + b"\nAC_OUTPUT\n")
            return b'"not-resumable"' in run(program, ["lint", "--json", "front"], folder)[0].stdout
    return False


def judge(program, text, folder):
    """Returns what is wrong with the runs on this source, and the exit status of lint."""
    (folder / "configure.ac").write_bytes(text)
    lint, seconds = run(program, ["lint", "--json"], folder)
    if lint.returncode not in (0, 1) or lint.stderr:
        return f"status {lint.returncode}, {lint.stderr[:200]!r}", lint.returncode
    if seconds > 1:
        return f"{seconds:.1f} s", lint.returncode
    findings = [json.loads(line) for line in lint.stdout.splitlines()]
    lines = text.split(b"\n")
    for it in findings:
        if it["file"] == "configure.ac" and not (1 <= it["line"] <= len(lines) and 1 <= it["column"] <= len(lines[it["line"] - 1]) + 1):
            return f"a place outside the source: {it}", lint.returncode
    errors = [it for it in findings if it["severity"] == "error"]
    if (lint.returncode == 1) != bool(errors):
        return f"status {lint.returncode} and {len(errors)} errors", lint.returncode
    if breaks_earlier(program, text, findings, folder):
        return "an earlier statement can't be resumed", lint.returncode
    configure, _ = run(program, ["configure", "--help"], folder)
    refuses = configure.returncode == 2 and configure.stderr.startswith((b"acrun: parse", b"acrun: plan"))
    if refuses != any(it["code"] != "template" for it in errors):
        return f"configure: {configure.stderr[:100]!r}, lint: {[it['code'] for it in errors][:5]}", lint.returncode
    return None, lint.returncode


def main(judge):
    """Judges mutated sources as the command line says. `judge` returns what is wrong with the runs on a source, and an exit status."""
    words = argparse.ArgumentParser()
    words.add_argument("program")
    for name in ("--from", "--count", "--seconds", "--replay"):
        words.add_argument(name, type=int)
    words = vars(words.parse_args())
    program, texts, statuses, wrong = os.path.realpath(words["program"]), sources(), {}, 0
    first = words["replay"] if words["replay"] is not None else words["from"] or 0
    count, until = 1 if words["replay"] is not None else words["count"] or 10**9, time.time() + (words["seconds"] or 60)
    with tempfile.TemporaryDirectory() as folder:
        number = first
        while number < first + count and time.time() < until:
            pick = random.Random(number)
            text = mutated(pick, pick.choice(texts))
            if words["replay"] is not None:
                sys.stdout.buffer.write(text + b"\n---\n")
            fault, status = judge(program, text, pathlib.Path(folder))
            statuses[status] = statuses.get(status, 0) + 1
            if fault:
                wrong += 1
                print(f"{number}: {fault}")
            number += 1
    print(f"{number - first} sources, statuses {statuses}, {wrong} wrong")
    sys.exit(1 if wrong else 0)


if __name__ == "__main__":
    main(judge)
