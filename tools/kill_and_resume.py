#!/usr/bin/env python3
"""Kills runs of `acrun configure -C` at moments of all kinds, starts them again, and compares the second run with an uncut one.

    tools/kill_and_resume.py PROGRAM [--sources 100] [--moments 6] [--seed N] [--from N] [--jobs N] [--no-tally] [--no-broken]
    tools/kill_and_resume.py PROGRAM --show N         shows source N, and what comes of it

The sources are those of tools/cut_and_resume.py, with those that break a premise of runs that are cut, but for the two whose second
run gets other replies or other arguments: a run that was killed goes on from the answers that it wrote down, so it needs no premise
of the source. Each is run once without a kill. Then it is killed at some of its moments, each in a new directory, and started again
with the same arguments. A moment is a call of the system (tools/kill_process.c): a start or an end of a child, the making of a file,
a write, a rename or a removal. The signal, KILL, TERM or INT, comes before the call, after it, or in the middle of a write. The last
moments of a run, at which it puts its files, are among those of each source. The windows are -j1, -j4 and -j16 at random. So is
examples/tally, with the real compiler `gcc`, killed at each third of its moments.

The second run has to be as the uncut one, byte for byte: the exit status, what it prints, but for one line on standard error that
says how many answers are used, and for lines that say that a header is unchanged, each output, the record, the cache and the log. It has to leave no config.answers. Its children have
to be children of the uncut run, in order, with the same words and conftests, and to be fewer by as many as answers were written down,
but for links after which no answer was: that is one with -j1, and at most 16 if children ran at once. If the killed run has put its cache, the second run is another one, which has
that cache: it has to be as an uncut run with it, and no answer is used.
"""
import argparse
import collections
import ctypes
import os
import pathlib
import random
import re
import signal
import subprocess
import sys
import tempfile
import time
from concurrent.futures import ProcessPoolExecutor

import cut_and_resume
from cut_and_resume import ROOT, WINDOWS, Bench, broken_sources, make_source, room_for

ANSWERS = "config.answers"
SAID = re.compile(rb"^configure: goes on from (\d+) answers? of a run that was interrupted[^\n]*\n", re.M)
# The sources whose second run gets something else, which is another run.
OTHERS = ("a test without a saved value gets other replies", "an argument is another one", "a program is tried outside AC_CACHE_CHECK")
SIGNALS = [signal.SIGKILL, signal.SIGTERM, signal.SIGINT]


def wait_for_children():
    """Waits for what a killed run left, which came to this process."""
    while True:
        try:
            os.waitpid(-1, 0)
        except ChildProcessError:
            return


class Run:
    """What can be seen of a run: its status, what it printed, the files that it left, and its calls."""

    def __init__(self, bench, source, room, window, kill=None):
        log = room.parent / "calls"
        env = {"PATH": source.path or bench.path, "LC_ALL": "C", "LD_PRELOAD": str(bench.killer), "KILL_LOG": str(log)}
        env |= kill or {}
        words = [it.format(compiler=bench.compiler) for it in source.words]
        done = subprocess.run([bench.program, window, "configure", "-C", *words], cwd=room, env=env, stdin=subprocess.DEVNULL,
                              capture_output=True, timeout=600)
        wait_for_children()
        self.window = window
        self.status, self.output, self.errors = done.returncode, done.stdout, done.stderr
        self.texts = {}
        for folder, _, names in os.walk(room):
            for name in names:
                path = os.path.join(folder, name)
                shown = os.path.relpath(path, room)
                if not name.startswith(("conftest", "acrun-")) and shown not in source.files:
                    # gcc names what it hands to the linker at random, and a failed link says that name.
                    self.texts[shown] = re.sub(rb"/tmp/cc\w+", b"/tmp/cc", pathlib.Path(path).read_bytes())
        self.calls = log.read_text(errors="replace").splitlines()
        self.starts = [re.sub(r"conftest\d+", "conftest", it.split(" ", 2)[2]) for it in self.calls if it.split(" ")[1] == "posix_spawn"]
        self.ends = sum(it.split(" ")[1] == "waitpid" for it in self.calls)


def without_unchanged(output):
    """Standard output without the lines on headers that are as they were: the killed run may have put them."""
    return re.sub(rb"(?m)^config\.status: (creating \S+|\S+ is unchanged)$", b"", output)


def is_front(some, whole):
    """Whether these are some of the whole, in order."""
    rest = iter(whole)
    return all(it in rest for it in some)


def about(uncut, killed, again):
    """What is wrong with the run that was started again."""
    wrong = []
    if again.status != uncut.status:
        wrong.append(f"status {again.status} and not {uncut.status}: {again.errors[-300:]!r}")
    said = SAID.findall(again.errors)
    used = int(said[0]) if said else 0
    if without_unchanged(again.output) != without_unchanged(uncut.output):
        wrong.append(f"standard output is {again.output[-600:]!r} and not {uncut.output[-600:]!r}")
    if len(said) > 1 or SAID.sub(b"", again.errors) != uncut.errors:
        wrong.append(f"standard error is {again.errors[-600:]!r} and not {uncut.errors[-600:]!r}")
    for name in sorted(set(again.texts) | set(uncut.texts)):
        if name not in uncut.texts and name in killed.texts and name != ANSWERS:
            continue  # what the killed run left stays, if the second one makes no outputs
        if again.texts.get(name) != uncut.texts.get(name):
            wrong.append(f"{name} differs: {again.texts.get(name)!r} and not {uncut.texts.get(name)!r}"[:1500])
    if not is_front(again.starts, uncut.starts):
        wrong.append("its children are not some of those of the uncut run, in order")
    missing = len(uncut.starts) - len(again.starts)
    # Of children that run at once, those of larger numbers may have ended first.
    most = 1 if killed.window == "-j1" else 16
    if not 0 <= used - missing <= most:
        wrong.append(f"it says {used} answers, and starts {missing} children less than the uncut run")
    if ANSWERS in killed.texts and missing < killed.ends - 1 - most:
        wrong.append(f"the killed run saw {killed.ends} children end, and {missing} answers are used")
    return wrong


class Found:
    """What came of a source."""

    def __init__(self):
        self.kills, self.children, self.taken, self.wrong = 0, 0, 0, []
        self.calls = collections.Counter()


def compare(bench, source, rng, moments):
    """Runs a source uncut, and killed at some moments and started again."""
    found = Found()
    cache = cut_and_resume.first_cache(bench, source, rng)
    uncut = room_for(bench, source, cache, lambda room: Run(bench, source, room, rng.choice(WINDOWS)))
    found.children = len(uncut.starts)
    if not uncut.starts:
        return found
    if ANSWERS in uncut.texts:
        found.wrong.append("the uncut run leaves its answers")
    count = len(uncut.calls)
    last = [it for it in range(max(1, count - 24), count + 1)]
    chosen = list(range(1, count + 1, 3)) if moments is None else rng.sample(range(1, count + 1), min(moments, count)) + rng.sample(last, min(2, len(last)))
    for at in chosen:
        kill = {"KILL_AT": str(at), "KILL_BY": str(int(rng.choice(SIGNALS))), "KILL_WHEN": rng.choice(["before", "after", "within"])}

        def both(room):
            first = Run(bench, source, room, rng.choice(WINDOWS), kill)
            return first, Run(bench, source, room, rng.choice(WINDOWS))

        killed, again = room_for(bench, source, cache, both)
        if killed.status >= 0:
            continue  # with another window it has fewer calls
        wanted, put = uncut, killed.texts.get("config.cache")
        if put != cache:
            wanted = room_for(bench, source, put, lambda room: Run(bench, source, room, "-j1"))
            killed.texts.pop(ANSWERS, None)
        found.kills += 1
        found.taken += len(wanted.starts) - len(again.starts)
        found.calls[killed.calls[-2].split(" ")[1]] += 1
        found.wrong.extend(f"{kill}: {it}" for it in about(wanted, killed, again))
    return found


def attempt(bench, seed, number, moments):
    ctypes.CDLL(None).prctl(36, 1, 0, 0, 0)  # PR_SET_CHILD_SUBREAPER
    return number, compare(bench, make_source(seed, number), random.Random(f"kills {seed} {number}"), moments)


def say(label, found, began):
    calls = ", ".join(f"{count} at {call}" for call, count in sorted(found.calls.items()))
    print(f"{label}: {found.children} children, {found.kills} kills ({calls}), {found.taken} answers used, "
          f"{len(found.wrong)} differences, {time.time() - began:.0f} s", flush=True)


def add(whole, found):
    whole.kills += found.kills
    whole.children += found.children
    whole.taken += found.taken
    whole.calls += found.calls
    whole.wrong += found.wrong


def main():
    parser = argparse.ArgumentParser()
    parser.add_argument("program")
    parser.add_argument("--sources", type=int, default=100)
    parser.add_argument("--moments", type=int, default=6)
    parser.add_argument("--seed", type=int, default=1)
    parser.add_argument("--from", dest="start", type=int, default=1)
    parser.add_argument("--jobs", type=int, default=2)
    parser.add_argument("--no-tally", action="store_true")
    parser.add_argument("--no-broken", action="store_true")
    parser.add_argument("--show", type=int, metavar="N")
    arguments = parser.parse_args()
    os.nice(10)
    ctypes.CDLL(None).prctl(36, 1, 0, 0, 0)
    whole, began = Found(), time.time()
    with tempfile.TemporaryDirectory(dir="/dev/shm" if os.path.isdir("/dev/shm") else None) as place:
        bench = Bench(place, arguments.program)
        bench.killer = bench.place / "kill_process.so"
        subprocess.run(["gcc", "-shared", "-fPIC", "-O1", "-o", bench.killer, ROOT / "tools/kill_process.c", "-ldl"], check=True)
        if arguments.show is not None:
            source = make_source(arguments.seed, arguments.show)
            print(source.files["configure.ac"], *source.words)
            for it in attempt(bench, arguments.seed, arguments.show, arguments.moments)[1].wrong:
                print(it)
            return 0
        numbers = range(arguments.start, arguments.start + arguments.sources)
        with ProcessPoolExecutor(arguments.jobs) as pool:
            for at, found in pool.map(attempt, *zip(*((bench, arguments.seed, it, arguments.moments) for it in numbers))):
                for it in found.wrong:
                    print(f"source {at}: {it}", flush=True)
                add(whole, found)
        say(f"{arguments.sources} sources (from {arguments.start} of seed {arguments.seed})", whole, began)
        if not arguments.no_broken:
            for kind, source in broken_sources().items():
                if kind not in OTHERS:
                    found = compare(bench, source, random.Random(0), arguments.moments)
                    for it in found.wrong:
                        print(f"{kind}: {it}", flush=True)
                    add(whole, found)
                    say(kind, found, began)
        if not arguments.no_tally:
            found = compare(bench, cut_and_resume.tally(), random.Random(0), None)
            for it in found.wrong:
                print(f"tally: {it}", flush=True)
            add(whole, found)
            say("tally", found, began)
    return 0 if not whole.wrong and whole.kills else 1


if __name__ == "__main__":
    sys.exit(main())
