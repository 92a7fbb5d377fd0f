#!/usr/bin/env python3
"""Refuses each allocation of `acrun configure`, of the same with a cache, of `acrun status` and of `acrun status --recheck` in turn, and
checks what comes of it.

    tools/refuse_growths.py PROGRAM [--jobs N] [--from N] [--count N]
    tools/refuse_growths.py PROGRAM --replay COMMAND N       refuses one allocation, and shows what comes of it

The commands are `configure`, `cached`, which is `configure` with the cache of such a run, `status`, and `recheck`, which is `status
--recheck` with the cache and the record of such a run. The package is examples/tally, in a new directory for each run, with real children: the compiler is `acrun standin`. The library
tools/refuse_growth.c, which is built with cc, makes one allocation of acrun itself fail. With allocation N refused, a run has to
have one of these results:

    memory      the line `acrun: memory`, status 2, and no cache, record, output or log
    cut         the run is cut at a child, status 3, with its line, its cache and its log, and no record or output
    put K       the line `acrun: put K`, status 2; the texts before the Kth are whole, and those from it on are not there
    log         the line `acrun: file config.log`, status 2, with all texts whole
    ordinary    what the run does if nothing is refused

In each case no child is left, nor a file under the other name to which texts are written first, and a cache or a record that
was there is as it was. The last run of a command is the one in which no allocation has the number. The exit status is 1 if a run has
another result.
"""
import argparse
import collections
import ctypes
import os
import pathlib
import re
import shutil
import subprocess
import sys
import tempfile
from concurrent.futures import ProcessPoolExecutor

ROOT = pathlib.Path(__file__).resolve().parent.parent
PACKAGE = ROOT / "examples/tally"
PUTS = ["config.cache", "config.status", "Makefile", "doc/tally.1", "config.h"]
# a first run, the same with the cache of the first, the outputs again, and the run again
COMMANDS = ["configure", "cached", "status", "recheck"]
WORDS_OF = {"status": ["status"], "recheck": ["status", "--recheck"]}
SOURCES = ["configure.ac", "Makefile.in", "doc/tally.1.in", "config.h.in"]
LINE = re.compile(rb"acrun: put (\d+)\n\Z")
CUT = re.compile(rb"configure: cut short at child [1-9]\d*\n\Z")


class Bench:
    """The program, the library, and what the commands do if nothing is refused."""

    def __init__(self, place, program):
        self.place = pathlib.Path(place)
        self.bin = self.place / "bin"
        self.bin.mkdir()
        shutil.copy(program, self.bin / "acrun")
        (self.bin / "sh").symlink_to(os.path.realpath(shutil.which("sh")))
        self.library = self.place / "refuse_growth.so"
        subprocess.run(["cc", "-shared", "-fPIC", "-O1", "-o", self.library, ROOT / "tools/refuse_growth.c", "-ldl"], check=True)
        self.wanted = {}
        for command in COMMANDS:
            found = self.wanted[command] = self.run(command, 0)
            if found["status"] != 0 or found["left"] or any(found["texts"].get(name) is None for name in self.puts(command)):
                sys.exit(f"{command} fails although nothing is refused: {found}")
            if not found["count"]:
                sys.exit(f"no allocation of {command} is seen, so none can be refused")

    def puts(self, command):
        return {"status": PUTS[2:], "recheck": PUTS[:2]}.get(command, PUTS)

    def texts_before(self, command):
        """The names and texts that the first run left, and that a command needs."""
        names = {"configure": [], "cached": PUTS[:1], "status": PUTS[1:2], "recheck": PUTS[:2]}[command]
        return {name: self.wanted["configure"]["texts"][name] for name in names}

    def prepare(self, command, room):
        for name in SOURCES:
            (room / name).parent.mkdir(exist_ok=True)
            shutil.copy(PACKAGE / name, room / name)
        for name, text in self.texts_before(command).items():
            (room / name).write_bytes(text)

    def run(self, command, number):
        """Runs a command in a new directory with an allocation refused, and returns all that can be seen of it."""
        with tempfile.TemporaryDirectory(dir=self.place) as name:
            room = pathlib.Path(name) / "run"
            room.mkdir()
            self.prepare(command, room)
            count = pathlib.Path(name) / "count"
            env = {"PATH": str(self.bin), "LC_ALL": "C", "LD_PRELOAD": str(self.library)}
            env |= {"REFUSE_AT": str(number), "REFUSE_COUNT": str(count)}
            words = ["acrun", *WORDS_OF.get(command, ["configure", "-C", "CC=acrun standin"])]
            done = subprocess.run(words, executable=self.bin / "acrun", cwd=room, env=env, stdin=subprocess.DEVNULL,
                                  capture_output=True, timeout=120)
            left = children_left()
            names = sorted(str(it.relative_to(room)) for it in room.rglob("*") if it.is_file())
            return {
                "status": done.returncode, "output": done.stdout, "errors": done.stderr, "left": left,
                "texts": {it: (room / it).read_bytes() for it in names if not it.startswith("conftest") and it not in SOURCES},
                "count": int(count.read_text()) if count.exists() else None,
            }


def children_left():
    """Whether the program has left a child, running or ended. Each such child comes to this process."""
    try:
        os.waitpid(-1, os.WNOHANG)
        return True
    except ChildProcessError:
        return False


def result_of(bench, command, found):
    """The result that a run has, or what is wrong with it."""
    texts, wanted, before = found["texts"], bench.wanted[command], bench.texts_before(command)
    puts = bench.puts(command)
    there, new = [name for name in puts if name in texts and name not in before], [name for name in puts if name not in before]
    is_whole = all(texts[name] == wanted["texts"][name] for name in there)
    if found["left"]:
        return "wrong: a child is left"
    if any(texts.get(name) != text for name, text in before.items()):
        return "wrong: a file of the first run is changed"
    if any(name.endswith(".acrun") for name in texts):
        return "wrong: a file of another name is left"
    if set(texts) - set(wanted["texts"]):
        return f"wrong: other files: {sorted(set(texts) - set(wanted['texts']))}"
    put = LINE.search(found["errors"])
    if found["status"] == 0:
        return "ordinary" if all(found[it] == wanted[it] for it in ("output", "errors", "texts")) else "wrong: status 0 with other texts"
    if found["status"] == 3 and command != "status":
        is_cut = CUT.search(found["errors"]) and there == [name for name in new if name == "config.cache"] and "config.log" in texts
        return "cut" if is_cut and found["errors"].count(b"\n") == 1 else "wrong: status 3"
    if found["status"] != 2:
        return f"wrong: status {found['status']}"
    if found["errors"] == b"acrun: memory\n":
        is_nothing = not there and "config.log" not in texts and not found["output"]
        return "memory" if is_nothing else "wrong: memory, and something is written"
    if put and found["errors"].count(b"\n") == 1:
        return "put" if is_whole and there == [name for name in puts[:int(put[1]) - 1] if name in new] else "wrong: put"
    if found["errors"] == b"acrun: file config.log\n" and command != "status":
        return "log" if is_whole and there == new and found["output"] == wanted["output"] else "wrong: log"
    return "wrong: another error line"


def attempt(bench, command, number):
    ctypes.CDLL(None).prctl(36, 1, 0, 0, 0)  # PR_SET_CHILD_SUBREAPER
    found = bench.run(command, number)
    return number, result_of(bench, command, found), found["count"]


WORDS = {
    "memory": "`memory`", "cut": "a cut at a child", "put": "a `put K`", "log": "`file config.log`", "ordinary": "the ordinary result",
}


def try_all(bench, command, arguments):
    """Refuses each allocation of a command, prints the counts, and returns whether all results are right."""
    total = bench.wanted[command]["count"]
    numbers = range(arguments.start, min(total + 2, arguments.start + arguments.count))
    counts, wrong = collections.Counter(), 0
    with ProcessPoolExecutor(arguments.jobs) as pool:
        for number, result, count in pool.map(attempt, *zip(*((bench, command, it) for it in numbers)), chunksize=8):
            if result.startswith("wrong"):
                wrong += 1
                print(f"{command} {number}: {result}", flush=True)
            elif number <= total:
                counts[result] += 1
            elif result != "ordinary":
                wrong += 1
                print(f"{command} {number}: nothing is refused, and the result is {result}", flush=True)
    tried = sum(1 for it in numbers if it <= total)
    shown = ", ".join(f"{counts[it]:,} {WORDS[it]}" for it in WORDS if counts[it])
    print(f"{command}: {tried:,} of {total:,} allocations, each refused in turn: {shown}; {wrong} wrong", flush=True)
    return wrong == 0


def main():
    parser = argparse.ArgumentParser()
    parser.add_argument("program")
    parser.add_argument("--jobs", type=int, default=os.cpu_count())
    parser.add_argument("--from", dest="start", type=int, default=1)
    parser.add_argument("--count", type=int, default=sys.maxsize // 2)
    parser.add_argument("--replay", nargs=2, metavar=("COMMAND", "N"))
    arguments = parser.parse_args()
    os.nice(10)
    ctypes.CDLL(None).prctl(36, 1, 0, 0, 0)
    with tempfile.TemporaryDirectory(dir="/dev/shm" if os.path.isdir("/dev/shm") else None) as place:
        bench = Bench(place, arguments.program)
        if arguments.replay:
            command, number = arguments.replay[0], int(arguments.replay[1])
            found = bench.run(command, number)
            for name in sorted(found):
                print(f"{name}: {found[name] if name != 'texts' else sorted(found[name])}")
            print(result_of(bench, command, found))
            return 0
        return 0 if all([try_all(bench, command, arguments) for command in COMMANDS]) else 1


sys.exit(main())
