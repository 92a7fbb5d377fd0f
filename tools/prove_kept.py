#!/usr/bin/env python3
"""Proves crates over libraries of statements, as `rt ci` does, and keeps what passed: a crate is proved again only if it has changed,
or what a crate below it hands to the crates above. It serves a toolchain whose `rt ci` keeps nothing, as rattle-kit-13b.

  prove_kept.py [--lanes N] [--tests] [--leave] [--base TOP] [CRATE..]   at the top of the repository; no CRATE: all

With --tests, their tests are proved too. With --leave, each library is also left in crates/*/out/rlib, as a whole `rt ci` leaves it, and
`check_over.py` finds it there. With --base, a library is not proved here that the clone TOP has in crates/*/out/rlib,
of the same sources, over libraries that hand the same to it: `rt ci` leaves a library only if it proved it. Programs and tests
leave none, and are proved here.

What is kept is in the folder that ACRUN_KEPT names, or else in out/kept. Several clones may share one folder, also at the same
time. There is a line for each crate that is proved now, with all that the check says if it fails. The last line is
'N passed, M failed', and the exit status is 1 if M is not 0. It is no part of the gate, which proves everything by itself, and which
refuses more: a layout that is not that of `rt fmt`, say, or a contract that no call can meet.
"""
import argparse
import concurrent.futures
import fcntl
import hashlib
import os
import pathlib
import re
import shutil
import subprocess
import sys
import tempfile
import threading
import time

import repository

KIT = pathlib.Path(shutil.which("rt") or sys.exit("the toolchain's command `rt` is not in PATH")).resolve().parent.parent
STORE = pathlib.Path(os.environ.get("ACRUN_KEPT", "out/kept")).resolve()
ROWS = repository.rows()
TEST = re.compile(rb"#\[test\]")
PARTS = ("src", "specs", "proofs")


def digest(folders):
    """Returns a digest of all files below these folders."""
    found = hashlib.sha256()
    for folder in folders:
        for file in sorted(it for it in folder.rglob("*") if it.is_file()):
            found.update(f"{file.relative_to(folder)}\0{file.stat().st_size}\0".encode() + file.read_bytes())
    return found.hexdigest()


class Crate:
    def __init__(self, name, base):
        self.name, self.folder = name, repository.CRATES / name
        self.below = sorted(repository.below(name, ROWS))
        self.is_program = (self.folder / "src/main.rt").exists()
        self.library, self.digest = None, None
        # The library that the base has, and its digest, if the sources there are the same.
        self.given, self.given_digest, self.is_given = None, None, False
        if base:
            there = base / "crates" / name
            self.given = there / "out/rlib" / f"{name}.rlib"
            self.given_digest = digest([self.given.parent]) if self.given.exists() else None
            self.is_given = self.sources() == digest([there / part for part in PARTS]) and ROWS[name] == repository.rows(base).get(name)

    def sources(self):
        return digest([self.folder / part for part in PARTS])

    def is_same(self, crates):
        """Whether the base has proved this crate, over libraries that hand the same to it. Those below are proved."""
        return self.is_given and all(crates[it].digest == crates[it].given_digest for it in self.below)

    def has_tests(self):
        return any(TEST.search(file.read_bytes()) for file in (self.folder / "src").rglob("*.rt"))

    def words(self, crates, room, kind):
        """Returns the checker's words."""
        of_kit = ["std", *(it for it in ROWS[self.name] if it not in ROWS)]
        words = ["--crate-name", self.name, "src/main.rt" if self.is_program else "src/lib.rt"]
        words += [word for it in of_kit for word in ("--extern", f"{it}={KIT}/rlibs/{it}.rlib")]
        words += ["-L", f"dependency={KIT}/rlibs"]
        words += [word for it in ROWS[self.name] if it in ROWS for word in ("--extern", f"{it}={crates[it].library}")]
        words += [word for it in self.below for word in ("-L", f"dependency={crates[it].library.parent}")]
        words += ["--antt-project", f"{KIT}/rattle/logic/antt-project.json", "--logic-built", f"{KIT}/logic_built"]
        words += ["--links", f"{self.name}=", "--jobs", "1"]
        if kind == "tests":
            return ["check", *words, "--test"]
        return ["check", *words] if self.is_program else ["build", *words, "--statements", "-o", str(room / f"{self.name}.rlib")]


def proved(crates, name, kind, slots):
    """Proves a crate, or its tests, unless it is kept, and returns whether it is proved."""
    crate = crates[name]
    if any(crates[it].digest is None for it in crate.below):
        return False
    if kind == "crate" and crate.given_digest and crate.is_same(crates):
        crate.library, crate.digest = crate.given, crate.given_digest
        return True
    parts = [crate.folder / part for part in PARTS]
    made_of = [kind, (KIT / "KIT-ID").read_text(), crate.sources(), *sorted(ROWS[name]), *(crates[it].digest for it in crate.below)]
    room = STORE / hashlib.sha256("\0".join(made_of).encode()).hexdigest()[:40]
    STORE.mkdir(parents=True, exist_ok=True)
    with open(f"{room}.lock", "w") as lock:
        fcntl.flock(lock, fcntl.LOCK_EX)
        if not (room / "digest").exists():
            with slots, tempfile.TemporaryDirectory(prefix="prove-") as copy:
                shutil.rmtree(room, ignore_errors=True)
                room.mkdir()
                for part in filter(pathlib.Path.exists, parts):
                    shutil.copytree(part, f"{copy}/{part.name}")
                began = time.time()
                words = [KIT / "bin/rattle", *crate.words(crates, room, kind)]
                ran = subprocess.run(words, cwd=copy, stdin=subprocess.DEVNULL, stdout=subprocess.PIPE, stderr=subprocess.STDOUT, errors="replace")
            well = not ran.returncode and ran.stdout.rstrip().rpartition("\n")[2].startswith("logic=proved")
            print(f"{name} {kind}: {'proved' if well else 'NOT PROVED'} in {time.time() - began:.0f} s" + f"\n{ran.stdout}" * (not well), flush=True)
            if not well:
                shutil.rmtree(room)
                return False
            (room / "digest").write_text(digest([room]))
    if kind == "crate":
        crate.library, crate.digest = room / f"{name}.rlib", (room / "digest").read_text()
    return True


def leave(crate):
    """Leaves the library of a proved crate where a whole `rt ci` leaves it."""
    if crate.library is None or crate.is_program:
        return
    left = crate.folder / "out/rlib" / f"{crate.name}.rlib"
    with tempfile.TemporaryDirectory(dir=crate.folder) as room:
        shutil.copytree(crate.library, f"{room}/library")
        shutil.rmtree(left, ignore_errors=True)
        left.parent.mkdir(parents=True, exist_ok=True)
        os.rename(f"{room}/library", left)


def main():
    reader = argparse.ArgumentParser(usage=__doc__)
    reader.add_argument("--lanes", type=int, default=2)
    reader.add_argument("--tests", action="store_true")
    reader.add_argument("--leave", action="store_true")
    reader.add_argument("--base", type=lambda it: pathlib.Path(it).resolve())
    reader.add_argument("crates", nargs="*")
    given = reader.parse_args()
    wanted = given.crates or [*ROWS]
    crates = {it: Crate(it, given.base) for it in {*wanted, *(low for it in wanted for low in repository.below(it, ROWS))}}
    slots, done = threading.Semaphore(given.lanes), {it: threading.Event() for it in crates}

    def prove(name):
        for it in crates[name].below:
            done[it].wait()
        try:
            is_proved = proved(crates, name, "crate", slots)
            if given.leave and is_proved:
                leave(crates[name])
            return is_proved
        finally:
            done[name].set()

    with concurrent.futures.ThreadPoolExecutor(len(crates)) as pool:
        results = [*pool.map(prove, sorted(crates, key=lambda it: len(crates[it].below)))]
        if given.tests:
            results += pool.map(lambda it: proved(crates, it, "tests", slots), [it for it in wanted if crates[it].has_tests()])
    print(f"{sum(results)} passed, {len(results) - sum(results)} failed")
    return int(not all(results))


if __name__ == "__main__":
    sys.exit(main())
