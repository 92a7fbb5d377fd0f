#!/usr/bin/env python3
"""Checks one crate over libraries of statements, in seconds also if it is a high one. It is no verdict: `rt ci` gives that.

    python3 tools/check_over.py CRATE [WORD..]          at the top of the repository; the words are those of `rattle check`
    python3 tools/check_over.py --base TOP [--wait] [--kept] CRATE [WORD..]

`rt ci` without names leaves such libraries in crates/*/out/rlib. They are taken from there, or from those of another clone, TOP.
First the libraries of crates below are built anew here whose sources are other than those that the libraries were made of, and
of crates that stand on one of these. Each is proved for it, which takes as long as in the gate, so begin with the lowest crate that
you change. With --wait, a library of the same sources that TOP does not have yet is waited for, as long as an `rt ci` is at work
there. With --kept, such a library is built in seconds of what a check of its crate by this script has kept, with its proofs, and is
built again only if a source has changed. It suits a few small crates below the one that is checked: one with proofs takes longer to
read.

Words that are of use: `--only MODULE::FUNCTION` checks one function and what it calls, and `--start MODULE::FUNCTION` writes the
files of its goals. Holes are allowed. The last line has their number, and the exit status is that of the check.
"""
import hashlib
import os
import shutil
import subprocess
import sys
import time

import edits_together as edits


class Libraries:
    """The libraries of a repository, of which some are built in it, and all others were left in a base."""

    def __init__(self, top, base, kit, waits=False, kept=False):
        self.repository, self.top, self.base, self.kit, self.waits = edits.Repository(top, [top], kit), top, base, kit, waits
        self.kept = kept
        self.fresh = {}

    def path(self, name):
        top = self.top if self.fresh[name] else self.base
        return f"{top}/crates/{name}/out/rlib/{name}.rlib"

    def is_changed(self, name):
        """Whether the base has no library of this crate that was made of these sources."""
        there = f"{self.base}/crates/{name}"
        if not os.path.isfile(f"{there}/out/rlib/{name}.rlib/format"):
            return True
        # The sources of the base itself have to be as they were when its library was made.
        if self.base == self.top:
            then = os.path.getmtime(f"{there}/out/rlib/{name}.rlib/format")
            return any(os.path.getmtime(f"{there}/{it}") > then for it in edits.texts_below(there))
        return edits.texts_below(there) != edits.texts_below(f"{self.top}/crates/{name}")

    def wait(self, name):
        """Waits for the library of a crate that has the same sources in the base."""
        there = f"{self.base}/crates/{name}"
        made = f"{there}/out/rlib/{name}.rlib/format"
        if edits.texts_below(there) == edits.texts_below(f"{self.top}/crates/{name}"):
            while not os.path.isfile(made) and is_at_work(self.base):
                time.sleep(5)

    def words(self, name):
        """The words that name the libraries for a crate."""
        uses, kit = self.repository.uses, self.kit
        root = "src/main.rt" if os.path.isfile(f"{self.top}/crates/{name}/src/main.rt") else "src/lib.rt"
        words = ["--crate-name", name, root]
        for it in ["std", *(it for it in uses[name] if it not in uses)]:
            words += ["--extern", f"{it}={kit}/rlibs/{it}.rlib"]
        words += ["-L", f"dependency={kit}/rlibs"]
        for it in self.repository.below(name):
            words += ["--extern", f"{it}={self.path(it)}"] if it in uses[name] else []
            words += ["-L", f"dependency={os.path.dirname(self.path(it))}"]
        words += ["--antt-project", f"{kit}/rattle/logic/antt-project.json", "--logic-built", f"{kit}/logic_built"]
        return [*words, "--links", f"{name}="]

    def make(self, name):
        """Builds the libraries below a crate that are not in the base, the lowest first. Returns whether all were built."""
        below = {*self.repository.below(name)}
        for it in [it for it in self.repository.uses if it in below]:
            stands_on_new = any(self.fresh.get(dep) for dep in self.repository.uses[it])
            if self.waits and not stands_on_new:
                self.wait(it)
            self.fresh[it] = stands_on_new or self.is_changed(it)
            if self.fresh[it] and not self.build(it):
                return False
        return True

    def sources(self, name):
        """A sum of the sources of a crate, and of those below it that are built here."""
        crates = [it for it in [name, *sorted(self.repository.below(name))] if self.fresh[it]]
        texts = [sorted(edits.texts_below(f"{self.top}/crates/{it}").items()) for it in crates]
        return hashlib.sha256(repr(texts).encode()).hexdigest()

    def build(self, name):
        made = self.path(name)
        mark, sources = f"{os.path.dirname(made)}.sum", self.sources(name)
        if self.kept and os.path.isfile(f"{made}/format") and os.path.isfile(mark) and open(mark).read() == sources:
            return True
        shutil.rmtree(made, ignore_errors=True)
        os.makedirs(os.path.dirname(made), exist_ok=True)
        words = [f"{self.kit}/bin/rattle", "build", *self.words(name), "--jobs", "2", "-o", made, "--empty-contracts"]
        words += ["--incremental", "out/over"] if self.kept else ["--statements"]
        ran = subprocess.run(words, cwd=f"{self.top}/crates/{name}", stdout=subprocess.PIPE, stderr=subprocess.STDOUT, text=True)
        print(f"{name}: {'its library is built anew' if ran.returncode == 0 else ran.stdout}", flush=True)
        if ran.returncode == 0:
            open(mark, "w").write(sources)
        return ran.returncode == 0


def is_at_work(top):
    """Whether a process works in a repository or below it."""
    for process in filter(str.isdigit, os.listdir("/proc")):
        try:
            if f"{os.readlink(f'/proc/{process}/cwd')}/".startswith(f"{top}/"):
                return True
        except OSError:
            continue
    return False


def main(words):
    top = os.getcwd()
    base = top
    if words[:1] == ["--base"] and len(words) > 1:
        base, words = os.path.abspath(words[1]), words[2:]
    waits = words[:1] == ["--wait"]
    words = words[waits:]
    kept = words[:1] == ["--kept"]
    words = words[kept:]
    kit, fault = edits.toolchain()
    if fault or not words or not os.path.isdir(f"{top}/crates/{words[0]}"):
        print(fault or __doc__, file=sys.stderr)
        return 2
    name, *more = words
    libraries = Libraries(top, base, kit, waits, kept)
    if not libraries.make(name):
        return 2
    check = [f"{kit}/bin/rattle", "check", *libraries.words(name), "--jobs", "3", "--incremental", "out/over", "--allow-holes", *more]
    return subprocess.run(check, cwd=f"{top}/crates/{name}").returncode


if __name__ == "__main__":
    sys.exit(main(sys.argv[1:]))
