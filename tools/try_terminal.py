#!/usr/bin/env python3
"""Runs a program on a pseudo terminal, and looks at what it shows there alone. The gate runs this with the program that `rt ci` built.

    python3 tools/try_terminal.py PROGRAM

Progress, the last line with its time, words after a fault, colours, and control bytes as `\\xNN` are for a terminal. Each is looked
for on the stream that is a terminal, and must not be on one that is none. A file in a directory of another group is looked at too,
which no test of a crate can make. The last line is 'terminal: as it should be', or there is a line for each run that is wrong, and
the exit status is 1.
"""
import os
import pathlib
import pty
import re
import selectors
import subprocess
import sys
import tempfile
import time
import tty

SOURCE = "AC_INIT([demo],[1.0])\nAC_MSG_NOTICE([a\x1bb])\nAC_MSG_WARN([c\x1bd])\nAC_CHECK_HEADERS([have.h])\nAC_OUTPUT\n"
# How long the compiler takes, in seconds, by its argument.
COMPILER = 'sleep "$1"\n'
# What a line of progress begins with, and the last line of a run.
PROGRESS = "\r\x1b[K"
LAST = re.compile(r"acrun: 1 check, 1 child, (?:(\d+) ms|(\d+)\.(\d) s)\n\Z")


def run(program, words, terminals, **more):
    """Runs the program with these of its streams on terminals of their own. Returns its status, both texts, and how long it took."""
    ends, ours = {}, {}
    for stream in ("stdout", "stderr"):
        ours[stream], ends[stream] = pty.openpty() if stream in terminals else os.pipe()
        if stream in terminals:
            tty.setraw(ends[stream])
    env = {"PATH": os.environ.get("PATH", "/usr/bin:/bin"), **more}
    began = time.monotonic()
    child = subprocess.Popen([program, *words], stdin=subprocess.DEVNULL, env=env, **ends)
    said = {stream: b"" for stream in ours}
    with selectors.DefaultSelector() as ready:
        for stream, end in ends.items():
            os.close(end)
            ready.register(ours[stream], selectors.EVENT_READ, stream)
        while ready.get_map():
            for key, _ in ready.select(60):
                try:
                    text = os.read(key.fd, 65536)
                except OSError:
                    # The last writer of a terminal has closed it.
                    text = b""
                said[key.data] += text
                if not text:
                    ready.unregister(key.fd)
                    os.close(key.fd)
    status = child.wait()
    took = time.monotonic() - began
    return status, *(said[stream].decode(errors="replace") for stream in ("stdout", "stderr")), took


class Trial:
    def __init__(self, program):
        self.program, self.is_right = program, True

    def look(self, what, is_so, *found):
        """Prints what is wrong, unless it is so."""
        if not is_so:
            self.is_right = False
            print(f"terminal: not so: {what}: {found!r}", flush=True)

    def configure(self, seconds, *words, on=(), first=("configure",), **more):
        compiler = [] if first != ("configure",) else [f"CC=sh cc.sh {seconds}"]
        return run(self.program, [*first, *compiler, *words], on, **more)

    def progress(self):
        """What a run shows of its progress, and its last line."""
        for seconds in (0.3, 1.2):
            status, out, err, took = self.configure(seconds, on=["stderr"])
            self.look("a run on a terminal ends well", status == 0, status, err)
            self.look("progress is shown", f"{PROGRESS}\x1b[?7l1 started, 0 ended: header have.h\x1b[?7h{PROGRESS}" in err, err)
            self.look("output that is no terminal has messages alone", "have.h... yes\n" in out and PROGRESS not in out, out)
            last = LAST.search(err)
            self.look("a last line sums the run up", last, err)
            if last:
                ms, whole, tenth = last.groups()
                said = int(ms) / 1000 if ms else int(whole) + int(tenth) / 10
                self.look("the last line says how long the run took", seconds - 0.11 < said <= took, last[0], seconds, took)
        _, _, err, _ = self.configure(0, on=["stdout"])
        self.look("nothing is shown on an error stream that is no terminal", err == "configure: WARNING: c\x1bd\n", err)
        _, out, err, _ = self.configure(0, "-q", on=["stdout", "stderr"])
        self.look("a quiet run shows its warning alone", (out, err) == ("", "configure: WARNING: c\\x1bd\n"), out, err)

    def lines(self):
        """Progress goes on after a command that is longer than what is shown of it."""
        pathlib.Path("configure.ac").write_text(SOURCE.replace("[have.h]", "[have.h more.h]"))
        words = ["configure", f"CC=sh cc.sh 0 -I{'a' * 300}"]
        _, _, err, _ = run(self.program, words, (), ACRUN_PROGRESS="lines")
        shown = re.findall(r"(?m)^acrun: child (\d), header (\S+):", err)
        self.look("each child has a line of progress, also after a long one", shown == [("1", "have.h"), ("2", "more.h")], err)
        _, _, err, _ = run(self.program, words, ["stderr"])
        self.look("the second child is shown, also after a long command", "2 started, 1 ended: header more.h" in err, err)
        pathlib.Path("configure.ac").write_text(SOURCE)

    def cached(self):
        """A run that takes each answer from the cache."""
        for _ in range(2):
            _, out, err, _ = self.configure(0, "-C", on=["stderr"])
        self.look("a check of the cache is answered by it", "have.h... (cached) yes\n" in out, out)
        self.look("a run without a child has a last line", re.search(r"acrun: 1 check, 1 from the cache, no children, \d+ ms\n\Z", err), err)

    def control_bytes(self):
        """Control bytes, on each stream that is a terminal and on one that is none."""
        _, out, err, _ = self.configure(0, on=["stdout"])
        self.look("control bytes are shown on output that is a terminal", "a\\x1bb\n" in out and "\x1b" not in out, out)
        self.look("they are as they were on errors that are none", "c\x1bd\n" in err, err)
        _, out, err, _ = self.configure(0, on=["stderr"])
        self.look("they are as they were on output that is no terminal", "a\x1bb\n" in out, out)
        self.look("control bytes are shown on errors that are a terminal", "c\\x1bd\n" in err and "c\x1bd" not in err, err)

    def again(self):
        """A run that is done again has a last line too, and no progress."""
        _, _, err, _ = self.configure(0, first=("status", "--recheck"), on=["stderr"])
        self.look("a run that is done again has a last line", LAST.search(err) and PROGRESS not in err, err)
        _, _, err, _ = self.configure(0, first=("status",), on=["stderr"])
        self.look("outputs that are made again have none", err == "", err)

    def words(self):
        """Words after a fault, and the colours of lint."""
        _, _, err, _ = run(self.program, ["nope"], ["stderr"])
        self.look("words follow a fault on a terminal", err.startswith("acrun: usage\n") and err.count("\n") > 1, err)
        _, _, err, _ = run(self.program, ["nope"], ["stdout"])
        self.look("no words follow where errors are no terminal", err == "acrun: usage\n", err)
        _, _, err, _ = run(self.program, ["nope"], (), ACRUN_WHY="1")
        self.look("words follow elsewhere if ACRUN_WHY is set", err.startswith("acrun: usage\nacrun: `nope` is not"), err)
        pathlib.Path("configure.ac").write_text("AC_NOPE\n")
        _, out, _, _ = run(self.program, ["lint"], ["stdout"])
        self.look("lint has colours on a terminal", "\x1b[" in out and "\\x1b" not in out, out)
        _, out, _, _ = run(self.program, ["lint"], ["stderr"])
        self.look("lint has no colours elsewhere", "error" in out and "\x1b" not in out, out)
        _, out, _, _ = run(self.program, ["lint"], ["stdout"], NO_COLOR="1")
        self.look("lint has no colours if NO_COLOR is set", "error" in out and "\x1b" not in out, out)

    def permissions(self):
        """A file of the user keeps its permissions, also in a directory whose files are of another group."""
        groups = [1] if os.geteuid() == 0 else [it for it in os.getgroups() if it != os.geteuid()]
        if not groups:
            return
        os.mkdir("group")
        os.chown("group", -1, groups[0])
        os.chmod("group", 0o2755)
        pathlib.Path("group/made").write_text("")
        os.chmod("group/made", 0o640)
        pathlib.Path("made.in").write_text("text\n")
        pathlib.Path("configure.ac").write_text("AC_INIT([demo],[1.0])\nAC_CONFIG_FILES([group/made:made.in])\nAC_OUTPUT\n")
        status, _, err, _ = run(self.program, ["configure"], [])
        mode = oct(os.stat("group/made").st_mode & 0o777)
        self.look("a file keeps its permissions in a directory of another group", (status, mode) == (0, "0o640"), status, mode, err)


def main():
    if len(sys.argv) != 2:
        sys.exit(__doc__)
    trial = Trial(os.path.realpath(sys.argv[1]))
    with tempfile.TemporaryDirectory() as folder:
        os.chdir(folder)
        pathlib.Path("configure.ac").write_text(SOURCE)
        pathlib.Path("cc.sh").write_text(COMPILER)
        trial.progress()
        trial.lines()
        trial.cached()
        trial.control_bytes()
        trial.again()
        trial.words()
        trial.permissions()
        os.chdir("/")
    if trial.is_right:
        print("terminal: as it should be")
    return 0 if trial.is_right else 1


if __name__ == "__main__":
    sys.exit(main())
