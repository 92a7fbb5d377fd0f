#!/usr/bin/env python3
"""Presses TAB in each shell that is there, in a directory of a stranger, and looks at what the shell then starts.

    terminal.py PROGRAM [COMPLETIONS [SHELL]]

The shell runs on a pseudo-terminal, with the file of completions for it, which is in the directory COMPLETIONS. config.status names an
output that a shell could read as more than a name, config.log has a check of such a name, or the source has an option of such a name.
After the command line comes a TAB, and then Enter. A row is right if no command of the name was run, and if the program was given
either the whole name or just what was typed. The last line says how many rows there were, and the exit status is 1 if one is wrong.
"""
import os
import pathlib
import pty
import select
import shutil
import subprocess
import sys
import tempfile
import time

# What a name begins with, so that there is something to complete.
TYPED = "ab"
RUNS = "touch ../ran"
NAMES = [
    f"ab$({RUNS})", f"ab`{RUNS}`", f"ab${{q:-$({RUNS})}}", f"ab$((a[$({RUNS})]))", f"ab;{RUNS};", f"ab'`{RUNS}`", f"ab\\\\$({RUNS})",
    "ab$(>../ran)", "ab`>../ran`", "ab${q:=$(>../ran)}", "ab$((a[$(>../ran)]))", "ab;>../ran;", "ab'$(>../ran)'", 'ab"$(>../ran)"', "ab\\n$(>../ran)",
    "ab\\$(>../ran)", "ab$'\\n'$(>../ran)", "ab(>../ran)", "ab{,$(>../ran)}", "ab\n$(>../ran)", "ab\x1b$(>../ran)", "ab\u202e$(>../ran)",
    "ab two", "ab\ttwo", "ab'two", 'ab"two', "ab\\two", "ab*", "ab!!", "ab~", "ab#two", "ab=two", "ab@two", "ab:two", "ab\u00e4",
]
RIGHT = ["ab", "ab.h", "abc/d_e-f+g.0", "ab/sys/stat.h"]
# The command that begins each of them, what it reads first, and which file of completions is for it. bash tries all names, the others a part.
SHELLS = {
    "bash": (["bash", "--norc", "--noprofile", "-i"], "bind 'set enable-bracketed-paste off' 2> /dev/null; . '{file}'", "acrun.bash"),
    "zsh": (["zsh", "-f", "-i"], "unsetopt prompt_cr prompt_sp; fpath=('{folder}' $fpath); autoload -U compinit; compinit -D -u", "_acrun"),
    "fish": (["fish", "--no-config", "-i"], "function fish_prompt; echo '@> '; end; source '{file}'", "acrun.fish"),
}
PROGRAM = """#!/bin/sh
# Prints a page of help if there is one. Otherwise it keeps its words, each ended by a NUL.
if [ "$1" = configure ] && [ "$3" = --help ] && [ -f page ]; then exec cat page; fi
if [ "$1" = configure ] && [ "$3" = --help ]; then exec {real} "$@"; fi
printf '%s\\0' "$@" > ../written && mv ../written ../words
"""
# How long a shell may take to begin, and a row, in seconds.
LONGEST, ROW = 60, 15


class Shell:
    """A shell on a terminal, in the directory `there`."""

    def __init__(self, words, there, environment):
        self.child, self.terminal = pty.fork()
        if self.child == 0:
            os.chdir(there)
            os.execvpe(words[0], words, environment)
        self.screen = b""

    def read(self, seconds):
        if select.select([self.terminal], [], [], seconds)[0]:
            try:
                text = os.read(self.terminal, 65536)
            except OSError:
                return False
            self.screen += text
            # A terminal answers what it is asked about itself.
            if b"\x1b[c" in text:
                os.write(self.terminal, b"\x1b[?62;c")
            if b"\x1b[6n" in text:
                os.write(self.terminal, b"\x1b[1;1R")
        return True

    def write(self, text, file, seconds):
        """Types a text, and waits until the file is there."""
        os.write(self.terminal, text)
        end = time.monotonic() + seconds
        while not file.exists() and time.monotonic() < end and self.read(0.01):
            pass
        return file.exists()

    def end(self):
        os.close(self.terminal)
        os.waitpid(self.child, 0)


def record_of(name):
    """The record of a run that has made such an output."""
    return "acrun-record 2\nsrcdir .\nfile " + name.replace("\\", "\\\\").replace("\n", "\\n") + " t\nend\n"


def cases(names):
    """What is typed, what is in which files, the name, and whether that must be completed."""
    source = "AC_INIT([a],[1])\nAC_ARG_WITH([{0}],[a])\nAC_ARG_ENABLE([{0}],[a])\nAC_ARG_VAR([{0}],[a])\nAC_OUTPUT\n"
    for name in names + RIGHT:
        must = name in RIGHT
        records = {record_of(name), f"acrun-record 2\nfile {name} t\nheader {name} t\n"}
        for record in sorted(records) if "\\" in name or "\n" in name else [record_of(name)]:
            yield f"acrun status {TYPED}", {"config.status": record}, name, must
        yield f"acrun -j4 why {TYPED}" if must else f"acrun why {TYPED}", {"config.log": f"checking for {name}... \nno\n"}, name, must
        if not must and name != "ab=two":
            for typed, line in ((f"--{TYPED}", f"  --{name}=X  a\n  --{name}  a"), (TYPED, f"  {name}  a")):
                yield f"acrun configure {typed}", {"configure.ac": "AC_INIT\n", "page": f"usage:\n{line}\n"}, name, False
    for name in names[:4]:
        yield f"acrun configure --with-{TYPED}", {"configure.ac": source.format(name)}, name, False


def tried(name, program, completions, room):
    """Tries one shell, and returns how many rows there were and which are wrong."""
    words, begin, file = SHELLS[name]
    there, links = room / "there", room / "links"
    there.mkdir()
    links.mkdir()
    (links / "acrun").write_text(PROGRAM.format(real=program))
    (links / "acrun").chmod(0o755)
    environment = {"PATH": f"{links}:{os.environ['PATH']}", "HOME": str(room), "TERM": "dumb" if name != "fish" else "xterm", "PS1": "@> ", "LC_ALL": "C.UTF-8"}
    shell = Shell(words, there, environment)
    begun, ran, given = room / "begun", room / "ran", room / "words"
    begin = begin.format(file=completions / file, folder=completions)
    if not shell.write(f"{begin}\r: > '{begun}'\r".encode(), begun, LONGEST):
        raise SystemExit(f"{name} doesn't begin: {shell.screen!r}")
    rows, wrong = 0, []
    for line, files, whole, must in cases(NAMES if name == "bash" else NAMES[::4]):
        for each in there.iterdir():
            each.unlink()
        for each, text in files.items():
            (there / each).write_text(text)
        given.unlink(missing_ok=True)
        shell.screen = b""
        rows += 1
        ended = shell.write(f"{line}\t\r".encode(), given, ROW)
        found = given.read_bytes().decode(errors="replace").split("\0")[:-1] if ended else None
        typed = line.split()[1:]
        allowed = [typed[:-1] + [whole]] + ([] if must else [typed])
        if ran.exists() or found not in allowed:
            wrong.append((line, whole, found, "it ran a command" if ran.exists() else "", shell.screen.decode(errors="replace")[-300:]))
            ran.unlink(missing_ok=True)
            if not ended:
                os.write(shell.terminal, b"\x03")
    shell.end()
    return rows, wrong


def main():
    program = pathlib.Path(sys.argv[1]).resolve()
    completions = pathlib.Path(sys.argv[2] if len(sys.argv) > 2 else pathlib.Path(__file__).parent / "../../share/completions").resolve()
    is_wrong = False
    for name, (words, _, _) in SHELLS.items():
        if not shutil.which(words[0]):
            print(f"completions: there is no {name}, so it is not tried at a terminal")
            continue
        if name not in sys.argv[3:] + [name] * (len(sys.argv) < 4):
            continue
        with tempfile.TemporaryDirectory() as folder:
            rows, wrong = tried(name, program, completions, pathlib.Path(folder))
        for line, whole, found, ran, screen in wrong:
            print(f"{name}: {line}: {whole!r}: given {found!r} {ran} {screen!r}")
        is_wrong = is_wrong or bool(wrong)
        print(f"completions: {rows} rows at a terminal of {name}, {len(wrong)} wrong")
    return 1 if is_wrong else 0


sys.exit(main())
