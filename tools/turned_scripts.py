#!/usr/bin/env python3
"""Changes one thing in a shell script of share, and lists the changes that none of its examples notices.

    python3 tools/turned_scripts.py [--jobs N] [--kinds KIND,..] [--shells SHELL,..] [--only WORD] [--lines FIRST-LAST] [--again FILE]
                             [--list] [-v] [SCRIPT..]

A SCRIPT is `configure` or `port`, which examples/wrapper tries, or `acrun-compare`, which examples/compare tries, and by default all are
changed. In the shell text and in its programs of awk, these are changed:

    line      a line is left out, if what remains can be read
    turned    a condition is the other one: `&&` for `||`, `==` for `!=`, `<` for `>=`, or with a `!` or without its own
    word      a pattern of a `case` is left out

A change that the examples don't notice by sh is tried by bash too, or else by the shells of --shells in turn. What shellcheck says doesn't
count. The file turned_scripts.txt has those that nothing notices, each with the reason why no input shows it. A change is known there by its
script, its kind, its number among those of this kind in the line, and the text of the line.

There is a line for each change that nothing notices and that the file doesn't have. There is one for each entry of the file that is no
change, and for each that is noticed now. The exit status is 1 if there are any of the first two. --only takes lines that have a word, --lines those
of these numbers, and --again the changes that an earlier run, whose lines are in a file, calls unseen. -v also prints by which line a change
was noticed. --list prints the changes, and tries none.

A script with a change may remove or write what it should not. So the examples run as the user nobody if root starts this.
"""
import argparse
import dataclasses
import os
import pathlib
import re
import resource
import shutil
import signal
import subprocess
import sys
import tempfile
import threading
from concurrent.futures import ThreadPoolExecutor

import turned

ROOT = pathlib.Path(__file__).resolve().parent.parent
KNOWN = ROOT / "tools/turned_scripts.txt"
KINDS = ("line", "turned", "word")
EXAMPLES = {"configure": "wrapper/run.sh", "port": "wrapper/port.sh", "acrun-compare": "compare/run.sh"}
# The longest that the examples may take with a change, and each process of them, in seconds. What takes longer is noticed.
MOST_SECONDS, MOST_OF_PROCESSOR = 300, 10
# What stands for a part of a script that is no code of its language.
OTHER = "\x01"
OPPOSITES = {"&&": "||", "||": "&&", "==": "!=", "!=": "==", "~": "!~", "!~": "~", "<": ">=", ">=": "<", ">": "<=", "<=": ">"}


@dataclasses.dataclass(frozen=True)
class Change:
    script: str
    kind: str
    # Which of the changes of its kind in the line this is, from 1 on.
    which: int
    line: int
    # The text of the line, and which of the lines with that text it is if there are several.
    text: str
    copy: int
    start: int
    end: int
    new: str

    def key(self):
        return f"{self.script}: {self.kind} {self.which}: {self.text}" + (f"  ({self.copy})" if self.copy > 1 else "")


def end_of_awk(text, at):
    """The place after a string, a pattern or a comment of awk that begins at a place, which is none of these otherwise."""
    byte = text[at]
    if byte == "#":
        return (text + "\n").index("\n", at)
    before = text[:at].rstrip(" \t")[-1:]
    if byte == '"' or byte == "/" and (not before or before in "(,~!&|{};\n?:"):
        end, in_set = at + 1, False
        while end < len(text) and (in_set or text[end] != byte):
            if byte == "/" and text[end] in "[]":
                in_set = text[end] == "["
                # A bracket that is the first of a set belongs to it.
                if in_set and text[end + 1 : end + 2] in ("]", "[", "^"):
                    end += 2 if text[end + 1 : end + 3] == "^]" else 1
            end += 2 if text[end] == "\\" else 1
        return end + 1
    return at + 1


def masked(text):
    """The text as code of the shell alone, and as code of awk alone: OTHER is in the place of each other character, and a blank in that of
    a comment."""
    shell, awk = [OTHER] * len(text), [OTHER] * len(text)
    at, stack = 0, ["code"]
    while at < len(text):
        byte, mode = text[at], stack[-1]
        if mode == "double":
            if byte == "\\":
                at += 1
            elif byte == '"':
                stack.pop()
            elif text.startswith("$(", at):
                stack.append("code")
                at += 1
                shell[at] = "("
        elif byte == "'":
            end = text.index("'", at + 1)
            line = text[text.rfind("\n", 0, at) + 1 : at]
            if "awk" in line:
                within = at + 1
                while within < end:
                    after = min(end_of_awk(text[:end], within), end)
                    if after == within + 1 and text[within] != "#":
                        awk[within] = text[within]
                    elif text[within] == "#":
                        awk[within:after] = " " * (after - within)
                    within = after
            at = end
        elif byte == '"':
            stack.append("double")
        elif byte == "\\":
            at += 1
        elif byte == "#" and (at == 0 or text[at - 1] in " \t\n;"):
            end = text.index("\n", at)
            shell[at:end] = " " * (end - at)
            at = end - 1
        else:
            shell[at] = byte
            if text.startswith("$(", at) and not text.startswith("$((", at):
                stack.append("code")
                at += 1
                shell[at] = "("
            elif byte == "(":
                stack.append("paren")
            elif byte == ")" and len(stack) > 1:
                # That of a pattern of a `case` opens nothing.
                if stack[-1] == "paren":
                    stack.pop()
                elif stack[-1] == "code" and not is_pattern("".join(shell[:at])):
                    stack.pop()
        at += 1
    return "".join(shell), "".join(awk)


def is_pattern(before):
    """Whether a `)` after this text ends a pattern of a `case`."""
    return bool(re.search(r"(?:\bin|;;)\s+[^();]*\Z", before))


def group_end(text, at):
    """The place of the bracket that closes the one at a place."""
    depth = 0
    for place in range(at, len(text)):
        depth += {"(": 1, ")": -1}.get(text[place], 0)
        if not depth:
            return place
    return len(text)


def places_of_shell(code):
    """Yields what is changed in code of the shell: the kind, the place, its end, and the text that takes its place."""
    for found in re.finditer(r"&&|\|\|", code):
        yield "turned", found.start(), found.end(), OPPOSITES[found[0]]
    for found in re.finditer(r"(?m)(?<![\w-])(if|elif|while|until) (! )?(?=\S)", code):
        yield "turned", found.start(), found.end(), f"{found[1]} {'' if found[2] else '! '}"
    for found in re.finditer(r"(?<![\w$\"])(! )?\[ ", code):
        line = code[: found.start()].rpartition("\n")[2]
        after = re.match(r"[^\]\n]*\] (&&|\|\|)", code[found.end() :])
        # Its `&&` or `||` is changed, or else its `if`.
        if not re.search(r"\b(if|elif|while|until) (! )?\Z", line) and not after:
            yield "turned", found.start(), found.end(), "[ " if found[1] else "! [ "
    for found in re.finditer(r"(?:\bin|;;)\s+(?!\s|esac\b)([^();]+)\)", code):
        at = found.start(1)
        for word in found[1].split("|"):
            start = at + len(word) - len(word.lstrip())
            end = at + len(word.rstrip())
            yield "word", start, end, "'no such word'"
            at += len(word) + 1


def places_of_awk(code):
    """The same in code of awk."""
    for found in re.finditer(r"&&|\|\||==|!=|<=|>=|!~|(?<![!~])~|<|>(?!>)", code):
        # A `>` after what is printed names a file.
        statement = re.split(r"[;{}\n]", code[: found.start()])[-1]
        printing = re.search(r"\bprintf?\b", statement)
        if found[0] == ">" and printing and statement[printing.end() :].count("(") == statement[printing.end() :].count(")"):
            continue
        yield "turned", found.start(), found.end(), OPPOSITES[found[0]]
    for found in re.finditer(r"\b(if|while) \(", code):
        end = group_end(code, found.end() - 1)
        condition = code[found.end() : end]
        if not re.search(r"&&|\|\||[=!<>]=|[<>~]|^!", condition):
            yield "turned", found.end(), end, ("not", condition)
    for found in re.finditer(r"!(?=[\w(])", code):
        yield "turned", found.start(), found.end(), ""
    for found in re.finditer(r"(?<![\w=<>~] )(?<![\w.])(\w+(?:\[[^\]]*\])?) \?", code):
        yield "turned", found.start(), found.start(), "!"


def changes_of(script):
    """Yields the changes of a script."""
    text = (ROOT / "share" / script).read_text()
    shell, awk = masked(text)
    found = [*places_of_shell(shell), *places_of_awk(awk)]
    # A pattern of awk that stands alone
    for it in re.finditer(r"(?m)(?:^|&& |\|\| |(?<!\w)\()(/)", text):
        at = it.start(1)
        if awk[at] == OTHER and shell[at] == OTHER and (at == 0 or awk[at - 1] != OTHER) and end_of_awk(text, at) > at + 1:
            found.append(("turned", at, at, "!"))
    at = 0
    for line in text.splitlines(keepends=True):
        end = at + len(line) - 1
        code = "".join(a if a != OTHER else b for a, b in zip(shell[at:end], awk[at:end]))
        of_awk = awk[at:end].replace(OTHER, "").strip()
        if code.strip() and all(of_awk.count(a) == of_awk.count(b) for a, b in ("()", "{}")):
            found.append(("line", at, end, ""))
        at = end + 1
    counts, seen, copies = {}, {}, {}
    for kind, start, end, new in sorted(found, key=lambda it: (it[1], it[2], it[0])):
        number = text.count("\n", 0, start) + 1
        begins = text.rfind("\n", 0, start) + 1
        words = text[begins : text.index("\n", begins)].strip()
        if number not in seen:
            copies[words] = copies.get(words, 0) + 1
            seen[number] = copies[words]
        counts[number, kind] = counts.get((number, kind), 0) + 1
        if isinstance(new, tuple):
            new = f"!({text[start:end]})"
        yield Change(script, kind, counts[number, kind], number, words, seen[number], start, end, new)


def changed(change):
    """The text of the script with a change."""
    text = (ROOT / "share" / change.script).read_text()
    return text[: change.start] + change.new + text[change.end :]


def can_be_read(text):
    return not subprocess.run(["sh", "-n"], input=text.encode(), capture_output=True).returncode


class Room:
    """A directory with the scripts and their examples, in which one change at a time is tried."""

    def __init__(self, folder, template):
        self.folder, self.template = folder, template
        for name in {it.partition("/")[0] for it in EXAMPLES.values()}:
            shutil.copytree(ROOT / "examples" / name, folder / "examples" / name)
        shutil.copytree(ROOT / "share", folder / "share")
        (folder / "bin").mkdir()
        (folder / "bin/shellcheck").write_text("#!/bin/sh\nexit 0\n")
        (folder / "bin/shellcheck").chmod(0o755)

    def noticed_by(self, change, shell):
        """By which line the examples notice a change, run by a shell, or else None. Without a change, by which they fail."""
        script = change.script if isinstance(change, Change) else change
        place = self.folder / "share" / script
        if isinstance(change, Change):
            place.write_text(changed(change))
        run = self.folder / "examples" / EXAMPLES[script]
        work = self.folder / "work"
        subprocess.run(["rm", "-rf", work], check=True)
        if script == "acrun-compare":
            subprocess.run(["cp", "-a", self.template, work], check=True)
            wanted = (run.parent / "expected.txt").read_bytes().splitlines(keepends=True)
            noticed = self.differs(["sh", run, "--rows", work, shell], work, wanted)
            noticed = noticed or (" ".join(it.name for it in (work / "temporary").iterdir()) or None)
        elif script == "port":
            work.mkdir()
            noticed = self.differs(["sh", run, "--rows", shell], work, (run.parent / "port.txt").read_bytes().splitlines(keepends=True))
        else:
            work.mkdir()
            noticed = self.differs(["sh", run, shell], work, None)
        shutil.copy(ROOT / "share" / script, place)
        return noticed

    def differs(self, command, work, wanted):
        """The first line of a command that is none of these, or, without any, that doesn't say that all is well, or how it ends, or None."""
        path = f"{self.folder}/bin:{os.environ['PATH']}"
        environment = {**os.environ, "PATH": path, "TMPDIR": str(work), "LC_ALL": "C"}
        # One of each program at a time, and none that is stuck.
        limit = lambda: resource.setrlimit(resource.RLIMIT_CPU, (MOST_OF_PROCESSOR, MOST_OF_PROCESSOR))
        run = subprocess.Popen(command, stdin=subprocess.DEVNULL, stdout=subprocess.PIPE, stderr=subprocess.STDOUT, env=environment,
                               cwd=work, start_new_session=True, preexec_fn=limit)
        late = []
        timer = threading.Timer(MOST_SECONDS, lambda: (late.append(True), end(run)))
        timer.start()
        lines, other = iter(wanted or []), None
        for line in run.stdout:
            if line != next(lines, b"") if wanted else not line.startswith(b"wrapper: ") or b"not as" in line:
                other = line.decode(errors="replace").strip() or "(an empty line)"
                break
        if other is None and wanted and next(lines, None) is not None:
            other = "(fewer lines)"
        if other:
            end(run)
        status = run.wait()
        timer.cancel()
        run.stdout.close()
        return other or ("(no end)" if late else f"(status {status})" if status else None)


def end(run):
    """Ends a run and what it started in its session."""
    try:
        os.killpg(run.pid, signal.SIGKILL)
    except ProcessLookupError:
        pass


def main():
    parser = argparse.ArgumentParser(description=__doc__, formatter_class=argparse.RawDescriptionHelpFormatter)
    parser.add_argument("--jobs", type=int, default=2)
    parser.add_argument("--kinds", default=",".join(KINDS))
    parser.add_argument("--shells", default="sh,bash")
    parser.add_argument("--only", default="")
    parser.add_argument("--lines", default="1-")
    parser.add_argument("--again", type=pathlib.Path)
    parser.add_argument("-v", "--verbose", action="store_true")
    parser.add_argument("--list", action="store_true")
    parser.add_argument("scripts", nargs="*", metavar="SCRIPT", choices=[*EXAMPLES, []])
    given = parser.parse_args()
    scripts, kinds, shells = given.scripts or list(EXAMPLES), given.kinds.split(","), given.shells.split(",")
    every = [it for script in scripts for it in changes_of(script)]
    reasons, wrong = turned.known(KNOWN), 0
    keys = {it.key() for it in every}
    for key, reason in reasons.items():
        if key.partition(":")[0] in scripts and (key not in keys or not reason):
            wrong += 1
            print(f"{'no such change' if reason else 'no reason'}: {key}", flush=True)
    every = [it for it in every if it.kind in kinds and given.only in it.text and (it.kind != "line" or can_be_read(changed(it)))]
    first, _, last = given.lines.partition("-")
    every = [it for it in every if int(first) <= it.line <= int(last or it.line)]
    if given.again:
        wanted = {it.removeprefix("unseen: ") for it in given.again.read_text().splitlines() if it.startswith("unseen: ")}
        every = [it for it in every if it.key() in wanted]
    if given.list:
        for it in every:
            print(f"{it.key()}  ->  {it.new or '(nothing)'}")
        print(f"{len(every)} changes")
        return 0
    with tempfile.TemporaryDirectory() as name:
        top = pathlib.Path(name)
        top.chmod(0o755)
        template = top / "template"
        template.mkdir()
        rooms = [Room(top / f"room{number}", template) for number in range(given.jobs)]
        turned.drop_rights(top)
        if "acrun-compare" in scripts:
            subprocess.run(["sh", rooms[0].folder / "examples/compare/run.sh", "--rows", template], stdout=subprocess.DEVNULL, check=True)
        for script in scripts:
            for shell in shells:
                fails = rooms[0].noticed_by(script, shell)
                if fails:
                    sys.exit(f"{script} without a change fails by {shell}: {fails}")
        free, lock = list(rooms), threading.Lock()

        def judged(change):
            with lock:
                room = free.pop()
            try:
                return next(filter(None, (room.noticed_by(change, shell) for shell in shells)), None)
            finally:
                with lock:
                    free.append(room)

        unseen = 0
        with ThreadPoolExecutor(given.jobs) as pool:
            for change, seen in zip(every, pool.map(judged, every)):
                key = change.key()
                if seen and given.verbose:
                    print(f"noticed: {key}\n    {seen}", flush=True)
                if seen and key in reasons:
                    print(f"noticed now: {key}", flush=True)
                elif not seen:
                    unseen += 1
                    if key not in reasons:
                        wrong += 1
                        print(f"unseen: {key}", flush=True)
    print(f"{len(every)} changes, of which {unseen} aren't noticed, and {wrong} are wrong here")
    return int(wrong > 0)


if __name__ == "__main__":
    sys.exit(main())
