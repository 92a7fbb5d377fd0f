#!/usr/bin/env python3
"""Tries the wrong bodies of the crates: the prover must refuse each.

    python3 tools/edits_together.py [OPTION..] [CRATE..]    at the top of the repository; no CRATE: all that have wrong bodies
    python3 tools/edits_together.py --selftest              tries the script itself, on a copy of the crate text_cut

A wrong body is a file crates/NAME/wrong-bodies/*.edit, in the form of a must-fail edit: a line 'file: PATH', then pairs of lines
'old: TEXT' and 'new: TEXT'. One check of a copy of the crate tries many edits, at most one in each function. That is sound: a
check goes on past a function that it refuses, callers rest on the contract of what they call, and each open goal has its place
in the source. An edit of a table or a constant is in no function, and is tried alone.

An edit is refused if its own function has an open goal, or if the proof that is written for its function does not fit. A proof
file that only misses a name is no refusal. An edit that is not refused beside others is tried again alone.

An edit fails if it is not refused, if its check has no verdict, if it cannot be applied, or if it changes a contract, a
definition or a proof. Each function that is refused without an edit is one more failure.

A check needs the proved libraries of the crates below. `rt ci` leaves them in crates/*/out/rlib, and `make` in
out/rooms/*/crates/*/out/rlib. One that was made of other sources is not taken.

There is a line for each failure and for each crate, and the last line is 'N passed, M failed'. The exit status is 1 if M > 0, and
2 if nothing can be tried.
"""
import argparse
import concurrent.futures
import contextlib
import glob
import os
import re
import shutil
import signal
import subprocess
import sys
import tempfile
import threading
import time

# What a check needs of the toolchain's folder.
PARTS_OF_KIT = ("bin/rattle", "rlibs/std.rlib", "rattle/logic/antt-project.json", "logic_built")
# A source is in the layout of rt fmt. These are the first lines of a function, and of what holds functions.
HEAD = re.compile(r"( *)(?:pub(?:\([a-z]+\))? )?(?:const |unsafe )*fn (\w+)")
SCOPE = re.compile(r"( *)(?:pub(?:\([a-z]+\))? )?(?:unsafe )?(impl|trait|mod)\b(.*)")
# A proof file cites what is no longer there, so its goal was not tried.
MISSING = "has no field|is not in scope|has no `|is no name|was not admitted"
# Lines of a check: a goal that is open, an error (a long one says on a later line that a name is missing), and what comes of a function.
GOAL = re.compile(r"^note: (src/\S+?\.rt):(\d+):\d+: it is not proved that (.*)$", re.M)
ERROR = re.compile(rf"^(?:\./)?((?:src|specs|proofs)/\S+?\.\w+):(\d+):\d+: error(?:\[[\w-]+\])?: (.*(?:(?:\n  .*){{0,2}}\n  (?:{MISSING}).*)?)$", re.M)
RESULT = re.compile(r"^(?:fn|impl|struct|trait|enum) (\S+): (?:no proof|not proved|could not tell).*$", re.M)
# A goal of a clause or an invariant, or a written proof that fails at values which the check names.
CLAUSE = re.compile(r"what the function ensures|`invariant` of the|invariant of the loop|the goal fails, at")
# The process groups of the checks that run, and whether the script is to end.
running, ending = set(), threading.Event()


def read(file):
    with open(file, encoding="utf-8", errors="surrogateescape", newline="") as it:
        return it.read()


def write(file, text):
    os.makedirs(os.path.dirname(file), exist_ok=True)
    with open(file, "w", encoding="utf-8", errors="surrogateescape", newline="") as it:
        it.write(text)


def texts_below(folder):
    """What a check reads in a crate's folder, by path."""
    files = [f"{at}/{it}" for part in ("src", "specs", "proofs") for at, _, names in os.walk(f"{folder}/{part}") for it in names]
    return {os.path.relpath(it, folder): read(it) for it in files}


# The toolchain and the repository


def toolchain():
    """The toolchain's folder, and what is wrong with it."""
    command = shutil.which("rt")
    if not command:
        return None, "the toolchain's command `rt` is not in PATH"
    kit = os.path.dirname(os.path.dirname(os.path.realpath(command)))
    lacks = [it for it in PARTS_OF_KIT if not os.path.exists(f"{kit}/{it}")]
    return kit, lacks and f"the toolchain's folder {kit} lacks {', '.join(lacks)}"


class Repository:
    """The crates below a folder, what each stands on, and the trees in which proved libraries may lie."""

    def __init__(self, top, trees, kit):
        self.top, self.trees, self.kit, self.uses = top, trees, kit, {}
        for line in read(f"{top}/crates.txt").split("\n"):
            head, _, rest = line.partition("#")[0].partition(":")
            if head.strip():
                self.uses[head.split()[0]] = rest.replace(",", " ").split()

    def below(self, name):
        """The crates that a crate stands on, directly or not."""
        found, left = [], [*self.uses[name]]
        while left:
            it = left.pop()
            if it in self.uses and it not in found:
                found.append(it)
                left += self.uses[it]
        return sorted(found)

    def library(self, name, tree):
        """The proved library of a crate in a tree, and what is wrong with it."""
        folder = f"{tree}/crates/{name}"
        made, texts = f"{folder}/out/rlib/{name}.rlib", texts_below(folder)
        if not os.path.isfile(f"{made}/format"):
            return made, f"there is no {os.path.relpath(made, self.top)}"
        then = os.path.getmtime(f"{made}/format")
        if texts != texts_below(f"{self.top}/crates/{name}") or any(os.path.getmtime(f"{folder}/{it}") > then for it in texts):
            return made, f"{os.path.relpath(made, self.top)} was made of other sources"
        return made, None

    def libraries(self, names):
        """The proved libraries of these crates, all in one tree, and why there are none."""
        faults = []
        for tree in self.trees:
            found = {it: self.library(it, tree) for it in names}
            wrong = [fault for _, fault in found.values() if fault]
            if not wrong:
                return {it: made for it, (made, _) in found.items()}, None
            faults.append(wrong[0])
        return {}, f"{'; '.join(faults)}: run `make` or `rt ci`, and then this again"

    def is_proved(self, name):
        return any(not self.library(name, tree)[1] for tree in self.trees)

    def words(self, name):
        """The words of a check of a crate, and what is missing for it."""
        kit, of_kit = self.kit, [it for it in self.uses[name] if it not in self.uses]
        is_program = os.path.isfile(f"{self.top}/crates/{name}/src/main.rt")
        unknown = [it for it in of_kit if not os.path.isdir(f"{kit}/rlibs/{it}.rlib")]
        if unknown:
            return [], f"neither crates.txt nor the toolchain's folder {kit} has {', '.join(unknown)}"
        libraries, fault = self.libraries(self.below(name))
        words = ["--crate-name", name, "src/main.rt" if is_program else "src/lib.rt"]
        for it in ["std", *of_kit]:
            words += ["--extern", f"{it}={kit}/rlibs/{it}.rlib"]
        words += ["-L", f"dependency={kit}/rlibs"]
        for it, made in libraries.items():
            words += ["--extern", f"{it}={made}"] if it in self.uses[name] else []
            words += ["-L", f"dependency={os.path.dirname(made)}"]
        words += ["--antt-project", f"{kit}/rattle/logic/antt-project.json", "--logic-built", f"{kit}/logic_built"]
        return [*words, "--links", f"{name}=", "--jobs", "1"], fault


# Sources and edits


class Function:
    """A function of a source file: the type (and trait) that it is of, and its lines."""

    def __init__(self, path, scope, name, first, body, last):
        self.path, self.scope, self.name, self.first, self.body, self.last = path, scope, name, first, body, last
        parts = re.sub(r"^src/|\.rt$", "", path).split("/")
        self.module = parts[:-1] if parts[-1] in ("lib", "main", "mod") else parts
        self.words = [*self.module, *([scope] if scope else []), name]
        self.key = "::".join(self.words)

    def is_of(self, folder):
        """Whether this folder below proofs/ is of the function, or of a closure in it."""
        parts = [it for it in folder.split("/") if it != "fn"][: len(self.words)]
        if self.scope and len(parts) == len(self.words) and parts[-2].startswith(self.scope):
            # A type argument of a trait stands there in full.
            parts[-2] = self.scope
        return parts == self.words


def scope_of(kind, head):
    """What a check calls an impl: BytesOrd for `impl Ord for Bytes`, and Bytes for `impl Bytes`."""
    if kind != "impl":
        return re.match(r"\s*(\w+)", head)[1]
    head = re.sub(r"'\w+,? ?|&|\bmut |->", "", head).split(" where ")[0]
    if head.startswith("<"):
        ends = [at for at in range(len(head)) if head[: at + 1].count("<") == head[: at + 1].count(">")]
        head = head[ends[0] + 1 :]
    trait, _, of = head.strip().rpartition(" for ")
    bare = lambda text: re.split(r"[< ]", text.strip())[0].split("::")[-1]
    argument = re.search(r"<(?:\w+::)*(\w+)", trait)
    return bare(of) + ("" if bare(trait) == "Drop" else bare(trait)) + (argument[1] if argument else "")


def lines_of(lines, at):
    """The first line, the line on which the body begins, and the last line of the function with its head at a line."""
    first, last, body = at, at, None
    # A check places goals at the attributes too.
    while first and re.match(r" *[#)\]/]", lines[first - 1]):
        first -= 1
    end = re.match(" *", lines[at])[0] + "}"
    while last + 1 < len(lines) and lines[last] != end:
        is_short = lines[last].endswith((";", "{}")) or last == at and lines[last].endswith("}")
        if body is None and is_short:
            break
        body = last if body is None and lines[last].endswith("{") else body
        last += 1
    return first, last if body is None else body, last


def functions_of(path, text):
    lines, found, scopes = text.split("\n"), [], []
    for at, line in enumerate(lines):
        if scopes and line == f"{scopes[-1][0]}}}":
            scopes.pop()
        if found and at <= found[-1].last:
            continue
        head, scope = HEAD.match(line), SCOPE.match(line)
        if scope and not line.endswith((";", "}")):
            whole = " ".join(lines[at : at + 12]).split("{")[0]
            scopes.append((scope[1], scope_of(scope[2], whole.split(scope[2], 1)[1])))
        elif head:
            found.append(Function(path, "".join(it for _, it in scopes), head[2], *lines_of(lines, at)))
    return found


class Crate:
    def __init__(self, name, top):
        self.name, folder = name, f"{top}/crates/{name}"
        self.texts = texts_below(folder)
        self.edits = [Edit(it, self) for it in sorted(glob.glob(f"{folder}/wrong-bodies/*.edit"))]

    def functions(self, texts):
        """The functions of the crate with these texts in place of its own."""
        texts = {path: text for path, text in {**self.texts, **texts}.items() if re.match(r"src/.*\.rt$", path)}
        return [it for path, text in sorted(texts.items()) for it in functions_of(path, text)]


class Edit:
    """An edit: its pairs of texts, the functions that it changes, whether it changes what is in no function, and its fault."""

    def __init__(self, file, crate):
        self.name, self.pairs, self.places, self.is_outside = f"{crate.name}/{os.path.basename(file)}", [], set(), False
        path = old = None
        for line in read(file).split("\n"):
            word, _, text = line.partition(":")
            text = text.removeprefix(" ")
            path = text.strip() if word == "file" else path
            old = text if word == "old" else old
            self.pairs += [(path, old, text)] if word == "new" else []
        self.fault = None if self.pairs else "it has no pair of texts"
        if self.over({}, crate) is None:
            self.fault = "an old text does not stand once in its file"

    def over(self, texts, crate):
        """These texts with the edit applied, or None. Notes what the edit changes."""
        texts = dict(texts)
        for path, old, new in self.pairs:
            text = texts.get(path) or crate.texts.get(path, "")
            if not old or text.count(old) != 1:
                return None
            line = text.count("\n", 0, text.find(old))
            at = next((it for it in functions_of(path, text) if it.first <= line <= it.last), None)
            if not path.startswith("src/") or at and line < at.body:
                self.fault = "it changes a contract, a definition or a proof, and not a body alone"
            self.places |= {at.key} if at else set()
            self.is_outside |= not at
            texts[path] = text.replace(old, new)
        return texts


def batches_of(crate, edits):
    """Puts edits together, so that no two of a batch change one function or one text."""
    left = [it for it in edits if not it.is_outside]
    while left:
        texts, taken, batch = {}, set(), []
        for edit in left:
            now = None if taken & edit.places else edit.over(texts, crate)
            if now:
                texts, taken = now, taken | edit.places
                batch.append(edit)
        yield batch
        left = [it for it in left if it not in batch]
    yield from ([it] for it in edits if it.is_outside)


# Checks


def kill(*groups):
    for group in groups:
        with contextlib.suppress(OSError):
            os.killpg(group, signal.SIGKILL)


def end(*_):
    ending.set()
    kill(*running)


def checked(command, texts, minutes):
    """Runs a check over these texts. Returns what it said, its exit status, and its processor seconds."""
    with tempfile.TemporaryDirectory(prefix="edits-") as room, tempfile.TemporaryFile("w+", errors="replace") as out:
        for path, text in texts.items():
            write(f"{room}/{path}", text)
        how = {"cwd": room, "stdin": subprocess.DEVNULL, "stdout": out, "stderr": subprocess.STDOUT, "start_new_session": True}
        child = subprocess.Popen(command, **how)
        running.add(child.pid)
        kill(*([child.pid] if ending.is_set() else []))
        watch = threading.Timer(60 * minutes, kill, [child.pid])
        watch.start()
        _, status, used = os.wait4(child.pid, 0)
        watch.cancel()
        running.discard(child.pid)
        child.returncode = os.waitstatus_to_exitcode(status)
        if ending.is_set():
            raise SystemExit(2)
        out.seek(0)
        return out.read(), child.returncode, used.ru_utime + used.ru_stime


class Said:
    """What a check said: by function (None for what is in none), what is refused, and what was not tried since a name is missing."""

    def __init__(self, said, status, functions):
        self.text, self.refused, self.missing = said, {}, {}
        last = said.rstrip().split("\n")[-1]
        self.has_verdict, self.is_proved = status in (0, 1) and bool(re.match("logic=(not-)?proved", last)), last.startswith("logic=proved")
        for path, line, text in [*GOAL.findall(said), *ERROR.findall(said)]:
            why = " ".join(text.split())
            of = [it for it in functions if it.path == path and it.first < int(line) <= it.last + 1]
            if path.startswith("proofs/"):
                of = functions_of_proof(os.path.dirname(path)[len("proofs/") :], why, functions)
            for key in {it.key for it in of} or {None}:
                told = f"{path}: {why}" if path.startswith("proofs/") else why
                (self.missing if re.search(MISSING, why) else self.refused).setdefault(key, []).append(told)

    def of(self, edit):
        """What was said of the functions that an edit changes."""
        names = {it.split("::")[-1] for it in edit.places}
        told = [it[0] for it in RESULT.finditer(self.text) if not names or names & set(it[1].split("::"))]
        told += [it for key in edit.places for it in self.missing.get(key, [])]
        return "; ".join(told)[:600] or ("the crate is proved" if self.is_proved else "nothing was said of it")


def functions_of_proof(folder, why, functions):
    """The functions of which a folder below proofs/ has the proof. A cycle has one, where a goal's name begins with its function's."""
    found = [it for it in functions if it.is_of(folder)]
    member = re.match(r"`(\w+)-", why) if os.path.basename(folder).startswith("+") else None
    return found + [it for it in functions if member and it.name == member[1] and it.module == folder.split("/")[:-1]]


def doubt_of(edit, said, why):
    """What makes one look at a refusal again."""
    doubts = ["its proof file misses a name"] if edit.places & {*said.missing} else []
    if not any(CLAUSE.search(it) for it in why):
        is_written = any(it.startswith("proofs/") for it in why)
        doubts.append("by its written proof alone" if is_written else "by no clause of its own")
    return f" ({', '.join(doubts)})" if doubts else ""


class Trial:
    """The edits of a crate on trial: whether each is refused, and what is told of it and of refused functions without an edit."""

    def __init__(self, repository, name, options):
        self.repository, self.crate, self.options = repository, Crate(name, repository.top), options
        self.verdicts, self.strangers, self.checks, self.seconds = {}, {}, 0, 0.0
        self.verdicts.update((it, (False, f"NOT TRIED: {it.fault}")) for it in self.crate.edits if it.fault)

    def run(self):
        words, self.lacks = self.repository.words(self.crate.name)
        began, left = time.time(), [it for it in self.crate.edits if not it.fault]
        with tempfile.TemporaryDirectory(prefix="edits-kept-") as kept:
            self.command = [f"{self.repository.kit}/bin/rattle", "check", *words, "--incremental", kept]
            if left and not self.lacks and not self.repository.is_proved(self.crate.name):
                said = self.check([])
                self.lacks = not said.is_proved and f"the crate itself is not proved: {said.text.rstrip()[-300:]}"
            batches = [] if self.lacks else [*batches_of(self.crate, left)]
            while batches:
                batch = batches.pop(0)
                batches += self.judge(batch, self.check(batch))
        self.wall = time.time() - began
        return self

    def check(self, batch):
        texts = {}
        for edit in batch:
            texts = edit.over(texts, self.crate)
        said, status, seconds = checked(self.command, {**self.crate.texts, **texts}, self.options.minutes)
        self.checks, self.seconds = self.checks + 1, self.seconds + seconds
        if self.options.keep:
            with_edits = "".join(f"with {edit.name}\n" for edit in batch)
            write(f"{self.options.keep}/{self.crate.name}-{self.checks}.txt", with_edits + said)
        return Said(said, status, self.crate.functions(texts))

    def judge(self, batch, said):
        """Judges the edits of a batch. Returns the batches in which some are to be tried again."""
        if not said.has_verdict:
            return self.without_verdict(batch, said)
        again, known = [], set()
        for edit in batch:
            mine = [it for it in said.refused if it in edit.places or edit.is_outside]
            known |= {*mine}
            if mine:
                why = [it for key in mine for it in said.refused[key]]
                self.verdicts[edit] = True, f"refused{doubt_of(edit, said, why)}: {why[0][:300]}"
            elif len(batch) > 1:
                again.append([edit])
            else:
                self.verdicts[edit] = False, f"NOT REFUSED: {', '.join(sorted(edit.places))}: {said.of(edit)}"
        beside = ", ".join(it.name for it in batch)
        for key in {*said.refused} - known:
            place = key or "what is in no function"
            told = f"{self.crate.name}: {place} has no edit, and is refused beside {beside}: {said.refused[key][0][:300]}"
            self.strangers.setdefault(key, told)
        return again

    def without_verdict(self, batch, said):
        if len(batch) == 1:
            first = next((it for it in said.text.split("\n") if "error" in it), said.text.rstrip()[-300:])
            self.verdicts[batch[0]] = False, f"NOT REFUSED: its check has no verdict: {first[:400] or 'it was stopped'}"
            return []
        # Those in whose functions an error stands, or else the first half, and the others.
        bad = [it for it in batch if it.places & {*said.refused, *said.missing}]
        bad = bad if 0 < len(bad) < len(batch) else batch[: len(batch) // 2]
        return [[it for it in batch if it not in bad], bad]

    def counts(self):
        """How many edits are refused, and how many failures there are."""
        passed = sum(well for well, _ in self.verdicts.values())
        return passed, len(self.crate.edits) - passed + len(self.strangers)

    def lines(self):
        told = [f"{it.name}: {text}" for it, (well, text) in self.verdicts.items() if self.options.tell or not well]
        told += [f"{self.crate.name}: NOT TRIED: {self.lacks}"] if self.lacks else []
        cost = f"{self.checks} checks, {self.seconds:.0f} processor seconds, {self.wall:.0f} s"
        return [*told, *self.strangers.values(), f"{self.crate.name}: {self.counts()[0]} of {len(self.crate.edits)} edits refused, {cost}"]


# The test of this script: edits of text_cut, whether each must pass, and a part of what must be told of it.
BLANK = "    byte == b' ' || byte == b'\\t' || byte == b'\\n'"
EDITS_OF_SELFTEST = {
    "a-wrong-body": ("src/lib.rt", BLANK, BLANK + " || byte == b'\\r'", True, "what the function ensures"),
    "a-right-body": ("src/lib.rt", BLANK, "    byte == b'\\n' || byte == b' ' || byte == b'\\t'", False, "NOT REFUSED: is_blank: the crate is proved"),
    "a-definition": ("specs/Cuts.antt", "is_blank b = b == 32 ||", "is_blank b = b == 13 || b == 32 ||", False, "and not a body"),
    "a-contract": ("src/lib.rt", "    ensures len { length result.now ≤ length text.now }", "", False, "and not a body"),
    "a-missing-name": ("src/lib.rt", "    text.trim_with(is_blank_char)", "    let all = text.trim_with(is_blank_char); all", False, "has no field"),
    "beside-others": ("src/lib.rt", "    character == ' ' ||", "    character == ',' ||", True, "what the function ensures"),
    "no-code": ("src/lib.rt", "    text.split_str(&[separator])", "    text.split_string(&[separator])", False, "no verdict"),
    "no-old-text": ("src/lib.rt", "this is not there", "", False, "does not stand once"),
}


def of_texts(repository, options):
    """What comes of a missing name on a later line of an error, and of an open goal in a function that no edit changes."""
    trial, end = Trial(repository, "text_cut", options), "\nlogic=not-proved"
    functions = trial.crate.functions({})
    error = "./proofs/trim/Answers.antt:1:1: error: `returns`: record `After` (nearest: .all)\n  has no field `trim_with`"
    said = Said(error + end, 1, functions)
    yield "a-name-on-a-later-line", ("trim" in said.missing and not said.refused, ""), (True, "")
    at = next(it.last for it in functions if it.name == "trim")
    others = [it for it in trial.crate.edits if it.places == {"is_blank"}]
    trial.judge(others[:1], Said(f"note: src/lib.rt:{at}:5: it is not proved that it holds" + end, 1, functions))
    yield "a-stranger", (not trial.strangers, "; ".join(trial.strangers.values())), (False, "trim has no edit")


def selftest(kit, options):
    """Tries small edits of a copy of text_cut, which stands on no crate of the repository, and libraries that are not to be taken."""
    with tempfile.TemporaryDirectory(prefix="edits-selftest-") as room:
        for path, text in texts_below("crates/text_cut").items():
            write(f"{room}/crates/text_cut/{path}", text)
        for name, (path, old, new, _, _) in EDITS_OF_SELFTEST.items():
            write(f"{room}/crates/text_cut/wrong-bodies/{name}.edit", f"file: {path}\nold: {old}\nnew: {new}\n")
        write(f"{room}/crates.txt", "text_cut: bstr\nabove: text_cut\nbeside: no_such_library\n")
        repository = Repository(room, [room], kit)
        trial = Trial(repository, "text_cut", options).run()
        told = {os.path.basename(it.name)[: -len(".edit")]: verdict for it, verdict in trial.verdicts.items()}
        wanted = [(name, told[name], (is_well, part)) for name, (_, _, _, is_well, part) in EDITS_OF_SELFTEST.items()]
        wanted.append(("no-stranger", (not trial.strangers, "; ".join(trial.strangers.values())), (True, "")))
        wanted += of_texts(repository, options)
        made = f"{room}/crates/text_cut/out/rlib/text_cut.rlib/format"
        wanted.append(("no-library", (False, repository.words("above")[1] or ""), (False, "there is no crates/text_cut/out/rlib")))
        write(made, "")
        wanted.append(("a-library", (not repository.words("above")[1], ""), (True, "")))
        os.utime(made, (0, 0))
        wanted.append(("another-library", (False, repository.words("above")[1] or ""), (False, "was made of other sources")))
        wanted.append(("no-library-of-the-kit", (False, repository.words("beside")[1] or ""), (False, "has no_such_library")))
    failed = [it for it in wanted if it[1][0] != it[2][0] or it[2][1] not in it[1][1]]
    for name, (is_well, text), (is_wanted, part) in wanted if options.tell else failed:
        print(f"{name}: {'passes' if is_well else 'fails'}, {'to pass' if is_wanted else 'to fail'} with '{part}': {text}")
    print(f"{len(wanted) - len(failed)} passed, {len(failed)} failed")
    return 1 if failed else 0


def fitting():
    """How many checks the processors and the free memory take side by side, at 3 GB each."""
    free = re.search(r"^MemAvailable: *(\d+) kB", read("/proc/meminfo"), re.M)
    return max(1, min(os.cpu_count() or 1, int(free[1]) // 3_000_000 if free else 1))


def options_of(words):
    parser = argparse.ArgumentParser(description=__doc__, formatter_class=argparse.RawDescriptionHelpFormatter)
    parser.add_argument("crates", nargs="*", metavar="CRATE")
    parser.add_argument("--selftest", action="store_true", help="tries the script itself")
    parser.add_argument("--tell", action="store_true", help="a line for each refused edit too, with the first goal that is open")
    parser.add_argument("--tree", action="append", metavar="TOP", help="where libraries lie, in TOP/crates/*/out/rlib (. and out/rooms/*)")
    parser.add_argument("--at-once", type=int, metavar="N", help="crates tried side by side, of 1 to 3 GB each (as many as fit)")
    parser.add_argument("--minutes", type=float, default=20, metavar="N", help="after which a check is stopped (20)")
    parser.add_argument("--keep", metavar="FOLDER", help="writes there what each check said")
    return parser.parse_args(words)


def main():
    options = options_of(sys.argv[1:])
    for it in (signal.SIGTERM, signal.SIGINT):
        signal.signal(it, end)
    kit, fault = toolchain()
    if fault or not os.path.isfile("crates.txt"):
        print(f"edits_together: {fault or 'there is no crates.txt: run this at the top of the repository'}", file=sys.stderr)
        return 2
    if options.selftest:
        return selftest(kit, options)
    trees = [os.path.abspath(it) for it in options.tree or [".", *glob.glob("out/rooms/*")]]
    repository, passed, failed = Repository(os.getcwd(), trees, kit), 0, 0
    names = options.crates or [it for it in repository.uses if glob.glob(f"crates/{it}/wrong-bodies/*.edit")]
    without = [it for it in names if it not in repository.uses or not glob.glob(f"crates/{it}/wrong-bodies/*.edit")]
    if without or not names:
        print(f"edits_together: crates.txt names no crate {', '.join(without)} that has wrong bodies", file=sys.stderr)
        return 2
    with concurrent.futures.ThreadPoolExecutor(max(options.at_once or fitting(), 1)) as pool:
        tasks = [pool.submit(Trial(repository, it, options).run) for it in names]
        for trial in (it.result() for it in concurrent.futures.as_completed(tasks)):
            print("\n".join(trial.lines()), flush=True)
            passed, failed = passed + trial.counts()[0], failed + trial.counts()[1]
    print(f"{passed} passed, {failed} failed")
    return 1 if failed else 0


if __name__ == "__main__":
    sys.exit(main())
