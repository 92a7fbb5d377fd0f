#!/usr/bin/env python3
"""Holds what `acrun port` calls exact against Autoconf 2.71, with sources that are made by number.

    tools/fuzz_exact.py PROGRAM [--idioms] [--from N] [--count N] [--seconds N] [--runs N] [--jobs N] [--log FILE] [--only MACRO].. [--forms KIND]..
    tools/fuzz_exact.py PROGRAM --stored [NAME..]    the stored sources whose names begin so
    tools/fuzz_exact.py PROGRAM --conditions         conditions by number, with --from and --count, in shells alone, without Autoconf
    tools/fuzz_exact.py PROGRAM --replay N           shows source N, what port makes of it, and what differs
    tools/fuzz_exact.py PROGRAM --minimize N         the same of the smallest part of it that differs

PROGRAM is a built acrun. A source has calls of the macros that crates/lint_macros/macros.txt has an exact idiom of, with --only of these
macros alone, and the forms of shell that `port` rewrites. With each go settings for --runs runs. Autoconf makes a script of the source, and
one of what `port` makes of it without --idioms. Both are run with the same settings in a directory of the same name, and have to leave
and to print the same. If acrun reads what port wrote, it is run too, and its outputs have to be those of that script. And no line that port
wrote may be an error for `acrun lint` that the source does not have.
tools/seeded_compiler.c answers the programs, by what they ask. From number 1000000 on a source may also begin with AC_INIT without a version, and
have variables whose names are spelled as those of macros, conditions on several lines, actions without brackets that are calls, and the macros
of LATER_NAMES; with --idioms also `==`, `-eq`, `-ne`, `exit` and `echo` without words. From number 2000000 on it may also have `!` before what
`-a` and `-o` join; with --idioms also `echo` with `exit`, and such an operator in double quotes, as far as docs/commands.md names them.
From number 3000000 on it may also have blanks after the arguments of macros that have an exact idiom, more texts of NEWEST_ARGUMENTS, and
the macros of NEWEST_NAMES. From number 4000000 on it also defines macros without parameters, and calls them. From number 5000000 on it also
has AC_PATH_PROGS, checks with `break`, and AC_CACHE_VAL between its messages, and defines plain words. From number 6000000 on it also has
`for` over words, assignments of a value or a word, and lines that m4 joins to a comment. From number 7000000 on it has fewer of all these, and
three of the five kinds of statements of tools/exact_forms.py, with --forms those that are named; with --idioms some get --package too. From
number 8000000 on it also defines macros that it calls nowhere, or by a name that m4 makes of parts.
A difference is allowed if a line `~ ` of macros.txt states it for a macro of the source, or one of the sentences below of docs/differences.md.

With --idioms a source has also calls of the macros that have a line `& `, if Autoconf itself has them, and port is given that switch. If
there is such a call, what is printed and the order of definitions are not compared, and of the cache variables only those that are named in what port writes: a
sentence of docs/commands.md says so. A line `? ` of a macro with a line `& ` states differences too.
Prints the differences of each source that has some, and last a count. The exit status is 1 if one differs. It needs Autoconf 2.71, m4 and a
C compiler. A source takes about two seconds of a processor, nine tenths of them in the two scripts. With --log it writes a line for each
source to FILE, and passes over those that FILE has, so that a run that was cut goes on where it was. The count is then of both.
"""
import argparse
import concurrent.futures
import contextlib
import dataclasses
import difflib
import fnmatch
import functools
import json
import os
import pathlib
import random
import re
import shutil
import string
import subprocess
import sys
import tempfile
import time

import exact_forms
import macro_table
import word_table

HERE = pathlib.Path(__file__).resolve().parent
END = re.compile(r"(?m)^AC_OUTPUT\b")
SAVE = "set > variables.out\n"
# Words that Autoconf refuses in a script if no macro has taken them.
LEFT = re.compile(r"(?m)^[^#\n]*?\b(_?m4_[a-z]\w*|_?A[CHMSU]_[A-Z]\w*|dnl)\b")
IDIOMS = ("--idioms",)
QUADRIGRAPHS = (("@<:@", "["), ("@:>@", "]"), ("@{:@", "("), ("@:}@", ")"), ("@S|@", "$"), ("@%:@", "#"), ("@&t@", ""))
HOST = "x86_64-foo-linux"


def macro_directory():
    """Returns the directory of Autoconf's macros."""
    found = re.search(r"trailer_m4='(.*)/autoconf/trailer\.m4'", pathlib.Path(shutil.which("autoconf")).read_text())
    return found[1]


@functools.lru_cache(maxsize=4096)
def script(text):
    """Returns the script that Autoconf makes of a source, or None. Its m4 is run as `autom4te` runs it, which is several times as fast;
    where a word is left that may be forbidden, `autoconf` decides."""
    share = macro_directory()
    with tempfile.TemporaryDirectory() as room:
        (pathlib.Path(room) / "configure.ac").write_text(text)
        files = ["configure.ac"]
        if library := exact_forms.library(text):
            (pathlib.Path(room) / "aclocal.m4").write_text(library)
            files.insert(0, "aclocal.m4")
        words = ["m4", "--nesting-limit=1024", "--gnu", f"--include={share}", f"--reload-state={share}/autoconf/autoconf.m4f"]
        made = subprocess.run([*words, f"{share}/autoconf/trailer.m4", *files], cwd=room, capture_output=True, text=True)
        body = made.stdout
        for sign, char in QUADRIGRAPHS:
            body = body.replace(sign, char)
        if made.returncode or LEFT.search(body):
            made = subprocess.run(["autoconf"], cwd=room, capture_output=True, text=True)
            if made.returncode:
                return None
            body = (pathlib.Path(room) / "configure").read_text()
        return re.sub(r"(?m)[ \t]+$", "", body)


# ---------------------------------------------------------------------------------------------------------------------- what is run


class Room:
    """A directory with the programs that scripts find: those of this machine, without compilers, and stand-ins."""

    def __init__(self):
        self.top = pathlib.Path(tempfile.mkdtemp(prefix="fuzz-exact-"))
        farm = self.top / "farm"
        farm.mkdir()
        left_out = re.compile(r"(.*-)?(gcc|cc|g\+\+|c\+\+|clang|c89|c99|ranlib|strip|nm|ar|cpp|tcc|pcc)(-\d+)?$|.*awk$|.*-linux-gnu-.*")
        for folder in ("/usr/bin", "/bin"):
            for file in os.listdir(folder):
                if not left_out.match(file) and not (farm / file).is_symlink():
                    (farm / file).symlink_to(f"{folder}/{file}")
        awk = os.path.realpath(shutil.which("mawk") or shutil.which("awk"))
        subprocess.run(["cc", "-O1", "-static", "-o", self.top / "gcc", HERE / "seeded_compiler.c"], check=True)
        quiet = "#!/bin/sh\nexit 0\n"
        kinds = {
            "plain": ["ranlib", "strip", "nm", "ar"],
            "cross": ["ranlib", "strip", "nm", "ar", f"{HOST}-ranlib", f"{HOST}-strip", f"{HOST}-nm", f"{HOST}-ar"],
            "half": ["ranlib", "strip", f"{HOST}-nm"],
            "none": [],
        }
        for kind, names in kinds.items():
            (self.top / kind).mkdir()
            for name in names:
                (self.top / kind / name).write_text(quiet)
                (self.top / kind / name).chmod(0o755)
            for name in ["gcc", "cc", *([f"{HOST}-gcc"] if kind == "cross" else [])]:
                (self.top / kind / name).symlink_to(self.top / "gcc")
            for name in ["awk", *{"plain": ["gawk", "mawk"], "cross": ["nawk"]}.get(kind, ["mawk"])]:
                (self.top / kind / name).symlink_to(awk)
        given = self.top / "given"
        given.mkdir()
        for name in ("sed", "grep", "install", "mkdir"):
            (given / f"my{name}").symlink_to(shutil.which(name))
        (given / "myawk").symlink_to(awk)
        for name in ("ranlib", "strip", "nm", "ar", "cpp"):
            (given / f"my{name}").write_text('#!/bin/sh\nexec gcc -E "$@"\n' if name == "cpp" else quiet)
            (given / f"my{name}").chmod(0o755)

    @contextlib.contextmanager
    def folder(self):
        """Yields an empty directory, which has the same name each time in this process."""
        folder = self.top / f"run-{os.getpid()}"
        shutil.rmtree(folder, ignore_errors=True)
        folder.mkdir()
        yield folder

    def end(self):
        shutil.rmtree(self.top, ignore_errors=True)


@dataclasses.dataclass(frozen=True)
class Setting:
    """What a script is run with: its arguments, its environment, the programs in PATH, and the compiler's seed."""

    arguments: tuple = ()
    environment: tuple = ()
    programs: str = "plain"
    is_cross: bool = False
    seed: int = 0
    by: str = "port"

    def shown(self):
        if self.by == "lint":
            return "lint:"
        of_env = " ".join(f"{name}={value}" for name, value in self.environment)
        about = f"programs {self.programs}, {'cross, ' * self.is_cross}seed {self.seed}"
        return f"{self.by}: {of_env} ./configure {' '.join(self.arguments)}  ({about})"


def section(log, title):
    return log.partition(f"## {title} ##\n## ")[2].partition("\n## ")[0]


def values_in(text):
    return {name: value.replace("'\\''", "'") for name, value in re.findall(r"(?ms)^(\w+)='((?:[^']|'\\'')*)'$", text)} | {
        name: value for name, value in re.findall(r"(?m)^(\w+)=([^'\n]*)$", text)
    }


def run(room, words, folder, setting):
    path = f"{room.top}/{setting.programs}:{room.top}/given:{room.top}/farm"
    env = {"PATH": path, "LC_ALL": "C", "CONFIG_SHELL": "/bin/sh", "SEEDED_COMPILER": str(setting.seed), **dict(setting.environment)}
    env |= {"FZ_DIR": f"{room.top}/given"}
    env |= {"SEEDED_CROSS": "1"} if setting.is_cross else {}
    how = {"cwd": folder, "env": env, "stdin": subprocess.DEVNULL, "capture_output": True, "text": True, "errors": "replace", "timeout": 120}
    return subprocess.run([*words, *setting.arguments], **how)


def left_by_acrun(room, program, text, setting, names, defined):
    """Runs acrun on a source, and returns what it leaves in its outputs."""
    with room.folder() as folder:
        (folder / "configure.ac").write_text(text)
        put_templates(folder, names, defined)
        made = run(room, [program, "configure"], folder, setting)
        return {"status": made.returncode, "standard error": made.stderr.splitlines()} | outputs(folder)


# The outputs that a source may have.
OUTPUTS = ("values", "src/values", "out/values", "out/deep/values", "config.h", "out/config.h")
# The directories that a template has besides output variables.
DIRECTORIES = ("srcdir", "top_srcdir", "builddir", "top_builddir")


def put_templates(folder, names, defined):
    """Writes the templates: of outputs with these variables, and of a header with these definitions."""
    for file in ("config.h", "values", "src/values"):
        (folder / f"{file}.in").parent.mkdir(exist_ok=True)
        lines = [f"#undef {it}" for it in defined] if file == "config.h" else [f"{it}=@{it}@" for it in (*names, *DIRECTORIES)]
        (folder / f"{file}.in").write_text("".join(f"{it}\n" for it in lines))


def outputs(folder):
    """Returns what is in the outputs of a run."""
    found = {}
    for file in OUTPUTS:
        line = r"(?m)^#define (\w+) ?(.*)$" if file.endswith(".h") else r"(?m)^(\w+)=(.*)$"
        if (folder / file).exists():
            found[f"file {file}"] = "made"
            found |= {f"{file} {name}": value for name, value in re.findall(line, (folder / file).read_text(errors="replace"))}
    return found


# What begins another line of a script's messages although no newline is before it: a check within a check, and one after an AC_CACHE_VAL, which
# prints `(cached)` alone. An answer that is cached stays on the line of its check.
JOINED = re.compile(r"(?m)(\.\.\. |^)((?:\(cached\) )*)(?=checking |configure: |config\.status: )")


def printed_lines(text):
    """Returns the lines of what a script printed, with each message on a line of its own."""
    return JOINED.sub(lambda found: (found[1] and f"{found[1]}\n") + found[2].replace(") ", ") \n"), text).splitlines()


def left(room, body, setting, names, assigned, defined, creates=True):
    """Runs a script, and returns what it leaves: a value for each name. `names` are the variables of the template, `assigned` those of the
    shell, and `defined` the names of the header's template. Without `creates` no outputs are made, which takes a third of the time."""
    with room.folder() as folder:
        (folder / "configure").write_text(body)
        (folder / "configure.ac").write_text("")
        for top in (folder, folder / "build-aux"):
            top.mkdir(exist_ok=True)
            (top / "install-sh").write_text("#!/bin/sh\n")
            (top / "install-sh").chmod(0o755)
            (top / "config.guess").write_text("#!/bin/sh\necho x86_64-pc-linux-gnu\n")
            (top / "config.sub").write_text('#!/bin/sh\necho "$1"\n')
        put_templates(folder, names, defined)
        made = run(room, ["/bin/sh", "./configure", *([] if creates else ["--no-create"])], folder, setting)
        log = (folder / "config.log").read_text(errors="replace") if (folder / "config.log").exists() else ""
        found = {"status": made.returncode, "standard output": printed_lines(made.stdout)}
        # A call that `dnl` joins to `export` gives it the number of a line.
        found["standard error"] = [re.sub(r"^\./configure: (line )?\d+: |^(ac_fn_\w+ )\d+ ", r"\2", it) for it in made.stderr.splitlines()]
        found["standard error"] = [re.sub(r"^(export: )\d+(: bad variable name)$", r"\1\2", it) for it in found["standard error"]]
        cached, values = values_in(section(log, "Cache variables.")), values_in(section(log, "Output variables."))
        found |= {f"cache {name}": value for name, value in cached.items() if not name.startswith("ac_cv_env_")}
        found |= {f"output {name}": value for name, value in values.items() if name != "INSTALL"}
        defined = re.findall(r"(?m)^#define (\w+) ?(.*)$", section(log, "confdefs.h."))
        found |= {f"#{name}": value for name, value in defined}
        found["order of definitions"] = [name for name, _ in defined]
        found |= outputs(folder)
        if (folder / "variables.out").exists():
            all_ = values_in((folder / "variables.out").read_text(errors="replace"))
            found |= {f"variable {name}": all_[name] for name in assigned if name in all_}
        return found


# ---------------------------------------------------------------------------------------------------------------------- what differs


def is_word(name, text):
    return re.search(rf"\b{re.escape(name.partition('(')[0])}\b", text)


@functools.lru_cache
def allowances(all_idioms=False):
    """Returns what macros.txt states to differ: for each macro the patterns of names, and of lines that are printed. Those of macros whose
    idiom is not exact are there if all idioms are written."""
    found = {}
    for entry in macro_table.entries():
        others = {name for name, *_ in entry.other}
        lines = [(names, listed) for names, listed, _ in entry.allowed] + [(others, listed) for listed, _ in entry.differing]
        for names, listed in lines:
            for name in names:
                if all_idioms or name not in others:
                    found.setdefault(name, []).extend(listed)
    return found


def stated(text, all_idioms=False):
    """Returns the patterns of what is stated to differ for the macros of a source."""
    found = []
    for name, listed in allowances(all_idioms).items():
        if is_word(name, text):
            firsts = {*re.findall(rf"\b{re.escape(name.partition('(')[0])}\(\[?(\w+)", text)}
            found += [it.replace("$1", first) for it in listed for first in (firsts if "$1" in it else [""])]
    return found


# What docs/commands.md states of all idioms that are not exact.
OF_IDIOMS = (
    "commands",
    "Its messages and the order of definitions may differ. It sets only those cache variables of the macro that it names. "
    "- CPP, GREP and EGREP, which a macro looks for on its way, may not be output variables after it.",
)
# What it states of the variables that idioms keep a value in meanwhile.
OF_MEANWHILE = ("commands", "A variable in which the text keeps a value meanwhile stays set: its name begins with `acrun_` or ends in `_before`")
MEANWHILE = re.compile(r"variable (acrun_\w+|\w+_before)$")
ON_THE_WAY = re.compile(r"(output|(\w+/)*values) (CPP|E?GREP)$")


def of_idioms(found, ported):
    """Returns the differences without those that are stated of all idioms that are not exact. `ported` is the script of what port writes."""
    said(*OF_IDIOMS)
    is_printed = re.compile(r"standard |order of definitions$")
    unset = {name for name, (_, after) in found.items() if name.startswith("cache ") and after is None and not is_word(name[6:], ported)}
    unset |= {name for name, (_, after) in found.items() if ON_THE_WAY.match(name) and is_missing(after)}
    unset |= {name for name, (before, after) in found.items() if name.startswith("variable ") and before is None and after == ""}
    return {name: it for name, it in found.items() if not is_printed.match(name) and name not in unset}


def of_meanwhile(found):
    """Returns the differences without those of variables that keep a value meanwhile."""
    said(*OF_MEANWHILE)
    return {name: it for name, it in found.items() if not (MEANWHILE.match(name) and it[0] is None)}


def stop_alike(before, after):
    """Returns whether two runs stop by the same error. What each has left by then goes by the order of definitions, which may differ."""
    errors = [[it for it in run["standard error"] if it.startswith("configure: error: ")] for run in (before, after)]
    return before["status"] == after["status"] != 0 and errors[0] == errors[1] != []


def of_statements(found):
    """Returns the differences without those that are stated of statements of the shell, which --idioms rewrites."""
    for it in (OF_EXIT, OF_UNSET, OF_EQUALS):
        said(*it)
    unset = {name for name, (before, after) in found.items() if name.startswith("variable ") and before is None and after == ""}
    front = "standard error: + configure: error: "
    told = {f"standard output: - {name.removeprefix(front)}" for name in found if name.startswith(front) and is_said(*OF_ECHO_EXIT)}
    return {name: it for name, it in found.items() if not OF_STATEMENTS.match(name) and name not in unset | told}


# What docs/commands.md states of the lines that --idioms writes below AC_PROG_CC.
OF_SETUP = ("commands", "they set CFLAGS to `-g -O2` if it is empty")
OF_HEADERS = ("commands", "Flags that the source sets below AC_PROG_CC don't count for these headers")
OF_STANDARD = ("commands", "and define STDC_HEADERS, unless an AC_DEFINE or AC_DEFINE_UNQUOTED does in such a place")


def of_setup(found, ported):
    """Returns the differences without the definition that is stated of the lines below AC_PROG_CC. `ported` is what port writes."""
    said(*OF_STANDARD)
    if "in place of STDC_HEADERS: " in ported:
        found = {name: it for name, it in found.items() if name != "#STDC_HEADERS" or it != (None, "1")}
    return found


def differences(before, after):
    """Returns the names in which two runs differ, each with both values."""
    found = {}
    for name in sorted({*before, *after}):
        one, other = before.get(name), after.get(name)
        if one == other:
            continue
        if name.startswith("standard "):
            for line in difflib.ndiff(one or [], other or []):
                if line[0] in "-+":
                    found[f"{name}: {line}"] = ("", "")
        else:
            found[name] = (one, other)
    return without_repeats(found)


def without_repeats(found):
    """Drops what says again what another name says."""
    for file in OUTPUTS:
        if f"file {file}" in found:
            found = {name: it for name, it in found.items() if not name.startswith(f"{file} ")}
    first = {"output": ["values "], "config.h": ["#"], "out/config.h": ["#"], "variable": ["values ", "output ", "cache "]}
    first |= {file: ["values "] for file in OUTPUTS if file.endswith("/values")}
    for name in list(found):
        kind, _, rest = name.partition(" ")
        if any(found.get(f"{it}{rest}") == found[name] for it in first.get(kind, [])):
            del found[name]
    if any(name.startswith(("#", "order")) for name in found):
        found = {name: it for name, it in found.items() if name.split(" ")[-1] != "DEFS"}
    order = "order of definitions"
    if order in found and sorted(found[order][0] or []) != sorted(found[order][1] or []):
        del found[order]
    return found


def is_stated(name, patterns, before=None):
    """Returns whether a difference is one of those that are stated. A pattern `NAME=VALUE` is of a name with such a value before port."""
    if name == "order of definitions":
        return False
    if name.startswith("standard "):
        return any(fnmatch.fnmatchcase(name.split(": ", 1)[1][2:], it) for it in patterns if " " in it or not it)
    plain = name.lstrip("#").split(" ")[-1]
    for pattern in patterns:
        wanted, has_value, value = pattern.partition("=") if re.match(r"[\w*?]+=", pattern) else (pattern, "", "")
        if fnmatch.fnmatchcase(plain, wanted) and (not has_value or fnmatch.fnmatchcase(str(before), value)):
            return True
    return False


def template_names(body):
    """Returns the output variables of a script."""
    found = re.search(r"(?s)ac_subst_vars='(.*?)'", body)
    return sorted({*(found[1].split() if found else []), "INSTALL", "MKDIR_P"} - {"LTLIBOBJS", "LIBOBJS"})


# The cache variables of what Autoconf looks for by itself.
OF_DEFAULT_INCLUDES = re.compile(r"ac_cv_header_(stdio|stdlib|string|inttypes|stdint|strings|sys_stat|sys_types|unistd)_h$")

# What docs/differences.md states of acrun, and the names that it is said of. Each sentence has to be there.
OF_LANGUAGE = (
    ("HAVE_STDINT_H, HAVE_UNISTD_H and their kin are defined only if AC_CHECK_HEADERS names the header",
     r"config\.h (HAVE_(STDIO|STDLIB|STRING|INTTYPES|STDINT|STRINGS|SYS_STAT|SYS_TYPES|UNISTD)_H|STDC_HEADERS)"),
    ("SHELL, PATH_SEPARATOR, OBJEXT, EXEEXT, LIBOBJS, ECHO_N and its kin, `build_alias` and its kin, `program_transform_name`, `ac_ct_CC`, and "
     "the variables that begin with `abs_` are not output variables",
     r"values (SHELL|PATH_SEPARATOR|OBJEXT|EXEEXT|ECHO_[NCT]|(build|host|target)_alias|program_transform_name|ac_ct_CC)"),
    ("Nor are CPP, GREP and EGREP, which Autoconf's checks look for on their way, nor DEFS without a header", r"values (CPP|E?GREP|DEFS)"),
    ("PACKAGE_URL of a GNU package is empty by default too", r"(values|config\.h) PACKAGE_URL"),
)

# What docs/differences.md states of AC_INIT with an empty name and version, and what acrun then leaves.
OF_INIT = (
    "differences",
    "`AC_INIT([], [])` leaves a blank in PACKAGE_STRING, and `docdir` ends in `${PACKAGE_TARNAME}`. In Autoconf PACKAGE_STRING is empty, and "
    "`docdir` ends in `${PACKAGE}`",
)
INIT_LEAVES = {"values PACKAGE_STRING": " ", "config.h PACKAGE_STRING": '" "', "values docdir": "${datarootdir}/doc/${PACKAGE_TARNAME}"}

# What docs/commands.md states of `-a` and `-o`, so that no source has such a test of an unquoted variable of no or several words.
OF_JOINTS = (
    "commands",
    "If an unquoted variable is empty or has a blank, the whole `test` is an error for a shell, and after `port` only its part of it.",
)

# What docs/language.md states of an unquoted variable, so that no source with idioms that differ has one in a test.
OF_WORDS = ("language", "A variable is never split into fields")

# What docs/differences.md states of a test whose unquoted variable is empty, which may be an error for a shell, as its lines say.
OF_TESTS = ("differences", "If an unquoted variable is empty, it is an empty word of a test. A shell drops it.")
TEST_ERROR = re.compile(r"\b(test|\[): .*(unexpected operator|argument expected|unknown operand|too many arguments)")

# What docs/commands.md states of `exit`, of `unset`, so that no source with it has `${v2-none}`, and of `==` and `-eq`, which are errors for a
# shell that has no `==` and for a word that is not a number. What `echo` prints stays as it is, since no setting has -q.
OF_EXIT = ("commands", "An `exit` with a digit other than 0 becomes AC_MSG_ERROR, which also prints an error")
OF_UNSET = ("commands", "An `unset` of one variable becomes an assignment of nothing, which `${name-word}` can tell apart")
OF_EQUALS = ("commands", "A shell without `==` takes a test with it for false, and `-eq` takes 01 for 1")
OF_ECHO_EXIT = ("commands", "`echo MESSAGE; exit STATUS` becomes AC_MSG_ERROR, which prints the message as an error")
OF_STATEMENTS = re.compile(r"standard error: (\+ configure: error: .*|- (test|\[): .*(unexpected operator|Illegal number: .*))$")

# What docs/differences.md states of variables that only the fourth argument of AC_RUN_IFELSE makes output variables.
OF_CROSS = ("differences", "If only that argument makes a name an output variable, `@NAME@` stays in a template")

# What docs/how-it-runs.md states of a source without AC_PROG_CC, so that acrun is given none.
OF_COMPILER = ("how-it-runs", "linked and CC has no word, the run prints `configure: error: no acceptable C compiler found in $PATH`")

# What docs/differences.md states of `dnl`. So it follows calls alone, and acrun is given no source in which it follows one whose text doesn't
# end in a newline.
OF_DNL = ("differences", "A line that `dnl` drops counts as a newline. Autoconf joins what is before it with the next line")

# What docs/differences.md states of variables that the check of a compiler sets in Autoconf.
OF_GIVEN = ("differences", "If an argument or the environment gives OBJEXT or EXEEXT a value, AC_SUBST writes that value")

# What docs/differences.md states of the variables that a script sets, so that acrun is given no source that reads one which it doesn't set.
OF_SCRIPT = ("differences", "`$PATH_SEPARATOR` and other variables of a generated script are ordinary variables.")
READS_SCRIPT = re.compile(r"\$\{?(GCC|PATH_SEPARATOR|ac_cv_c_compiler_gnu|ac_cv_prog_cc_g)\b")

# What docs/differences.md states of the variables of Autoconf's checks, so that no source keeps a value in one.
OF_KEEPERS = ("differences", "Autoconf's checks keep values in variables of their own, such as `ac_save_CFLAGS`.")

# What docs/commands.md states of the status of a call, and what reads it.
OF_STATUS = ("commands", "The value of `$?` after a call that is rewritten may be another one")
READS_STATUS = re.compile(r"(?m)\b(\w+)=\$\?")

# What docs/differences.md states of the headers of the default includes, if the source has changed the flags before it names one.
OF_EARLY = ("differences", "Such a check has the flags of its place; Autoconf asks for all these headers at its first check with default includes")
EARLY = re.compile(r"config\.h HAVE_(STDIO|STDLIB|STRING|INTTYPES|STDINT|STRINGS|SYS_STAT|SYS_TYPES|UNISTD)_H$")
SETS_FLAGS = re.compile(r"(?m)^[ \t]*(CFLAGS|CPPFLAGS)=")

# What docs/differences.md states of the lines of a value.
OF_LINES = ("differences", "Autoconf drops the blanks at the ends of all lines of a script")


@functools.lru_cache
def is_said(document, sentence):
    """Returns whether a document states something."""
    return sentence in " ".join((HERE.parent / f"docs/{document}.md").read_text().split())


def said(document, sentence):
    """Ends the script if a document doesn't state what is left out here."""
    if not is_said(document, sentence):
        sys.exit(f"docs/{document}.md does not say: {sentence}")


def unsaid():
    """Yields a line for each sentence that is looked for here, and that its document doesn't have."""
    stated_once = (OF_IDIOMS, OF_MEANWHILE, OF_PACKAGE, OF_AUTOMAKE, OF_INIT, OF_JOINTS, OF_WORDS, OF_TESTS, OF_EXIT, OF_UNSET, OF_EQUALS, OF_COMPILER, OF_DNL, OF_GIVEN, OF_LINES, OF_STATUS, OF_CROSS, OF_SETUP, OF_HEADERS, OF_STANDARD,
                   OF_KEEPERS, OF_SCRIPT, OF_EARLY)
    if not is_commented(*OF_SET_TO_NOTHING):
        yield f"crates/lint_macros/macros.txt does not say of {OF_SET_TO_NOTHING[0]} what tools/fuzz_exact.py looks for: {OF_SET_TO_NOTHING[1]}"
    for document, sentence in (*stated_once, *(("differences", sentence) for sentence, _ in OF_LANGUAGE)):
        if not is_said(document, sentence):
            yield f"docs/{document}.md does not say what tools/fuzz_exact.py looks for: {sentence}"
    for key in OF_SOURCE:
        if key not in word_table.entries() or not word_table.entries()[key].message:
            yield f"crates/lint_table/words.txt has no message that tools/fuzz_exact.py looks for: {key}"


@functools.lru_cache
def of_language():
    """Returns the pattern of the names that docs/differences.md states to differ."""
    for sentence, _ in OF_LANGUAGE:
        said("differences", sentence)
    return re.compile("|".join(f"(?:{pattern})$" for _, pattern in OF_LANGUAGE))


def is_missing(value):
    """Returns whether a run has not defined a name, left a variable of a template as it is, or given it no value or an empty text, as it
    does if a statement that is not reached declares it."""
    return value in (None, "", '""') or re.fullmatch(r"@\w+@", value)


def is_of_language(name, after):
    """Returns whether docs/differences.md states that acrun leaves a name so."""
    said(*OF_INIT)
    return INIT_LEAVES.get(name) == after if name in INIT_LEAVES else of_language().match(name) and is_missing(after)


def beside_acrun(room, program, text, setting, names, defined, before):
    """Returns what acrun leaves otherwise than the script of Autoconf did."""
    mine = left_by_acrun(room, program, text, setting, names, defined)
    kept = {name: it for name, it in before.items() if name.startswith(("status", "file ", *(f"{it} " for it in OUTPUTS)))}
    if mine["status"] == kept["status"] != 0:
        return {}
    kept["standard error"] = mine["standard error"] if mine["status"] == kept["status"] else before["standard error"]
    found = differences(kept, mine)
    for it in (OF_GIVEN, OF_LINES, OF_EARLY):
        said(*it)
    given = {f"values {name}" for name in ("OBJEXT", "EXEEXT") for it in (*setting.arguments, *dict(setting.environment)) if it.partition("=")[0] == name}

    if "values PACKAGE_STRING" in found:
        found = {name: it for name, it in found.items() if name.split(" ")[-1] != "DEFS"}

    def is_told(name, value):
        plain = re.sub(r"^(\w+/)+", "", name)
        return plain in given or is_of_language(plain, value)

    def has_more_blanks(before, after):
        return isinstance(before, str) and isinstance(after, str) and re.sub(r"(?m)[ \t]+$", "", after) == before

    def is_early(name):
        return EARLY.search(name) and SETS_FLAGS.search(text)

    return {name: it for name, it in found.items() if not is_told(name, it[1]) and not has_more_blanks(*it) and not is_early(name)}


def reads_script(text):
    """Returns whether a source reads a variable that a script of Autoconf sets, and that the source doesn't set."""
    said(*OF_SCRIPT)
    return any(not re.search(rf"\b{name}=", text) for name in READS_SCRIPT.findall(text))


def joins_dnl(text):
    """Returns whether a `dnl` follows a call that makes Autoconf write a command without a newline after it."""
    for call in re.finditer(r"\bAC_(?:COMPILE|LINK|PREPROC|RUN)_IFELSE\(|\bAC_TRY_\w+\(|\bAC_TEST_PROGRAM\(", text):
        depth, at = 1, call.end()
        while depth and at < len(text):
            depth += {"(": 1, ")": -1}.get(text[at], 0)
            at += 1
        if re.match(r"[ \t]*dnl\b", text[at:]):
            return True
    return False


def without_cross(text):
    """Returns a text without the fourth argument of each AC_RUN_IFELSE."""
    kept, at = "", 0
    for call in re.finditer(r"\bAC_RUN_IFELSE\(", text):
        parens, brackets, commas, start, end = 1, 0, 0, None, call.end()
        while parens and end < len(text):
            brackets += {"[": 1, "]": -1}.get(text[end], 0)
            parens += {"(": 1, ")": -1}.get(text[end], 0) if not brackets else 0
            commas += text[end] == "," and parens == 1 and not brackets
            start = end if commas == 3 and start is None else start
            end += 1
        if start is not None and call.start() >= at:
            kept, at = kept + text[at:start], end - 1
    return kept + text[at:]


def is_of_cross(name, after, ported):
    """Returns whether docs/differences.md states that a variable of a template stays so, as only the argument for cross compiling names it."""
    said(*OF_CROSS)
    plain, rest = re.sub(r"^(\w+/)*values ", "", name), without_cross(ported)

    def is_made_there(variable):
        return not re.search(rf"(?<![${{]){variable}\b", rest)

    copied = re.search(rf'(?m)^{plain}="\$(\w+)"$', ported)
    return after == f"@{plain}@" and is_made_there(plain) or after == "" and bool(copied and is_made_there(copied[1]))


def is_for_acrun(setting):
    """Returns whether acrun takes this setting as a script does: it knows no `--host`, and adds no flags if CFLAGS is not given."""
    return any(it.startswith("CFLAGS=") for it in setting.arguments) and not any(it.startswith("--host") for it in setting.arguments)


def candidates(bodies, text):
    """Returns the names that a header's template has: those that the scripts define, and one for each word of a source."""
    words = re.findall(r"[\w./]+", text)
    return sorted({*re.findall(r"#define (\w+)", "".join(bodies)), *(f"HAVE_{re.sub(r'[^A-Za-z0-9]', '_', it).upper()}" for it in words)})


# What macros.txt states of AS_VAR_SET_IF, and docs/commands.md of the name and the version of AC_INIT.
OF_SET_TO_NOTHING = ("AS_VAR_SET_IF", "a variable that is set to nothing counts as one that is not set")
OF_PACKAGE = ("commands", "AC_INIT gets this name and this version below such a line, if it has none that acrun can keep")
OF_AUTOMAKE = ("commands", "If AM_INIT_AUTOMAKE, outside of other calls, has a name and a version that are plain words, AC_INIT without a version gets both")


def is_commented(name, words):
    """Returns whether the comment that `port` writes for a macro states something."""
    return any(it == name and words in comment for entry in macro_table.entries() for it, _, _, comment in entry.other)


def as_stated(text, ported, switches):
    """Returns a source with what the comments of `port --idioms` state put in: a macro that tests a variable tests whether it has a value,
    AC_INIT has the name and the version that are written into it, and what sets CFLAGS and looks for the default headers is after AC_PROG_CC.
    What such a source leaves has to be left after `port`."""
    if "--idioms" not in switches:
        return text
    if "AS_VAR_SET_IF" in text and not is_commented(*OF_SET_TO_NOTHING):
        sys.exit(f"crates/lint_macros/macros.txt does not say of {OF_SET_TO_NOTHING[0]}: {OF_SET_TO_NOTHING[1]}")
    text = re.sub(r"\bAS_VAR_SET_IF\(\[?(\w+)\]?", r"AS_IF([test ${\1:+y}]", text)
    given = [it.partition("=")[2].split(",") for it in switches if it.startswith("--package=")]
    for it in (OF_PACKAGE, OF_AUTOMAKE, OF_SETUP, OF_HEADERS):
        said(*it)
    lines = "\nif test -z \"$CFLAGS\"; then CFLAGS='-g -O2'; fi" if "in place of CFLAGS: " in ported else ""
    lines += "\nAC_CHECK_INCLUDES_DEFAULT" if "in place of AC_INCLUDES_DEFAULT: " in ported else ""
    text = re.sub(r"(?m)^( *AC_PROG_CC\b.*)$", lambda found: found[0] + lines, text, count=1)
    return exact_forms.named(text, ported, given[0] if given else None)


def compared(room, text, ported, settings, switches, program=""):
    """Returns what differs between the scripts of a source and of what port makes of it with these switches: a setting, names and both
    values. With a program, acrun is run on the latter too, and held against the script of the source."""
    bodies = [script(END.sub(lambda found: SAVE + found[0], it, count=1)) for it in (as_stated(text, ported, switches), ported)]
    if bodies[0] is None:
        return "refused"
    if bodies[1] is None:
        return [(Setting(), {"Autoconf refuses the output": ("", "")})]
    names = template_names(bodies[0])
    assigned = sorted({*re.findall(r"\b([A-Za-z_]\w*)=", text + ported), *(["INSTALL"] if "AC_PROG_INSTALL" in text else [])})
    has_idioms = "--idioms" in switches
    patterns, found, defined = stated(text, has_idioms), [], candidates(bodies, ported)
    has_other_idiom = has_idioms and any(is_word(name, text) for name in (*(it for it, *_ in others()), *exact_forms.LIBRARY_NAMES))
    for setting in settings:
        by_acrun = program and is_for_acrun(setting) and not joins_dnl(text) and not reads_script(ported)
        creates = bool(by_acrun) or setting.seed % 4 == 0
        if bodies[0] == bodies[1] and not by_acrun:
            continue
        runs = [left(room, it, setting, names, assigned, defined, creates) for it in dict.fromkeys(bodies)]
        runs = [runs[0], runs[-1]]
        differs = {} if has_other_idiom and stop_alike(*runs) else differences(*runs)
        differs = of_idioms(differs, bodies[1]) if has_other_idiom else of_statements(differs) if has_idioms else differs
        differs = of_meanwhile(of_setup(differs, ported)) if has_idioms else differs
        said(*OF_STATUS)
        read = {f"{kind} {name}" for name in READS_STATUS.findall(text) for kind in ("variable", "output", "values")}
        differs = {name: it for name, it in differs.items() if not is_stated(name, patterns, it[0]) and name not in read}
        if any("yntax error" in it for it in runs[0]["standard error"]):
            return "refused"
        if differs:
            found.append((setting, differs))
        said(*OF_TESTS)
        if by_acrun and not any(TEST_ERROR.search(it) for it in runs[1]["standard error"]):
            differs = beside_acrun(room, program, ported, setting, names, defined, runs[1])
            differs = {name: it for name, it in differs.items() if not is_of_cross(name, it[1], ported)}
            if differs:
                found.append((dataclasses.replace(setting, by="acrun"), differs))
    return found


def held(program, room, text, ported, is_read, settings, switches):
    """Returns what is wrong with what port made of a source with these switches."""
    said(*OF_COMPILER)
    has_compiler = re.search(r"(?m)^AC_PROG_CC$", text)
    found = compared(room, text, ported, settings, switches, program if is_read and has_compiler else "")
    return found if found == "refused" or is_read else written_errors(program, text, ported) + found


def port(program, text, *switches):
    """Returns what port makes of a source, and whether acrun reads that."""
    made = subprocess.run([program, "port", *switches, "-"], input=text, capture_output=True, text=True, errors="replace")
    return made.stdout, made.returncode == 0


# ---------------------------------------------------------------------------------------------------------------------- sources

HEADERS = ("zlib.h", "sys/time.h", "foo.h", "unistd.h")
FUNCTIONS = ("getcwd", "strdup", "foo", "pow")
TEXTS = ("a text", "[a text]", "two words here", "[it, here]", "[$enable_foo is it]")
INCLUDES = ("", "#include <stdio.h>", "#include <time.h>\n#include <zlib.h>")
BODIES = ("puts (\"\");", "struct tm t[2]; t[0].tm_sec = 0;", "return foo (1, 2);", "char c = '\\\\'; (void) c;")
PROGRAMS = ("int main (void) { return 0; }", "#include <stdio.h>\nint main (void) { return puts (\"a[1]\") < 0; }")
# Arguments of macros that have an exact idiom, or had one: for each place texts, or the word that `argument` reads.
ARGUMENTS = {
    "AC_CACHE_VAL": [("fz_cv_one", "fz_cv_two", "ac_cv_fz"), "commands"],
    "AC_CHECKING": [TEXTS],
    "AC_VERBOSE": [TEXTS],
    "AS_MESSAGE": [TEXTS],
    "AC_WARN": [TEXTS],
    "AC_MSG_FAILURE": [TEXTS],
    "AC_ERROR": [TEXTS],
    "AC_CHECK_TYPE(default)": [("size_t", "u_int16_t", "foo_t"), ("unsigned short", "int", "[uint16_t]")],
    "AC_CHECK_DECLS_ONCE": [("getc_unlocked", "[EOF, stdin]")],
    "AC_CHECK_FUNCS_ONCE": [("strdup mmap", "getcwd", "foo\npow")],
    "AC_CHECK_HEADERS_ONCE": [("unistd.h sys/time.h", "zlib.h")],
    "AC_CHECK_TOOL": [("STRIP", "RANLIB", "MYNM"), ("strip", "ranlib", "nm", "none-such"), (":", "strip", "")],
    "AC_PATH_TOOL": [("STRIP", "NM", "MYAR"), ("strip", "nm", "ar", "none-such")],
    "AC_COMPILE_CHECK": [("puts",), INCLUDES, BODIES, "action", "action"],
    "AC_CONFIG_HEADER": [("config.h",)],
    "AC_FUNC_CHECK": [FUNCTIONS],
    "AC_HAVE_FUNCS": [("getcwd strdup", "foo", "pow\nfoo")],
    "AC_HAVE_HEADERS": [("sys/time.h termios.h", "zlib.h")],
    "AC_HEADER_CHECK": [HEADERS],
    "AC_PREFIX_DEFAULT": [("/opt/greet", "/usr")],
    "AC_PROGRAMS_CHECK": [("AWK", "TOOL"), ("gawk mawk awk", "strip none-such", "none-such")],
    "AC_PROGRAM_CHECK": [("HAVE_AWK", "TOOL"), ("awk", "none-such"), ("yes", "it"), ("no", "")],
    "AC_PROGRAM_PATH": [("SED", "TOOL"), ("sed", "none-such")],
    "AC_REVISION": [("$Revision: 1.2 $", "1.7", "[$Revision: 1.2 $]")],
    "AC_TRY_COMPILE": [INCLUDES, BODIES, "action", "action"],
    "AC_TRY_LINK": [INCLUDES, BODIES, "action", "action"],
    "AC_TRY_LINK_FUNC": [FUNCTIONS, "action", "action"],
    "AC_TRY_LINK_FUNC(main)": [("main", "[main]"), "action", "action"],
    "AC_TRY_RUN": [PROGRAMS, "action", "action", "action"],
    "AC_TEST_PROGRAM": [PROGRAMS, "action", "action", "action"],
    "AC_TRY_CPP": [("#include <stdio.h>", "#include <foo.h>\n#ifndef FOO\n#error none\n#endif"), "action", "action"],
    "AS_VAR_COPY": [("copy", "v1"), ("level", "enable_foo", "v2")],
    "m4_pattern_allow": [("^AC_FOO$", "^fz_")],
    "AC_DIAGNOSE": [("obsolete", "syntax"), TEXTS],
}
# More texts of places, in sources of the highest numbers.
NEWEST_ARGUMENTS = {
    "AC_CHECK_TYPE(default)": [("x.t", "struct foo"), ("3_t", "__t", "_a3_t", "x*_t", "long long")],
    "AC_MSG_FAILURE": [("it  ends", "a\nb")],
    "AC_PROGRAM_CHECK": [("SED",), ("strip", "sed"), ("yes it is", "[yes ]", "[ yes]"), ("[no ]", "$v1")],
    "AC_TRY_LINK_FUNC": [("main", "[main]", "[[main]]"), "action", "action"],
    "AS_VAR_COPY": [("v2",), ("v1",)],
}
MEMBERS = ("struct stat.st_blksize", "struct tm.tm_zone", "struct foo.bar")
SIZED = ("long", "[void *]", "size_t", "foo_t", "[unsigned int]", "struct foo", "[long long]")
# The same of macros with an idiom that is not exact, by the name that the table has for them.
ARGUMENTS_OF_OTHERS = {
    "AC_CHECK_MEMBER": [MEMBERS, "action", "action"],
    "AC_CHECK_MEMBER(includes)": [MEMBERS, "action", "action", ("[#include <sys/stat.h>]", "[[#include <time.h>\n#include <zlib.h>]]")],
    "AC_CHECK_MEMBERS": [(*MEMBERS, "[struct stat.st_rdev, struct tm.tm_zone]")],
    "AC_CHECK_MEMBERS(actions)": [(*MEMBERS, "[struct stat.st_rdev, struct tm.tm_zone]"), "action", "action"],
    "AC_CHECK_MEMBERS(includes)": [(*MEMBERS, "[struct tm.tm_zone, struct foo.bar]"), "action", "action", ("[#include <sys/stat.h>]", "[[#include <time.h>]]")],
    "AC_CHECK_SIZEOF": [SIZED, ("4", "")],
    "AC_SIZEOF_TYPE": [SIZED],
    "AC_CHECK_ALIGNOF": [SIZED],
    "AC_CHECK_TOOLS": [("STRIP", "RANLIB", "MYNM"), ("strip nm", "none-such ranlib", "none-such"), (":", "strip", "")],
    "AC_CHECK_TARGET_TOOL": [("STRIP", "MYNM"), ("strip", "nm", "none-such"), (":", "")],
    "AC_CHECK_TARGET_TOOLS": [("STRIP", "MYNM"), ("strip nm", "none-such ranlib"), (":", "")],
    "AC_CONFIG_LIBOBJ_DIR": [("lib", "src")],
    "AC_PROG_CXX": [("g++", "[clang++ g++]")],
    "AC_COPYRIGHT": [("[(C) 2026 a firm, all of it]", "[Copyright]")],
    "AC_LIBOBJ": [("getline", "foo")],
    "AC_LIBSOURCE": [("getline.c",)],
    "AC_LIBSOURCES": [("[getline.c, foo.c]",)],
    "AC_REPLACE_FUNCS": [FUNCTIONS],
    "AH_BOTTOM": [TEXTS],
    "AH_TEMPLATE": [("FOO", "BAR"), TEXTS],
    "AH_TOP": [TEXTS],
    "AH_VERBATIM": [("FOO", "BAR"), ("[#undef FOO]",)],
    "AS_EXIT": [("1", "3")],
    "AS_UNSET": [("v1", "level")],
    "AS_VAR_SET_IF": [("fz_none", "PACKAGE_NAME"), "action", "action"],
    "m4_pattern_forbid": [("^FZ_NEVER",)],
}
VALUES = ("yes", "no", "xyes", "/opt", "NONE", '""')
ONE_WORD = ('"$enable_foo"', '"x$enable_foo"', '"$v1"', "x$with_bar", '"$LIBS"', '"$prefix"', '"${v1}"', "yes", '"$a b"')
CASED = ("$enable_foo", '"$with_bar"', "$prefix", '"$v1"', "x$v2")
SET = ("yes", "b", "1", '"$v1 c"', "$prefix", "", "$enable_foo")
FLAGS = ('"$LIBS -lz"', '"-ansi $CFLAGS"', "-DX")
# Statements that acrun does not read.
LEFT_AS_IS = (
    "for i in a b; do\n  v1=$i\ndone", "v2=`echo b`", "v1=$(echo c)", "echo a text", "cat <<EOT\nif a; then b; fi\nEOT", "v1=$?", "unset v2",
    "MY_CHECK([level])", "MY_CHECK(v1)", "v1=${v2-none}",
)
LAST = (
    "AC_CONFIG_FILES([values])\nAC_OUTPUT",
    "AC_CONFIG_FILES([values src/values])\nAC_OUTPUT",
    "AC_OUTPUT([values])",
    "AC_OUTPUT(values \\\n src/values)",
    "AC_CONFIG_FILES([values])\nAC_OUTPUT()",
)
# Variables that acrun does not set, or not where Autoconf's checks look for them on their way, as docs/differences.md states.
UNSET = ("OBJEXT", "EXEEXT", "SHELL", "CPP", "GREP", "EGREP")
READ = ("prefix", "exec_prefix", "bindir", "LIBS", "CFLAGS", "CPPFLAGS", "CC", "enable_foo", "with_bar", "PACKAGE_NAME")
GIVEN = {
    "INSTALL": ("myinstall", "myinstall -c"), "INSTALL_DATA": ("myinstall -m 600",), "INSTALL_PROGRAM": ("myinstall -s",),
    "INSTALL_SCRIPT": ("myinstall -x",), "MKDIR_P": ("mymkdir -p",), "RANLIB": ("myranlib", "myranlib -x"), "STRIP": ("mystrip",),
    "NM": ("mynm",), "MYNM": ("mynm",), "MYAR": ("myar",), "AWK": ("myawk",), "SED": ("mysed",), "GREP": ("mygrep",), "CPP": ("mycpp",),
    "LN_S": ("cp -p",), "TOOL": ("strip",), "EXEEXT": (".exe",), "OBJEXT": ("obj",), "LIBS": ("-lgiven",), "CPPFLAGS": ("-Igiven",),
    "LDFLAGS": ("-Lgiven",), "CC": ("cc", "gcc -ansi"), "prefix": ("/env",), "v1": ("set",), "v2": ("yes",), "level": ("3",),
    "HAVE_AWK": ("maybe",), "copy": ("before",), "ac_cv_func_getcwd": ("no",), "ac_cv_header_zlib_h": ("yes",),
    "ac_cv_prog_RANLIB": ("cached-ranlib",), "ac_cv_path_SED": ("/cached/sed",), "fz_cv_one": ("cached",),
}


def exact():
    """Returns the macros that have an exact idiom, each with its entry and the numbers of arguments."""
    return [(name, entry, least, most) for entry in macro_table.entries() for name, least, most in entry.exact]


@functools.lru_cache
def others():
    """Returns the same of the macros that have another idiom, if Autoconf itself has them."""
    rows = [(name, entry, least, most) for entry in macro_table.entries() for name, least, most, _ in entry.other]
    asked = "".join(f"m4_ifdef([{name.partition('(')[0]}], [# is {name.partition('(')[0]}])\n" for name, *_ in rows)
    known = {*re.findall(r"# is (\w+)", script(f"AC_INIT([fuzz], [1.0])\n{asked}AC_OUTPUT\n"))} - {*exact_forms.LIBRARY_NAMES}
    return [row for row in rows if row[0].partition("(")[0] in known]


# From this number on sources have the forms of NAMED and of INIT too. Those of lower numbers stay as they were.
LATER = 1_000_000
# From this number on also those of NEWER_SHELL, and negated operands of `-a` and `-o`.
NEWER = 2_000_000
# From this number on also blanks after arguments, NEWEST_ARGUMENTS, and the macros of NEWEST_NAMES.
NEWEST = 3_000_000
NEWEST_NAMES = ("AC_TRY_LINK_FUNC(main)",)
# From this number on also macros without parameters that the source defines, and that it calls on lines of their own.
DEFINING = 4_000_000
# From this number on also AC_PATH_PROGS without a path, and macros that are plain words.
WRITING = 5_000_000
# From this number on also `for` over words, assignments with a word if they are empty, and lines that m4 joins to a comment.
LOOPING = 6_000_000
# From this number on a source has fewer of all these, and the kinds of exact_forms.
FORMING = 7_000_000
LOOP_WORDS = ("a", "b.c", "-lz", "x/y", '""', '"two words"', '"d"', "e=f", "+g", "yes")
LOOP_BODIES = (
    'v1="$v1 ${0}"', 'if test "${0}" = yes; then\n  v2=yes\nfi', "AC_MSG_NOTICE([now ${0}])", 'LIBS="$LIBS ${0}"', 'test -n "${0}" && v2=${0}',
    "case ${0} in\n  a) v1=1 ;;\n  *) v2=${0} ;;\nesac", "AC_TRY_COMPILE([#include <time.h>], [struct tm t;], [v1=${0}], [v2=${0}])", "v2=a v1=${0}",
    'AC_DEFINE_UNQUOTED([{1}], ["${0}"], [a text])', "AC_CACHE_CHECK([for {1}], [fz_cv_{1}], [fz_cv_{1}=${0}])", "{0}=$v1", "AC_CHECK_FUNCS([getcwd])",
    'if test "${0}" = a; then\n  break\nfi', "v2=${{{0}}}x # a note", "dnl a note", "# a note: it's (here",
)
DEFAULTS = ("v1=${v1:-a}", 'v1="${v1:-b/c}"', 'level=${level:-"two words"}', "v2=${v2:-}", "v2=${v2:-$v1}", "v1=${v1-x}", "CFLAGS=${CFLAGS:--g}", "fz_d=${fz_d:-1.0}; v1=$fz_d", 'v1="${v1:-"q"}"')
JOINED_LINES = (
    '[#] dnl a note\nif test -n "$v1"; then v2=joined; fi', '[#] a note dnl\ntest -n "$v1" && v2=joined', "[#] a note dnl\nv1=x && v2=joined",
    "[#] dnl\nfor fz_it in a b; do v2=$fz_it; done", "[#] dnl\ncase $v1 in a) v2=1;; *) v2=2;; esac", '# a note\ndnl # another\nif test -n "$v1"; then v2=after; fi',
    '[#] dnl a note\ndnl one more\nif test -n "$v1"; then v2=joined; fi', "dnl # a note\nv1=y && v2=after",
)
WORD_USES = ("v1={0}", "v2=\"a-{0}.b\"", "v1='{0}' v2=1{0}", "v2={0}\nAC_SUBST([{1}], [$v2])", "v2=\"$v1 {0}\"", "AC_SUBST([{1}], [{0}])",
            "v1=\"$v1-{0}\"", "level={0}", "if test \"$v1\" = {0}; then\n  v2={0}\nfi", "v1={0}x",
            "AC_MSG_NOTICE([[{0}]])", "v1={0} # a note", "# {0}", "AS_IF([test \"$v1\" = {0}], [v2={0}])", "v1={0}-{0} v2=2{0}")
PLAIN_WORDS = ("1.2", "2.0-1", "word", "1.0.3", "7")
TOOLS = ("strip", "nm", "ranlib", "sed", "gawk", "mawk", "no-such_tool", "x.y+z", "grep")
BODIES_OF_MACROS = (
    "v1=plain", "\nv1=\"$v1 b\"\n", "AC_DEFINE([{D}], [1], [a text])", "\nif test \"$v1\" = yes; then\n  AC_DEFINE([{D}], 1, [a text])\nfi\n",
    "\nAC_MSG_CHECKING(for it with ${{CC}})\nAC_CACHE_VAL(fz_cv_{D},\n[\nAC_TRY_COMPILE([#include <time.h>],[struct tm t;],\nfz_cv_{D}=yes,\n"
    "fz_cv_{D}=no)\n])\nAC_MSG_RESULT($fz_cv_{D})\n", "\nAC_TRY_LINK([], [return foo (1, 2);], [v2=yes], [v2=\"no it is\"])\nAC_SUBST([v2])",
    "AC_CACHE_CHECK([for {D}], [fz_cv_{D}],\n  [AC_COMPILE_IFELSE([AC_LANG_PROGRAM([], [[char c[3];]])], [fz_cv_{D}=yes], [fz_cv_{D}=no])])\nv1=$fz_cv_{D}",
    "case $v1 in\n  yes | b) v2=\"a $level\" ;;\nesac", "dnl a note\nlevel=4 # a note\n", "AC_CHECK_HEADERS([zlib.h])\n", "v1=$1", "AC_MSG_NOTICE([v1 is $v1, it's])",
)
# What may be after an argument. Autoconf refuses a blank after the name of a variable, and a newline after a program is an error of its script.
ENDS = ("", "", "", " ", "  ", "\n", "\t", " \n  ")
OF_PROGRAMS = ("AC_PROGRAM_CHECK", "AC_PROGRAMS_CHECK", "AC_PROGRAM_PATH")
INIT = ("AC_INIT", "AC_INIT()", "AC_INIT(configure.ac)", "AC_INIT([configure.ac])", "AC_INIT( configure.ac)dnl a note")
NAMED = (
    "PKG_CONFIG=a", "LT_CURRENT=2", "AX_FLAGS=\"$PKG_CONFIG b\"", "v1=$PKG_CONFIG", "v2=\"${LT_CURRENT}:${AX_FLAGS}\"", "v1=a$LT_CURRENT v2=b",
    "PKG_CONFIG=yes; v1=$PKG_CONFIG", "if test \"$PKG_CONFIG\" = yes; then\nLT_CURRENT=3\nv1=\"$LT_CURRENT\"\nfi",
    "case $LT_CURRENT in\n2) v2=$AX_FLAGS;;\n*) AX_FLAGS=c;;\nesac", "AS_IF([test -n \"$LT_CURRENT\"], [v1=$LT_CURRENT], AX_FLAGS=d)",
    "test -z \"$AX_FLAGS\" && AX_FLAGS=$PKG_CONFIG", "AC_MSG_NOTICE([v1 is $v1, and $PKG_CONFIG])",
)
# Rows of the table whose names are no macros that a source may call anywhere, AC_PROG_CXXCPP, which ends a run without a compiler of C++, and
# AC_EGREP_CPP, whose idiom has another program, so that the compiler's stand-in gives another answer.
NO_CALLS = (
    "AC_OUTPUT(files)", "AC_CONFIG_HEADER", "AC_INIT(file)", "AC_INIT()", "AC_INIT(package)", "AC_INIT(package,file)", "m4_ifdef(AM)",
    "AC_PROG_CXXCPP", "AC_EGREP_CPP(symbol)",
)
# Macros that only sources of the later numbers have.
LATER_NAMES = (
    "AC_DIAGNOSE", "AC_PROG_CXX", "AC_CHECK_TYPE(default)", "AC_STRUCT_ST_BLOCKS", "AC_ST_BLOCKS", "AC_STRUCT_ST_BLKSIZE", "AC_ST_BLKSIZE", "AC_STRUCT_ST_RDEV", "AC_ST_RDEV",
)
# Actions without brackets.
BARE = (
    "AC_DEFINE({0})", "AC_DEFINE({0}, 1, [a text, it])", "AC_MSG_NOTICE(a text)", "AC_DEFINE({0}) v1=yes", "AC_DEFINE_UNQUOTED({0}, \"$v1\")",
    "\n  AC_MSG_WARN([a text, it])\n  AC_DEFINE({0}, [two words])", "AC_DEFINE([{0}], [], [a text])\n",
)
# Statements that port rewrites with --idioms. A shell without `==` takes a test with it for false, and so no word is equal here.
OF_SHELL = (
    "if test \"$v1\" == never; then\n  level=1\nelse\n  level=2\nfi", "AS_IF([test \"$v2\" == never], [level=4], [level=5])",
    "level=3\nif test $level -eq 3; then\n  v1=number\nfi", "level=3\nAS_IF([test \"$level\" -ne 3 && test -n \"$v1\"], [v2=number], [v2=other])",
    "level=2\nif test \"$level\" -ne 3 -a 2 -eq 2; then\n  v1=both\nfi", "if test \"$level\" -eq 3; then\n  v2=three\nfi",
    "if test \"$enable_foo\" = stop; then\n  echo\n  echo stop it\n  exit 3\nfi", "echo", "echo \"\"",
)
# From this number on also definitions of macros that nothing calls, beside what names, calls or makes their names.
UNUSED = 8_000_000
UNUSED_BODIES = (
    "v1=$1", "\nAC_REQUIRE([AC_PROG_AWK])\nv2=\"$1 $2\"\n", "AC_DEFINE([{D}], [$1], [a text])dnl {N}\n", "AC_BEFORE([$0], [AC_PROG_LN_S])AC_SUBST([{D}], [$1])",
    "AS_IF([test \"$v1\" = \"$1\"],\n  [v2=a], [{N}([$2])])", "v1=plain # [it]",
)
NAMING = (
    "dnl {N} is here", "# {N} is here", "v2=1 # {N}", "v2=2 dnl {N}", "{N}([yes])", "m4_ifdef([{N}], [v1=yes])", "AS_IF([:], [\ndnl {N}\nv2=1])",
    "AC_DEFUN([{C}], [$2])\n{C}([\ndnl ], [{N}([b])])", "AC_DEFUN([{C}], [{F}$1])\n{C}([{B}])", "AC_DEFUN([{C}], [\ndnl $1 {N}([no])\n])\n{C}([b\nv1=2])",
    "AS_IF([:], [{F}[]{B}([yes])])", "AC_DEFUN([{C}], [AC_REQUIRE([{N}])v2=3])\n{C}", "v1={N}more",
)
# Statements that port rewrites with --idioms if a document says so.
NEWER_SHELL = (
    (OF_ECHO_EXIT, ("if test \"$v2\" = yes; then\n  echo v2 is set; exit 3\nfi", "if test -n \"$level\"; then\n  v1=4\n  echo \"no $level here\"; exit 1\nfi")),
    (OF_EQUALS, ("test \"$v1\" == never && v2=equal", "if test \"$v1\" != \"b == c\"; then\n  v2=other\nfi",
                 "level=3\ntest \"$level\" -eq 3 || v1=none\nv2=\"$v1\"", "if test \"$v2\" = \"a -eq 3\" || test \"$v1\" == never; then\n  v1=words\nfi")),
)


class Maker(exact_forms.Forms):
    """Makes a source of a number. Its switches of `port` are those that it is given, and those that the source has to have."""

    def __init__(self, number, names=None, switches=(), forms=()):
        self.at = random.Random(number)
        self.is_later, self.is_newer, self.is_newest, self.is_defining = (number >= it for it in (LATER, NEWER, NEWEST, DEFINING))
        self.is_writing, self.is_looping, self.has_unused = number >= WRITING, number >= LOOPING, number >= UNUSED
        self.is_forming, self.switches = number >= FORMING, switches
        self.forms = [*forms] or (self.at.sample(exact_forms.FORMS, 3) if self.is_forming else [])
        self.all_idioms, self.is_mild = switches == IDIOMS, self.is_forming and self.has(0.7)
        rows = [*(others() * 3 if self.all_idioms else []), *exact()]
        left_out = (*NO_CALLS, *(() if self.is_later else LATER_NAMES), *(() if self.is_newest else NEWEST_NAMES))
        self.exact = [it for it in rows if it[0] not in left_out and (not names or it[0] in names)]
        self.count = 0
        self.used = []

    def one(self, texts):
        return self.at.choice(texts)

    def has(self, share):
        return self.at.random() < share

    def fresh(self, front):
        self.count += 1
        return f"{front}{self.count}"

    def quoted(self, text):
        """Returns a text as an argument: in brackets, or bare if it is a plain word."""
        if self.has(0.35) and re.fullmatch(r"[\w./:$-]+( [\w./:$-]+)*", text):
            return text
        return f"[{text}]"

    def argument(self, kind, depth):
        if kind == "commands":
            name = self.used[-1]
            return f"[{name}={self.one(['yes', 'no', '3'])}]" if self.has(0.5) else (
                f"[AC_TRY_COMPILE([#include <time.h>], [struct tm t;], [{name}=yes], [{name}=no])]" if self.has(0.5)
                else f"[if test \"$enable_foo\" = yes; then {name}=a; else {name}=b; fi]")
        if kind == "action":
            return self.action(depth)
        text = self.one(kind)
        self.used.append(text)
        return text if text.startswith("[") else self.quoted(text)

    def action(self, depth):
        if self.has(0.15):
            return ""
        if self.is_later and self.has(0.25):
            return self.one(BARE).format(self.fresh("B"))
        body = self.body(depth + 1, 1 if self.has(0.7) else 2)
        if self.has(0.15) and re.fullmatch(r"\w+=\w+", body):
            return body
        return f"[{body}]"

    def call(self, depth):
        """Returns a call of a macro that has an idiom."""
        name, _, least, most = self.one(self.exact)
        count = self.at.randint(least, most)
        kinds = ARGUMENTS.get(name) or ARGUMENTS_OF_OTHERS.get(name)
        if self.is_newest and name in NEWEST_ARGUMENTS and self.has(0.4):
            kinds = NEWEST_ARGUMENTS[name]
        has_ends = self.is_newest and name in ARGUMENTS and self.has(0.6)
        name = name.partition("(")[0]
        if count == 0:
            return name
        if kinds is None:
            sys.exit(f"{name} has no arguments in ARGUMENTS")
        count = min(count, len(kinds))
        made = f"{name}({', '.join(self.argument(it, depth) + self.end(name, k, has_ends) for k, it in enumerate(kinds[:count]))})"
        if name in ("AC_MSG_FAILURE", "AC_ERROR", "AS_EXIT"):
            return f"if test \"$enable_foo\" = stop; then {made}; fi" if self.has(0.8) else made
        if name == "AC_CACHE_VAL" and self.has(0.5):
            variable = re.match(r"AC_CACHE_VAL\(\[?(\w+)", made)[1]
            return f"AC_MSG_CHECKING([for {self.one(['it', variable])}])\n{made}\nAC_MSG_RESULT([${variable}])"
        return made

    def end(self, name, index, has_ends):
        """Returns what is after an argument."""
        if not has_ends or name in OF_PROGRAMS and index == 0:
            return ""
        return self.one(("", " ")) if name in OF_PROGRAMS and index == 1 else self.one(ENDS)

    def check(self, depth):
        """Returns a check that both read."""
        kind = self.one(["HEADERS", "FUNCS", "HEADER", "FUNC", "LIB", "SEARCH", "TYPES", "DECLS", "PROG", "PROGS", "PATH", "CACHE", "COMPILE"])
        actions = ", ".join(["", self.action(depth), *([self.action(depth)] if self.has(0.5) else [])]) if self.has(0.4) else ""
        if kind == "HEADERS":
            return f"AC_CHECK_HEADERS([{self.one(HEADERS)}{' foo2.h' * self.has(0.3)}]{actions})"
        if kind == "FUNCS":
            return f"AC_CHECK_FUNCS([{self.one(FUNCTIONS)}{' bar' * self.has(0.3)}]{actions})"
        if kind == "HEADER":
            return f"AC_CHECK_HEADER([{self.one(HEADERS)}]{actions})"
        if kind == "FUNC":
            return f"AC_CHECK_FUNC([{self.one(FUNCTIONS)}]{actions})"
        if kind == "LIB":
            return f"AC_CHECK_LIB([{self.one(['m', 'z'])}], [{self.one(FUNCTIONS)}]{actions})"
        if kind == "SEARCH":
            return f"AC_SEARCH_LIBS([{self.one(FUNCTIONS)}], [m z]{actions})"
        if kind == "TYPES":
            return f"AC_CHECK_TYPES([{self.one(['size_t', 'foo_t', 'struct foo'])}]{actions})"
        if kind == "DECLS":
            return f"AC_CHECK_DECLS([{self.one(['getcwd', 'EOF', 'foo'])}]{actions})"
        if kind == "PROG":
            return f"AC_CHECK_PROG([TOOL], [{self.one(['strip', 'none-such'])}], [yes], [no])"
        if kind == "PROGS":
            return f"AC_CHECK_PROGS([{self.one(['TOOL', 'RANLIB'])}], [none-such strip])"
        if kind == "PATH":
            return f"AC_PATH_PROG([{self.one(['TOOL', 'SED'])}], [strip])"
        if kind == "CACHE":
            name = self.fresh("fz_cv_c")
            return f"AC_CACHE_CHECK([for {name}], [{name}], [{name}={self.one(['yes', 'no'])}])"
        return f"AC_COMPILE_IFELSE([AC_LANG_PROGRAM([[{self.one(INCLUDES)}]], [[{self.one(BODIES)}]])], {self.action(depth)}, {self.action(depth)})"

    def word(self):
        if self.all_idioms:
            said(*OF_WORDS)
            return self.one_word()
        return self.one([*ONE_WORD, "$enable_foo", "x$enable_foo", "x$v2", "$with_bar"])

    def one_word(self):
        """Returns a word that is one word for a shell, whatever its variable has."""
        return self.one(ONE_WORD)

    def test(self, word=None):
        word = word or self.word
        kind = self.at.randrange(6)
        if kind < 3:
            return f"{word()} {self.one(['=', '=', '!='])} {self.one([*VALUES, word()])}"
        if kind < 5:
            said(*OF_TESTS)
            return f"{self.one(['-n', '-z'])} {self.one_word()}"
        return word()

    def joint(self):
        """Returns a test with `-a` or `-o`."""
        said(*OF_JOINTS)
        more = f" {self.one(['-a', '-o'])} {self.operand()}" if self.has(0.5) else ""
        return f"{self.operand()} {self.one(['-a', '-o'])} {self.operand()}{more}"

    def operand(self):
        """Returns an operand of `-a` or `-o`."""
        test = self.test(self.one_word)
        return f"! {test}" if self.is_newer and self.has(0.3) else test

    def condition(self):
        if self.is_later and self.has(0.2):
            more = f" {self.one(['&&', '||'])}\n{self.one(['', '  '])}test {self.test()}" if self.has(0.3) else ""
            return f"test {self.test()} {self.one(['&&', '||'])}{self.one(['', ' '])}\n  {self.one(['', '', '! '])}test {self.test()}{more}"
        kind = self.at.randrange(12)
        if kind < 6:
            return f"test {self.test()}"
        if kind == 6:
            return f"test {self.joint()}"
        if kind == 7:
            return f"test {self.test()} {self.one(['&&', '||'])} test {self.test()}"
        if kind == 8:
            return f"[[ {self.test()} ]]"
        if kind == 9:
            return f"test ! {self.test()}" if self.has(0.5) else f"! test {self.test()}"
        if kind == 10:
            return self.one(["test -f configure", "false", "true", ":"])
        return f"test {self.joint()}"

    def compound(self, depth):
        """Returns an `if`, a `case` or a list of the shell."""
        kind = self.at.randrange(10)
        if kind == 0:
            first, other = self.assignment(), self.assignment()
            return self.one([
                f"if {self.condition()}; then {first}; fi",
                f"if {self.condition()}; then {first}; else {other}; fi",
                f"if {self.condition()}\nthen {first}\nfi; {other}",
                f"case {self.one(CASED)} in yes) {first};; *) {other};; esac",
                f"test {self.test()} && {{ {first}; {other}; }}",
                f"({first})",
                f"{first}; {other}",
            ])
        if kind < 5:
            text = f"if {self.condition()}; then\n{self.body(depth + 1)}\n"
            text += f"elif {self.condition()}; then\n{self.body(depth + 1)}\n" if self.has(0.2) else ""
            text += f"else\n{self.body(depth + 1)}\n" if self.has(0.4) else ""
            return f"{text}fi"
        if kind < 7:
            arms = [self.one(["yes", "no", "y*", "/*", '"a b"', "x | NONE", "a|b", "set", "[[yY]]*"]) for _ in range(self.at.randint(1, 2))]
            arms += ["*"] if self.has(0.7) else []
            joined = "".join(f"  {'(' * self.has(0.05)}{arm})\n{self.body(depth + 1, 1)}\n    ;;\n" for arm in arms)
            return f"case {self.one(CASED)} in\n{joined}esac"
        if kind < 9:
            return f"test {self.test()} {self.one(['&&', '||'])} {self.simple(depth + 1)}"
        return f"AS_IF([{self.condition()}], [{self.body(depth + 1)}]{f', [{self.body(depth + 1)}]' if self.has(0.4) else ''})"

    def with_macros(self, blocks):
        """Adds definitions of macros without parameters, and calls after them, most of which are alone on a line."""
        for _ in range(self.at.randint(1, 3)):
            name, body = self.fresh("MY_M"), self.one(BODIES_OF_MACROS).format(D=self.fresh("D"))
            title = self.one([name, f"[{name}]"])
            defined = f"AC_DEFUN({title},{self.one([' ', chr(10), ''])}[{body}]){self.one(['', '', 'dnl', ' # a note'])}"
            if self.has(0.3):
                defined = f"dnl {name}\ndnl -----\n{defined}"
            place = self.at.randint(0, len(blocks))
            blocks.insert(place, defined)
            for _ in range(self.at.choice((0, 1, 1, 2))):
                blocks.insert(self.at.randint(place + 1, len(blocks)), self.one([name, name, f"  {name}", f"{name} # a note", f"if test -n \"$v1\"; then\n  {name}\nfi"]))

    def with_unused(self, blocks):
        """Adds definitions of macros that nothing calls, and sometimes what names them, calls them, or makes their names of parts."""
        for _ in range(self.at.randint(1, 2)):
            name = self.fresh(self.one(["FZ_UNUSED", "FzUnused", "AX_FZ", "AC_FZ_IT"]))
            cut = self.at.randint(2, len(name) - 1)
            words = {"N": name, "F": name[:cut], "B": name[cut:], "C": self.fresh("FZ_CALL"), "D": self.fresh("D")}
            body = re.sub(r"\{([A-Z])\}", lambda found: words[found[1]], self.one(UNUSED_BODIES))
            place = self.at.randint(0, len(blocks))
            blocks.insert(place, f"AC_DEFUN([{name}],{self.one([' ', chr(10), ''])}[{body}]){self.one(['', 'dnl', f'dnl {name}', f'# {name}', ' # a note'])}")
            if self.has(0.6):
                naming = re.sub(r"\{([A-Z])\}", lambda found: words[found[1]], self.one(NAMING))
                blocks.insert(self.at.randint(place + 1, len(blocks)), naming)

    def with_programs(self, blocks):
        """Adds calls of AC_PATH_PROGS, most of which are a statement at the top."""
        for _ in range(self.at.randint(0, 2)):
            name, tools = self.one(["FZ_TOOL", "FZ_PROG"]), self.at.sample(TOOLS, self.at.randint(1, 4))
            # A shell reads no newline in the list of the loop that Autoconf makes of it.
            listed = self.one([" ".join(tools), f"[{' '.join(tools)}]", *(["[" + "\n  ".join(tools) + "]"] if not self.is_looping else [])])
            if self.has(0.3):
                macro, two = self.one([("AC_CHECK_HEADERS", ["zlib.h", "sys/time.h", "no/such.h"]), ("AC_CHECK_FUNCS", ["getcwd", "strtok", "no_such"])])
                blocks.insert(self.at.randint(0, len(blocks)), f"{macro}([{' '.join(self.at.sample(two, 2))}], [break])")
            if self.has(0.3):
                kept = self.fresh("fz_cv_k")
                what = self.one([f"[{kept}=yes]", f"\nAC_TRY_COMPILE([#include <time.h>], [struct tm t;], {kept}=yes, {kept}=no)", f"[test -n \"$v1\" && {kept}=\"a b\" || {kept}=no]"])
                blocks.insert(self.at.randint(0, len(blocks)), f"AC_MSG_CHECKING({self.one(['for it', '[for it, too]'])})\nAC_CACHE_VAL({kept},{what})\nAC_MSG_RESULT([${kept}])")
            value = self.one(["", "", ", [:]", ", no", ",", ", [/opt/none]", ", [$v1]"])
            call = f"AC_PATH_PROGS({self.one([name, f'[{name}]'])},{self.one(['', ' '])}{listed}{value})"
            blocks.insert(self.at.randint(0, len(blocks)), self.one([call, call, f"  {call} # a note", f"if test -n \"$v1\"; then\n  {call}\nfi", f"AS_IF([:], [{call}])"]))

    def with_words(self, first, blocks):
        """Adds macros that are plain words, and uses of their names after them."""
        for _ in range(self.at.randint(0, 2)):
            name, word = self.fresh(self.one(["fz_word", "FzWord", "FZ_VERSION"])), self.one(PLAIN_WORDS)
            # As many choices as there were once, so that the sources of a number stay.
            macro, title, what = self.one(["define"] * 2), self.one([name] * 2), self.one([word] * 2)
            defined = f"{macro}({title},{self.one([' '] * 3)}{what}){self.one(['', '', 'dnl', ' # a note'])}"
            place = self.at.randint(0, len(blocks))
            if self.has(0.3):
                first.insert(0, defined)
                place = -1
                if self.has(0.5):
                    blocks.insert(0, f"v1={name}")
            else:
                blocks.insert(place, defined)
            for _ in range(self.at.choice((0, 1, 1, 2, 3))):
                blocks.insert(self.at.randint(place + 1, len(blocks)), self.one(WORD_USES).format(name, self.fresh("D")))

    def loop(self):
        """Returns a `for` over words."""
        name, words = self.one(["fz_it", "i", "Name_1"]), " ".join(self.one(LOOP_WORDS) for _ in range(self.at.randint(1, 4)))
        if self.has(0.05):
            words = self.one([f"{words} $v1", f"`echo a` {words}", f"{words} *.none"])
        body = [self.one(LOOP_BODIES).format(name, self.fresh("D")) for _ in range(self.at.randint(1, 3))]
        if all("a note" in it and "=" not in it for it in body):
            body.append(f"v1=${name}")
        if len(body) == 1 and "\n" not in body[0] and not re.search("note|AC_[A-LN-Z]", body[0]) and self.has(0.4):
            return f"for {name} in {words}; do {body[0]}; done"
        text = "".join(f"  {it}\n" for it in body) if self.has(0.6) else "".join(f"{it}\n" for it in body)
        return f"for {name} in {words}{self.one(['; do', chr(10) + 'do', ' ; do'])}\n{text}done{self.one(['', '', ' # a note', f'; v1=${name}'])}"

    def with_loops(self, blocks):
        """Adds `for` over words, assignments of a value or a word, and lines that m4 joins to a comment."""
        for _ in range(self.at.randint(1, 3)):
            kind = self.at.randrange(5)
            if kind == 3:
                text = self.one(DEFAULTS)
            elif kind < 3:
                text = self.loop()
            else:
                text = self.one(JOINED_LINES)
            if kind != 4 and self.has(0.3):
                text = self.one(["if test -n \"$v1\"; then\n{0}\nfi", "AS_IF([test \"$v2\" = x], [{0}])", "AS_IF([test \"$v2\" = x], [], [\n  {0}\n])"]).format(text)
            blocks.insert(self.at.randint(0, len(blocks)), text)

    def assignment(self):
        return f"{self.one(['v1', 'v2', 'level'])}={self.one(SET)}"

    def simple(self, depth):
        if self.is_newer and self.all_idioms and self.has(0.4):
            return self.one([it for sentence, texts in NEWER_SHELL if is_said(*sentence) for it in texts])
        if self.is_later and self.has(0.5):
            return self.one([*NAMED, *(OF_SHELL if self.all_idioms else ())])
        kind = self.at.randrange(10)
        if kind == 9:
            return self.one(LEFT_AS_IS)
        if kind < 3:
            return self.assignment()
        if kind == 3:
            return f"AC_DEFINE([{self.fresh('D')}], [{self.one(['1', '', 'two words'])}], [a text])"
        if kind == 4:
            return f"AC_DEFINE({self.fresh('D')}) {self.one(['v1', 'v2'])}={self.one(['yes', 'd'])}"
        if kind == 5:
            return f'AC_DEFINE_UNQUOTED([{self.fresh("D")}], ["{self.one(["$v1", "$prefix", "$LIBS"])}"], [a text])'
        if kind == 6:
            return f"{self.one(['LIBS', 'CFLAGS', 'CPPFLAGS'])}={self.one(FLAGS)}"
        if kind == 7:
            name = self.fresh("r")
            return f"{name}={self.read()}\nAC_SUBST([{name}])"
        return f"AC_MSG_{self.one(['NOTICE', 'WARN'])}([{self.one(['v1 is $v1', 'a text', 'prefix is $prefix'])}])"

    def read(self):
        names = [*READ]
        for entry in {id(it[1]): it[1] for it in self.exact if it[0].partition("(")[0] in self.called}.values():
            names += re.findall(r"AC_(?:SUBST|CHECK_PROGS|PATH_PROG|ARG_VAR)\(\[(\w+)\]", entry.text()) * 3
        names += [name for name in self.cached if not OF_DEFAULT_INCLUDES.match(name)]
        differing = [*UNSET, *(it.partition("=")[0] for it in stated(" ".join(self.called), self.all_idioms))]
        names = [name for name in names if not any(fnmatch.fnmatchcase(name, it) for it in differing)]
        return f"\"${self.one(names)}\""

    def statement(self, depth):
        kind = self.at.random()
        if kind < 0.4:
            text = self.call(depth)
            for name in sorted({*re.findall(r"\b(?:A[CS]|m4)_\w+", text)} & {it[0].partition("(")[0] for it in self.exact} - self.called):
                self.called.add(name)
                self.cached += [it for it in cache_names(name) if not self.all_idioms or is_kept(name, it)]
            return text
        if kind < 0.6 and depth < 3:
            return self.compound(depth)
        if kind < 0.75:
            return self.check(depth)
        return self.simple(depth)

    def body(self, depth, count=None):
        return "\n".join(self.laid_out(self.statement(depth), depth) for _ in range(count or self.at.choice((1, 1, 2))))

    def laid_out(self, text, depth):
        """Returns a statement with what may be around it on its lines."""
        kind = self.at.randrange(24)
        if kind == 0 and "\n" not in text:
            return f"{text} # a note"
        if kind == 1 and depth == 0 and re.search(r"(?m)^A[CS]_\w+(\(.*\))?\Z", text):
            said(*OF_DNL)
            return f"{text} dnl a note"
        if kind == 2:
            return f"# a note: it's (here\n{text}"
        if kind == 3:
            return f"dnl a note\n\n{text}"
        if kind == 4:
            return f"  {text}"
        return text

    def source(self):
        """Returns the source, and the blocks of it that may be left out."""
        self.called, self.cached = set(), []
        first = ["AC_INIT([fuzz], [1.0])", "AC_CONFIG_SRCDIR([configure.ac])"[: 0 if self.has(0.9) else None]]
        if self.is_later and self.has(0.6):
            first[0] = self.one(INIT)
        header = self.one(["AC_CONFIG_HEADERS([config.h])", "AC_CONFIG_HEADERS([config.h])", "AC_CONFIG_HEADER(config.h)", ""])
        blocks = [
            self.one([
                "AC_ARG_ENABLE([foo], [do foo])",
                f"AC_ARG_ENABLE([foo], [do foo], {self.action(1)}, {self.action(1)})" if not self.is_mild else "AC_ARG_ENABLE([foo], [do foo], [v1=foo])",
                "AC_ARG_ENABLE(foo, [  --enable-foo  do it],\n  if test \"$enableval\" = yes; then\n    v1=1\n  fi,\n  v2=0\n)",
            ]),
            self.one([
                "AC_ARG_WITH([bar], [use bar])",
                f"AC_ARG_WITH([bar], AC_HELP_STRING([--with-bar], [use bar]), [v1=\"$withval\"], {self.action(1) if not self.is_mild else '[v1=bar]'})",
            ]),
        ]
        if self.has(0.6) or self.all_idioms:
            # What checks look for on their way is looked for here, so that it is no news below.
            blocks += ["AC_CHECK_HEADERS([first.h])", "AC_CHECK_DECLS([EOF])", "AC_PREPROC_IFELSE([AC_LANG_SOURCE([[int first;]])], [v1=1], [v1=2])"]
        for _ in range(self.at.randint(0, 0 if self.is_mild else 2) if self.is_forming else self.at.randint(2, 6)):
            text = self.laid_out(self.statement(0), 0)
            blocks.append(text)
            if self.has(0.15):
                blocks.append(text)
            if self.has(0.4):
                name = self.fresh("r")
                blocks.append(f"{name}={self.read()}\nAC_SUBST([{name}])")
        last = self.one(LAST)
        if self.is_forming:
            last = self.with_forms(first, blocks, last)
        if self.is_defining and self.is_plain():
            self.with_macros(blocks)
        if self.is_writing and self.is_plain():
            self.with_programs(blocks)
            self.with_words(first, blocks)
        if self.is_looping and self.is_plain():
            self.with_loops(blocks)
        if self.has_unused:
            self.with_unused(blocks)
        if self.all_idioms:
            # The stand-in for a compiler looks at no file, so such a test has an operator that stays.
            blocks = [it.replace("test -f configure", "test -L configure") for it in blocks]
        if self.all_idioms and any("unset v2" in it for it in blocks):
            said(*OF_UNSET)
            blocks = [it.replace("${v2-none}", "$v2") for it in blocks]
        if any("AC_PREFIX_DEFAULT" in it for it in blocks) and self.all_idioms:
            blocks = [re.sub(r"\$(\{?)prefix\b", r"$\1exec_prefix", it) for it in blocks]
        if any("MY_CHECK" in it for it in blocks):
            first.append("AC_DEFUN([MY_CHECK], [$1=mine])")
        # What saves the variables is put before AC_OUTPUT, where no `dnl` may join it to a call.
        if blocks and re.search(r"\bdnl\b.*$", blocks[-1]):
            blocks.append("")
        # A script runs the program that AWK names, so that is an awk.
        blocks = [re.sub(r"(AC_PROGRAMS_CHECK\(\[?AWK\W+)strip\b", r"\1gawk", it) for it in blocks]
        return [*first, header], ["AC_PROG_CC"] * (not self.has(0.05)) + blocks, last

    def is_plain(self):
        """Returns whether a source gets statements of the numbers before."""
        return not self.is_forming or not self.is_mild and self.has(0.2)

    def settings(self, count):
        found = []
        for _ in range(count):
            arguments, environment = [], []
            arguments += [self.one(["--enable-foo", "--disable-foo", "--enable-foo=a b", "--enable-foo=x"])] if self.has(0.6) else []
            arguments += [self.one(["--with-bar", "--without-bar", "--with-bar=/opt"])] if self.has(0.4) else []
            arguments += [self.one(["--prefix=/opt/p", "--prefix=/usr"])] if self.has(0.3) else []
            arguments += ["--exec-prefix=/x"] if self.has(0.1) else []
            arguments += [f"CFLAGS={self.one(['', '', '-g', '-ansi'])}"] if self.has(0.9) else []
            is_host = self.has(0.25)
            arguments += [f"--host={HOST}"] if is_host else []
            for name in self.at.sample(sorted(GIVEN), self.at.choice((0, 0, 1, 2, 4))):
                value = self.one(GIVEN[name])
                if self.has(0.5):
                    arguments.append(f"{name}={value}")
                else:
                    environment.append((name, value))
            environment += [("FZ_PROG", self.one(["/opt/none", "sed", ""]))] if self.is_writing and self.has(0.3) else []
            environment += [("v1", self.one(["stop", "stop", "a b"]))] if self.is_forming and self.has(0.25) else []
            programs = self.one(["plain", "plain", "cross", "half", "none"]) if not is_host else self.one(["cross", "cross", "half", "plain"])
            found.append(Setting(tuple(arguments), tuple(environment), programs, is_host and self.has(0.6), self.at.randrange(1000)))
        return found


@functools.lru_cache
def cache_names(name):
    """Returns the cache variables of a macro, as far as a script without its arguments has them."""
    found = []
    for call in ("", f"{name}\n"):
        body = script(f"AC_INIT([fuzz], [1.0])\nAC_PROG_CC\n{call}AC_OUTPUT\n") if least_of(name) == 0 else None
        found.append({*re.findall(r"\bac_cv_\w*[a-zA-Z0-9]\b", body or "")})
    return sorted(found[1] - found[0])


def least_of(name):
    return min(least for it, _, least, _ in [*exact(), *others()] if it.partition("(")[0] == name)


def is_kept(name, cached):
    """Returns whether the idiom of a macro may set a cache variable that the macro sets: it is exact, or has the name."""
    return any(it == name for it, *_ in exact()) or any(cached in entry.text() for it, entry, *_ in others() if it == name)


def joined(first, blocks, last):
    return "\n".join([*filter(None, first), *blocks, last]) + "\n"


# The keys of words.txt whose errors are about what a source has itself, which port may leave on another line.
OF_SOURCE = (
    "unknown-macro", "no-macro", "text-beside-call", "no-statement", "argument-macro", "unread-argument", "no-value", "shell-if", "shell-test",
    "shell-not", "shell-and", "shell-case", "shell-for", "shell-echo", "shell-exit", "shell-export", "shell-unset", "shell-command", "shell-eval",
    "shell-function", "shell-group", "shell-cd", "shell-backquote", "shell-arithmetic", "shell-substitution", "shell-redirection", "shell-pipe",
    "shell-subshell", "shell-variable-command", "test-and", "test-or", "test-file", "test-number", "test-semicolon", "test-bracket",
    "variable-with-operator", "variable-with-cut", "message-backquote", "special-variable",
)


@functools.cache
def of_source():
    """Returns the pattern of the messages of these errors."""
    texts = [re.split(r"%\d", word_table.entries()[key].message) for key in OF_SOURCE]
    return re.compile("(?s)" + "|".join(".*?".join(map(re.escape, parts)) for parts in texts))


def without_excerpts(message):
    return re.sub(r"(?s)`.*?`", "``", message)


def written_errors(program, text, ported):
    """Returns the errors that acrun reports in lines that port wrote, and not in the source."""
    found = []
    for each in (text, ported):
        lines = subprocess.run([program, "lint", "--json", "-"], input=each, capture_output=True, text=True, errors="replace").stdout.splitlines()
        found.append([it for it in map(json.loads, lines) if it["severity"] == "error" and it["code"] != "template"])
    known, lines = {without_excerpts(it["message"]) for it in found[0]}, ported.splitlines()
    new = [it for it in found[1] if without_excerpts(it["message"]) not in known and not of_source().match(it["message"])]
    new = [it for it in new if lines[it["line"] - 1] not in text.splitlines()]
    return [(Setting(by="lint"), {f"error in {lines[it['line'] - 1]}: {it['message']}": ("", "")}) for it in new]


def judge(program, room, number, names=None, runs=2, switches=(), forms=()):
    """Returns what is wrong with a source: how it was run, and what differs."""
    maker = Maker(number, names, switches, forms)
    first, blocks, last = maker.source()
    text, switches = joined(first, blocks, last), maker.switches
    settings = maker.settings(runs)
    ported, is_read = port(program, text, *switches)
    if ported == text and not is_read:
        return "same", text, ported
    return held(program, room, text, ported, is_read, settings, switches), text, ported


# ---------------------------------------------------------------------------------------------------------------------- stored sources

# What a stored source is run with, by the names in its row.
SETTINGS = {
    "plain": Setting(("CFLAGS=",)),
    "seeds": [Setting(("CFLAGS=",), seed=it) for it in range(1, 5)],
    "host": Setting((f"--host={HOST}",), programs="cross"),
    "cross": Setting((f"--host={HOST}",), programs="cross", is_cross=True),
    "given": Setting(("MKDIR_P=mymkdir -p", "RANLIB=myranlib", "MYNM=mynm", "GREP=mygrep", "SED=mysed"),
                     (("INSTALL", "myinstall"), ("INSTALL_DATA", "myinstall -m 600"), ("INSTALL_PROGRAM", "myinstall -s"),
                      ("INSTALL_SCRIPT", "myinstall -x"))),
    "ansi": Setting(("CFLAGS=-ansi",)),
    "foo": Setting(("--enable-foo",)),
    "bar": Setting(("--disable-foo", "--with-bar=/opt", "--prefix=/opt/p")),
    "letters": [Setting(environment=tuple((it, value) for it in string.ascii_letters)) for value in ("yes", "b", "1")],
}


def unescaped(text):
    return subprocess.run(["printf", "%b", text], stdout=subprocess.PIPE).stdout.decode("latin-1")


# The files of stored sources, each with how the names of its rows begin, and with the switches of port.
FILES = (
    ("exact/sources.txt", ("",), ()),
    ("port/sources.txt", ("shell-", "defines-", "arguments-", "lists-"), ()),
    ("port/idioms.txt", ("idioms-echo", "idioms-readers", "idioms-words", "idioms-empty", "idioms-before"), IDIOMS),
)


def stored(names):
    """Yields the name of each stored source, its text, its settings and the switches of port: those of examples/exact, and those of examples/port
    about shell text, which are run with variables of one letter that are not set, `yes`, `b` and `1`."""
    for file, fronts, switches in FILES:
        for row in (HERE.parent / "examples" / file).read_text().splitlines():
            name, _, text = row.partition(" ")
            chosen = "plain,letters"
            if file.startswith("exact"):
                chosen, _, text = text.partition(" ")
            if name.startswith(fronts) and (not names or name.startswith(tuple(names))):
                settings = [SETTINGS[it] for it in chosen.split(",")]
                yield name, unescaped(text), [one for it in settings for one in (it if isinstance(it, list) else [it])], switches


def judge_stored(program, room, text, settings, switches):
    ported, is_read = port(program, text, *switches)
    return held(program, room, text, ported, is_read, settings, switches), text, ported


# ---------------------------------------------------------------------------------------------------------------------- runs


def shown(differs):
    for setting, names in differs:
        other = "in acrun" if setting.by == "acrun" else "after port"
        yield f"  {setting.shown()}"
        if "status" in names:
            names = {name: it for name, it in names.items() if name == "status" or name.startswith("standard ")}
        for name, (before, after) in names.items():
            yield f"    {name}" + (f": {before!r}, and {after!r} {other}" if before != after else "")


def minimized(program, room, number, names, switches, forms=()):
    """Returns the smallest part of a source in which a name of its first difference still differs, what port makes of it, and the differences:
    blocks, arguments and variables of the environment go in turn."""
    maker = Maker(number, names, switches, forms)
    first, blocks, last = maker.source()
    switches = maker.switches
    settings = maker.settings(2)

    def tried(blocks, settings):
        text = joined(first, blocks, last)
        ported, is_read = port(program, text, *switches)
        found = held(program, room, text, ported, is_read, settings, switches)
        if isinstance(found, str) or (wanted and not any(wanted & {*names} for _, names in found)):
            return None
        return (found, text, ported) if found else None

    wanted = set()
    best = tried(blocks, settings)
    if not best:
        return [], joined(first, blocks, last), ""
    wanted = {*best[0][0][1]}
    settings = [dataclasses.replace(best[0][0][0], by="port")]
    changed = True
    while changed:
        changed = False
        for k in reversed(range(len(blocks))):
            without = blocks[:k] + blocks[k + 1 :]
            if len(blocks) > 1 and (found := tried(without, settings)):
                blocks, best, changed = without, found, True
        for part in ("arguments", "environment"):
            for k in reversed(range(len(getattr(settings[0], part)))):
                kept = getattr(settings[0], part)
                without = [dataclasses.replace(settings[0], **{part: kept[:k] + kept[k + 1 :]})]
                if found := tried(blocks, without):
                    settings, best, changed = without, found, True
    return best


# ---------------------------------------------------------------------------------------------------------------------- conditions

# Words that are one word for a shell whatever a and b are, and the values of these. None is an operator, as OF_JOINTS asks.
CONDITION_WORDS = ('"$a"', '"$b"', '"x$a"', "yes", '"a b"', '"${a}"', "/x", '"$a$b"', "3", '"no"')
CONDITION_VALUES = ("", "a", "yes", "a b", "/x", "3", "no")
WRITTEN = re.compile(r"(?ms)^AS_IF\(\[((?:(?!^AS_IF|^if ).)*?)\], \[r(\d+)=1\]\)$")


def conditions(number):
    """Returns the conditions of a number: tests with `-a`, `-o` and `!`, and lists of them."""
    at = random.Random(number)

    def operand():
        kind, word = at.randrange(6), lambda: at.choice(CONDITION_WORDS)
        text = word() if kind == 0 else f"{at.choice(('-n', '-z'))} {word()}" if kind < 3 else f"{word()} {at.choice(('=', '!='))} {word()}"
        return f"! {text}" if at.random() < 0.2 else text

    def test():
        joint = at.choice((("-a",), ("-o",), ("-a", "-o")))
        more = "".join(f" {at.choice(joint)} {operand()}" for _ in range(at.choice((0, 1, 1, 2))))
        return f"{'! ' * (at.random() < 0.1)}test {operand()}{more}"

    return [test() + "".join(f" {at.choice(('&&', '||'))}{at.choice((' ', chr(10)))}{test()}" for _ in range(at.choice((0, 0, 1, 2)))) for _ in range(40)]


def try_conditions(program, options):
    """Holds the conditions that port writes against those of the source, in each shell that is there, without a script of Autoconf."""
    said(*OF_JOINTS)
    shells, written, differ = [it for it in ("dash", "bash") if shutil.which(it)], 0, 0
    for number in range(options.first, options.first + options.count):
        before = conditions(number)
        lines = "".join(f"if {it}; then r{k}=1; fi\n" for k, it in enumerate(before))
        after = {int(k): it for it, k in WRITTEN.findall(port(program, f"AC_INIT([fuzz], [1.0])\nAC_PROG_CC\n{lines}AC_OUTPUT\n")[0])}
        written += len(after)
        tried = "".join(
            f"a='{a}' b='{b}'\n" + "".join(
                f"p=no; if {before[k]}; then p=yes; fi; q=no; if {it}; then q=yes; fi; test $p = $q || echo \"{k} $p '$a' '$b'\"\n" for k, it in after.items())
            for a in CONDITION_VALUES for b in CONDITION_VALUES)
        for shell in shells:
            made = subprocess.run([shell], input=tried, capture_output=True, text=True)
            found = {int(it.split()[0]): it.split(" ", 1)[1] for it in made.stdout.splitlines()}
            differ += len(found) + bool(made.returncode or made.stderr)
            for k, it in found.items():
                print(f"differs {number} in {shell}: {before[k]!r} is {it}, and after port {after[k]!r}", flush=True)
            if made.returncode or made.stderr:
                print(f"{number} in {shell}: status {made.returncode}, {made.stderr[:200]!r}")
    print(f"{options.count * 40} conditions, {written} rewritten, each with {len(CONDITION_VALUES) ** 2} pairs of values in {' and '.join(shells)}: {differ} differ")
    return int(differ > 0)


ROOM = None


def task(given):
    global ROOM
    program, number, *how = given
    try:
        return number, *judge(program, ROOM, number, *how)
    except Exception as error:
        return number, f"{type(error).__name__}: {error}", "", ""


def stored_task(given):
    program, name, text, settings, switches = given
    return name, *judge_stored(program, ROOM, text, settings, switches)


def try_stored(program, options):
    """Tries the stored sources."""
    rows, differ, refused = [(program, *it) for it in stored(options.stored)], 0, 0
    with concurrent.futures.ProcessPoolExecutor(options.jobs) as pool:
        for name, found, text, ported in pool.map(stored_task, rows):
            differ, refused = differ + bool(found and found != "refused"), refused + (found == "refused")
            if found:
                print(f"{name}: {'is refused by Autoconf' if found == 'refused' else 'differs'}")
                print("".join(f"{line}\n" for line in (shown(found) if found != "refused" else ())), end="", flush=True)
    print(f"{len(rows) - differ - refused} stored sources leave the same, {differ} differ, {refused} are refused by Autoconf")
    return int(differ > 0)


def logged(file):
    """Returns what came of each source that a log has."""
    text = pathlib.Path(file).read_text() if file and os.path.exists(file) else ""
    return {int(number): kind for number, kind in re.findall(r"(?m)^(\d+) (same|rewritten|refused|differ)$", text)}


def main():
    options = argparse.ArgumentParser(description=__doc__, formatter_class=argparse.RawDescriptionHelpFormatter)
    options.add_argument("program")
    options.add_argument("--from", dest="first", type=int, default=0)
    options.add_argument("--count", type=int, default=200)
    options.add_argument("--seconds", type=int, default=0)
    options.add_argument("--jobs", type=int, default=os.cpu_count())
    options.add_argument("--runs", type=int, default=2)
    options.add_argument("--log")
    options.add_argument("--only", action="append", default=[])
    options.add_argument("--forms", action="append", default=[], choices=exact_forms.FORMS)
    options.add_argument("--idioms", action="store_true")
    options.add_argument("--conditions", action="store_true")
    options.add_argument("--stored", nargs="*", metavar="NAME")
    options.add_argument("--replay", type=int)
    options.add_argument("--minimize", type=int)
    options = options.parse_args()
    program, switches = str(pathlib.Path(options.program).resolve()), IDIOMS if options.idioms else ()
    global ROOM
    ROOM = Room()
    try:
        if options.replay is not None or options.minimize is not None:
            if options.minimize is not None:
                found, text, ported = minimized(program, ROOM, options.minimize, options.only, switches, options.forms)
            else:
                found, text, ported = judge(program, ROOM, options.replay, options.only, options.runs, switches, options.forms)
            print(f"{text}--- after port\n{ported}---", *(shown(found) if not isinstance(found, str) else [found]), sep="\n")
            return int(bool(found) and not isinstance(found, str))
        if options.stored is not None:
            return try_stored(program, options)
        if options.conditions:
            return try_conditions(program, options)
        counts, began, alike_forms = {"same": 0, "rewritten": 0, "refused": 0, "differ": 0}, time.time(), []
        numbers = range(options.first, options.first + options.count)
        known = {number: kind for number, kind in logged(options.log).items() if number in numbers}
        for number, kind in known.items():
            counts[kind] += 1
            alike_forms += Maker(number, options.only, switches, options.forms).forms if kind == "rewritten" else []
        rows = ((program, number, options.only, options.runs, switches, options.forms) for number in numbers if number not in known)
        with concurrent.futures.ProcessPoolExecutor(options.jobs) as pool, open(options.log or os.devnull, "a") as log:
            for number, found, _, _ in pool.map(task, rows):
                kind = found if found in ("same", "refused") else "differ" if found else "rewritten"
                counts[kind] += 1
                alike_forms += Maker(number, options.only, switches, options.forms).forms if kind == "rewritten" else []
                print(number, kind, file=log, flush=True)
                if kind == "differ":
                    print(f"differs {number}", *(shown(found) if not isinstance(found, str) else [found]), sep="\n", flush=True)
                if options.seconds and time.time() - began > options.seconds:
                    pool.shutdown(cancel_futures=True)
                    break
        print(f"{sum(counts.values())} sources: {counts['rewritten']} leave the same, {counts['differ']} differ, {counts['same']} were not changed, "
              f"{counts['refused']} are refused by Autoconf; {time.time() - began:.0f} seconds")
        if alike_forms:
            print("with " + ", ".join(f"{kind}: {alike_forms.count(kind)}" for kind in exact_forms.FORMS) + " leave the same")
        return int(counts["differ"] > 0)
    finally:
        ROOM.end()


if __name__ == "__main__":
    sys.exit(main())
