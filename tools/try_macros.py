#!/usr/bin/env python3
"""Compares each idiom of crates/lint_macros/macros.txt with its macro.
  try_macros.py PROGRAM [NAME]..     PROGRAM is a built acrun; only the idioms of these macros, if there are any
If Autoconf 2.71 has the macro, it is given a source with the call that docs/macros.md shows, and acrun one with the idiom. Both runs have to
leave the same definitions, output variables, variables that the idiom assigns, outputs, messages and exit status. A name of a `? ` line
may differ, and has to. Programs may be named with their directory or without. Left out is what Autoconf defines for the headers that it
includes by itself, and what a macro looks for on its way, unless the idiom has it.
If Autoconf doesn't have the macro, the idiom is tried by what it is for, as TRIALS says.
Each block of docs/macros.md is also given to acrun and to Autoconf, and both have to leave the same. `autoconf -Wall` and `autoheader -Wall`
have to read it without a warning.
Prints a line for each idiom that is otherwise, and last a count. It takes minutes. Without autoconf only acrun is tried.
"""
import concurrent.futures
import dataclasses
import fnmatch
import os
import pathlib
import re
import shutil
import subprocess
import sys
import tempfile

import macro_table

# What Autoconf looks for by itself, with the default includes.
OWN = re.compile(r"HAVE_(STDIO|STDLIB|STRING|STRINGS|INTTYPES|STDINT|UNISTD|SYS_STAT|SYS_TYPES)_H$|STDC_HEADERS$")
# What is no result of a check: the compiler's command line, and Autoconf's own names.
NONE_OF = re.compile(r"DEFS$|ECHO_|LTLIBOBJS$|PACKAGE_\w+$")
# What a macro looks for on its way, for its own use. It is compared if the idiom has it.
ON_THE_WAY = re.compile(r"(CPP|E?GREP|(build|host|target)(_cpu|_vendor|_os)?)$")
# Variables of an idiom that its macro doesn't have: its own cache names, and what it keeps meanwhile.
MEANWHILE = re.compile(r"my_cv_|\w+_before$")
# Macros that end the run of autoconf itself.
FATAL = {"m4_fatal", "AC_FATAL"}
FILES = {
    "install-sh": "#!/bin/sh\n",
    "config.guess": "#!/bin/sh\necho x86_64-pc-linux-gnu\n",
    "config.sub": '#!/bin/sh\necho "$1"\n',
    "Makefile.in": "top = @top_srcdir@\n",
    "src/Makefile.in": "top = @top_srcdir@\n",
    "greet.c": "",
    "values.in": "INSTALL=@INSTALL@\nMKDIR_P=@MKDIR_P@\n",
    "config.h.in": "",
}
OUTPUTS = ("Makefile", "src/Makefile")


@dataclasses.dataclass
class Trial:
    """A run of acrun with the idiom for a call, and what it has to leave. None as a value: the name is not defined and not set. None as
    arguments: the run has the block of docs/macros.md, as it is."""

    arguments: str | None
    wanted: dict
    given: tuple = ()
    before: str = ""
    has_no_programs: bool = False
    status: int = 0


DEBUG = "AC_ARG_ENABLE([debug])"
# What the macros are for that Autoconf itself doesn't have, and further calls of some that it has.
TRIALS = {
    "AC_CHECK_SIZEOF": [
        Trial("[char]", {"SIZEOF_CHAR": "1"}),
        Trial("[short]", {"SIZEOF_SHORT": "2"}),
        Trial("[int]", {"SIZEOF_INT": "4"}),
        Trial("[struct nothing]", {"SIZEOF_STRUCT_NOTHING": "0"}),
    ],
    "AC_CHECK_ALIGNOF": [Trial("[char]", {"ALIGNOF_CHAR": "1"}), Trial("[short]", {"ALIGNOF_SHORT": "2"})],
    "AC_CHECK_MEMBERS": [Trial("[struct stat.st_nothing]", {"HAVE_STRUCT_STAT_ST_NOTHING": None})],
    "AS_VAR_APPEND": [Trial("[level], [x]", {"level": "0x"}, (), "level=0")],
    "AC_PROG_SHELL": [Trial("", {"SHELL": "/bin/sh"})],
    "AM_CONDITIONAL": [
        Trial(None, {"DEBUG_TRUE": "", "DEBUG_FALSE": "#"}, ("--enable-debug",)),
        Trial(None, {"DEBUG_TRUE": "#", "DEBUG_FALSE": ""}),
        Trial('[DEBUG], [test "$enable_debug" = yes]', {"DEBUG_TRUE": "", "DEBUG_FALSE": "#"}, ("--enable-debug",), DEBUG),
        Trial('[DEBUG], [test "$enable_debug" = yes]', {"DEBUG_TRUE": "#", "DEBUG_FALSE": ""}, (), DEBUG),
    ],
    "AM_PROG_AR": [
        Trial("", {"AR": "ar"}),
        Trial("", {"AR": "/opt/ar"}, ("AR=/opt/ar",)),
        Trial("", {}, (), "", True, 1),
    ],
    "AM_PROG_AS": [
        Trial("", {"CCAS": "cc", "CCASFLAGS": "-g"}, ("CFLAGS=-g",)),
        Trial("", {"CCAS": "as", "CCASFLAGS": "-Z"}, ("CCAS=as", "CCASFLAGS=-Z")),
    ],
    "PKG_CHECK_MODULES": [
        Trial(None, {"ZLIB_LIBS": "-lz", "ZLIB_CFLAGS": "-I.", "LIBS": "", "CFLAGS": ""}, ("ZLIB_CFLAGS=-I.", "my_cv_ZLIB=yes")),
        Trial(None, {}, ("ZLIB_LIBS=-lno-such-library",), "", False, 1),
        Trial("[MATH], [m]", {"MATH_LIBS": "-lm", "MATH_CFLAGS": "", "LIBS": ""}, ("MATH_LIBS=-lm",)),
        Trial("[MATH], [m]", {"MATH_LIBS": "-lm -lc", "MATH_CFLAGS": "-DX", "CFLAGS": ""}, ("MATH_LIBS=-lm -lc", "MATH_CFLAGS=-DX")),
        Trial("[NOPE], [nope]", {}, ("NOPE_LIBS=-lno-such-library",), "", False, 1),
        Trial("[NOPE], [nope]", {}, ("NOPE_CFLAGS=-fno-such-flag", "NOPE_LIBS=-lc"), "", False, 1),
    ],
    "AM_GNU_GETTEXT": [
        Trial("", {"ENABLE_NLS": "1", "USE_NLS": "yes"}, ("ac_cv_search_gettext=none required",)),
        Trial("", {"ENABLE_NLS": "1", "LIBS": "-lintl ", "LIBINTL": ""}, ("ac_cv_search_gettext=-lintl",)),
        Trial("", {"ENABLE_NLS": None, "USE_NLS": "no", "LIBS": "", "LIBINTL": ""}, ("ac_cv_search_gettext=no",)),
        Trial("", {"ENABLE_NLS": None, "USE_NLS": "no", "LIBS": ""}, ("--disable-nls",)),
    ],
    "AM_ICONV": [
        Trial("", {"HAVE_ICONV": "1", "LIBS": "", "LIBICONV": ""}, ("ac_cv_search_iconv_open=none required",)),
        Trial("", {"HAVE_ICONV": "1", "LIBS": "-liconv ", "LIBICONV": ""}, ("ac_cv_search_iconv_open=-liconv",)),
        Trial("", {"HAVE_ICONV": None, "LIBS": "", "LIBICONV": ""}, ("ac_cv_search_iconv_open=no",)),
    ],
    "AM_LANGINFO_CODESET": [
        Trial("", {"HAVE_LANGINFO_CODESET": "1"}, ("ac_cv_func_nl_langinfo=yes",)),
        Trial("", {"HAVE_LANGINFO_CODESET": None}, ("ac_cv_func_nl_langinfo=no",)),
    ],
    "AX_CHECK_COMPILE_FLAG": [
        Trial(None, {"CFLAGS": " -Wall"}),
        Trial("[-g]", {"CFLAGS": " -g"}),
        Trial("[-fno-such-flag]", {"CFLAGS": ""}),
    ],
    "AX_CHECK_COMPILE_FLAG(actions)": [
        Trial(None, {"has_wall": "yes", "CFLAGS": ""}),
        Trial("[-fno-such-flag], [has_it=yes], [has_it=no]", {"has_it": "no", "CFLAGS": ""}),
    ],
    "AX_CHECK_COMPILE_FLAG(flags)": [
        Trial(None, {"has_wall": "yes", "CFLAGS": ""}),
        Trial("[-Wall], [has_it=yes], [has_it=no], [-fno-such-flag]", {"has_it": "no", "CFLAGS": ""}),
    ],
    "AX_APPEND_FLAG": [Trial(None, {"CFLAGS": " -Wall"}), Trial("[-Wall]", {"CFLAGS": "-g -Wall"}, ("CFLAGS=-g",))],
    "AX_CHECK_LINK_FLAG": [
        Trial(None, {"LDFLAGS": " -Wl,-z,now"}),
        Trial("[-Wl,-z,relro]", {"LDFLAGS": " -Wl,-z,relro"}),
        Trial("[-Wl,--no-such-option]", {"LDFLAGS": ""}),
    ],
    "AX_CHECK_LINK_FLAG(actions)": [
        Trial(None, {"has_now": "yes", "LDFLAGS": ""}),
        Trial("[-Wl,--no-such-option], [has_it=yes], [has_it=no]", {"has_it": "no", "LDFLAGS": ""}),
    ],
    "AX_CHECK_LINK_FLAG(flags)": [
        Trial(None, {"has_now": "yes", "LDFLAGS": ""}),
        Trial("[-Wl,-z,now], [has_it=yes], [has_it=no], [-Wl,--no-such-option]", {"has_it": "no", "LDFLAGS": ""}),
    ],
    "AX_PTHREAD": [
        Trial("", {"HAVE_PTHREAD": "1", "PTHREAD_CC": "cc", "PTHREAD_CFLAGS": "-pthread", "PTHREAD_LIBS": ""}),
        Trial("", {"HAVE_PTHREAD": None, "LIBS": ""}, ("ac_cv_search_pthread_create=no",)),
    ],
    "AM_WITH_DMALLOC": [
        Trial("", {"WITH_DMALLOC": "1", "LIBS": " -ldmalloc"}, ("--with-dmalloc",)),
        Trial("", {"WITH_DMALLOC": None, "LIBS": ""}, ("--without-dmalloc",)),
        Trial("", {"WITH_DMALLOC": None, "LIBS": ""}),
    ],
    "AM_PATH_PYTHON": [
        Trial("", {"PYTHON": "/opt/python3"}, ("PYTHON=/opt/python3",)),
        Trial("", {"PYTHON": ":"}, (), "", True),
    ],
    "AM_PATH_LISPDIR": [Trial("", {"lispdir": "/opt/lisp"}, ("lispdir=/opt/lisp",)), Trial("", {"lispdir": ""})],
}


def run(words, folder, path=""):
    kept = {name: os.environ[name] for name in ("PATH", "HOME", "TMPDIR") if name in os.environ}
    environment = {**kept, "LC_ALL": "C", **({"PATH": path} if path else {})}
    return subprocess.run(words, cwd=folder, env=environment, capture_output=True, text=True, errors="replace", timeout=600)


def source_with(text):
    """Returns a source with the text, and with what the text doesn't have itself."""
    is_first = "AC_INIT" in text
    lines = [text if is_first else "AC_INIT([guide], [1.0])"]
    lines += [] if "AC_CONFIG_HEADER" in text else ["AC_CONFIG_HEADERS([config.h])"]
    lines += ["AC_CONFIG_FILES([values])", "AC_PROG_CC"]
    lines += [] if is_first else [text]
    lines += [] if "AC_OUTPUT" in text else ["AC_OUTPUT"]
    return "\n".join(lines) + "\n"


def put_files(folder, source):
    for name, text in {**FILES, "configure.ac": source}.items():
        file = folder / name
        file.parent.mkdir(exist_ok=True)
        file.write_text(text)
        file.chmod(0o755)


def plain(value):
    """Returns the value of a variable without the directory of a program, and without blanks at its ends."""
    return re.sub(r"^/\S*/", "", value.strip())


def assigned(text):
    """Returns the shell variables that an idiom assigns."""
    return sorted({name for name in re.findall(r"(?m)(?:^|[\s\[;,])([A-Za-z_]\w*)=", text) if not MEANWHILE.match(name)})


def output_variables(text):
    """Returns the output variables that an idiom makes."""
    return {*re.findall(r"AC_(?:SUBST|ARG_VAR|CHECK_PROGS?|PATH_PROG)\(\[(\w+)\]", text)}


def definitions_of(text):
    """Returns what an idiom may define, with a `#` before each name."""
    names = {*re.findall(r"AC_DEFINE(?:_UNQUOTED)?\(\[(\w+)\]", text)}
    for kind, listed in re.findall(r"AC_CHECK_(HEADERS|FUNCS|DECLS|TYPES|LIB)\(\[([^\]]+)\]", text):
        prefix = {"DECLS": "HAVE_DECL_", "LIB": "HAVE_LIB"}.get(kind, "HAVE_")
        items = listed.split(",") if kind in ("DECLS", "TYPES") else listed.split()
        names |= {prefix + re.sub(r"\W", "_", it.strip().replace("*", "P")).upper() for it in items}
    return {f"#{name}" for name in names}


def cached(text):
    """Returns the names that the checks of one header, function, declaration or type are cached under."""
    kinds = {"HEADER": "header", "FUNC": "func", "DECL": "have_decl", "TYPE": "type"}
    found = re.findall(r"(?m)^AC_CHECK_(HEADER|FUNC|DECL|TYPE)\(\[([\w./]+)\]", text)
    return [f"ac_cv_{kinds[kind]}_{re.sub(r'[./]', '_', name)}" for kind, name in found]


def messages(text):
    return re.findall(r"AC_MSG_(?:NOTICE|WARN|ERROR)\(\[([^\]$]+)\]", text)


def other_values(folder, made, text):
    """Returns what a run leaves beside definitions and variables."""
    found = {"status": str(made.returncode)}
    found |= {f"file {name}": (folder / name).read_text() for name in OUTPUTS if (folder / name).exists()}
    found |= {f"message {it}": "printed" for it in messages(text) if it in made.stdout + made.stderr}
    return found


def helped(words, folder, text):
    """Returns the lines of the help for the options of a text."""
    if "AS_HELP_STRING" not in text:
        return {}
    options = re.findall(r"AC_ARG_(?:ENABLE|WITH)\(\[(\w+)", text)
    printed = run([*words, "--help"], folder).stdout
    lines = [" ".join(line.split()) for line in printed.splitlines() if any(f"-{it} " in f"{line} " for it in options)]
    return {"help": "\n".join(lines)}


class Autoconf:
    """Runs of Autoconf, which begin with a cache of what it asks in each."""

    def __init__(self):
        self.cache = ""
        found = self.left(source_with("AC_CHECK_TYPE([int])"), "", keeps=True)
        self.cache = found.pop("cache")
        self.base = self.left(source_with(""), "")

    def known(self, names):
        """Returns which of the names are macros of Autoconf."""
        text = "".join(f"m4_ifdef([{name}], [m4_errprintn([is {name}])])\n" for name in names)
        with tempfile.TemporaryDirectory() as top:
            pathlib.Path(top, "configure.ac").write_text(f"AC_INIT([x], [1])\n{text}AC_OUTPUT\n")
            return set(re.findall(r"is (\w+)", run(["autoconf"], top).stderr))

    def left(self, source, text, given=(), strict=False, keeps=False):
        """Returns what a run leaves. `text` is the idiom, whose messages are looked for."""
        with tempfile.TemporaryDirectory() as top:
            folder = pathlib.Path(top)
            put_files(folder, source)
            (folder / "config.cache").write_text(self.cache)
            for words in (["autoconf", "-Wall"], ["autoheader", "-Wall"]) if strict else (["autoconf"],):
                made = run(words, folder)
                if made.returncode or strict and made.stderr.strip():
                    return {"refused": f"{words[0]}: {made.stderr.strip()[:300]}"}
            cached = [] if any("=" in it for it in given) else ["-C"]
            made = run(["sh", "./configure", *cached, "CC=cc", "CFLAGS=", *given], folder)
            log = (folder / "config.log").read_text(errors="replace")
            said = log.partition("## Output variables. ##")[2]
            values, _, defined = said.partition("## confdefs.h. ##")
            found = {name: plain(value) for name, value in re.findall(r"(?m)^(\w+)='(.*)'$", values)}
            found |= {f"#{name}": value for name, value in re.findall(r"(?m)^#define (\w+) ?(.*)$", defined)}
            if (folder / "values").exists():
                found |= {name: plain(value) for name, value in values_of(folder).items() if value is not None}
            found |= other_values(folder, made, text) | helped(["sh", "./configure"], folder, text)
            if keeps:
                found["cache"] = (folder / "config.cache").read_text()
            return found

    def beside(self, found):
        """Returns what a run leaves otherwise than one without the text."""
        names = {*found, *self.base}
        return {name for name in names if found.get(name) != self.base.get(name) and not NONE_OF.match(name.lstrip("#"))}


def values_of(folder):
    rows = re.findall(r"(?m)^(\w+)=(.*)$", (folder / "values").read_text())
    return {name: None if value == f"@{name}@" else value for name, value in rows}


def left_by_acrun(program, source, text, names, given=(), has_no_programs=False):
    """Returns what a run of acrun leaves: these names, and what else it leaves."""
    with tempfile.TemporaryDirectory() as top:
        folder = pathlib.Path(top)
        put_files(folder, source)
        found_names = {*names, *definitions_of(text)}
        defined = sorted(name[1:] for name in found_names if name.startswith("#"))
        variables = sorted({name for name in found_names if re.fullmatch(r"\w+", name)} | {"INSTALL", "MKDIR_P"})
        (folder / "config.h.in").write_text("".join(f"#undef {name}\n" for name in defined))
        (folder / "values.in").write_text("".join(f"{name}=@{name}@\n" for name in variables))
        tools = folder / "tools"
        tools.mkdir()
        (tools / "sh").symlink_to(shutil.which("sh"))
        made = run([program, "configure", "CC=cc", "CFLAGS=", *given], folder, str(tools) if has_no_programs else "")
        found = other_values(folder, made, text) | helped([program, "configure"], folder, text)
        if made.returncode:
            return found | {"why": (made.stdout + made.stderr).strip()[-300:]}
        found |= {name: plain(value) for name, value in values_of(folder).items() if value is not None}
        if (folder / "config.h").exists():
            found |= {f"#{name}": value for name, value in re.findall(r"(?m)^#define (\w+) ?(.*)$", (folder / "config.h").read_text())}
        return found


def different(mine, theirs, names):
    """Yields the names whose values differ. What Autoconf defines by itself may be missing here."""
    for name in sorted(names):
        is_own = name.startswith("#") and OWN.match(name[1:]) and name not in mine
        if mine.get(name) != theirs.get(name) and not is_own:
            yield name


def in_words(name, mine, theirs):
    return f"{name} is {mine.get(name)!r}, and {theirs.get(name)!r} in Autoconf"


class Tries:
    def __init__(self, program, autoconf, known):
        self.program, self.autoconf, self.known = program, autoconf, known

    def compared(self, text, other, given, strict, shown):
        """Runs acrun with a text and Autoconf with another, and returns what both leave, and the names that differ."""
        subst = "".join(f"\nAC_SUBST([{name}])" for name in shown)
        theirs = self.autoconf.left(source_with(other + subst), text, given, strict)
        if "refused" in theirs:
            return {}, theirs, ["refused"]
        names = {name for name in self.autoconf.beside(theirs) if not ON_THE_WAY.match(name) or re.search(rf"\b{name}\b", text)}
        names |= {*shown, *output_variables(text), "CFLAGS", "CPPFLAGS", "LDFLAGS", "LIBS"}
        mine = left_by_acrun(self.program, source_with(text + subst), text, names, given)
        if mine["status"] != "0" and theirs["status"] != "0":
            names = {name for name in {*mine, *theirs} if name.startswith(("status", "message"))}
        names |= {name for name in mine if name not in ("why", "INSTALL", "MKDIR_P")}
        return mine, theirs, [*different(mine, theirs, names)]

    def block(self, text):
        """Returns what is wrong with a block of docs/macros.md."""
        if not self.autoconf:
            mine = left_by_acrun(self.program, source_with(text), text, set())
            return mine.get("why", "")
        mine, theirs, names = self.compared(text, text, (), True, [])
        return "; ".join(theirs.get("refused") or mine.get("why") or in_words(name, mine, theirs) for name in names[:3])

    def macro(self, entry, name):
        """Returns what the idiom leaves otherwise than the macro: a line for each name."""
        found, before = {}, "".join(f"{line}\n" for line in entry.before)
        text, call = before + entry.sample(), before + entry.within(entry.call(name))
        for given in entry.runs or [()]:
            mine, theirs, names = self.compared(text, call, given, False, [*assigned(text), *cached(text)])
            for it in names:
                said = theirs.get("refused") or in_words(it, mine, theirs)
                found.setdefault(it, f"{name} {' '.join(given)}: {said} {mine.get('why', '')}".strip())
        return found

    def trial(self, entry, trial):
        """Returns what a trial leaves otherwise than it should."""
        called = "the block" if trial.arguments is None else trial.arguments
        if trial.arguments is None:
            text = "\n".join(entry.block())
        else:
            text = entry.written(macro_table.arguments_of(trial.arguments) if trial.arguments else [])
        names = {*trial.wanted, *(f"#{name}" for name in trial.wanted)}
        shown = "".join(f"\nAC_SUBST([{name}])" for name in trial.wanted if name in assigned(text))
        mine = left_by_acrun(self.program, source_with(f"{trial.before}\n{text}{shown}"), text, names, trial.given, trial.has_no_programs)
        if mine["status"] != str(trial.status):
            return f"{called} {' '.join(trial.given)}: status {mine['status']}: {mine.get('why')}"
        found = {name: mine.get(f"#{name}", mine.get(name)) for name in trial.wanted}
        wrong = [f"{name} is {value!r}" for name, value in found.items() if value != wanted_of(trial, name)]
        return f"{called} {' '.join(trial.given)}: {', '.join(wrong)}" if wrong else ""

    def entry(self, entry):
        """Returns how an idiom was tried, and what is wrong with it."""
        names = [name for name in entry.names if name.partition("(")[0] in self.known - FATAL]
        stated = [name for listed, _ in entry.differing for name in listed]
        wrong, seen = [], set()
        if entry.is_run():
            said = self.block("\n".join([*entry.before, *entry.block()]))
            wrong += [f"the block: {said}"] if said else []
        for name in names:
            found = self.macro(entry, name)
            seen |= {*found}
            wrong += [line for it, line in found.items() if not any(is_of(it, name) for name in stated)]
        if names:
            wrong += [f"{name} is stated to differ, and does not" for name in stated if not any(is_of(it, name) for it in seen)]
        trials = [(name, trial) for name in entry.names for trial in TRIALS.get(name, [])]
        wrong += [f"{name}: {said}" for name, trial in trials for said in [self.trial(entry, trial)] if said]
        if names:
            return ("differ as stated" if entry.differing else "agree"), wrong
        if not trials and self.autoconf:
            wrong.append("neither Autoconf nor TRIALS has it")
        return ("tried" if trials else "run"), wrong


def is_of(difference, stated):
    """Returns whether a difference is of a name that is stated to differ, which may end with a `*`."""
    return fnmatch.fnmatchcase(difference.lstrip("#").split(" ")[0], stated)


def wanted_of(trial, name):
    return trial.wanted[name] if trial.wanted[name] is None else plain(trial.wanted[name])


def main(words):
    program, chosen = str(pathlib.Path(words[0]).resolve()), set(words[1:])
    entries = [entry for section in macro_table.sections() for entry in section.idioms()]
    entries = [entry for entry in entries if not chosen or chosen & {*entry.names}]
    raw = [(section.heading, "\n".join(section.raw)) for section in macro_table.sections() if section.raw and not chosen]
    autoconf = Autoconf() if shutil.which("autoconf") else None
    known = autoconf.known([name.partition("(")[0] for entry in entries for name in entry.names]) if autoconf else set()
    tries, counts, failed = Tries(program, autoconf, known), {}, 0
    for name in sorted({*TRIALS} - {name for entry in macro_table.entries() for name in entry.names}):
        sys.exit(f"no idiom is of {name}, which TRIALS has")
    with concurrent.futures.ThreadPoolExecutor(max_workers=os.cpu_count()) as pool:
        of_entries = zip(entries, pool.map(tries.entry, entries))
        for entry, (how, wrong) in of_entries:
            for line in wrong:
                print(f"{entry.names[0]}: {line}", flush=True)
            failed += bool(wrong)
            counts[how] = counts.get(how, 0) + (not wrong)
    for heading, text in raw:
        said = tries.block(text)
        print(f"{heading}: {said}\n" if said else "", end="")
        failed += bool(said)
    print(f"{counts.get('agree', 0)} idioms agree with their macros, {counts.get('differ as stated', 0)} differ as stated, ", end="")
    print(f"{counts.get('tried', 0)} were tried by what they are for, {counts.get('run', 0)} were only run, {failed} failed")
    return int(failed > 0)


if __name__ == "__main__":
    sys.exit(main(sys.argv[1:]))
