#!/usr/bin/env python3
"""Cuts runs of `acrun configure` at each child in turn, starts them again, and compares what they leave with an uncut run.

    tools/cut_and_resume.py PROGRAM [--sources 500] [--seed N] [--from N] [--jobs N] [--no-tally] [--no-broken]
    tools/cut_and_resume.py PROGRAM --show N          shows source N, and what comes of it
    tools/cut_and_resume.py PROGRAM --show-broken KIND

A source is a function of the seed and its number. It is run with `-C` and without a cut. Then, for each child of that run, it is
run once with the start of this child refused and once with the wait for it refused, each time in a new directory; and then again,
with the same arguments and the cache that the cut run left. Where children are asked for at once, it is also run with some of
them refused together. The windows are -j1, -j4 and -j16 at random. So is examples/tally,
with the real compiler `gcc`.

The second run has to be as the uncut one, byte for byte: the exit status, each output, the record config.status, the cache; and how
the messages end: the last line of standard error, and what is printed of outputs. The cut run has to end with status 3 and its
line, to leave no output and no record, and a cache with just the values of the tests that it completed. The children of the second
run have to be those children of the uncut run, in order and with the same words and conftests, that belong to a test whose value
the cut run did not save: so they are the earlier children of the cut test, of a list that is asked for at once the refused entry
alone, those of tests that left no value to be saved, and all that the cut run did not reach. To which test a child belongs is
read in config.log.

The generator keeps the premises on which a run that was cut ends as an uncut one (docs/how-it-runs.md):

- A program is tried only in the commands of AC_CACHE_CHECK.
- No cache name is assigned, except in the commands of its own AC_CACHE_CHECK.
- A cache name is read only after a test of it, in the same list of statements or in one around it; in an action of a list of
  entries, that of the first entry.
- No name of AC_CACHE_CHECK or of a test of a program is tested by a second statement, nor in an action of a list of several entries.
- A test that leaves no value to be saved gets the same replies again: the compiler, tools/checksum_compiler.c, answers by a checksum.
- The cache is far below its limit.
- The source, the arguments, the environment and the templates stay the same.

The second kind of sources, the broken ones, each break one of these: there the comparison has to find a difference at some cut.
The exit status is 1 if a source that keeps the premises has a difference, or a broken one has none.
"""
import argparse
import collections
import ctypes
import os
import pathlib
import random
import re
import shutil
import subprocess
import sys
import tempfile
import time
from concurrent.futures import ProcessPoolExecutor

ROOT = pathlib.Path(__file__).resolve().parent.parent
PACKAGE = ROOT / "examples/tally"
WINDOWS = ["-j1", "-j4", "-j16"]
KINDS = ["REFUSE_START", "REFUSE_WAIT"]
# programs that are in PATH; those of an odd number are in its second directory
PROGRAMS = 200
# tests that leave a value whatever their children answer
ALWAYS_SAVED = re.compile("ac_cv_(header|func|have_decl|type|lib|search)_")
# kinds of cuts that many sources have to reach
IN_LIST, TOGETHER, IN_TEST, UNSAVED, SAVED = CUTS = [
    "in a list that is asked for at once", "at several of its children", "after earlier children of their test", "after a test that left no value", "with saved tests"]

# ---- sources


def shell_part(text):
    """The text as the end of a cache name."""
    return re.sub(r"[^A-Za-z0-9_]", "_", re.sub(r"[*+]", "p", text))


def name_of(message, programs):
    """The cache name of the test that prints this after `checking`, which ends in `... `. Programs have the names that are given."""
    found = re.fullmatch(r"for library containing (.*)", message)
    if found:
        return "ac_cv_search_" + shell_part(found[1])
    found = re.fullmatch(r"whether (\S+) is declared", message)
    if found:
        return "ac_cv_have_decl_" + shell_part(found[1])
    found = re.fullmatch(r"for (\S+) in -l(\S+)", message)
    if found:
        return "ac_cv_lib_" + shell_part(found[2] + "_" + found[1])
    found = re.match(r"for thing (\d+)", message)
    if found:
        return "my_cv_thing_" + found[1]
    entry = message.removeprefix("for ")
    if entry in programs:
        return programs[entry]
    if entry.endswith(".h"):
        return "ac_cv_header_" + shell_part(entry)
    return ("ac_cv_func_" if entry.startswith("f_") else "ac_cv_type_") + shell_part(entry)


class Source:
    """A configure.ac with its templates and arguments, and what is known of its tests."""

    def __init__(self):
        self.files, self.words, self.programs, self.batches, self.cache = {}, [], {}, [], None
        self.before_again = lambda room: None
        self.words_again = None


class Maker:
    """Makes a source at random, which keeps the premises."""

    def __init__(self, rng):
        self.rng, self.source = rng, Source()
        self.things = self.tools = self.children = 0
        self.defined, self.substituted, self.tested_once = set(), set(), set()
        self.is_conditional = False
        self.most = rng.choice([6, 8, 10, 12, 16, 20, 24])

    # names

    def header(self):
        return self.rng.choice(["a", "b", "c", "d", "sys/e", "sys/f"]) + ".h"

    def function(self):
        return "f_" + self.rng.choice("abcdefgh")

    def declaration(self):
        return "d_" + self.rng.choice("abcdef")

    def type(self):
        return self.rng.choice(["t_a", "t_b", "struct s_a", "struct s_b", "t_a *", "union u"])

    def library(self):
        return self.rng.choice(["m", "c", "z", "stdc++", "x-1.0"])

    def variable(self):
        return self.rng.choice(["v0", "v1", "v2", "v3", "CPPFLAGS", "LIBS"])

    def tool(self):
        """A program that no other statement looks for, and that may be there."""
        self.tools += 1
        return f"{self.rng.choice(['here', 'gone'])}{self.tools}"

    def some(self, choose, most=5):
        count = self.rng.choice([1, 1, 2, 2, 3, 3, 4, most])
        return [choose() for _ in range(count)]

    # texts that read

    def readable(self, tested):
        """A variable that may be read after these tests; often one of these."""
        if tested and self.rng.random() < 0.7:
            return self.rng.choice(sorted(tested))
        return self.rng.choice(["v0", "v1", "v2", "v3", "enable_o1", "with_p1", "CFLAGS", "LIBS"])

    def text(self, tested):
        parts = [self.rng.choice(["", "a", "b-", "x ", "1"])]
        for _ in range(self.rng.choice([0, 1, 1, 2])):
            parts.append("$" + self.braced(self.readable(tested)))
            parts.append(self.rng.choice(["", "-", " y"]))
        return "".join(parts)

    def braced(self, name):
        return "{" + name + "}"

    def word(self, tested):
        return '"' + self.text(tested) + '"'

    def test(self, tested):
        def element():
            name = self.readable(tested)
            value = self.rng.choice(["yes", "no", "none required", "-lm", ""])
            return self.rng.choice([
                f'test "${name}" = "{value}"', f'test "x${name}" != "x{value}"', f'test -n "${name}"', f'test -z "${name}"',
                f'! test "${name}" = yes', "true", "false"])
        count = self.rng.choice([1, 1, 1, 2])
        return self.rng.choice([" && ", " || "]).join(element() for _ in range(count))

    def patterns(self):
        return self.rng.choice(["yes", "no", "y*", "-l* | none*", "''", "*n*"])

    # statements; each is given the names that may be read, and adds to them what it tests

    def list_of(self, tested, depth, may_test_once):
        """Statements, and the names that they test."""
        tested, lines = set(tested), []
        for _ in range(self.rng.choice([0, 1, 1, 2, 3])):
            lines.append(self.statement(tested, depth, may_test_once))
        return "\n".join(lines)

    def action(self, tested, depth, may_test_once):
        if depth > 2 or self.rng.random() < 0.45:
            return ""
        return self.list_of(tested, depth + 1, may_test_once)

    def statement(self, tested, depth=0, may_test_once=True):
        kinds = [self.assign] * 3 + [self.subst, self.define, self.define, self.define_unquoted, self.message]
        if depth < 3:
            kinds += [self.choose, self.choose, self.match]
            kinds += [self.option] if depth else [self.option, self.option]
        if self.children < self.most:
            kinds += [self.batch] * 4
            if depth < 3:
                kinds += [self.listed] * 3 + [self.single] * 3 + [self.types, self.types, self.check_lib, self.check_lib, self.search_libs]
                kinds += [self.search_libs]
            if may_test_once:
                kinds += [self.check] * 5 + [self.program] * 2
        return self.rng.choice(kinds)(tested, depth, may_test_once)

    def assign(self, tested, depth, once):
        name = self.variable()
        if name in ("CPPFLAGS", "LIBS"):
            return f'{name}="${name} -D{self.rng.choice("ABC")}"' if name == "CPPFLAGS" else f'LIBS="$LIBS -l{self.library()}"'
        return f"{name}={self.word(tested)}"

    def subst(self, tested, depth, once):
        if self.rng.random() < 0.3:
            name = self.rng.choice(["v0", "v1", "v2"])
            self.substituted.add(name)
            return f"AC_SUBST([{name}], [{self.word(tested)}])"
        name = self.readable(tested)
        self.substituted.add(name)
        return f"AC_SUBST([{name}])"

    def define(self, tested, depth, once):
        name = "D" + str(self.rng.randrange(8))
        self.defined.add(name)
        return f"AC_DEFINE([{name}])" if self.rng.random() < 0.3 else f"AC_DEFINE([{name}], [{self.rng.randrange(100)}])"

    def define_unquoted(self, tested, depth, once):
        name = "D" + str(self.rng.randrange(8))
        self.defined.add(name)
        return f'AC_DEFINE_UNQUOTED([{name}], ["{self.text(tested)}"])'

    def message(self, tested, depth, once):
        text = self.text(tested)
        if depth and self.rng.random() < 0.3:
            return f"AC_MSG_ERROR([stopped by {text}], [{self.rng.choice([1, 3, 77])}])"
        return self.rng.choice([f"AC_MSG_NOTICE([notice {text}])", f"AC_MSG_WARN([warning {text}])",
                                f"AC_MSG_CHECKING([something])\nAC_MSG_RESULT([result {text}])"])

    def choose(self, tested, depth, once):
        parts = [self.test(tested), self.list_of(tested, depth + 1, once)]
        while self.rng.random() < 0.3:
            parts += [self.test(tested), self.list_of(tested, depth + 1, once)]
        if self.rng.random() < 0.5:
            parts.append(self.list_of(tested, depth + 1, once))
        return "AS_IF(" + ", ".join(f"[{it}]" for it in parts) + ")"

    def match(self, tested, depth, once):
        parts = [f"${self.readable(tested)}"]
        for _ in range(self.rng.choice([1, 2])):
            parts += [self.patterns(), self.list_of(tested, depth + 1, once)]
        if self.rng.random() < 0.5:
            parts.append(self.list_of(tested, depth + 1, once))
        return "AS_CASE(" + ", ".join(f"[{it}]" for it in parts) + ")"

    def option(self, tested, depth, once):
        macro, name, value = self.rng.choice([("AC_ARG_ENABLE", "o1", "enableval"), ("AC_ARG_WITH", "p1", "withval")])
        given = self.rng.choice([f"v1=${value}", self.list_of(tested, depth + 1, once)])
        return f"{macro}([{name}], [], [{given}], [{self.list_of(tested, depth + 1, once)}])"

    def includes(self, tested):
        return self.rng.choice(["", "", "AC_INCLUDES_DEFAULT\n#include <z.h>", f"/* {self.text(tested)} */"])

    def listed_kind(self):
        """A macro for lists, one for an entry, a function that chooses an entry, what separates entries, and how a name begins."""
        return self.rng.choice([
            ("AC_CHECK_HEADERS", "AC_CHECK_HEADER", self.header, " ", "ac_cv_header_"),
            ("AC_CHECK_FUNCS", "AC_CHECK_FUNC", self.function, " ", "ac_cv_func_"),
            ("AC_CHECK_DECLS", "AC_CHECK_DECL", self.declaration, ", ", "ac_cv_have_decl_")])

    def define_entries(self, macro, entries):
        before = "HAVE_DECL_" if macro == "AC_CHECK_DECLS" else "HAVE_"
        for it in entries:
            self.defined.add(before + re.sub(r"[^A-Z0-9_]", "_", it.upper().replace("*", "P")))

    def batch(self, tested, depth, once):
        macro, _, choose, comma, prefix = self.listed_kind()
        entries = self.some(choose, 6)
        self.define_entries(macro, entries)
        self.children += len(set(entries))
        includes = "" if macro == "AC_CHECK_FUNCS" else self.includes(tested)
        names = [prefix + shell_part(it) for it in entries]
        tested.update(names)
        self.source.batches.append(set(names))
        return f"{macro}([{comma.join(entries)}]" + (f", [], [], [{includes}])" if includes else ")")

    def listed(self, tested, depth, once):
        macro, _, choose, comma, prefix = self.listed_kind()
        entries = self.some(choose, 4)
        self.define_entries(macro, entries)
        self.children += len(set(entries))
        includes = "" if macro == "AC_CHECK_FUNCS" else self.includes(tested)
        names = [prefix + shell_part(it) for it in entries]
        inside = tested | {names[0]}
        once = once and len(entries) == 1
        found, missing = self.action(inside, depth, once) or "v3=$v3.", self.action(inside, depth, once)
        tested.update(names)
        return f"{macro}([{comma.join(entries)}], [{found}], [{missing}]" + (f", [{includes}])" if includes else ")")

    def single(self, tested, depth, once):
        _, macro, choose, _, prefix = self.rng.choice([self.listed_kind(), ("", "AC_CHECK_TYPE", self.type, "", "ac_cv_type_")])
        entry = choose()
        self.children += 2 if macro == "AC_CHECK_TYPE" else 1
        includes = "" if macro == "AC_CHECK_FUNC" else self.includes(tested)
        tested.add(prefix + shell_part(entry))
        found, missing = self.action(tested, depth, once), self.action(tested, depth, once)
        return f"{macro}([{entry}], [{found}], [{missing}]" + (f", [{includes}])" if includes else ")")

    def types(self, tested, depth, once):
        entries = self.some(self.type, 3)
        self.define_entries("", entries)
        self.children += 2 * len(set(entries))
        includes = self.includes(tested)
        names = ["ac_cv_type_" + shell_part(it) for it in entries]
        inside = tested | {names[0]}
        once = once and len(entries) == 1
        found, missing = self.action(inside, depth, once), self.action(inside, depth, once)
        tested.update(names)
        return f"AC_CHECK_TYPES([{', '.join(entries)}], [{found}], [{missing}], [{includes}])"

    def others(self, tested):
        return self.rng.choice(["", "", "-lq", "$" + self.readable(tested)])

    def check_lib(self, tested, depth, once):
        library, function, others = self.library(), self.function(), self.others(tested)
        self.defined.add("HAVE_LIB" + re.sub(r"[^A-Z0-9_]", "_", library.upper()))
        self.children += 1
        tested.add("ac_cv_lib_" + shell_part(library + "_" + function))
        found, missing = self.action(tested, depth, once), self.action(tested, depth, once)
        return f"AC_CHECK_LIB([{library}], [{function}], [{found}], [{missing}], [{others}])"

    def search_libs(self, tested, depth, once):
        function, libraries, others = self.function(), self.some(self.library, 3), self.others(tested)
        self.children += 2
        tested.add("ac_cv_search_" + function)
        found, missing = self.action(tested, depth, once), self.action(tested, depth, once)
        return f"AC_SEARCH_LIBS([{function}], [{' '.join(libraries)}], [{found}], [{missing}], [{others}])"

    def program(self, tested, depth, once):
        self.children += 2
        variable = "P" + str(self.tools)
        kind = self.rng.choice(["one", "several", "path"])
        self.substituted.add(variable)
        otherwise = self.rng.choice(["", f", [{self.text(tested)}]", ", [none]"])
        programs = [self.tool() for _ in range(self.rng.choice([1, 2, 3]) if kind == "several" else 1)]
        name = ("ac_cv_path_" if kind == "path" else "ac_cv_prog_") + variable
        self.source.programs.update((it, name) for it in programs)
        self.tested_once.add(name)
        tested.add(name)
        before = self.rng.choice(["", "", "", f"{variable}=given\n", f"{variable}=/given\n"])
        if kind == "one":
            return before + f"AC_CHECK_PROG([{variable}], [{programs[0]}], [{self.text(tested - {name}) or 'found'}]{otherwise})"
        macro = "AC_CHECK_PROGS" if kind == "several" else "AC_PATH_PROG"
        return before + f"{macro}([{variable}], [{' '.join(programs)}]{otherwise})"

    def check(self, tested, depth, once):
        self.things += 1
        number = self.things
        name = f"my_cv_thing_{number}"
        message = f"for thing {number}" + self.rng.choice(["", "", f" of {self.text(tested)}"])
        commands = "\n".join(self.command(name, tested, 0) for _ in range(self.rng.choice([1, 1, 2])))
        tested.add(name)
        return f"AC_CACHE_CHECK([{message}], [{name}],\n  [{commands}])"

    def value(self, tested):
        return self.rng.choice(["yes", "no", "yes", "no", self.word(tested), '"it\'s {a}"', "'a\nb'", ""])

    def commands(self, name, tested, depth):
        return "\n".join(self.command(name, tested, depth + 1) for _ in range(self.rng.choice([0, 1, 1, 2])))

    def command(self, name, tested, depth):
        kind = self.rng.random()
        if depth > 2 or kind < 0.25 + 0.25 * depth:
            return self.rng.choice([f"{name}={self.value(tested)}", f"{name}={self.value(tested)}", ":"])
        if kind < 0.85:
            self.children += 1
            macro = self.rng.choice(["AC_COMPILE_IFELSE", "AC_LINK_IFELSE", "AC_PREPROC_IFELSE", "AC_RUN_IFELSE"])
            text = self.text(tested)
            program = self.rng.choice([
                f"AC_LANG_PROGRAM([[#include <z.h>]], [[return {self.rng.randrange(100)};]])",
                f"AC_LANG_PROGRAM([/* {text} */], [return {self.rng.randrange(100)};])",
                f"AC_LANG_SOURCE([int x = {self.rng.randrange(100)}; /* {text} */])"])
            return f"{macro}([{program}], [{self.commands(name, tested, depth)}], [{self.commands(name, tested, depth)}])"
        if kind < 0.95:
            return f"AS_IF([{self.test(tested)}], [{self.commands(name, tested, depth)}], [{self.commands(name, tested, depth)}])"
        word = "$" + self.readable(tested)
        return f"AS_CASE([{word}], [{self.patterns()}], [{self.commands(name, tested, depth)}], [{self.commands(name, tested, depth)}])"

    # the whole

    def compiler(self):
        """The statements that find the compiler, and the arguments that name it."""
        kind = self.rng.choice(["argument", "argument", "searched", "both"])
        if kind == "argument":
            self.source.words.append("CC={compiler}")
            return ""
        if kind == "searched":
            gone = self.tool().replace("here", "gone")
            self.source.programs.update({gone: "ac_cv_prog_CC", "stcc": "ac_cv_prog_CC"})
            return f"AC_PROG_CC([{gone} stcc])\n"
        self.source.words.append("CC={compiler}")
        return "AC_PROG_CC\n"

    def statements(self):
        tested, lines = set(), []
        while self.children < self.most and len(lines) < 40:
            lines.append(self.statement(tested))
        for _ in range(self.rng.choice([0, 1, 3])):
            lines.append(self.statement(tested))
        return "\n".join(lines)

    def finish(self, statements):
        """The source that has these statements."""
        source, rng = self.source, self.rng
        with_header, with_file = rng.random() < 0.8, rng.random() < 0.9
        head = "AC_INIT([made], [1.0])\n"
        if with_header:
            head += "AC_CONFIG_HEADERS([config.h])\n"
        if with_file:
            head += rng.choice(["AC_CONFIG_FILES([out])\n", "AC_CONFIG_FILES([out sub/second:out.in])\n"])
        if rng.random() < 0.3:
            head += "AC_ARG_VAR([V_P], [a precious variable])\n"
            source.words += rng.choice([[], ["V_P=1"], ["V_P=a  b"]])
        source.files["configure.ac"] = head + statements + "\nAC_OUTPUT\n"
        source.files["out.in"] = "".join(f"{it}=@{it}@\n" for it in sorted(self.substituted | {"LIBS", "CC", "DEFS", "CPPFLAGS", "prefix"}))
        source.files["config.h.in"] = "".join(f"#undef {it}\n" for it in sorted(self.defined | {"PACKAGE_NAME"}))
        source.words.append(f"CFLAGS=-O{rng.randrange(1 << 30)}")
        for option in ("--enable-o1", "--with-p1"):
            if rng.random() < 0.4:
                source.words.append(option + rng.choice(["", "=no", "=a b"]))
        if rng.random() < 0.1:
            source.words.append(f"ac_cv_func_{self.function()}={rng.choice(['yes', 'no', 'maybe'])}")
        return source


def make_source(seed, number):
    """A source that keeps the premises."""
    rng = random.Random(f"{seed} {number}")
    maker = Maker(rng)
    compiler = maker.compiler()
    source = maker.finish(compiler + maker.statements())
    # of some sources, the runs begin with a part of the cache of an uncut run
    source.cache = rng.random() if rng.random() < 0.15 else None
    return source


# ---- sources that break a premise

CHECK = "AC_CACHE_CHECK([for thing {0}], [my_cv_thing_{0}], [{1}])\n"
LAST = "AC_CHECK_FUNC([f_last])\n"


def seen_if(test):
    return f"AS_IF([{test}], [v0=\"$v0 seen\"])\n"


def set_moved(room):
    (room / "moved").touch()


def broken_sources():
    """For each premise a source that breaks it, by the name of what it breaks."""
    def source(lines, programs={}):
        maker = Maker(random.Random(len(lines)))
        maker.source.words.append("CC={compiler}")
        maker.source.programs.update(programs)
        maker.substituted.update(["v0", "v1", "T"])
        return maker.finish("AC_SUBST([v0])\n" + lines)

    found = {}
    found["a name is read before its test"] = source(
        seen_if('test "$my_cv_thing_1" = yes') + CHECK.format(1, "my_cv_thing_1=yes") + LAST)
    found["a name is read after a test in a case alone"] = source(
        "AS_IF([false], [AC_CHECK_FUNC([f_z])])\n" + seen_if('test -n "$ac_cv_func_f_z"') + "AC_CHECK_FUNC([f_z])\n" + LAST)
    found["an action of a list reads a name of another entry"] = source(
        "AC_CHECK_HEADERS([a.h b.h], [{0}], [{0}])\n".format(seen_if('test -n "$ac_cv_header_b_h"').strip()) + LAST)
    found["a cache name is assigned"] = source(
        CHECK.format(1, "my_cv_thing_1=yes") + "v0=$my_cv_thing_1\nmy_cv_thing_1=other\n" + LAST)
    tried = found["a program is tried outside AC_CACHE_CHECK"] = source(
        "AC_COMPILE_IFELSE([AC_LANG_PROGRAM([], [unsteady])], [v0=yes], [v0=no])\n" + LAST)
    found["the name of AC_CACHE_CHECK is tested twice"] = source(
        CHECK.format(1, ":") + seen_if('test -n "$my_cv_thing_1"') + CHECK.format(1, "my_cv_thing_1=yes") + LAST)
    found["the name of a program test is tested twice"] = source(
        "AC_CHECK_PROG([T], [gone1], [yes])\n" + seen_if('test -n "$T"') + "T=\nAC_CHECK_PROG([T], [here2], [yes])\n" + LAST,
        {"gone1": "ac_cv_prog_T", "here2": "ac_cv_prog_T"})
    moved = found["a test without a saved value gets other replies"] = source(
        CHECK.format(1, "AC_COMPILE_IFELSE([AC_LANG_PROGRAM([], [unsteady])], [my_cv_thing_1='a\nb'], [my_cv_thing_1='b\na'])")
        + "AC_SUBST([my_cv_thing_1])\nAC_DEFINE_UNQUOTED([THING], [\"$my_cv_thing_1\"])\nv0=$my_cv_thing_1\n" + LAST)
    tried.before_again = moved.before_again = set_moved
    doubled = "v1=$v1$v1\n" * 16
    found["the cache is over its limit"] = source(
        "v1=" + "x" * 64 + "\n" + doubled + CHECK.format(1, "my_cv_thing_1=$v1") + "v1=\n" + LAST)
    argument = found["an argument is another one"] = source("AC_ARG_ENABLE([o1], [], [v0=$enableval], [v0=none])\n" + LAST)
    argument.words_again = ["--enable-o1=again"]
    return found


# ---- runs


class Bench:
    """The programs, and the directories in which they are."""

    def __init__(self, place, program):
        self.place = pathlib.Path(place)
        first, second = self.place / "first", self.place / "second"
        first.mkdir()
        second.mkdir()
        self.program = self.place / "acrun"
        shutil.copy(program, self.program)
        for name in ("sh", "true", "false"):
            (first / name).symlink_to(os.path.realpath(shutil.which(name)))
        self.compiler = "../../first/stcc"
        subprocess.run(["gcc", "-O1", "-static", "-o", first / "stcc", ROOT / "tools/checksum_compiler.c"], check=True)
        for number in range(PROGRAMS):
            (second if number % 2 else first).joinpath(f"here{number}").symlink_to(os.path.realpath(shutil.which("true")))
        # seen from the directory of a run; so what a run finds does not depend on the place
        self.path = "../../first:../../second"
        self.library = self.place / "refuse_children.so"
        subprocess.run(["gcc", "-shared", "-fPIC", "-O1", "-o", self.library, ROOT / "tools/refuse_children.c", "-ldl"], check=True)


class Run:
    """What can be seen of a run: its status, what it printed, the files that it left, its starts, and to which tests they belong."""

    def __init__(self, bench, source, room, window, refused=None, is_again=False):
        log = room.parent / "starts"
        env = {"PATH": source.path or bench.path, "LC_ALL": "C", "LD_PRELOAD": str(bench.library), "REFUSE_LOG": str(log)}
        env |= {kind: ",".join(map(str, numbers)) for kind, numbers in (refused or {}).items()}
        words = [it.format(compiler=bench.compiler) for it in source.words]
        words += source.words_again if is_again and source.words_again else []
        done = subprocess.run([bench.program, window, "configure", "-C", *words], cwd=room, env=env, stdin=subprocess.DEVNULL,
                              capture_output=True, timeout=600)
        self.status, self.output, self.errors = done.returncode, done.stdout, done.stderr
        self.left = children_left()
        self.texts = {}
        for folder, _, names in os.walk(room):
            for name in names:
                path = os.path.join(folder, name)
                shown = os.path.relpath(path, room)
                if name.startswith("conftest") or shown in source.files or name == "moved":
                    continue
                self.texts[shown] = pathlib.Path(path).read_bytes()
        self.log = self.texts.pop("config.log", b"").decode("latin-1")
        self.cache = self.texts.get("config.cache", b"")
        self.starts = starts_in(log.read_bytes())
        self.tests = [it and name_of(it, source.programs) for it in tests_in(self.log)]

    def saved(self):
        """The names that the cache gives a value."""
        return set(re.findall(r"^(?:test \$\{)?([A-Za-z0-9_]+)(?:=|\+y\})", self.cache.decode("latin-1"), re.M))

    def end(self):
        """How the messages end: the last line of standard error, and the lines about outputs."""
        outputs = [it for it in self.output.splitlines() if it.startswith(b"config.status: ")]
        return self.errors.splitlines()[-1:], outputs


def children_left():
    """Whether the program has left a child, running or ended. Each such child comes to this process."""
    try:
        os.waitpid(-1, os.WNOHANG)
        return True
    except ChildProcessError:
        return False


def starts_in(text):
    """The starts that tools/refuse_children.c wrote down: the words of each, and its conftest."""
    found, at = [], 0
    while at < len(text):
        end = text.index(b"\n", at)
        numbers = [int(it) for it in text[at:end].split()]
        at, parts = end + 1, []
        for length in numbers[1:]:
            parts.append(text[at:at + max(length, 0)])
            at += max(length, 0)
        found.append(tuple(parts))
    return found


def tests_in(log):
    """The message of the test of each child in the log, or None if the child is of no test."""
    found, message, is_in_message, is_in_child, is_after_child = [], None, False, False, False
    for line in log.split("\n"):
        if is_in_child:
            if re.fullmatch(r"status \d+|start refused|wait refused", line):
                is_in_child, is_after_child = False, True
        elif line.startswith("$ "):
            found.append(message)
            is_in_child = True
        elif is_after_child and (line == "failed program was:" or line.startswith("| ")):
            pass
        elif is_in_message or line.startswith("checking "):
            # a message goes on to its three dots, since a value in it may have a newline
            message = f"{message}\n{line}" if is_in_message else line[9:]
            is_in_message, is_after_child = not message.endswith("... "), False
            message = message.removesuffix("... ")
        else:
            message, is_after_child = None, False
    return found


# ---- the comparison


def about_cut(source, uncut, cut, refused):
    """What is wrong with a run in which the children of these numbers were refused."""
    wrong, number = [], min(refused)
    if cut.left:
        wrong.append("the cut run left a child")
    if cut.status != 3 or cut.end()[0] != [b"configure: cut short at child %d" % number]:
        wrong.append(f"the cut run ends with {cut.status} and {cut.errors!r}")
    if set(cut.texts) != {"config.cache"}:
        wrong.append(f"the cut run leaves {sorted(cut.texts)}")
    asked = len(cut.starts)
    if cut.starts != uncut.starts[:asked] or len(cut.tests) != asked or asked < number:
        wrong.append(f"the cut run asks {asked} children, and not those of the uncut run")
    names = set(uncut.tests[number - 1:asked])
    if asked != number and not any(names <= batch for batch in source.batches):
        wrong.append(f"after the cut {asked - number} more children are asked")
    cut_tests = {uncut.tests[it - 1] for it in refused}
    kept = {it for it in uncut.saved() if it not in uncut.tests}
    whole = {it for it in uncut.tests[:asked] if it not in cut_tests and it in uncut.saved()}
    # what the opening sets, or the cache from before, is saved too
    if cut.saved() - kept != whole:
        wrong.append(f"the cut run saves {sorted(cut.saved() - kept)} and not {sorted(whole)}")
    lines = set(uncut.cache.split(b"\n"))
    if not set(cut.cache.split(b"\n")) <= lines:
        wrong.append(f"the cut run saves another value: {sorted(set(cut.cache.splitlines()) - lines)}")
    return wrong


def about_again(uncut, cut, again):
    """What is wrong with the run that was started again."""
    wrong = []
    if again.left:
        wrong.append("the second run left a child")
    if again.status != uncut.status:
        wrong.append(f"status {again.status} and not {uncut.status}: {again.errors[-300:]!r}")
    if again.end() != uncut.end():
        wrong.append(f"its messages end with {again.end()} and not {uncut.end()}")
    for name in sorted(set(again.texts) | set(uncut.texts)):
        if again.texts.get(name) != uncut.texts.get(name):
            wrong.append(f"{name} differs: {again.texts.get(name)!r} and not {uncut.texts.get(name)!r}"[:1500])
    saved = cut.saved()
    again_asked = sorted({it for it in again.tests if it in saved})
    if again_asked:
        wrong.append(f"it asks saved tests again: {again_asked}")
    if None in again.tests and None in cut.tests:
        wrong.append("it asks again what is no test")
    wanted = [start for start, name in zip(uncut.starts, uncut.tests) if name not in saved]
    if again.starts != wanted:
        wrong.append(f"it asks {len(again.starts)} children, and not the {len(wanted)} that are wanted: {again.tests}")
    return wrong


def room_for(bench, source, cache, act):
    """Does something in a new directory that has the files of a source."""
    with tempfile.TemporaryDirectory(dir=bench.place) as name:
        room = pathlib.Path(name) / "room"
        room.mkdir()
        for path, text in source.files.items():
            (room / path).parent.mkdir(exist_ok=True)
            (room / path).write_text(text)
        if cache is not None:
            (room / "config.cache").write_bytes(cache)
        return act(room)


def first_cache(bench, source, rng):
    """The cache with which each run of a source begins, if it has one: some lines of the cache of an uncut run."""
    if source.cache is None:
        return None
    found = room_for(bench, source, None, lambda room: Run(bench, source, room, "-j1"))
    share = source.cache
    return b"".join(it + b"\n" for it in found.cache.splitlines() if rng.random() < share)


class Found:
    """What came of a source: the uncut run, the numbers of cuts and of children, and the differences."""

    def __init__(self):
        self.status, self.cuts, self.children, self.again, self.wrong = None, 0, 0, 0, []
        self.kinds = collections.Counter()


def compare(bench, source, rng):
    """Runs a source uncut, and cut at each child and started again."""
    found = Found()
    cache = first_cache(bench, source, rng)
    uncut = room_for(bench, source, cache, lambda room: Run(bench, source, room, rng.choice(WINDOWS)))
    found.status, found.children = uncut.status, len(uncut.starts)
    if len(uncut.tests) != len(uncut.starts):
        found.wrong.append(f"the log has {len(uncut.tests)} children, and {len(uncut.starts)} were started")
        return found
    unsaved = {it for it in uncut.tests if it and ALWAYS_SAVED.match(it)} - uncut.saved()
    if unsaved:
        found.wrong.append(f"the uncut run does not save {sorted(unsaved)}")
    if uncut.status == 2 and uncut.errors.startswith(b"acrun: "):
        found.wrong.append(f"the source is refused: {uncut.errors!r}")
        return found

    def one(refused):
        """Cuts a run, starts it again, and returns how many children the cut run asked."""
        def both(room):
            cut = Run(bench, source, room, rng.choice(WINDOWS), refused)
            source.before_again(room)
            return cut, Run(bench, source, room, rng.choice(WINDOWS), None, True)

        cut, again = room_for(bench, source, cache, both)
        numbers = sorted(it for kind in refused.values() for it in kind)
        number = numbers[0]
        found.cuts += 1
        found.again += len(again.starts)
        found.kinds[IN_LIST] += any(uncut.tests[number - 1] in it for it in source.batches)
        found.kinds[TOGETHER] += len(numbers) > 1
        found.kinds[IN_TEST] += uncut.tests[number - 1] in uncut.tests[:number - 1]
        found.kinds[UNSAVED] += not set(uncut.tests[:number]) - {uncut.tests[number - 1]} <= cut.saved()
        found.kinds[SAVED] += bool(set(uncut.tests) & cut.saved())
        wrong = about_cut(source, uncut, cut, numbers) + about_again(uncut, cut, again)
        found.wrong.extend(f"{refused}: {it}" for it in wrong)
        return len(cut.starts)

    for number in range(1, len(uncut.starts) + 1):
        asked = min(one({kind: [number]}) for kind in KINDS)
        if asked > number:
            chosen = [it for it in range(number, asked + 1) if rng.random() < 0.6] or [number, asked]
            starts = [it for it in chosen if rng.random() < 0.5]
            one({"REFUSE_START": starts, "REFUSE_WAIT": [it for it in chosen if it not in starts]})
    return found


def attempt(bench, seed, number):
    ctypes.CDLL(None).prctl(36, 1, 0, 0, 0)  # PR_SET_CHILD_SUBREAPER
    return number, compare(bench, make_source(seed, number), random.Random(f"runs {seed} {number}"))


def tally():
    """The package examples/tally, whose compiler is gcc."""
    source = Source()
    for name in ("configure.ac", "Makefile.in", "doc/tally.1.in", "config.h.in"):
        source.files[name] = (PACKAGE / name).read_text()
    source.words = ["CC=gcc", "CFLAGS=-O2"]
    source.programs = {
        "cmp": "ac_cv_prog_CMP", "diff": "ac_cv_prog_CMP", "isatty": "ac_cv_func_isatty", "ioctl": "ac_cv_func_ioctl",
        "setlocale": "ac_cv_func_setlocale", "getline": "ac_cv_func_getline", "whether the C compiler makes programs": "tally_cv_prog_cc_works",
        "_Noreturn": "tally_cv_c_noreturn",
    }
    source.batches = [
        {"ac_cv_header_unistd_h", "ac_cv_header_sys_ioctl_h", "ac_cv_header_locale_h"},
        {"ac_cv_have_decl_getline", "ac_cv_have_decl_isatty", "ac_cv_have_decl_STDOUT_FILENO"}, {"ac_cv_have_decl_TIOCGWINSZ"},
        {"ac_cv_func_isatty", "ac_cv_func_ioctl", "ac_cv_func_setlocale"},
    ]
    source.path = os.environ["PATH"]
    return source


Source.path = None


def say(found, label, began):
    print(f"{label}: {found.children} children, {found.cuts} cuts, {found.again} children in the second runs, "
          f"{len(found.wrong)} differences, {time.time() - began:.0f} s", flush=True)
    for kind in CUTS:
        print(f"  {found.kinds[kind]} cuts {kind}")


def show(bench, source, rng):
    for name, text in source.files.items():
        print(f"--- {name}\n{text}", end="")
    print("--- arguments:", *source.words)
    found = compare(bench, source, rng)
    print("--- status", found.status)
    for it in found.wrong:
        print(it)
    say(found, "source", time.time())


def main():
    parser = argparse.ArgumentParser()
    parser.add_argument("program")
    parser.add_argument("--sources", type=int, default=500)
    parser.add_argument("--seed", type=int, default=1)
    parser.add_argument("--from", dest="start", type=int, default=1)
    parser.add_argument("--jobs", type=int, default=2)
    parser.add_argument("--no-tally", action="store_true")
    parser.add_argument("--no-broken", action="store_true")
    parser.add_argument("--show", type=int, metavar="N")
    parser.add_argument("--show-broken", metavar="KIND")
    arguments = parser.parse_args()
    os.nice(10)
    ctypes.CDLL(None).prctl(36, 1, 0, 0, 0)
    with tempfile.TemporaryDirectory(dir="/dev/shm" if os.path.isdir("/dev/shm") else None) as place:
        bench = Bench(place, arguments.program)
        if arguments.show is not None:
            show(bench, make_source(arguments.seed, arguments.show), random.Random(f"runs {arguments.seed} {arguments.show}"))
            return 0
        if arguments.show_broken:
            show(bench, broken_sources()[arguments.show_broken], random.Random(0))
            return 0
        is_right = all([
            try_sources(bench, arguments), arguments.no_tally or try_tally(bench), arguments.no_broken or try_broken(bench)])
        return 0 if is_right else 1


def try_sources(bench, arguments):
    """Tries sources that keep the premises, until enough of them have a child. Returns whether no run differs."""
    began, whole, sources, number = time.time(), Found(), 0, arguments.start
    statuses = collections.Counter()
    with ProcessPoolExecutor(arguments.jobs) as pool:
        while sources < arguments.sources:
            numbers = range(number, number + min(64, arguments.sources - sources))
            number = numbers.stop
            for at, found in pool.map(attempt, *zip(*((bench, arguments.seed, it) for it in numbers))):
                for it in found.wrong:
                    print(f"source {at}: {it}", flush=True)
                whole.wrong += found.wrong
                if found.children:
                    sources += 1
                    whole.children += found.children
                    whole.cuts += found.cuts
                    whole.again += found.again
                    whole.kinds += found.kinds
                    statuses[found.status] += 1
    ends = ", ".join(f"{count} end with {status}" for status, count in sorted(statuses.items()))
    say(whole, f"{sources} sources (numbers {arguments.start} to {number - 1} of seed {arguments.seed}; {ends})", began)
    is_complete = arguments.sources < 100 or all(whole.kinds[it] for it in CUTS)
    return not whole.wrong and whole.children > 0 and is_complete


def try_tally(bench):
    began = time.time()
    found = compare(bench, tally(), random.Random(0))
    for it in found.wrong:
        print(f"tally: {it}")
    say(found, f"tally (ends with {found.status})", began)
    return not found.wrong and found.children > 0 and found.status == 0


def try_broken(bench):
    """Tries sources that break a premise. Returns whether each of them differs at some cut."""
    is_right = True
    for kind, source in broken_sources().items():
        found = compare(bench, source, random.Random(0))
        is_seen = any("REFUSE_" in it for it in found.wrong)
        is_right &= is_seen
        print(f"broken, {kind}: {found.cuts} cuts, {len(found.wrong)} differences{'' if is_seen else ', so the test is at fault'}")
    return is_right


if __name__ == "__main__":
    sys.exit(main())
