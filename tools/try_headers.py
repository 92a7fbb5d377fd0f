#!/usr/bin/env python3
"""Holds what `acrun header` prints against autoheader of Autoconf 2.71, with sources that are made by number, or that are given.

    tools/try_headers.py PROGRAM [--from N] [--count N] [--jobs N]
    tools/try_headers.py PROGRAM --replay N          shows source N, both templates, and what differs
    tools/try_headers.py PROGRAM FILE..              the sources in these files that acrun accepts

PROGRAM is a built acrun or acrun-tools. A source has checks, some with actions, and definitions, some of them without a description. A
header is named in each; a file without one gets AC_CONFIG_HEADERS. The templates have to be the same but for their first lines and for
the names of DEFAULTS, which Autoconf looks for on its own: autoheader may list more of these. If names have no description, autoheader
refuses the source, and has to name those that `acrun header` names.
Prints the differences of each source that has some, and last a count. The exit status is 1 if one differs. A source takes about a second
of a processor.
"""
import argparse
import concurrent.futures
import os
import pathlib
import random
import re
import subprocess
import sys
import tempfile

DEFAULTS = {f"HAVE_{name}" for name in "INTTYPES_H STDINT_H STDIO_H STDLIB_H STRINGS_H STRING_H SYS_STAT_H SYS_TYPES_H UNISTD_H".split()} | {"STDC_HEADERS"}
WORDS = """Define to 1 if you have the a is `x' "quoted" it's $name ${name} %s back\\slash # #1 @<:@b@:>@ @%:@ @S|@ (in parentheses)
a,b comma, dnl AC_PROG_CC m4_define shift <stdio.h> é tilde~ averyveryveryverylongwordoffortybytesandmore 0 */ /* ; && | ! ?""".split() + ["[in]", "[[two] or [three]]"]
NAMES = ["A", "B", "C1", "_D", "USE_X", "USE_Y", "a_lower_name", "HAVE_FOO_H", "HAVE_BAR", "HAVE_LIBM", "HAVE_DECL_ONE", "PACKAGE", "VERSION"]
HEADERS = "foo.h sys/foo.h stdio.h stdlib.h unistd.h a-b.h c++/x.h netinet/in.h".split()
FUNCTIONS = "bar foo_bar strdup _exit mmap x1".split()
DECLARATIONS = ["one", "two_2", "NULL", "strdup", "_three"]
TYPES = ["foo_t", "struct foo", "unsigned long long", "foo_t *", "ptrdiff_t"]
LIBRARIES = "m z foo-1.2 socket c++x".split()
MISSING = re.compile(r"missing template: (\S+)")


class Maker:
    """Makes one source."""

    def __init__(self, number):
        self.random = random.Random(number)
        self.undescribed = self.random.random() < 0.15

    def some(self, words, most=3):
        return self.random.sample(words, self.random.randint(1, min(most, len(words))))

    def description(self):
        words = [self.random.choice(WORDS) for _ in range(self.random.choice([1, 2, 5, 12, 30]))]
        text = "".join(word + self.random.choice([" ", " ", " ", "  ", "\n", "\t", "\n    "]) for word in words)
        return self.random.choice(["", " "]) + text.rstrip() + self.random.choice(["", "", " ", "\n"])

    def define(self):
        is_bare = self.undescribed and self.random.random() < 0.3
        # For a name that a check describes too, acrun takes the last description of AC_DEFINE as that of each of its calls.
        name = self.random.choice([it for it in NAMES if not is_bare or not it.startswith("HAVE_")])
        value = self.random.choice(["[1]", "[]", "1", "[\"text\"]"])
        macro = self.random.choice(["AC_DEFINE", "AC_DEFINE", "AC_DEFINE_UNQUOTED"])
        if is_bare:
            return f"{macro}([{name}], {value})\n"
        return f"{macro}([{name}], {value},{self.random.choice(['', ' ', chr(10) + '  '])}[{self.description()}])\n"

    def actions(self, room):
        return f", [{(self.statements(room, 2) if room > 0 else self.define()).rstrip()}]"

    def statement(self, room):
        kind = self.random.randint(0, 15)
        deeper = room - 1
        if kind < 5:
            return self.define()
        if kind == 5:
            return f"AC_CHECK_HEADERS([{' '.join(self.some(HEADERS))}]{self.actions(deeper) if self.random.random() < 0.3 else ''})\n"
        if kind == 6:
            return f"AC_CHECK_FUNCS([{' '.join(self.some(FUNCTIONS))}]{self.actions(deeper) if self.random.random() < 0.3 else ''})\n"
        if kind == 7:
            return f"AC_CHECK_DECLS([{', '.join(self.some(DECLARATIONS))}]{self.actions(deeper) if self.random.random() < 0.3 else ''})\n"
        if kind == 8:
            return f"AC_CHECK_TYPES([{', '.join(self.some(TYPES))}]{self.actions(deeper) if self.random.random() < 0.3 else ''})\n"
        if kind == 9:
            return f"AC_CHECK_LIB([{self.random.choice(LIBRARIES)}], [main]{self.actions(deeper) if self.random.random() < 0.4 else ''})\n"
        if kind == 10 and room:
            return f"AS_IF([test \"x$a\" = x]{self.actions(deeper)}{self.actions(deeper)})\n"
        if kind == 11 and room:
            return f"AS_CASE([$a], [b|c]{self.actions(deeper)})\n"
        if kind == 12 and room:
            return f"AC_ARG_ENABLE([x], [AS_HELP_STRING([--enable-x], [AC_DEFINE no])]{self.actions(deeper)})\n"
        if kind == 13 and room:
            return f"AC_COMPILE_IFELSE([AC_LANG_PROGRAM([], [[int AC_DEFINE;]])]{self.actions(deeper)})\n"
        if kind == 14:
            return f"AC_CHECK_HEADER([{self.random.choice(HEADERS)}], [AC_DEFINE([USE_X], [1], [{self.description()}])])\n"
        return "# AC_DEFINE([COMMENTED], [1], [no])\nAC_SUBST([B], [1])\n"

    def statements(self, room, most):
        return "".join(self.statement(room) for _ in range(self.random.randint(1, most)))

    def source(self):
        url = self.random.choice(["", ", [bug@example.org]", ", [bug], [tar], [http://example.org]"])
        return f"AC_INIT([demo], [1.0]{url})\nAC_CONFIG_HEADERS([config.h])\nAC_PROG_CC\n{self.statements(2, 12)}AC_OUTPUT\n"


def entries(text):
    """Returns the entries of a template, after its first line."""
    parts = text.partition("\n")[2].split("\n#undef ")
    found, before = {}, parts[0]
    for part in parts[1:]:
        name, _, after = part.partition("\n")
        found[name] = found.get(name, []) + [before]
        before = after
    return found


def ran(words, folder):
    return subprocess.run(words, cwd=folder, stdin=subprocess.DEVNULL, capture_output=True, check=False)


def differences(program, source, folder):
    """Returns what differs, or None if acrun refuses the source."""
    (folder / "configure.ac").write_bytes(source)
    ours = ran([program, "header"], folder)
    if ours.returncode == 2:
        return None
    page, said = ours.stdout.decode(errors="replace"), ours.stderr.decode(errors="replace")
    (folder / "config.h.in").unlink(missing_ok=True)
    theirs = ran(["autoheader"], folder)
    if theirs.returncode != 0:
        missing = MISSING.findall(theirs.stderr.decode(errors="replace"))
        named = re.findall(r"(?m)^acrun: undescribed (\S+)$", said)
        return [] if missing and missing == named else [f"autoheader ends with {theirs.returncode}: {theirs.stderr.decode(errors='replace')}", f"acrun says: {said}"]
    out = [f"acrun says: {said}"] if said else []
    template = (folder / "config.h.in").read_bytes().decode(errors="replace")
    first, second = entries(page), entries(template)
    for name in DEFAULTS - first.keys():
        second.pop(name, None)
    out += [f"acrun alone has {name}" for name in first.keys() - second.keys()] + [f"autoheader alone has {name}" for name in second.keys() - first.keys()]
    out += [f"{name}:\n  acrun {first[name]!r}\n  autoheader {second[name]!r}" for name in first if name in second and first[name] != second[name]]
    return out if out or list(first) == list(second) else ["the names are in another order"]


def tried(program, source):
    with tempfile.TemporaryDirectory() as folder:
        return differences(program, source, pathlib.Path(folder))


def sources(args):
    if args.files:
        for name in args.files:
            text = pathlib.Path(name).read_bytes()
            if b"AC_CONFIG_HEADER" not in text:
                text = re.sub(rb"(?m)^AC_OUTPUT\b", b"AC_CONFIG_HEADERS([config.h])\nAC_OUTPUT", text)
            yield name, text
    else:
        for number in range(args.start, args.start + args.count):
            yield f"source {number}", Maker(number).source().encode()


def main():
    reader = argparse.ArgumentParser()
    reader.add_argument("program", type=os.path.abspath)
    reader.add_argument("files", nargs="*")
    reader.add_argument("--from", dest="start", type=int, default=0)
    reader.add_argument("--count", type=int, default=100)
    reader.add_argument("--jobs", type=int, default=2)
    reader.add_argument("--replay", type=int)
    args = reader.parse_args()
    if args.replay is not None:
        source = Maker(args.replay).source().encode()
        print(source.decode())
        print("\n".join(tried(args.program, source) or ["nothing differs, or acrun refuses it"]))
        return 0
    accepted = refused = differing = 0
    with concurrent.futures.ThreadPoolExecutor(args.jobs) as pool:
        named = list(sources(args))
        for (name, _), found in zip(named, pool.map(lambda it: tried(args.program, it[1]), named)):
            if found is None:
                refused += 1
                continue
            accepted += 1
            if found:
                differing += 1
                print(f"{name}:", *found, sep="\n", flush=True)
    print(f"headers: {accepted} sources are accepted, {refused} are refused, {differing} differ")
    return 1 if differing else 0


if __name__ == "__main__":
    sys.exit(main())
