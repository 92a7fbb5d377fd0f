#!/usr/bin/env python3
"""Counts the macros that sources of Autoconf use, and says which are answered.
  count_macros.py FILE..      FILE is a configure.ac or a configure.in
  count_macros.py -v FILE..   prints each macro too: the uses, the files, and what is said of it
A use is a macro's name outside comments, with or without arguments. A macro is one of acrun's profile, or `macros.txt` has an entry of
its name, or one of its family, or nothing. What the package itself defines, by AC_DEFUN, m4_define or their kin, in the source or in a
*.m4 file below its directory, is counted apart; but not its copies of macros of archives, of gnulib and of other tools.
"""
import collections
import pathlib
import re
import sys

import macro_table

NAME = re.compile(r"(?<![\w$@])(?:A[CSMHXU]|ACX|LT|PKG|m4|gl|gt|CF)_\w+(?![\w=])")
DEFINED = re.compile(r"\b(?:AC_DEFUN(?:_ONCE)?|AU_DEFUN|m4_define|m4_defun|define)\(\s*\[?\s*(\w+)")
# Macros of archives and of other tools, whose files are copied into packages.
COPIED = re.compile(r"^(?:A[MX]|ACX|LT|PKG|m4|gl|gt)_|^AC_LIB")


def without_comments(text):
    return re.sub(r"(?m)\bdnl\b.*$|(?:^|(?<=\s))#.*$", "", text)


def top_of(file):
    """Returns the directory of the package, whose files may define macros."""
    return file.parent.parent if file.parent.name == "autoconf" else file.parent


def defined_beside(file):
    """Returns the macros that the package's own files define. Copies of well-known macros are none."""
    names = {*DEFINED.findall(file.read_text(errors="replace"))}
    for other in top_of(file).rglob("*.m4"):
        text = other.read_text(errors="replace")
        if "generated automatically by aclocal" in text[:400]:
            continue
        found = DEFINED.findall(text)
        is_own = other.name in ("acinclude.m4", "aclocal.m4")
        names |= {name for name in found if is_own or not COPIED.match(name) and not is_named(name)}
    return names


def is_named(name):
    entry = macro_table.about(name)
    return entry is not None and entry.kind != "family"


def main(words):
    is_long = words[:1] == ["-v"]
    files = [pathlib.Path(word) for word in words[is_long:]]
    known = macro_table.profile()
    uses, where, kinds = collections.Counter(), collections.defaultdict(set), {}
    for file in files:
        own = defined_beside(file)
        for name in NAME.findall(without_comments(file.read_text(errors="replace"))):
            entry = macro_table.about(name)
            kind = (
                "profile" if name in known
                else "own" if name in own
                else "nothing" if entry is None
                else "family" if entry.kind == "family"
                else "entry"
            )
            uses[kind, name] += 1
            where[kind, name].add(file)
            kinds[kind, name] = entry.kind if entry and kind in ("entry", "family") else ""
    sums, said = collections.Counter(), collections.Counter()
    for (kind, name), count in uses.most_common():
        sums[kind] += count
        said[kinds[kind, name]] += count
        if is_long and kind != "profile":
            print(f"{count:5} {len(where[kind, name]):3}  {name}  {kind} {kinds[kind, name]}")
    outside = sums["entry"] + sums["family"] + sums["nothing"]
    print(f"{len(files)} sources, {sum(sums.values())} uses: {sums['profile']} of the profile, {sums['own']} of macros that the package defines")
    if outside:
        part = 100 * sums["entry"] / outside
        both = 100 * (sums["entry"] + sums["family"]) / outside
        print(f"by an idiom {said['idiom']}, to be dropped {said['drop']}, by a line that says what else to do {said['none']}")
        print(f"of the other {outside} uses, {sums['entry']} have an entry ({part:.0f}%), {sums['family']} more one of a family ({both:.0f}% together)")
    return 0


if __name__ == "__main__":
    sys.exit(main(sys.argv[1:]))
