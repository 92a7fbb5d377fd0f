#!/usr/bin/env python3
"""Compares where `acrun lint` finds macros that are not known with a second reading of the sources.

    tools/lint_places.py PROGRAM FILE..     FILE is a configure.ac

The second reading has its own rules of quotes, and is written for this alone (docs/language.md, "Quoting" and "Statements in
arguments"). It finds each call in the text of a source and in the arguments that hold statements, at any depth, and the calls whose macro
is not in crates/ac_macros/src/table.rt have to be exactly those of the lines with the code `parse-2` of `lint --json`, by line and column.
An argument with an error in its quotes has no calls, in both readings. Prints each difference, and last a count.
"""
import json
import pathlib
import re
import subprocess
import sys
import tempfile

ROOT = pathlib.Path(__file__).resolve().parent.parent
PROFILE = {*re.findall(rb'\(b"(\w+)", (?:Statement|Argument)', (ROOT / "crates/ac_macros/src/table.rt").read_bytes())}
MACRO = re.compile(rb"(?:AC|AS|AH|AM|AX|LT|PKG|m4)_")
WORD = re.compile(rb"[A-Za-z_0-9]+")
TWO_ACTIONS = {b"AC_ARG_ENABLE": 2, b"AC_ARG_WITH": 2, b"AC_CHECK_LIB": 2, b"AC_SEARCH_LIBS": 2}
ONE_BEFORE = re.compile(rb"AC_(?:COMPILE|LINK|PREPROC|RUN)_IFELSE|AC_CHECK_(?:HEADER|FUNC|DECL|TYPE)S?")
MOST_OPEN = 64
MOST_LISTS = 31


class Refused(Exception):
    """The quotes have an error."""


class Reader:
    """Reads a text outside quotes, from left to right. All offsets are those of the whole source."""

    def __init__(self, source, start, end, inside=0):
        self.source, self.at, self.end, self.open = source, start, end, inside
        if source.find(b"\0", start, end) >= 0:
            raise Refused

    def more(self):
        return self.at < self.end

    def enter(self):
        self.open += 1
        if self.open > MOST_OPEN:
            raise Refused

    def skip_line(self, keeps_newline):
        stop = self.source.find(b"\n", self.at, self.end)
        self.at = self.end if stop < 0 else stop if keeps_newline else stop + 1

    def skip_quote(self):
        before = self.open
        while True:
            if not self.more():
                raise Refused
            byte = self.source[self.at]
            self.at += 1
            if byte == 0x5B:
                self.enter()
            elif byte == 0x5D:
                self.open -= 1
                if self.open == before:
                    return

    def word(self):
        """Skips what is here, and returns a word if it is one."""
        found = WORD.match(self.source, self.at, self.end)
        if found:
            self.at = found.end()
            if found.group() == b"dnl":
                self.skip_line(False)
                return None
            return found
        byte = self.source[self.at]
        if byte == 0x5B:
            self.skip_quote()
        elif byte == 0x5D:
            raise Refused
        elif byte == 0x23:
            self.skip_line(True)
        else:
            self.at += 1
        return None

    def arguments(self):
        """Returns the extents of the arguments after a parenthesis."""
        self.enter()
        self.at += 1
        found, depth, start = [], 1, None
        while True:
            if not self.more():
                raise Refused
            byte = self.source[self.at]
            if start is None:
                if byte in b" \t\n":
                    self.at += 1
                    continue
                if self.source.startswith(b"dnl", self.at) and WORD.match(self.source, self.at, self.end).group() == b"dnl":
                    self.skip_line(False)
                    continue
                start = self.at
            if byte == 0x28:
                depth += 1
                self.enter()
                self.at += 1
            elif byte == 0x29:
                depth -= 1
                self.open -= 1
                if depth == 0:
                    found.append((start, self.at))
                    self.at += 1
                    return found
                self.at += 1
            elif byte == 0x2C and depth == 1:
                found.append((start, self.at))
                start = None
                self.at += 1
            else:
                self.word()


def calls_in(source, start, end):
    """Returns the calls of a text: each a name, its offset, and its arguments. A text with an error in its quotes has none."""
    try:
        reader, found = Reader(source, start, end), []
        while reader.more():
            word = reader.word()
            if word and MACRO.match(word.group()):
                arguments = reader.arguments() if reader.more() and source[reader.at] == 0x28 else []
                found.append((word.group(), word.start(), arguments))
        return found
    except Refused:
        return []


def holds(name, count, index):
    """Returns whether an argument of a macro holds statements."""
    if name == b"AS_IF":
        return index % 2 == 1 or index + 1 == count
    if name == b"AS_CASE":
        return index > 0 and (index % 2 == 0 or index + 1 == count)
    if name == b"AC_CACHE_CHECK":
        return index == 2
    first = TWO_ACTIONS.get(name, 1 if ONE_BEFORE.fullmatch(name) else None)
    return first is not None and index in (first, first + 1)


def inside(source, start, end):
    """Returns the extent of the statements of an argument: what is in its quotes, if it is one quoted text, or all of it."""
    text = source[start:end]
    bare = re.sub(rb"(?m)^[ \t]*dnl\b.*\n?", lambda it: b" " * len(it.group()), text)
    stripped = bare.strip(b" \t\n")
    if stripped[:1] == b"[":
        begin = start + len(bare) - len(bare.lstrip(b" \t\n"))
        try:
            reader = Reader(source, begin, end)
            reader.word()
        except Refused:
            return None
        rest = source[reader.at : end]
        if not re.sub(rb"dnl\b[^\n]*\n?", b"", rest).strip(b" \t\n"):
            return begin + 1, reader.at - 1
        return None
    return start, end


def unknown_in(source, start, end, room):
    for name, at, arguments in calls_in(source, start, end):
        if name not in PROFILE:
            yield at
            continue
        for index, (first, last) in enumerate(arguments):
            if room and holds(name, len(arguments), index):
                within = inside(source, first, last)
                if within:
                    yield from unknown_in(source, *within, room - 1)


def place_of(source, at):
    front = source[:at]
    return front.count(b"\n") + 1, at - (front.rfind(b"\n") + 1) + 1


def main(words):
    program, wrong, places = str(pathlib.Path(words[0]).resolve()), 0, 0
    for file in map(pathlib.Path, words[1:]):
        source = file.read_bytes()
        ours = sorted({place_of(source, at) for at in unknown_in(source, 0, len(source), MOST_LISTS)})
        with tempfile.TemporaryDirectory() as folder:
            pathlib.Path(folder, "configure.ac").write_bytes(source)
            done = subprocess.run([program, "lint", "--json"], cwd=folder, capture_output=True, timeout=120)
        found = [json.loads(line) for line in done.stdout.splitlines()]
        theirs = sorted({(it["line"], it["column"]) for it in found if it["code"] == "parse-2"})
        places += len(ours)
        for place in sorted({*ours} ^ {*theirs}):
            wrong += 1
            print(f"{file}:{place[0]}:{place[1]}: found by {'this reading' if place in ours else 'lint'} alone")
    print(f"{len(words) - 1} sources, {places} calls of macros that are not known, {wrong} differences")
    return int(bool(wrong))


if __name__ == "__main__":
    sys.exit(main(sys.argv[1:]))
