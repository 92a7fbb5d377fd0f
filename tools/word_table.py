#!/usr/bin/env python3
"""Writes the crate lint_table's keys from crates/lint_table/words.txt, which has what acrun says of errors and warnings, and a list of
these texts into docs/errors.md.

    tools/word_table.py            writes crates/lint_table/src/keys.rt, Differences.antt and Lefts.antt of crates/lint_table/specs, and the list
    tools/word_table.py --check    prints what is wrong with the words and with the calls that name them, and then exits with status 1
    tools/word_table.py --show     prints each key with its message and its help, as a reader sees them
    tools/word_table.py --unseen   prints the keys whose message or help is in no text that a test of the gate compares

A line of the file that begins with a letter is a key, with the names of its places: at most three words in capitals. Then come

    : TEXT           the message, in one line
    error: TEXT      the message of an error that lint finds, whose code is the key
    warning: TEXT    the message of a warning that lint finds, whose code is the key
    difference: TEXT the same, of a warning that something means another thing to Autoconf, which port prints too
    left: TEXT       the same, of a warning about a template that port counts as left to do
        TEXT         a line of help, after four blanks
    = KEY            the help is that of another key

A warning whose message says what Autoconf does is a difference, or is left to do. A line of help has at most 68 characters if it is the first, and 70
otherwise, so that what lint prints has at most 79 columns, except where a place is filled with more.

In a text `%1`, `%2` and `%3` are the places of the first name, the second and the third, and `%%` is a percent sign. A place is filled with
a part, which the program finds. An empty line or one that begins with `#` is no part of an entry.

The key `no-header` is the constant `keys::NO_HEADER` in the program. It is named in a call with its parts after it,

    page.put(keys::NO_HEADER, &[Part::Quoted(argument), Part::AsItIs(name)]);

or it is handed on, in a table or by a function. If it has places, the call that puts it is then in the same file, and all keys that the file
hands on have as many places as that call has parts.
"""
import functools
import pathlib
import re
import sys

import macro_table

ROOT = pathlib.Path(__file__).resolve().parent.parent
CRATES = ROOT / "crates"
WORDS, KEYS = CRATES / "lint_table/words.txt", CRATES / "lint_table/src/keys.rt"
# The definition of which warnings are differences.
DIFFERENCES = CRATES / "lint_table/specs/Differences.antt"
# The definition of which warnings port counts as left to do.
LEFTS = CRATES / "lint_table/specs/Lefts.antt"
# The forms of calls: the file that has them for the program, and the document that explains them.
FORMS, LANGUAGE = CRATES / "lint_words/src/forms.rt", ROOT / "docs/language.md"
# The page that lists the texts, the marks around its list, and what a line of help begins with that is to be written as it is.
ERRORS = ROOT / "docs/errors.md"
BEGIN, END = "<!-- tools/word_table.py writes what follows -->", "<!-- up to here -->"
CODE = re.compile(r" |A[CS]_\w+\(|AC_OUTPUT$|tr |tail ")
# What isn't plain English, or names what a user doesn't have: "is no X" is "is not a X", and "is not read" is "is not supported".
HARD = re.compile(r"(?<!there )\b(?:is|are) no \w+|\b(?:is|are) not read\b|\bby itself\b|\banew\b|\bfaults?\b|\bpieces?\b|\bwindows?\b|docs/\w+")
# The most characters of the first line of a help, and of the others.
MOST_FIRST, MOST = 68, 70
PLACE = re.compile(r"%(.)")
# The texts that the gate compares with what the program says, and how long a part of the words is at most that says nothing in them.
COMPARED = ("examples/lint/expected.txt", "examples/port/expected.txt", "examples/help/*", "crates/tests_*/data/*", "crates/tests_*/src/*.rt",
            "crates/acrun/stdout", "crates/acrun_tools/stdout", "tools/try_terminal.py")
SHORT = 8
# The crates with tables of macros, and the file that names the variables of AC_INIT.
LINT = ("lint_errors", "lint_templates", "lint_warnings", "lint_words", "run_words")
GIVEN = CRATES / "lint_templates/src/given.rt"
MACRO = r"\b(?:AC|AM|AS|AX|m4)_\w+"


class Entry:
    """What is said under a key."""

    def __init__(self, key, places, heading):
        self.key, self.places, self.heading = key, places, heading
        self.message, self.lines, self.same, self.severity = "", [], None, None

    def constant(self):
        return self.key.upper().replace("-", "_")

    def own_help(self):
        return "\n".join(self.lines)


@functools.cache
def entries():
    """Returns the entries by their keys."""
    found, entry, heading, before = {}, None, "", ""
    for number, line in enumerate(WORDS.read_text().splitlines(), 1):
        sign, _, text = line.partition(" ")
        if not line or line.startswith("#"):
            heading = line[2:] if line and not before else heading
            before = line
            continue
        before = line
        if re.fullmatch(r"[a-z][a-z0-9-]*(?: [A-Z]+)*", line):
            key, *places = line.split()
            if key in found:
                sys.exit(f"{WORDS}:{number}: {key} is there twice")
            entry = found[key] = Entry(key, places, heading)
        elif entry and sign in (":", "error:", "warning:", "difference:", "left:") and not entry.message:
            entry.message, entry.severity = text, sign[:-1] or None
        elif entry and sign == "=" and not entry.same:
            entry.same = text
        elif entry and line.startswith("    "):
            entry.lines.append(line[4:])
        else:
            sys.exit(f"{WORDS}:{number}: this line has no meaning: {line}")
    return found


def help_of(entry):
    """Returns the help of an entry, its own or that of another key."""
    return entries()[entry.same].own_help() if entry.same in entries() else entry.own_help()


def wrong_words():
    """Yields what is wrong with the words."""
    for entry in entries().values():
        text = f"{entry.message}\n{help_of(entry)}"
        used = set(PLACE.findall(text)) - {"%"}
        allowed = {str(number) for number in range(1, len(entry.places) + 1)}
        if entry.same and (entry.lines or entry.same not in entries() or entries()[entry.same].same):
            yield f"{entry.key}: the help is its own, or that of a key which has help of its own"
        if not text.strip():
            yield f"{entry.key} says nothing"
        if used - allowed or len(entry.places) > 3:
            yield f"{entry.key}: a place has no name, or there are more than three"
        if allowed - used and not is_of_group(entry):
            yield f"{entry.key}: a name has no place"
        for number, line in enumerate(entry.lines):
            if len(line) > (MOST if number else MOST_FIRST):
                yield f"{entry.key}: a line of help has {len(line)} characters: {line}"
        for it in HARD.finditer(text):
            yield f"{entry.key}: it says: {it[0]}"
        if entry.severity == "warning" and "Autoconf" in entry.message:
            yield f"{entry.key}: its message says what Autoconf does, so it is a difference"
        if not re.fullmatch(r"[ -~\n]*", text) or "%" in PLACE.sub("", text):
            yield f"{entry.key}: a text has printable ASCII alone, and a `%` before a place or another `%`"


def is_of_group(entry):
    """Returns whether the entry is one of those of shell text, which are handed a word whether they name it or not."""
    return entry.places == ["WORD"]


def named(entry, text):
    """Returns a text with the names of its places, as documents show it."""
    return PLACE.sub(lambda it: "%" if it[1] == "%" else entry.places[int(it[1]) - 1], text)


def shown(entry):
    """Returns the message of an entry, or the first line of its help, with the names of its places."""
    return named(entry, entry.message or help_of(entry).split("\n")[0])


def help_in_line(entry):
    """Returns the help of an entry in one line, with what is to be written in code."""
    lines = named(entry, help_of(entry)).split("\n")
    lines = [line for line in lines if line.strip() not in ("", ":")]
    return " ".join(f"`{line.strip()}`" if CODE.match(line) and "`" not in line else line.strip() for line in lines)


def cell(text):
    """Returns a text as a cell of a table."""
    return text.replace("|", "\\|").replace("<", "&lt;") if "`" not in text else text.replace("|", "\\|")


def text_of_list():
    """Returns the list of the page: below each heading the messages that have no code of their own, and help that is given for several. A text
    that goes on with another one is listed without its comma, and left out if it has fewer than six words."""
    lines, listed = [""], {}
    for entry in entries().values():
        row = tuple(re.sub(r"^[,;] ", "", it) for it in (named(entry, entry.message).strip(), help_in_line(entry)))
        goes_on = re.match(r"[,;] |\s*and |%\d$", entry.message or help_of(entry)) and len((row[0] or row[1]).split()) < 6
        if not entry.severity and not goes_on and row not in listed.get(entry.heading, ()):
            listed.setdefault(entry.heading, []).append(row)
    for heading, found in listed.items():
        title, _, rest = heading.partition(". ")
        titles = ["What it says", "What to do"] if any(message for message, _ in found) else ["What to do"]
        lines += ["", f"### {title}", "", *([rest, ""] if rest else []), f"| {' | '.join(titles)} |", "|---" * len(titles) + "|"]
        lines += [f"| {' | '.join(map(cell, row[-len(titles):]))} |" for row in found]
    return "\n".join([*lines, "", ""])


def text_of_page():
    """Returns the page with the list between its marks."""
    front, begin, rest = ERRORS.read_text().partition(BEGIN)
    end = rest.find(END)
    if not begin or end < 0:
        sys.exit(f"{ERRORS} has no place for the list")
    return front + begin + text_of_list() + rest[end:]


def literal(text):
    """Returns a text as a byte string of the program: a place is the byte of its number."""
    text = PLACE.sub(lambda it: "%" if it[1] == "%" else chr(int(it[1])), text)
    return 'b"%s"' % re.sub(r'[\x01-\x03\n"\\]', lambda it: {"\n": "\\n", '"': '\\"', "\\": "\\\\"}.get(it[0], f"\\x0{ord(it[0])}"), text)


def marked(severity):
    """Returns the codes of the warnings with this mark."""
    return [entry.key for entry in entries().values() if entry.severity == severity]


def text_of_definition(severity, listed, asked, first, what):
    """Returns the file that defines which warnings have this mark."""
    names = " ∷ ".join(f'codes "{key}"' for key in marked(severity))
    return (f"{first}"
            "use Rattle.std.specs.Prelude.{ℕ, List, [], ◌∷◌, Bool, bytes_eq, codes}\n"
            "use Rattle.std.specs.List.{list_any}\n\n"
            "-- Their codes.\n"
            f"abbrev pub {listed} : List (List ℕ)\n"
            f"{listed} = {names} ∷ []\n\n"
            f"-- {what}\n"
            f"unfoldable pub {asked} : List ℕ → Bool\n"
            f"{asked} code = list_any (λ other. bytes_eq other code) {listed}\n")


def definition_of_differences():
    first = ("-- The warnings that something means another thing to Autoconf. tools/word_table.py writes this file from words.txt, where they have a\n"
             "-- mark of their own.\n")
    return text_of_definition("difference", "differences", "is_difference", first, "The code is that of a warning that something means another thing to Autoconf.")


def definition_of_lefts():
    first = ("-- The warnings about templates that `port` counts as left to do. tools/word_table.py writes this file from words.txt, where they have a\n"
             "-- mark of their own. (own)\n")
    return text_of_definition("left", "lefts", "is_left", first, "The code is that of a warning about a template that is left to do.")


def list_of(severity, constant, what):
    """Returns the constant with the codes of this mark."""
    names = "".join(f'\n    b"{key}",' for key in marked(severity))
    return f"\n/// {what}\n#[rattlefmt::skip]\npub(crate) const {constant}: [&[u8]; {len(marked(severity))}] = [{names}\n];\n"


def text_of_crate():
    """Returns the crate's file: a constant for each key, with its texts, and the lists of those with a mark."""
    rows = "".join(
        f"\n/// {shown(entry)}\n#[rattlefmt::skip]\npub const {entry.constant()}: Key = Key({', '.join(map(literal, (entry.key, entry.message, help_of(entry))))});\n"
        for entry in entries().values())
    listed = (list_of("difference", "DIFFERENCES", "The codes of the warnings that something means another thing to Autoconf.")
              + list_of("left", "LEFTS", "The codes of the warnings about templates that `port` counts as left to do."))
    return f"//! What is said. `tools/word_table.py` writes this file from `words.txt`.\n\nuse crate::key::Key;\n{rows}{listed}"


def without_comments(text):
    return re.sub(r"(?m)//.*$", "", text)


def parts_from(text, at):
    """Returns how many parts a list has whose bracket is at this place."""
    depth, parts = 0, [""]
    for sign in text[at:]:
        depth += (sign in "([{") - (sign in ")]}")
        if depth == 0:
            break
        if sign == "," and depth == 1:
            parts.append("")
        else:
            parts[-1] += sign
    return sum(bool(part.strip("[ \n")) for part in parts)


@functools.cache
def uses():
    """Returns for each file that names keys: those with their parts, those that it hands on, and the parts of keys that it has from there."""
    found = {}
    for file in sorted(CRATES.glob("*/src/*.rt")):
        text = without_comments(file.read_text())
        if file != KEYS and re.search(r"\bkeys::[A-Z]|\.put\(", text):
            direct, handed, later = [], [], []
            for it in re.finditer(r"\bkeys::([A-Z][A-Z0-9_]*)\b(?!\.name)", text):
                parts = re.match(r",\s*&(?=\[)", text[it.end():])
                if parts:
                    direct.append((it[1], parts_from(text, it.end() + parts.end())))
                else:
                    handed.append(it[1])
            for it in re.finditer(r"(?:\.put\(|\bwarn_by_key\((?:\s*\w+,){4})\s*(?!keys::)[\w.]+(?:\([^()]*\))?,\s*&(?=\[)", text):
                later.append(parts_from(text, it.end()))
            found[file.relative_to(ROOT)] = (direct, handed, later)
    return found


def wrong_calls():
    """Yields a line for each key that nothing names, and for each call that has other parts than its text has places."""
    places = {entry.constant(): len(entry.places) for entry in entries().values()}
    for file, (direct, handed, later) in uses().items():
        for key, parts in direct:
            if key in places and places[key] != parts:
                yield f"{file}: {key} has {places[key]} places, and {parts} parts are put there"
        for key in handed:
            if places.get(key) and places[key] not in later:
                yield f"{file}: {key} is handed on, and no call of this file puts {places[key]} parts"
        for parts in later:
            if parts and parts not in {places.get(key) for key in handed}:
                yield f"{file}: {parts} parts are put, and this file hands on no key with as many places"
    named_keys = {key for direct, handed, _ in uses().values() for key in [*handed, *(it for it, _ in direct)]}
    for key in sorted({*places} - named_keys):
        yield f"{WORDS.relative_to(ROOT)}: nothing says {key.lower().replace('_', '-')}"


def unknown_macros():
    """Yields a line for each macro that the words name, or a table of lint, and that is neither read nor in crates/lint_macros/macros.txt. A
    name of what AC_INIT says is the name of its variable after `AC_`."""
    known = macro_table.profile().union(*(entry.names for entry in macro_table.entries()))
    known |= {f"AC_{name}" for name in re.findall(r'b"(PACKAGE_\w+)"', GIVEN.read_text())}
    for entry in entries().values():
        for name in sorted({*re.findall(MACRO, f"{entry.message}\n{help_of(entry)}")} - known):
            yield f"{WORDS.relative_to(ROOT)}: {entry.key} names {name}, which is no macro"
    for file in sorted(file for crate in LINT for file in (CRATES / crate / "src").glob("*.rt")):
        for name in sorted({*re.findall(rf'b"({MACRO})"', without_comments(file.read_text()))} - known):
            yield f"{file.relative_to(ROOT)} names {name}, which is no macro"


def wrong_forms():
    """Yields a line for each macro that is read and has no form, or another one than docs/language.md has."""
    forms = {re.match(r"\w+", form)[0]: form for form in re.findall(r'b"(A[CS]_\w+(?:\([^"]*)?)"', FORMS.read_text())}
    lines = {*re.findall(r"(?m)^    (.+)$", LANGUAGE.read_text())}
    for name in sorted(macro_table.profile() - {*forms} - {"AC_OUTPUT", "AC_INCLUDES_DEFAULT"}):
        yield f"{FORMS.relative_to(ROOT)} has no form of {name}"
    for name, form in forms.items():
        if form not in lines:
            yield f"{FORMS.relative_to(ROOT)}: docs/language.md has no line {form}"


def differences():
    """Yields a line for each thing that is wrong with the words or with a call, and for the crate's file if it is old."""
    wrong = [*wrong_words()]
    if wrong:
        yield from wrong
        return
    yield from wrong_calls()
    yield from unknown_macros()
    yield from wrong_forms()
    for file, text in ((KEYS, text_of_crate()), (DIFFERENCES, definition_of_differences()), (LEFTS, definition_of_lefts()), (ERRORS, text_of_page())):
        if not file.exists() or file.read_text() != text:
            yield f"{file.relative_to(ROOT)} is not what tools/word_table.py writes"


def longest(text):
    """Returns the longest part of a text that has no place in it, if it is long enough to be told from others."""
    parts = [it.strip() for line in text.splitlines() for it in re.split(r"%[^%]", line)]
    return max((it.replace("%%", "%") for it in parts if len(it) > SHORT), key=len, default="")


def unseen():
    """Yields the keys of which the gate compares no text, with what is in none. A wrong key in place of one of these is seen by nothing."""
    texts = "".join(file.read_text(errors="replace") for place in COMPARED for file in sorted(ROOT.glob(place)))
    for entry in entries().values():
        for text in (entry.message, help_of(entry)):
            if longest(text) not in texts:
                yield f"{entry.key}: {longest(text)}"


def main(words):
    if words == ["--unseen"]:
        print("".join(f"{line}\n" for line in unseen()), end="")
        return 0
    if words == ["--check"]:
        found = [*differences()]
        print("".join(f"{line}\n" for line in found), end="")
        return int(bool(found))
    if words == ["--show"]:
        for entry in entries().values():
            print(f"{entry.key}: {named(entry, entry.message)}")
            print("".join(f"    {named(entry, line)}\n" for line in help_of(entry).splitlines()), end="")
        return 0
    wrong = [*wrong_words()]
    print("".join(f"{line}\n" for line in wrong), end="")
    if not wrong:
        KEYS.write_text(text_of_crate())
        DIFFERENCES.write_text(definition_of_differences())
        LEFTS.write_text(definition_of_lefts())
        ERRORS.write_text(text_of_page())
    return int(bool(wrong))


if __name__ == "__main__":
    sys.exit(main(sys.argv[1:]))
