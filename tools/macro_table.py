#!/usr/bin/env python3
"""Writes what is made of crates/lint_macros/macros.txt: the text of the crate, the list of exact idioms in `port_idioms`, and
docs/macros.md.
  macro_table.py           writes all three
  macro_table.py --check   prints a line for each that is not what it would write, and ends with 1 if there is one
  macro_table.py --fill NAME [ARGUMENT]..   prints the entry of a name, with these arguments in its places

The lines of macros.txt, by how they begin:
  `# `      a comment
  `> `      a heading of docs/macros.md, under which the next entries are shown
  `: `      a sentence below the heading
  KIND      begins an entry: idiom, drop, none or family, and then the names that it is of
  `| `      a line that docs/macros.md shows with an idiom: after the one before it, or before the first of its heading
  `= `      the arguments of a call, for which docs/macros.md shows the idiom; none if there is no such line. Several are lines of a call
  `% `      a word of the idiom that no argument is put in the place of, a blank, and the text that is shown there
  `! `      two numbers and names: for a call of these macros with so many arguments, from the first number to the second, the idiom is
            exact. It leaves the same definitions and output variables, and `acrun port` writes it
  `& `      two numbers, names, a colon and words: for a call of these macros with so many arguments `acrun port --idioms` writes the
            idiom, or nothing for a `drop`, below a comment with these words, which say in what it differs from the macro
  `@ `      what stands around the idiom in docs/macros.md, with an `@` in its place; alone: the idiom is not run
  `+ `      a line before the call and before the idiom, where tools/try_macros.py compares both; docs/macros.md does not show it
  `$ `      arguments of a run in which that script compares both, in place of one without arguments
  `? `      names of definitions and variables, a colon and a reason: what the idiom leaves otherwise than the macro does, by design.
            That script fails if it doesn't
  `~ `      names of macros, a colon, what is otherwise, a colon and a reason: what the idiom of these macros, or a `drop`, leaves
            otherwise. That is names of definitions, variables and cache variables, `NAME=VALUE` for one that the macro gives such a
            value, and, of an exact idiom, lines that are printed, in quotes, of which `""` is an empty one; a `*` is for any text, and
            `$1` for the first argument.
            tools/fuzz_exact.py allows these differences alone, and those of lines `? `
  blanks    4 of them begin a line of the entry's text
Empty lines mean nothing. `specs/Places` and `specs/Values` of the crate say what places are, and what they are filled with.
"""
import dataclasses
import pathlib
import re
import shlex
import sys
import textwrap

ROOT = pathlib.Path(__file__).resolve().parent.parent
DATA = ROOT / "crates/lint_macros/macros.txt"
TEXT = ROOT / "crates/lint_macros/src/text.rt"
EXACT = ROOT / "crates/port_idioms/src/table.rt"
PAGE = ROOT / "docs/macros.md"
PROFILE = ROOT / "crates/ac_macros/src/table.rt"
# What the page says before its table.
INTRODUCTION = """\
# Macros that acrun doesn't know

What to write in `configure.ac` in place of a macro of Autoconf, Automake or another project that acrun doesn't know.
What is used most comes first. `acrun lint` prints the same at each call, and `acrun port` writes what is exact.
[migrate](migrate.md) moves a package over, and [language](language.md) has the macros that acrun supports.

- **In place of a macro of Autoconf** it leaves the same definitions, output variables and shell variables, except
  for what is named there as a difference. Headers and programs that a macro of Autoconf looks for on its way don't
  count.
- **In place of a macro of another project**, such as PKG_CHECK_MODULES, it does what the macro is for in small
  trials.
- **As it is**, it passes `autoconf -Wall` and `autoheader -Wall` without a warning, and leaves the same in Autoconf
  as in acrun.

`tools/try_macros.py` tried this with Autoconf 2.71 and GNU C on GNU/Linux, and `examples/guide/run.sh` runs each
block. `tools/macro_table.py` writes this page from `crates/lint_macros/macros.txt`.
"""
KINDS = ("idiom", "drop", "none", "family")
PLACE = re.compile(r"\$([1-9@])([!+=_^<>]?)\{([^}]*)\}")


@dataclasses.dataclass
class Entry:
    kind: str
    names: list
    lines: list = dataclasses.field(default_factory=list)
    call_text: str = ""
    arguments: list = dataclasses.field(default_factory=list)
    words: list = dataclasses.field(default_factory=list)
    exact: list = dataclasses.field(default_factory=list)
    other: list = dataclasses.field(default_factory=list)
    around: str = "@"
    before: list = dataclasses.field(default_factory=list)
    runs: list = dataclasses.field(default_factory=list)
    differing: list = dataclasses.field(default_factory=list)
    allowed: list = dataclasses.field(default_factory=list)
    raw_before: list = dataclasses.field(default_factory=list)
    raw_after: list = dataclasses.field(default_factory=list)

    def text(self):
        return "\n".join(self.lines)

    def within(self, text):
        return self.around.replace("@", text) if self.around else text

    def written(self, arguments):
        """Returns the idiom as one writes it for a call with these arguments."""
        return written(self.text(), arguments, dict(self.words))

    def sample(self):
        """Returns the idiom as docs/macros.md shows it."""
        return self.within(self.written(self.arguments))

    def call(self, name):
        """Returns a call with the arguments that docs/macros.md shows the idiom for."""
        macro = name.partition("(")[0]
        return f"{macro}({self.call_text})" if self.arguments else macro

    def block(self):
        """Returns the lines of the page's block."""
        return [*self.raw_before, *self.sample().split("\n"), *self.raw_after]

    def is_run(self):
        return self.kind == "idiom" and self.around != ""


@dataclasses.dataclass
class Section:
    heading: str
    prose: list = dataclasses.field(default_factory=list)
    raw: list = dataclasses.field(default_factory=list)
    entries: list = dataclasses.field(default_factory=list)

    def idioms(self):
        return [entry for entry in self.entries if entry.kind == "idiom"]


def arguments_of(text):
    """Returns the arguments of a call: the texts between commas that are in no brackets."""
    depth, found = 0, [""]
    for char in text:
        depth += (char == "[") - (char == "]")
        if char == "," and depth == 0:
            found.append("")
        else:
            found[-1] += char
    return found


def bare(argument):
    text = argument.strip(" \t\n")
    for _ in range(2):
        if len(text) >= 2 and text[0] == "[" and text[-1] == "]":
            text = text[1:-1].strip(" \t\n")
    return text


def plain(argument):
    """Returns an argument without its brackets, or None if it is no plain word or list."""
    text = bare(argument)
    return text if re.fullmatch(r"[A-Za-z0-9_./+*=: \t\n-]+", text) else None


def formed(sign, word, text):
    if sign in ("!", "="):
        return word if re.search(r"[ \t\n]", text) else text
    if sign == "_":
        return re.sub(r"\W", "_", re.sub("[*+]", "p", text), flags=re.ASCII)
    if sign == "^":
        return re.sub(r"\W", "_", text.replace("*", "P"), flags=re.ASCII).upper()
    if sign in ("", "+"):
        return text
    if "." not in text:
        return word
    return {"<": text.partition(".")[0], ">": text.partition(".")[2]}[sign]


def fill(text, arguments):
    """Returns the text with its places filled, as `fill` of the crate does it."""

    def value(place):
        which, sign, word = place.groups()
        if which == "@":
            known = arguments and all(plain(it) is not None for it in arguments)
            return ", ".join(f"[{bare(it)}]" for it in arguments) if known else word
        known = int(which) <= len(arguments) and plain(arguments[int(which) - 1])
        return formed(sign, word, known) if known else word

    return PLACE.sub(value, text)


def written(text, arguments, words):
    """Returns the text with its places filled by these arguments, plain or not, and its words replaced: what one writes by hand."""
    literal = "|".join(re.escape(word) for word in sorted(words, key=len, reverse=True))
    pattern = rf"{PLACE.pattern}|(?<![A-Z0-9_])({literal})(?![A-Z0-9_])" if literal else PLACE.pattern

    def value(place):
        which, sign, word, *other = place.groups()
        if which is None:
            return words[other[0]]
        if which == "@":
            return ", ".join(f"[{bare(it)}]" for it in arguments) or word
        if int(which) > len(arguments):
            return words.get(word, word)
        return formed(sign if sign not in ("!", "=") else "", word, bare(arguments[int(which) - 1]))

    return re.sub(pattern, value, text)


def sections():
    """Reads the data: the sections in order, the last without a heading."""
    found, entry = [], None
    for number, line in enumerate(DATA.read_text().splitlines(), 1):
        sign, rest = line[:2], line[2:]
        first = line.split(" ")[0]
        if line == "" or sign == "# ":
            continue
        if sign == "> ":
            found.append(Section(rest))
        elif sign == ": ":
            found[-1].prose.append(rest)
        elif line[0] == "|":
            kept = found[-1].raw if not found[-1].idioms() else found[-1].idioms()[-1].raw_after
            kept.append(rest)
        elif line.startswith("    "):
            entry.lines.append(line[4:])
        elif sign == "= ":
            entry.call_text = f"{entry.call_text}\n{rest}" if entry.call_text else rest
            entry.arguments = arguments_of(entry.call_text)
        elif sign == "% ":
            word, _, shown = rest.partition(" ")
            entry.words.append((word, shown))
        elif sign == "! ":
            least, most, *names = rest.split()
            entry.exact += [(name, int(least), int(most)) for name in names]
        elif sign == "& ":
            about, _, said = rest.partition(" : ")
            least, most, *names = about.split()
            entry.other += [(name, int(least), int(most), said) for name in names]
        elif line[0] == "@":
            entry.around = rest
        elif sign == "+ ":
            entry.before.append(rest)
        elif sign == "$ ":
            entry.runs.append(rest.split())
        elif sign == "~ ":
            about, _, said = rest.partition(" : ")
            listed, _, reason = said.partition(" : ")
            entry.allowed.append((about.split(), shlex.split(listed), reason))
        elif sign == "? ":
            names, _, reason = rest.partition(" : ")
            entry.differing.append((names.split(), reason))
        elif first in KINDS:
            entry = Entry(first, line.split()[1:])
            if first == "idiom" and not found[-1].idioms():
                entry.raw_before, found[-1].raw = found[-1].raw, []
            found[-1].entries.append(entry)
        else:
            sys.exit(f"{DATA}:{number}: this line has no meaning: {line}")
    return found


def entries():
    """Returns the entries in the order of the table: those of families are last, the longer name first."""
    all_ = [entry for section in sections() for entry in section.entries]
    families = sorted((it for it in all_ if it.kind == "family"), key=lambda it: -len(it.names[0]))
    return [it for it in all_ if it.kind != "family"] + families


def profile():
    """Returns the macros that are read."""
    return {*re.findall(r'\(b"(\w+)", (?:Statement|Argument)', PROFILE.read_text()), "AC_INCLUDES_DEFAULT"}


def wrong():
    """Yields what is wrong with the data."""
    seen = set()
    for name in sorted({name for entry in entries() for name in entry.names} & profile()):
        yield f"{name} is read, and needs no entry"
    for entry in entries():
        text = entry.text()
        for name in entry.names:
            if name in seen:
                yield f"{name} has two entries"
            seen.add(name)
        if not text or not entry.names:
            yield f"{' '.join(entry.names)}: an entry has a name and a text"
        if "~" in text or "\t" in text or re.search(r"\$[0-9@]", PLACE.sub("", text)):
            yield f"{entry.names[0]}: a text has no `~`, no tab, and no `$` with a digit that is no place"
        places = [int(place[1]) for place in PLACE.finditer(text) if place[1] != "@"]
        for name, least, most in entry.exact:
            if name not in entry.names or entry.kind not in ("idiom", "drop"):
                yield f"{name} is exact, and no idiom of the entry has the name"
            if not least <= most <= (max(places, default=0) if entry.kind == "idiom" else 9):
                yield f"{name}: an argument has no place in the idiom"
            if any(place[2] not in ("", "!", "+", "=") for place in PLACE.finditer(text)):
                yield f"{name}: an exact idiom has its arguments as they are"
        for name, least, most, said in entry.other:
            if name not in entry.names or entry.kind not in ("idiom", "drop") or "$@" in text or entry.words:
                yield f"{name} has no idiom that can be written with the arguments of a call"
            if any(name == it[0] and it[1] <= most and least <= it[2] for it in entry.exact):
                yield f"{name}: its idiom is exact, and differs"
            if not 0 <= least <= most <= 9 or not re.fullmatch(r"[A-Za-z0-9_@./,=-][A-Za-z0-9_@./,= -]*", said):
                yield f"{name}: what is said of the idiom is no line of plain words"
        for names, listed, reason in entry.allowed:
            for name in names:
                if name not in {it[0] for it in [*entry.exact, *entry.other]}:
                    yield f"no idiom of {name} is written, and it is said to differ"
            if len({name in {it[0] for it in entry.exact} for name in names}) > 1:
                yield f"{entry.names[0]}: of the macros of a line `~ `, some have an exact idiom and some another one"
            if not names or not listed or not reason:
                yield f"{entry.names[0]}: what an idiom leaves otherwise has macros, names and a reason"
        if entry.kind != "idiom" and len(entry.lines) > 1:
            yield f"{entry.names[0]}: only an idiom has more than one line"
        for word, _shown in entry.words:
            if not re.search(rf"(?<![A-Z0-9_]){re.escape(word)}(?![A-Z0-9_])", PLACE.sub("", text)):
                yield f"{entry.names[0]}: no text of the idiom is the word {word}"
        for names, reason in entry.differing:
            if entry.kind != "idiom" or not names or not reason:
                yield f"{entry.names[0]}: what an idiom leaves otherwise has names and a reason"


def text_of_crate():
    """Returns the crate's file: the records, each a kind, names and a text."""
    records = [f"{entry.kind} {' '.join(entry.names)}\n{entry.text()}" for entry in entries()]
    text = "~".join(records).replace("\\", "\\\\").replace('"', '\\"')
    return (
        "//! The text of the table. `tools/macro_table.py` writes this file from `macros.txt`.\n\n"
        "ghost use Rattle.std.specs.Prelude.{◌≡◌};\n\n"
        "/// The table: records of a kind, names and a text, with a `~` between them.\n"
        f'#[rattlefmt::skip]\npub const TABLE: &[u8] = b"\\\n{text}";\n\n'
        "/// Returns the table.\npub(crate) fn table() -> &'static [u8]\n    ensures { result.now ≡ TABLE.now }\n{\n    TABLE\n}\n"
    )


def exact():
    """Returns the names whose idiom is exact, each with the least and the largest number of arguments."""
    return sorted(row for entry in entries() for row in entry.exact)


def differing():
    """Returns the names whose idiom differs, each with the least and the largest number of arguments, and with what is said of it."""
    return sorted(row for entry in entries() for row in entry.other)


def constant(about, name, rows):
    """Returns a constant with a row for each line, and the function that returns it."""
    return (
        f"\n/// {about}\n"
        f"#[rattlefmt::skip]\npub const {name}: &[u8] = b\"\\\n{chr(10).join(rows)}\";\n\n"
        f"/// Returns the rows of these macros, with a newline between them.\npub(crate) fn {name.lower()}() -> &'static [u8]\n"
        f"    ensures {{ result.now ≡ {name}.now }}\n{{\n    {name}\n}}\n"
    )


def text_of_exact():
    """Returns the file of `port_idioms`: a row for each of these names."""
    return (
        "//! The macros whose idioms `acrun port` writes. `tools/macro_table.py` writes this file from `macros.txt` of `lint_macros`.\n\n"
        "ghost use Rattle.std.specs.Prelude.{◌≡◌};\n"
        + constant(
            "The macros that have an exact idiom, each with the least and the largest number of arguments that it is exact for.",
            "EXACT",
            [f"{name} {least} {most}" for name, least, most in exact()],
        )
        + constant(
            "The macros whose idiom differs, each with the least and the largest number of arguments that it is written for, and with what\n"
            "/// is said of it.",
            "DIFFERING",
            [f"{name} {least} {most} {said}" for name, least, most, said in differing()],
        )
    )


def heading_link(heading):
    return "#" + re.sub(r"[^\w\- ]", "", heading.lower()).replace(" ", "-")


def in_words(names):
    return ", ".join(f"`{name}`" if re.search(r"\W", name) else name for name in names)


def is_shown(section):
    return bool(section.prose or section.raw or section.idioms())


def is_row(section, entry):
    """Returns whether the idiom is one line, and is shown in a table."""
    return len(section.idioms()) > 1 and entry.is_run() and len(entry.block()) == 1


def table_of_idioms(section):
    """Yields the lines of the table of a section: a row for each idiom of one line."""
    found = [entry for entry in section.idioms() if is_row(section, entry)]
    if found:
        yield from ("", "| In place of | Write |", "|---|---|")
    for entry in found:
        yield f"| `{entry.within(entry.call(entry.names[0]))}` | `{entry.sample()}` |".replace("||", "\\|\\|")


def blocks(section):
    """Yields the lines of the blocks of a section."""
    if section.raw:
        yield from ("", "```m4", *section.raw, "```")
    for entry in section.idioms():
        if not is_row(section, entry):
            call = entry.within(entry.call(entry.names[0]))
            if "\n" in call:
                yield from ("", "In place of", "", "```", *call.split("\n"), "```", "", "write")
            elif entry.arguments or len(section.idioms()) > 1:
                yield from ("", f"In place of `{call}`:")
            yield from ("", "```m4" if entry.is_run() else "```", *entry.block(), "```")


def what_differs(section):
    """Yields the lines of what the idioms of a section leave otherwise than their macros."""
    found = [(entry, names, reason) for entry in section.idioms() for names, reason in entry.differing]
    if found:
        yield from ("", "By design, this differs from what the macro leaves:", "")
    for entry, names, reason in found:
        text = f"- {in_words(entry.names[:1])}: {', '.join(f'`{name}`' for name in names)}. {reason[0].upper()}{reason[1:]}."
        yield from textwrap.wrap(text, 116, subsequent_indent="  ", break_long_words=False, break_on_hyphens=False)


def rows():
    """Yields the rows of the page's table."""
    for section in sections():
        for kind in ("idiom", "other"):
            for entry in section.entries:
                if kind == "idiom" and entry.kind == "idiom":
                    names = [name for it in section.idioms() for name in it.names]
                    yield f"| {in_words(names)} | [{section.heading}]({heading_link(section.heading)}) |"
                    break
                if kind == "other" and entry.kind in ("drop", "none"):
                    yield f"| {in_words(entry.names)} | {entry.text()} |"
    for entry in entries():
        if entry.kind == "family":
            yield f"| other macros that begin with `{entry.names[0]}` | {entry.text()} |"


def in_code(text):
    """Returns what the page shows of a name or of a line that is printed."""
    return f"`` {text} ``" if "`" in text else f"`{text}`" if text else "an empty line"


def allowed(is_exact, heading, sentence):
    """Yields the lines of the table of what exact replacements, or the others, leave otherwise."""
    rows = []
    for entry in entries():
        exact_names = {name for name, *_ in entry.exact}
        rows += [(names, listed, reason) for names, listed, reason in entry.allowed if (names[0] in exact_names) == is_exact]
    if not rows:
        return
    yield from ("", f"## {heading}", "", sentence, "", "| In place of | Otherwise | Why |", "|---|---|---|")
    for names, listed, reason in rows:
        yield f"| {', '.join(names)} | {', '.join(map(in_code, listed))} | {reason} |"


def page():
    """Returns docs/macros.md: a table of all macros, and a section for each heading."""
    lines = [INTRODUCTION, "| Macro | What to do |", "|---|---|", *rows()]
    for section in filter(is_shown, sections()):
        lines += ["", f"## {section.heading}", *([""] + section.prose if section.prose else [])]
        lines += [*table_of_idioms(section), *blocks(section), *what_differs(section)]
    lines += allowed(True, "What an exact replacement leaves otherwise", "`acrun port` writes these without `--idioms` too. A `*` is for any text.")
    lines += allowed(
        False,
        "What an idiom leaves otherwise",
        "`acrun port --idioms` writes these, below a line that says in what they differ. A `$1` is for the first argument, and a `*` for any text. "
        "What differs by design is said with the idioms above.",
    )
    return "\n".join(lines) + "\n"


def differences():
    """Yields a line for each thing that is wrong with the data, and for each file that is not what it would be."""
    yield from wrong()
    for file, text in ((TEXT, text_of_crate()), (EXACT, text_of_exact()), (PAGE, page())):
        if file.read_text() != text:
            yield f"{file.relative_to(ROOT)} is not what tools/macro_table.py writes"


def about(name):
    """Returns the entry of a name, as `entry_of` of the crate finds it."""
    for entry in entries():
        if name in entry.names or entry.kind == "family" and name.startswith(entry.names[0]):
            return entry
    return None


def main(words):
    if words == ["--check"]:
        found = list(differences())
        print("".join(f"{line}\n" for line in found), end="")
        return int(bool(found))
    if words[:1] == ["--fill"]:
        entry = about(words[1])
        print(f"{entry.kind} {words[1]}\n{fill(entry.text(), words[2:])}" if entry else f"nothing is said of {words[1]}")
        return int(entry is None)
    for line in wrong():
        print(line)
    TEXT.write_text(text_of_crate())
    EXACT.write_text(text_of_exact())
    PAGE.write_text(page())
    return 0


if __name__ == "__main__":
    sys.exit(main(sys.argv[1:]))
