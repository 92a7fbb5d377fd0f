#!/usr/bin/env python3
"""Writes docs/promises-by-crate.md: what the contract of each public function promises, from the sources.

    tools/promise_table.py            writes the page
    tools/promise_table.py --check    prints what is wrong with the sources or the page, and then exits with status 1

A sentence of the page is the `//` lines above a clause, or the `///` text of a function. A function is public if its module is, or if the
head of its crate passes it on. A method is public if its type or trait is. Tests and programs have no section. A function that nobody
has explained is an error, and so is an edit of tested-bodies/ that names no test, or a crate with functions without a clause that is not in
WHY_NONE.
"""
import pathlib
import re
import sys
import textwrap

ROOT = pathlib.Path(__file__).resolve().parent.parent
CRATES = ROOT / "crates"
PAGE = ROOT / "docs/promises-by-crate.md"
WIDTH = 116
HEAD = """# Promises by crate

What the contract of each public function promises, crate by crate, lowest first. [promises](promises.md) has what holds
of whole runs, the premises, and what is tested or trusted: read it first. `tools/promise_table.py` writes this page
from the sources.

- A sentence after a label is the comment above the clause of that name. The checker proves the clause, and not the
  sentence.
- A sentence after a function is its documentation, and may say more than its clauses do. The clauses without a
  sentence of their own are named after it, or counted if they have no name.
- A premise is what a caller has to meet. *Definitions* are those that the clauses and the premises name: read them in
  `specs/` of this crate or of one below.
- Every function is safe and ends. A function without a clause promises no more, and is only named.
- A *law* is a function that returns nothing and changes nothing. Its clauses are theorems about definitions.
"""
# Why functions of a crate have no clause, by crate.
WHY_NONE = {
    "tool_start": "It takes what the program starts with. That the right program is started is tested.",
    "crew_launch": "They ask the system in which pipe there is something to read. Whatever it answers, no byte is lost.",
    "run_facts": "They ask the system for what a run rests on, and for whose a file is. Nothing is known of what it answers.",
    "run_answers": "It removes a file. Of real files nothing is known.",
    "cmd_standin": "It takes the handle by which files are made. Nothing is known of them.",
    "cmd_call": "It gives the error of the last write. Which one the system gives is not known.",
    "lint_sources": "What templates want, and what is left to do in them, is a judgement, name by name and rule by rule. What a source gets for it "
    "is stated by `cmd_port`.",
    "lint_templates": "What a template wants, and what a rule runs, is a judgement. Examples hold it.",
    "lint_macros": "Each index is exact, whoever made it: it has a ghost field that says so, and its calls are stated by that.",
    "lint_words": "They choose words for a reader. Which words are right is a judgement, and examples hold it.",
    "run_words": "They choose words for a reader. Which words are right is a judgement, and examples hold it.",
    "lint_warnings": "What means something else than it seems to is a judgement, row by row. Examples hold each row.",
    "port_definitions": "They look for places at which something may be written. What is written there is stated by `port_passes`.",
    "port_spots": "They look at what is around a place, and at what is known of a text. What may be put there is stated by `port_changes`.",
    "port_changes": "That Autoconf does a macro of this name before the call that it is in is a judgement.",
    "port_passes": "They look for places and for names. What is written there is stated by the functions that write.",
    "port_setup": "They say whether something is to be written, and where. What is written there is stated by `pass_compiler` and `pass_title`.",
    "port_breaks": "It says where to look for a command. Where a line may be broken is stated by `broken`.",
    "port_parts": "They say where to look for a part. What is there is stated by the functions that judge it.",
    "port_statements": "Whether Autoconf makes checks before a call is a judgement by the table of macros.",
    "port_reasons": "It names statements that stay, for the words of an error.",
    "port_rules": "It gives the rows. What a row puts is stated by `edit_by`, for any row.",
}
FN = re.compile(r"( *)(pub |pub\([^)]*\) )?(?:const )?(?:unsafe )?fn (\w+)")
CLAUSE = re.compile(r"(\s*)(requires|ensures)(?: (\w+))? \{")


class Function:
    """A function with its documentation and its clauses."""

    def __init__(self, name, owner, trait, is_public, text):
        self.name, self.owner, self.trait, self.is_public, self.text = name, owner, trait, is_public, text
        self.clauses, self.premises, self.is_law, self.cited = [], [], False, set()

    def full_name(self):
        return f"{self.owner}::{self.name}" if self.owner else self.name

    def shown_name(self):
        """Returns the name, and of which trait it is or that it is a law."""
        return f"**`{self.full_name()}`**" + (f" of `{self.trait}`" if self.trait else " (law)" if self.is_law else "")


def rows():
    """Returns the crates of crates.txt in their order."""
    lines = (line.partition("#")[0].partition(":")[0].strip() for line in (ROOT / "crates.txt").read_text().splitlines())
    return [line for line in lines if line]


def depth(line):
    """Returns by how much a line opens more braces than it closes, outside texts and comments."""
    line = re.sub(r'"(?:\\.|[^"\\])*"|b?\'(?:\\.|[^\'\\])\'|//.*', "", line)
    return line.count("{") - line.count("}")


def prose(lines):
    """Returns the text of comments, up to a heading or an example, in one line."""
    kept = []
    for line in lines:
        if line.startswith(("#", "```")):
            break
        kept.append(line)
    text = " ".join(" ".join(kept).split())
    return re.sub(r"\[(`[^`]*`)\](?:\([^)]*\))?", r"\1", text)


def definitions(file):
    """Returns the names of definitions of this repository that a file brings into scope."""
    found = set()
    for crate, path, names in re.findall(r"(?ms)^ghost use Rattle\.(\w+)\.([\w.]+)\.\{(.*?)\};", file.read_text()):
        if crate in rows() and path.startswith("specs.") and not path.startswith("specs.declared"):
            found |= {it.strip() for it in names.split(",")}
    return {it for it in found if re.fullmatch(r"\w+", it)}


def functions(file):
    """Yields the functions of a file."""
    lines, owner, trait, is_trait, comments, at = file.read_text().splitlines(), "", "", False, [], 0
    while at < len(lines):
        line = lines[at]
        at += 1
        if line.startswith("}"):
            owner, trait, is_trait = "", "", False
        context = re.match(r"(?:pub(?:\([a-z]+\))? )?(trait|impl)(?:<[^{]*?>)? (?:(\w+)(?:<[^{]*?>)? for )?(\w+)", line)
        if context:
            owner, trait, is_trait = context[3], context[2] or "", context[1] == "trait"
        found = FN.match(line)
        if not found or found[1] not in ("", "    ") or (found[1] and not owner):
            is_comment = line.strip().startswith("///")
            if is_comment:
                comments.append(re.sub(r"^\s*/// ?", "", line))
            elif not line.strip().startswith(("#", "using", "unfolding")) and not re.match(r"\s*[\w:., )(\]]*$", line) or not line.strip():
                comments = []
            continue
        in_owner = bool(found[1])
        function = Function(found[3], owner if in_owner else "", trait if in_owner else "", found[2] == "pub " or in_owner and is_trait, prose(comments))
        comments, above, level, signature = [], [], 0, ""
        at -= 1
        while at < len(lines):
            line = lines[at]
            at += 1
            begun = CLAUSE.match(line) if not level else None
            if begun:
                (function.premises if begun[2] == "requires" else function.clauses).append((begun[3] or "", prose(above)))
            if begun or level:
                function.cited |= {*re.findall(r"\w+", re.sub("//.*", "", line))}
                level += depth(line)
                above = []
                if not level and line.rstrip().endswith(";"):
                    break
                continue
            if line.strip().startswith("//"):
                above.append(re.sub(r"^\s*// ?", "", line))
                continue
            above = []
            body = line.strip()
            if body.startswith("{") or body.endswith(("{", "{}", ";")):
                signature += body
                break
            signature += body
        function.is_law = bool(function.clauses) and not re.search(r"->|&mut|\bself\b", signature)
        yield function


def passed_on(crate):
    """Returns the public modules of a crate, the names of its own that its head passes on, and those of other crates by crate."""
    text = (CRATES / crate / "src/lib.rt").read_text()
    modules = {*re.findall(r"(?m)^pub mod (\w+)", text)}
    own, others = set(), {}
    for path, names in re.findall(r"(?m)^pub use ([\w:]+)::(\{[^}]*\}|\w+(?: as \w+)?);", text):
        found = {it.strip().split(" as ")[-1] for it in names.strip("{}").split(",") if it.strip()}
        first = path.split("::")[0]
        if first in rows():
            others.setdefault(first, set()).update(found)
        elif (CRATES / crate / f"src/{first}.rt").exists() or first == "crate" or (CRATES / crate / f"src/{first}").is_dir():
            own |= found
    return modules, own, others


def public_functions(crate):
    """Yields each file of a crate with its public functions, in the order of the head's modules."""
    modules, own, _ = passed_on(crate)
    for file in sorted((CRATES / crate / "src").rglob("*.rt")):
        is_open = file.stem in modules or file.stem == "lib"
        found = []
        for one in functions(file):
            is_seen = bool(one.clauses) if one.trait else one.is_public
            if is_seen and (is_open or (one.owner or one.name) in own):
                found.append(one)
        if found:
            yield file, found


def wrapped(text, first, rest):
    """Returns a paragraph in lines of at most WIDTH columns, without a break in code."""
    text = re.sub(r"`[^`]*`", lambda it: it[0].replace(" ", "\x00"), text)
    made = textwrap.fill(text, WIDTH, initial_indent=first, subsequent_indent=rest, break_long_words=False, break_on_hyphens=False)
    return made.replace("\x00", " ")


def ended(text):
    """Returns a text with a dot at its end."""
    return text if text.endswith((".", ":", "?")) else f"{text}."


def named_clauses(function):
    """Returns what is said of the clauses that have no sentence of their own, and of the premises."""
    parts = []
    for name, found in (("Clause", function.clauses), ("Premise", function.premises)):
        names = [f"`{label}`" if label else "one without a name" for label, said in found if not said]
        if names == ["one without a name"]:
            parts.append(f"One {name.lower()}.")
        elif names:
            parts.append(f"{name}{'s' if len(names) > 1 else ''}: {', '.join(names)}.")
    return " ".join(parts)


def section(crate):
    """Yields the lines of a crate's section."""
    head = prose(re.findall(r"(?m)^//! ?(.*)$", (CRATES / crate / "src/lib.rt").read_text().split("\n//!\n")[0] + "\n"))
    _, _, others = passed_on(crate)
    yield from ["", f"### {crate}", "", wrapped(ended(head), "", "")]
    silent = []
    for file, found in public_functions(crate):
        told, known = [one for one in found if one.clauses], definitions(file)
        silent += [one.full_name() for one in found if not one.clauses]
        if told:
            yield from ["", f"`{file.relative_to(CRATES / crate)}`:", ""]
        for one in told:
            cited = ", ".join(f"`{it}`" for it in sorted(one.cited & known, key=str.lower))
            texts = [ended(one.text) if one.text else "", named_clauses(one), f"Definitions: {cited}." if cited else ""]
            yield wrapped(f"{one.shown_name()}: {' '.join(filter(None, texts))}".rstrip(": "), "- ", "  ")
            for label, said in one.clauses:
                if said:
                    yield wrapped(f"`{label}`: {ended(said)}" if label else ended(said), "  - ", "    ")
            for label, said in one.premises:
                if said:
                    yield wrapped(f"premise{f' `{label}`' if label else ''}: {ended(said)}", "  - ", "    ")
    if silent:
        names = ", ".join(f"`{it}`" for it in dict.fromkeys(silent))
        yield from ["", wrapped(f"Without a clause: {names}. {WHY_NONE.get(crate, '')}".rstrip(), "", "")]
    for other, names in others.items():
        yield from ["", wrapped(f"Passes on from `{other}`: {', '.join(f'`{it}`' for it in sorted(names))}.", "", "")]


def tested_bodies():
    """Returns the edits that tests alone refuse: crate, test, and the name of the edit."""
    found = []
    for edit in sorted(CRATES.glob("*/tested-bodies/*.edit")):
        said = dict(line.split(": ", 1) for line in edit.read_text().splitlines() if line.startswith(("test: ", "fails: ")))
        found.append((edit.parts[-3], said.get("test", ""), edit.stem.replace("-", " ")))
    return found


def crates():
    """Returns the crates that have a section."""
    return [it for it in rows() if not it.startswith("test") and (CRATES / it / "src/lib.rt").exists() and [*public_functions(it)]]


def text_of_page():
    """Returns the page."""
    lines = [HEAD.rstrip("\n"), "", "## Crates"]
    for crate in crates():
        lines += section(crate)
    lines += ["", "## What a test alone refuses", "",
              wrapped("No clause refuses these wrong bodies, as far as was tried or read. Each is an edit in the crate's `tested-bodies/`, and "
                      "`make plants` plants it and sees its test fail. The gate runs all of these tests.", "", ""),
              "", "| Crate | Test | What the wrong body does |", "|---|---|---|"]
    lines += [f"| `{crate}` | `{test}` | {name} |" for crate, test, name in tested_bodies()]
    return "\n".join(lines) + "\n"


def unexplained():
    """Yields a line for each public function that has no sentence, and for each edit without a test."""
    for crate in crates():
        for file, found in public_functions(crate):
            for one in found:
                if not one.text and not (one.clauses and all(said for _, said in one.clauses)) and not one.trait:
                    yield f"{file.relative_to(ROOT)}: {one.full_name()} is public, and no comment says what it does"
            written = len(re.findall(r"(?m)^\s*(?:requires|ensures)\b", file.read_text()))
            read = sum(len(one.clauses) + len(one.premises) for one in functions(file))
            if written != read:
                yield f"{file.relative_to(ROOT)} has {written} clauses, and {read} were read"
    silent = {crate for crate in crates() for _, found in public_functions(crate) for one in found if not one.clauses}
    for crate in sorted(silent ^ {*WHY_NONE}):
        yield f"tools/promise_table.py: WHY_NONE and the functions without a clause do not agree on {crate}"
    for crate, test, name in tested_bodies():
        if not test:
            yield f"crates/{crate}/tested-bodies: {name} names no test"


def differences():
    """Yields a line for each function without a sentence, and one if the page is old."""
    yield from unexplained()
    if not PAGE.exists() or PAGE.read_text() != text_of_page():
        yield f"{PAGE.relative_to(ROOT)} is old: run tools/promise_table.py"


def main(words):
    found = [*(differences() if words == ["--check"] else unexplained())]
    print("".join(f"{line}\n" for line in found), end="")
    if words != ["--check"]:
        PAGE.write_text(text_of_page())
    return int(bool(found))


if __name__ == "__main__":
    sys.exit(main(sys.argv[1:]))
