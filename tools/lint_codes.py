#!/usr/bin/env python3
"""Writes the codes of lint's findings, and the numbers of errors, into docs/errors.md, from the words and the faults.

    tools/lint_codes.py            writes the lists
    tools/lint_codes.py --check    prints whether the page has others, and then exits with status 1

The code of an error of the source is `parse-` and the number by which a fault prints, and what it says is the comment of the fault.
Every other code is a key of crates/lint_table/words.txt, and what it says, and the help, are those there. A place of a text is in capitals.

The tables of the errors of a command line, a cache, a precious variable and a record are made too: a number and a cause are those of the
fault, and the examples are those below. tools/try_errors.py gives them to the program. The lines of errors, and the errors of a source, are
written by hand. Each line and each number that the code has must have a row there, and each row must be of the code. So it is with the
manual page, which has no causes of a cache and of a record.
"""
import pathlib
import re
import sys

import word_table

ROOT = pathlib.Path(__file__).resolve().parent.parent
CRATES = ROOT / "crates"
FAULTS = {"": ("ac_statement", "ParseFault"), "1.": ("m4quote", "QuoteFault"), "6.": ("shellword", "ShellFault")}
END = "<!-- up to here -->"
PAGE, MANUAL = ROOT / "docs/errors.md", ROOT / "share/acrun.1"
SEVERITIES = {"error": "error", "warning": "warning", "difference": "warning, difference", "left": "warning, left to do"}
# The faults that are a number of an error line: their crate, the titles of the last columns, and those of each variant. Of a cache and of a
# record the example is the text, in which `\n` is a newline.
NUMBERED = {
    "OptionFault": ("options_line", ("Example", "Argument"), {
        "Unknown": ("`-prefix=/a`", "1"),
        "BadFeature": ("`--enable-a,b`", "1"),
        "BadVariable": ("`A=1`, `a b=2`", "2"),
        "MissingValue": ("`--prefix`", "1"),
        "FatalUnrecognized": ("`--enable-zz`, `--enable-option-checking=fatal`", "1"),
    }),
    "CacheFault": ("cachefile", ("Example", "Line"), {
        "BadLine": ("`v_cv_a=${v_cv_b=1}`; `v_cv_a=$'x\\ty'`, whose value has a quote of bash", "1"),
        "BadName": ("`x=1`", "1"),
        "TooLarge": ("4,194,305 newlines", ""),
    }),
    "PreciousFault": ("options", ("Marks that the cache sets", "CC now"), {
        "WasSet": ("`ac_cv_env_CC_set=set`", "unset"),
        "WasUnset": ("`ac_cv_env_CC_set=`", "`cc`"),
        "Changed": ("`ac_cv_env_CC_set=set`, `ac_cv_env_CC_value='gcc  -O'`", "`cc`"),
    }),
    "RecordFault": ("status_record", ("Example", "Line"), {
        "BadMagic": ("`acrun-record 01\\n`", ""),
        "BadLine": ("`acrun-record 1\\nsrcdir .\\nvar 9 x\\n`", "3"),
        "Truncated": ("`acrun-record 1\\n`", ""),
        "UnknownVersion": ("`acrun-record 3\\n`", ""),
        "DuplicateName": ("`acrun-record 1\\nsrcdir .\\nvar A x\\nvar A x\\n`", "4"),
    }),
}
# The faults whose text is a whole error line.
LINES = (("engine_frame", "Fault"), ("engine_frame", "RemakeFault"), ("cmd_filter", "FilterFault"))


def warnings():
    """Returns the codes that are keys, each with its severity, with what it says, and with its help."""
    found = (entry for entry in word_table.entries().values() if entry.severity)
    return {entry.key: (entry.severity, word_table.shown(entry), word_table.help_in_line(entry)) for entry in found}


def variants(crate, enum):
    """Yields the name of each variant of a fault, the text by which it prints, and its comment. Memory that runs out is left out."""
    text = (CRATES / crate / "src/fault.rt").read_text()
    body = re.search(rf"(?s)pub enum {enum} \{{(.*?)\n\}}", text)[1]
    for comment, shown, name in re.findall(r'((?:\s+///[^\n]*)+)(?:\s+#\[error\("([^"]*)"\)\])?\s+(\w+)', body):
        printed = re.search(rf'\b{enum}::{name}\b[^=]*=> (?:\{{\s*let kind.*?)?(?:write!\(f, |f\.write_str\()"([^"]*)"', text, re.S)
        shown = shown or printed[1]
        if shown != "memory" or enum == "Fault":
            yield name, shown, " ".join(re.sub(r"\s*///\s*", " ", comment).split())


def number_of(shown):
    """Returns the number of a text such as `6.{kind} at {at}`."""
    return re.match(r"[\w.]*", shown)[0]


def faults(front=""):
    """Yields the numbers by which the faults of a source print, each with the comment of the fault."""
    for _, shown, text in variants(*FAULTS[front]):
        number = number_of(shown)
        if number in FAULTS:
            yield from faults(number)
            continue
        text = re.sub(r" \([^)]*\)\.$", ".", re.sub(r"this (?:crate|engine)", "acrun", text))
        yield front + number, text.split(". ")[0].rstrip(".")


def rows():
    """Returns the rows of the list: a code, its severity, what it says, and the help if there is one for all of its messages."""
    made = [(f"parse-{number}", "error", re.sub(r"^[A-Z](?=[a-z]* )", lambda it: it[0].lower(), text), "") for number, text in faults()]
    others = sorted(warnings().items(), key=lambda row: (row[1][0] != "error", row[0]))
    return made + [(code, *row) for code, row in others]


def table():
    """Returns the list of codes."""
    lines = [f"| `{code}` | {SEVERITIES[severity]} | {word_table.cell(text)} | {word_table.cell(advice)} |" for code, severity, text, advice in rows()]
    return "\n".join(["| Code | Severity | What it says | What to do |", "|---|---|---|---|", *lines])


def numbers(enum):
    """Returns the table of the numbers of a fault, with their causes and examples."""
    crate, titles, examples = NUMBERED[enum]
    found = [*variants(crate, enum)]
    if {name for name, _, _ in found} != {*examples}:
        raise LookupError(f"{crate}: the variants of {enum} and the examples do not agree")
    lines = [f"| {number_of(shown)} | {re.sub(r'(is) no ', r'is not a ', text)} | {' | '.join(examples[name])} |" for name, shown, text in found]
    return "\n".join([f"| Number | Cause | {' | '.join(titles)} |", "|---" * (2 + len(titles)) + "|", *lines])


def document():
    """Returns the page with each list between its marks."""
    page = PAGE.read_text()
    for name, made in (("the codes", table()), *((enum, numbers(enum)) for enum in NUMBERED)):
        front, begin, rest = page.partition(f"<!-- tools/lint_codes.py writes {name} -->")
        end = rest.find(END)
        if not begin or end < 0:
            raise LookupError(f"{PAGE.name} has no place for {name}")
        page = f"{front}{begin}\n\n{made}\n\n{rest[end:]}"
    return page


def heads_of_code():
    """Returns what error lines begin with, as far as the code spells it."""
    found = {shown for crate, enum in LINES for _, shown, _ in variants(crate, enum)} | {"memory"}
    for file in (it for front in ("cmd_*", "*runner") for it in CRATES.glob(f"{front}/src/*.rt")):
        text = re.sub(r"(?m)//.*$", "", file.read_text())
        found |= {*re.findall(r'tell_(?:named|numbered|spot)\(\s*errors,\s*[&b]"([^"]*)"', text)}
        found |= {*re.findall(r'write!\(errors, "acrun: ([^"]*)\\n"', text)}
        found |= {*re.findall(r'=> \("(precious)', text)}
    return {re.sub(r" ?\{.*| \d+$| $", "", it) for it in found} - {""}


def section(heading):
    """Returns the first cells of the rows below a heading of the page."""
    text = re.split(r"(?m)^#+ ", PAGE.read_text().partition(f" {heading}\n")[2])[0]
    return [it for it in re.findall(r"(?m)^\| (.*?) \|", text) if it not in ("Number", "Line")]


def missing_rows():
    """Yields a line for each error line and each number of a source's error that the page lacks, and for each that the code lacks."""
    code, page = heads_of_code(), {re.match(r"[a-z ]*[a-z]", it)[0] for cell in section("Error lines") for it in re.findall(r"`([^`]*)`", cell)}
    yield from (f"{PAGE.name}: no row has the error line {it}" for it in sorted(code - page))
    yield from (f"{PAGE.name}: no error line begins with {it}" for it in sorted(page) if it.split()[0] not in {known.split()[0] for known in code})
    known, listed = {number for number, _ in faults()}, {*section("Errors of a source")}
    yield from (f"{PAGE.name}: the rows and the errors of a source do not agree on {it}" for it in sorted(known ^ listed))


def missing_in_manual():
    """Yields a line for each error line that the manual page lacks, or has other numbers for than the code."""
    text = MANUAL.read_text().partition("\n.SH ERRORS\n")[2].partition("\n.SH ")[0]
    blocks = {re.search(r'"acrun: ([a-z ]*[a-z])', it)[1]: {*re.findall(r"(?m)^(\d+): ", it)} for it in text.split("\n.TP\n")[1:]}
    for head in sorted({it.split()[0] for it in heads_of_code()} - {it.split()[0] for it in blocks}):
        yield f"{MANUAL.name} does not have the error line {head}"
    known = {"parse": {number.partition(".")[0] for number, _ in faults()}}
    known |= {line: {number_of(shown) for _, shown, _ in variants(NUMBERED[enum][0], enum)} for line, enum in (("option", "OptionFault"), ("precious", "PreciousFault"))}
    for line, wanted in known.items():
        for number in sorted(wanted ^ blocks.get(line, set())):
            yield f"{MANUAL.name}: the numbers of the line {line} and the code do not agree on {number}"


def differences():
    """Yields a line if the page has another list, no place for it, or other rows than the code."""
    try:
        if PAGE.read_text() != document():
            yield f"{PAGE.relative_to(ROOT)} has other codes or numbers: run tools/lint_codes.py"
        yield from missing_rows()
        yield from missing_in_manual()
    except LookupError as error:
        yield f"tools/lint_codes.py: {error}"


def main():
    if sys.argv[1:] == ["--check"]:
        found = [*differences()]
        print("".join(f"{line}\n" for line in found), end="")
        return int(bool(found))
    try:
        PAGE.write_text(document())
    except LookupError as error:
        sys.exit(f"lint_codes.py: {error}")
    return 0


if __name__ == "__main__":
    sys.exit(main())
