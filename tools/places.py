#!/usr/bin/env python3
"""Prints the files that a change of the nearest kind touched.

    tools/places.py                            prints the list of each kind of change
    tools/places.py a message                  prints that of the kinds whose names have these words
    tools/places.py a program test --new NAME  prints also the files that name what is to be added, such as a macro that is unknown so far
    tools/places.py --paths ..                 prints the paths alone, to be compared with those of `git diff --name-only`
    tools/places.py --uses NAME..              prints the files that use one of these identifiers

A file of a crate is printed without its suffix: those of `src` have `.rt`, and those of `specs` and `proofs` `.antt`. Whoever adds a
message changes the files that name the message that was added last. So the list for a kind of change has each file that uses an
identifier of the nearest one of that kind, outside imports and comments, or has its name in a text. Documents and examples are listed by
hand, since many of them only use what there is. What a script writes, or the program, is listed with it: run it, and edit nothing there.
With the files of a macro stands what `lint`, `why` and `port` say of it, since a macro is read and run without that.
"""
import functools
import pathlib
import re
import subprocess
import sys

CASES = ["crates/tests_cases/data", "crates/tests_cases/stdout"]
PAGE = ["docs/language.md", "CHANGELOG.md"]
MACRO = [*CASES, *PAGE, "README.md", "crates/lint_macros/macros.txt"]
# The crates in which `lint`, `why` and `port` say something of a macro.
SAYING = ("lint_words", "run_words", "lint_warnings", "lint_templates", "cmd_why", "cmd_port", "port_calls", "port_changes", "port_definitions", "port_exchanges", "port_idioms", "port_passes", "port_setup", "port_shell", "port_spots", "port_statements")
# The form of each macro is here.
FORMS = pathlib.Path("crates/lint_words/src/forms.rt")
# In rows of tests a newline is `^J`.
LINES = "J?(?:start refused|failed program was)"
LINT = ["examples/lint/sources.txt"]
WORDS = ["crates/lint_table/words.txt"]
PORT = ["docs/commands.md", "docs/migrate.md", "CHANGELOG.md", "examples/port/sources.txt", "crates/tests_report/src/of_port_shell.rt", "tools/exact_forms.py"]
WARNING = [*WORDS, *LINT, "crates/tests_report/src/of_lint_warnings.rt", "docs/promises.md"]
# What is written, by what.
BY_MACROS = ("tools/macro_table.py", ["crates/lint_macros/src/text.rt", "crates/port_idioms/src/table.rt", "docs/macros.md"])
BY_WORDS = ("tools/word_table.py", ["crates/lint_table/src/keys.rt", "docs/errors.md"])
BY_DIFFERENCES = ("tools/word_table.py, if something means another thing to Autoconf", ["crates/lint_table/specs/Differences.antt"])
BY_FAULTS = ("tools/lint_codes.py", ["docs/errors.md"])
BY_LINT = ("examples/lint/run.sh PROGRAM --write", ["examples/lint/expected.txt"])
BY_PORT = ("examples/port/run.sh PROGRAM --write", ["examples/port/expected.txt"])

# The change, the nearest one, its identifiers, its name as texts of the code have it, the crates to
# search (all of them if there is none), the documents, data and examples, and what is written.
KINDS = [
    ("A message", "AC_MSG_NOTICE", r"Notice|reads AC_MSG_NOTICE", "AC_MSG_NOTICE", (), MACRO, [BY_MACROS]),
    ("A plain macro", "AC_ARG_VAR", r"ArgVar|fn arg_var|arg_var : declarations|reads AC_ARG_VAR", "AC_ARG_VAR", (), MACRO, [BY_MACROS]),
    ("A program test", "AC_PATH_PROG",
     r"PathProg|fn path_prog|path_prog : declarations|reads AC_PATH_PROG", "AC_PATH_PROG", (),
     [*MACRO, "docs/how-it-runs.md"], [BY_MACROS]),
    ("A cached test", "AC_CHECK_LIB", r"\w*[Ll]ibrary\w*", "AC_CHECK_LIB", (),
     [*MACRO, "docs/how-it-runs.md", "docs/formats.md"], [BY_MACROS]),
    ("An entry", "AC_CHECK_DECLS", r"Declaration|declaration_form|NO_DECLARATIONS?|reads AC_CHECK_DECLS|JAC_CHECK_DECLS", "AC_CHECK_DECLS", (),
     [*MACRO, *WORDS, "docs/how-it-runs.md"], [BY_MACROS, BY_WORDS]),
    ("An option", "`--no-create`", r"NoCreate|no_create", "--no-create", (),
     [*CASES, "docs/commands.md", "docs/packaging.md", "CHANGELOG.md", "share/acrun.1", "share/completions", "share/configure", "tools/fuzz.py"], []),
    ("An output kind", "the headers",
     r"headers|OutputKind|ConfigOutputs|\w*fill_header\w*|Kind::Header|made_header\w*",
     "AC_CONFIG_HEADERS", (),
     [*CASES, *PAGE, "docs/formats.md", "docs/commands.md", "docs/how-it-runs.md"], []),
    ("A fault of a source", "`CacheBody`", r"CacheBody", "", (), [*CASES, *LINT, "docs/errors.md"], [BY_FAULTS, BY_LINT]),
    ("A fault of a command line", "`FatalUnrecognized`", r"FatalUnrecognized", "", (), [*CASES, "tools/lint_codes.py"], [BY_FAULTS]),
    ("A fault of outputs made again", "`NoArguments`", r"NoArguments|explain_remake", "", (),
     [*CASES, "docs/commands.md", "docs/errors.md"], []),
    ("A line of the log", "`start refused` and `failed program was`", LINES, LINES, (),
     [*CASES, "docs/formats.md", "tools/fuzz_why.py", "tools/cut_and_resume.py", "bench/windows.py"], []),
    ("The words of a fault", "`CacheBody`", r"CacheBody|CACHE_BODY", "", ("lint_words", "run_words"), [*WORDS, *LINT], [BY_WORDS, BY_LINT]),
    ("A warning of `lint`, a row", "`COMMA_IN_NAME`", r"COMMA_IN_NAME", "", ("lint_warnings",), WARNING, [BY_WORDS, BY_DIFFERENCES, BY_LINT]),
    ("A warning of `lint`, a function", "`warn_of_compiler`", r"warn_of_compiler", "", (), WARNING, [BY_WORDS, BY_DIFFERENCES, BY_LINT]),
    ("A rewrite of `port`, a statement", "`X=${X:-WORD}`", r"IsDefaulting|DefaultOf|DefaultCut|default_of", "",
     ("port_parts", "port_statements", "port_compounds", "port_shell"), PORT, [BY_PORT]),
]


def is_test(file):
    """Returns whether a file is of a crate that tests others."""
    return bool(re.search(r"/tests_\w+/", str(file)))


@functools.cache
def code(file, has_texts):
    """Returns the text of a file without imports and comments, and without its strings if asked."""
    text = file.read_text()
    if file.suffix == ".antt":
        text = re.sub(r"(?m)(?:^|\s)--(?: .*)?$", "", text)
        return re.sub(r"(?m)^(?:pub )?use .*$(?:\n[ \t]+.*$)*", "", text)
    text = re.sub(r"(?m)//.*$", "", text)
    if not has_texts:
        text = re.sub(r'(?s)"(?:\\.|[^"\\])*"', '""', text)
    return re.sub(r"(?ms)^\s*(?:pub(?:\([a-z]+\))? |ghost )*use\b.*?;", "", text)


def is_used(file, words, name):
    """Returns whether a file uses one of the identifiers, or has the name in a text."""
    if re.search(rf"\b(?:{words})\b", code(file, is_test(file))):
        return True
    if not name or is_test(file) or file.parts[1] in ("lint_macros", "lint_table"):
        return False
    return bool(re.search(rf'"[^"]*(?<![\w-]){name}(?![\w-])', code(file, True)))


def uses(words, name="", crates=()):
    """Returns the files of code, definitions and proofs that use an identifier, or have the name."""
    files = pathlib.Path("crates").glob("*/*/**/*")
    return sorted(
        file
        for file in files
        if file.suffix in (".rt", ".antt") and file.parts[2] in ("src", "specs", "proofs")
        and (not crates or file.parts[1] in crates) and is_used(file, words, name)
    )


def order():
    """Returns the crates, lowest first."""
    lines = pathlib.Path("crates.txt").read_text().splitlines()
    return [line.partition(":")[0] for line in lines if line and not line.startswith("#")]


def grouped(files):
    """Returns a text for each crate, lowest first: its name and its files."""
    crates = order()
    for crate in sorted({file.parts[1] for file in files}, key=crates.index):
        parts = {}
        for file in files:
            if file.parts[1] == crate:
                name = "/".join(file.parts[3:]).rpartition(".")[0]
                parts.setdefault(file.parts[2], []).append(name)
        inside = "; ".join(f"{part} {', '.join(parts[part])}" for part in ("src", "specs", "proofs")
                           if part in parts)
        yield f"{crate} ({inside})"


def counted(number, what):
    """Returns a number with the word for what is counted."""
    return f"{number} {what}" if number == 1 else f"{number} {what}s"


def chosen_kinds(chosen):
    """Returns the kinds of change whose names have the chosen words."""
    return [it for it in KINDS if chosen.lower() in it[0].lower()]


def files_of(kind):
    """Returns the files of a kind of change: those that use what is nearest, and those in which something is said of it."""
    _, _, words, name, crates, others, _ = kind
    files = uses(words, name, crates)
    is_macro = others[:len(MACRO)] == MACRO
    said = [file for file in files if is_macro and file.parts[1] in SAYING and file != FORMS]
    return [file for file in files if file not in said], said


def naming(new, kinds):
    """Returns the files that name what is to be added, and that no list of these kinds has."""
    listed = {str(file) for kind in kinds for found in files_of(kind) for file in found}
    listed |= {it for kind in kinds for _, made in kind[6] for it in made} | {it for kind in kinds for it in kind[5]}
    tracked = subprocess.run(["git", "ls-files"], capture_output=True, text=True).stdout.splitlines()
    # In sources of examples a newline is `\n`, and in rows of tests `^J`.
    word = re.compile(rf"(?:(?<!\w)|(?<=\\n)|(?<=\^J)){re.escape(new)}(?!\w)")
    return [it for it in tracked if it not in listed and word.search(pathlib.Path(it).read_text(errors="replace"))]


def lists(kinds):
    """Yields the list of each of these kinds of change."""
    for kind in kinds:
        change, nearest, _, _, _, others, made = kind
        files, said = files_of(kind)
        count = f"{counted(len(files), 'file')} in {counted(len({file.parts[1] for file in files}), 'crate')}"
        yield f"{change}, as {nearest}: {count}"
        yield from (f"    {it}" for it in [*grouped(files), *others])
        yield from (f"    {', '.join(written)} (written by {by})" for by, written in made)
        if said:
            yield "    and if lint, why or port says something of it:"
            yield from (f"    {it}" for it in grouped(said))
        yield ""


def paths(kinds):
    """Returns the paths of these kinds of change, with what is written, and without what only says something."""
    return sorted({it for kind in kinds for it in [*map(str, files_of(kind)[0]), *kind[5], *(file for _, made in kind[6] for file in made)]})


def missing():
    """Yields a line for each document or example of a list that is not there."""
    for change, *_, others, made in KINDS:
        for it in [*others, *(file for _, written in made for file in written)]:
            if not pathlib.Path(it).exists():
                yield f"tools/places.py: there is no {it}, of: {change}"


def main():
    arguments = sys.argv[1:]
    if arguments[:1] == ["--uses"]:
        print("".join(f"{file}\n" for file in uses("|".join(arguments[1:]))), end="")
        return 0
    new, has_paths = "", "--paths" in arguments
    if "--new" in arguments[:-1]:
        at = arguments.index("--new")
        new = arguments[at + 1]
        del arguments[at:at + 2]
    kinds = chosen_kinds(" ".join(it for it in arguments if it != "--paths"))
    named = naming(new, kinds) if new else []
    lines = [*paths(kinds), *named] if has_paths else [*lists(kinds), *([f"Files that name {new}:", *(f"    {it}" for it in named), ""] if new else [])]
    print("".join(f"{line}\n" for line in lines), end="")
    return 0


if __name__ == "__main__":
    sys.exit(main())
