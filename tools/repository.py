#!/usr/bin/env python3
"""Checks what no proof sees of the repository. `make check` runs it after `rt ci`, and it may be run alone.

Each check prints a line for each place that is wrong. The last line is 'N passed, M failed', and the exit status is 1 if M is
not 0.
"""
import functools
import os
import pathlib
import re
import shutil
import subprocess
import sys

import count_sentences
import fuzz_exact
import lint_codes
import macro_table
import places
import promise_table
import word_table

CRATES = pathlib.Path("crates")
# The budget of must-fail edits, which `rt ci` tries one by one.
MOST_EDITS, MOST_CRATES = 40, 15
# The most lines of docs/promises.md. It has the conditions of each promise, and two programs.
MOST_PROMISES = 170
# What comments name in the form of code, and is none: variables of a source, and files of a run.
NOT_OF_CODE = {"conftestN", "enable_NAME", "with_NAME", "enable_shared", "with_x"}


def rows(top="."):
    """Returns the libraries of each crate, by crates.txt of a repository."""
    lines = (line.partition("#")[0].partition(":") for line in pathlib.Path(top, "crates.txt").read_text().splitlines())
    return {name.strip(): uses.split() for name, _, uses in lines if name.strip()}


@functools.cache
def sources(crate):
    """Returns the text of all files of a crate."""
    files = (file for part in ("src", "specs", "proofs") for file in (CRATES / crate / part).rglob("*"))
    return "\n".join(file.read_text() for file in files if file.suffix in (".rt", ".antt"))


def unused_libraries():
    """A line of crates.txt lists a library that no file of the crate names: every check would read it."""
    for crate, uses in rows().items():
        text = sources(crate)
        for name in uses:
            if not re.search(rf"\bRattle\.{name}\.|\b{name}::|\buse {name}\b", text):
                yield f"crates.txt: {crate} names nothing of {name}"


def unlisted_crates():
    """A crate has no line in crates.txt, or a line has no crate."""
    found = {file.name for file in CRATES.iterdir() if any((file / "src" / it).exists() for it in ("lib.rt", "main.rt"))}
    for name in sorted(found ^ {*rows()}):
        yield f"crates.txt and crates/ do not agree on {name}"


def stray_files():
    """A file or folder at the top is none of those that CONTRIBUTING.md explains, such as one that a program left."""
    known = {"CHANGELOG.md", "CONTRIBUTING.md", "HANDLES", "LICENSE", "Makefile", "README.md", "crates.txt", "bench", "crates", "docs",
             "examples", "share", "tools"}
    listed = subprocess.run(["git", "ls-files"], capture_output=True, text=True).stdout.splitlines()
    for name in sorted({file.partition("/")[0] for file in listed} - known):
        if not name.startswith("."):
            yield f"{name} is tracked, and no part of the repository"


def below(crate, uses):
    """Returns the crates of the repository that a crate stands on, directly or not."""
    return {it for use in uses[crate] if use in uses for it in {use, *below(use, uses)}}


def modules_named_as_crates():
    """A module has the name of a crate below its own, which `rt ci` refuses and a check does not."""
    uses = rows()
    for crate in uses:
        for name in set(re.findall(r"(?m)^\s*(?:pub(?:\(crate\))? )?mod (\w+)\b", sources(crate))) & below(crate, uses):
            yield f"crates/{crate} has a module {name}, which is the name of a crate below"


@functools.cache
def contracts(crate):
    """Returns the functions of a crate that have clauses."""
    return [it for file in (CRATES / crate / "src").rglob("*.rt") for it in promise_table.functions(file) if it.clauses]


def faults_of_citation(cited):
    """Yields what is wrong with the indented lines after a promise: `crate`: `function`: `clause`, `clause`; ... Definitions: `Name`. A
    function is of the crate, and has these clauses. A definition is of one of the crates, or of one below."""
    uses = rows()
    promised, _, definitions = cited.partition("Definitions: ")
    crate, named = "", set()
    for item in re.split(r"[.;]\s", promised):
        names = re.findall(r"`([^`]*)`", item)
        if names and names[0] in uses:
            crate = names.pop(0)
            named.add(crate)
            item = item.partition(": ")[2]
        if not crate and names:
            yield f"no crate is named before {names[0]}"
            return
        if not names:
            continue
        before, _, labels = item.rpartition(": ")
        path = re.findall(r"`([^`]*)`", before)
        chosen = re.findall(r"`([^`]*)`", labels)
        known = contracts(crate)
        if item.strip().startswith("law") or not path:
            for name in chosen:
                if not any(name in (it.name, it.owner, it.trait) for it in known):
                    yield f"{crate} has no {name}"
            continue
        found = [it for it in known if it.name == path[-1] and (len(path) == 1 or path[0] in (it.owner, it.trait))]
        for name in sorted({*chosen} - {label for it in found for label, _ in it.clauses}):
            yield f"{crate}: {'::'.join(path)} has no clause {name}"
    known = set().union(*(defined_names(it) for crate in named for it in {crate, *below(crate, uses)}))
    for name in sorted({*re.findall(r"`([^`]*)`", definitions)} - known):
        yield f"{', '.join(sorted(named))} and the crates below have no definition {name}"


def promises_without_clauses():
    """docs/promises.md has a line over 120 columns, more lines than are read in ten minutes, or cites a clause or a definition that
    isn't there."""
    text = pathlib.Path("docs/promises.md").read_text()
    for number, line in enumerate(text.splitlines(), 1):
        if len(line) > 120 and not line.startswith("|"):
            yield f"docs/promises.md:{number} has {len(line)} columns"
    if text.count("\n") > MOST_PROMISES:
        yield f"docs/promises.md has {text.count(chr(10))} lines; {MOST_PROMISES} are the most"
    for block in re.findall(r"(?m)(?:^> .*\n)+", text):
        yield from (f"docs/promises.md: {wrong}" for wrong in faults_of_citation(" ".join(block.replace("\n> ", " ")[2:].split())))


@functools.cache
def words_of_code(crate):
    """Returns the words of a crate outside comments."""
    return {*re.findall(r"\w+", re.sub(r"(?m)//.*$|--(?: .*)?$", "", sources(crate)))}


def sentences_that_name_nothing():
    """A comment that docs/promises-by-crate.md shows has a name of code that neither the crate nor one below has."""
    uses = rows()
    for crate in promise_table.crates():
        known = NOT_OF_CODE.union(uses, *(words_of_code(it) for it in {crate, *below(crate, uses)}))
        for name in sorted({*re.findall(r"`(\w*(?:_|[a-z][A-Z])\w*)`", "\n".join(promise_table.section(crate)))} - known):
            yield f"crates/{crate}: a comment names {name}, and there is none"


def unnamed_crates():
    """The document that lists the crates lacks one, or its picture lacks one that a program stands on."""
    file = pathlib.Path("docs/architecture.md")
    text = file.read_text()
    picture = text.partition("## The way of a text")[2].partition("\n## ")[0]
    uses = rows()
    for crate in uses:
        if f"`{crate}`" not in text:
            yield f"{file} does not name the crate {crate}"
    programs = [it for it in ("acrun", "acrun_tools") if it in uses]
    for crate in sorted({*programs, *(under for it in programs for under in below(it, uses))}):
        if not re.search(rf"\b{crate}\b", picture):
            yield f"the picture of {file} lacks the crate {crate}"


def places_that_are_not_there():
    """docs/architecture.md names a file that does not exist, or a word that is not in its file."""
    file = pathlib.Path("docs/architecture.md")
    text = " ".join(file.read_text().split())
    for path in sorted({*re.findall(r"`([\w.-]+/[\w./-]*)`", text)}):
        known = (pathlib.Path(path), CRATES / path, *CRATES.glob(f"*/{path.rstrip('/')}"))
        if not any(it.exists() for it in known):
            yield f"{file}: there is no {path}"
    for word, path in sorted({*re.findall(r"`(\w+)` in `([\w-]+/[\w./-]*)`", text)}):
        place = CRATES / path
        if place.is_file() and not re.search(rf"\b{word}\b", place.read_text()):
            yield f"{file}: {path} has no {word}"


def files_of_changes_that_are_not_there():
    """tools/places.py lists a document or an example that does not exist."""
    yield from places.missing()


@functools.cache
def defined_names(crate):
    """Returns the names of the modules, functions, definitions and files of a crate."""
    names = {*re.findall(r"(?m)^\s*(?:pub(?:\(crate\))? )?(?:mod|fn|record) (\w+)", sources(crate))}
    names.update(one or other for one, other in re.findall(r"(?m)^ *(?:(?:abbrev |unfoldable |pub ){0,3}(\w+) :|pub data (\w+))", sources(crate)))
    return names.union(file.stem for part in ("specs", "proofs") for file in (CRATES / crate / part).rglob("*.antt"))


def heads_that_name_nothing():
    """A paragraph of a crate's head that says what to read has a name of nothing. A name with a capital may be of any crate. Another
    name must be a crate, or a module, a function or a definition of the crate or of one below."""
    uses = rows()
    everywhere = set().union(*map(defined_names, uses))
    for crate in uses:
        file = CRATES / crate / "src/lib.rt"
        head = "\n".join(re.findall(r"(?m)^//! ?(.*)$", file.read_text())) if file.exists() else ""
        known = {"src", "specs", "proofs", *uses}.union(*map(defined_names, {crate, *below(crate, uses)}))
        for paragraph in re.findall(r"\b[Rr]ead (`(?:.|\n(?!\n))*)", head):
            for name in re.findall(r"(?<!\[)`(?:specs/|proofs/)?(\w+)(?:\.antt)?`", paragraph):
                if name not in (everywhere if name[0].isupper() else known):
                    yield f"{file} says to read {name}, and there is none"


def applied(edit):
    """Applies an edit, and returns what is wrong with it, if anything is."""
    file, old, texts = None, None, {}
    for line in edit.read_text().splitlines():
        word, _, text = line.partition(": ")
        if word == "file":
            file = edit.parent.parent / text.strip()
            if not file.is_file():
                return f"there is no file {file}"
        elif word == "old":
            old = text
        elif word.rstrip(":") == "new":
            if not file or not old:
                return "it replaces nothing"
            now = texts.get(file) or file.read_text()
            if now.count(old) != 1:
                return f"its text is in {file} {now.count(old)} times: {old.strip()}"
            texts[file] = now.replace(old, text)
    return "" if texts else "it replaces nothing"


def edits_that_do_not_apply():
    """The text that an edit replaces is not in its file exactly once."""
    for edit in sorted(it for folder in ("must-fail", "wrong-bodies", "tested-bodies") for it in CRATES.glob(f"*/{folder}/*.edit")):
        wrong = applied(edit)
        if wrong:
            yield f"{edit}: {wrong}"


def tested_bodies_without_a_test():
    """A wrong body that tests alone refuse names no test, or not what that says. docs/promises-by-crate.md lists each of them."""
    for edit in sorted(CRATES.glob("*/tested-bodies/*.edit")):
        said = dict(line.split(": ", 1) for line in edit.read_text().splitlines() if line.startswith(("test: ", "fails: ")))
        test = said.get("test", "")
        files = [CRATES / "tests_cases" / it if test.startswith("tests_cases ") else pathlib.Path(it) for it in test.split()[1:]]
        if not said.get("fails") or not test or test.split()[0] not in rows() or not all(it.is_file() for it in files):
            yield f"{edit}: it names no test, or not what that says"


def promises_by_crate_that_do_not_agree():
    """docs/promises-by-crate.md is not what is written from the sources, or a public function has no sentence."""
    yield from promise_table.differences()


def edits_over_the_budget():
    """There are more must-fail edits, or more crates that have some, than the gate has time for."""
    edits = [*CRATES.glob("*/must-fail/*.edit")]
    crates = {edit.parent.parent.name for edit in edits}
    if len(edits) > MOST_EDITS or len(crates) > MOST_CRATES:
        yield f"{len(edits)} must-fail edits in {len(crates)} crates; {MOST_EDITS} in {MOST_CRATES} are the budget"


def broken_links():
    """A link of a document leads to no file of the repository, or to no heading of it."""
    for file in [*pathlib.Path(".").glob("*.md"), *pathlib.Path("docs").glob("*.md"), *pathlib.Path(".").glob("*/README.md")]:
        text = re.sub(r"(?ms)^(?:```|    ).*?$", "", file.read_text())
        for target, _, heading in (it.partition("#") for it in re.findall(r"\]\(([^)\s]+)\)", text)):
            path = file.parent / target if target else file
            if re.match(r"[a-z]+:", target):
                continue
            if not path.exists():
                yield f"{file}: there is no {target}"
            elif heading and heading not in headings(path):
                yield f"{file}: {target or file.name} has no heading {heading}"


def headings(file):
    titles = re.findall(r"(?m)^#+ (.*)$", file.read_text())
    return {re.sub(r"[^\w\- ]", "", it.lower()).replace(" ", "-") for it in titles}


# The documents that a user reads first, the most words of a sentence there, and words that mean something in the code alone.
FIRST = [pathlib.Path(it) for it in ("README.md", "docs/tutorial.md", "docs/migrate.md", "docs/troubleshooting.md")]
MOST_WORDS, INNER_WORDS = 30, re.compile(r"(?i)\b(?:pieces?|windows?|pour(?:s|ed)?|accounts?)\b")


def sentences_that_are_hard():
    """A document that a user reads first has a long sentence, or a word that means something in the code alone."""
    for file in FIRST:
        for sentence in count_sentences.sentences(file.read_text()):
            if count_sentences.words(sentence) > MOST_WORDS or INNER_WORDS.search(sentence):
                yield f"{file}: {sentence}"


def differences_that_are_not_stated():
    """A sentence of a document, by which tools/fuzz_exact.py allows a difference, isn't there."""
    yield from fuzz_exact.unsaid()


def macros_that_do_not_agree():
    """The crate lint_macros or docs/macros.md is not what is written from macros.txt."""
    yield from macro_table.differences()


def words_that_do_not_agree():
    """The crate lint_table or the list of docs/errors.md is not what is written from words.txt, a key is not used, or a call has other
    parts than its words."""
    yield from word_table.differences()


def codes_that_do_not_agree():
    """docs/errors.md lists other codes of findings than the sources have."""
    yield from lint_codes.differences()


def counts_that_are_old():
    """A document has another number of macros, or of the sources of examples/lint, than there are."""
    macros = len(re.findall(r'(?m)^    \(b"A[CS]_', (CRATES / "ac_macros/src/table.rt").read_text()))
    sources = len(pathlib.Path("examples/lint/sources.txt").read_text().splitlines())
    for file, form, count in (("README.md", r"outside the (\d+)\s+macros", macros), ("CHANGELOG.md", r"a configure.ac of (\d+) macros", macros),
                              ("docs/promises.md", r"(\d+) sources and four packages", sources)):
        found = re.findall(form, pathlib.Path(file).read_text())
        if found != [str(count)]:
            yield f"{file}: it has {' and '.join(found) or 'no number'} in place of {count}, by {form}"


def manual_page_faults():
    """A formatter of manual pages complains of a page below share; nothing if there is none. Or a page, or the texts of the help, have
    another version. Or `make install` puts a page nowhere, or `make uninstall` leaves it."""
    version = re.search(r'VERSION: &str = "(.*)"', (CRATES / "cmd_help/src/texts.rt").read_text())[1]
    makefile = pathlib.Path("Makefile").read_text()
    for page in sorted(pathlib.Path("share").glob("*.1")):
        for words in (["mandoc", "-T", "lint", page], ["man", "--warnings", "-l", page]):
            if shutil.which(words[0]):
                said = subprocess.run(words, stdout=subprocess.PIPE, stderr=subprocess.PIPE, env={**os.environ, "MANPAGER": "cat"}, text=True)
                yield from (said.stdout if words[0] == "mandoc" else said.stderr).splitlines()
                break
        if f'"acrun {version}"' not in page.read_text():
            yield f"{page} is not of version {version}"
        if makefile.count(f'$(mandir)/man1/{page.name}"') != 2:
            yield f"the Makefile does not install and remove {page}"
    if f"## [{version}]" not in pathlib.Path("CHANGELOG.md").read_text():
        yield f"CHANGELOG.md has no version {version}"


COMPLETIONS = pathlib.Path("share/completions")


def literals(text):
    """Returns the byte strings of a piece of source that have letters and dashes alone, such as `--with-`."""
    return {*re.findall(r'b"([a-z-]*[a-z][a-z-]*)"', text)}


def command_lists():
    """Returns a place and the names there, for each place that names all commands."""
    call, texts, running = ((CRATES / it).read_text() for it in ("cmd_call/src/call.rt", "cmd_help/src/texts.rt", "run_words/src/running.rt"))
    page = pathlib.Path("share/acrun.1").read_text().partition(".SH COMMANDS\n")[2].partition("\n.SH ")[0]
    bash, zsh, fish = ((COMPLETIONS / it).read_text() for it in ("acrun.bash", "_acrun", "acrun.fish"))
    yield "crates/cmd_call/src/call.rt", {it for it in literals(call) if not it.startswith("-")}
    yield "crates/cmd_help/src/texts.rt", {*re.findall(r'\(b"(\w+)", [A-Z]+\)', texts)}
    yield "crates/run_words/src/running.rt", literals(running.partition("const COMMANDS")[2].partition(";\n")[0].partition("=")[2])
    yield "share/acrun.1", {*re.findall(r"(?m)^\.TP\n\.BR? ([a-z]+)", page)}
    first, later = re.search(r"words=\((\w+)\)", bash)[1], re.search(r"words\+=\(([a-z ]*) --", bash)[1]
    yield "the commands of acrun.bash", {first, *later.split()}
    yield "the help of acrun.bash", {*re.search(r'help\) _acrun_offer "\$word" (.*) ;;', bash)[1].split()}
    first, later = re.search(r"options=\((\w+)\)", zsh)[1], re.search(r"options\+=\(([a-z ]*) --", zsh)[1]
    yield "the commands of _acrun", {first, *later.split()}
    yield "the help of _acrun", {*re.search(r"help\) compadd (.*) ;;", zsh)[1].split()}
    yield "the commands of acrun.fish", {*re.findall(r"(?m)^complete .*__acrun_begins.* -a ([a-z]+) -d", fish)}
    yield "the help of acrun.fish", {*re.search(r"__acrun_uses help' -a '([^']*)'", fish)[1].split()}


def commands_that_do_not_agree():
    """The commands are not the same where they are read, explained, offered and listed."""
    (home, known), *others = command_lists()
    for place, names in others:
        for name in sorted(names ^ known):
            yield f"{place} and {home} do not agree on the command {name}"


def package_names(file):
    """Returns the names of a package that a file spells, without the AC_ of a macro."""
    return re.findall(r'b"(?:AC_)?(PACKAGE_\w+)"', (CRATES / file).read_text())


def package_names_that_do_not_agree():
    """A table of the macros or variables that AC_INIT sets has other names than a run sets."""
    wanted = package_names("run_state/src/package.rt")
    for file in ("lint_warnings/src/foreign.rt", "lint_words/src/parse.rt", "lint_templates/src/given.rt"):
        found = package_names(file)
        if sorted(found) != sorted(wanted):
            yield f"crates/{file} names {' '.join(found)}; a run sets {' '.join(wanted)}"


def options_that_do_not_agree():
    """The options among which a similar one is sought are not those that are read, the manual page lacks one of these, or a completion
    lacks one with a value."""
    text = {file.name: file.read_text() for file in (CRATES / "options_line/src").glob("*.rt")}
    of_variables = text["directory.rt"].partition("fn variable")[2].partition("fn default_value")[0]
    directories = {it.replace("_", "-") for it in re.findall(r'=> b"(\w+)"', of_variables)}
    read = {it for it in literals("".join(text.values())) if it.startswith("--")} | {f"--{it}" for it in directories}
    running = (CRATES / "run_words/src/running.rt").read_text()
    said = literals(running.partition("const OPTIONS")[2].partition(";\n")[0].partition("=")[2])
    for name in sorted((said ^ read) - {"--disable-option-checking", "--enable-option-checking"}):
        yield f"crates/run_words/src/running.rt and crates/options_line do not agree on the option {name}"
    page = {*re.findall(r"--[a-z-]*", pathlib.Path("share/acrun.1").read_text().replace("\\-", "-"))}
    for name in sorted(read - page):
        yield f"share/acrun.1 does not name {name}"
    for file in sorted(COMPLETIONS.iterdir()):
        words = {*re.findall(r"[a-z-]+", file.read_text())}
        for name in sorted({"srcdir", "cache-file", *directories} - words):
            yield f"{file} does not offer --{name}"


def picture_is_old():
    """docs/speed.svg is not what bench/picture.py draws from docs/performance.md."""
    if subprocess.run([sys.executable, "bench/picture.py", "--check"], stderr=subprocess.DEVNULL).returncode:
        yield "docs/speed.svg is old: run bench/picture.py"


CHECKS = [
    unused_libraries,
    unlisted_crates,
    stray_files,
    modules_named_as_crates,
    unnamed_crates,
    promises_without_clauses,
    sentences_that_name_nothing,
    places_that_are_not_there,
    files_of_changes_that_are_not_there,
    heads_that_name_nothing,
    edits_that_do_not_apply,
    tested_bodies_without_a_test,
    promises_by_crate_that_do_not_agree,
    edits_over_the_budget,
    broken_links,
    sentences_that_are_hard,
    differences_that_are_not_stated,
    macros_that_do_not_agree,
    words_that_do_not_agree,
    codes_that_do_not_agree,
    counts_that_are_old,
    manual_page_faults,
    commands_that_do_not_agree,
    options_that_do_not_agree,
    package_names_that_do_not_agree,
    picture_is_old,
]


def check():
    """Runs each check, prints what is wrong, and returns how many passed and failed."""
    failed = 0
    for one in CHECKS:
        wrong = [*one()]
        print("".join(f"{line}\n" for line in wrong), end="")
        failed += bool(wrong)
    return len(CHECKS) - failed, failed


def main():
    passed, failed = check()
    print(f"{passed} passed, {failed} failed")
    return int(failed > 0)


if __name__ == "__main__":
    sys.exit(main())
