#!/usr/bin/env python3
"""Runs `acrun port` on sources, and reports each whose output is not as it should be.
  try_port.py PROGRAM [-v] [-i | -p] FILE..    PROGRAM is a built acrun, and FILE a configure.ac; -v prints a line for each source,
                                               -i gives `port` the switch `--idioms`, and -p also a name and a version
Of each output:
- if the exit status is 0, `acrun lint` finds no error in it; if it is 1, a line of it begins with `dnl acrun: `, and not with
  `dnl acrun: in place of `, which says in what an idiom differs;
- each error of `acrun lint` has its message in such a line above it;
- `acrun port` of it is itself;
- if Autoconf is there and reads the source in its directory, it reads the output there, and traces the same definitions and output
  variables in both, but for those of systems that are long gone, and those that it makes without a trace.
With -i the definitions and output variables are not compared.
If the quotes of a source have an error, the status is 2, and nothing is printed. Ends with 1 if anything is otherwise.
"""
import json
import pathlib
import shutil
import subprocess
import sys
import tempfile

FRONT = b"dnl acrun: "
DIFFERS = FRONT + b"in place of "
SWITCH = []
# The switches with which AC_INIT gets a name and a version.
NAMING = ["--idioms", "--package=pkg,3.1"]
FRONT_OF_TRACE = "acrun-trace "
TRACES = ["AC_DEFINE_TRACE_LITERAL", "AC_SUBST", "AC_CONFIG_FILES", "AC_CONFIG_HEADERS"]
# What Autoconf looks for by itself, with the default includes of a macro; acrun has none of these.
OWN = ("HAVE_STDIO_H", "HAVE_STDLIB_H", "HAVE_STRING_H", "HAVE_STRINGS_H", "HAVE_INTTYPES_H", "HAVE_STDINT_H", "HAVE_UNISTD_H",
       "HAVE_SYS_STAT_H", "HAVE_SYS_TYPES_H", "STDC_HEADERS")
# What macros that are left out define on systems that are long gone, or what an idiom has no need of.
GONE = ("const", "inline", "volatile", "TM_IN_SYS_TIME", "STAT_MACROS_BROKEN", "NO_MINUS_C_MINUS_O", "SETVBUF_REVERSED", "HAVE_DOPRNT",
        "ac_ct_RANLIB", "ac_ct_STRIP", "ac_ct_AR")


def run(words, text=b"", folder=None):
    return subprocess.run(words, input=text, cwd=folder, capture_output=True, timeout=300)


def is_warned(text):
    """Returns whether a text has nothing but warnings and what goes with them."""
    return all(it.startswith(b" ") or b": warning: " in it for it in text.splitlines())


def errors(program, text):
    found = [json.loads(line) for line in run([program, "lint", "--json", "-"], text).stdout.splitlines()]
    return [it for it in found if it["severity"] == "error" and it["code"] != "template"]


def traced(folder, name):
    """Returns what Autoconf finds defined and substituted, or None if it refuses the source."""
    made = run(["autoconf", *(f"--trace={it}:{FRONT_OF_TRACE}$n:$1" for it in TRACES), name], folder=folder)
    if made.returncode:
        return None
    # Autoconf drops a backslash at the end of a line of a list, and takes blanks and newlines for the same.
    found = (it.replace("\\\n", "\n").partition(":") for it in made.stdout.decode(errors="replace").split(FRONT_OF_TRACE))
    return {f"{macro}:{' '.join(text.split())}" for macro, _, text in found if text.strip() not in OWN}


def in_autoconf(file, text):
    """Yields how Autoconf takes the output otherwise than the source."""
    before = traced(file.parent, file.name)
    if before is None:
        return
    with tempfile.NamedTemporaryFile(dir=file.parent, prefix="ported-", suffix=".ac") as other:
        other.write(text)
        other.flush()
        after = traced(file.parent, pathlib.Path(other.name).name)
    if after is None:
        yield "Autoconf refuses the output"
        return
    if SWITCH:
        return
    lost = {it for it in before - after if it.split(":")[-1] not in GONE}
    new = {it for it in after - before if not it.startswith("AC_DEFINE_TRACE_LITERAL:HAVE_") and it != "AC_SUBST:INSTALL"}
    if lost or new:
        yield f"in Autoconf {sorted(lost)[:8]} is lost, and {sorted(new)[:8]} is new"


def seen(text):
    """Returns a text as the JSON of lint has it."""
    return text.decode(errors="replace")


def is_said(error, above):
    """Returns whether the lines above an error say it, with its brackets or without those."""
    words = seen(FRONT) + error["message"]
    plain = seen(FRONT) + error["message"].replace("[", "").replace("]", "")
    return words in above or plain in above


def wrong(program, text, made):
    """Yields what is wrong with a run of port on a text."""
    if made.returncode == 2:
        if made.stdout or not made.stderr:
            yield "a status of 2 has a line on standard error alone"
        return
    out = made.stdout
    if not is_warned(made.stderr) or made.returncode not in (0, 1):
        yield f"status {made.returncode}: {made.stderr[:200]!r}"
        return
    found = errors(program, out)
    lines = out.split(b"\n")
    if made.returncode != int(bool(found)):
        yield f"status {made.returncode} and {len(found)} errors"
    if made.returncode == 1 and not any(it.startswith(FRONT) and not it.startswith(DIFFERS) for it in lines):
        yield "status 1 and no comment about what is left"
    if made.returncode == 0 and not errors(program, text) and out != text and SWITCH != NAMING:
        yield "a source without errors does not stay as it is"
    for error in found:
        if not is_said(error, seen(b"\n".join(lines[:error["line"]]))):
            yield f"line {error['line']} has no comment: {error['message']}"
    again = run([program, "port", *SWITCH, "-"], out)
    if again.stdout != out or again.returncode != made.returncode:
        yield "port of the output is not the output"


def main(words):
    program = str(pathlib.Path(words[0]).resolve())
    is_told = "-v" in words
    if "-i" in words:
        SWITCH.append("--idioms")
    if "-p" in words:
        SWITCH.extend(NAMING)
    failed = 0
    files = [pathlib.Path(word) for word in words[1:] if word not in ("-v", "-i", "-p")]
    for file in files:
        text = file.read_bytes()
        made = run([program, "port", *SWITCH, "-"], text)
        found = list(wrong(program, text, made))
        if made.returncode != 2 and shutil.which("autoconf"):
            found += in_autoconf(file, made.stdout)
        failed += bool(found)
        for line in found:
            print(f"{file}: {line}")
        if is_told:
            before, after = len(errors(program, text)), len(errors(program, made.stdout))
            print(f"{file}: {before} errors before, {after} after, {made.stdout.count(FRONT)} lines of comment")
    print(f"{len(files) - failed} passed, {failed} failed")
    return int(failed > 0)


if __name__ == "__main__":
    sys.exit(main(sys.argv[1:]))
