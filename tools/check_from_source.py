#!/usr/bin/env python3
"""Checks functions of one crate, and reads the crates below it as sources. So nothing below has to be proved first: on a
machine that has built nothing, `rt check` in a high crate proves all of them before its first answer.

  check_from_source.py CRATE                              checks clauses and definitions, and proves nothing
  check_from_source.py CRATE MODULE::FUNCTION..           proves these functions and those that they call in the crate
  check_from_source.py CRATE --all                        proves the whole crate
  check_from_source.py CRATE .. -- WORD..                 passes words on to the checker, such as --test or --allow-holes

What is checked is kept in crates/CRATE/out/from_source, so the next run is faster. The exit status is that of the checker. The
result is no part of the gate: the statements of the crates below are taken as they are written.
"""
import os
import pathlib
import shutil
import subprocess
import sys

import repository


def command(crate, only, more):
    """Returns the checker's words."""
    kit = pathlib.Path(shutil.which("rt")).resolve().parent.parent
    rows = repository.rows()
    below = [it for it in rows if it in repository.below(crate, rows)]
    of_kit = {name: ["std", *(it for it in uses if it not in rows)] for name, uses in rows.items()}
    is_program = (repository.CRATES / crate / "src/main.rt").exists()
    words = [f"{kit}/bin/rattle", "check", "--crate-name", crate, "src/main.rt" if is_program else "src/lib.rt"]
    for name in sorted({"core", *of_kit[crate], *(it for lower in below for it in of_kit[lower])}):
        words += ["--extern", f"{name}={kit}/rlibs/{name}.rlib"]
    words += ["-L", f"dependency={kit}/rlibs"]
    for name in below:
        uses = dict.fromkeys(["core", *of_kit[name], *(it for it in rows[name] if it in rows)])
        words += ["--lib", f"{name}:{','.join(uses)}={(repository.CRATES / name / 'src/lib.rt').resolve()}"]
    words += ["--antt-project", f"{kit}/rattle/logic/antt-project.json", "--logic-built", f"{kit}/logic_built"]
    words += ["--jobs", "2", "--links", f"{crate}=", "--incremental", "out/from_source"]
    if only is not None:
        words += [word for it in only or [""] for word in ("--only", f"{crate}::{it}" if it else "")]
    return [*words, *more]


def main():
    given, _, more = (text.split("\0") if text else [] for text in "\0".join(sys.argv[1:]).partition("\0--\0"))
    if not given or given[0] not in repository.rows():
        sys.exit(__doc__)
    crate, functions = given[0], given[1:]
    os.makedirs(repository.CRATES / crate / "out", exist_ok=True)
    only = None if functions == ["--all"] else functions
    sys.exit(subprocess.run(command(crate, only, more), cwd=repository.CRATES / crate).returncode)


if __name__ == "__main__":
    main()
