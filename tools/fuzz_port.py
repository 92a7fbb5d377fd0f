#!/usr/bin/env python3
"""Runs `acrun port` on mutated sources, and reports each run that is wrong.

    tools/fuzz_port.py PROGRAM [--from N] [--count N] [--seconds N]
    tools/fuzz_port.py PROGRAM --replay N        shows source N, and what comes of it

The sources are those of tools/fuzz_lint.py. Each is given to `port` without `--idioms`, with it, and with a name and a version too. A run is wrong if a signal ends it, if it takes over a second of processor time, or if its
output is not as tools/try_port.py says. The exit status of this script is 1 if a run is wrong.
"""
import fuzz_lint
import try_port


def judge(program, text, folder):
    """Returns what is wrong with the runs on this source, and the exit status of port."""
    (folder / "configure.ac").write_bytes(text)
    found = []
    for switch in (try_port.NAMING, ["--idioms"], []):
        try_port.SWITCH[:] = switch
        made, seconds = fuzz_lint.run(program, ["port", *switch], folder)
        found += [f"{it} {' '.join(switch)}" for it in try_port.wrong(program, text, made)]
        if seconds > 1:
            found.append(f"{seconds:.1f} s {' '.join(switch)}")
    return "; ".join(found), made.returncode


if __name__ == "__main__":
    fuzz_lint.main(judge)
