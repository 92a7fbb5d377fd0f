#!/usr/bin/env python3
"""Prints what a run of many checks gains by ccache and by distcc in front of the compiler.

    bench/wrappers.py [--checks N] [--rounds R] [--window W] [--program PATH] [--compiler CC]
                      [--ccache PATH] [--distcc PATH] [--distccd PATH]

It runs acrun on N checks with W at once: with the compiler; with ccache and an empty cache; with ccache and the cache of that run;
and with distcc, whose only host is a distccd on this machine, at a free port of 127.0.0.1. What is found must be the same: config.h,
and what acrun's cache has on each check. A wrapper that isn't installed is left out.

ccache and distcc only take calls with `-c`. They hand each link to the compiler. A call that the server of distcc doesn't answer is
run by distcc itself; the script prints how many there were.
"""
import argparse
import contextlib
import os
import pathlib
import shutil
import socket
import statistics
import subprocess
import tempfile
import time

from configuring import BUILT, measured, write_package


def arguments():
    parser = argparse.ArgumentParser(description=__doc__, formatter_class=argparse.RawDescriptionHelpFormatter)
    parser.add_argument("--checks", type=int, default=300)
    parser.add_argument("--rounds", type=int, default=3)
    parser.add_argument("--window", type=int, default=16)
    parser.add_argument("--program", type=pathlib.Path, default=BUILT)
    parser.add_argument("--compiler", default=os.environ.get("CC", "gcc"))
    for name in ("ccache", "distcc", "distccd"):
        parser.add_argument(f"--{name}", default=name)
    given = parser.parse_args()
    given.program = given.program.resolve()
    return given


def found_by(build):
    """Returns the header of a run, and the lines of its cache on headers, functions and declarations."""
    kept = ("ac_cv_header_", "ac_cv_func_", "ac_cv_have_decl_")
    lines = [line for line in (build / "config.cache").read_text().splitlines() if line.startswith(kept)]
    return (build / "config.h").read_bytes(), lines


def configured(room, given, compiler, environment):
    """Runs acrun in a new directory. Returns the seconds, the processor seconds, and what was found."""
    build = room / "build"
    shutil.rmtree(build, ignore_errors=True)
    build.mkdir()
    words = [given.program, f"-j{given.window}", "configure", "-C", f"--srcdir={room / 'package'}", f"CC={compiler}"]
    run = measured(words, build, environment)
    if run.status:
        raise SystemExit(run.output[-2000:])
    return run.seconds, run.own + run.children, found_by(build)


def free_port():
    with socket.socket() as it:
        it.bind(("127.0.0.1", 0))
        return it.getsockname()[1]


@contextlib.contextmanager
def server(room, given):
    """Runs a distccd on this machine, and gives the variables with which distcc finds it, or None if there is none."""
    if not shutil.which(given.distcc) or not shutil.which(given.distccd):
        yield None
        return
    port = free_port()
    words = [given.distccd, "--no-detach", "--daemon", "--listen", "127.0.0.1", "--allow", "127.0.0.1", "--port", str(port)]
    words += ["--jobs", str(given.window), "--enable-tcp-insecure", "--log-stderr"]
    running = subprocess.Popen(words, stdin=subprocess.DEVNULL, stderr=subprocess.DEVNULL)
    try:
        time.sleep(1)
        (room / "distcc").mkdir()
        hosts = f"127.0.0.1:{port}/{given.window}"
        yield {"DISTCC_HOSTS": hosts, "DISTCC_DIR": str(room / "distcc"), "DISTCC_LOG": str(room / "distcc.log")}
    finally:
        running.terminate()
        running.wait()


def main():
    given = arguments()
    with tempfile.TemporaryDirectory() as name, contextlib.ExitStack() as opened:
        room = pathlib.Path(name)
        write_package(room / "package", given.checks)
        distcc = opened.enter_context(server(room, given))
        rows = {"the compiler": []}
        expected = None
        for number in range(given.rounds):
            tried = [("the compiler", given.compiler, {})]
            if shutil.which(given.ccache):
                cache = {"CCACHE_DIR": str(room / f"ccache{number}")}
                words = f"{given.ccache} {given.compiler}"
                tried += [("ccache, empty", words, cache), ("ccache, filled", words, cache)]
            if distcc:
                tried += [("distcc", f"{given.distcc} {given.compiler}", distcc)]
            for title, compiler, environment in tried:
                seconds, busy, found = configured(room, given, compiler, environment)
                expected = expected or found
                if found != expected:
                    raise SystemExit(f"{title}: what is found is another")
                rows.setdefault(title, []).append((seconds, busy))
        print(f"{given.checks} checks, {given.window} at once, {given.rounds} rounds; what is found is the same in each")
        for title, runs in rows.items():
            ratios = [run[0] / plain[0] for run, plain in zip(runs, rows["the compiler"])]
            seconds, busy = (statistics.median(column) for column in zip(*runs))
            print(f"  {title}: {seconds:.2f} s, processor time of its processes {busy:.2f} s, ratio {statistics.median(ratios):.2f}")
        if distcc:
            log = room / "distcc.log"
            local = log.read_text(errors="replace").count("running locally instead") if log.exists() else 0
            print(f"  calls that distcc ran itself because the server did not answer: {local}")


main()
