#!/usr/bin/env python3
"""Runs `acrun why` on mutated logs, records and caches, and reports each run that does not end as docs/commands.md says.

    tools/fuzz_why.py PROGRAM [--from N] [--count N] [--seconds N]
    tools/fuzz_why.py PROGRAM --replay N        shows log N, the word, and what comes of it

A log is a function of its number. It is put together from lines of every form, in an order that a run would leave or in any
other, and then some bytes are changed, lines are dropped, repeated or moved, or the end is cut off. Beside it may be a record
with arguments, and a cache, which are mutated in the same way.

A run is wrong if a signal ends it, its exit status is none of 0, 1 and 2, it writes to standard error exactly if the status isn't
2, or it takes over a second of processor time or over 512 MB. The exit status of this script is 1 if a run is wrong.
"""
import argparse
import os
import pathlib
import random
import re
import resource
import subprocess
import sys
import tempfile
import time

NAMES = [b"sys/stat.h", b"getline", b"size_t", b"strlcpy", b"a", b"zlib.h", b"struct stat", b"", b"\xff\xfe", b"x\x1b[31m", b"m" * 300]
WORDS = [b"sys/stat.h", b"HAVE_SYS_STAT_H", b"ac_cv_func_getline", b"HAVE_DECL_STRLCPY", b"ac_cv_lib_z_inflate", b"HAVE_LIBZ", b"nowhere", b"",
         b"for", b"HAVE_", b"ac_cv_search_", b"\xff", b"w" * 500]
ARGS = [b"-C", b"--config-cache", b"--cache-file=config.cache", b"--cache-file", b"config.cache", b"--cache-file=", b"--cache-file=.", b"--prefix",
        b"ac_cv_header_sys_stat_h=no", b"ac_cv_func_getline=a b", b"ac_cv_lib_z_inflate=", b"-q", b"=", b"", b"\\n", b"\xff=\xff"]
SET = [b"ac_cv_header_sys_stat_h", b"ac_cv_func_getline", b"ac_cv_type_size_t", b"ac_cv_have_decl_strlcpy", b"ac_cv_func_", b"x", b""]
FAULT = re.compile(rb"acrun: (usage|memory|tools .*|file .*|log .*)\n", re.S)


def message(pick):
    name = pick.choice(NAMES)
    form = pick.choice([b"for %s", b"whether %s is declared", b"for %s in -lz", b"for library containing %s", b"%s", b"for %s in -l in -l%s"])
    return form.replace(b"%s", name)


def child(pick):
    lines = [b"$ cc -c conftest%d.c" % pick.randrange(64)]
    lines += [pick.choice([b"a.c:1:2: error: no", b"$ x", b"| y", b"", b"status", b"status x", b"\x1b[K"]) for _ in range(pick.randrange(4))]
    lines.append(pick.choice([b"status 0", b"status 1", b"status 256", b"start refused", b"wait refused"]))
    if pick.random() < 0.5:
        lines += [b"failed program was:"] + [b"| #include <%s>" % pick.choice(NAMES) for _ in range(pick.randrange(4))]
    return lines


def check(pick, depth=0):
    lines = [b"checking " + message(pick) + b"... "]
    for _ in range(pick.randrange(4)):
        inner = pick.random()
        if inner < 0.2 and depth < 5:
            lines += check(pick, depth + 1)
        elif inner < 0.3:
            lines.append(b"configure: a note")
        else:
            lines += child(pick)
    if pick.random() < 0.9:
        lines.append(pick.choice([b"yes", b"no", b"(cached) yes", b"", b"refused", b"/usr/bin/cc", b"-lz"]))
    return lines


def mutated(pick, lines):
    for _ in range(pick.randrange(6)):
        if not lines:
            break
        at = pick.randrange(len(lines))
        what = pick.randrange(4)
        if what == 0:
            del lines[at]
        elif what == 1:
            lines.insert(pick.randrange(len(lines)), lines[at])
        elif what == 2:
            lines[at:at] = lines[at:at + pick.randrange(5)] * pick.randrange(20)
        else:
            lines[at] = bytes(pick.randrange(256) if pick.random() < 0.2 else it for it in lines[at])
    text = b"".join(line + b"\n" for line in lines)
    return text[:pick.randrange(len(text) + 1)] if pick.random() < 0.1 else text


def made(number):
    """Returns the log and the word of a number."""
    pick = random.Random(number)
    lines = [line for _ in range(pick.randrange(1, 12)) for line in check(pick)]
    if pick.random() < 0.2:
        pick.shuffle(lines)
    if pick.random() < 0.7:
        lines = [*lines]
        return mutated(pick, lines), pick.choice(WORDS)
    return b"".join(line + b"\n" for line in lines), pick.choice(WORDS)


def beside(number):
    """Returns the record and the cache of a number, or None for one that isn't there."""
    pick = random.Random(f"beside {number}")
    record = [b"acrun-record 2", b"srcdir ."] + [b"arg " + pick.choice(ARGS) for _ in range(pick.randrange(6))] + [b"end"]
    forms = [b"%s=${%s=yes}", b"test ${%s+y} || %s=no", b'test "${%s+set}" = set || %s=no', b"%s=%s", b"# %s %s"]
    cache = [pick.choice(forms).replace(b"%s", pick.choice(SET)) for _ in range(pick.randrange(6))]
    texts = [b"".join(line + b"\n" for line in lines) if pick.random() < 0.7 else mutated(pick, lines) for lines in (record, cache)]
    return [text if pick.random() < 0.9 else None for text in texts]


def limit():
    resource.setrlimit(resource.RLIMIT_CPU, (2, 2))
    resource.setrlimit(resource.RLIMIT_CORE, (0, 0))


def run(program, number, folder):
    text, word = made(number)
    (folder / "config.log").write_bytes(text)
    for name, other in zip(("config.status", "config.cache"), beside(number)):
        (folder / name).unlink(missing_ok=True)
        if other is not None:
            (folder / name).write_bytes(other)
    before = resource.getrusage(resource.RUSAGE_CHILDREN)
    done = subprocess.run([program, b"why", word], cwd=folder, capture_output=True, preexec_fn=limit, check=False)
    after = resource.getrusage(resource.RUSAGE_CHILDREN)
    wrong = []
    if done.returncode not in (0, 1, 2):
        wrong.append(f"status {done.returncode}")
    if done.returncode == 2 and not FAULT.fullmatch(done.stderr):
        wrong.append(f"standard error {done.stderr[:80]!r}")
    if done.returncode != 2 and (done.stderr or not done.stdout):
        wrong.append("an answer without output, or with an error")
    if after.ru_utime - before.ru_utime > 1:
        wrong.append("over a second")
    if after.ru_maxrss > 512 * 1024:
        wrong.append("over 512 MB")
    return wrong, done, text, word


def main():
    parser = argparse.ArgumentParser(description=__doc__, formatter_class=argparse.RawDescriptionHelpFormatter)
    parser.add_argument("program")
    parser.add_argument("--from", dest="start", type=int, default=0)
    parser.add_argument("--count", type=int, default=10_000)
    parser.add_argument("--seconds", type=float, default=1e9)
    parser.add_argument("--replay", type=int)
    given = parser.parse_args()
    program = os.path.abspath(given.program)
    with tempfile.TemporaryDirectory() as name:
        folder = pathlib.Path(name)
        if given.replay is not None:
            wrong, done, text, word = run(program, given.replay, folder)
            sys.stdout.buffer.write(text + b"--- word\n%s\n--- status %d\n%s--- error\n%s" % (word, done.returncode, done.stdout, done.stderr))
            sys.exit(bool(wrong))
        counts, failed, until = {}, 0, time.monotonic() + given.seconds
        for number in range(given.start, given.start + given.count):
            if time.monotonic() > until:
                break
            wrong, done, _, _ = run(program, number, folder)
            counts[done.returncode] = counts.get(done.returncode, 0) + 1
            if wrong:
                failed += 1
                print(f"wrong {number}: {', '.join(wrong)}", flush=True)
        print("runs by status: " + ", ".join(f"{status}: {count}" for status, count in sorted(counts.items())))
        sys.exit(bool(failed))


if __name__ == "__main__":
    main()
