#!/usr/bin/env python3
"""Runs the program on mutated inputs, and reports each run that does not end as docs/commands.md says.

    tools/fuzz.py PROGRAM [--from N] [--count N] [--seconds N] [--jobs N] [--memory MB] [--slowest SECONDS] [--other PROGRAM]
    tools/fuzz.py PROGRAM --replay N        runs input N again, and shows what it is and what comes of it
    tools/fuzz.py PROGRAM --minimize N      makes input N shorter while what is wrong stays the same, and shows it

An input is a function of its number and of the repository: of examples/, crates/tests_cases/data and docs/. A line `corpus` names the
state of these. An input is given to the filter, to `configure` with `acrun standin` in the compiler's place, to `status`, or it is
words of a command line.

A run is wrong if a signal ends it, its exit status or what it prints on standard error is not as documented, it takes over a
second of processor time or over 512 MB, it leaves a child or a file that it should not leave, or it changes anything outside the
directory in which it is started. Some runs of `configure` are made a second time with another window, and some are followed by
`status`: then the outputs have to be the same. With --other that program is run on the same inputs, and has to do the same: its
exit status, what it prints, and its files but the log. Its children find the first program in PATH too.

Each process of this script has a directory of its own with files around it that have to stay as they are. The programs in PATH
are only sh and acrun. If root starts it, it runs as the user nobody. The exit status is 1 if a run is wrong.
"""
import argparse
import ctypes
import hashlib
import os
import pathlib
import random
import re
import resource
import shutil
import signal
import stat
import sys
import tempfile
import time
import traceback

ROOT = pathlib.Path(__file__).resolve().parent.parent
LONGEST = 1_100_000
MOST_MEGABYTES = 512
LONGEST_WAIT = 60

# ---- the corpus


ESCAPES = {b"n": b"\n", b"t": b"\t", b"0": b"\0", b"\n": b""}


def unescaped(text):
    def byte(found):
        if len(found[1]) == 3:
            return bytes([int(found[1][1:], 16)])
        return ESCAPES.get(found[1], found[1])

    return re.sub(rb"\\(\n|x[0-9a-fA-F]{2}|.)", byte, text, flags=re.S)


def cases(text):
    """The cases of a file: for each its sections, pairs of a name and a text."""
    found = []
    for part in re.split(rb"(?m)^=== .*\n", text)[1:]:
        sections = []
        for piece in re.split(rb"(?m)^--- ", part)[1:]:
            head, _, body = piece.partition(b"\n")
            name, _, how = head.partition(b" ")
            if how == b"(escaped)":
                body = unescaped(body)
            if how != b"(repeated)":
                sections.append((name.decode(), body[:-1] if body.endswith(b"\n") else body))
        found.append(sections)
    return found


class Corpus:
    """What mutations begin with: sources, statements of them, templates, arguments, and words."""

    def __init__(self):
        self.sources, self.right, self.templates, self.arguments, self.statements = [], [], [], [], []
        digest = hashlib.sha256()
        paths = sorted(ROOT.glob("crates/tests_cases/data/*.cases")) + sorted(ROOT.glob("examples/*/configure.ac"))
        paths += sorted(ROOT.glob("examples/*/**/*.in")) + [ROOT / "docs" / it for it in ("tutorial.md", "migrate.md", "macros.md", "language.md")]
        for path in paths:
            text = path.read_bytes()
            digest.update(text)
            if path.suffix == ".cases":
                self.add_cases(text)
            elif path.suffix == ".ac":
                self.add_source(text, True)
            elif path.suffix == ".in":
                self.templates.append(text)
            else:
                self.add_page(text)
        self.digest = digest.hexdigest()[:12]
        self.macros = sorted(set(re.findall(rb"\bA[CS]_[A-Z_]+", b"".join(self.sources))))
        for source in self.right:
            self.statements += [it for it in re.split(rb"\n(?=A[CS]_|[a-z_A-Z]+=)", source) if len(it) < 2000]
        self.statements = sorted(set(it for it in self.statements if is_closed(it) and not re.match(rb"AC_(INIT|OUTPUT)", it)))
        self.words = WORDS + self.macros + [it + b"([" for it in self.macros]

    def add_cases(self, text):
        for sections in cases(text):
            is_right = not any(re.match(rb"parse \d|usage|plan \d|option \d", body) for _, body in sections)
            for name, body in sections:
                body = body.replace(b"^", b"", 1) if not is_right else body
                if name == "source":
                    self.add_source(body, is_right)
                elif name == "lines":
                    self.add_source(whole(body), is_right)
                elif name == "template":
                    self.templates.append(body)
                elif name == "arguments":
                    self.arguments.append(body.split(b"\n"))
                elif name == "input":
                    source, _, template = body.partition(b"\n%%\n")
                    self.add_source(source, is_right)
                    self.templates.append(template)

    def add_source(self, source, is_right):
        self.sources.append(source)
        if is_right:
            self.right.append(source)

    def add_page(self, text):
        for block in re.findall(rb"(?ms)^```m4\n(.*?)^```", text):
            self.add_source(whole(block), True)
        for block in re.findall(rb"(?ms)^\$ cat > (?:configure.ac|\S+\.in) <<'END'\n(.*?)^END", text):
            if block.startswith(b"AC_INIT"):
                self.add_source(block, True)
            else:
                self.templates.append(block)
        for line in re.findall(rb"(?m)^    (AC_[A-Z_]+\(.*\))$", text):
            self.add_source(whole(line), False)


def is_closed(text):
    return text.count(b"[") == text.count(b"]") and text.count(b"(") == text.count(b")") and b"AC_OUTPUT" not in text


def whole(lines):
    return b"AC_INIT([x],[1])\nAC_CONFIG_FILES([f])\n" + lines + b"\nAC_OUTPUT\n"


WORDS = [
    b"[", b"]", b"(", b")", b",", b"[[", b"]]", b"])", b"([", b"],[", b"\n", b";", b"#", b"dnl", b" dnl ", b"\\\n", b"\\", b"`", b"'", b'"',
    b"$", b"${", b"}", b"$x", b"${x}", b"$CC", b"$1", b"$(", b"&&", b"||", b"&", b"|", b"<", b">", b"!", b"*", b"?", b"=", b"%%", b"%%\n",
    b"@", b"@<:@", b"@:>@", b"@S|@", b"@%:@", b"@{:@", b"@:}@", b"@&t@", b"@PACKAGE_NAME@", b"@srcdir@", b"@configure_input@",
    b"\0", b"\xff", b"\xc3", b"\r", b"\t", b" ", b"\n\n", b":", b"test", b"test -n ", b" = ", b" != ", b"true", b"false",
    b"x=1\n", b"x=$x$y\n", b"v_cv_x=1\n", b"ac_cv_", b"_cv_", b"enable_x", b"a.h", b"sys/stat.h", b"f", b"f:g", b"../f", b"/f", b"a/../b",
    b"yes", b"no", b"NONE", b"0", b"1", b"2", b"3", b"77", b"255", b"256", b"999999999999999999999", b"2.71", b"2.72",
    b"acrun-record 1\n", b"acrun-record 2\n", b"srcdir ", b"var ", b"def ", b"file ", b"header ", b"end\n", b"arg ", b"\\n", b"\\x",
    b"${v_cv_a=1}", b"test ${v_cv_a+y} || v_cv_a=", b'test "${v_cv_a+set}" = set || v_cv_a=', b"v_cv_a=",
    b"ac_cv_env_CC_set=set\n", b"ac_cv_env_CC_value='acrun standin'\n", b"#undef ", b"#define ", b"# define X 1",
    b"CC=", b"CC='acrun standin'\n", b"CC=/nowhere/cc\n", b"PATH=:/x:\n", b"prefix=", b"LIBS=",
]

ARGUMENTS = [
    b"-C", b"-n", b"-q", b"-h", b"-V", b"-v", b"--help", b"--version", b"--quiet", b"--silent", b"--no-create", b"--verbose",
    b"--no-recursion", b"--config-cache", b"--cache-file=config.cache", b"--cache-file=other.cache", b"--cache-file=/dev/null",
    b"--cache-file=",
    b"--srcdir=.", b"--srcdir=..", b"--srcdir=/nowhere", b"--srcdir=./", b"--prefix=/a//", b"--prefix", b"--exec-prefix=/b", b"--mandir=x",
    b"--enable-x", b"--enable-x=no", b"--disable-x", b"--with-x=y", b"--without-x", b"--enable-option-checking=fatal",
    b"--disable-option-checking", b"--enable-", b"--zz", b"-", b"", b"x", b"=x", b"A=1", b"CC=acrun standin", b"CC=", b"CC=/nowhere/cc",
    b"CC=sh", b"CPP=acrun standin", b"CFLAGS=-O2  -g", b"LIBS=-lm", b"PATH=/x:", b"ac_cv_func_f=yes", b"a-b=1", b"enable_x=1", b"--x\xff=1",
]

RECORDS = [
    b"acrun-record 1\nsrcdir .\nvar A x\\ny\nend\n",
    b"acrun-record 1\nsrcdir .\nvar PACKAGE_NAME demo\nvar CC cc\ndef HAVE_A 1\ndef B \"x\"\nfile f f.in\nheader c.h c.h.in\nend\n",
    b"acrun-record 1\nsrcdir ..\nvar A a\\\\b\ndef A 1\nfile a/b/f sub/f.in\nfile out f.in\nend\n",
    b"acrun-record 1\nsrcdir /nowhere\nend\n",
    b"acrun-record 2\nsrcdir .\narg -C\narg --enable-x\narg CC=acrun standin\nvar A x\ny\nfile f f.in\nend\n",
    b"acrun-record 2\nsrcdir .\narg --prefix\narg a\\\\b\\nc\nheader c.h c.h.in\nend\n",
    b"acrun-record 2\nsrcdir .\nend\n",
]

COMMANDS = [
    b"configure", b"status", b"standin", b"-j1", b"-j16", b"-j17", b"-j0", b"-j", b"x", b"", b"--help", b"a.c", b"-c", b"\xff.c",
]

# lines of the stand-in's list
REFUSED = [b"sys/stat.h", b"#include", b"f (", b"sizeof ((", b"EOF", b"int", b"zz"]

CACHES = [
    b"", b"# config.cache of configure\nac_cv_header_sys_stat_h=${ac_cv_header_sys_stat_h=yes}\n",
    b"ac_cv_env_CC_set=set\nac_cv_env_CC_value='acrun standin'\nac_cv_env_CFLAGS_set=\nac_cv_env_CFLAGS_value=\n",
    b"test ${v_cv_b+y} || v_cv_b='a}b'\nv_cv_x=${v_cv_x='it'\\''s'}\ntest \"${ac_cv_func_f+set}\" = set || ac_cv_func_f=no\n",
    b"ac_cv_func_f=yes\nac_cv_header_a_h=no\nac_cv_have_decl_EOF=yes\nac_cv_type_size_t=yes\nac_cv_prog_CC=\"acrun standin\"\n",
]

# ---- mutations


def mutated(rng, text, corpus, others):
    """The text after some changes."""
    for _ in range(rng.choice([0, 1, 1, 1, 1, 2, 2, 3, 4, 6, 12])):
        text = CHANGES[rng.randrange(len(CHANGES))](rng, text, corpus, others)
        if len(text) > LONGEST:
            text = text[:LONGEST]
    return text


def part(rng, text):
    """The offsets of a part of the text, mostly a short one."""
    start = rng.randrange(len(text) + 1)
    return start, min(len(text), start + int(rng.choice([1, 2, 4, 16, 64, 400]) * rng.random()) + 1)


def flip(rng, text, corpus, others):
    if not text:
        return text
    at = rng.randrange(len(text))
    return text[:at] + bytes([text[at] ^ (1 << rng.randrange(8))]) + text[at + 1:]


def replace_byte(rng, text, corpus, others):
    if not text:
        return text
    at = rng.randrange(len(text))
    return text[:at] + bytes([rng.choice(b"[](),#$\\`'\"\n;@\0\xff =:{}|&*?!<>%-+./_aA0" + bytes([rng.randrange(256)]))]) + text[at + 1:]


def insert_word(rng, text, corpus, others):
    at = rng.randrange(len(text) + 1)
    return text[:at] + rng.choice(corpus.words) + text[at:]


def cut(rng, text, corpus, others):
    return text[:rng.randrange(len(text) + 1)]


def cut_front(rng, text, corpus, others):
    return text[rng.randrange(len(text) + 1):]


def drop_part(rng, text, corpus, others):
    start, end = part(rng, text)
    return text[:start] + text[end:]


def repeat_part(rng, text, corpus, others):
    start, end = part(rng, text)
    return text[:end] + text[start:end] * rng.choice([1, 1, 2, 3, 8, 33, 65, 257]) + text[end:]


def repeat_much(rng, text, corpus, others):
    if rng.random() < 0.9:
        return repeat_part(rng, text, corpus, others)
    start, end = part(rng, text)
    return text[:end] + text[start:end] * rng.randrange(1, 1 + LONGEST // max(1, end - start)) + text[end:]


def nest(rng, text, corpus, others):
    start, end = part(rng, text)
    depth = rng.choice([1, 2, 10, 31, 32, 33, 63, 64, 65, 1000, 100000] if rng.random() < 0.2 else [1, 2, 3, 30])
    left, right = rng.choice([(b"[", b"]"), (b"(", b")"), (b"AS_IF([:],[", b"])"), (b"AC_X(", b")"), (b'"', b'"'), (b"'", b"'")])
    return text[:start] + left * depth + text[start:end] + right * rng.choice([depth, depth, depth - 1, 0]) + text[end:]


def splice(rng, text, corpus, others):
    other = rng.choice(others)
    at, start = rng.randrange(len(text) + 1), rng.randrange(len(other) + 1)
    return text[:at] + other[start:] if rng.random() < 0.5 else text[:at] + other[start:start + 80] + text[at:]


def swap_lines(rng, text, corpus, others):
    lines = text.split(b"\n")
    a, b = rng.randrange(len(lines)), rng.randrange(len(lines))
    lines[a], lines[b] = lines[b], lines[a]
    return b"\n".join(lines)


def drop_line(rng, text, corpus, others):
    lines = text.split(b"\n")
    del lines[rng.randrange(len(lines))]
    return b"\n".join(lines)


CHANGES = [flip, replace_byte, insert_word, insert_word, cut, cut_front, drop_part, drop_part, repeat_part, repeat_much, nest, splice,
           swap_lines, drop_line]

# ---- inputs


class Input:
    """What one run is given: the command's words, its standard input, and files."""

    def __init__(self, kind, words, given=b"", files=None, window=None, again=False):
        self.kind, self.words, self.given, self.files, self.window, self.again = kind, words, given, files or {}, window, again

    def shown(self):
        lines = [f"acrun {' '.join(repr(it.decode('latin-1')) for it in self.words)}"]
        for name, text in [("standard input", self.given)] + sorted(self.files.items()):
            if text:
                lines.append(f"--- {name}, {len(text)} bytes\n{text[:3000]!r}")
        return "\n".join(lines)


def any_source(rng, corpus):
    """A source with some changes, or statements of sources that are right, often without any change."""
    kind = rng.random()
    if kind < 0.4:
        return mutated(rng, rng.choice(corpus.sources if kind < 0.2 else corpus.right), corpus, corpus.sources)
    text = whole(b"\n".join(rng.choice(corpus.statements) for _ in range(rng.choice([1, 2, 3, 5, 8, 20]))))
    if b"CC=" not in text and rng.random() < 0.7:
        text = text.replace(b"\n", b"\nCC='acrun standin'\n", 1)
    return text if kind < 0.7 else mutated(rng, text, corpus, corpus.sources)


def safe(word):
    """The word, without a slash if it names a cache, which a user may put anywhere."""
    return word.replace(b"/", b"_") if b"cache-file" in word and word != b"--cache-file=/dev/null" else word


def arguments(rng, corpus):
    words = []
    for _ in range(rng.choice([0, 0, 1, 1, 2, 3, 5])):
        if rng.random() < 0.2:
            words += rng.choice(corpus.arguments)
        else:
            words.append(rng.choice(ARGUMENTS))
    if words and rng.random() < 0.2:
        at = rng.randrange(len(words))
        words[at] = mutated(rng, words[at], corpus, ARGUMENTS)[:2000]
    words = [safe(it.replace(b"\0", b"")) for it in words]
    # a slash in the word after an option without a value
    return [it.replace(b"/", b"_") if i and words[i - 1] == b"--cache-file" else it for i, it in enumerate(words)]


def make_input(number, corpus):
    rng = random.Random(number)
    kind = rng.random()
    if kind < 0.6:
        text = any_source(rng, corpus)
        template = mutated(rng, rng.choice(corpus.templates), corpus, corpus.templates)
        given = text + b"\n%%\n" + template if rng.random() < 0.97 else mutated(rng, text, corpus, corpus.sources)
        return Input("filter", [], given)
    if kind < 0.85:
        return configure_input(rng, corpus)
    if kind < 0.97:
        text = mutated(rng, rng.choice(RECORDS), corpus, RECORDS)
        if rng.random() < 0.2:
            files = {"config.status": text, "configure.ac": any_source(rng, corpus), "c.h.in": b"#undef HAVE_A\n@A@\n"}
            return Input("recheck", [b"status", b"--recheck"], files=files)
        tags = rng.choices([b"f", b"c.h", b"out", b"zz", b"", b"a/b/f", b"\xff", b"--recheck"], k=rng.choice([0, 0, 0, 1, 2]))
        # A lone tag `--recheck` is no tag.
        kind = "recheck" if tags == [b"--recheck"] else "status"
        return Input(kind, [b"status"] + tags, files={"config.status": text, "c.h.in": b"#undef HAVE_A\n@A@\n"})
    words = [rng.choice(COMMANDS) for _ in range(rng.choice([1, 1, 2, 3]))]
    files = {"standin.txt": mutated(rng, b"sys/stat.h\n\n#include\n", corpus, corpus.sources)[:5000], "a.c": rng.choice(corpus.sources)}
    return Input("words", words, files=files)


def configure_input(rng, corpus):
    files = {"configure.ac": any_source(rng, corpus)}
    if rng.random() < 0.4:
        files["config.cache"] = mutated(rng, b"".join(rng.sample(CACHES, rng.choice([1, 2]))), corpus, CACHES)
    if rng.random() < 0.5:
        files["standin.txt"] = b"\n".join(rng.choices(REFUSED, k=rng.choice([1, 2])))
    if rng.random() < 0.3:
        files["f.in"] = mutated(rng, rng.choice(corpus.templates), corpus, corpus.templates)
    words = arguments(rng, corpus)
    if rng.random() < 0.5:
        words.append(b"-C")
    if rng.random() < 0.7:
        words.append(b"CC=acrun standin")
    window = rng.choice([None, None, 1, 2, 3, 16])
    return Input("configure", words, files=files, window=window, again=rng.random() < 0.1)


# ---- a run

PARSE = rb"parse (?:(?:1\.[1-4]|[2-57]|6\.[123]|1[0-4]) at \d+|1\.[56]|[89])|plan 1"
FAULTS = {
    "filter": PARSE + rb"|template [^\n]+|usage",
    "configure": PARSE + rb"|option [1-5] at \d+|cache [12] at \d+|cache 3|precious [123] [^\n]+|template [^\n]+|put \d+"
                 rb"|file (?s:.*)configure\.ac|file config\.log",
    "status": rb"record (?:[14]|[25] at \d+|3)|tag \d+|template [^\n]+|put \d+|file config\.status|usage",
    "recheck": PARSE + rb"|option [1-5] at \d+|cache [12] at \d+|cache 3|precious [123] [^\n]+|template [^\n]+|put \d+"
               rb"|record (?:[14]|[25] at \d+|3)|recheck|file (?s:.*)configure\.ac|file config\.(?:log|status)",
    "words": rb"usage|tools [^\n]+|file \./configure\.ac|file config\.status|file [^\n]+",
}
FAULTS = {kind: re.compile(rb"acrun: (?:" + it + rb")\n\Z") for kind, it in FAULTS.items()}
NOTHING_WRITTEN = re.compile(
    rb"acrun: (?:parse|plan|option|cache|precious|template|record|recheck|tag|usage|file (?s:.*)configure\.ac|file config\.status)")
FIXED = {
    "f.in": b"@PACKAGE_NAME@ @x@ @CC@\n", "out.in": b"@PACKAGE_STRING@\n", "Makefile.in": b"@CC@ @DEFS@ @srcdir@\n",
    "config.h.in": b"#undef HAVE_F\n", "c.h.in": b"#undef HAVE_F\n#define X 1\n", "version.in": b"@kind@\n",
    "sub/f.in": b"@top_srcdir@\n", "a.in": b"@a@\n", "b.in": b"", "t.in": b"@srcdir@",
    "a/b.in": b"@builddir@", "doc/tally.1.in": b"@PACKAGE_VERSION@\n", "x.in": b"@x@", "y.in": b"", "t": b"@t@\n", "u": b"",
}
AROUND = {
    "configure.ac": b"AC_INIT([y],[2])\nAC_CONFIG_FILES([f])\nAC_OUTPUT\n", "f.in": b"@srcdir@\n", "other/kept": b"kept\n", "g": b"kept\n",
}


class Wrong(Exception):
    """A run that is not as documented."""


class Room:
    """A directory to run in, with files around it, and the streams of the runs."""

    def __init__(self, bin_directory, most_seconds):
        self.program, self.most_seconds = os.path.join(bin_directory, "acrun"), most_seconds
        other = os.path.join(bin_directory, "other/acrun")
        self.other = other if os.path.exists(other) else None
        self.outer = pathlib.Path(tempfile.mkdtemp(prefix="fuzz-", dir="/dev/shm" if os.path.isdir("/dev/shm") else None))
        self.inner = self.outer / "run"
        for name, text in AROUND.items():
            (self.outer / name).parent.mkdir(parents=True, exist_ok=True)
            (self.outer / name).write_bytes(text)
        self.paths_around = [str(self.outer), str(self.outer / "other")] + [str(self.outer / name) for name in AROUND]
        self.inner.mkdir()
        os.chdir(self.inner)
        self.env = {"PATH": bin_directory, "LC_ALL": "C"}
        self.input, self.output, self.errors = (os.memfd_create(name) for name in ("input", "output", "errors"))
        self.known = {}
        self.restore()
        self.around = self.seen_around()

    def seen_around(self):
        """What is around the directory of the run: names, and the size, time and mode of each file and directory."""
        seen = [tuple(sorted(os.listdir(self.outer))), tuple(os.listdir(self.outer / "other"))]
        for path in self.paths_around:
            it = os.lstat(path)
            seen.append((it.st_size, it.st_mtime_ns, it.st_mode))
        return seen

    def tree(self):
        """What is in the directory of the run: a file's size, time and node by its name."""
        found = {}
        pending = ["."]
        while pending:
            place = pending.pop()
            with os.scandir(place) as entries:
                for it in entries:
                    name = it.path[2:]
                    if it.is_dir(follow_symlinks=False):
                        pending.append(it.path)
                        found[name + "/"] = None
                    else:
                        status = it.stat(follow_symlinks=False)
                        found[name] = (status.st_size, status.st_mtime_ns, status.st_ino)
        return found

    def restore(self):
        """Removes what runs have left, and writes the templates that are always there."""
        found = self.tree()
        for name in sorted(found, reverse=True):
            if name.endswith("/"):
                if not any(it.startswith(name) for it in FIXED):
                    os.rmdir(name)
            elif self.known.get(name) != found[name]:
                os.remove(name)
        for name, text in FIXED.items():
            if name not in self.known or found.get(name) != self.known[name]:
                os.makedirs(os.path.dirname(name) or ".", exist_ok=True)
                put(name, text)
        found = self.tree()
        self.known = {name: found[name] for name in FIXED}

    def run(self, words, given, program=None):
        """Runs the program, or another one, and returns its status, output, errors, processor seconds and peak memory in MB."""
        for stream in (self.input, self.output, self.errors):
            os.ftruncate(stream, 0)
            os.lseek(stream, 0, os.SEEK_SET)
        os.write(self.input, given)
        os.lseek(self.input, 0, os.SEEK_SET)
        actions = [(os.POSIX_SPAWN_DUP2, stream, to) for to, stream in enumerate((self.input, self.output, self.errors))]
        child = os.posix_spawn(program or self.program, [b"acrun"] + words, self.env, file_actions=actions, setpgroup=0)
        late = []
        signal.signal(signal.SIGALRM, lambda *_: (late.append(child), os.killpg(child, signal.SIGKILL)))
        signal.setitimer(signal.ITIMER_REAL, LONGEST_WAIT)
        _, status, used = os.wait4(child, 0)
        signal.setitimer(signal.ITIMER_REAL, 0)
        try:
            left = os.waitpid(-1, os.WNOHANG)
        except ChildProcessError:
            left = None
        if left is not None:
            end_group(child)
            if not late:
                raise Wrong("it leaves a child")
        if late:
            raise Wrong(f"it has not ended after {LONGEST_WAIT} seconds")
        seconds, megabytes = used.ru_utime + used.ru_stime, used.ru_maxrss / 1024
        return os.waitstatus_to_exitcode(status), read(self.output), read(self.errors), seconds, megabytes


def end_group(child):
    """Kills the children that the program left, and waits for them."""
    try:
        os.killpg(child, signal.SIGKILL)
    except ProcessLookupError:
        pass
    try:
        while True:
            os.waitpid(-1, 0)
    except ChildProcessError:
        pass


def put(name, text):
    handle = os.open(name, os.O_WRONLY | os.O_CREAT | os.O_TRUNC, 0o644)
    os.write(handle, text)
    os.close(handle)


def read(stream):
    return os.pread(stream, os.fstat(stream).st_size, 0)


def judge_status(it, status, output, errors):
    """Raises Wrong unless the exit status and the text on standard error belong together as documented."""
    source = it.given + it.files.get("configure.ac", b"") + AROUND["configure.ac"]
    fault = FAULTS[it.kind].search(errors)
    said = errors.count(b"acrun: ") if errors.startswith(b"acrun: ") else errors.count(b"\nacrun: ")
    if status < 0:
        raise Wrong(f"signal {-status} ends it")
    if said and (status != 2 or not fault):
        raise Wrong("an error line with another status, or in a form that is not documented")
    if said > 1 and not (said == 2 and re.search(rb"acrun: put \d+\nacrun: file config.log\n\Z", errors)):
        raise Wrong("several error lines")
    if it.kind == "words":
        if status not in (0, 1, 2):
            raise Wrong(f"status {status}")
        return
    stops = re.search(rb"configure: error: ", errors)
    if status == 2 and not fault and not (stops and b"AC_MSG_ERROR" in source):
        raise Wrong("status 2 without an error line")
    is_cut = re.search(rb"configure: cut short at child [1-9]\d*\n\Z", errors)
    if status == 3 and not is_cut and not (stops and b"AC_MSG_ERROR" in source):
        raise Wrong("status 3 without the line of a cut")
    if status not in (0, 2, 3):
        if not stops or it.kind == "status":
            raise Wrong("a status of the source without its message")
        if status != 1 and not re.search(rb"\b0*%d\b" % status, source):
            raise Wrong("a status that the source does not give")
        if status == 1 and b"AC_MSG_ERROR" not in source and b"no acceptable C compiler" not in errors:
            raise Wrong("status 1 without a reason")
    if status == 0 and (is_cut or stops and not re.search(rb"MSG_(WARN|NOTICE|ERROR)", source)):
        raise Wrong("status 0 after a stop or a cut")
    if it.kind == "status" and status not in (0, 2):
        raise Wrong(f"status {status}")
    if it.kind == "filter" and status and output:
        raise Wrong("output of a filter that does not complete")
    judge_place(it, errors)


def arguments_of(it):
    """The number of arguments of a run: its words, or those of its record and one more."""
    return it.files["config.status"].count(b"\narg ") + 1 if it.kind == "recheck" else len(it.words)


def judge_place(it, errors):
    """Raises Wrong if an error line names a place that is not there."""
    found = re.search(rb"acrun: (parse|option|cache|record|tag) ?(?:[\d.]* at )?(\d+)\n\Z", errors)
    if not found:
        return
    place = int(found[2])
    if found[1] == b"parse" and b" at " in found[0]:
        texts = [it.given, it.files.get("configure.ac", b""), AROUND["configure.ac"]]
        most = max(len(text) for text in texts)
        if place > most:
            raise Wrong("an offset after the end of the source")
    elif found[1] == b"option" and not 1 <= place <= arguments_of(it):
        raise Wrong("an argument that is not there")
    elif found[1] == b"cache" and b" at " in found[0] and not 1 <= place <= max(text.count(b"\n") for text in it.files.values()) + 1:
        raise Wrong("a line of the cache that is not there")
    elif found[1] == b"record" and b" at " in found[0] and not 1 <= place <= it.files["config.status"].count(b"\n") + 1:
        raise Wrong("a line of the record that is not there")
    elif found[1] == b"tag" and not 1 <= place < len(it.words):
        raise Wrong("a tag that is not there")


def judge_files(room, it, before, errors):
    """Raises Wrong if a run leaves files that it should not leave, or changes what is around its directory."""
    after = room.tree()
    around, room.around = room.around, room.seen_around()
    if room.around != around:
        raise Wrong("it changes what is outside its directory")
    texts = it.given + b"".join(it.files.values()) + b"".join(it.words)
    for name in after:
        if name.endswith(".acrun") and name not in before and b".acrun" not in texts:
            raise Wrong(f"it leaves {name}")
    wrote_nothing = it.kind == "filter" or it.kind in ("configure", "status", "recheck") and NOTHING_WRITTEN.search(errors)
    if wrote_nothing and after != before:
        raise Wrong("it writes a file where it should write nothing")


def outputs(room):
    """The texts of the files, without those that children leave."""
    return {name: pathlib.Path(name).read_bytes() for name, found in room.tree().items()
            if found and not re.match(r"conftest\d*(\.|$)|.*\.seen$|^config\.log$", name)}


def prepare(room, it):
    room.restore()
    for name, text in it.files.items():
        put(name, text)
        room.known.pop(name, None)


def words_of(it, window):
    return ([] if window is None else [b"-j%d" % window]) + ([b"configure"] if it.kind == "configure" else []) + it.words


def judge(room, it):
    """Runs an input. Returns its exit status, and raises Wrong if anything is not as documented."""
    if it.files or it.kind != "filter" or room.other:
        prepare(room, it)
    before = room.tree()
    status, output, errors, seconds, megabytes = room.run(words_of(it, it.window), it.given)
    judge_status(it, status, output, errors)
    judge_files(room, it, before, errors)
    if seconds > room.most_seconds:
        raise Wrong(f"over {room.most_seconds} seconds")
    if megabytes > MOST_MEGABYTES:
        raise Wrong(f"over {MOST_MEGABYTES} MB")
    if room.other:
        judge_other(room, it, status, output, errors)
    if it.again:
        judge_again(room, it, status, output, errors)
    return status


def judge_other(room, it, status, output, errors):
    """Raises Wrong if the other program has another result. Leaves what that one made."""
    first = outputs(room)
    found, printed, said = rerun(room, it, room.other)[:3]
    if found != status:
        raise Wrong(f"the other program ends with status {found}, and not {status}")
    if printed != output:
        raise Wrong("the other program prints something else")
    if said != errors:
        raise Wrong("the other program prints something else on standard error")
    if outputs(room) != first:
        raise Wrong("the other program makes other files")


def judge_again(room, it, status, output, errors):
    """Raises Wrong if another window, or `status`, makes other outputs."""
    first = outputs(room)
    if status == 0 and "config.status" in first and b"-n" not in it.words and b"--no-create" not in it.words:
        found, _, said, _, _ = room.run([b"status"], b"")
        if found == 0 and outputs(room) != first:
            raise Wrong("`status` makes other outputs")
    prepare(room, it)
    other = room.run(words_of(it, 4 if it.window != 4 else 1), it.given)[:3]
    if other != (status, output, errors) or outputs(room) != first:
        raise Wrong("another window makes another result")


# ---- the processes


def drop_rights(memory):
    """Runs as nobody, at a low priority, without core files, and with limits on memory, processes and files."""
    os.nice(10)
    if memory:
        resource.setrlimit(resource.RLIMIT_AS, (memory << 20, memory << 20))
    resource.setrlimit(resource.RLIMIT_CORE, (0, 0))
    resource.setrlimit(resource.RLIMIT_FSIZE, (1 << 28, 1 << 28))
    if os.getuid() == 0:
        os.setgroups([])
        os.setgid(65534)
        os.setuid(65534)
        resource.setrlimit(resource.RLIMIT_NPROC, (512, 512))
    ctypes.CDLL(None).prctl(36, 1, 0, 0, 0)  # PR_SET_CHILD_SUBREAPER: children that the program leaves come to this process


def work(arguments, bin_directory, corpus, worker, workers, report):
    """Runs every `workers`th input, and writes lines of counts and of what is wrong."""
    drop_rights(arguments.memory)
    room = Room(bin_directory, arguments.slowest)
    counts, done, number, until = {}, 0, arguments.start + worker, time.time() + arguments.seconds
    while time.time() < until and number < arguments.start + arguments.count:
        it = make_input(number, corpus)
        try:
            status = judge(room, it)
            counts[(it.kind, status)] = counts.get((it.kind, status), 0) + 1
        except Wrong as wrong:
            report.write(f"wrong {number} {it.kind}: {wrong}\n")
        done += 1
        number += workers
    for (kind, status), count in sorted(counts.items()):
        report.write(f"count {kind} {status} {count}\n")
    report.write(f"done {done} {number}\n")
    report.close()
    os.chdir("/")
    shutil.rmtree(room.outer)


def start(arguments, bin_directory, corpus):
    """Starts the processes, and returns the ends of pipes on which they report."""
    pipes = []
    for worker in range(arguments.jobs):
        reading, writing = os.pipe()
        if os.fork() == 0:
            os.close(reading)
            failed = 1
            try:
                work(arguments, bin_directory, corpus, worker, arguments.jobs, os.fdopen(writing, "w", buffering=1))
                failed = 0
            except BaseException:
                traceback.print_exc()
            finally:
                os._exit(failed)
        os.close(writing)
        pipes.append(os.fdopen(reading))
    return pipes


def gather(pipes):
    """Prints what is wrong, and returns the counts, how many inputs were run, the first that was not, and what is wrong."""
    counts, done, ends, wrong, failed = {}, 0, [], [], False
    for pipe in pipes:
        ended = False
        for line in pipe:
            word, _, rest = line.rstrip("\n").partition(" ")
            if word == "wrong":
                print(line, end="", flush=True)
                wrong.append(rest)
            elif word == "count":
                kind, status, count = rest.split()
                counts[(kind, int(status))] = counts.get((kind, int(status)), 0) + int(count)
            elif word == "done":
                done += int(rest.split()[0])
                ends.append(int(rest.split()[1]))
                ended = True
        failed |= not ended
    if failed:
        print("a process of this script failed")
    return counts, done, min(ends, default=0), wrong, failed


def same_wrong(room, it):
    try:
        judge(room, it)
    except Wrong as wrong:
        return str(wrong)
    return None


def shorter(text):
    """Texts that are shorter, the shortest first."""
    size = len(text) // 2
    while size:
        for at in range(0, len(text), size):
            yield text[:at] + text[at + size:]
        size //= 2


def minimized(room, it):
    """The input, made shorter while what is wrong stays the same."""
    wanted = same_wrong(room, it)
    changed = wanted is not None
    while changed:
        changed = False
        for name in [None] + sorted(it.files):
            text = it.given if name is None else it.files[name]
            for less in shorter(text):
                given, files = (less, it.files) if name is None else (it.given, {**it.files, name: less})
                tried = Input(it.kind, it.words, given, files, it.window, it.again)
                if same_wrong(room, tried) == wanted:
                    it, changed = tried, True
                    break
        for i in range(len(it.words)):
            tried = Input(it.kind, it.words[:i] + it.words[i + 1:], it.given, it.files, it.window, it.again)
            if same_wrong(room, tried) == wanted:
                it, changed = tried, True
                break
    return it


def show(arguments, bin_directory, corpus, number):
    """Runs one input again, shows it and what comes of it, and returns 1 if that is wrong."""
    drop_rights(arguments.memory)
    room = Room(bin_directory, arguments.slowest)
    it = make_input(number, corpus)
    if arguments.minimize is not None:
        it = minimized(room, it)
    print(it.shown())
    wrong = same_wrong(room, it)
    for program in [room.program] + ([room.other] if room.other else []):
        status, output, errors, seconds, megabytes = rerun(room, it, program)
        print(f"--- {os.path.basename(program)}: status {status}, {seconds:.3f} s, {megabytes:.0f} MB\n"
              f"--- output\n{output[:2000]!r}\n--- errors\n{errors[:2000]!r}")
    print(f"--- {wrong or 'as it should be'}")
    os.chdir("/")
    shutil.rmtree(room.outer)
    sys.stdout.flush()
    return 1 if wrong else 0


def rerun(room, it, program):
    prepare(room, it)
    return room.run(words_of(it, it.window), it.given, program)


def copy_programs(program, directory):
    """Copies acrun, and the acrun-tools beside it if there is one, into a directory that each user may read."""
    os.makedirs(directory, exist_ok=True)
    os.chmod(directory, 0o755)
    tools = os.path.join(os.path.dirname(os.path.realpath(program)), "acrun-tools")
    for name, file in (("acrun", program), ("acrun-tools", tools)):
        if name == "acrun" or os.path.exists(file):
            shutil.copy(file, os.path.join(directory, name))
            os.chmod(os.path.join(directory, name), 0o755)


def main():
    parser = argparse.ArgumentParser()
    parser.add_argument("program")
    parser.add_argument("--from", dest="start", type=int, default=0)
    parser.add_argument("--count", type=int, default=sys.maxsize // 2)
    parser.add_argument("--seconds", type=float, default=60)
    parser.add_argument("--jobs", type=int, default=os.cpu_count())
    parser.add_argument("--memory", type=int, default=2048, help="MB that a run may have; 0 sets no limit")
    parser.add_argument("--slowest", type=float, default=1.0, help="processor seconds that a run may take")
    parser.add_argument("--other", help="a program that has to do the same")
    parser.add_argument("--replay", type=int)
    parser.add_argument("--minimize", type=int)
    arguments = parser.parse_args()
    corpus = Corpus()
    with tempfile.TemporaryDirectory() as bin_directory:
        for directory, program in ((bin_directory, arguments.program), (os.path.join(bin_directory, "other"), arguments.other)):
            if program:
                copy_programs(program, directory)
        os.symlink(os.path.realpath(shutil.which("sh")), os.path.join(bin_directory, "sh"))
        number = arguments.replay if arguments.replay is not None else arguments.minimize
        if number is not None:
            child = os.fork()
            if child == 0:
                os._exit(show(arguments, bin_directory, corpus, number))
            return os.waitstatus_to_exitcode(os.waitpid(child, 0)[1])
        began = time.time()
        counts, done, end, wrong, failed = gather(start(arguments, bin_directory, corpus))
        passed = time.time() - began
    print(f"corpus {corpus.digest}: {done} inputs, among them all from {arguments.start} to {end - 1}, "
          f"in {passed:.0f} s, {done / max(passed, 0.001):.0f} a second")
    for kind in sorted({kind for kind, _ in counts}):
        print(f"{kind}: " + ", ".join(f"status {status} {count}" for (it, status), count in sorted(counts.items()) if it == kind))
    print(f"{len(wrong)} wrong")
    return 1 if wrong or failed else 0


sys.exit(main())
