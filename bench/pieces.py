#!/usr/bin/env python3
"""Prints what templates in pieces and headers cost, beside sed and awk: python3 bench/pieces.py

It makes a repository in a temporary directory, of bench/pieces.rt.txt and of the crates that it uses, proves and builds the
program there with rt, and runs it and the other program in turn on the same input. Their outputs must be equal, byte by byte.
It needs rt, GNU time as /usr/bin/time, and 400 MB of disk. Run `make` first: what is proved is not proved again.
"""
import filecmp
import os
import pathlib
import shutil
import tempfile

from building import build

RUNS = 5
USED = ["template", "deftable"]
ENVIRONMENT = {"LC_ALL": "C", "PATH": os.environ["PATH"]}
MEGABYTE = 1_000_000
MEBIBYTE = 1 << 20
KEYS = [f"NAME_{number:02}" for number in range(20)]
# Names that are no keys. The first has the length and the front of one.
OTHERS = ["NAME_20", "prefix", "localstatedir", "builddir", "x"]

# What fill_header does, for lines that all end in a newline.
HEADER_AWK = r"""
BEGIN { for (i = 0; i < 1000; i++) value[sprintf("HAVE_%04d", i)] = sprintf("%04d", i) }
/^[ \t]*#[ \t]*(undef|define)[ \t]+[A-Za-z_][A-Za-z0-9_]*([ \t(]|$)/ {
    before = $0
    sub(/(undef|define).*/, "", before)
    name = substr($0, length(before) + 1)
    is_undef = name ~ /^undef/
    sub(/^(undef|define)[ \t]+/, "", name)
    sub(/[^A-Za-z0-9_].*/, "", name)
    if (name in value) { print before "define " name " " value[name]; next }
    if (is_undef) { print "/* " before "undef " name " */"; next }
}
{ print }
"""


def template_block():
    """Returns lines with a name every 64 bytes or so, of which every other one is a key.

    Their number of bytes is odd, so copies of the block put in a row are cut at every place by pieces of 4,096 bytes.
    """
    lines = []
    for number, key in enumerate(KEYS):
        lines.append(f"a line of a Makefile.in, with the name @{key}@ in its midst.\n")
        lines.append(f"another line, whose name @{OTHERS[number % len(OTHERS)]}@ stays as it is in the output.\n")
    block = "".join(lines).encode()
    return block if len(block) % 2 else block + b"\n"


def header_block():
    """Returns lines of a header template with 2,000 names, of which half are defined. A third of them is after `#  define`."""
    lines = []
    for number in range(2_000):
        lines.append(f"/* Define to 1 if you have the function number {number}. */\n")
        lines.append(f"#undef HAVE_{number:04}\n" if number % 3 else f"#  define HAVE_{number:04} 0 /* the old value */\n")
        lines.append("\n" if number % 2 else "#include <stdio.h>\n")
    return "".join(lines).encode()


def write_blocks(path, block, size):
    """Writes copies of the block in a row, and of the last one as many lines as fit into the size. Returns the file's length."""
    count, rest = divmod(size, len(block))
    with open(path, "wb") as file:
        for _ in range(count):
            file.write(block)
        file.write(block[: block.rfind(b"\n", 0, rest) + 1])
        return file.tell()


def path_of(name):
    """Returns the path of a program, with all links followed, so that its name says which awk it is."""
    return pathlib.Path(shutil.which(name)).resolve()


def measured(command, source, output):
    """Runs the command on a file, and returns its user and system time in seconds, and its peak of memory in kilobytes.

    The child of this process is GNU time, which is small: a child of a large process begins with that process's peak.
    """
    peak = output.with_suffix(".peak")
    words = ["/usr/bin/time", "-f", "%M", "-o", str(peak), *[str(word) for word in command]]
    opened = [
        (os.POSIX_SPAWN_OPEN, 0, str(source), os.O_RDONLY, 0),
        (os.POSIX_SPAWN_OPEN, 1, str(output), os.O_WRONLY | os.O_CREAT | os.O_TRUNC, 0o600),
    ]
    child = os.posix_spawn(words[0], words, ENVIRONMENT, file_actions=opened)
    _, status, used = os.wait4(child, 0)
    if status:
        raise SystemExit(f"{command}: status {status}")
    return used.ru_utime + used.ru_stime, int(peak.read_text())


def compare(title, program, other, source, size):
    """Runs both commands in turn on the file, and prints the least time and the largest peak of each."""
    outputs = [source.with_suffix(".ours"), source.with_suffix(".theirs")]
    runs = [[measured(command, source, output) for command, output in zip((program, other), outputs)] for _ in range(RUNS)]
    if not filecmp.cmp(*outputs, shallow=False):
        raise SystemExit(f"{title}: the outputs differ")
    made = outputs[0].stat().st_size
    for output in outputs:
        output.unlink()
    (ours, our_peak), (theirs, their_peak) = (
        (min(time for time, _ in column), max(peak for _, peak in column)) for column in zip(*runs)
    )
    least, most = (choose(run[0][0] / run[1][0] for run in runs) for choose in (min, max))
    print(f"{title}: {size} bytes to {made}, equal outputs")
    print(f"  program: {ours:.3f} s, peak {our_peak} kB")
    print(f"  {pathlib.Path(other[0]).name}: {theirs:.3f} s, peak {their_peak} kB")
    print(f"  ratio of the least times {ours / theirs:.3f}, ratios of single runs {least:.3f} to {most:.3f}")


def main():
    with tempfile.TemporaryDirectory() as name:
        folder = pathlib.Path(name)
        program = build(folder, "pieces", USED, "fill")
        print(f"user and system time, the least of {RUNS} runs, and the largest peak of memory:")
        commands = folder / "commands.sed"
        commands.write_text("".join(f"s/@{key}@/value_of_{key[-2:]}/g\n" for key in KEYS))
        block = template_block()
        fill, sed = [program, "fill"], [path_of("sed"), "-f", commands]
        for title, text in (("template with names", block), ("template without @", block.replace(b"@", b"+"))):
            for size in (100 * MEGABYTE, MEGABYTE):
                source = folder / "template"
                compare(title, fill, sed, source, write_blocks(source, text, size))
        script = folder / "header.awk"
        script.write_text(HEADER_AWK)
        source = folder / "header"
        ours, awk = [program, "header"], [path_of("awk"), "-f", script]
        compare("header, and an awk script that does the same", ours, awk, source, write_blocks(source, header_block(), MEBIBYTE))


main()
