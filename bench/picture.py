#!/usr/bin/env python3
"""Draws docs/speed.svg from the figures of docs/performance.md: the time of a run of 300 checks, with Autoconf's configure as 1.

  picture.py           writes the file
  picture.py --check   exits with 1 if the file is another
"""
import pathlib
import re
import sys

ROOT = pathlib.Path(__file__).resolve().parent.parent
PICTURE = ROOT / "docs/speed.svg"
TABLE = r"(?m)^\| Time on the clock, with Autoconf's configure as 1 .*\n.*\n((?:\|.*\n)+)"
ROW = r"\| ([\d.]+) \| ([\d.]+) \|\n"
STYLE = """text { font: 14px sans-serif; fill: #1f2328 } .n { font-weight: bold } .a { fill: #8c959f } .b { fill: #1a7f37 } .c { opacity: 0.45 }
@media (prefers-color-scheme: dark) { text { fill: #e6edf3 } .a { fill: #6e7681 } .b { fill: #3fb950 } }"""


def picture(one, four):
    """Returns the picture for the times of a run, and of one with -j4: each bar is the least time, and fainter up to the largest."""
    bars = [("Autoconf's configure", [1.0], "a"), ("acrun", one, "b"), ("acrun -j4", four, "b")]
    lines = [
        '<svg xmlns="http://www.w3.org/2000/svg" width="640" height="140" viewBox="0 0 640 140" role="img">',
        "<title>Time of a run of 300 checks with gcc, on two machines. Shorter is faster.</title>",
        f"<style>{STYLE}</style>",
    ]
    for i, (name, times, kind) in enumerate(bars):
        y, least, most = 30 + 32 * i, round(400 * min(times)), round(400 * max(times))
        shown = " to ".join(f"{time:.2f}" for time in sorted({min(times), max(times)}))
        lines.append(f'<text x="150" y="{y}" text-anchor="end">{name}</text>')
        lines.append(f'<rect class="{kind}" x="160" y="{y - 15}" width="{least}" height="20"/>')
        if most > least:
            lines.append(f'<rect class="{kind} c" x="{160 + least}" y="{y - 15}" width="{most - least}" height="20"/>')
        lines.append(f'<text class="n" x="{168 + most}" y="{y}">{shown}</text>')
    lines.append('<text x="160" y="128">300 checks with gcc, on two machines; time, with Autoconf as 1</text>')
    return "\n".join([*lines, "</svg>", ""])


def main():
    rows = re.findall(ROW, "".join(re.findall(TABLE, (ROOT / "docs/performance.md").read_text())))
    if not rows:
        sys.exit("docs/performance.md has no table of times with Autoconf's configure as 1")
    text = picture(*([float(row[i]) for row in rows] for i in (0, 1)))
    if sys.argv[1:] == ["--check"]:
        sys.exit(0 if PICTURE.exists() and PICTURE.read_text() == text else "docs/speed.svg is not that of docs/performance.md")
    PICTURE.write_text(text)


main()
