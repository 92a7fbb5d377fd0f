#!/usr/bin/env python3
"""Wraps the prose of documents at 116 columns, and changes nothing else.

    tools/wrap_documents.py FILE..

Paragraphs, items of lists and quoted lines are filled anew. Headings, tables, code and what a
script writes stay as they are. If a document would have other words then, or another form, it is
not written.
"""
import pathlib
import re
import sys

WIDTH = 116
# From such a line on, a script writes the document, up to the line that ends it if there is one.
WRITTEN = ("<!-- tools/", "# Macros that acrun doesn't know")
END = "<!-- up to here -->"
KEPT = re.compile(r"#|\s*\||    |\t|<|!\[|$")
MARK = re.compile(r"> |(?:  )?(?:- |\d+\. )|")


def parts(text):
    """Returns the words of a text, with each span of code and each link as one."""
    return re.findall(r"(?:``.*?``|`[^`]*`|\[[^\]\s]*\]\([^)]*\)|\S)+", text)


def filled(text, first, rest):
    """Returns the lines of a paragraph, which begin with `first` and then with `rest`."""
    lines, line, is_empty = [], first, True
    for part in parts(text):
        if not is_empty and len(line) + 1 + len(part) > WIDTH:
            lines.append(line)
            line, is_empty = rest, True
        line += part if is_empty else " " + part
        is_empty = False
    return [*lines, line]


def wrapped(text):
    """Returns a document with its prose wrapped."""
    lines, made, is_code = text.split("\n"), [], False
    while lines:
        if lines[0].startswith(WRITTEN):
            length = lines.index(END) if END in lines else len(lines)
            made += lines[:length]
            lines = lines[length:]
            if not lines:
                break
        if lines[0].startswith("```"):
            is_code = not is_code
        if is_code or lines[0].startswith("```") or KEPT.match(lines[0]):
            made.append(lines.pop(0))
            continue
        mark = MARK.match(lines[0])[0]
        rest = mark if mark == "> " else " " * len(mark)
        body = [lines.pop(0)[len(mark):]]
        while lines and goes_on(lines[0], mark):
            body.append(lines.pop(0).removeprefix("> "))
        made += filled(" ".join(body), mark, rest)
    return "\n".join(made)


def goes_on(line, mark):
    """Returns whether a line belongs to the paragraph before it, which begins with a mark."""
    if line.startswith(("#", "|", "```")) or not line.strip():
        return False
    if line.startswith("> "):
        return mark == "> "
    return not MARK.match(line)[0]


def main():
    wrong = 0
    for name in sys.argv[1:]:
        file = pathlib.Path(name)
        text = file.read_text()
        new = wrapped(text)
        has_same_words = re.sub(r"[>\s]+", " ", new) == re.sub(r"[>\s]+", " ", text)
        if has_same_words and wrapped(new) == new:
            file.write_text(new)
        else:
            wrong = 1
            print(f"{file}: wrapping it would change it")
    return wrong


if __name__ == "__main__":
    sys.exit(main())
