#!/usr/bin/env python3
"""Counts what makes a document hard to read: long lines and long sentences.

    tools/count_sentences.py [-v] [FILE..]

Prints a row for each document: its lines, those over 100 and over 120 columns, its sentences, their
average number of words, and the words of the longest. With -v it also prints each sentence of more
than 35 words. Code, tables, headings, lists that a script writes and the lines of clauses in
docs/promises.md are no sentences, and a span of code is one word. Without a FILE it counts every document. The exit status is 1 if the
average of one is over 20 words.
"""
import pathlib
import re
import sys

MOST_WORDS = 20


def documents():
    """Returns every document of the repository."""
    places = (".", "docs", "tools", "bench", "examples")
    return sorted(str(file) for place in places for file in pathlib.Path(place).glob("*.md"))


def paragraphs(text):
    """Returns the paragraphs and the items of lists, each in one line."""
    text = re.sub(r"(?ms)^```.*?^```|^<!-- tools/.*?^<!-- up to here -->", "", text)
    dropped = r"\s*\||#|>|    |\t|!\[|\[.*\]: "
    lines = (line for line in text.splitlines() if not re.match(dropped, line))
    return re.split(r"\n\s*\n|\n(?=\s*(?:[-*]|\d+\.) )", "\n".join(lines))


def sentences(text):
    """Returns the sentences of a text."""
    for paragraph in paragraphs(text):
        plain = re.sub(r"`[^`]*`", "code", paragraph)
        plain = re.sub(r"\[([^\]]*)\]\([^)]*\)", r"\1", plain)
        plain = re.sub(r"^\s*(?:[-*]|\d+\.) ", "", plain)
        ends = r"(?<=[.!?])[)*\"]*\s+(?=\W*[A-Z\d]|code\b)"
        for sentence in re.split(ends, " ".join(plain.split())):
            if re.search(r"\w", sentence):
                yield sentence


def words(sentence):
    """Returns the number of words of a sentence."""
    return len(re.findall(r"[\w'-]*\w[\w'.,:/=-]*", sentence))


def main():
    arguments = sys.argv[1:]
    shows = "-v" in arguments
    files = [it for it in arguments if it != "-v"] or documents()
    is_long = False
    titles = ("lines", "> 100", "> 120", "sentences", "average", "longest")
    print(f"{'document':24}" + "".join(f"{title:>10}" for title in titles))
    for file in files:
        text = pathlib.Path(file).read_text()
        lines = text.splitlines()
        counts = [words(it) for it in sentences(text)] or [0]
        average = sum(counts) / len(counts)
        is_long |= average > MOST_WORDS
        over = [sum(len(line) > most for line in lines) for most in (100, 120)]
        row = (len(lines), *over, len(counts), f"{average:.1f}", max(counts))
        print(f"{file:24}" + "".join(f"{it:>10}" for it in row))
        if shows:
            for sentence in sentences(text):
                if words(sentence) > 35:
                    print(f"    {words(sentence)}: {sentence}")
    return int(is_long)


if __name__ == "__main__":
    sys.exit(main())
