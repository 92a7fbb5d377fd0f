#!/usr/bin/env python3
"""Counts the forms of shell text, and of arguments, that sources of Autoconf use and acrun does not read.
  count_forms.py FILE..      FILE is a configure.ac or a configure.in
  count_forms.py -v FILE..   prints the files of each form too
A line has the uses, the files and the form. Comments, programs in C, help texts and the text of messages are left out. A form is
found by a pattern and not by a shell's grammar, so a count is right to some percent. `count_macros.py` counts the macros.
"""
import pathlib
import re
import sys

import count_macros

# Macros whose arguments are no shell text, with the numbers of those that are.
TEXTS = {
    **dict.fromkeys("AC_LANG_PROGRAM AC_LANG_SOURCE AC_LANG_CALL AC_LANG_DEFINES_PROVIDED".split(), ()),
    **dict.fromkeys("AC_TRY_COMPILE AC_TRY_LINK".split(), (3, 4)),
    **dict.fromkeys("AC_TRY_RUN AC_TRY_CPP".split(), (2, 3, 4)),
    **dict.fromkeys("AC_EGREP_CPP AC_EGREP_HEADER".split(), (3, 4)),
    **dict.fromkeys("AH_TOP AH_BOTTOM AH_VERBATIM AH_TEMPLATE".split(), ()),
    **dict.fromkeys("AC_HELP_STRING AS_HELP_STRING AC_ARG_VAR".split(), ()),
    **dict.fromkeys("AC_DEFINE AC_DEFINE_UNQUOTED AC_REVISION".split(), ()),
    **dict.fromkeys("AC_MSG_NOTICE AC_MSG_WARN AC_MSG_ERROR AC_MSG_FAILURE AC_MSG_CHECKING AC_MSG_RESULT".split(), ()),
    **dict.fromkeys("AC_ARG_ENABLE AC_ARG_WITH".split(), (1, 3, 4)),
    **dict.fromkeys("AC_CHECK_DECL AC_CHECK_DECLS AC_CHECK_TYPE AC_CHECK_TYPES AC_CHECK_HEADER AC_CHECK_HEADERS".split(), (1, 2, 3)),
    **dict.fromkeys("AC_CHECK_MEMBER AC_CHECK_MEMBERS".split(), (1, 2, 3)),
}
CALL = re.compile(r"(?<![\w$@])(" + "|".join(sorted(TEXTS, key=len, reverse=True)) + r")\(")
# Where a command begins: at the front of a line or an argument, or after a word or an operator that a command follows.
FRONT = r"(?:(?<![^\n])|(?<=[;(\[,`])|(?<=\bthen)|(?<=\belse)|(?<=\bdo)|(?<=&&)|(?<=\|\|))[ \t\n]*"
COMMANDS = "sed grep egrep awk tr cat rm cp mv mkdir ln touch chmod cmp diff sort head tail expr basename dirname find make perl python"


def at_front(words):
    return re.compile(FRONT + rf"\b(?:{words})(?=[ \t\n;])")


FORMS = {
    "`if`": at_front("if"),
    "`case`": at_front("case"),
    "`for`": at_front("for"),
    "`while`, `until`": at_front("while|until"),
    "the output of a command: backquotes, `$(..)`": re.compile(r"`[^`]+`|\$\((?!\()"),
    "tests of files: `test -f`, `-d`, `-r`, `-x` and their kin": re.compile(r"(?:\btest|\[) +(?:! +)?-[bcdefghkprsuwxLS] "),
    "tests of numbers: `test 1 -lt 2`": re.compile(r" -(?:eq|ne|lt|le|gt|ge) "),
    "`-a` and `-o` in a test": re.compile(r"\b(?:test|if \[) [^\n;]*? -[ao] "),
    "`&&`, `||` and `|` between commands": re.compile(
        r"(?m)^(?![ \t]*(?:if|elif|while|AS_IF|AC_|AM_)\b)[^'\n]*[^|\n](?:&&|\|\|)|[\w\"'] \| *(?:\\\n *)?(?:sed|grep|tr|awk)\b"
    ),
    "a variable with a default, or cut: `${x-y}`, `${x%y}`": re.compile(r"\$\{\w+:?[-+=?#%]"),
    "redirections, here-documents": re.compile(r"(?<=[ \t])\d?(?:>>|>|<<-?)[ \t]*(?:&|[\w\"$./\\])"),
    "`echo`, `printf`": at_front("echo|printf"),
    "`exit`": at_front("exit"),
    "other commands: `sed`, `rm`, `mkdir` and their kin": at_front(COMMANDS.replace(" ", "|")),
    "`eval`": at_front("eval"),
    "`export`, `unset`, `set`, `shift`": at_front("export|unset|set|shift"),
    "functions of the shell": re.compile(r"(?m)^[ \t]*(?!A[A-Z]_|gl_|m4_)\w+ ?\(\)"),
    "a name in a variable: `AC_CHECK_LIB([$x])`": re.compile(r"AC_(?:CHECK_(?:LIB|FUNCS?|HEADERS?|PROGS?)|SEARCH_LIBS)\(\[*\$\{?[a-zA-Z]"),
    "a list with backslashes at the ends of lines": re.compile(r"AC_CHECK_(?:FUNCS|HEADERS)(?:_ONCE)?\([^)]*\\\n"),
    "`AC_OUTPUT` with arguments": re.compile(r"\bAC_OUTPUT\((?!\[?[ \t\n]*\]?\))"),
    "`AC_INIT` with a file": re.compile(r"\bAC_INIT\([^,()]*\)"),
    "`AC_CONFIG_FILES` with commands, a variable or several templates": re.compile(
        r"\bAC_CONFIG_FILES\((?:[^()]*[$][^()]*|[^(),]*,[^()]*|[^()]*:[^() \n]*:[^()]*)\)"
    ),
    "a path to search: `AC_PATH_PROG` with a fourth argument": re.compile(r"\bAC_PATH_PROGS?\((?:[^(),]*,){3}"),
    "configuring commands: `AC_CONFIG_COMMANDS`, `AC_CONFIG_LINKS`": re.compile(r"\bAC_CONFIG_(?:COMMANDS|LINKS)\w*"),
    "packages within the package: `AC_CONFIG_SUBDIRS`": re.compile(r"\bAC_CONFIG_SUBDIRS"),
    "`AM_CONDITIONAL`": re.compile(r"\bAM_CONDITIONAL\b"),
    "a macro of the package's own: `AC_DEFUN`, `m4_define`": re.compile(r"\b(?:AC_DEFUN|m4_define|m4_defun)\b|(?<![^\n])define\("),
    "`m4_if`, `m4_foreach` and other m4": re.compile(r"\bm4_(?!define|defun|esyscmd|include|pattern)\w+"),
    "a command at the time of Autoconf: `m4_esyscmd`": re.compile(r"\bm4_esyscmd\w*|\besyscmd\b"),
    "flags from pkg-config: `PKG_CHECK_MODULES`": re.compile(r"\bPKG_CHECK_(?:MODULES|EXISTS)\w*"),
    "the machine's name: `AC_CANONICAL_HOST`, `$host_os`": re.compile(r"\bAC_CANONICAL_\w+|\$\{?host(?:_os|_cpu|_vendor)?\b"),
    "another language: C++": re.compile(r"\bAC_PROG_CXX\b|\bAC_LANG(?:_PUSH)?\(\[?C\+\+"),
    "libtool: `LT_INIT`": re.compile(r"\b(?:LT_INIT|AC_PROG_LIBTOOL|AM_PROG_LIBTOOL)\b"),
    "Automake: `AM_INIT_AUTOMAKE`": re.compile(r"\bAM_INIT_AUTOMAKE\b"),
    "translations: `AM_GNU_GETTEXT`": re.compile(r"\bAM_GNU_GETTEXT\b"),
    "gnulib: `gl_INIT`": re.compile(r"\bgl_INIT\b"),
    "sizes: `AC_CHECK_SIZEOF`, `AC_CHECK_ALIGNOF`": re.compile(r"\bAC_CHECK_(?:SIZEOF|ALIGNOF)\b"),
    "members: `AC_CHECK_MEMBER`, `AC_CHECK_MEMBERS`": re.compile(r"\bAC_CHECK_MEMBERS?\b"),
    "replacements: `AC_LIBOBJ`, `AC_REPLACE_FUNCS`": re.compile(r"\bAC_(?:LIBOBJ|REPLACE_FUNCS)\b"),
    "a text that a program gives: `AC_EGREP_CPP`": re.compile(r"\bAC_EGREP_(?:CPP|HEADER)\b"),
    "`AC_TRY_COMPILE`, `AC_TRY_LINK`, `AC_TRY_RUN`": re.compile(r"\bAC_TRY_(?:COMPILE|LINK|RUN|CPP)\b"),
    "how files are installed: `AC_PROG_INSTALL`": re.compile(r"\bAC_PROG_INSTALL\b"),
}


def arguments_from(text, start):
    """Returns the places of the arguments of a call whose parenthesis is before `start`, and the place after the call."""
    depth, quotes, places, begin = 0, 0, [], start
    for at in range(start, len(text)):
        char = text[at]
        quotes += (char == "[") - (char == "]")
        if quotes:
            continue
        if depth == 0 and char in ",)":
            places.append((begin, at))
            begin = at + 1
            if char == ")":
                return places, at + 1
        depth += (char == "(") - (char == ")")
    return places, len(text)


def shell_text(text):
    """Returns a source without what is no shell text: comments, programs, help and messages."""
    text = count_macros.without_comments(text)
    found, at = [], 0
    while call := CALL.search(text, at):
        places, _ = arguments_from(text, call.end())
        kept = TEXTS[call[1]]
        found.append(text[at : call.end()])
        at = call.end()
        for number, (begin, end) in enumerate(places, 1):
            if number not in kept:
                found.append(text[at:begin])
                at = end
            elif CALL.search(text, begin, end):
                found.append(text[at:begin] + shell_text(text[begin:end]))
                at = end
    return "".join(found) + text[at:]


def main(words):
    is_long = words[:1] == ["-v"]
    counted = {form: {} for form in FORMS}
    for file in (pathlib.Path(word) for word in words[is_long:]):
        text = shell_text(file.read_text(errors="replace"))
        for form, pattern in FORMS.items():
            count = len(pattern.findall(text))
            if count:
                counted[form][file] = count
    found = {form: files for form, files in counted.items() if files}
    for form, files in sorted(found.items(), key=lambda it: (-len(it[1]), -sum(it[1].values()))):
        print(f"{sum(files.values()):5} {len(files):3}  {form}")
        if is_long:
            print("".join(f"            {count:5}  {file}\n" for file, count in files.items()), end="")
    return 0


if __name__ == "__main__":
    sys.exit(main(sys.argv[1:]))
