"""What sources of tools/fuzz_exact.py have from number 7000000 on: five kinds of statements, of which each source has three.

`Forms` has a function for each kind, which puts statements among those of a source. `LIBRARY` has macros of other projects as their
documents describe them, for the scripts alone: `acrun port` reads a source without them, as it does without an aclocal.m4.
"""
import re

FORMS = ("paths", "exports", "package", "flags", "definitions")

# Macros that Autoconf doesn't have. What the comments of `port` state of all calls is left out here: the macro of Automake defines PACKAGE and
# VERSION also with no-define, and does nothing else.
LIBRARY = r"""
AC_DEFUN([AM_INIT_AUTOMAKE], [m4_ifval([$2],
[AC_SUBST([PACKAGE], [$1])dnl
AC_SUBST([VERSION], [$2])],
[AC_SUBST([PACKAGE], ['AC_PACKAGE_TARNAME'])dnl
AC_SUBST([VERSION], ['AC_PACKAGE_VERSION'])])
AC_DEFINE_UNQUOTED([PACKAGE], ["$PACKAGE"], [Name of package])
AC_DEFINE_UNQUOTED([VERSION], ["$VERSION"], [Version number of package])])
AC_DEFUN([FZ_CHECK_FLAG],
[AS_VAR_PUSHDEF([fz_answer], [ax_cv_check_$2_$7_$4])dnl
AC_CACHE_CHECK([whether $4 is accepted], [fz_answer],
  [fz_kept=$$1
  $1="$$1 $7 $4"
  $3([m4_default([$8], [AC_LANG_PROGRAM()])], [AS_VAR_SET([fz_answer], [yes])], [AS_VAR_SET([fz_answer], [no])])
  $1=$fz_kept])
AS_VAR_IF([fz_answer], [yes], [m4_default([$5], [:])], [m4_default([$6], [:])])
AS_VAR_POPDEF([fz_answer])dnl
])
AC_DEFUN([AX_CHECK_COMPILE_FLAG], [FZ_CHECK_FLAG([CFLAGS], [cflags], [AC_COMPILE_IFELSE], [$1], [$2], [$3], [$4], [$5])])
AC_DEFUN([AX_CHECK_LINK_FLAG], [FZ_CHECK_FLAG([LDFLAGS], [ldflags], [AC_LINK_IFELSE], [$1], [$2], [$3], [$4], [$5])])
"""
LIBRARY_NAMES = ("AM_INIT_AUTOMAKE", "AX_CHECK_COMPILE_FLAG", "AX_CHECK_LINK_FLAG")


def library(text):
    """Returns the macros of other projects, if a source calls one that it doesn't define."""
    names = [name for name in LIBRARY_NAMES if re.search(rf"\b{name}\b", text) and not re.search(rf"AC_DEFUN\(\[?{name}\b", text)]
    return LIBRARY if names else ""


# ------------------------------------------------------------------------------------------------------------------------------- paths

SEARCHES = ("AC_PATH_PROG", "AC_PATH_PROGS", "AC_PATH_PROG", "AC_PATH_PROGS", "AC_PATH_TOOL", "AC_PATH_TOOL", "AC_CHECK_PROGS", "AC_CHECK_PROG", "AC_CHECK_TOOL")
# Those that `port` writes with a path.
WITH_PATH = ("AC_PATH_PROG", "AC_PATH_PROGS", "AC_CHECK_PROGS")
SEARCHED = ("strip", "nm", "sed", "mysed", "gawk", "no-such_tool", "x.y+z", "mynm", "mkdir")
PATHS = (
    "$PATH", "[$PATH]", "[$PATH:/usr/sbin]", "/opt/none:$PATH", "$FZ_DIR:$PATH", "[${FZ_DIR}]", "[$FZ_DIR:/opt/none]", "[$prefix/bin:$PATH]",
    "[/opt/none]", "[/opt/a b:$PATH]", "[]", "$fz_path", "[`echo /opt/none`:$PATH]", "[\"$PATH\"]", "[$PATH$PATH_SEPARATOR/usr/sbin]",
)
OTHERWISE = ("", "[]", "no", "[:]", "[/opt/none]", "[$v1]", "[a b]", "[$FZ_DIR/sed]")
LAST_OF_PATHS = (
    "AC_CONFIG_FILES([values:values.in])\nAC_OUTPUT",
    "AC_CONFIG_FILES([values src/values:values.in])\nAC_OUTPUT",
    "AC_CONFIG_FILES([out/deep/values:src/values.in values])\nAC_OUTPUT",
    "AC_CONFIG_FILES(values)\nAC_CONFIG_FILES(src/values)\nAC_OUTPUT",
    "AC_CONFIG_FILES([\n  values\n  src/values\n])\nAC_OUTPUT",
    "AC_CONFIG_FILES([values:src/values.in:values.in])\nAC_OUTPUT",
    "AC_CONFIG_FILES([values \\\n  out/values:values.in])\nAC_OUTPUT",
    "AC_OUTPUT([values:values.in])",
    "AC_OUTPUT(out/values:values.in src/values)",
    "AC_OUTPUT([\nvalues\nout/values:src/values.in\n])",
    "AC_OUTPUT([values], [echo done])",
    "AC_CONFIG_FILES([values], [chmod +x values])\nAC_OUTPUT",
    "if test \"$v1\" = yes; then\n  AC_CONFIG_FILES([src/values])\nfi\nAC_CONFIG_FILES([values])\nAC_OUTPUT",
    "AC_CONFIG_FILES([values])\nAC_CONFIG_HEADERS([out/config.h:config.h.in])\nAC_OUTPUT",
)
AUX = ("AC_CONFIG_AUX_DIR([build-aux])", "AC_CONFIG_AUX_DIR(build-aux)", "AC_CONFIG_AUX_DIR([.])", "AC_CONFIG_AUX_DIR( [build-aux])", "AC_CONFIG_AUX_DIR([$srcdir/build-aux])")
SRCDIR = (
    "AC_CONFIG_SRCDIR([values.in])", "AC_CONFIG_SRCDIR(values.in)", "AC_CONFIG_SRCDIR([src/values.in])", "AC_CONFIG_SRCDIR(./configure.ac)",
    "AC_CONFIG_SRCDIR( [src/values.in])", "AC_CONFIG_SRCDIR([values.in]) # a note",
)

# ----------------------------------------------------------------------------------------------------------------------------- exports

EXPORTS = (
    "export v1", "export v1 v2", "v1=b; export v1", "export v1=b", 'export v1="b c"', 'export v1="$v2"', "export v1=$v2", "export v1=b v2=c",
    "export CFLAGS", 'CFLAGS="$CFLAGS -DX"\nexport CFLAGS', "LIBS=-lz; export LIBS", "v1=a && export v1", 'test -n "$v1" && export v1', "export PATH",
    "export v1 # a note", "export v1;", "{ export v1; }", "export PKG_CONFIG", "export PKG_CONFIG_PATH=/opt/lib", "export v1='a b'", "export LC_ALL=C",
    'if test -n "$v1"; then\n  export v1\nfi', 'if test -n "$v2"; then export v1=d; fi', "export v1=$v1:/opt/a", "export level=3 CFLAGS", "export v1=",
    "case $v2 in\n  yes) export v1 ;;\nesac", "export v1 dnl a note", "  export v1=e", "export CC CFLAGS LIBS LDFLAGS", "export v1 v1", "export PATH=$PATH:/opt/none",
    "v1=f v2=g\nexport v1 v2", "export v1=\"a$level\"b", "export V1_x=a\nv1=$V1_x", "export v1=a/$prefix", "export v1 || v2=none", "export LT_CURRENT=4\nv2=$LT_CURRENT",
)
READERS = ('v2="$v1"', "level=$v1", "v1=${v1}x", 'if test "$v1" = b; then\n  level=4\nfi', 'AC_MSG_NOTICE([v1 is $v1])', 'AC_DEFINE_UNQUOTED([{0}], ["$v1"], [a text])')

# ----------------------------------------------------------------------------------------------------------------------------- package

# Calls of AC_INIT that give no name and version which acrun can keep: the call, the further arguments, and the file that it names.
UNNAMED = {
    "AC_INIT": ("", ""), "AC_INIT()": ("", ""), "AC_INIT(configure.ac)": ("", "configure.ac"), "AC_INIT([configure.ac])": ("", "configure.ac"),
    "AC_INIT([src/values.in])": ("", "src/values.in"), "AC_INIT( configure.ac)": ("", "configure.ac"),
}
UNKEPT = {
    "AC_INIT([], [1.0])": ("", ""), "AC_INIT([fuzz], m4_esyscmd([printf 1.2]))": ("", ""),
    "AC_INIT([fuzz], m4_esyscmd([printf 1.2]), [bugs@x.org])": (", [bugs@x.org]", ""), "AC_INIT([fuzz], [m4_esyscmd([printf 3])])": ("", ""),
    "AC_INIT([fuzz], m4_esyscmd_s([echo 4]), [bugs@x.org], [fz-tar], [https://x.org/])": (", [bugs@x.org], [fz-tar], [https://x.org/]", ""),
}
KEPT = ("AC_INIT([fuzz], [1.0])", "AC_INIT(fuzz, 1.0)", "AC_INIT([fuzz], [1.0], [bugs@x.org], [fz-tar], [https://x.org/])", "AC_INIT([a fuzz], [1.0rc2])")
PACKAGES = ("greet,2.1", "the greeter,1.0-rc1", "greet+,7", "GNU greet,0.9~b1")
NAMES_OF_AUTOMAKE = (
    "AM_INIT_AUTOMAKE(greet, 1.0)", "AM_INIT_AUTOMAKE([greet], [1.0])", "AM_INIT_AUTOMAKE(greet-x,1.0rc1,no-define)", "AM_INIT_AUTOMAKE([greet.y], [2])",
)
AUTOMAKE = ("AM_INIT_AUTOMAKE", "AM_INIT_AUTOMAKE([foreign])", "AM_INIT_AUTOMAKE([foreign no-define])", "AM_INIT_AUTOMAKE([1.9 foreign])")
USES_OF_NAMES = (
    'v1="$PACKAGE_NAME-$PACKAGE_VERSION"', "v2=$PACKAGE", 'AC_DEFINE_UNQUOTED([{0}], ["$PACKAGE $VERSION"], [a text])', "AC_SUBST([PACKAGE_TARNAME])",
    "v1=$VERSION", 'AC_SUBST([{0}], ["$PACKAGE_STRING"])', 'if test "$PACKAGE" = greet; then\n  v1=named\nfi', "AC_MSG_NOTICE([this is $PACKAGE_STRING])",
    'AC_DEFINE_UNQUOTED([{0}], ["$PACKAGE_BUGREPORT"], [a text])', 'case "$VERSION" in\n  1*) v2=one ;;\n  *) v2=other ;;\nesac', 'v2="$docdir"',
)


def has_version(text, ported, call):
    """Returns whether the version of AC_INIT is a word of the source that `port` has written out, and that has a digit."""
    name = re.search(r", \[(\w+)\]\)$", call)
    word = name and re.search(rf"(?m)^(?:m4_)?define\(\[?{name[1]}\]?,\s*\[?([\w.-]+)", text)
    return not word or not re.search(rf"(?m)^(?:m4_)?define\(\[?{name[1]}\b", ported) and bool(re.search(r"\d", word[1]))


def named(text, ported, given):
    """Returns a source whose AC_INIT has the name and the version that `port --idioms` writes: those of Automake's macro if it names nothing, or
    otherwise those that are given, if it names nothing that acrun can keep. `ported` is what port writes."""
    first = re.search(r"(?m)^AC_INIT.*$", text)
    call = first[0] if first else ""
    by_automake = re.search(r"(?m)^ *AM_INIT_AUTOMAKE\(\[?([\w.+-]+)\]?, ?\[?([\w.+-]+)\]?[,)]", text)
    if call in UNNAMED and by_automake:
        given = by_automake.groups()
    if not given or call not in {**UNNAMED, **UNKEPT} and has_version(text, ported, call):
        return text
    rest, file = {**UNNAMED, **UNKEPT}.get(call, ("", ""))
    written = f"AC_INIT([{given[0]}], [{given[1]}]{rest})" + (f"\nAC_CONFIG_SRCDIR([{file}])" if file else "")
    return text.replace(call, written, 1)


# ------------------------------------------------------------------------------------------------------------------------------- flags

FLAG_VARIABLES = {"CFLAGS": ("-Wfz-a", "-ffz-b", "-Wall", "-O2"), "CPPFLAGS": ("-DFZ_X", "-I/opt/none", "-Wfz-c"), "LDFLAGS": ("-Wl,-z,fz", "-L/opt/none"), "LIBS": ("-lz", "-lm", "-lnone")}
# None is a variable of Autoconf's own checks, as OF_KEEPERS of tools/fuzz_exact.py asks.
KEEPERS = ("save_{0}", "saved_{0}", "OLD_{0}", "my_save_{0}", "{0}_save", "fz_{0}")
FLAG_STATEMENTS = (
    'CFLAGS="$CFLAGS -Wfz-a"', "CFLAGS=", 'LIBS="-lz $LIBS"', "LDFLAGS=-L/opt/none", 'CPPFLAGS="-DFZ_X ${CPPFLAGS}"', 'if test "$GCC" = yes; then\n  CFLAGS="$CFLAGS -Wfz-a"\nfi',
    'test "$GCC" = yes && CFLAGS="$CFLAGS -Wall"', 'if test "x$GCC" = "xyes"; then CFLAGS="$CFLAGS -Wall"; fi', 'case "$CFLAGS" in\n  *-g*) v1=debug ;;\n  *) v1=plain ;;\nesac',
    "CFLAGS=${CFLAGS:--O2}", 'AC_SUBST([FZ_CFLAGS], ["$CFLAGS -x"])', 'LIBS="$LIBS -lm" CFLAGS="-O1 $CFLAGS"', 'if test -z "$CFLAGS"; then\n  CFLAGS=-O3\nfi', "AC_SUBST(CFLAGS)", "AC_SUBST(LDFLAGS)",
    'if test "$ac_cv_c_compiler_gnu" = yes; then\n  v2=gnu\nfi', "FZ_LIBS=$LIBS\nAC_SUBST(FZ_LIBS)", 'LIBS="$LIBS "', ': ${CFLAGS="-O2"}', "CFLAGS=$CFLAGS\\ -Wall", 'if test "$ac_cv_prog_cc_g" = yes; then\n  v2=debug\nfi',
    'AS_IF([test "$GCC" = yes], [CFLAGS="$CFLAGS -Wall"], [v2=other])', 'test "${GCC}" = yes || v2=other',
)
ASKED = ("-Wfz-a", "-ffz-b", "-Wfz=2", "-Wfz-a -ffz-b", "[-Wfz,c]", "$fz_flag")
LINKED = ("-Wl,-z,fz", "[-Wl,-z,fz]", "-Wl,--fz=a", "$fz_flag")

# ------------------------------------------------------------------------------------------------------------------------- definitions

ONE_LINE = (
    'if test "$v1" = stop; then echo "it stops"; exit 1; fi', 'if test "$v1" = stop; then echo it stops; exit 2; else v2=b; fi', 'if test -n "$v2"; then echo "v2 is set"; fi',
    'if test -n "$v2"; then echo "v2 is $v2"; else echo "no v2"; fi', 'case "$v1" in stop) echo "it stops"; exit 2;; esac', "case $v1 in\n  yes) echo yes it is ;;\n  *) echo \"no\" ;;\nesac",
    "case $v1 in yes) v2=a; echo it ;; stop) exit 3;; esac", 'test "$v1" = stop && { echo it stops; exit 1; }', 'test "$v1" != stop || { echo "it stops" >&2; exit 1; }',
    'AS_IF([test "$v1" = stop], [echo it stops; exit 1])', 'if test "$v1" = stop; then exit 1; fi', 'echo "v1 is $v1"; v2=c', "v2=c; echo done", 'if test "$v1" = yes; then v2=yes; echo "both"; v1=no; fi',
    'if test "$v1" = stop; then AC_MSG_ERROR([it stops]); fi', 'if test "$v1" = stop; then echo; echo it stops; exit 1; fi', "case $v1 in stop) exit 1 ;; *) v2=$v1 ;; esac", 'if test "$v1" = stop; then exit 0; fi',
    'if test "$v1" = stop; then\n  echo "it stops"; exit 1\nfi', "if test \"$v1\" = stop; then echo 'it stops'; exit 1; elif test \"$v1\" = b; then echo b; fi", 'if test "$v2" = yes; then echo "a  b"; v1=c; fi # a note',
    'AC_ARG_ENABLE([fz], [do it], [if test "$enableval" = stop; then echo it stops; exit 1; fi])', "echo a b c; exit_now=no", "test -n \"$v2\" && echo v2 is set", 'if test "$v1" = stop; then echo "it\'s over"; exit 1; fi',
)
OWN_MACROS = (
    "[if test \"$v1\" = stop; then echo \"it stops\"; exit 1; fi]", "[\necho it is\n]", "[v1=a; echo done]", "[AC_DEFINE([{0}])]", "[\n  AC_MSG_RESULT([so])\n  v2=$1\n]",
    "[AC_REQUIRE([AC_PROG_CC])v2=cc]", "[case $v1 in stop) exit 1;; esac]", "[]", "v1=bare", "[AC_SUBST([{0}], [a])]",
)
OWN_WORDS = ("1.2", "3.4", "5", "[two words]", "[$v1]", "AC_DEFINE", "1-2")


# Texts that `port` leaves, so that acrun reads no source with them.
STAY = {
    "v1=b; export v1", "export v1=b v2=c", "LIBS=-lz; export LIBS", 'test -n "$v1" && export v1', "export v1 # a note", "export v1;", "{ export v1; }",
    'if test -n "$v2"; then export v1=d; fi', "export level=3 CFLAGS", "export v1=", "case $v2 in\n  yes) export v1 ;;\nesac", "export v1=\"a$level\"b", "export v1 || v2=none",
    ': ${CFLAGS="-O2"}', "$fz_flag", "-Wl,-z,fz", "-Wl,--fz=a", "$FZ_DIR:$PATH", "[/opt/a b:$PATH]", "[]", "[`echo /opt/none`:$PATH]", '["$PATH"]', "[$PATH$PATH_SEPARATOR/usr/sbin]",
    "[$v1]", "[a b]", "[$FZ_DIR/sed]", "[two words]", "AC_DEFINE", "v1=bare", "[\n  AC_MSG_RESULT([so])\n  v2=$1\n]", "[AC_REQUIRE([AC_PROG_CC])v2=cc]",
    "[if test \"$v1\" = stop; then echo \"it stops\"; exit 1; fi]", "[v1=a; echo done]", "[case $v1 in stop) exit 1;; esac]", *ONE_LINE,
    *(it for it in LAST_OF_PATHS if re.search("chmod|echo|^if|in:values", it)),
} - {'if test "$v1" = stop; then AC_MSG_ERROR([it stops]); fi', 'if test "$v1" = stop; then\n  echo "it stops"; exit 1\nfi'}
# Those that it leaves without --idioms too, as it leaves exports, lines of `echo`, paths, and macros of other projects.
LINES = ('if test "$v1" = stop; then\n  echo "it stops"; exit 1\nfi',)


class Forms:
    """What makes the statements of the five kinds. It is a part of the class that makes sources, and uses its functions. A source that is
    mild has only what `port` rewrites, so that acrun is run too."""

    def pick(self, texts):
        """Returns one of the texts, in a mild source one that is rewritten."""
        return self.one([it for it in texts if not self.is_mild or it not in STAY and (self.all_idioms or it not in LINES)])

    def with_forms(self, first, blocks, last):
        """Adds the statements of the kinds that the source has, and returns its last lines."""
        for kind in self.forms:
            last = getattr(self, f"with_{kind}")(first, blocks, last) or last
        return last

    def put(self, blocks, text, least=1):
        """Puts a statement among the others, sometimes into an `if`."""
        if self.has(0.15) and not re.search("A[CX]_(CONFIG|CHECK)", text) and "\n" not in text:
            around = ["if test -n \"$v1\"; then\n  {0}\nfi", "AS_IF([test \"$v2\" = x], [{0}], [level=5])"]
            around += ["if test \"$level\" = 3; then {0}; fi"] if re.match(r"[a-z]", text) and not re.search("[#;]", text) else []
            text = self.one(around).replace("{0}", text)
        blocks.insert(self.at.randint(min(least, len(blocks)), len(blocks)), text)

    def bracketed(self, text):
        return text if text.startswith(("[", "`")) or self.has(0.3) else f"[{text}]"

    def with_paths(self, first, blocks, last):
        """Adds searches in directories, and the directories and the files of the package."""
        for _ in range(self.at.randint(1, 3)):
            macro = self.one(SEARCHES if not self.is_mild or self.all_idioms else SEARCHES[:2])
            name, found = self.one(["FZ_TOOL", "FZ_PROG", "FZ_NM"]), self.at.sample(SEARCHED, self.at.randint(1, 3) if macro.endswith("S") else 1)
            arguments = [self.bracketed(name), self.bracketed(" ".join(found))]
            arguments += [self.one(["yes", "[it is]"])] if macro == "AC_CHECK_PROG" else []
            if self.has(0.7) and not (self.is_mild and macro == "AC_PATH_TOOL"):
                arguments.append(self.pick(OTHERWISE))
                has_path = self.has(0.7) and (not self.is_mild or self.all_idioms and macro in WITH_PATH)
                arguments += [self.pick(PATHS)] if has_path else []
            text = f"{macro}({self.one([', ', ',']).join(arguments)})"
            if "$fz_path" in text:
                blocks.insert(1, self.one(["fz_path=$PATH", 'fz_path="/opt/none:$PATH"', "fz_path=$FZ_DIR:/opt/x"]))
            self.put(blocks, text, 2)
            if self.has(0.4):
                self.put(blocks, self.one([f'if test -n "${name}"; then\n  v1="${name}"\nfi', f"v2=${name}", f'test "${name}" = no && v1=none']), 2)
        if self.has(0.5):
            blocks.insert(0, self.one(AUX))
            if self.has(0.4):
                self.put(blocks, self.one(["AC_PROG_INSTALL", "AC_CANONICAL_HOST" if self.all_idioms else "AC_PROG_INSTALL"]))
        if self.has(0.5):
            blocks.insert(self.at.randint(0, len(blocks)), self.one(SRCDIR))
        return self.pick(LAST_OF_PATHS)

    def with_exports(self, first, blocks, last):
        """Adds exports of variables, and what reads these."""
        for _ in range(self.at.randint(1, 4)):
            if not self.is_mild or self.all_idioms:
                self.put(blocks, self.pick(EXPORTS))
            if self.has(0.5):
                self.put(blocks, self.one(READERS).replace("{0}", self.fresh("D")))

    def with_package(self, first, blocks, last):
        """Gives AC_INIT other arguments, and adds the macro of Automake and what reads the names. The switches get a name and a version."""
        call = self.one([*UNNAMED, *UNNAMED, *UNKEPT, *KEPT] if not self.is_mild else [*UNNAMED, *KEPT, *(UNKEPT if self.all_idioms else ())])
        first[:] = [call if it.startswith("AC_INIT") else it for it in first]
        has_automake = self.has(0.5) and (not self.is_mild or self.all_idioms)
        if call in UNNAMED and has_automake:
            blocks.insert(self.at.choice((0, 0, 1)), self.one(NAMES_OF_AUTOMAKE))
        elif call in KEPT and has_automake:
            blocks.insert(self.at.choice((0, 0, 1)), self.one([*AUTOMAKE, *NAMES_OF_AUTOMAKE]))
        if self.all_idioms and (self.has(0.7) or self.is_mild and call in UNKEPT):
            self.switches = (*self.switches, f"--package={self.one(PACKAGES)}")
        for _ in range(self.at.randint(1, 3)):
            self.put(blocks, self.one(USES_OF_NAMES).replace("{0}", self.fresh("D")), 2)

    def with_flags(self, first, blocks, last):
        """Adds flags that are set, added, and kept around checks, and checks of flags."""
        for _ in range(self.at.randint(1, 3)):
            kind = self.at.randrange(3 if not self.is_mild or self.all_idioms else 2)
            if kind == 0:
                self.put(blocks, self.pick(FLAG_STATEMENTS))
            elif kind == 1:
                name = self.one([*FLAG_VARIABLES])
                keeper, flag = self.one(KEEPERS).format(name), self.one(FLAG_VARIABLES[name])
                quote = self.one(['"', ""])
                checks = "\n".join(self.check(1) for _ in range(self.at.randint(1, 2)))
                added = self.one([f'{name}="${name} {flag}"', f'{name}="{flag} ${name}"', f"{name}={flag}", f'{name}="${{{name}}} {flag} $v1"'])
                text = f"{keeper}={quote}${name}{quote}\n{added}\n{checks}\n{name}={quote}${keeper}{quote}"
                blocks.insert(self.at.randint(min(1, len(blocks)), len(blocks)), text)
            else:
                self.put(blocks, self.flag_check())
        if any("$fz_flag" in it for it in blocks):
            blocks.insert(1, "fz_flag=-Wfz-v")

    def flag_check(self):
        """Returns a check of a flag."""
        macro, flags, name = self.one([("AX_CHECK_COMPILE_FLAG", ASKED, "CFLAGS"), ("AX_CHECK_LINK_FLAG", LINKED, "LDFLAGS")])
        flag = self.pick(flags)
        plain = flag.strip("[]")
        actions = [f'[{name}="${name} {plain}"]', "[has_fz=yes]", "[has_fz=no]", f"[AC_MSG_WARN([no {plain}])]", "[]", "", "[:]", f'{name}="${name} {plain}"', "v1=flag",
                   f"[\n  has_fz=yes\n  {name}=\"{plain} ${name}\"\n]", f"[AC_DEFINE([{self.fresh('D')}], [1], [a text])]", "[if test -n \"$v1\"; then v2=b; fi]"]
        arguments = [self.bracketed(flag), *(self.one(actions) for _ in range(self.at.choice((0, 1, 1, 2, 2) if not self.is_mild else (1, 2))))]
        if len(arguments) == 3 and self.has(0.4):
            arguments.append(self.one(["[-Werror]", "-Wfz-d", "[-Werror -Wfz-d]"]))
        return f"{macro}({self.one([', ', ',']).join(arguments)})"

    def with_definitions(self, first, blocks, last):
        """Adds macros of the source, used and unused, words, and lines with `echo` and `exit` among other commands."""
        if self.has(0.5 if not self.is_mild else 0.2):
            self.with_macros(blocks)
        if self.has(0.4 if not self.is_mild else 0.2):
            self.with_words(first, blocks)
        for _ in range(self.at.randint(0, 2)):
            name = self.fresh("MY_O")
            macro = self.one(["AC_DEFUN", "AC_DEFUN", "m4_define", "AC_DEFUN_ONCE"] if not self.is_mild else ["AC_DEFUN"])
            place = self.at.randint(0, len(blocks))
            blocks.insert(place, f"{macro}([{name}],{self.one([' ', '', chr(10)])}{self.pick(OWN_MACROS).replace('{0}', self.fresh('D'))})")
            for _ in range(self.at.choice((0, 1, 1))):
                uses = [name, f"  {name}", f"{name} # a note", f"{name}()", f"{name}([a])", f"if test -n \"$v1\"; then {name}; fi"]
                blocks.insert(self.at.randint(place + 1, len(blocks)), self.one(uses[:3] if self.is_mild else uses))
        for _ in range(self.at.randint(0, 1)):
            name = self.fresh("fz_own")
            place = self.at.randint(0, len(blocks))
            blocks.insert(place, f"define({name}, {self.pick(OWN_WORDS)})")
            for _ in range(self.at.choice((0, 1, 2))):
                blocks.insert(self.at.randint(place + 1, len(blocks)), self.one([f"v1={name}", f'v2="a {name}"', f"AC_SUBST([{self.fresh('D')}], [{name}])", f"v2={name}-{name}"]))
        for _ in range(self.at.randint(1, 3)):
            self.put(blocks, self.pick(ONE_LINE))
