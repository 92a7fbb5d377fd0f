#!/bin/sh
# Builds packages of examples/ports by dpkg-buildpackage, with the build system and the add-on of debhelper that the package of acrun has.
#   run.sh PROGRAM [NAME..]
# It makes the package as `make deb` does, looks at it by lintian, and unpacks it in a directory of its own: nothing is installed. Each NAME,
# less and dtach if there is none, is built in its source and in another directory, by rules that say `dh $@ --with acrun` alone. Then
# `debian/rules clean` has to leave the source as it was. And each is built with a compiler that is not there, an error in its source, a
# template that is missing, and flags that no compiler takes: the log of the build has to say what is wrong.
# What is needed: debhelper 13, dpkg-dev, binutils, and what examples/ports/port.sh needs to fetch a package, but no Autoconf. If one is
# missing, it says so and ends with 77. It ends with 1 if something is otherwise than it should be.
set -u
program=$(realpath "$1") && top=$(realpath "$(dirname "$0")/../..") || exit 2
shift
[ $# -gt 0 ] || set -- less dtach
work=$(mktemp -d) || exit 2
trap 'rm -rf "$work"' EXIT
unset ACRUN ACRUN_WHY ACRUN_JOBS ACRUN_PROGRESS CC CFLAGS CPPFLAGS LDFLAGS LIBS MAKEFLAGS MFLAGS MAKELEVEL DH_VERBOSE DH_OPTIONS DEB_BUILD_OPTIONS
rows=0 failed=0

skip() {
    echo "debian: skipped: $1"
    exit 77
}

wrong() {
    echo "debian: $1"
    failed=1
}

# row WHAT SHELL-WORD..: the command succeeds.
row() {
    what=$1
    shift
    rows=$((rows + 1))
    "$@" > "$work/row" 2>&1 || { wrong "$what"; tail -n 15 "$work/row"; }
}

for tool in dh dpkg-buildpackage dpkg-deb objdump strip make cc; do
    command -v "$tool" > /dev/null || skip "there is no $tool"
done
[ "$(dpkg-query -W -f '${Version}' debhelper | cut -d . -f 1)" -ge 13 ] || skip 'debhelper is older than 13'

# The package of acrun.
(cd "$top" && sh tools/package.sh deb "$program" "$work") > "$work/made" 2>&1 || { cat "$work/made"; wrong 'there is no package of acrun'; exit 1; }
package=$(echo "$work"/acrun_*.deb)
if command -v lintian > /dev/null; then
    rows=$((rows + 1))
    lintian --no-cfg "$package" > "$work/tags" 2> /dev/null
    [ ! -s "$work/tags" ] || { wrong 'lintian has tags:'; cat "$work/tags"; }
else
    echo 'debian: there is no lintian, so the package is not looked at'
fi
mkdir "$work/root" && dpkg-deb -x "$package" "$work/root" || exit 2
PATH=$work/root/usr/bin:$PATH PERL5LIB=$work/root/usr/share/perl5
export PATH PERL5LIB
for kind in Buildsystem Sequence; do
    module=$PERL5LIB/Debian/Debhelper/$kind/acrun.pm
    row "perl refuses the $kind" perl -wc "$module"
    ! command -v podchecker > /dev/null || row "podchecker refuses the $kind" podchecker "$module"
done

# debian NAME DEPENDS: the files of a Debian package in the current directory, whose rules come from standard input.
debian() {
    mkdir -p debian/source
    echo '3.0 (native)' > debian/source/format
    printf '%s (1.0) unstable; urgency=medium\n\n  * Built with acrun.\n\n -- Nobody <nobody@example.org>  Thu, 01 Jan 2026 00:00:00 +0000\n' "$1" > debian/changelog
    cat > debian/control << END
Source: $1
Section: misc
Priority: optional
Maintainer: Nobody <nobody@example.org>
Build-Depends: debhelper-compat (= 13)$2
Standards-Version: 4.6.2
Rules-Requires-Root: no

Package: $1
Architecture: any
Depends: \${shlibs:Depends}, \${misc:Depends}
Description: package that acrun configures
 It tries the add-on of debhelper.
END
    { echo '#!/usr/bin/make -f'; cat; } > debian/rules
    chmod +x debian/rules
}

# built LOG WORD..: builds the package in the current directory, with these words for env. The status is that of dpkg-buildpackage.
built() {
    log=$1
    shift
    env "$@" dpkg-buildpackage -b -us -uc -d -j4 > "$log" 2>&1
}

# has TEXT: a line of the last log has it.
has() {
    rows=$((rows + 1))
    grep -qF -e "$1" "$log" || { wrong "$name: the log has no: $1"; tail -n 15 "$log"; }
}

# told PATTERN PATTERN: a line of the last log matches the first one, and one of the next two lines the second one.
told() {
    rows=$((rows + 1))
    grep -A2 -e "$1" "$log" | grep -q -e "$2" || { wrong "$name: the log has no: $1, and then: $2"; grep -n acrun: "$log" | tail -n 15; }
}

lacks() {
    rows=$((rows + 1))
    ! grep -qF -e "$1" "$log" || wrong "$name: the log has: $1"
}

# cleaned: debian/rules clean leaves what was there before the build, also if a run was ended.
cleaned() {
    if [ ! -d build ]; then touch acrun-1.tmp conftest.c conftest12 conftest12.o; fi
    rows=$((rows + 1))
    debian/rules clean > "$work/clean" 2>&1 || { wrong "$name: clean fails"; tail -n 5 "$work/clean"; }
    diff -r "$work/before" . > "$work/differences" || { wrong "$name: clean leaves another tree"; cat "$work/differences"; }
}

sh "$top/examples/ports/sources.sh" "$work/lists" || exit
for name; do
    PORTED=$work/ported sh "$top/examples/ports/port.sh" "$program" "$name" "$work/lists" || exit
    for where in '' '-B build'; do
        rm -rf "${work:?}/$name"
        cp -R "$work/ported" "$work/$name" && cd "$work/$name" || exit 2
        debian "$name" '' << END
%:
	dh \$@ --with acrun $where
END
        rm -rf "$work/before"
        cp -R . "$work/before"
        dh_auto_configure --list > "$work/list" 2>&1
        log=$work/list
        has 'acrun (configure.ac without a script)'
        debian/rules clean > /dev/null 2>&1
        if [ -z "$where" ]; then
            built "$work/log" A=1 || wrong "$name: dpkg-buildpackage fails"
            log=$work/log
            has 'make -j4'
            has 'acrun: child 1: '
            has "$work/root/usr/share/acrun/configure --build="
            lacks dh_autoreconf
            made=Makefile
        else
            built "$work/log" DEB_BUILD_OPTIONS=terse || wrong "$name: dpkg-buildpackage fails $where"
            lacks 'acrun: child 1: '
            made=build/Makefile
        fi
        row "$name: there is no $made" test -s "$made"
        row "$name: there is no package" test -s "../${name}_1.0_$(dpkg --print-architecture).deb"
        cleaned
        rm -f "$work/$name"_* "$work/$name"-dbgsym_*
    done
    # A configure that fails says why, and its log is printed.
    ! built "$work/log" CC=/nowhere/cc || wrong "$name: it is built without a compiler"
    has ': /nowhere/cc: No such file or directory'
    has '==> config.log <=='
    has 'start refused'
    cleaned
    # So does one whose source, templates or flags are wrong: each log has the error and, on the next line, what to do about it.
    sed 's/^AC_OUTPUT/AC_NOPE([x])\n&/' "$work/before/configure.ac" > configure.ac
    ! built "$work/log" A=1 || wrong "$name: it is built from a source with an error"
    told 'acrun: parse 2 at [0-9]*$' 'configure\.ac:[0-9]*:1: error: acrun does not know the macro AC_NOPE'
    cp "$work/before/configure.ac" .
    rm Makefile.in
    ! built "$work/log" A=1 || wrong "$name: it is built without a template"
    told 'acrun: template .*Makefile\.in$' 'Makefile\.in: No such file or directory'
    cp "$work/before/Makefile.in" .
    ! built "$work/log" DEB_CFLAGS_APPEND=-O99x || wrong "$name: it is built with wrong flags"
    has ' passed. The first, checking for '
    has '. Look at CC, CFLAGS, LDFLAGS and LIBS; '
    cleaned
    rm -rf "$work/ported"
done

# The dependency alone switches the add-on on. An override needs the option, and the error says so.
debian "$name" ', dh-sequence-acrun' << 'END'
%:
	dh $@
override_dh_auto_configure:
	dh_auto_configure -- --with-word=yes
END
rm -rf "$work/before"
cp -R . "$work/before"
! built "$work/log" A=1 || wrong "$name: it is built without being configured"
has 'give it --buildsystem=acrun'
cleaned
sed -i 's/dh_auto_configure --/dh_auto_configure --buildsystem=acrun --/' debian/rules
rm -rf "$work/before"
cp -R . "$work/before"
built "$work/log" A=1 || wrong "$name: dpkg-buildpackage fails with an override"
has '--srcdir=. --with-word=yes'
cleaned
# What the record names is removed also if the package has no rule that does it.
row "$name: dh_auto_configure fails" dh_auto_configure --buildsystem=acrun
row "$name: there is no Makefile" rm Makefile
cleaned
[ "$failed" = 0 ] && echo "debian: $rows rows as they should be, with $*"
exit $failed
