#!/bin/sh
# Builds packages whose configure.ac acrun doesn't support as it is by dpkg-buildpackage, with the add-on that ports it then.
#   port.sh PROGRAM
# It makes the package of acrun as `make deb` does, and unpacks it in a directory of its own: nothing is installed. The packages are made
# here, of one small source: as it is, in another directory, with a source in a directory whose name has a blank, with a configure.in, with
# links, built again without clean, killed at each step, changed between build and clean, not to be written, and with lines that port leaves.
# After each, `debian/rules clean` has to leave the tree as it was, with the times of its files, and nothing that was changed is lost.
# What is needed: debhelper 13, dpkg-dev, binutils, make and cc, but no network and no Autoconf. If one is missing, it says so and ends with
# 77. It ends with 1 if something is otherwise than it should be.
set -u
program=$(realpath "$1") && top=$(realpath "$(dirname "$0")/../..") || exit 2
work=$(mktemp -d) || exit 2
trap 'rm -rf "$work"' EXIT
unset ACRUN ACRUN_WHY ACRUN_JOBS ACRUN_PROGRESS CC CFLAGS CPPFLAGS LDFLAGS LIBS MAKEFLAGS MFLAGS MAKELEVEL DH_VERBOSE DH_OPTIONS DEB_BUILD_OPTIONS
rows=0 failed=0 name='' packed=yes log=$work/log

skip() {
    echo "debian: skipped: $1"
    exit 77
}

wrong() {
    echo "debian: $name: $1"
    failed=1
}

# row WHAT SHELL-WORD..: the command succeeds.
row() {
    what=$1
    shift
    rows=$((rows + 1))
    "$@" > "$work/row" 2>&1 || { wrong "$what"; tail -n 15 "$work/row"; }
}

for tool in dh dpkg-buildpackage dpkg-deb objdump strip make cc; do
    command -v "$tool" > /dev/null || skip "there is no $tool"
done
[ "$(dpkg-query -W -f '${Version}' debhelper | cut -d . -f 1)" -ge 13 ] || skip 'debhelper is older than 13'

(cd "$top" && sh tools/package.sh deb "$program" "$work") > "$work/made" 2>&1 || { cat "$work/made"; wrong 'there is no package of acrun'; exit 1; }
mkdir "$work/root" && dpkg-deb -x "$work"/acrun_*.deb "$work/root" || exit 2
# Another user has to reach the programs.
chmod 755 "$work"
PATH=$work/root/usr/bin:$PATH PERL5LIB=$work/root/usr/share/perl5
export PATH PERL5LIB
for kind in Buildsystem Sequence; do
    module=$PERL5LIB/Debian/Debhelper/$kind/acrun_port.pm
    row "perl refuses the $kind" perl -wc "$module"
    ! command -v podchecker > /dev/null || row "podchecker refuses the $kind" podchecker "$module"
done
# shellcheck disable=SC2016
row 'the package does not provide the add-on' sh -c 'dpkg-deb -f "$1"/acrun_*.deb Provides | grep -q dh-sequence-acrun-port' sh "$work"

# source_in DIRECTORY: the files of the small source in a directory, whose configure.ac comes from standard input. Its Makefile has the rules of a
# release that was made with Autoconf, and its configure is newer than the configure.ac.
source_in() {
    mkdir -p "$1"
    cat > "$1/configure.ac"
    cat > "$1/Makefile.in" << 'END'
CC = @CC@
CFLAGS = @CFLAGS@
prefix = @prefix@
exec_prefix = @exec_prefix@
srcdir = @srcdir@
VPATH = @srcdir@
all: $(srcdir)/configure greet
greet: greet.c
	$(CC) $(CFLAGS) -I. -o $@ $(srcdir)/greet.c
$(srcdir)/configure: $(srcdir)/configure.ac
	cd $(srcdir) && autoconf
install:
	mkdir -p "$(DESTDIR)@bindir@"
	cp greet "$(DESTDIR)@bindir@"
distclean:
	rm -f greet Makefile config.h
END
    printf '#include "config.h"\n#include <stdio.h>\nint main(void) { puts(PACKAGE_VERSION); return !HAVE_STDIO_H; }\n' > "$1/greet.c"
    printf '#undef HAVE_STDIO_H\n#undef PACKAGE_VERSION\n' > "$1/config.h.in"
    printf 'exit 1\n' > "$1/configure"
    touch -d '2001-02-03 04:05:06.123456789' "$1"/*
    touch -d '2001-02-03 04:05:06.123456999' "$1/configure"
}

# shellcheck disable=SC2016
old_text='AC_INIT(greet.c)
AC_CONFIG_HEADER(config.h)
AC_PROG_CC
AC_CHECK_HEADERS(stdio.h)
if test "$prefix" = /usr; then
  AC_MSG_NOTICE([it is for a distribution])
fi
AC_OUTPUT(Makefile)'

# package NAME [DIRECTORY [WORD]]: goes to a new package, with the text in $text as the configure.ac of DIRECTORY, and a word more for dh.
package() {
    name=$1
    rm -rf "$work/tree" "$work"/*_*.deb
    mkdir -p "$work/tree/debian/source" && cd "$work/tree" || exit 2
    printf '%s\n' "$text" | source_in "${2:-.}"
    echo '3.0 (native)' > debian/source/format
    printf 'greet (%s) unstable; urgency=medium\n\n  * Built with acrun.\n\n -- Nobody <nobody@example.org>  Thu, 01 Jan 2026 00:00:00 +0000\n' \
        "${version:-1.0}" > debian/changelog
    cat > debian/control << 'END'
Source: greet
Section: misc
Priority: optional
Maintainer: Nobody <nobody@example.org>
Build-Depends: debhelper-compat (= 13), dh-sequence-acrun-port
Standards-Version: 4.6.2
Rules-Requires-Root: no

Package: greet
Architecture: any
Depends: ${shlibs:Depends}, ${misc:Depends}
Description: package that acrun ports and configures
 It tries the add-on of debhelper.
END
    printf '#!/usr/bin/make -f\n%%:\n\tdh $@ %s\n' "${3-}" > debian/rules
    chmod +x debian/rules
    before
}

# before: keeps the tree as it is now.
before() {
    rm -rf "$work/before"
    cp -a . "$work/before"
    look > "$work/before.list"
}

# look: each file of the tree with its kind, mode, time and target.
look() {
    find . ! -type d -printf '%p %y %m %T@ %l\n' | LC_ALL=C sort
}

# built WORD..: builds the package, with these words for env, by the rule build alone unless a package is asked for. Stamps of an earlier build
# don't count.
built() {
    rm -f debian/debhelper-build-stamp debian/*.debhelper.log
    if [ -n "$packed" ]; then
        env "$@" dpkg-buildpackage -b -nc -us -uc -d -j2 > "$log" 2>&1
    else
        env "$@" debian/rules build > "$log" 2>&1
    fi
}

# configured WORD..: configures the package alone, with these words for env.
configured() {
    rm -f debian/*.debhelper.log
    env "$@" dh_auto_configure --buildsystem=acrun_port > "$log" 2>&1
}

has() {
    rows=$((rows + 1))
    grep -qF -e "$1" "$log" || { wrong "the log has no: $1"; tail -n 15 "$log"; }
}

lacks() {
    rows=$((rows + 1))
    ! grep -qF -e "$1" "$log" || wrong "the log has: $1"
}

# same: the tree is as it was before, but for what debhelper keeps below debian.
same() {
    rows=$((rows + 1))
    diff -r --no-dereference -x .debhelper -x '*debhelper*' -x files -x '*substvars' "$work/before" . > "$work/differences" 2>&1 &&
        look | grep -v '^\./debian/' > "$work/list" && grep -v '^\./debian/' "$work/before.list" | cmp -s - "$work/list" && return
    wrong "$1"
    cat "$work/differences"
    look | diff "$work/before.list" -
}

# cleaned: debian/rules clean leaves what was there before the build.
cleaned() {
    rows=$((rows + 1))
    debian/rules clean > "$work/clean" 2>&1 || { wrong 'clean fails'; tail -n 5 "$work/clean"; }
    diff -r --no-dereference "$work/before" . > "$work/differences" || { wrong 'clean leaves another tree'; cat "$work/differences"; }
    look | diff "$work/before.list" - > "$work/differences" || { wrong 'clean leaves other times, modes or links'; cat "$work/differences"; }
}

# made [DIRECTORY [BUILD]]: if one was asked for, the package is there. The configure.ac of the source is ported, with the time of the tree's
# own, and make would make nothing, or no more than the program if that was not built.
made() {
    [ -z "$packed" ] || row 'there is no package' test -s "../greet_$(dpkg-parsechangelog -S Version | sed 's/^[0-9]*://')_$(dpkg --print-architecture).deb"
    row 'configure.ac is not ported' grep -q '^AC_CONFIG_HEADERS(\[config.h\])' "${1:-.}/configure.ac"
    rows=$((rows + 1))
    [ "$(stat -L -c %y "${1:-.}/configure.ac")" = "$(stat -c %y "${1:-.}/greet.c")" ] || wrong 'configure.ac has another time'
    rows=$((rows + 1))
    make -n -C "${2:-${1:-.}}" > "$work/make" 2>&1
    if [ -e "${2:-${1:-.}}/greet" ]; then
        grep -q 'Nothing to be done' "$work/make" || { wrong 'make would make something'; cat "$work/make"; }
    else
        ! grep -q -e autoconf -e status "$work/make" || { wrong 'make would configure'; cat "$work/make"; }
    fi
}

# program_named NAME: a program of this name, whose text comes from standard input, in a directory that can be put into PATH.
program_named() {
    mkdir -p "$work/bin"
    { echo '#!/bin/sh'; cat; } > "$work/bin/$1"
    chmod +x "$work/bin/$1"
}

text=$old_text
package 'as it is'
built A=1 || { wrong 'the build fails'; tail -n 15 "$log"; }
made
has '-AC_INIT(greet.c)'
has '+AC_CONFIG_SRCDIR([greet.c])'
has '/usr/share/acrun/port -o debian/.debhelper/acrun-port/'
has 'acrun: child 1: '
lacks dh_autoreconf
lacks 'in place of AC_INIT'
cleaned
packed=''

package 'in another directory' . '-B build'
built A=1 || wrong 'the build fails'
made . build
cleaned

package 'a source in a directory with a blank' 'the source' '"--sourcedirectory=the source"'
built A=1 || { wrong 'the build fails'; tail -n 15 "$log"; }
made 'the source'
cleaned
package 'a source in a directory, built in another' 'the source' '"--sourcedirectory=the source" -B build'
built A=1 || wrong 'the build fails'
made 'the source' build
cleaned

# With a configure.in the configure.ac is made, and removed. The one that was changed stays.
package 'a configure.in'
mv configure.ac configure.in
before
built A=1 || { wrong 'the build fails'; tail -n 15 "$log"; }
made
has '+++ configure.ac'
cleaned
built A=1 || wrong 'the build fails'
echo 'dnl more' >> configure.ac
debian/rules clean > "$log" 2>&1
has 'configure.ac has changed since it was made, and is left'
row 'the changed file is lost' grep -q '^dnl more' configure.ac
rm configure.ac
same 'clean leaves another tree'

# A link is replaced, what it names stays as it is, and the link comes back.
for target in configure.in ../kept.ac; do
    package "a link to $target"
    mv configure.ac "$target"
    ln -s "$target" configure.ac
    before
    cp -a "$target" "$work/target"
    built A=1 || { wrong 'the build fails'; tail -n 15 "$log"; }
    made
    row 'the target was changed' cmp "$target" "$work/target"
    cleaned
    row 'the target was changed' cmp "$target" "$work/target"
done
package 'a link to nothing'
ln -sf nothing configure.ac
before
! built A=1 || wrong 'it is built'
has 'there is no file configure.ac and no configure.in in .'
cleaned

# A second build without clean ports the tree's own file again, by the templates of now. One that can't be ported leaves the tree's own.
package 'built twice without clean'
built A=1 || wrong 'the build fails'
built A=1 || wrong 'the build fails the second time'
made
has '-AC_INIT(greet.c)'
printf 'again:\n\t./config.status Makefile\n' >> Makefile.in
! built A=1 || wrong 'it is built with a rule that runs config.status'
has 'Makefile.in:18: this rule runs config.status'
row 'configure.ac is not the own one' cmp configure.ac "$work/before/configure.ac"
echo 'dnl a change of the user' >> configure.ac
cp -p "$work/before/Makefile.in" .
touch configure
before
built A=1 || { wrong 'the build fails after a change'; tail -n 15 "$log"; }
debian/rules clean > /dev/null 2>&1
row 'a change before the build is lost' grep -q '^dnl a change' configure.ac

# What is left to do ends the build, each line with its number and its words, and nothing is configured.
# shellcheck disable=SC2016
text='AC_INIT(greet.c)
AC_CONFIG_HEADER(config.h)
AC_PROG_CC
if test "$prefix" = /usr; then AC_MSG_NOTICE([it is for a distribution]); fi
AM_PATH_NOTHING([1.0])
AC_CHECK_HEADERS(stdio.h)
  release=`uname -r`
AC_SUBST(release)
AC_OUTPUT(Makefile)'
package 'lines that are left'
printf 'again:\n\t./config.status Makefile\n' >> Makefile.in
before
! built A=1 || wrong 'it is built'
has 'configure.ac:5: acrun does not know the macro AM_PATH_NOTHING'
has '    AM_PATH_NOTHING([1.0])'
has 'configure.ac:7: acrun does not run the command in backquotes'
# shellcheck disable=SC2016
has '    release=`uname -r`'
has 'acrun port: '
lacks 'acrun: child'
same 'the build has changed the tree'
cleaned
text=$(printf '%s\n' "$text" | sed '/PATH_NOTHING/d;/uname/d')
package 'a line of a template that is left'
printf 'again:\n\t./config.status Makefile\n' >> Makefile.in
before
! configured A=1 || wrong 'it is configured'
has 'Makefile.in:18: this rule runs config.status'
has 'acrun port: 1 line is left to do'
same 'the build has changed the tree'
cleaned
text='AC_INIT([greet], [1.0]
AC_OUTPUT(Makefile)'
package 'quotes that have an error'
! configured A=1 || wrong 'it is configured'
has 'it ends with 2, and configure.ac is not ported'
same 'the build has changed the tree'
cleaned

# The version comes from the changelog only if a command or a macro makes it.
for init in 'AC_INIT([Greet Me], m4_esyscmd([./version]))' 'AC_INIT([Greet Me], [GREET_VERSION], [me@example.org])' \
    'AC_INIT(GREET_NAME, GREET_VERSION)'; do
    text="$init
${old_text#*)?}"
    version=1:2.5+dfsg1-3 package "$init"
    configured A=1 || { wrong 'it is not configured'; tail -n 15 "$log"; }
    made
    row 'config.h has no version' grep -qxF '#define PACKAGE_VERSION "2.5"' config.h
    case $init in *GREET_NAME*) kept=greet ;; *) kept='Greet Me' ;; esac
    has "+AC_INIT([$kept], [2.5]"
    cleaned
done
text="AC_INIT([greet], [GREET_VERSION])
${old_text#*)?}"
package 'versions'
for pair in '3.0~rc1-1 3.0~rc1' '3.0+ds-1.1 3.0' '3.0 3.0' '3.0-beta-2 3.0-beta' '3.0+git1+ds.2-1 3.0+git1'; do
    sed "s/(1.0)/(${pair% *})/" "$work/before/debian/changelog" > debian/changelog
    configured A=1
    has "+AC_INIT([greet], [${pair#* }])"
done
cp -p "$work/before/debian/changelog" debian
cleaned

# A build that is killed: while port runs, before the file is written, while acrun configures, and while clean puts the file back.
text=$old_text
program_named acrun << END
case " \$* " in
*" \$KILLED_AT "*)
    process=\$PPID
    while [ "\$process" -gt 1 ]; do
        words=\$(tr '\\0' ' ' < "/proc/\$process/cmdline")
        above=\$(sed 's/.*) . //;s/ .*//' "/proc/\$process/stat")
        kill -KILL "\$process"
        case \$words in *dh_auto_configure*) exit 1 ;; esac
        process=\$above
    done ;;
esac
exec "$work/root/usr/bin/acrun" "\$@"
END
program_named touch << 'END'
[ "$KILLED_AT" != touch ] || [ "$1" != -r ] || { kill -KILL "$PPID"; exit 1; }
exec /usr/bin/touch "$@"
END
program_named cp << 'END'
case $KILLED_AT-$* in cp-*/back) kill -KILL "$PPID"; exit 1 ;; esac
exec /bin/cp "$@"
END
for pair in 'port own' 'touch own' 'configure own' 'touch made' 'touch link'; do
    step=${pair% *} kind=${pair#* }
    package "killed at $step, $kind"
    case $kind in
    made) mv configure.ac configure.in ;;
    link) mv configure.ac configure.in; ln -s configure.in configure.ac ;;
    esac
    before
    ! configured "KILLED_AT=$step" "PATH=$work/bin:$PATH" || wrong 'the build is not killed'
    [ "$step" = configure ] || same 'the tree is changed'
    cleaned
    ! configured "KILLED_AT=$step" "PATH=$work/bin:$PATH" || wrong 'the build is not killed'
    configured A=1 || { wrong 'it is not configured after it was killed'; tail -n 15 "$log"; }
    made
    [ "$kind" = made ] || ! env KILLED_AT=cp "PATH=$work/bin:$PATH" debian/rules clean > "$work/clean" 2>&1 || wrong 'clean is not killed'
    cleaned
done

# A file that is changed between build and clean: the tree's own comes back, and the other one stays beside it.
package 'changed between build and clean'
built A=1 || wrong 'the build fails'
echo 'dnl more' >> configure.ac
cp configure.ac "$work/changed"
! built A=1 || wrong 'it is built'
has 'configure.ac has changed since it was ported'
row 'the changed file is lost' cmp configure.ac "$work/changed"
debian/rules clean > "$log" 2>&1
has 'what it was is now configure.ac.acrun-changed'
row 'the changed file is lost' cmp configure.ac.acrun-changed "$work/changed"
built A=1 || wrong 'the build fails'
rm configure.ac
mkdir configure.ac
debian/rules clean > "$log" 2>&1
has 'what it was is now configure.ac.acrun-changed1'
rm -r configure.ac.acrun-changed configure.ac.acrun-changed1
same 'clean leaves another tree'
package 'removed between build and clean'
configured A=1 || wrong 'it is not configured'
rm configure.ac
cleaned
package 'the own file put back by hand'
configured A=1 || wrong 'it is not configured'
cp -p "$work/before/configure.ac" .
cleaned

# Rules that call dh_clean alone, as those of a package that was never moved to dh, or that override dh_auto_clean.
package 'dh_auto_clean is overridden'
printf 'override_dh_auto_clean:\n\trm -f greet Makefile config.h config.log config.status config.cache conftest*\n' >> debian/rules
before
built A=1 || wrong 'the build fails'
made
cleaned

# Both add-ons, in either order, and an override without the option.
for words in '--with acrun,acrun-port' '--with acrun-port,acrun' '--with acrun-port'; do
    package "$words" . "$words"
    sed -i 's/, dh-sequence-acrun-port//' debian/control
    before
    built A=1 || { wrong 'the build fails'; tail -n 15 "$log"; }
    made
    cleaned
done
package 'an override without the option'
printf 'override_dh_auto_configure:\n\tdh_auto_configure -- --disable-word\n' >> debian/rules
sed -i 's/^exit 1$/exit 0/' configure
before
! built A=1 || wrong 'it is built without being configured'
has 'give it --buildsystem=acrun_port'
cleaned
sed -i 's/dh_auto_configure --/dh_auto_configure --buildsystem=acrun_port --/' debian/rules
before
built A=1 || wrong 'the build fails with an override'
made
cleaned

# A source that acrun supports needs no other text, and one that this user can't write is left.
# shellcheck disable=SC2016
text='AC_INIT([greet], [1.0])
AC_CONFIG_HEADERS([config.h])
AC_PROG_CC
AS_IF([test -z "$CFLAGS"], [CFLAGS="-g -O2"])
AC_CHECK_HEADERS([stdio.h])
AC_CONFIG_FILES([Makefile])
AC_OUTPUT'
package 'nothing to port'
built A=1 || wrong 'the build fails'
made
row 'configure.ac is changed' cmp configure.ac "$work/before/configure.ac"
lacks '+++ '
cleaned
text=$old_text
package 'a source that cannot be written' src '--sourcedirectory=src -B build'
chmod a-w src
before
if [ "$(id -u)" = 0 ]; then
    command -v setpriv > /dev/null || skip 'there is no setpriv'
    chown -R nobody .
    run='setpriv --reuid nobody --clear-groups'
else
    run=''
fi
# shellcheck disable=SC2086
! $run dh_auto_configure --buildsystem=acrun_port --sourcedirectory=src -B build > "$log" 2>&1 || wrong 'it is configured'
has "src/configure.ac can't be written: Permission denied"
# shellcheck disable=SC2086
row 'dh_auto_clean fails' $run dh_auto_clean --buildsystem=acrun_port --sourcedirectory=src -B build
# shellcheck disable=SC2086
row 'dh_clean fails' $run dh_clean
row 'configure.ac is changed' cmp src/configure.ac "$work/before/src/configure.ac"
same 'clean leaves another tree'
chmod u+w src
[ "$failed" = 0 ] && echo "debian: $rows rows as they should be, with a configure.ac that is ported"
exit $failed
