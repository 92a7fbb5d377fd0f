#!/bin/sh
# Builds a package by rpmbuild with the macro %acrun_configure, and one that %acrun_port ports first.
#   run.sh PROGRAM
# The program and what `make install` puts beside it are in a directory of their own: nothing is installed. The package is examples/tally.
# If rpmbuild or a C compiler is missing, the script says so and ends with 77. It ends with 1 if something is otherwise than it should be.
set -u
program=$(realpath "$1") && top=$(realpath "$(dirname "$0")/../..") || exit 2
work=$(mktemp -d) || exit 2
trap 'rm -rf "$work"' EXIT
unset ACRUN ACRUN_WHY ACRUN_JOBS ACRUN_PROGRESS CC CFLAGS CPPFLAGS LDFLAGS LIBS MAKEFLAGS MFLAGS MAKELEVEL DEB_BUILD_OPTIONS RPM_BUILD_NCPUS
rows=0 failed=0

for tool in rpmbuild rpm make cc; do
    command -v "$tool" > /dev/null || { echo "rpm: skipped: there is no $tool"; exit 77; }
done

wrong() {
    echo "rpm: $1"
    failed=1
}

# has TEXT: a line of the log has it.
has() {
    rows=$((rows + 1))
    grep -qF -e "$1" "$work/log" || { wrong "the log has no: $1"; tail -n 15 "$work/log"; }
}

# spec: a package of examples/tally, whose script %build comes from standard input.
spec() {
    cat > "$work/tally.spec" << 'END'
Name: tally
Version: 1.0
Release: 1
Summary: Package that acrun configures
License: MIT
Source: tally.tar
%global debug_package %{nil}
%description
It tries a macro.
%prep
%setup -q -n tally
%build
END
    cat - "$work/rest" >> "$work/tally.spec"
}

# built WORD..: rpmbuild of the package, with these words for env. The status is that of rpmbuild.
built() {
    env "PATH=$work/root/usr/bin:$PATH" "$@" rpmbuild -bb --load "$macros" --define "_topdir $work/tree" --define "_sourcedir $work" \
        --define "_acrun_configure $work/root/usr/share/acrun/configure" --define "_acrun_port $work/root/usr/share/acrun/port" \
        "$work/tally.spec" > "$work/log" 2>&1
}

(cd "$top" && make -s install-files "DESTDIR=$work/root" prefix=/usr "program=$program") > "$work/log" 2>&1 || { cat "$work/log"; exit 1; }
macros=$work/root/usr/lib/rpm/macros.d/macros.acrun
rows=$((rows + 1))
case "$(rpm --eval '%{_rpmmacrodir}')" in /usr/lib/rpm/macros.d) ;; *) wrong "rpm of this machine looks in $(rpm --eval '%{_rpmmacrodir}')" ;; esac
mkdir "$work/tally" && (cd "$top/examples/tally" && cp -R . "$work/tally") || exit 2
tar -C "$work" -cf "$work/tally.tar" tally
cat > "$work/rest" << 'END'
%install
%make_install
%files
%{_prefix}
END

# In the source, with the flags of rpm, and then %%configure is what it was.
spec << 'END'
%acrun_configure --disable-option-checking VERSION_OF_NOTHING=1
%make_build
test "$(echo '%{_configure}')" = ./configure
END
built RPM_BUILD_NCPUS=3 || { wrong 'rpmbuild fails'; tail -n 15 "$work/log"; }
has 'acrun: child 1: '
has '--srcdir=. --disable-option-checking VERSION_OF_NOTHING=1'
rows=$((rows + 1))
[ -n "$(find "$work/tree" -name 'tally-1.0-1.*.rpm')" ] || wrong 'there is no package'
rows=$((rows + 1))
files=$(rpm -qpl "$work"/tree/RPMS/*/tally-1.0-1.*.rpm 2> "$work/row")
case $files in *'/usr/bin/tally'*) ;; *) wrong "the package has: $files" ;; esac

# In another directory
spec << 'END'
mkdir build
cd build
%acrun_configure --srcdir=..
test ! -e ../config.status
%make_build
END
sed -i 's/^%make_install/cd build\n%make_install/' "$work/tally.spec"
rm -rf "$work/tree"
rows=$((rows + 1))
built A=1 || { wrong 'rpmbuild fails in another directory'; tail -n 15 "$work/log"; }

# A configure that fails says why.
spec << 'END'
%acrun_configure
END
rm -rf "$work/tree"
! built CC=/nowhere/cc || wrong 'it is built without a compiler'
has ': /nowhere/cc: No such file or directory'

# A configure.in of the older kind, which is ported first. The version is that of the package, since a macro makes that of AC_INIT.
# shellcheck disable=SC2016
(cd "$work/tally" && sed -e 's/^AC_INIT(\[tally\], \[1.0\]/AC_INIT([tally], m4_esyscmd([cat VERSION])/' -e 's/AC_CONFIG_HEADERS(/AC_CONFIG_HEADER(/' \
    -e 's/^AC_OUTPUT$/if test "$enable_bars" = yes; then\n  AC_MSG_NOTICE([with bars])\nfi\n&/' configure.ac > configure.in && rm configure.ac) || exit 2
tar -C "$work" -cf "$work/tally.tar" tally
spec << 'END'
%acrun_port
test "$(stat -c %y configure.ac)" = "$(stat -c %y configure.in)"
%acrun_configure
%make_build
END
rm -rf "$work/tree"
rows=$((rows + 1))
built A=1 || { wrong 'rpmbuild fails with a configure.in'; tail -n 15 "$work/log"; }
has '+AC_INIT([tally], [1.0]'
has '+AC_CONFIG_HEADERS([config.h])'
has 'acrun: child 1: '
rows=$((rows + 1))
[ -n "$(find "$work/tree" -name 'tally-1.0-1.*.rpm')" ] || wrong 'there is no package of what was ported'

# A source in another directory, with a line that is left to do.
printf 'AM_PATH_NOTHING([1.0])\n' >> "$work/tally/configure.in"
sed -i '$!{/^AC_OUTPUT$/d}' "$work/tally/configure.in" && echo AC_OUTPUT >> "$work/tally/configure.in"
tar -C "$work" -cf "$work/tally.tar" tally
spec << 'END'
cd ..
%acrun_port tally
echo it went on
END
rm -rf "$work/tree"
rows=$((rows + 1))
! built A=1 || wrong 'rpmbuild goes on with a line that is left to do'
has 'acrun does not know the macro AM_PATH_NOTHING'
has 'acrun port: 1 line is left to do'
rows=$((rows + 1))
! grep -q '^it went on' "$work/log" || wrong 'the build goes on'
[ "$failed" = 0 ] && echo "rpm: $rows rows as they should be"
exit $failed
