#!/bin/sh
# Builds packages of Debian with the add-on that ports their configure.ac then, beside builds with Autoconf.
#   unpatched.sh PROGRAM [NAME..]
# Each source is fetched, and nothing of it is changed but one line of debian/rules, two in bridge-utils, and one of debian/control. If the
# archive no longer has Debian's part of it, the files below debian are a few that are made here, the same for both builds. Both are built in
# the same directory by `dpkg-buildpackage -b`. The files of the packages have to be the same, byte for byte, and the outputs by
# share/acrun-compare, but for what is named below. `debian/rules clean` has to leave the source as it was, but for files that it removes from
# the source in the other build too.
# autoreconf of the other build makes no template of a header anew, so both builds have that of the archive.
# A package whose configure.ac can't be ported is built too: the build has to end, and the lines that are left to do are printed.
# What is needed: what examples/debian/run.sh needs, the network, APT with an archive of Debian 12, Autoconf 2.71 for the other build, and
# zlib1g-dev and flex. If something is missing, or if the archives have a package in another version alone, it says so and ends with 77. It
# ends with 1 if something is otherwise than it should be.
# If ROWS is set in the environment, it prints the rows of docs/ports.md too.
set -u
program=$(realpath "$1") && top=$(realpath "$(dirname "$0")/../..") || exit 2
shift
[ $# -gt 0 ] || set -- autossh bridge-utils doschk fdutils ffproxy hspell libcompface loadwatch pipemeter xtail
work=$(mktemp -d) || exit 2
trap 'rm -rf "$work"' EXIT
unset ACRUN ACRUN_WHY ACRUN_JOBS ACRUN_PROGRESS CC CFLAGS CPPFLAGS LDFLAGS LIBS MAKEFLAGS MFLAGS MAKELEVEL DH_VERBOSE DH_OPTIONS DEB_BUILD_OPTIONS
passed=0 skipped=0 failed=0

missing() {
    echo "unpatched: all are skipped: $1"
    exit 77
}

wrong() {
    echo "$name: $1"
    status=1
}

for tool in dh dpkg-buildpackage dpkg-deb objdump strip make cc apt-get; do
    command -v "$tool" > /dev/null || missing "there is no $tool"
done
autoconf --version 2> /dev/null | grep -q '^autoconf .* 2\.71$' || missing 'there is no Autoconf 2.71'
sh "$top/examples/ports/sources.sh" "$work/lists" || exit
(cd "$top" && sh tools/package.sh deb "$program" "$work") > "$work/made" 2>&1 || { cat "$work/made"; exit 1; }
mkdir "$work/root" "$work/none" && dpkg-deb -x "$work"/acrun_*.deb "$work/root" || exit 2
# With acrun there is no program of Autoconf.
for tool in autoconf autoreconf autoheader aclocal automake autom4te; do
    printf '#!/bin/sh\necho "%s was called" >&2\nexit 1\n' "$tool" > "$work/none/$tool" && chmod +x "$work/none/$tool" || exit 2
done

acrun_path=$work/none:$work/root/usr/bin:$PATH

# settings: the version and the SHA-256 of the archive, the edit of debian/rules, and how many of its lines that changes.
settings() {
    version='' sum='' rules='s/^\tdh  *\$@ *\(.*\)$/\tdh $@ --buildsystem=acrun_port \1/' lines=1
    case $name in
    autossh) version=1.4g sum=5fc3cee3361ca1615af862364c480593171d0c54ec156de79fc421e31ae21277 ;;
    bridge-utils)
        version=1.7.1 sum=a61d8be4f1a1405c60c8ef38d544f0c18c05b33b9b07e5b4b31033536165e60e lines=2
        rules='s/^\t\.\/configure --host=[^ ]* --build=[^ ]* --prefix=[^ ]*\(.*\)$/\tdh_auto_configure --buildsystem=acrun_port --\1/;/^\tautoconf$/d' ;;
    doschk) version=1.1 sum=ea29748a48a3d8433a2f29059e3a760354a13e01d7a3f00237c5bd9e980c9f38 ;;
    fdutils) version=5.6 sum=e59b04f35a2eb78c87e6638c81bc7ddd17ad7f00c13c9eef1bbb3cc48a8fba7a ;;
    ffproxy) version=1.6 sum=f6bf4ba95e4b0a049e0dbae8b36728e95ad24c0413a772c89b4628730be5be09 ;;
    hspell) version=1.4 sum=7310f5d58740d21d6d215c1179658602ef7da97a816bc1497c8764be97aabea3 ;;
    libcompface) version=1.5.2 sum=501c28708c15f6edd1697b8be1f08ae4490d8b35216176525342b2e0621b5982 rules='' ;;
    loadwatch) version=1.0+1.1alpha1 sum=2a2044346ed980b4eed971494e7a9c088e8473daf0f153db8e4469e2d9a072a9 ;;
    pipemeter) version=1.1.5 sum=e470ac5f3e71b5eee1a925d7174a6fa8f0753f2107e067fbca3f383fab2e87d8 ;;
    xtail) version=2.1 sum=75184926dffd89e9405769b24f01c8ed3b25d3c4a8eac60271fc5bb11f6c2d53 ;;
    *) missing "there is no package $name here" ;;
    esac
}

# Which files of the packages may differ, and why.
known_files() {
    case $name in
    # port defines _FILE_OFFSET_BITS where Autoconf asks whether it is needed, so the program calls fopen64 and not fopen.
    pipemeter) echo pipemeter/usr/bin/pipemeter ;;
    esac
}

# shellcheck disable=SC2016
# What may differ between the outputs, in the form that acrun-compare reads, and why.
known() {
    case $name in
    bridge-utils)
        echo '# Its rules have --host, by which Autoconf looks for tools of that name, and no --libdir, which dh_auto_configure has.'
        echo '*Makefile: variable CC: x86_64-linux-gnu-gcc -> gcc'
        echo '*Makefile: variable RANLIB: x86_64-linux-gnu-ranlib -> ranlib'
        echo '*Makefile: variable libdir: ${exec_prefix}/lib -> ${prefix}/lib/x86_64-linux-gnu' ;;
    ffproxy)
        echo '# Autoconf takes a shell that it finds, and acrun /bin/sh.'
        echo 'Makefile: variable SHELL: /bin/bash -> /bin/sh' ;;
    esac
}

# Fetches the source into the directory source: with Debian's part, if the archive has it, and otherwise with files that are made here. The
# variable part says which. Ends with 77 if the archive of the release is not there.
fetch() {
    part="Debian's"
    apt-cache -c "$work/lists/apt.conf" showsrc --only-source "$name" > "$work/known" 2> "$work/fetch.out"
    found=$(awk -v sum="$sum" 'BEGIN { RS = ""; FS = "\n" } index($0, sum) { for (i = 1; i <= NF; i++) if ($i ~ /^Version: /) { print substr($i, 10); exit } }' "$work/known")
    [ -n "$found" ] || { echo "$name: skipped: no archive has the sum $sum"; return 77; }
    apt-get -c "$work/lists/apt.conf" -q source "$name=$found" >> "$work/fetch.out" 2>&1 && mv "$name-$version" source && return
    part='made here'
    apt-get -c "$work/lists/apt.conf" -q source --download-only --tar-only "$name=$found" >> "$work/fetch.out" 2>&1
    set -- "${name}_$version".orig.tar.*
    [ "$(sha256sum < "$1" | cut -d ' ' -f 1)" = "$sum" ] || { tail -n 3 "$work/fetch.out"; echo "$name: skipped: APT can't fetch it"; return 77; }
    mkdir source && tar xf "$1" -C source --strip-components=1 && mkdir -p source/debian/source || exit 2
    echo '3.0 (quilt)' > source/debian/source/format
    printf '%s (%s) unstable; urgency=medium\n\n  * Built twice.\n\n -- Nobody <nobody@example.org>  Thu, 01 Jan 2026 00:00:00 +0000\n' \
        "$name" "$found" > source/debian/changelog
    cat > source/debian/control << END
Source: $name
Section: misc
Priority: optional
Maintainer: Nobody <nobody@example.org>
Build-Depends: debhelper-compat (= 13)
Standards-Version: 4.6.2
Rules-Requires-Root: no

Package: $name
Architecture: any
Depends: \${shlibs:Depends}, \${misc:Depends}
Description: package that is built twice
 It is built with Autoconf, and with acrun.
END
    # shellcheck disable=SC2016
    printf '#!/usr/bin/make -f\n%%:\n\tdh $@\n' > source/debian/rules
    # Some makefiles know no DESTDIR, or want a directory to be there.
    case $name in
    autossh) printf 'override_dh_auto_install:\n\tmkdir -p debian/autossh/usr/share/doc/autossh\n\tdh_auto_install\n' ;;
    fdutils)
        printf 'override_dh_auto_install:\n\tmkdir -p debian/fdutils/etc\n\tdh_auto_install -- %s %s\n' \
            "prefix=\$(CURDIR)/debian/fdutils/usr" "sysconfdir=\$(CURDIR)/debian/fdutils/etc" ;;
    loadwatch) printf 'override_dh_auto_install:\n\tdh_auto_install -- %s\n' "prefix=\$(CURDIR)/debian/loadwatch/usr" ;;
    esac >> source/debian/rules
    chmod +x source/debian/rules
}

# built LOG PATH: builds the package in the current directory.
built() {
    env AUTOHEADER=true PATH="$2" PERL5LIB="$work/root/usr/share/perl5" dpkg-buildpackage -b -us -uc -d -j4 > "$1" 2>&1
}

# contents DIRECTORY: unpacks each package beside the source into the directory, but those of debugging symbols.
contents() {
    for package in ../*.deb; do
        case $package in *-dbgsym_*) continue ;; esac
        base=${package##*/}
        dpkg-deb -R "$package" "$1/${base%%_*}"
    done
    rm -f ../*.deb ../*.changes ../*.buildinfo
}

# edit: the lines of debian that are changed. The variable edited says how many lines are new or gone.
edit() {
    cp -a debian "$work/debian"
    sed -i "$rules" debian/rules
    sed -i '0,/^Build-Depends:/s/^Build-Depends:/& dh-sequence-acrun-port,/' debian/control
    edited=$(diff -r "$work/debian" debian | grep -c '^>')
    gone=$(diff -r "$work/debian" debian | grep -c '^<')
    rm -r "$work/debian"
    [ "$edited-$gone" = "2-$((lines + 1))" ] || wrong "$edited lines are new, and $gone are gone"
}

# one: builds the package of $name with acrun, and then with Autoconf, in the same directory, and compares.
one() {
    status=0
    settings
    rm -rf "$work/at" "$work/ours" "$work/files" "$work/before" && mkdir -p "$work/at" "$work/files/theirs" "$work/files/ours" && cd "$work/at" || exit 2
    fetch || return 77
    cp -a source "$work/at/untouched"
    cd source || exit 2
    # Rules that never call configure need no port, so the script of the add-on alone is run.
    if [ -z "$rules" ]; then
        ! PATH=$work/root/usr/bin:$PATH "$work/root/usr/share/acrun/port" -o "$work/ported" "$name" "$version" > "$work/log" 2>&1 || wrong 'it is ported'
        echo "$name $version: debian/rules doesn't configure it, and these lines are left to do:"
        sed -n '/^[^ ]*:[0-9]*: /p' "$work/log"
        return $status
    fi
    edit
    cp -a . "$work/before"
    if ! built "$work/log" "$acrun_path"; then
        if ! grep -q '^acrun port: .* left to do$' "$work/log"; then
            cp "$work/log" "$work/log.ours"
            cd .. && rm -rf source && cp -a untouched source && cd source || exit 2
            built "$work/log" "$PATH" || { grep -m 3 'error: ' "$work/log"; echo "$name: skipped: it can't be built with Autoconf here either"; return 77; }
            wrong 'the build fails, and that with Autoconf does not'
            tail -n 15 "$work/log.ours"
            return 1
        fi
        ! grep -q '^acrun: child' "$work/log" || wrong 'it is configured'
        echo "$name $version: the build ends, since these lines are left to do:"
        sed -n '/^[^ ]*:[0-9]*: /p' "$work/log"
        clean "$acrun_path"
        mv "$work/cleaned" "$work/cleaned.ours" && : > "$work/cleaned.theirs"
        tree
        return $status
    fi
    ported=$(sed -n '/^--- /,/^	/p' "$work/log" | sed '1,2d' | grep -v '^+dnl acrun: ' | grep -c '^[-+]')
    contents "$work/files/ours"
    cp -a . "$work/ours"
    clean "$acrun_path"
    mv "$work/cleaned" "$work/cleaned.ours"
    cd .. && rm -rf source && cp -a untouched source && cd source || exit 2
    built "$work/log" "$PATH" || { tail -n 15 "$work/log"; wrong "it can't be built with Autoconf"; return 1; }
    contents "$work/files/theirs"
    compare
    rm -rf "$work/before"
    cp -a "$work/at/untouched" "$work/before"
    clean "$PATH"
    mv "$work/cleaned" "$work/cleaned.theirs"
    tree
    [ "$status" = 0 ] && echo "$name $version: $same of $files files of its packages are the same, and what is not is named"
    [ -z "${ROWS-}" ] || echo "| $name $version | $part | $lines | $ported | $files | $same |"
    return $status
}

# Compares the packages file by file, but for the list of the sums, and the outputs and answers of both runs.
compare() {
    files=$(cd "$work/files/theirs" && find . ! -type d ! -path '*/DEBIAN/md5sums' | wc -l)
    diff -rq --no-dereference -x md5sums "$work/files/theirs" "$work/files/ours" | sed "s,$work/files/,,g" > "$work/differences"
    same=$((files - $(wc -l < "$work/differences")))
    sed 's,^Files theirs/\(.*\) and .* differ$,\1,' "$work/differences" > "$work/differ"
    known_files | cmp -s - "$work/differ" || { wrong "of $files files of the packages these differ:"; cat "$work/differences"; }
    known > "$work/known"
    sh "$top/share/acrun-compare" -k -x "$work/known" . "$work/ours" > "$work/compared" 2>&1 || { wrong 'outputs differ:'; cat "$work/compared"; }
}

# clean PATH: cleans the source, and keeps in $work/cleaned in what it differs then from what it was.
clean() {
    env PATH="$1" PERL5LIB="$work/root/usr/share/perl5" debian/rules clean > "$work/clean" 2>&1 || { wrong 'clean fails'; tail -n 5 "$work/clean"; }
    diff -r --no-dereference "$work/before" . > "$work/cleaned"
}

# tree: the source is what it was, but for the files that $work/cleaned.theirs has not either.
tree() {
    grep '^Only in .*/before' "$work/cleaned.theirs" | grep -vxF -f - "$work/cleaned.ours" > "$work/differences"
    [ -s "$work/cleaned.theirs" ] || cp "$work/cleaned.ours" "$work/differences"
    [ ! -s "$work/differences" ] || { wrong 'clean leaves another tree:'; head -n 20 "$work/differences"; }
}

for name; do
    one
    case $? in
    0) passed=$((passed + 1)) ;;
    77) skipped=$((skipped + 1)) ;;
    *) failed=$((failed + 1)) ;;
    esac
done
echo "unpatched: $passed passed, $skipped skipped, $failed failed"
[ "$failed" = 0 ] || exit 1
[ "$skipped" = 0 ] || exit 77
