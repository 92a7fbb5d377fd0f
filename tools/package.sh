#!/bin/sh
# Makes an archive or a Debian package of out/acrun and out/acrun-tools, for machines without the toolchain.
#   package.sh dist [PROGRAM [DIRECTORY]]    out/acrun-VERSION-x86_64-linux.tar.gz
#   package.sh deb [PROGRAM [DIRECTORY]]     out/acrun_VERSION_amd64.deb
# Another program than out/acrun, with its acrun-tools beside it, and another directory than out, are for trials.
# The same commit, programs and tools of the machine give the same bytes, in any directory and at any time, whoever makes it and with any
# umask. The time of each file is that of the last commit, or SOURCE_DATE_EPOCH.
set -e
kind=$1
program=${2-out/acrun}
tools=$(dirname "$program")/acrun-tools
out=${3-out}
version=$(sed -n 's/^pub const VERSION: &str = "\(.*\)";$/\1/p' crates/cmd_help/src/texts.rt)
[ -n "$version" ] || { echo 'package.sh: crates/cmd_help/src/texts.rt names no version' >&2; exit 2; }
SOURCE_DATE_EPOCH=${SOURCE_DATE_EPOCH:-$(git log -1 --format=%ct 2> /dev/null || echo 0)}
export SOURCE_DATE_EPOCH
folder=$(mktemp -d)
trap 'rm -rf "$folder"' EXIT

# The oldest version of the C library that has all that the programs ask of it.
glibc() {
    LC_ALL=C objdump -T "$program" "$tools" | sed -n 's/.*GLIBC_\([0-9][0-9.]*\).*/\1/p' | sort -t. -k1,1n -k2,2n -k3,3n | tail -1
}

# The KiB that the package takes, whatever the file system: each file rounded up, and one for each directory.
installed_size() {
    find "$folder/usr" -printf '%y %s\n' | awk '{ sum += $1 == "f" ? int(($2 + 1023) / 1024) : 1 } END { print sum }'
}

# Gives all files below $folder one time, and the same modes under each umask.
settle_files() {
    chmod -R u+rwX,go+rX,go-w "$folder"
    find "$folder" -exec touch -h -d "@$SOURCE_DATE_EPOCH" {} +
}

make_dist() {
    name=acrun-$version-x86_64-linux
    MAKEFLAGS='' make -s install-files DESTDIR="$folder/" prefix="$name" program="$program"
    cp -R README.md CHANGELOG.md LICENSE docs "$folder/$name"
    {
        echo "acrun $version for x86_64 Linux"
        echo "Needs the C library: glibc $(glibc) or later."
        echo "Proved and built with: $(rt version 2> /dev/null | head -n 1)"
        echo
        echo 'Check the archive by the sum that was published with it, `sha256sum acrun-*.tar.gz`. To install, copy bin/ and share/ below'
        echo '/usr/local or another prefix: cp -R bin share /usr/local'
        echo 'lib/ has macros of rpm, which looks in /usr/lib/rpm/macros.d.'
    } > "$folder/$name/INSTALL"
    settle_files
    tar --sort=name --owner=0 --group=0 --numeric-owner --format=ustar -C "$folder" -cf - "$name" | gzip -9n > "$out/$name.tar.gz"
    sha256sum "$out/$name.tar.gz"
}

make_deb() {
    package=$out/acrun_${version}_amd64.deb
    share=$folder/usr/share
    MAKEFLAGS='' make -s install-files DESTDIR="$folder" prefix=/usr program="$program"
    mkdir -p "$share/perl5/Debian"
    cp -R share/debhelper "$share/perl5/Debian/Debhelper"
    strip --strip-unneeded --remove-section=.comment --remove-section=.note "$folder/usr/bin/acrun" "$folder/usr/bin/acrun-tools"
    mkdir -p "$share/doc/acrun" "$folder/DEBIAN"
    cp -R README.md CONTRIBUTING.md docs "$share/doc/acrun"
    cp LICENSE "$share/doc/acrun/copyright"
    cp CHANGELOG.md "$share/doc/acrun"
    {
        printf 'acrun (%s) unstable; urgency=medium\n\n  * CHANGELOG.md lists the changes.\n\n' "$version"
        printf ' -- %s  %s\n' "$(git log -1 --format='%an <%ae>')" "$(LC_ALL=C date -u -R -d "@$SOURCE_DATE_EPOCH")"
    } | gzip -9n > "$share/doc/acrun/changelog.gz"
    gzip -9n "$share"/man/man1/*.1
    cat > "$folder/DEBIAN/control" << END
Package: acrun
Version: $version
Section: devel
Priority: optional
Architecture: amd64
Depends: libc6 (>= $(glibc))
Provides: dh-sequence-acrun, dh-sequence-acrun-port
Enhances: debhelper
Installed-Size: $(installed_size)
Maintainer: $(git log -1 --format='%an <%ae>')
Description: proved configure engine that reads configure.ac itself
 acrun reads a configure.ac in the manner of GNU Autoconf, runs its checks
 with up to sixteen children at once, and makes Makefiles and config
 headers, with no shell script in between. A child that could not be run
 is never taken for "no", and a run that was cut is taken up again from
 its cache.
END
    (cd "$folder" && find usr -type f | LC_ALL=C sort | xargs -d '\n' md5sum) > "$folder/DEBIAN/md5sums"
    settle_files
    dpkg-deb --root-owner-group --build "$folder" "$package" > /dev/null
    sha256sum "$package"
}

case $kind in
dist) make_dist ;;
deb) make_deb ;;
*) echo 'package.sh: dist or deb' >&2; exit 2 ;;
esac
