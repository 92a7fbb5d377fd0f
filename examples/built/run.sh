#!/bin/sh
# Ports small packages whose Makefile.in is the one that was written for Autoconf, then configures, builds and installs each, and
# compares what is installed, and what it prints, with what Autoconf's tree installs, if Autoconf is here. In the file `statuses` are
# the exit statuses of `acrun port --idioms`: 0 if the package then builds as it is, and 1 if its template is left to do, which
# by-hand.sh of the package then does. What is left is in expected.txt. Without a compiler or make it is skipped.
#   run.sh PROGRAM            compares
#   run.sh PROGRAM --write    writes expected.txt
set -e
acrun=$(realpath "$1")
here=$(realpath "$(dirname "$0")")
for tool in cc make; do
    command -v $tool > /dev/null || { echo "examples/built: skipped, there is no $tool"; exit 0; }
done
work=$(mktemp -d) || exit 2
trap 'rm -rf "$work"' EXIT
fail() { echo "examples/built: $*"; exit 1; }
fresh() {
    mkdir -p "$2"
    cp "$here/$1"/* "$here/hello.c" "$here/hello.1" "$2"
    cd "$2"
    touch configure
}
built() {
    make > made 2>&1 || { cat made; fail "$1: make failed"; }
    make install DESTDIR="$PWD/root" > made 2>&1 || { cat made; fail "$1: make install failed"; }
    find root -type f | sort > ../$1.$2.files
    root/usr/bin/hello > ../$1.$2.printed
}
while read -r name status; do
    fresh "$name" "$work/$name/ours"
    ended=0
    "$acrun" port --idioms > new || ended=$?
    [ $ended = "$status" ] || { cat new; fail "$name: port ended with $ended"; }
    printf '== %s\n' "$name" >> "$work/printed"
    grep '^dnl acrun: ' new | grep -v '^dnl acrun: in place of' >> "$work/printed" || true
    mv new configure.ac
    [ "$status" = 0 ] || { [ -s by-hand.sh ] && sh ./by-hand.sh "$acrun"; }
    "$acrun" configure --prefix=/usr > said 2>&1 || { cat said; fail "$name: configure failed"; }
    built "$name" ours
    if command -v autoconf > /dev/null && [ "$name" != automake ]; then
        fresh "$name" "$work/$name/theirs"
        rm configure
        autoconf > said 2>&1 || { cat said; fail "$name: autoconf failed"; }
        ./configure --prefix=/usr > said 2>&1 || { cat said; fail "$name: Autoconf's configure failed"; }
        built "$name" theirs
        cmp ../$name.ours.files ../$name.theirs.files || fail "$name: other files are installed"
        cmp ../$name.ours.printed ../$name.theirs.printed || fail "$name: another text is printed"
    fi
done < "$here/statuses"
if [ "$2" = --write ]; then
    cp "$work/printed" "$here/expected.txt"
fi
diff "$here/expected.txt" "$work/printed"
