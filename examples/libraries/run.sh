#!/bin/sh
# Looks for libraries with the program and a real compiler, and if GNU Autoconf is there, compares what is found with what the
# script that Autoconf makes finds: the definitions, LIBS, the values of the tests and the caches, each read by the other. Ends
# with 1 if anything is otherwise than it should be, and with 0 if there is no C compiler.
#   run.sh PROGRAM
set -u
acrun=$(realpath "$1") || exit 2
package=$(dirname "$(realpath "$0")")
if ! command -v cc > /dev/null; then
    echo "libraries: there is no cc, so none was looked for"
    exit 0
fi
work=$(mktemp -d) || exit 2
trap 'rm -rf "$work"' EXIT
unset CC CFLAGS CPPFLAGS LDFLAGS LIBS
wrong=0

# fail TEXT: reports what is wrong
fail() {
    wrong=1
    echo "libraries: $1"
}

# same FILE FILE: the files are equal
same() {
    cmp -s "$1" "$2" || fail "$1 is not as $2: $(cat "$1"); $(cat "$2")"
}

# values DIRECTORY: the values of the tests of libraries in its cache
values() {
    grep -E '^ac_cv_(lib|search)_' "$1/config.cache" | LC_ALL=C sort > "$1/values"
}

# A directory for each: the program's, and the script's.
for directory in ours theirs; do
    cp -R "$package" "$work/$directory" || exit 2
done

echo "--- libraries: looked for with a real compiler"
cd "$work/ours" || exit 2
"$acrun" configure -C CC=cc > said 2> errors || fail "the program ends with $?: $(cat errors)"
cat said
values .
grep -q 'strange: no$' found || fail "a function that is nowhere was found: $(cat found)"
grep -qx 'ac_cv_search_no_such_function=${ac_cv_search_no_such_function=no}' values || fail "no value of a search: $(cat values)"

if ! command -v autoconf > /dev/null; then
    echo "libraries: there is no autoconf to compare with"
    exit "$wrong"
fi

echo "--- libraries: beside the script that $(autoconf --version | head -n 1) makes"
cd "$work/theirs" || exit 2
autoconf > made 2>&1 && ./configure -C CC=cc > said 2>&1 || fail "the script fails: $(cat made said)"
values .
same values ../ours/values
same found ../ours/found
# The first line of a header is in this program's own words.
tail -n +2 config.h > defined
tail -n +2 ../ours/config.h > ../ours/defined
same defined ../ours/defined

echo "--- libraries: each reads the other's cache"
cp config.cache ../ours/other.cache
cp ../ours/config.cache other.cache
for run in "./configure:$work/theirs" "$acrun configure:$work/ours"; do
    cd "${run#*:}" || exit 2
    ${run%%:*} --cache-file=other.cache CC=cc > said 2>&1 || fail "'${run%%:*}' ends with $? over the other cache: $(cat said)"
    grep -E '^checking for .*( in -l|library containing )' said | grep -v '(cached)' && fail "'${run%%:*}' asks again"
    same found ../ours/found
done

if [ "$wrong" -eq 0 ]; then
    echo "libraries: as it should be"
fi
exit "$wrong"
