#!/bin/sh
# Lints sources with mistakes, and compares what is printed with expected.txt. A line of sources.txt is a name and a text, with escapes
# as printf has them.
#   run.sh PROGRAM            compares
#   run.sh PROGRAM --write    writes expected.txt
set -e
acrun=$(realpath "$1")
here=$(realpath "$(dirname "$0")")
work=$(mktemp -d) || exit 2
trap 'rm -rf "$work"' EXIT
cd "$work"
while IFS= read -r row; do
    printf '%b' "${row#* }" > "${row%% *}.ac"
    printf '%s.ac\n' "${row%% *}" >> names
done < "$here/sources.txt"
{
    printf 'AC_INIT([x],[1])\nAS_IF([:], [\n'
    yes 'mkdir a-directory-whose-name-is-so-long-that-sixty-of-them-have-four-kilobytes' | head -n 60
    printf '])\nAC_OUTPUT\n'
} > messages-many.ac
{
    printf 'AC_INIT([x],[1])\n'
    yes 'AC_MSG_NOTICE([\`])' | head -n 1005
    printf 'AC_OUTPUT\n'
} > messages-all.ac
{
    "$acrun" lint $(cat names) || echo "status $?"
    for name in package headers templates rules; do
        cp -R "$here/$name" "$name"
        "$acrun" lint "$name" || echo "status $?"
    done
    "$acrun" lint --json macros-unknown.ac columns.ac characters.ac - < macro-misspelt.ac || echo "status $?"
    "$acrun" lint .//macro-misspelt.ac || echo "status $?"
    # Each of 300 words is read, and each of 60 errors within one call is found.
    "$acrun" lint $(yes without-findings.ac | head -n 299) messages-many.ac | grep -c '^messages-many.ac:' || true
    # Of 1,005 findings the first thousand are shown.
    "$acrun" lint messages-all.ac | tail -n 1
} > printed
if [ "$2" = --write ]; then
    cp printed "$here/expected.txt"
fi
diff "$here/expected.txt" printed
echo "lint: $(wc -l < names) sources, as expected"
