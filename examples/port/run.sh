#!/bin/sh
# Rewrites sources by `acrun port`, and compares what is printed with expected.txt; tools/try_port.py looks at each too. A line of
# sources.txt is a name and a text, with escapes as printf has them. Those of idioms.txt are rewritten by `acrun port --idioms`, and
# those of namings.txt by that with a name and a version. The packages of examples/built, and that of examples/lint/rules, have
# templates that want something.
#   run.sh PROGRAM            compares
#   run.sh PROGRAM --write    writes expected.txt
set -e
acrun=$(realpath "$1")
here=$(realpath "$(dirname "$0")")
work=$(mktemp -d) || exit 2
trap 'rm -rf "$work"' EXIT
cd "$work"
for rows in sources idioms namings; do
    while IFS= read -r row; do
        printf '%b' "${row#* }" > "${row%% *}.ac"
        printf '%s.ac\n' "${row%% *}" >> $rows
    done < "$here/$rows.txt"
done
mkdir src
for name in Makefile src/Makefile config.h a; do
    : > "$name.in"
done
cp -R "$here/../built" "$here/../lint/rules" .
{
    for name in $(cat sources); do
        printf '== %s\n' "$name"
        "$acrun" port "$name" 2>&1 || echo "== status $?"
    done
    for name in $(cat idioms); do
        printf '== %s --idioms\n' "$name"
        "$acrun" port --idioms "$name" 2>&1 || echo "== status $?"
    done
    for name in $(cat namings); do
        printf '== %s --package\n' "$name"
        "$acrun" port --idioms --package=pkg,3.1 "$name" 2>&1 || echo "== status $?"
    done
    # What the templates of packages want, and what is left to do in them.
    for name in rules built/shell built/directories built/suffixes built/flags built/objects built/definitions built/record built/automake; do
        for switch in '' --idioms; do
            printf '== %s %s\n' "$name" "$switch"
            "$acrun" port $switch "$name" 2>&1 || echo "== status $?"
        done
    done
    cp calls-old-names.ac configure.ac
    "$acrun" port > plain
    "$acrun" port . | cmp - plain
    "$acrun" port - < configure.ac | cmp - plain
    "$acrun" port nothing 2>&1 || echo "== status $?"
    "$acrun" port --json 2>&1 || echo "== status $?"
    "$acrun" port a b 2>&1 || echo "== status $?"
    "$acrun" port --idioms > all
    for words in '--idioms .' '. --idioms'; do
        "$acrun" port $words | cmp - all
    done
    "$acrun" port --idioms --package=a,1 > named
    for words in '--package=a,1 --idioms' '--package=a,1 --idioms .' '--idioms --package=a,1 .' '. --idioms --package=a,1'; do
        "$acrun" port $words | cmp - named
    done
    for words in '--idioms --idioms' '--idioms a b' '--json --idioms' '--idioms nothing' '--package=a,1' '--package=a,1 .' \
        '--idioms --package=a' '--idioms --package=a,' '--idioms --package=,1' '--idioms --package=a,1,2' '--idioms --package=[a],1' \
        '--idioms --package="a",1' '--idioms --package=a,$b' '--idioms --package=a,1 --package=a,1' '--idioms --package=a,1 . .'; do
        echo "== $words"
        "$acrun" port $words 2>&1 || echo "== status $?"
    done
} > printed
if [ "$2" = --write ]; then
    cp printed "$here/expected.txt"
fi
diff "$here/expected.txt" printed
python3 "$here/../../tools/try_port.py" "$acrun" $(cat sources) > tried || { cat tried; exit 1; }
python3 "$here/../../tools/try_port.py" "$acrun" -i $(cat sources idioms) > tried || { cat tried; exit 1; }
python3 "$here/../../tools/try_port.py" "$acrun" -p $(cat sources idioms namings) > tried || { cat tried; exit 1; }
sh "$here/files.sh" "$acrun"
echo "port: $(cat sources idioms namings | wc -l) sources, as expected"
