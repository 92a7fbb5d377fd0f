#!/bin/sh
# Proves the crates that programs stand on, and builds each program.
#   build.sh CRATE..     the program of a crate is out/CRATE, and that of acrun_tools is out/acrun-tools
# `rt ci` does both in a room, which is a repository under out/rooms with these crates alone, without their must-fail edits. It
# builds each library from its statements, so a crate above does not read the proofs below. out/build.log has all that it
# prints, and beside each program lies a checksum of what was proved: if nothing has changed since, this script leaves it as it is.
set -e
room=out/rooms/programs
log=$PWD/out/build.log

# Where the program of a crate is.
out() {
    case $1 in
    acrun_tools) echo out/acrun-tools ;;
    *) echo "out/$1" ;;
    esac
}

# The crates that programs stand on, lowest first, with their own.
below() {
    sed 's/#.*//; s/:/ /' crates.txt | awk -v programs="$*" '
    NF { name[++count] = $1; line[count] = $0 }
    END {
        n = split(programs, uses, " ")
        for (k = 1; k <= n; k++) needed[uses[k]]
        for (i = count; i > 0; i--) if (name[i] in needed) {
            n = split(line[i], uses, " ")
            for (k = 2; k <= n; k++) needed[uses[k]]
        }
        for (i = 1; i <= count; i++) if (name[i] in needed) print name[i]
    }'
}

# The checksum of what the room would hold for a program alone, with the version of the toolchain.
checksum() {
    {
        rt version
        cat HANDLES
        for crate in $(below "$1"); do
            grep "^$crate:" crates.txt
            for part in src specs proofs args data status stdin stdout; do
                [ ! -e "crates/$crate/$part" ] || find "crates/$crate/$part" -type f | LC_ALL=C sort
            done | xargs sha256sum
        done
    } | sha256sum
}

mkdir -p out
programs='' names=''
for program; do
    to=$(out "$program")
    if [ -x "$to" ] && [ "$(checksum "$program")" = "$(cat "$to.sum" 2> /dev/null)" ]; then
        echo "$to is up to date"
    else
        programs="$programs $program" names="${names:+$names and }$to"
    fi
done
[ -n "$programs" ] || exit 0
crates=$(below $programs)

rm -rf "$room"
mkdir -p "$room/crates"
for crate in $crates; do
    mkdir "$room/crates/$crate"
    for part in src specs proofs args data status stdin stdout; do
        [ ! -e "crates/$crate/$part" ] || cp -R "crates/$crate/$part" "$room/crates/$crate/"
    done
    grep "^$crate:" crates.txt >> "$room/crates.txt"
done
cp HANDLES "$room/"
git init -q "$room"
for program in $programs; do
    checksum "$program" > "$room/$program.sum"
done

# As many checks side by side as there are processors and memory.
: "${RT_JOBS:=$(python3 tools/machine.py jobs)}"
export RT_JOBS

began=$(date +%s)
count=$(echo "$crates" | wc -l)
echo "Proving $count crates, $RT_JOBS side by side, each as soon as those that it uses are proved, and then building $names."
{ (cd "$room" && rt ci) 2>&1 || echo "rt ci failed"; } | tee "$log" | awk -v count="$count" '
    /^rt: [a-z0-9_]+ proved$/ { proved++; print "proved " $2 "; " count - proved " of " count " crates are left"; fflush() }'
if [ "$(tail -n 1 "$log")" = "rt ci failed" ]; then
    tail -n 40 "$log"
    echo "$names: not built; out/build.log has all that rt ci says" >&2
    exit 1
fi
for program in $programs; do
    to=$(out "$program")
    cp "$room/crates/$program/out/$program" "$to"
    cp "$room/$program.sum" "$to.sum"
done
echo "built $names in $(($(date +%s) - began)) seconds"
