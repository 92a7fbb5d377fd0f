#!/bin/sh
# Runs acrun before any proof, in two cases: it configures examples/tally with the compiler of this machine, and fills the template of
# examples/filter. Ends with 1 if a case doesn't end as it should.
work=$(mktemp -d) || exit 2
trap 'rm -rf "$work"' EXIT
mkdir "$work/cases" || exit 2
tally=$PWD/examples/tally

# A case is a file of standard input, and a file of arguments. Programs have no environment in it, so PATH is given.
: > "$work/cases/1-tally"
printf '%s\n' -j4 configure 'CC=env PATH=/usr/bin:/bin cc' PATH=/usr/bin:/bin > "$work/cases/1-tally.args"
{ cat examples/filter/configure.ac; echo '%%'; cat examples/filter/out.in; } > "$work/cases/2-filter"

# printed CASE: what acrun printed in a case
printed() {
    awk -v name="$1" '/^== / { shown = $2 == name; next } shown' "$work/output"
}

echo 'Nothing is proved here: `rt try` compiles acrun from its sources, with checks that stop it at an index out of bounds,'
echo 'an overflow or a bad access. This takes some three minutes, and the output comes at their end.'
[ -x /usr/bin/cc ] || [ -x /bin/cc ] || { echo 'try.sh: there is no compiler cc in /usr/bin or /bin' >&2; exit 2; }
cd crates/acrun || exit 2
rt try --seconds 150 --cases "$work/cases" --data configure.ac="$tally/configure.ac" --data Makefile.in="$tally/Makefile.in" \
    --data config.h.in="$tally/config.h.in" --data doc/tally.1.in="$tally/doc/tally.1.in" > "$work/output" 2> "$work/report"
for name in 1-tally 2-filter; do
    grep -q "^case=$name run=ended status=0 " "$work/report" || { cat "$work/output" "$work/report" >&2; exit 1; }
done

echo
echo "--- acrun -j4 configure, in a copy of examples/tally, with $(/usr/bin/env PATH=/usr/bin:/bin cc --version | head -n 1)"
printed 1-tally
echo
echo '--- acrun as a filter: its input, from examples/filter'
cat "$work/cases/2-filter"
echo '--- its output'
printed 2-filter
echo
echo 'The files that it created for tally are gone with the directory that `rt try` runs it in. `make demo` shows them in use: it builds'
echo 'tally with them, and tests it. Next: `make` proves acrun and acrun-tools, and builds them.'
