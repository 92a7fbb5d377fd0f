#!/bin/sh
# Runs the program on an example: its configure.ac, a line `%%`, and its one template.
#   run.sh PROGRAM DIRECTORY
set -e
acrun=$(realpath "$1")
cd "$2"
set -- *.in
input=$(mktemp) || exit 2
trap 'rm -f "$input"' EXIT
{ cat configure.ac; echo '%%'; cat "$1"; } > "$input"
echo "--- input: configure.ac, a line %%, $1"
cat "$input"
echo "--- output: ${1%.in}"
"$acrun" < "$input"
