#!/bin/sh
# Installs the programs and what belongs to them into a directory of its own, compares the list of files with expected.txt, runs both
# programs there, and sees that `make uninstall` leaves no file. Then it installs acrun without acrun-tools.
#   run.sh PROGRAM [--write]
here=$(realpath "$(dirname "$0")") || exit 2
program=$(realpath "$1") || exit 2
root=$(mktemp -d) || exit 2
trap 'rm -rf "$root" "$root.found"' EXIT

call_make() { (cd "$here/../.." && MAKEFLAGS='' make -s "$@" "program=$program" "DESTDIR=$root" prefix=/opt/acrun) || exit 1; }

call_make install-files
(cd "$root" && find . -type f -printf '%M %p\n' | LC_ALL=C sort -k2) > "$root.found"
if [ "${2-}" = --write ]; then mv "$root.found" "$here/expected.txt"; exit; fi
diff "$here/expected.txt" "$root.found" || { echo 'install: other files are installed'; exit 1; }
"$root/opt/acrun/bin/acrun" --version > /dev/null || exit 1
printf 'AC_INIT([demo],[1.0])\nAC_OUTPUT\n' | "$root/opt/acrun/bin/acrun" lint - > /dev/null || exit 1
call_make uninstall
left=$(find "$root" -type f)
[ -z "$left" ] || { echo "install: make uninstall leaves $left"; exit 1; }
call_make install-files tools=
"$root/opt/acrun/bin/acrun" --version > /dev/null || exit 1
[ ! -e "$root/opt/acrun/bin/acrun-tools" ] || { echo 'install: acrun-tools is installed although it is not named'; exit 1; }
echo 'install: what is installed is there, and goes again'
