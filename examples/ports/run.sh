#!/bin/sh
# Moves packages of Debian over to acrun, one after the other: see port.sh.
#   run.sh PROGRAM [NAME..]
# Needs the network. A package that can't be tried on this machine is skipped, and the script says why: it then ends with 77. It ends with
# 1 if something is otherwise than it should be.
set -u
here=$(dirname "$0")
program=$1
shift
[ $# -gt 0 ] || set -- units pwgen less pv liblockfile dtach hexedit catdoc bridge-utils mtools
lists=$(mktemp -d) || exit 2
trap 'rm -rf "$lists"' EXIT
sh "$here/sources.sh" "$lists" || exit
passed=0 skipped=0 failed=0
for name; do
    sh "$here/port.sh" "$program" "$name" "$lists"
    case $? in
    0) passed=$((passed + 1)) ;;
    77) skipped=$((skipped + 1)) ;;
    *) failed=$((failed + 1)) ;;
    esac
done
echo "ports: $passed passed, $skipped skipped, $failed failed"
[ "$failed" = 0 ] || exit 1
[ "$skipped" = 0 ] || exit 77
