#!/bin/sh
# Gives hostile compilers, files and directories to the program, and looks at what it answers.
#   run.sh PROGRAM     each other script of this directory is one subject, and has 0 if the program holds, 77 if it can't be tried here
set -u
program=$(realpath "$1") here=$(realpath "$(dirname "$0")")
folder=$(mktemp -d) || exit 2
trap 'rm -rf "$folder"' EXIT
unset ACRUN_WHY ACRUN_PROGRESS ACRUN_KEEP CC CFLAGS CPPFLAGS LDFLAGS LIBS CPP
held=0 skipped=0 wrong=0
for script in "$here"/*.sh; do
    name=$(basename "$script" .sh)
    [ "$name" != run ] || continue
    mkdir "$folder/$name"
    (cd "$folder/$name" && sh "$script" "$program")
    case $? in
    0) held=$((held + 1)) ;;
    77) skipped=$((skipped + 1)) ;;
    *) wrong=$((wrong + 1)) ;;
    esac
done
[ "$wrong" = 0 ] && echo "hostile: $held subjects hold, $skipped skipped"
exit "$wrong"
