#!/bin/sh
# Starts the program where there is no /dev/null, which each of its children opens: it says so. It is skipped unless root runs it,
# and the program starts in a directory that has its libraries alone.
#   devices.sh PROGRAM
set -u
acrun=$(realpath "$1") || exit 2
folder=$(mktemp -d) || exit 2
trap 'rm -rf "$folder"' EXIT
cp "$acrun" "$folder/acrun" || exit 2
for library in $(ldd "$acrun" 2> /dev/null | grep -o '/[^ ]*'); do
    cp --parents "$library" "$folder"
done
printf 'AC_INIT([demo],[1.0])\nAC_CHECK_HEADERS([a.h])\nAC_OUTPUT\n' > "$folder/configure.ac"
if [ "$(id -u)" != 0 ] || ! chroot "$folder" /acrun --version > /dev/null 2>&1; then
    echo 'devices: skipped, since it needs root and the libraries of the program'
    exit 77
fi
wrong=0

# Where /dev/null is missing, a line says so; where it is there, none does.
trial() {
    chroot "$folder" /acrun configure -q CC="$1" > "$folder/out" 2> "$folder/err"
    if [ "$(grep -c '^acrun: /dev/null is not there' "$folder/err")" != "$2" ]; then
        wrong=1
        echo "devices: $1: $(cat "$folder/err")"
    fi
}

export ACRUN_WHY=1
trial '/acrun standin' 1
mkdir "$folder/dev"
: > "$folder/dev/null"
trial '/missing' 0
[ "$wrong" = 0 ] && echo 'devices: a missing /dev/null is named'
exit "$wrong"
