#!/bin/sh
# Gives lint a template that is a link to a file which the system calls regular and empty, and whose reader waits: lint ends.
#   links.sh PROGRAM
set -u
acrun=$(realpath "$1") || exit 2
folder=$(mktemp -d) || exit 2
trap 'rm -rf "$folder"' EXIT
cd "$folder" || exit 2
if [ ! -r /proc/kmsg ]; then
    echo 'links: skipped, since /proc/kmsg cannot be read'
    exit 77
fi
printf 'AC_INIT([demo],[1.0])\nAC_CONFIG_FILES([Makefile])\nAC_OUTPUT\n' > configure.ac
ln -s /proc/kmsg Makefile.in
wrong=0
for words in lint 'lint --json' configure; do
    timeout 10 "$acrun" $words > out 2>&1 < /dev/null
    status=$?
    [ "$status" != 124 ] || { wrong=1; echo "links: $words waits"; }
done
[ "$wrong" = 0 ] && echo 'links: no command waited for a file that is no file'
exit "$wrong"
