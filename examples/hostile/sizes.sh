#!/bin/sh
# Records and caches that are too large to be read again, and records of many files.
#   sizes.sh PROGRAM     in an empty directory
set -u
program=$1
wrong=0 rows=0
# is WHAT EXPECTED TEXT
is() {
    rows=$((rows + 1))
    [ "$2" = "$3" ] || { wrong=1; printf 'sizes: %s\n  is       %s\n  expected %s\n' "$1" "$3" "$2"; }
}
# doubled N: a source with a variable of 2^N bytes
doubled() {
    printf 'AC_INIT([a],[1])\na=x\n'
    i=0
    while [ "$i" -lt "$1" ]; do echo 'a="$a$a"'; i=$((i + 1)); done
    printf '%s\nAC_OUTPUT\n' "$2"
}
# A record of more than 64 MiB is not written, and what was there stays.
echo old > config.status
doubled 27 'AC_SUBST([a])' > configure.ac
ACRUN_WHY=1 "$program" configure > out 2> err
is 'a record of 128 MiB' 'status 2 acrun: put 1 acrun: config.status: has more than 64 MiB' "status $? $(sed -n '/put/p; /64 MiB/p' err | tr '\n' ' ' | sed 's/ $//')"
is 'what was there' old "$(head -c 100 config.status)"
# One of less is written, and can be read again.
rm -f config.status
doubled 25 'AC_SUBST([a])' > configure.ac
"$program" configure > out 2> err
is 'a record of 32 MiB' 'status 0' "status $?"
"$program" status > out 2> err
is 'that record again' 'status 0' "status $?"

# A cache of more than 4 MiB is written, and words say that no run can read it again.
doubled 22 'a_cv_b="$a"
AC_CACHE_CHECK([b],[a_cv_b],[a_cv_b=1])' > configure.ac
ACRUN_WHY=1 "$program" configure -C > out 2> err
is 'a cache of more than 4 MiB' 'status 0 acrun: config.cache has more than 4,194,304 bytes, so no run can read it again: remove it' "status $? $(grep 'config.cache' err)"
"$program" configure -C > out 2> err
is 'that cache again' 'status 2 acrun: cache 3' "status $? $(cat err)"
rm -f config.cache
doubled 21 'a_cv_b="$a"
AC_CACHE_CHECK([b],[a_cv_b],[a_cv_b=1])' > configure.ac
ACRUN_WHY=1 "$program" configure -C > out 2> err
is 'a cache of 2 MiB' 'status 0 ' "status $? $(grep 'config.cache' err)"
"$program" configure -C > out 2> err
is 'that cache again' 'status 0' "status $?"

# A record of N files takes time that grows with N: four times as many files take less than ten times as long, and a bit.
record() {
    rm -rf many
    mkdir many
    echo text > many/t.in
    awk -v n="$1" 'BEGIN { print "acrun-record 2\nsrcdir ."; for (i = 0; i < n; i++) print "file o" i " t.in"; print "end" }' > many/config.status
}
# millis N: the processor time of acrun for N files, in milliseconds
millis() {
    record "$1"
    (cd many && "$program" status > ../out 2> ../err; times) | awk 'NR == 2 { split($1, t, /[ms]/); print int((t[1] * 60 + t[2]) * 1000) }'
}
few=$(millis 4000) many=$(millis 16000)
rows=$((rows + 1))
[ "$many" -lt $((few * 10 + 500)) ] || { wrong=1; echo "sizes: 4,000 files take $few ms, and 16,000 take $many ms"; }
[ "$(ls many | wc -l)" = 16002 ] || { wrong=1; echo 'sizes: not all files were made'; }
rm -rf many
[ "$wrong" = 0 ] && echo "sizes: $rows rows as they should be; 4,000 files took $few ms of the processor, and 16,000 took $many ms"
exit "$wrong"
