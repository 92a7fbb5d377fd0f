#!/bin/sh
# A compiler that finds no room, or that a signal ends, answers "no". A run that completes with such an answer says so, with the check.
#   shortages.sh PROGRAM     in an empty directory
set -u
program=$1
cc=$(command -v cc) || { echo 'shortages: skipped, as there is no cc'; exit 77; }
wrong=0 rows=0
cat > configure.ac << 'END'
AC_INIT([a],[1])
AC_PROG_CC
AC_CHECK_HEADERS([stdio.h])
AC_CHECK_FUNCS([puts])
AC_OUTPUT
END
# said WORD..: the exit status, and the lines that doubt an answer.
said() {
    rm -rf conftest* config.status config.log
    ACRUN_WHY=${asked-1} "$program" configure "$@" > out 2> err
    echo "status $?" "$(grep 'wrong "no"' err)"
}
# row WHAT EXPECTED WORD..
row() {
    what=$1 expected=$2
    shift 2
    is=$(said "$@")
    rows=$((rows + 1))
    if [ "$is" != "$expected" ]; then
        wrong=1
        printf 'shortages: %s\n  is       %s\n  expected %s\n' "$what" "$is" "$expected"
    fi
}
# compiler COMMANDS: what is in the place of cc, for the function; any other conftest goes to cc.
compiler() {
    printf '#!/bin/sh\nfor last; do :; done\nif grep -q puts conftest*.c 2> /dev/null; then\n%s\nfi\nexec %s "$@"\n' "$1" "$cc" > compiler
    chmod +x compiler
}
room='this run may have taken a wrong "no" of `checking for puts`, in which a program found no room: run it again'
ended='this run may have taken a wrong "no" of `checking for puts`, in which a signal ended a compiler: run it again'
rm -f config.cache
for words in 'cc: Cannot allocate memory' 'cc1: out of memory allocating 65536 bytes' 'a.o: No space left on device' 'cc: Too many open files' \
    'cc: error: cc1: Argument list too long' 'ld: final link failed: File too large' 'vfork: Resource temporarily unavailable' 'a.o: Disk quota exceeded'; do
    compiler "echo '$words' >&2; exit 1"
    row "$words" "status 0 acrun: $room" CC=./compiler
done
compiler 'kill -9 $$'
row 'a signal ends the compiler' "status 0 acrun: $ended" CC=./compiler
compiler 'echo "cc: fatal error: Killed signal terminated program cc1" >&2; exit 1'
row 'a signal ends a part of the compiler' "status 0 acrun: $ended" CC=./compiler
compiler 'echo "cc1: fatal error: conftest1.c: Permission denied" >&2; exit 1'
row 'the compiler may not read' 'status 0 acrun: this run may have taken a wrong "no" of `checking for puts`, in which a compiler may not open a file: run it again' CC=./compiler
# With a cache its name is said. It isn't said of a child that succeeded, nor of what a program that failed has, nor if nobody asks.
row 'with a cache' 'status 0 acrun: config.cache may hold a wrong "no" of `checking for puts`, in which a compiler may not open a file: remove it, and run again' -C CC=./compiler
rm -f config.cache
asked='' row 'nobody asks' 'status 0 ' CC=./compiler
compiler "echo 'cc: No space left on device' >&2; exec $cc \"\$@\""
row 'it succeeds' 'status 0 ' CC=./compiler
row 'nothing is wrong' 'status 0 ' "CC=$cc"
cat > configure.ac << 'END'
AC_INIT([a],[1])
AC_PROG_CC
AC_COMPILE_IFELSE([AC_LANG_SOURCE([no such text: No space left on device])],[a=1])
AC_RUN_IFELSE([AC_LANG_PROGRAM([[#include <stdlib.h>]],[[abort ();]])],[a=1],[a=2])
AC_OUTPUT
END
row 'a program of a test, and the program of AC_RUN_IFELSE' 'status 0 ' "CC=$cc -w -fno-diagnostics-show-caret"
cat > configure.ac << 'END'
AC_INIT([a],[1])
AC_PROG_CC
AC_CHECK_HEADERS([stdio.h])
AC_CHECK_FUNCS([puts])
AC_OUTPUT
END
# Limits of the system. A run that completes has each "yes", or says that a "no" may be wrong; one that doesn't was cut.
limits=0
for limit in '-n 8' '-n 9' '-n 10' '-n 11' '-n 12' '-n 14' '-v 20000' '-v 40000' '-v 80000' '-f 8' '-f 16'; do
    rm -rf conftest* config.status config.log
    (ulimit $limit && ACRUN_WHY=1 exec "$program" configure "CC=$cc") > out 2> err
    status=$?
    rows=$((rows + 1))
    [ "$status" = 0 ] || continue
    if grep -q '\.\.\. no$' out; then
        limits=$((limits + 1))
        grep -q 'wrong "no"' err || {
            wrong=1
            echo "shortages: under ulimit $limit an answer is no, and nothing doubts it:"
            grep -v '^|' config.log | head -20
        }
    fi
done
rm -rf conftest*
[ "$wrong" = 0 ] && echo "shortages: $rows rows as they should be, and $limits limits led to a no that is doubted"
exit "$wrong"
