#!/bin/sh
# Two compilers that share a lock end with -j2, though the one that has it writes more than a pipe holds, and the older one waits for it.
#   locks.sh PROGRAM     in an empty directory
set -u
program=$1
cc=$(command -v cc) || { echo 'locks: skipped, as there is no cc'; exit 77; }
wrong=0 rows=0
cat > configure.ac << 'END'
AC_INIT([a],[1])
AC_PROG_CC
AC_CHECK_HEADERS([stdio.h no/such.h stdlib.h no/such/either.h])
AC_CHECK_FUNCS([puts no_such_function])
AC_OUTPUT
END
# The compiler of an odd conftest waits until that of the next one has the lock, or two seconds, and then for the lock. That of an even one
# has the lock while it writes 200,000 bytes. If ALONE is set, it waits for no other.
cat > locked << 'END'
#!/bin/sh
number=$(echo " $*" | sed -n 's/.* conftest\([0-9]*\)\.c.*/\1/p')
case $number in
*[13579])
    i=0
    until [ -n "$ALONE" ] || [ -e "held$((number + 1))" ] || [ $i -ge 200 ]; do i=$((i + 1)); sleep 0.01; done
    until mkdir lock 2> /dev/null; do sleep 0.01; done
    ;;
*[02468])
    until mkdir lock 2> /dev/null; do sleep 0.01; done
    : > "held$number"
    yes 'written with the lock' | head -c 200000 >&2
    rm "held$number"
    ;;
*) exec $THE_CC "$@" ;;
esac
rmdir lock
case $BEFORE in ?*) eval "$BEFORE" ;; esac
exec $THE_CC "$@"
END
chmod +x locked
# Without a lock: both compilers are silent, and both end by themselves.
export THE_CC="$cc"

# answers ALONE BEFORE WORD..: the status and what a run answers, and its results in cache and log, in the files 'said' and 'kept'.
answers() {
    ALONE=$1 BEFORE=$2
    export ALONE BEFORE
    shift 2
    rm -rf conftest* config.status config.log config.cache held* lock
    timeout 60 "$program" "$@" configure -C CC=./locked > out 2> err
    echo "status $?" "$(sed -n -e '/^checking for gcc/d' -e 's/^checking for \(.*\)\.\.\. /\1=/p' out | tr '\n' ' ')" > said
    { cat config.cache; sed -e 's/ -j[0-9]*//' config.log; } > kept 2>&1
}
# row WHAT BEFORE: with -j2 a run answers as with -j1, in the same order, and ends.
row() {
    rows=$((rows + 1))
    answers y "$2" -j1
    mv said said1
    mv kept kept1
    answers '' "$2" -j2
    cmp -s said said1 || { wrong=1; printf 'locks: %s\n  is       %s\n  expected %s\n' "$1" "$(cat said)" "$(cat said1)"; }
    cmp -s kept kept1 || { wrong=1; echo "locks: $1: the cache or the log differs"; diff kept1 kept | head -5; }
}

row 'a lock' ''
case $(cat said) in
*stdio.h=yes*no/such.h=no*) ;;
*) echo "locks: the answers are: $(cat said)"; wrong=1 ;;
esac
# A process that a compiler leaves behind has its standard error for a second more.
row 'a process that is left' 'sleep 1 &'
# A compiler closes its standard error, and goes on.
row 'a closed standard error' 'exec 2> /dev/null; sleep 0.1'

# A lock holder that never ends writing is ended, and the older compiler gets the lock.
cat > endless << 'END'
#!/bin/sh
case $* in
*conftest1.c*) i=0; until [ -e written ] || [ $i -ge 500 ]; do i=$((i + 1)); sleep 0.01; done; echo first >&2 ;;
*conftest2.c*) { head -c 1000000 /dev/zero; : > written; exec yes; } >&2 ;;
esac
exec $THE_CC "$@"
END
chmod +x endless
rows=$((rows + 1))
rm -rf conftest* config.status config.log config.cache
timeout 60 "$program" -j2 configure CC=./endless > out 2> err || { wrong=1; echo "locks: with an endless compiler the run ends with status $?"; }
[ "$(wc -c < config.log)" -lt 1000000 ] || { wrong=1; echo 'locks: the log of an endless compiler is too large'; }
[ "$wrong" = 0 ] && echo "locks: $rows rows as they should be"
exit "$wrong"
