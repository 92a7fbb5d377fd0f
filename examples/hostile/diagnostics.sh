#!/bin/sh
# A compiler that writes many diagnostics, line by line or byte by byte, gets the same answers as a silent one.
#   diagnostics.sh PROGRAM     in an empty directory
set -u
program=$1
cc=$(command -v cc) || { echo 'diagnostics: skipped, as there is no cc'; exit 77; }
wrong=0 rows=0
cat > configure.ac << 'END'
AC_INIT([a],[1])
AC_PROG_CC
AC_CHECK_HEADERS([stdio.h stdlib.h no/such.h])
AC_CHECK_FUNCS([puts no_such_function])
AC_OUTPUT
END
# noisy COUNT SIZE PAUSE: writes SIZE bytes COUNT times, with a pause of so many microseconds after each, and then compiles.
cat > noisy.c << 'END'
#include <stdlib.h>
#include <string.h>
#include <unistd.h>
int main(int argc, char **argv)
{
    long count = atol(argv[1]);
    size_t size = (size_t)atol(argv[2]);
    useconds_t pause = (useconds_t)atol(argv[3]);
    char *piece = malloc(size);
    if (argc < 5 || !piece) return 2;
    memset(piece, 'n', size);
    piece[size - 1] = '\n';
    while (count-- > 0) {
        if (write(2, piece, size) != (ssize_t)size) return 3;
        if (pause) usleep(pause);
    }
    execvp(argv[4], argv + 4);
    return 2;
}
END
"$cc" -o noisy noisy.c || { echo 'diagnostics: skipped, as cc makes no program'; exit 77; }

# answers CC WORD..: what a run answers, in one line.
answers() {
    compiler=$1
    shift
    rm -f conftest* config.status config.log
    "$program" $window configure "CC=$compiler" "$@" > out 2> err
    echo "status $?" "$(sed -n -e '/^checking for gcc/d' -e 's/^checking for \(.*\)\.\.\. /\1=/p' out | tr '\n' ' ')"
}
# row WHAT CC WORD..: the answers are those of the silent compiler.
row() {
    what=$1
    shift
    said=$(answers "$@")
    rows=$((rows + 1))
    if [ "$said" != "$silent" ]; then
        wrong=1
        printf 'diagnostics: %s\n  is       %s\n  expected %s\n' "$what" "$said" "$silent"
    fi
}

window=-j1
silent=$(answers "$cc")
case $silent in
'status 0 stdio.h=yes stdlib.h=yes no/such.h=no puts=yes no_such_function=no ') ;;
*) echo "diagnostics: skipped, as the answers to cc are: $silent"; exit 77 ;;
esac
for window in -j1 -j4; do row "1,100 lines with a pause, $window" "./noisy 1100 9 1 $cc"; done
row '2,000 lines' "./noisy 2000 9 0 $cc"
row '100,000 lines of ten bytes' "./noisy 100000 10 0 $cc"
row '20,000 lines of ten bytes with a pause' "./noisy 20000 10 1 $cc"
row '100,000 bytes, one by one' "./noisy 100000 1 0 $cc"
# So that the compiler itself adds nothing, its warnings are off.
row '4 MiB less 16 bytes, in 262,143 pieces' "./noisy 262143 16 0 $cc -w"
row '4 MiB less 4,096 bytes' "./noisy 1023 4096 0 $cc"
# What a compiler that is traced line by line writes
if command -v strace > /dev/null && strace -o trace true 2> /dev/null; then
    row 'strace' "strace -f $cc"
else
    echo 'diagnostics: there is no strace, so a traced compiler is not tried'
fi
# The cache has the same answers, also for the silent compiler that comes after.
rm -f config.cache
printf '#!/bin/sh\nexec ./noisy 1100 9 1 %s "$@"\n' "$cc" > wrapped
chmod +x wrapped
row 'with a cache' ./wrapped -C
printf '#!/bin/sh\nexec %s "$@"\n' "$cc" > wrapped
cached=$silent
silent=$(echo "$cached" | sed 's/=/=(cached) /g')
row 'from the cache' ./wrapped -C
silent=$cached

# A compiler that writes 8 MiB, or never ends writing, doesn't hang the run.
for compiler in "./noisy 2048 4096 0 $cc" "./noisy 2000000000 4096 0 $cc" 'sh -c yes>&2'; do
    rows=$((rows + 1))
    rm -f conftest* config.status
    timeout 60 "$program" configure "CC=$compiler" > out 2> err || { wrong=1; echo "diagnostics: with $compiler the run ends with status $?"; }
    size=$(wc -c < config.log)
    [ "$size" -lt 1000000 ] || { wrong=1; echo "diagnostics: the log of $compiler has $size bytes"; }
done
[ "$wrong" = 0 ] && echo "diagnostics: $rows rows as they should be"
exit "$wrong"
