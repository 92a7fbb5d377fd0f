#!/bin/sh
# Kills runs with a cache in the middle, and starts them again: the second run goes on from the answers of the first one, starts only the
# children that are missing, and leaves what an uncut run leaves.
#   run.sh PROGRAM
set -u
acrun=$(realpath "$1") || exit 2
folder=$(mktemp -d) || exit 2
trap 'rm -rf "$folder"' EXIT
cd "$folder" || exit 2
wrong=0
umask 022
PLACE=$folder export PLACE
# A compiler that says "no" of what has no_such in it. It sends its run the signal of the file `end`, if there is one, at the fourth child.
cat > compiler << 'END'
#!/bin/sh
echo x >> "$PLACE/count"
if [ -e "$PLACE/end" ] && [ "$(wc -l < "$PLACE/count")" -gt 3 ]; then
    kill -s "$(cat "$PLACE/end")" "$PPID"
    sleep 1
fi
for last; do :; done
! grep -q no_such "$last"
END
chmod +x compiler

# package DIRECTORY: makes a source in a new directory, and enters it.
package() {
    cd "$folder" && rm -rf "$1" && mkdir "$1" && cd "$1" || exit 2
    cat > configure.ac << 'END'
AC_INIT([demo],[1.0])
AC_CHECK_FUNC([one])
AC_CHECK_FUNC([no_such])
AC_CHECK_FUNCS([two no_such_too three four])
AC_CHECK_HEADER([five.h])
AC_CONFIG_HEADERS([config.h])
AC_OUTPUT
END
    printf '#undef HAVE_TWO\n#undef HAVE_FOUR\n' > config.h.in
}

# run [ARGUMENT]..: configures, and puts what is printed and the status in out and err.
run() {
    : > "$PLACE/count"
    timeout 60 "$acrun" configure -C CC="$folder/compiler" "$@" > out 2> err
    echo "status $?" >> out
}

# interrupt SIGNAL [ARGUMENT]..: makes a run that gets the signal at its fourth child.
interrupt() {
    : > "$PLACE/count"
    echo "$1" > "$PLACE/end"
    shift
    "$acrun" configure -C CC="$folder/compiler" "$@" > /dev/null 2>&1
    rm "$PLACE/end"
    [ -f config.answers ] && [ ! -f config.log ] || { wrong=1; echo "answers: an interrupted run leaves $(ls | tr '\n' ' ')"; }
    [ "$(stat -c %a config.answers)" = 600 ] || { wrong=1; echo 'answers: others may read the answers'; }
}

# same WHAT COUNT [LINE]: the run in this directory left what the first one left, started so many children, and said this.
same() {
    for each in out config.h config.status config.cache config.log; do
        cmp -s "$each" "$folder/whole/$each" || { wrong=1; echo "answers: $1: $each differs"; }
    done
    [ "$(cat err)" = "${3-}" ] || { wrong=1; echo "answers: $1: it says '$(cat err)'"; }
    [ "$(wc -l < "$PLACE/count")" = "$2" ] || { wrong=1; echo "answers: $1: $(wc -l < "$PLACE/count") children, not $2"; }
    [ ! -e config.answers ] || { wrong=1; echo "answers: $1: config.answers stays"; }
}
said='configure: goes on from 3 answers of a run that was interrupted, of which 1 say "no"; ACRUN_AFRESH=1 asks again'

package whole
run
same 'an uncut run' 7
for signal in KILL TERM INT HUP; do
    package again
    interrupt "$signal"
    run
    same "a run that gets $signal" 5 "$said"
done

# A run that is interrupted twice goes on twice.
package again
interrupt KILL
interrupt KILL
run
same 'a run that is interrupted twice' 3 'configure: goes on from 5 answers of a run that was interrupted, of which 2 say "no"; ACRUN_AFRESH=1 asks again'

# Another variable, another source and another argument are another run. ACRUN_AFRESH asks all again.
package again
interrupt KILL
NOTE=1 run
same 'another environment' 7
package again
interrupt KILL
ACRUN_AFRESH=1 run
same 'a run that begins afresh' 7
package again
interrupt KILL
sed 's/demo/other/' configure.ac > new && mv new configure.ac
run
[ -s err ] && { wrong=1; echo "answers: another source: it says '$(cat err)'"; }
package again
interrupt KILL --prefix=/other
run
same 'another argument' 7

# So are another umask, another directory, and a compiler that was installed again.
package again
interrupt KILL
umask 027
run
umask 022
same 'another umask' 7
package again
interrupt KILL
cd .. && rm -rf moved && mv again moved && cd moved || exit 2
run
same 'another directory' 7
package again
interrupt KILL
cp ../compiler ../new && mv ../new ../compiler
run
same 'another compiler' 7

# A run that makes no outputs has answers too, and one without a cache has none.
package again
interrupt KILL -n
run -n
[ "$(cat err)" = "$said" ] || { wrong=1; echo "answers: without outputs: it says '$(cat err)'"; }
[ ! -e config.answers ] || { wrong=1; echo 'answers: without outputs: config.answers stays'; }
package again
echo KILL > "$PLACE/end"
: > "$PLACE/count"
"$acrun" configure CC="$folder/compiler" > /dev/null 2>&1
rm "$PLACE/end"
[ ! -e config.answers ] || { wrong=1; echo 'answers: a run without a cache leaves answers'; }
exit "$wrong"
