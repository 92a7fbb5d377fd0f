#!/bin/sh
# Puts texts and files of all kinds in the place of the answers of a run that was interrupted: nothing of what the run answers changes,
# and it ends at once.
#   answers.sh PROGRAM [STEP]       cuts the file at each STEP-th byte, by default each seventh
set -u
acrun=$(realpath "$1") || exit 2
step=${2-7}
folder=$(mktemp -d) || exit 2
trap 'rm -rf "$folder"' EXIT
cd "$folder" || exit 2
wrong=0
mkdir bin
# A compiler that answers by the text, and kills its run at the fourth child if the file `end` is there.
cat > bin/cc1 << 'END'
#!/bin/sh
echo x >> "$PLACE/count"
if [ -e "$PLACE/end" ] && [ "$(wc -l < "$PLACE/count")" -gt 3 ]; then
    kill -9 "$PPID"
    exit 1
fi
for last; do :; done
! grep -q no_such "$last"
END
chmod +x bin/cc1
PLACE=$folder export PLACE

# package DIRECTORY: makes a source in a directory, in place of what was there, and enters it.
package() {
    cd "$folder" && rm -rf "$1" && mkdir "$1" && cd "$1" || exit 2
    cat > configure.ac << 'END'
AC_INIT([demo],[1.0])
AC_CHECK_FUNC([one])
AC_CHECK_FUNC([no_such])
AC_CHECK_FUNCS([two no_such_too three four])
AC_CHECK_HEADER([five.h])
AC_CONFIG_HEADERS([config.h])
AC_OUTPUT
END
    printf '#undef HAVE_TWO\n#undef HAVE_FOUR\n' > config.h.in
    : > "$PLACE/count"
    rm -f "$PLACE/end"
}

# run: configures, and puts what is printed and the status in out and err.
run() {
    timeout 60 "$acrun" configure -C CC="$folder/bin/cc1" > out 2> err
    echo "status $?" >> out
}

# interrupt: makes a run that is ended at its fourth child. Its answers stay.
interrupt() {
    : > "$PLACE/end"
    "$acrun" configure -C CC="$folder/bin/cc1" > /dev/null 2>&1
    rm -f "$PLACE/end" conftest*
    : > "$PLACE/count"
}

# same WHAT COUNT: the run in this directory left what the first one left, and started so many children, unless COUNT is empty.
same() {
    grep -v '^configure: goes on from ' err > err.rest
    for each in out config.h config.status config.cache config.log; do
        cmp -s "$each" "$folder/whole/$each" || { wrong=1; echo "answers: $1: $each differs"; }
    done
    cmp -s err.rest "$folder/whole/err" || { wrong=1; echo "answers: $1: $(cat err)"; }
    [ -z "$2" ] || [ "$(wc -l < "$PLACE/count")" = "$2" ] || { wrong=1; echo "answers: $1: $(wc -l < "$PLACE/count") children and not $2"; }
    [ ! -f config.answers ] || [ -n "${kept-}" ] || { wrong=1; echo "answers: $1: config.answers stays"; }
}

package whole
run
[ "$(wc -l < "$PLACE/count")" = 7 ] || { echo "answers: $(wc -l < "$PLACE/count") children"; exit 1; }

package again
interrupt
[ -f config.answers ] || { echo 'answers: an interrupted run leaves none'; exit 1; }
[ "$(stat -c %a config.answers)" = 600 ] || { wrong=1; echo 'answers: others may read them'; }
cp config.answers "$folder/answers"
size=$(wc -c < config.answers)
run
same 'an interrupted run' ''
grep -q '^configure: goes on from ' err || { wrong=1; echo 'answers: nothing is said'; }
[ "$(wc -l < "$PLACE/count")" -lt 7 ] || { wrong=1; echo 'answers: none is used'; }

# Fronts of the file, and each with zeros after it.
at=0
while [ "$at" -le "$size" ]; do
    package again
    head -c "$at" "$folder/answers" > config.answers
    chmod 600 config.answers
    run
    same "cut at $at" ''
    package again
    { head -c "$at" "$folder/answers"; head -c $((size - at)) /dev/zero; } > config.answers
    chmod 600 config.answers
    run
    same "zeros from $at" ''
    at=$((at + step))
done

# trial WHAT COMMAND: a file of this kind is there.
trial() {
    package again
    "$2"
    run
    same "$1" 7
}
another_run() { sed 's/^acrun answers 1 ./acrun answers 1 x/' "$folder/answers" > config.answers && chmod 600 config.answers; }
another_version() { sed 's/^acrun answers 1/acrun answers 2/' "$folder/answers" > config.answers && chmod 600 config.answers; }
empty() { : > config.answers && chmod 600 config.answers; }
large() { truncate -s 1G config.answers && chmod 600 config.answers; }
writable() { cp "$folder/answers" config.answers && chmod 622 config.answers; }
link() { ln -s "$folder/answers" config.answers; }
trial 'the answers of another run' another_run
trial 'the answers of another version' another_version
trial 'an empty file' empty
trial 'a file of 1 GB' large
trial 'a file that others may write' writable
trial 'a link' link
[ -s "$folder/answers" ] || { wrong=1; echo 'answers: what a link leads to is changed'; }
kept=1
pipe() { mkfifo config.answers; }
directory() { mkdir config.answers; }
trial 'a pipe' pipe
trial 'a directory' directory
kept=

# ACRUN_AFRESH asks all again.
package again
cp "$folder/answers" config.answers && chmod 600 config.answers
ACRUN_AFRESH=1 export ACRUN_AFRESH
run
unset ACRUN_AFRESH
same 'a run that begins afresh' 7

# Two runs in one directory at once, and one that goes on from the answers of a run that still goes. They share the conftests, so each may
# be cut, and the cache that one of them puts may be read by the next. Each other one makes what one alone makes, and so does one after them.
cat > "$folder/bin/slow" << 'END'
#!/bin/sh
sleep 0.2
END
chmod +x "$folder/bin/slow"
slowly() { timeout 60 "$acrun" configure -C CC="$folder/bin/slow" > "$1.out" 2> "$1.err" || echo "status $?" >> "$1.out"; }
# like_alone NAME: the run printed what one alone prints.
like_alone() {
    sed -e 's/^config.status: config.h is unchanged$/config.status: creating config.h/' -e 's/\.\.\. (cached) /... /' "$1.out" | cmp -s - alone.out &&
        grep -v '^configure: goes on from ' "$1.err" | cmp -s - alone.err
}
package beside
slowly alone
for each in config.h config.status config.cache config.log; do mv "$each" "$each.alone"; done
slowly one &
slowly two &
sleep 0.7
slowly three &
wait
for each in one two three; do
    like_alone "$each" || grep -q '^configure: cut short at child ' "$each.err" || { wrong=1; echo "answers: beside another run: $(cat "$each.out" "$each.err")"; }
done
[ ! -e config.answers ] || { wrong=1; echo 'answers: beside another run: config.answers stays'; }
rm -f config.h config.status config.cache config.log
slowly last
like_alone last || { wrong=1; echo "answers: after runs at once: $(cat last.out last.err)"; }
for each in config.h config.status config.cache config.log; do
    cmp -s "$each" "$each.alone" || { wrong=1; echo "answers: after runs at once: $each differs"; }
done
exit "$wrong"
