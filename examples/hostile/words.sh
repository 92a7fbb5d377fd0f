#!/bin/sh
# The words of refusals, and what reaches a terminal of characters that turn or hide text.
#   words.sh PROGRAM     in an empty directory
set -u
program=$1
wrong=0 rows=0
is() {
    rows=$((rows + 1))
    [ "$2" = "$3" ] || { wrong=1; printf 'words: %s\n  is       %s\n  expected %s\n' "$1" "$3" "$2"; }
}
# A file where a directory is to be
echo text > t
printf 'AC_INIT([a],[1])\nAC_CONFIG_FILES([a:t a/b:t])\nAC_OUTPUT\n' > configure.ac
ACRUN_WHY=1 "$program" configure > out 2> err
is 'a file where a directory is to be' 'status 2 acrun: a/b can'\''t be made: a is not a directory' "status $? $(grep 'a/b' err)"
ln -s nothere c
printf 'AC_INIT([a],[1])\nAC_CONFIG_FILES([c/b:t])\nAC_OUTPUT\n' > configure.ac
ACRUN_WHY=1 "$program" configure > out 2> err
is 'a link that leads nowhere where a directory is to be' 'status 2 acrun: c/b can'\''t be made: c is not a directory' "status $? $(grep 'c/b' err)"
# A removal that the system refuses
mkdir sticky && chmod 1777 sticky
printf 'AC_INIT([a],[1])\nAC_OUTPUT\n' > sticky/configure.ac
: > sticky/config.log
chmod 755 ..
if [ "$(id -u)" = 0 ] && su -s /bin/sh nobody -c "cd '$PWD/sticky' && test -w . && test -x '$program'" 2> /dev/null; then
    su -s /bin/sh nobody -c "cd '$PWD/sticky' && ACRUN_WHY=1 '$program' configure" > out 2> err
    is 'the log of another user' 'status 2 acrun: config.log: Operation not permitted' "status $? $(grep 'config.log: ' err)"
else
    echo "words: this user can't be another one, so a file that another user owns is not tried"
fi
# What a terminal gets. The last byte of such a character is shown by its number.
if command -v script > /dev/null && script -qec true /dev/null > /dev/null 2>&1; then
    turns=$(printf '\342\200\256') hides=$(printf '\342\200\213') isolates=$(printf '\342\201\246') quote=$(printf '\342\200\231')
    printf 'AC_INIT([a],[1])\nAC_MSG_NOTICE([a%sb%sc%sd%se])\nAC_NOPE\nAC_OUTPUT\n' "$turns" "$hides" "$isolates" "$quote" > marks.ac
    grep -v NOPE marks.ac > configure.ac
    for command in 'configure' 'lint marks.ac' 'lint --json marks.ac' 'port marks.ac'; do
        script -qec "'$program' $command" /dev/null < /dev/null > out 2> err
        rows=$((rows + 1))
        if grep -qF -e "$turns" -e "$hides" -e "$isolates" out; then
            wrong=1
            echo "words: $command shows a character that turns or hides text"
        fi
    done
    script -qec "'$program' configure" /dev/null < /dev/null > out 2> err
    is 'what a terminal gets' 1 "$(grep -cF "$(printf '\342\200')"'\xaeb'"$(printf '\342\200')"'\x8bc'"$(printf '\342\201')"'\xa6d'"$quote"'e' out)"
    # Anything else gets the text itself.
    "$program" configure > out 2> err
    is 'what a file gets' 1 "$(grep -cF "a${turns}b${hides}c${isolates}d${quote}e" out)"
else
    echo 'words: there is no script, so a terminal is not tried'
fi
[ "$wrong" = 0 ] && echo "words: $rows rows as they should be"
exit "$wrong"
