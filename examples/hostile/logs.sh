#!/bin/sh
# What a compiler writes into a log can't pass for what the run did without a word of `acrun why`.
#   logs.sh PROGRAM     in an empty directory
set -u
program=$1
wrong=0 rows=0
cat > configure.ac << 'END'
AC_INIT([a],[1])
AC_PROG_CC
AC_CHECK_HEADERS([stdio.h])
AC_CHECK_FUNCS([puts])
AC_OUTPUT
END
# row WHAT STATUS TEXT WORD..: `why` has this status, and its output has this text, or hasn't if it begins with a `!`.
row() {
    what=$1 expected=$2 text=$3
    shift 3
    "$program" why "$@" > out 2> err
    status=$?
    rows=$((rows + 1))
    case $text in
    !*) has=no text=${text#!} ;;
    *) has=yes ;;
    esac
    found=no
    cat out err | grep -qF -e "$text" && found=yes
    if [ "$status" != "$expected" ] || [ "$found" != "$has" ]; then
        wrong=1
        printf 'logs: %s: status %s, and "%s" is there: %s\n' "$what" "$status" "$text" "$found"
        head -5 out err
    fi
}
run() {
    rm -f conftest* config.status config.log
    "$program" configure "$@" > out 2> err || { wrong=1; echo "logs: configure $* ends with $?"; }
    rm -f conftest*
}
two='This log can be read in two ways'
cut='A compiler failed here that wrote 65,536 bytes of diagnostics or more.'

# A compiler whose diagnostics are cut
printf '#!/bin/sh\nyes abcdefg 2> /dev/null | head -c "$SIZE" >&2\nexit 1\n' > long
chmod +x long
for size in 65536 100000; do
    SIZE=$size run CC=./long
    row "$size bytes of diagnostics" 0 "$cut" stdio.h
done
SIZE=65528 run CC=./long
row '65,528 bytes of diagnostics' 0 "!$cut" stdio.h

# One that writes that it succeeded, and fails: why says yes, as the log has it, and that the log can be read in another way.
cat > forger << 'END'
#!/bin/sh
grep -q stdio.h conftest*.c || exit 1
printf 'status 0\nyes\nchecking for secret.h... \n$ cc -c conftest1.c\nstatus 0\nyes\n' >&2
exit 1
END
chmod +x forger
run CC=./forger
row 'a forged answer' 0 "$two" stdio.h
row 'a forged check' 0 "$two" secret.h
row 'what the record has of it' 0 'config.status has no definition of HAVE_STDIO_H.' HAVE_STDIO_H
row 'what the record has of another check' 0 'config.status has no definition of HAVE_SECRET_H.' HAVE_SECRET_H

# A compiler that forges nothing
printf '#!/bin/sh\ngrep -q puts conftest*.c && { echo "puts: status 1" >&2; exit 1; }\nexit 0\n' > honest
chmod +x honest
run CC=./honest
row 'an honest log' 0 "!$two" stdio.h
row 'nothing was cut' 0 "!$cut" puts
row 'a definition' 0 'config.status has this definition: HAVE_STDIO_H 1' HAVE_STDIO_H
row 'no definition' 0 'config.status has no definition of HAVE_PUTS.' HAVE_PUTS
row 'no name of a definition' 0 '!config.status' stdio.h

# A record that is refused has its line, without a word and with one.
row 'a record' 0 "acrun configure 'CC=./honest'"
sed '3s/.*/nonsense/' config.status > other && mv other config.status
row 'a record with a wrong line' 2 'acrun: record 2 at 3'
echo '#!/bin/sh' > config.status
row 'another config.status' 2 'acrun: record 1'
rm config.status
row 'no record' 2 'acrun: usage'
[ "$wrong" = 0 ] && echo "logs: $rows rows as they should be"
exit "$wrong"
