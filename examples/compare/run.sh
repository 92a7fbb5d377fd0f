#!/bin/sh
# Makes directories as two runs of configure leave them (trees.sh), compares them by share/acrun-compare, and looks at what it prints and
# with which status it ends. It needs no Autoconf and no acrun.
#   run.sh                        by each shell and each awk that is there
#   run.sh --first                by sh and the awk that is in PATH alone, as in the gate
#   run.sh --write                writes expected.txt anew
#   run.sh --rows FOLDER [SHELL]  prints the rows, by a shell, of the directories in FOLDER/trees, which it makes unless they are there
set -u
here=$(realpath "$(dirname "$0")") || exit 2
# A shell can't take back that a signal is ignored, as it is below nohup and in a job in the background.
if [ -z "${signals_are_usual-}" ]; then
    exec env signals_are_usual=1 python3 -c 'import os, signal, sys
for name in ("SIGHUP", "SIGINT", "SIGTERM"):
    signal.signal(getattr(signal, name), signal.SIG_DFL)
os.execvp(sys.argv[1], sys.argv[1:])' sh "$0" "$@"
fi
unset signals_are_usual
script=$(realpath "$here/../../share/acrun-compare") || exit 2
expected=$here/expected.txt
if [ "${1-}" = --rows ]; then
    folder=$(realpath "$2") || exit 2
else
    folder=$(mktemp -d) || exit 2
    trap 'rm -rf "$folder"' EXIT
fi
turned=$(printf 'a\342\200\256b\302\233c\233d\033')
if [ ! -d "$folder/trees" ]; then
    mkdir "$folder/bin" "$folder/failing" "$folder/trees" "$folder/temporary"
    (cd "$folder/trees" && . "$here/trees.sh") || exit 2
fi
cd "$folder/trees" || exit 2
TMPDIR=$folder/temporary
export TMPDIR

run() {
    { printf '$ acrun-compare'; printf ' [%s]' "$@"; echo; } | LC_ALL=C tr '\033\200-\377' '[?*]'
    $shell "$script" "$@" 2> ../errors
    status=$?
    sed 's/^/2> /' ../errors
    echo "status $status"
    echo
}

# failing NAME COMMANDS: compares two directories, with these commands in the place of a program.
failing() {
    printf '#!/bin/sh\n%s\n' "$2" > "../failing/$1"
    chmod +x "../failing/$1"
    echo "$1: $2"
    (PATH=$folder/failing:$PATH && run -q named1 named2 a.h)
    rm "../failing/$1"
}

rows() {
    run old new
    run -v -k old new
    run -q old new/
    run -q -k old new config.h Makefile
    run -kx known old new
    $shell "$script" old new config.h Makefile > everything
    run -x everything old new config.h Makefile
    run -x everything -q old new config.h
    run old new config.h sub/other.h
    run old new Makefile
    (cd new && run ../old . config.h tool.pc)
    run new old tool.pc
    run same same2
    run same2 same
    run same2 same3
    run -v same2 same3
    run -q same same2
    run -- -dash same2
    run ./-dash/ "it's a directory"
    run same2 "it's a directory" '-x=1 y.h' 'two
lines'
    run cached cached1
    run cached none
    run same none
    run logged same
    run saved same
    run saved logged
    run saved empty
    run empty same
    run hard1 hard2 a.h nul long long.h comments.h empty open.h
    run hard1 hard2 directory pipe missing a.h
    run hard1 hard2
    run -q hard1 hard2 a.h missing
    run hard1 hard2 "missing\\t	$(printf '\033')"
    run marks1 marks2
    run marks2 "marks$turned" a.h
    run marks1 marks2 "$turned"
    run marks1 marks2 "missing$turned"
    run out1 out2
    run -q out1 out2
    run out1 out2 leads ../secret within/file
    run out3 out4
    run -s source out3 out4
    run -s ./source/ out4 out3
    run moved1 moved2 a.h
    run moved2 moved1 a.h
    run moved1 moved3 a.h
    run modes1 modes2
    run -k modes2 modes1
    run named1 named2 a.h make
    run -v -k named1 named2 a.h make
    run -k named2 named1 a.h
    run -k named3 named2 a.h
    run -k named1 named3 a.h
    run -k named4 named2 a.h
    run -k named3 named2 make
    run away1 away2
    run away1 away3
    (cd away2 && run -s . ../away1 .)
    run kinds1 kinds2
    run kinds1 kinds2 config.hh
    run kinds1 kinds2 a
    run / root1
    run same saved
    run logged logged2
    run plain1 plain2
    run plain1 plain3
    run -k bits bits64 a.h make
    run -k bits32 bits64 a.h make
    run -k bits bits32 a.h
    run -k bits64 bits a.h
    run old// new// file.h
    run old new/// tool.pc missing
    run saved// same/
    run -x known// same same2
    run out5 out5/../none
    run empty out5
    run
    run old
    run -z old new
    run old new -k
    run -x
    run '' new
    run old ''
    run same same2 --help
    run old old/
    run old nowhere
    run known new
    run -x nowhere same same2
    (TMPDIR=nowhere && run same same2) | sed 's/compare\.[0-9]*/compare.PID/'
    for name in awk diff sort; do failing "$name" 'exit 2'; done
    failing sort 'ls -dl "$TMPDIR"/acrun-compare.* | cut -c 1-10 >&2; exit 2'
    # A signal that ends the script: a command of it sends each to the shell that started it.
    for name in HUP INT TERM; do failing sort "kill -s $name \$PPID; exit 0"; done
    run -k --help
    run -h
    run --help
}

case ${1-} in
--write)
    shell=sh
    rows > "$expected" 2>&1
    exit
    ;;
--rows)
    shell=${3-sh}
    rows 2>&1
    exit
    ;;
esac

wrong=0 tried=0
# try NAME: the rows by $shell and the awk in PATH.
try() {
    tried=$((tried + 1))
    rows > ../found 2>&1
    if ! cmp -s "$expected" ../found; then
        wrong=1
        echo "compare: $1:"
        diff "$expected" ../found
    fi
    [ -z "$(ls -A "$TMPDIR")" ] || { wrong=1; echo "compare: $1: it left $(ls "$TMPDIR")"; }
}

# The files of a shell and an awk, or nothing if a word has an argument.
files_of() {
    realpath "$(command -v "$1")" "$(command -v "$2")" 2> /dev/null
}

# Each shell once, and each awk once. The words of awk may be several, so the awk in PATH is a script.
shell=sh
try "sh with the awk that is in PATH"
first=$(files_of sh awk)
PATH=$folder/bin:$PATH
for pair in 'dash:mawk' 'bash --posix:gawk --posix' 'busybox sh:busybox awk' 'sh:original-awk'; do
    [ "${1-}" != --first ] || break
    shell=${pair%:*} awk=${pair#*:}
    command -v "${shell%% *}" > /dev/null || shell=sh
    command -v "${awk%% *}" > /dev/null || awk=''
    rm -f ../bin/awk
    if [ "$shell$awk" = sh ] || [ "$(files_of "$shell" "${awk:-awk}")" = "$first" ]; then continue; fi
    if [ -n "$awk" ]; then
        printf '#!/bin/sh\nexec %s "$@"\n' "$awk" > ../bin/awk
        chmod +x ../bin/awk
    fi
    try "$shell with ${awk:-the awk that is in PATH}"
done
if command -v shellcheck > /dev/null; then shellcheck -S warning "$script" || wrong=1; fi
[ "$wrong" = 0 ] && echo "compare: $(grep -c '^\$ acrun-compare' "$expected") rows as they should be, pairs of a shell and an awk: $tried"
exit $wrong
