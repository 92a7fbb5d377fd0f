#!/bin/sh
# Runs share/port with a small script in the place of acrun, and looks at what it prints, with which status it ends, and what it leaves.
#   port.sh [SHELL]       by SHELL, or by each of dash, bash, and sh if that is none of them
#   port.sh --write       writes port.txt anew
#   port.sh --rows SHELL  prints the rows by SHELL
set -u
here=$(realpath "$(dirname "$0")") || exit 2
# A shell can't take back that a signal is ignored, as it is below nohup and in a job in the background.
if [ -z "${signals_are_usual-}" ]; then
    exec env signals_are_usual=1 python3 -c 'import os, signal, sys
for name in ("SIGHUP", "SIGINT", "SIGTERM"):
    signal.signal(getattr(signal, name), signal.SIG_DFL)
os.execvp(sys.argv[1], sys.argv[1:])' sh "$0" "$@"
fi
unset signals_are_usual ACRUN
script=$(realpath "$here/../../share/port") || exit 2
folder=$(mktemp -d) || exit 2
trap 'rm -rf "$folder"' EXIT
mkdir "$folder/bin" "$folder/work" "$folder/temporary"
# It prints what the file `text` or, with --package, the file `packaged` has in the place of its file, says what `says` has, and ends so.
cat > "$folder/bin/acrun" << 'END_OF_ACRUN'
#!/bin/sh
top=${0%/bin/acrun}
printf '[%s]' "$@" >> "$top/asked"
text=$top/text
case $* in *--package=*) [ ! -f "$top/packaged" ] || text=$top/packaged ;; esac
cat "$text"
[ ! -f "$top/says" ] || cat "$top/says" >&2
[ ! -f "$top/commands" ] || . "$top/commands"
exit "$(cat "$top/status")"
END_OF_ACRUN
chmod +x "$folder/bin/acrun"
PATH=$folder/bin:$PATH
TMPDIR=$folder/temporary
export TMPDIR
cd "$folder/work" || exit 2

# source FILE: a source of standard input in a directory that has nothing else, from 2001. What acrun prints of it is the same, at first.
source() {
    rm -rf ./* ../packaged ../says ../commands ../outside
    case $1 in */*) mkdir -p "./${1%/*}" ;; esac
    cat > "./$1"
    touch -t 200102030405 "./$1"
    cp "./$1" ../text
    echo 0 > ../status
}

# run WORD..: what the script prints of these words, and what it leaves.
run() {
    { printf '$ port'; printf ' [%s]' "$@"; echo; }
    rm -f ../asked
    $shell "$script" "$@" > ../output 2> ../errors
    status=$?
    cat ../output
    sed "s/^/2> /; s/^2> .*: cannot create [^:]*: .*/2> (a file that can't be made)/; s/^2> .*: line [0-9]*: .*/2> (a file that can't be made)/" ../errors
    echo "status $status"
    if [ -f ../asked ]; then echo "asked: $(cat ../asked)"; fi
    find . -type f | LC_ALL=C sort | while IFS= read -r name; do
        case $(date -r "$name" +%Y) in 2001) when=' of 2001' ;; *) when='' ;; esac
        echo "$name$when:"
        sed 's/^/    /' "$name" | LC_ALL=C tr '\001\033' '??'
    done
    for name in "$TMPDIR"/* ./acrun-*.tmp; do [ ! -e "$name" ] || echo "left: ${name##*/}"; done
    echo
}

# packaged TEXT-OF-AC_INIT: a source whose AC_INIT is written so, and of which acrun says that it takes --package.
packaged() {
    printf '%s\nAC_OUTPUT\n' "$1" | source configure.ac
    printf 'dnl acrun: in place of AC_INIT: the name and the version are those of --package\nAC_INIT([name], [2.0])\nAC_OUTPUT\n' > ../packaged
    run name 2.0 | grep '^asked: '
}

rows() {
    # Nothing to do, and something
    printf 'AC_INIT([a], [1])\nAC_OUTPUT\n' | source configure.ac
    run name 2.0
    printf 'AC_INIT([a], [1])\nAC_PROG_CC\nAC_OUTPUT\n' > ../text
    printf 'one word\n' > ../says
    run name 2.0 .
    # In another directory, of another name, or with both names
    printf 'A\n' | source -dash/configure.in
    printf 'B\n' > ../text
    run name 2.0 -dash
    printf 'A\n' | source sub/configure.in
    printf 'C\n' > sub/configure.ac
    printf 'B\001\033[31m\tb\n' > ../text
    printf 'says \033[31m\001\n' > ../says
    run name 2.0 ./sub
    # Into a file
    printf 'A\n' | source configure.ac
    printf 'B\n' > ../text
    run -o made name 2.0
    run -o nowhere/made name 2.0
    run -o made name 2.0 nowhere
    # A link that leads nowhere, and a directory
    rm -f configure.ac made
    ln -s nowhere configure.ac
    printf 'A\n' > configure.in
    run name 2.0
    rm -f configure.ac
    mkdir configure.ac
    run name 2.0
    # Words
    for words in '' 'name' '-o' '-o made' '-o made name' 'name 2.0 . more'; do
        # shellcheck disable=SC2086
        run $words
    done
    # What is left to do
    printf 'AC_INIT([a], [1])\nfirst\n\tsecond\nthird\nfourth\nfifth\n' | source configure.ac
    echo 1 > ../status
    printf 'one\n' > ../says
    cat > ../text << 'END'
dnl acrun: above the first line
AC_INIT([a], [1])
dnl acrun: in place of first: another
other
dnl acrun: two
dnl acrun: three
	second
new
dnl acrun: ./Makefile.in:7: of a template
dnl acrun: of a line
fourth changed
dnl acrun: at the end
END
    run name 2.0
    printf 'A\nB\nC\n' | source sub/configure.ac
    echo 1 > ../status
    printf 'A\ndnl acrun: one \001\nB\nC\n' > ../text
    run name 2.0 sub
    printf 'A\n  B\nC\n' | source configure.ac
    echo 1 > ../status
    printf 'A\ndnl acrun: one\nB\nC\ndnl acrun: sub/x.in:1: two\n' > ../text
    run name 2.0
    printf 'A\nB\nC\nD\n' | source configure.ac
    echo 1 > ../status
    printf 'A\ndnl acrun: gone\nD\n' > ../text
    run name 2.0
    printf 'A\n' | source configure.ac
    echo 1 > ../status
    run name 2.0
    # A line that port changed has the number of the one with its words, or of the first that it is in place of. One that it left has its own.
    printf 'A\nB\nC one\n  D two; E\nF\n' | source configure.ac
    echo 1 > ../status
    printf 'A\nB\nnew\ndnl acrun: one\n\tD two\ndnl acrun: two\nG\ndnl acrun: sub/x.in:1: three\nF\n' > ../text
    run name 2.0
    printf 'A\ndnl acrun: old\nB\nC\n' | source configure.ac
    echo 1 > ../status
    run name 2.0
    printf 'dnl acrun: old\nB\nC\nD\n' | source configure.ac
    echo 1 > ../status
    printf 'dnl acrun: old\nB\nD\n' > ../text
    run name 2.0
    printf 'A\n\nB\n' | source configure.ac
    echo 1 > ../status
    printf 'A\ndnl acrun: one\n\nB\nC\ndnl acrun: two\n' > ../text
    run name 2.0
    # acrun fails
    echo 2 > ../status
    printf 'acrun: no memory\n' > ../says
    run name 2.0
    echo 200 > ../status
    run name 2.0 ./
    # Names for --package
    packaged 'AC_INIT([a], [1])'
    packaged 'AC_INIT(a, NAME_OF_VERSION([1, 2]))'
    packaged 'AC_INIT([My tool], m4_esyscmd([git describe]))'
    packaged 'AC_INIT([NAME_OF_IT], m4_esyscmd([git describe]))'
    packaged 'AC_INIT([a$b], m4_esyscmd([git describe]))'
    packaged 'AC_INIT(m4_esyscmd([git, (it)]), [1])'
    packaged 'AC_INIT([a], [$VERSION])'
    packaged 'AC_INIT([a`b`], [1])'
    packaged 'AC_INIT([a], [1
2])'
    packaged 'AC_INIT(
  [a-b_c.d+e~1]  ,
  V([1]))'
    packaged 'AC_INIT([], V(1))'
    packaged 'AC_INIT([a])'
    packaged 'AC_INIT([], [1])'
    packaged 'AC_PREREQ([2]) AC_INIT([a], V(1))'
    packaged '  AC_INIT([ACRUN], V(1), [x])'
    packaged 'AC_INIT([a, b (c)], [V(1)], [x])'
    packaged 'AC_INIT([a], $(x)V(1))'
    packaged 'AC_INIT([a], $(x, V(1)))'
    # The text that is used with the name that was found
    printf 'AC_INIT([a], V(1))\n' | source configure.ac
    printf 'dnl acrun: in place of AC_INIT: the name and the version are those of --package\nAC_INIT([a], [2.0])\n' > ../packaged
    run name 2.0
    echo 1 > ../status
    run name 2.0
    echo 0 > ../status
    echo 'case $* in *--package=a,*) exit 1 ;; esac' > ../commands
    run name 2.0
    # Without acrun, a place for files, and rights
    printf 'A\n' | source configure.ac
    printf 'B\n' > ../text
    (ACRUN=nowhere && export ACRUN && run name 2.0)
    (ACRUN=$folder/bin/acrun && PATH=/usr/bin:/bin && export ACRUN && run name 2.0 | grep -v '^asked')
    printf 'A\n' | source configure.ac
    printf 'B\n' > ../text
    (TMPDIR=nowhere && run name 2.0) | sed '/^2> mktemp/d'
    for each in touch mv; do
        printf '#!/bin/sh\nexit 1\n' > "../bin/$each"
        chmod +x "../bin/$each"
        run name 2.0
        rm "../bin/$each"
    done
    # Signals
    for each in HUP INT TERM; do
        echo "kill -s $each \$PPID" > ../commands
        run name 2.0
    done
}

case ${1-} in
--write)
    shell='sh'
    rows > "$here/port.txt" 2>&1
    exit
    ;;
--rows)
    shell=$2
    rows 2>&1
    exit
    ;;
esac

# Whether sh is dash or bash.
is_one_of_these() {
    for each in dash bash; do
        [ "$(realpath "$(command -v sh)")" != "$(realpath "$(command -v "$each" || echo .)")" ] || return 0
    done
    return 1
}

wrong=0
for shell in ${1-dash bash sh}; do
    command -v "$shell" > /dev/null || continue
    [ $# = 0 ] && [ "$shell" = sh ] && is_one_of_these && continue
    rows > ../found 2>&1
    if ! cmp -s "$here/port.txt" ../found; then
        wrong=1
        echo "$shell: share/port:"
        diff "$here/port.txt" ../found
    fi
done
if command -v shellcheck > /dev/null; then shellcheck -S warning "$script" || wrong=1; fi
[ "$wrong" = 0 ] && echo "wrapper: $(grep -c '^\$ port\|^asked' "$here/port.txt") rows of share/port as they should be"
exit $wrong
