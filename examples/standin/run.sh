#!/bin/sh
# Asks the program in a compiler's place, and looks at its exit status and at what it says.
#   run.sh PROGRAM
set -u
acrun=$(realpath "$1") || exit 2
folder=$(mktemp -d) || exit 2
trap 'rm -rf "$folder"' EXIT
cd "$folder" || exit 2
wrong=0

# expect STATUS TEXT WORD..: the words are those of a compiler's command
expect() {
    status=$1 text=$2
    shift 2
    said=$("$acrun" standin "$@" 2>&1)
    found=$?
    if [ "$found" != "$status" ] || [ "$said" != "$text" ]; then
        wrong=1
        echo "standin $*: status $found, not $status; it says '$said', not '$text'"
    fi
}

echo '#include <sys/stat.h>' > conftest.c
expect 0 '' -c conftest.c
printf 'sys/types.h\n\nsys/stat.h\n' > standin.txt
expect 1 sys/stat.h -c -O conftest.c
expect 0 '' -o conftest conftest.o
expect 0 '' -c none.c

# Two children meet where they run at one time, and one that is alone waits for nothing.
echo '!meet' > standin.txt
expect 1 '' -c conftest1.c
rm -f ./*.seen
"$acrun" standin -c conftest2.c &
expect 0 '' -c conftest1.c
wait

# meet WINDOW ANSWER STATUS: of two headers that are checked at once, the first has this answer, and its child this status. It is
# found only if both children run at one time.
meet() {
    mkdir "run$1" && cd "run$1" || exit 2
    printf 'AC_INIT([demo],[1.0])\nAC_CHECK_HEADERS([a.h b.h])\nAC_OUTPUT\n' > configure.ac
    echo '!meet' > standin.txt
    said=$("$acrun" "$1" configure CC="$acrun standin" 2>&1)
    found=$?
    if [ "$found" != 0 ] || [ "$said" != "checking for a.h... $2
checking for b.h... yes" ]; then
        wrong=1
        echo "standin: with $1 the run ends with $found, and says '$said'"
    fi
    children=$(grep -e '^\$ ' -e '^status ' config.log)
    if [ "$children" != "\$ $acrun standin -c conftest1.c
status $3
\$ $acrun standin -c conftest2.c
status 0" ]; then
        wrong=1
        echo "standin: with $1 the log has the children '$children'"
    fi
    cd .. || exit 2
}

meet -j2 yes 0
meet -j1 no 1

# A header that is refused. The log has what the child says, its status, and each line of its conftest after a bar.
mkdir refused && cd refused || exit 2
printf 'AC_INIT([demo],[1.0])\nAC_CHECK_HEADERS([sys/stat.h])\nAC_OUTPUT\n' > configure.ac
echo sys/stat.h > standin.txt
said=$("$acrun" configure -C CC="$acrun standin" 2>&1)
found=$?
{
    echo 'checking for sys/stat.h... '
    printf '$ %s standin -c conftest1.c\nsys/stat.h\nstatus 1\nfailed program was:\n' "$acrun"
    sed 's/^/| /' conftest1.c
    echo no
} > wanted
if [ "$found" != 0 ] || [ "$said" != 'checking for sys/stat.h... no' ] || ! cmp config.log wanted ||
    ! grep -qx '#include <sys/stat.h>' conftest1.c; then
    wrong=1
    echo "standin: the run ends with $found, says '$said', and has this log:"
    cat config.log
fi

# The program starts its children by another crew than `ProcessCrew`, which `tests_cases` has. So it is the compiler of a run of that one
# too, and answers 1 and 0. The gate puts that program beside acrun.
cases=$(dirname "$acrun")/tests_cases
if [ -x "$cases" ]; then
    cd "$folder" || exit 2
    cat > process.cases <<END
=== a compiler that answers 1 and 0
--- init
AC_INIT([demo],[1.0])
--- children
--- lines
AC_CHECK_HEADERS([sys/stat.h unistd.h])
--- write standin.txt
sys/stat.h

--- environment
CC=$acrun standin
--- run
configure
--- status
0
--- output
checking for sys/stat.h... no
checking for unistd.h... yes

END
    if ! said=$("$cases" process.cases 2>&1); then
        wrong=1
        echo "standin: over the other crew: $said"
    fi
else
    echo "standin: not tried over the other crew: there is no $cases"
fi

[ "$wrong" -eq 0 ] && echo "standin: as it should be"
