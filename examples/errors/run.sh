#!/bin/sh
# Provokes errors as a user does, each without ACRUN_WHY and with it, and compares the status and standard error with expected.txt.
#   run.sh PROGRAM            compares
#   run.sh PROGRAM --write    writes expected.txt
#   run.sh PROGRAM OTHER      compares two programs instead: without ACRUN_WHY, a run of configure, status, standin or the filter says
#                             and leaves the same by both
set -u
program=$(realpath "$1") || exit 2
here=$(realpath "$(dirname "$0")")
mode=${2-}
other=''
case $mode in '' | --write) ;; *) other=$(realpath "$mode") || exit 2 ;; esac
folder=$(mktemp -d) || exit 2
trap 'chmod -R u+rwx "$folder"; rm -rf "$folder"' EXIT
unset ACRUN ACRUN_WHY ACRUN_PROGRESS ACRUN_KEEP CC CFLAGS CPPFLAGS LDFLAGS LIBS CPP NO_COLOR
rows=0 wrong=0

# new TITLE: an empty directory, in which the files of the next row are made. Compilers are scripts, so that their words are the same
# everywhere: ./yes says yes to all, ./no fails by its flags, ./nolink fails to link, ./nohead to compile, and ./full has no room.
new() {
    title=$1
    rm -rf "$folder/files"
    mkdir "$folder/files"
    cd "$folder/files" || exit 2
    printf '#!/bin/sh\nexit 0\n' > yes
    printf '#!/bin/sh\necho "cc: error: unrecognized option -O99x" >&2\nexit 1\n' > no
    printf '#!/bin/sh\ncase $* in *" -c "* | "-c "*) exit 0 ;; esac\necho "ld: cannot find -lnope" >&2\nexit 1\n' > nolink
    printf '#!/bin/sh\ncase $* in *" -c "* | "-c "*) echo "conftest1.c:1:10: fatal error: stdio.h: No such file or directory" >&2; exit 1 ;; esac\n' > nohead
    printf '#!/bin/sh\necho "cc1: out of memory" >&2\nexit 1\n' > full
    chmod +x yes no nolink nohead full
}

# ac LINE..: a configure.ac of these lines between AC_INIT and AC_OUTPUT
ac() {
    { echo 'AC_INIT([demo],[1.0])'; [ $# = 0 ] || printf '%s\n' "$@"; echo AC_OUTPUT; } > configure.ac
}

# once PROGRAM WHY WORD..: one run, in a copy of the files. Its input is the file `input`, if there is one.
once() {
    (
        acrun=$1 asked=$2
        shift 2
        rm -rf "$folder/run"
        cp -a "$folder/files" "$folder/run"
        cd "$folder/run" || exit 2
        [ ! -f before ] || ACRUN=$acrun sh ./before > ../before 2>&1
        [ -f input ] || : > input
        if [ -n "$asked" ]; then ACRUN_WHY=$asked; export ACRUN_WHY; fi
        PATH=$folder/run:/usr/bin:/bin
        "$acrun" "$@" < input > ../out 2> ../err
        echo "status $?" > ../status
    )
}

# shown: what a run said, without the directory that is another one each time
shown() { sed "s/^/    /; s|$folder/|/|g" "$folder/err"; sed 's/^/    /' "$folder/status"; }

# all PROGRAM WORD..: what a run without ACRUN_WHY says and leaves
all() {
    each=$1
    shift
    once "$each" '' "$@"
    cat "$folder/out" "$folder/err" "$folder/status"
    (cd "$folder/run" && find . -type f -exec cksum {} + | sort)
}

# compare WORD..: what two programs say and leave for these words, if they are those of a run, of status, of standin or of the filter
compare() {
    case ${1-} in lint | port | header | why | help | -h | --help | -v | -V | --version) return ;; esac
    rows=$((rows + 1))
    first=$(all "$program" "$@")
    second=$(all "$other" "$@")
    [ "$first" = "$second" ] || { wrong=1; printf '%s: acrun %s\n  one\n%s\n  other\n%s\n' "$title" "$*" "$first" "$second"; }
}

# row WORD..: acrun with these words
row() {
    if [ -n "$other" ]; then
        compare "$@"
        return
    fi
    rows=$((rows + 1))
    echo "$title"
    once "$program" '' "$@"
    echo "  \$ acrun $*"
    shown
    once "$program" 1 "$@"
    echo "  \$ ACRUN_WHY=1 acrun $*"
    shown
}

# alone WORD..: as row, with an acrun that has no acrun-tools beside it
alone() {
    [ -z "$other" ] || return
    with_tools=$program program=$folder/alone/acrun
    mkdir -p "$folder/alone" && cp "$with_tools" "$program" && row "$@"
    program=$with_tools
}

# built WORD..: the log of a build that calls share/configure with these words, after those of dh_auto_configure
built() {
    [ -z "$other" ] || return
    rows=$((rows + 1))
    echo "$title"
    rm -rf "$folder/run"
    cp -a "$folder/files" "$folder/run"
    (
        cd "$folder/run" || exit 2
        cp "$here/../../share/configure" .
        PATH=.:/usr/bin:/bin
        ACRUN=$program DEB_BUILD_OPTIONS='' MAKEFLAGS='' ./configure --build=x86_64-linux-gnu --prefix=/usr --sysconfdir=/etc \
            --localstatedir=/var --disable-option-checking --disable-silent-rules --runstatedir=/run --disable-maintainer-mode \
            --disable-dependency-tracking "$@" > ../err 2>&1
        echo "status $?" > ../status
    )
    echo "  \$ ./configure .. $*"
    shown
}

# shellcheck source=examples/errors/rows.sh
. "$here/rows.sh" > "$folder/said"

cd "$here" || exit 2
if [ -n "$other" ]; then
    cat "$folder/said"
    [ "$wrong" = 0 ] && echo "errors: without ACRUN_WHY, both programs say and leave the same in $rows rows"
    exit "$wrong"
fi
[ "$mode" != --write ] || cp "$folder/said" expected.txt
diff expected.txt "$folder/said" || exit 1
echo "errors: $rows rows as expected"
