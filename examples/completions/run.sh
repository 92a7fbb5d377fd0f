#!/bin/sh
# Asks each shell that is there for the completions of words, and looks at what it offers. terminal.py then tries names of strangers.
#   run.sh PROGRAM
set -u
here=$(realpath "$(dirname "$0")")
acrun=$(realpath "$1") || exit 2
share=$(realpath "$here/../../share/completions")
tally=$(realpath "$here/../tally")
folder=$(mktemp -d) || exit 2
trap 'rm -rf "$folder"' EXIT
mkdir "$folder/bin"
ln -s "$acrun" "$folder/bin/acrun"
cp "$tally/configure.ac" "$folder"
printf 'acrun-record 2\nfile Makefile Makefile.in\nheader config.h config.h.in\nend\n' > "$folder/config.status"
printf 'checking for sys/stat.h... yes\n' > "$folder/config.log"
cd "$folder" || exit 2
PATH=$folder/bin:$PATH
wrong=0 rows=0

of_bash() {
    bash -c '
        . "$0/acrun.bash"
        compopt() { [[ $* != *default* ]] || compgen -f -- "${COMP_WORDS[COMP_CWORD]#=}"; }
        COMP_LINE=$*
        COMP_WORDS=("$@")
        COMP_CWORD=$((${#COMP_WORDS[@]} - 1))
        _acrun
        printf "%s\n" "${COMPREPLY[@]}"' "$share" "$@"
}

of_fish() {
    fish -c 'source $argv[1]/acrun.fish; complete -C "$argv[2..-1]"' "$share" "$@" | cut -f 1
}

# zsh completes at a terminal alone, so its widgets are stood in for: compadd prints what it is given.
of_zsh() {
    zsh -f -c '
        compadd() {
            local -a names; local list=0 plain=0 word
            while (( $# )); do
                case $1 in
                -a) names+=(${(P)2}); shift ;;
                -S) shift ;;
                --) shift; names+=("$@"); break ;;
                *) names+=("$1") ;;
                esac
                shift
            done
            for word in $names; do [[ $word == $PREFIX* ]] && print -r -- $word; done
        }
        compset() { PREFIX=${PREFIX#*=}; }
        _files() { print -rl -- ${PREFIX}*(N); }
        _acrun_load() { eval "$(sed "s/^_acrun \"\$@\"\$//" $share/_acrun)"; }
        share=$1; shift
        words=("$@") CURRENT=$# PREFIX=${@[-1]}
        _acrun_load
        _acrun' zsh "$share" "$@"
}

# row OFFERS.. -- WORD..: for these words each of the shells offers at least these.
row() {
    offers=''
    while [ "$1" != -- ]; do
        offers="$offers $1"
        shift
    done
    shift
    for shell in bash zsh fish; do
        command -v "$shell" > /dev/null || continue
        rows=$((rows + 1))
        found=$("of_$shell" "$@" 2>&1)
        for offer in $offers; do
            printf '%s\n' "$found" | grep -q -x -F -e "$offer" -e "${offer%=}" && continue
            wrong=1
            printf '%s: %s: no %s in: %s\n' "$shell" "$*" "$offer" "$(echo $found)"
        done
    done
}

row configure status lint port header why help -j4 -- acrun ''
row status standin -- acrun st
row configure -- acrun -j4 ''
row --bindir= -- acrun -j2 configure --bi
row --with-top= -- acrun configure --with-t
row --disable-bars -- acrun configure --dis
row CC= CFLAGS= -- acrun configure C
row --quiet -- acrun configure --qu
row Makefile config.h -- acrun status ''
row --recheck -- acrun status --re
row --json -- acrun lint --
row configure.ac -- acrun lint conf
row --idioms --package= -- acrun port --
row --package= -- acrun port --p
row configure.ac -- acrun port conf
row configure.ac -- acrun header conf
row sys/stat.h -- acrun why sys
row why -- acrun help w

[ "$wrong" = 0 ] && echo "completions: $rows rows as they should be"
python3 "$here/terminal.py" "$acrun" || wrong=1
exit $wrong
