#!/bin/sh
# Asks the program for its help and its version, and looks at the exit status and at what is printed.
#   run.sh PROGRAM
set -u
acrun=$(realpath "$1") || exit 2
root=$(realpath "$(dirname "$0")/../..") || exit 2
unset ACRUN_WHY
version=$(sed -n 's/^pub const VERSION: &str = "\(.*\)";$/\1/p' "$root/crates/cmd_help/src/texts.rt")
wrong=0

# expect STATUS FIRST WORD..: the exit status, and the first line that is printed on either stream.
expect() {
    status=$1 first=$2
    shift 2
    said=$("$acrun" "$@" 2>&1)
    found=$?
    if [ "$found" != "$status" ] || [ "$(printf '%s\n' "$said" | head -n 1)" != "$first" ]; then
        wrong=1
        printf 'acrun %s: status %s, not %s; it begins with "%s", not "%s"\n' "$*" "$found" "$status" "$(printf '%s\n' "$said" | head -n 1)" "$first"
    fi
}

for words in help --help -h --version -V; do expect 0 "acrun $version" "$words"; done
for words in --version -V; do
    [ "$("$acrun" "$words")" = "acrun $version" ] || { wrong=1; echo "$words prints more than the version"; }
done
expect 0 'Usage: acrun [-jN] configure [ARG]..' help configure
expect 0 'Usage: acrun status [NAME]..' help status
expect 0 'Usage: acrun lint [--json] [FILE]..' help lint
expect 0 'Usage: acrun port [--idioms [--package=NAME,VERSION]] [FILE]' help port
expect 0 'Usage: acrun header [FILE]' help header
expect 0 'Usage: acrun why [WORD [LOG]]' help why
expect 0 'Usage: acrun standin [WORD]..' help standin
expect 0 'Usage: acrun help [COMMAND]' help help
for words in 'help nothing' 'help status lint' '--help status' '--version status'; do
    # Each word by itself.
    expect 2 'acrun: usage' $words
done
for command in configure status lint port header why standin help; do
    "$acrun" help | grep -q "^  acrun .*$command" || { wrong=1; echo "help does not list $command"; }
    grep -q "$command" "$root/share/acrun.1" || { wrong=1; echo "the manual page does not name $command"; }
done

# has COMMAND TEXT: the help of the command has the text, wherever its lines end.
has() {
    "$acrun" help "$1" | tr -s ' \n' '  ' | grep -q -F -e "$2" || { wrong=1; echo "help $1 does not say: $2"; }
}
has port '`if`, and a statement after a test and `&&` or `||`, become AS_IF, and `case` becomes AS_CASE'
has port '--idioms'
has port '--package=NAME,VERSION'
for option in --srcdir= --cache-file= -C --prefix= --bindir= --enable- --disable- --with- --without- '-n, --no-create' '-q, --quiet, --silent' \
    '-h, --help' '-V, --version' VARIABLE=VALUE; do
    has configure "$option"
done
has configure 'Besides its outputs a run may leave: config.log config.status config.cache config.answers conftest* acrun-*.tmp'

for command in '' configure status lint port header why standin help; do
    wide=$("$acrun" help $command | grep -E '^.{80}') && { wrong=1; echo "help $command is wider than 79 columns: $wide"; }
done

[ "$wrong" = 0 ] && echo 'help: as it should be'
exit $wrong
