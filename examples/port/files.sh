#!/bin/sh
# Asks for files by tests of a shell, and by the programs that `acrun port --idioms` writes in their place, and compares the answers.
#   files.sh PROGRAM
# Needs a C compiler. Ends with 1 if an answer differs.
set -e
acrun=$(realpath "$1")
work=$(mktemp -d) || exit 2
trap 'rm -rf "$work"' EXIT
cd "$work"
mkdir files files/directory files/closed files/+a.b-c:d_e
echo a > files/text
: > files/empty
echo a > files/program
echo a > files/closed/text
chmod 644 files/text files/empty
chmod 755 files/program
chmod 0 files/closed
ln -s text files/link
ln -s nothing files/broken
ln -s directory files/way
mkfifo files/pipe
count=0
{
    printf 'AC_INIT([files], [1])\nAC_PROG_CC\nfront=files\nname=te\n'
    for operator in d e f r s w x; do
        for path in files/text files/empty files/program files/directory files/link files/broken files/way files/pipe files/closed/text \
            files/nothing files/text/a files/+a.b-c:d_e /dev/null '$front/text' '"$front/directory"' '${front}/${name}xt' '"$front/.."'; do
            count=$((count + 1))
            printf 'answer_%s=no\nif test -%s %s; then answer_%s=yes; fi\n' $count $operator "$path" $count
        done
    done
    printf 'answers='
    i=0
    while [ $i -lt $count ]; do
        i=$((i + 1))
        printf '"$answers $answer_%s"\nanswers=' $i
    done
    printf '"$answers"\nAC_SUBST([answers])\nAC_CONFIG_FILES([answers])\nAC_OUTPUT\n'
} > tests.ac
echo '@answers@' > answers.in
sed -n '/^front=/,/^answers="$answers"$/p' tests.ac > tests.sh
sh -c '. ./tests.sh; printf "%s\n" "$answers"' > wanted
"$acrun" port --idioms tests.ac > configure.ac
[ "$(grep -c '^acrun_CFLAGS=' configure.ac)" = "$(grep -c '^if test' tests.ac)" ] || { echo 'files: a test stays'; exit 1; }
"$acrun" -j4 configure > said 2>&1 || { cat said; exit 1; }
cmp answers wanted || { echo 'files: an answer differs'; tr ' ' '\n' < wanted > a; tr ' ' '\n' < answers > b; diff a b; exit 1; }
echo "files: $(wc -w < answers) answers are the same"
