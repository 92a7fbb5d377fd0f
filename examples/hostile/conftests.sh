#!/bin/sh
# Gives a run outputs, templates and caches whose names its checks have for themselves. None is written over or taken for what it is
# not, and what has such a name elsewhere is like any other.
#   conftests.sh PROGRAM
set -u
acrun=$(realpath "$1") || exit 2
wrong=0
: > standin.txt
fault() {
    wrong=1
    echo "conftests: $1"
}

# trial STATUS STDERR WORD..: one run of ./configure.ac, with a stand-in for the compiler
trial() {
    status=$1 said=$2
    shift 2
    "$acrun" configure -q CC="$acrun standin" "$@" > out.txt 2> err.txt
    got=$?
    [ "$got" = "$status" ] || fault "status $got in place of $status: $(cat err.txt)"
    [ "$(cat err.txt)" = "$said" ] || fault "says $(cat err.txt) in place of $said"
}

# source OUTPUTS: a source with one check and these outputs
source_of() {
    printf 'AC_INIT([demo],[1.0])\nAC_PROG_CC\nAC_CHECK_HEADERS([a.h])\nAC_CONFIG_FILES([%s])\nAC_OUTPUT\n' "$1" > configure.ac
}

printf 'name @PACKAGE_NAME@\n' > plain.in
printf 'name @PACKAGE_NAME@\n' > conftest.c
mkdir sub
cp conftest.c sub/conftest.c

# A template that a check would write over: named before the first child, and left as it is.
source_of 'made:conftest.c'
trial 2 'acrun: template conftest.c'
[ "$(cat conftest.c)" = 'name @PACKAGE_NAME@' ] || fault 'a template is gone'
[ ! -e config.log ] || fault 'a child was started'

# The same template in another directory.
source_of 'made:sub/conftest.c'
trial 0 ''
[ "$(cat made)" = 'name demo' ] || fault "made is $(cat made)"

# Outputs that a compiler might make. Those before them are there.
for name in conftest conftest1.o conftest.dwo conftest-any; do
    rm -f made "$name"
    source_of "made:plain.in $name:plain.in"
    trial 2 'acrun: put 3'
    [ -e made ] || fault "no output before $name"
    [ ! -e "$name" ] || [ "$(cat "$name")" != 'name demo' ] || fault "$name was written"
done
source_of 'sub/conftest1.o:plain.in'
trial 0 ''
[ "$(cat sub/conftest1.o)" = 'name demo' ] || fault "sub/conftest1.o is $(cat sub/conftest1.o)"

# A name that leads to the current directory by a link.
ln -s . here
source_of 'here/conftest.h:plain.in'
trial 2 'acrun: put 2'
[ ! -e conftest.h ] || fault 'conftest.h was written by a link'

# A cache of such a name, before the first child.
rm -f config.log
source_of 'made:plain.in'
trial 2 'acrun: file ./conftest.cache' --cache-file=./conftest.cache
[ ! -e config.log ] || fault 'a child was started, though the cache has the name of a conftest'
trial 0 '' --cache-file=sub/conftest.cache
[ -s sub/conftest.cache ] || fault 'no cache in another directory'

# In a build elsewhere the source may have any template.
mkdir build
cp conftest.c conftest.in
source_of 'made:conftest.in'
(cd build && "$acrun" configure -q --srcdir=.. CC="$acrun standin") || fault 'a build elsewhere fails'
[ "$(cat build/made)" = 'name demo' ] || fault "build/made is $(cat build/made)"
[ "$wrong" = 0 ] && echo 'conftests: no output, template or cache has the name of a conftest'
exit "$wrong"
