#!/bin/sh
# Configures, builds and runs the package tally with the program, in a directory of its own, in each way that a user has. Ends
# with 1 if anything is otherwise than it should be, and with 0 if there is no C compiler.
#   run.sh PROGRAM
set -u
acrun=$(realpath "$1") || exit 2
package=$(dirname "$(realpath "$0")")
if ! command -v cc > /dev/null || ! command -v make > /dev/null; then
    echo "tally: there is no cc or no make, so it was not built"
    exit 0
fi
work=$(mktemp -d) || exit 2
trap 'rm -rf "$work"' EXIT
mkdir "$work/bin" && ln -s "$acrun" "$work/bin/acrun" && cp -R "$package" "$work/tally" && cd "$work/tally" || exit 2
PATH=$work/bin:$PATH
unset CC CFLAGS CPPFLAGS LDFLAGS LIBS MAKEFLAGS MFLAGS
wrong=0

# configure STATUS WORD..: runs the program with these words, and looks at its exit status
configure() {
    status=$1
    shift
    "$acrun" "$@" > said 2> errors
    found=$?
    [ "$found" -eq "$status" ] || fail "'acrun $*' ends with $found, not with $status; it says: $(cat errors)"
}

# fail TEXT: reports what is wrong
fail() {
    wrong=1
    echo "tally: $1"
}

# says FILE LINE: the file has this line
says() {
    grep -qxF -e "$2" "$1" || fail "no line '$2' in $1: $(cat "$1")"
}

# same FILE FILE: the files are equal
same() {
    cmp -s "$1" "$2" || fail "$1 is not as $2"
}

# build: builds what was configured, and tests it
build() {
    make > made 2>&1 && make check > made 2>&1 || fail "make fails: $(cat made)"
}

echo "--- tally: configure with a cache, make, make check, make install"
configure 0 configure -C --prefix="$work/installed" CC=cc
cat said
build
make install > made 2>&1 || fail "make install fails: $(cat made)"
printf 'to be or not to be\n' | "$work/installed/bin/tally" -n 2 -b 30 > counts
printf '1 lines, 6 words, 19 bytes\n     2  be  ######\n     2  to  ######\n' > wanted
same counts wanted
cp config.h first.h
cp Makefile first.mk

echo "--- tally: the outputs made again, a header untouched"
configure 0 status
says said 'config.status: creating Makefile'
says said 'config.status: config.h is unchanged'
[ -z "$(find config.h -newer first.h)" ] || fail "a header that is unchanged was written"
rm doc/tally.1
configure 0 status doc/tally.1
echo 'config.status: creating doc/tally.1' | cmp -s - said || fail "another output was made: $(cat said)"
configure 2 status nothing
says errors 'acrun: tag 1'

echo "--- tally: configured again from the cache, without a child"
configure 0 configure -C --prefix="$work/installed" CC=cc
grep '^\$ ' config.log && fail "a child was asked"
says said 'checking for unistd.h... (cached) yes'
same config.h first.h
same Makefile first.mk

echo "--- tally: another compiler than the cache's is refused"
configure 2 configure -C CC='cc -g'
says errors 'acrun: precious 3 CC'

echo "--- tally: configured again by make, with the same arguments, after edits of configure.ac and of a template"
make distclean > made 2>&1 || fail "make distclean fails: $(cat made)"
configure 0 -j4 configure --with-top=4 --no-create CC=cc
configure 0 status
sleep 1
cp configure.ac configure.before && cp Makefile.in Makefile.before
sed 's/\[1\.0\]/[1.1]/' configure.before > configure.ac
echo '# edited' >> Makefile.in
build
says config.status 'arg --with-top=4'
says config.status 'var PACKAGE_VERSION 1.1'
says config.h '#define TOP_WORDS 4'
says Makefile '# edited'
make > made 2>&1
grep -q acrun made && fail "make configures again though nothing has changed: $(cat made)"
cp configure.before configure.ac && cp Makefile.before Makefile.in

echo "--- tally: in a directory of its own, with options, four children at once"
make distclean > made 2>&1 || fail "make distclean fails: $(cat made)"
mkdir build && cd build || exit 2
configure 0 -j4 configure --srcdir=.. --disable-bars --with-top=3 CC=cc
build
./tally ../tests/rhyme.txt | cmp -s - ../tests/rhyme.out || fail "the options have no effect"
sed -e 's/^#define TOP_WORDS 3$/#define TOP_WORDS 10/' -e 's,^/\* #undef WITH_BARS \*/$,#define WITH_BARS 1,' config.h > defaults.h
same defaults.h ../first.h
cd .. || exit 2

echo "--- tally: a compiler that isn't there is no answer"
mkdir none && cd none || exit 2
configure 3 configure -C --srcdir=.. CC="$work/none/cc"
cat errors
says errors 'configure: cut short at child 1'
[ ! -e Makefile ] && [ ! -e config.h ] && [ ! -e config.status ] || fail "a run that was cut made outputs"
cd .. || exit 2

echo "--- tally: a compiler that vanishes after six calls, and the rest of the run once it is back"
mkdir cut && cd cut || exit 2
# compiler CALLS: makes a compiler that removes itself in its last call, or that stays if CALLS is 0
compiler() {
    echo "$1" > calls
    cat > compiler << 'END'
#!/bin/sh
read -r calls < calls
[ "$calls" -ne 1 ] || rm compiler
[ "$calls" -eq 0 ] || echo $((calls - 1)) > calls
exec cc "$@"
END
    chmod +x compiler
}
compiler 6
configure 3 configure -C --srcdir=.. CC="$work/tally/cut/compiler"
cat errors
says errors 'configure: cut short at child 7'
says said 'checking whether getline is declared... yes'
says said 'checking whether STDOUT_FILENO is declared... refused'
[ ! -e Makefile ] && [ ! -e config.h ] && [ ! -e config.status ] || fail "a run that was cut made outputs"
compiler 0
configure 0 configure -C --srcdir=.. CC="$work/tally/cut/compiler"
says said 'checking whether getline is declared... (cached) yes'
says said 'checking whether STDOUT_FILENO is declared... yes'
build
same config.h ../first.h

if [ "$wrong" -eq 0 ]; then
    echo "tally: as it should be"
fi
exit "$wrong"
