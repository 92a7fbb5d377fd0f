#!/bin/sh
# What stands where a compiler puts an object file or a program is removed first, or the run is cut: it is never taken for the answer "no",
# never written through, and never run.
#   products.sh PROGRAM     in an empty directory
set -u
program=$1
cc=$(command -v cc) || { echo 'products: skipped, as there is no cc'; exit 77; }
wrong=0 rows=0
cat > configure.ac << 'END'
AC_INIT([a],[1])
AC_PROG_CC
AC_CHECK_HEADERS([stdio.h])
AC_CHECK_FUNCS([puts])
AC_OUTPUT
END
run() {
    "$program" configure "CC=$cc" "$@" > out 2> err
    echo "status $?" "$(sed -n -e '/^checking for gcc/d' -e 's/^checking for \(.*\)\.\.\. /\1=/p' out | tr '\n' ' ')$(sed -n 's/^configure: cut short/cut/p' err)"
}
# row WHAT EXPECTED WORD..
row() {
    what=$1 expected=$2
    shift 2
    said=$(run "$@")
    rows=$((rows + 1))
    if [ "$said" != "$expected" ]; then
        wrong=1
        printf 'products: %s\n  is       %s\n  expected %s\n' "$what" "$said" "$expected"
    fi
    rm -rf conftest* config.status config.log
}
yes='status 0 stdio.h=yes puts=yes '
case $(run) in "$yes") ;; *) echo "products: skipped, as the answers to cc are: $(run)"; exit 77 ;; esac
rm -rf conftest*
row 'nothing is there' "$yes"

# Something that can't be removed is a cut, and not "no".
mkdir conftest1.o; row 'a directory conftest1.o' 'status 3 stdio.h=refused cut at child 1'
mkdir conftest1; row 'a directory conftest1' 'status 3 stdio.h=refused cut at child 1'
mkfifo conftest1.o; row 'a pipe conftest1.o' 'status 3 stdio.h=refused cut at child 1'
mkfifo conftest1; row 'a pipe conftest1' 'status 3 stdio.h=refused cut at child 1'

# A link is removed, and nothing is written through it.
echo text > kept
: > empty
for target in kept empty nothere; do
    ln -s "$target" conftest1.o; ln -s "$target" conftest1; row "links to $target" "$yes"
done
rows=$((rows + 1))
if [ "$(cat kept)" != text ] || [ -s empty ] || [ -e nothere ]; then wrong=1; echo 'products: a compiler wrote through a link'; fi

# A file of another user in a directory where only owners may remove files
mkdir sticky && cp configure.ac sticky/ && : > sticky/conftest1.o && chmod 1777 sticky && chmod 755 ..
if [ "$(id -u)" = 0 ] && su -s /bin/sh nobody -c "cd '$PWD/sticky' && test -w . && test -x '$program'" 2> /dev/null; then
    rows=$((rows + 1))
    su -s /bin/sh nobody -c "cd '$PWD/sticky' && '$program' configure 'CC=$cc'" > out 2> err
    said="status $? $(sed -n 's/^configure: cut short/cut/p' err)"
    [ "$said" = 'status 3 cut at child 1' ] || { wrong=1; echo "products: an object file that can't be removed: $said"; }
else
    echo "products: this user can't be another one, so a file that another user owns is not tried"
fi

# A program of an earlier run is not run: the compiler makes none, so the run is cut.
cat > configure.ac << 'END'
AC_INIT([a],[1])
AC_PROG_CC
AC_RUN_IFELSE([AC_LANG_PROGRAM([],[])],[AC_MSG_NOTICE([ran: yes])],[AC_MSG_NOTICE([ran: no])])
AC_OUTPUT
END
said_of_run() {
    "$program" configure "CC=$cc" "$@" > out 2>&1
    echo "status $?" "$(sed -n -e 's/^configure: \(ran: .*\)/\1/p' -e 's/^configure: cut short/cut/p' out)"
}
for kind in script program; do
    if [ "$kind" = script ]; then printf '#!/bin/sh\ntouch was-run\n' > conftest; chmod +x conftest; else said_of_run > /dev/null; fi
    rows=$((rows + 1))
    said=$(said_of_run CFLAGS=-fsyntax-only)
    case $said in 'status 3 cut at child '*) ;; *) wrong=1; echo "products: an old $kind was there, and the run says: $said" ;; esac
    [ ! -e was-run ] || { wrong=1; echo 'products: an old script was run'; }
    rm -rf conftest* config.status was-run
done
rows=$((rows + 1))
said=$(said_of_run)
[ "$said" = 'status 0 ran: yes' ] || { wrong=1; echo "products: a program that is linked is not run: $said"; }
[ "$wrong" = 0 ] && echo "products: $rows rows as they should be"
exit "$wrong"
