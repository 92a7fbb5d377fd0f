#!/bin/sh
# Gives the program a cache that is there and can't be read: it counts as not there, and it is not replaced. Two users are needed,
# so this is skipped unless root runs it, and may start a program as another user.
#   caches.sh PROGRAM
set -u
acrun=$(realpath "$1") || exit 2
folder=$(mktemp -d) || exit 2
trap 'rm -rf "$folder"' EXIT
chmod 755 "$folder"
cd "$folder" || exit 2
as_user() {
    setpriv --reuid=nobody --regid=nogroup --clear-groups "$@"
}
if [ "$(id -u)" != 0 ] || ! as_user test -x "$acrun" 2> /dev/null; then
    echo 'caches: skipped, since it needs two users'
    exit 77
fi
wrong=0

# trial WHAT CAUSE: a run with the cache `presets` is refused at its first put for this cause, and the file stays as it is. If
# reading it is denied, the run says what to do.
trial() {
    before=$(ls -ld presets; cat presets 2>&1)
    as_user "$acrun" configure -q --cache-file=presets CC="$acrun standin" > out 2> err
    status=$?
    after=$(ls -ld presets; cat presets 2>&1)
    if [ "$status" != 2 ] || [ "$(head -n 1 err)" != 'acrun: put 1' ] || [ "$before" != "$after" ] || [ -e config.h ]; then
        wrong=1
        echo "caches: $1: status $status, $(cat err)"
    fi
    as_user env ACRUN_WHY=1 "$acrun" configure -q --cache-file=presets CC="$acrun standin" > why 2>&1
    grep -q "^acrun: presets: $2" why || { wrong=1; echo "caches: $1: the cause isn't said"; }
    case $2 in Permission*) helps=1 ;; *) helps=0 ;; esac
    if [ "$(grep -c '^acrun: presets is kept as it is' why)" != "$helps" ]; then
        wrong=1
        echo "caches: $1: $(cat why)"
    fi
}

# package: a directory of the user with a source and this text as presets
package() {
    mkdir "$1" && cd "$1" || exit 2
    printf 'AC_INIT([demo],[1.0])\nAC_CHECK_HEADERS([a.h])\nAC_CONFIG_HEADERS([config.h])\nAC_OUTPUT\n' > configure.ac
    echo '#undef HAVE_A_H' > config.h.in
    printf 'ac_cv_header_a_h=${ac_cv_header_a_h=no}\n# by hand\nmy_cv_board=${my_cv_board=arm}\n' > presets
    : > out
    : > err
    chown nobody out err .
}

package of-another-user
chmod 600 presets
trial 'a file of root' 'Permission denied'
cd .. || exit 2

package without-bits
chown nobody presets
chmod 0 presets
trial 'a file without bits' 'Permission denied'
cd .. || exit 2

package directory
rm presets
mkdir presets
trial 'a directory' 'Is a directory'
cd .. || exit 2

package behind-a-link
mv presets real
chmod 600 real
ln -s real presets
trial 'a link to a file of root' 'Permission denied'
cd .. || exit 2

# A link to nothing is a cache that isn't there.
package new
rm presets
ln -s made presets
as_user "$acrun" configure -q --cache-file=presets CC="$acrun standin" || wrong=1
grep -q '^ac_cv_header_a_h=' made || { wrong=1; echo 'caches: no cache was made at the end of a link'; }
cd .. || exit 2

[ "$wrong" = 0 ] && echo 'caches: none that could not be read was replaced'
exit "$wrong"
