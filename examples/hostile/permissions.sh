#!/bin/sh
# Puts files with other rights where the program writes: of another user, of another group, with a list of access, and a hard link
# to a file of one's own that all may write to. What takes their place gives nobody a right to read or to write that a new file
# doesn't give, and whoever could execute the old file and may read the new one may execute it. Two users are needed, so this is
# skipped unless root runs it, and may give files away.
#   permissions.sh PROGRAM
set -u
acrun=$(realpath "$1") || exit 2
folder=$(mktemp -d) || exit 2
trap 'rm -rf "$folder"' EXIT
cd "$folder" || exit 2
: > given
if [ "$(id -u)" != 0 ] || ! chown nobody given 2> given.log; then
    echo 'permissions: skipped, since it needs two users'
    exit 77
fi
chmod 1777 .
wrong=0

# has NAME MODE: the file is root's, and has this mode
has() {
    found=$(stat -c '%u %a' "$1")
    if [ "$found" != "0 $2" ]; then
        wrong=1
        echo "permissions: $PWD/$1 has '$found', and not '0 $2'"
    fi
}

# package: a source with two files, a header, a record and a cache
package() {
    printf 'AC_INIT([demo],[1.0])\nAC_CHECK_HEADERS([a.h])\nAC_CONFIG_FILES([run.sh own.sh])\nAC_CONFIG_HEADERS([config.h])\nAC_OUTPUT\n' > configure.ac
    echo 'echo @PACKAGE_NAME@' | tee run.sh.in > own.sh.in
    echo '#undef HAVE_A_H' > config.h.in
}

# run UMASK: makes the outputs under this mask
run() {
    (umask "$1" && "$acrun" configure -q -C CC="$acrun standin") || wrong=1
}

# stranger UMASK MODE AFTER RECORD OWN: under this mask files of another user with this mode become files with the mode AFTER, the
# record one with the mode RECORD, and a program of one's own with the mode 751 one with the mode OWN
stranger() {
    mkdir "under$1-$2" && cd "under$1-$2" || exit 2
    package
    for name in run.sh config.h config.status config.cache; do
        echo "# old" > "$name"
        chmod "$2" "$name"
        chown nobody "$name"
    done
    [ "$2" != 000 ] || rm config.cache
    echo old > own.sh
    chmod 751 own.sh
    run "$1"
    for name in run.sh config.h; do
        has "$name" "$3"
    done
    has config.status "$4"
    has own.sh "$5"
    cd .. || exit 2
}

stranger 022 777 755 644 750
stranger 077 777 700 600 700
stranger 022 666 644 644 750
# A shared tree of mode 0664 becomes 0644 under the mask 022, and stays 0664 under the mask 002.
stranger 022 664 644 644 750
stranger 002 664 664 664 750
# The owner of the new file can read and write it, whatever the old one was.
stranger 022 000 600 600 750

# A file of a group to which the user belongs, in a directory of the user, whose new files have another group.
mkdir group && cd group || exit 2
package
run 022
chgrp nogroup run.sh config.h config.status config.cache 2> given.log || chgrp 65534 run.sh config.h config.status config.cache
chmod 660 run.sh config.h config.status config.cache
echo '#undef HAVE_B_H' >> config.h.in
echo 'ac_cv_header_b_h=no' >> config.cache
run 022
for name in run.sh config.h config.status config.cache; do
    has "$name" 640
    [ "$(stat -c %g "$name")" = "$(id -g)" ] || echo "permissions: $name has another group"
done
cd .. || exit 2

# A list of access: one user may write, the group may not, and what looks like the group's bits is the list's mask.
mkdir access && cd access || exit 2
package
run 022
if python3 - 2> given.log <<'Y'
import os, struct
entry = lambda tag, bits, user=0xFFFFFFFF: struct.pack("<HHI", tag, bits, user)
rights = entry(1, 6) + entry(2, 6, 65534) + entry(4, 0) + entry(0x10, 6) + entry(0x20, 0)
os.setxattr("run.sh", "system.posix_acl_access", struct.pack("<I", 2) + rights)
Y
then
    [ "$(stat -c %a run.sh)" = 660 ] || { wrong=1; echo 'permissions: the mask is not what the system shows'; }
    run 022
    # The group may read, as it may read any new file. Nobody but the owner may write.
    has run.sh 640
else
    echo 'permissions: no lists of access here'
fi
cd .. || exit 2

# In a directory where only owners may remove files, another user gives the name of an output to a file of root's that all may
# write to, by a hard link.
mkdir linked && cd linked || exit 2
package
echo log > "$folder/log"
chmod 666 "$folder/log"
chmod 1777 .
if setpriv --reuid=nobody --regid=nogroup --clear-groups sh -c "ln '$folder/log' run.sh && ln '$folder/log' config.status" 2> given.log; then
    run 022
    has run.sh 644
    has config.status 644
    [ "$(cat "$folder/log")" = log ] || { wrong=1; echo 'permissions: the other file was written'; }
else
    echo 'permissions: no such hard link here'
fi
cd .. || exit 2

[ "$wrong" = 0 ] && echo 'permissions: no old file gave a right to read or to write'
exit "$wrong"
