#!/bin/sh
# Gives words to share/configure, and looks at the words with which it starts acrun. signals.py then sends it signals.
#   run.sh [SHELL]     the shell that runs it; by default dash, bash, and sh if that is none of them
set -u
here=$(realpath "$(dirname "$0")") || exit 2
# A shell can't take back that a signal is ignored, as it is below nohup and in a job in the background.
if [ -z "${signals_are_usual-}" ]; then
    exec env signals_are_usual=1 python3 -c 'import os, signal, sys
for name in ("SIGHUP", "SIGINT", "SIGQUIT", "SIGTERM"):
    signal.signal(getattr(signal, name), signal.SIG_DFL)
os.execvp(sys.argv[1], sys.argv[1:])' sh "$0" "$@"
fi
unset signals_are_usual
script=$here/../../share/configure
folder=$(mktemp -d) || exit 2
trap 'rm -rf "$folder"' EXIT
mkdir "$folder/source" "$folder/source/build"
cp "$script" "$folder/source/configure"
# If a file has a page of help, this acrun prints that page, and ends as it says.
cat > "$folder/acrun" << 'END'
#!/bin/sh
if [ -f ../help ] && [ "$3" = --help ]; then
    printf '[%s]' "$@" > ../asked
    cat ../help
    exit "$(cat ../status)"
fi
printf '[%s]' "$@"
if [ -f shows ]; then printf ' %s' "${ACRUN_PROGRESS-unset}"; fi
if [ -f says ]; then printf ' %s' "${ACRUN_WHY-unset}"; env | grep '^ACRUN_WHY=' | sed 's/^/ /' | tr -d '\n'; fi
if [ -f makes ]; then
    printf ' then '
    for name in conftest*; do [ ! -e "$name" ] || printf '%s ' "$name"; done
    : > conftest2.c
    : > conftest2
fi
if [ -f ends ]; then . ./ends; fi
if [ -n "${build+y}" ]; then printf ' build=%s srcdir=%s name=%s' "$build" "$srcdir" "$name"; fi
END
chmod +x "$folder/acrun" "$folder/source/configure"
cd "$folder/source" || exit 2
PATH=$folder:$PATH
unset ACRUN ACRUN_JOBS ACRUN_PROGRESS ACRUN_WHY MAKEFLAGS DEB_BUILD_OPTIONS
wrong=0 rows=0

# Whether sh is dash or bash.
is_one_of_these() {
    for each in dash bash; do
        [ "$(realpath "$(command -v sh)")" != "$(realpath "$(command -v "$each" || echo .)")" ] || return 0
    done
    return 1
}

# row EXPECTED WORD..: the words with which acrun is started, each in brackets, or else the message.
row() {
    expected=$1
    shift
    said=$($shell ./configure "$@" 2>&1)
    rows=$((rows + 1))
    if [ "$said" != "$expected" ]; then
        wrong=1
        printf '%s: configure %s\n  is       %s\n  expected %s\n' "$shell" "$*" "$said" "$expected"
    fi
}

# left EXPECTED: the conftests that are there, and then all that begin so are removed.
left() {
    expected=$1 said=''
    for name in conftest*; do if [ -e "$name" ] || [ -h "$name" ]; then said="$said$name "; fi; done
    rows=$((rows + 1))
    if [ "$said" != "$expected" ]; then
        wrong=1
        printf '%s: configure leaves\n  %s\n  expected %s\n' "$shell" "$said" "$expected"
    fi
    rm -rf conftest*
}

# Makes conftests, and other files whose names begin so.
conftests() {
    touch conftest conftest.c conftest.o conftest1 conftest1.c conftest1.o conftest12 conftest256.c conftest256.o
    touch conftest.py conftest.c.in conftest1.c.c conftest1.txt conftest1x conftestx.c conftest-1.c 'conftest 1.c' conftest1. conftest.h conftest0.c conftest01
    mkdir conftest7 conftest8.o
    ln -s conftest.py conftest9.o
    ln -s nowhere conftest10
}

# status EXPECTED SHELL-WORD..: the exit status of the script.
status() {
    expected=$1
    shift
    "$@" > /dev/null 2>&1
    said=$?
    rows=$((rows + 1))
    if [ "$said" != "$expected" ]; then
        wrong=1
        printf '%s: the status of %s is %s, expected %s\n' "$shell" "$*" "$said" "$expected"
    fi
}

# parts_of NAME: the arguments for all that a source may declare of the build, the host or the target.
parts_of() { echo "[$1=x86_64-pc-linux-gnu][$1_cpu=x86_64][$1_vendor=pc][$1_os=linux-gnu]"; }

rows_of_one_shell() {
    row '[-j1][configure]'
    # Debian: dh_auto_configure
    row '[-j1][configure][--prefix=/usr][--includedir=${prefix}/include][--mandir=${prefix}/share/man][--infodir=${prefix}/share/info][--sysconfdir=/etc][--localstatedir=/var][--disable-option-checking][--disable-silent-rules][--libdir=${prefix}/lib/x86_64-linux-gnu][--runstatedir=/run][--disable-maintainer-mode][--disable-dependency-tracking]' \
        --build=x86_64-linux-gnu --prefix=/usr '--includedir=${prefix}/include' '--mandir=${prefix}/share/man' '--infodir=${prefix}/share/info' \
        --sysconfdir=/etc --localstatedir=/var --disable-option-checking --disable-silent-rules '--libdir=${prefix}/lib/x86_64-linux-gnu' \
        --runstatedir=/run --disable-maintainer-mode --disable-dependency-tracking
    # RPM: %configure
    row '[-j1][configure][--disable-dependency-tracking][--prefix=/usr][--exec-prefix=/usr][--bindir=/usr/bin][--sbindir=/usr/sbin][--sysconfdir=/etc][--datadir=/usr/share][--includedir=/usr/include][--libdir=/usr/lib64][--libexecdir=/usr/libexec][--localstatedir=/var][--runstatedir=/run][--sharedstatedir=/var/lib][--mandir=/usr/share/man][--infodir=/usr/share/info]' \
        --build=x86_64-redhat-linux-gnu --host=x86_64-redhat-linux-gnu --program-prefix= --disable-dependency-tracking --prefix=/usr \
        --exec-prefix=/usr --bindir=/usr/bin --sbindir=/usr/sbin --sysconfdir=/etc --datadir=/usr/share --includedir=/usr/include \
        --libdir=/usr/lib64 --libexecdir=/usr/libexec --localstatedir=/var --runstatedir=/run --sharedstatedir=/var/lib \
        --mandir=/usr/share/man --infodir=/usr/share/info
    # Gentoo: econf
    row '[-j1][configure][--prefix=/usr][--mandir=/usr/share/man][--infodir=/usr/share/info][--datadir=/usr/share][--sysconfdir=/etc][--localstatedir=/var/lib][--datarootdir=/usr/share][--disable-dependency-tracking][--disable-silent-rules][--docdir=/usr/share/doc/a-1][--htmldir=/usr/share/doc/a-1/html][--with-sysroot=/][--libdir=/usr/lib64]' \
        --prefix=/usr --build=x86_64-pc-linux-gnu --host=x86_64-pc-linux-gnu --mandir=/usr/share/man --infodir=/usr/share/info --datadir=/usr/share \
        --sysconfdir=/etc --localstatedir=/var/lib --datarootdir=/usr/share --disable-dependency-tracking --disable-silent-rules \
        --docdir=/usr/share/doc/a-1 --htmldir=/usr/share/doc/a-1/html --with-sysroot=/ --libdir=/usr/lib64
    # Abbreviations, one dash, values in the next word
    row '[-j1][configure][--prefix=/x][--bindir][/y][--exec-prefix=/z]' --pref=/x -bindir /y --exec_prefix=/z
    row '[-j1][configure][--help]' --hel
    row '[-j1][configure][--help]' --help=short
    row '[-j1][configure][--libdir=/y][--lib=/y]' --libd=/y --lib=/y
    row '[-j1][configure][--with-x][--enable-a=b][-q][-C]' -with-x -enable-a=b -q -C
    row '[-j1][configure][--without-x][--disable-a][--with-build=b][-V][-n]' -without-x -disable-a --with-build=b -V -n
    row '[-j1][configure][CC=gcc -DX="a b"][CFLAGS=]' 'CC=gcc -DX="a b"' CFLAGS=
    row '[-j1][configure][--no-such=1][cc]' --no-such=1 cc
    # What has no meaning here
    row '[-j1][configure]' --build a --host a --target=a --x-includes=/usr/X --x-libraries /usr/X --program-suffix= --site=/x --host=
    # What may not be dropped
    row 'configure: error: cross compiling is not supported: --host=arm, and --build=a' --build=a --host=arm
    row 'configure: error: cross compiling is not supported: --host=arm, and --build is not given' --host arm
    row 'configure: error: cross compiling is not supported: --target=b, and --build=a' --target=b --build=a
    row 'configure: error: acrun does not rename programs: --program-prefix=g' --program-prefix=g
    row 'configure: error: acrun does not rename programs: --program-suffix=-1' --program-suffix=-1
    row 'configure: error: acrun does not rename programs: --program-suffix=-1' --program-suffix -1
    row 'configure: error: acrun does not rename programs: --program-transform-name=s,a,b,' --program-transform-name=s,a,b, -q
    # Variables that the source declares
    printf 'usage: acrun configure\n  --host=x  a\n  build                 the system\n  host\n  targets  b\n' > ../help
    echo 0 > ../status
    row '[-j1][configure][host=a][build=a][-q][CC=b]' --build=a -q CC=b
    [ "$(cat ../asked)" = '[-j1][configure][--help][-q][CC=b]' ] || { wrong=1; echo "$shell: asked: $(cat ../asked)"; }
    row '[-j1][configure][host=a b][build=a b][host=c]' '--build=a b' --host 'a b' host=c
    row '[-j1][configure]' --build= --host=
    row '[-j1][configure][-q]' -q
    row 'configure: error: cross compiling is not supported: --host=arm, and --build=a' --build=a --host=arm
    printf 'usage: acrun configure\n  host_os  a\n  target' > ../help
    row '[-j1][configure][target=a]' --build=a --target=a
    row '[-j1][configure][target=a]' --build=a
    row '[-j1][configure][host_os=linux-gnu][target=x86_64-pc-linux-gnu][-q]' --build=x86_64-linux-gnu -q
    row '[-j1][configure][host_os=linux-gnu][target=x86_64-pc-linux-gnu][host_os=b]' --build=x86_64-linux-gnu host_os=b
    row '[-j1][configure]' --build= --target=
    # All parts, and the names that config.sub gives
    printf 'usage: acrun configure\n  %s\n' > ../help host 'host_cpu  a' host_vendor host_os 'build b' build_cpu build_vendor build_os target \
        target_cpu target_vendor target_os
    row "[-j1][configure]$(parts_of host)$(parts_of build)$(parts_of target)[-q]" --build=x86_64-linux-gnu --host=x86_64-linux-gnu -q
    printf '  host\n  host_cpu\n  host_vendor\n  host_os\n' > ../help
    while read -r given named; do
        cpu=${named%%-*} os=${named#*-*-} vendor=${named#*-}
        row "[-j1][configure][host=$named][host_cpu=$cpu][host_vendor=${vendor%%-*}][host_os=$os]" "--build=$given"
    done << 'END'
x86_64-linux-gnu x86_64-pc-linux-gnu
x86_64-linux x86_64-pc-linux-gnu
x86_64-linux-gnux32 x86_64-pc-linux-gnux32
x86_64-linux-musl x86_64-pc-linux-musl
x86_64-pc-linux-gnu x86_64-pc-linux-gnu
x86_64-unknown-linux-gnu x86_64-unknown-linux-gnu
x86_64-redhat-linux-gnu x86_64-redhat-linux-gnu
x86_64-redhat-linux x86_64-redhat-linux-gnu
x86_64-suse-linux x86_64-suse-linux-gnu
x86_64-alpine-linux-musl x86_64-alpine-linux-musl
i386-linux-gnu i386-pc-linux-gnu
i686-linux-gnu i686-pc-linux-gnu
i586-suse-linux i586-suse-linux-gnu
i686-linux i686-pc-linux-gnu
END
    # Names without parts
    row '[-j1][configure][host=a]' --build=a
    row '[-j1][configure][host=x86_64-linux-]' --build=x86_64-linux-
    row '[-j1][configure][host=x86_64--linux]' --build=x86_64--linux
    row '[-j1][configure][host=aarch64-linux-gnu]' --build=aarch64-linux-gnu
    row '[-j1][configure][host=aarch64-a-linux-gnu][host_cpu=aarch64][host_vendor=a][host_os=linux-gnu]' --build=aarch64-a-linux-gnu
    echo 2 > ../status
    row '[-j1][configure]' --build=x86_64-linux-gnu
    rm ../help ../status ../asked
    # The environment stays
    build=1 srcdir=2 name=3 row '[-j1][configure] build=1 srcdir=2 name=3' --build=a --host=a
    acrun_build=a acrun_host=b acrun_target=c acrun_awaits=build acrun_signal=TERM row '[-j1][configure][-q]' -q
    # The number of children at once
    ACRUN_JOBS=4 row '[-j4][configure]'
    ACRUN_JOBS=12 row '[-j12][configure]'
    ACRUN_JOBS=17 row '[-j16][configure]'
    ACRUN_JOBS=0 row '[-j1][configure]'
    ACRUN_JOBS=09 row '[-j1][configure]'
    ACRUN_JOBS=400 row '[-j16][configure]'
    ACRUN_JOBS=x row '[-j1][configure]'
    MAKEFLAGS=' -j8 --jobserver-auth=3,4' row '[-j8][configure]'
    MAKEFLAGS='-j 8' row '[-j8][configure]'
    MAKEFLAGS='w' row '[-j1][configure]'
    DEB_BUILD_OPTIONS='nocheck parallel=32' row '[-j16][configure]'
    DEB_BUILD_OPTIONS='parallel=7,nocheck' MAKEFLAGS=k row '[-j7][configure]'
    ACRUN_JOBS=2 MAKEFLAGS=' -j8' row '[-j2][configure]'
    # A line for each child, if standard error is no terminal
    touch shows
    row '[-j1][configure] lines'
    ACRUN_PROGRESS='' row '[-j1][configure] '
    ACRUN_PROGRESS=no row '[-j1][configure] no'
    DEB_BUILD_OPTIONS='nocheck terse' row '[-j1][configure] unset'
    DEB_BUILD_OPTIONS='terse,parallel=2' row '[-j2][configure] unset'
    DEB_BUILD_OPTIONS='terser' row '[-j1][configure] lines'
    rm shows
    # Words after an error line, unless the environment has an ACRUN_WHY, which may be empty
    touch says
    row '[-j1][configure] 1 ACRUN_WHY=1'
    DEB_BUILD_OPTIONS='terse' row '[-j1][configure] 1 ACRUN_WHY=1'
    ACRUN_WHY='' row '[-j1][configure]  ACRUN_WHY='
    ACRUN_WHY=0 row '[-j1][configure] 0 ACRUN_WHY=0'
    ACRUN_WHY='a b' row '[-j1][configure][-q] a b ACRUN_WHY=a b' -q
    rm says
    # Conftests are removed before the run and after it, and nothing else is.
    touch makes
    others='conftest 1.c conftest-1.c conftest.c.in conftest.h conftest.py conftest0.c conftest01 conftest1. conftest1.c.c conftest1.txt conftest1x conftest7 conftest8.o conftestx.c '
    conftests
    row "[-j1][configure][-q] then $others" -q
    left "$others"
    row '[-j1][configure] then '
    left ''
    conftests
    ACRUN_KEEP='' row "[-j1][configure] then $others"
    left "$others"
    touch conftest1.c conftest
    ACRUN_KEEP=1 row '[-j1][configure] then conftest conftest1.c '
    left 'conftest conftest1.c conftest2 conftest2.c '
    for word in -h --help -V --version; do
        touch conftest1.c conftest
        row "[-j1][configure][-q][$word] then conftest conftest1.c " -q "$word"
        left 'conftest conftest1.c conftest2 conftest2.c '
    done
    # A start that is refused removes nothing.
    touch conftest1.c
    row 'configure: error: acrun does not rename programs: --program-prefix=g' --program-prefix=g
    left 'conftest1.c '
    # The status is handed on, and a signal.
    for number in 0 1 2 77 200 255; do
        echo "exit $number" > ends
        status "$number" "$shell" ./configure
        left ''
    done
    for name in HUP=129 INT=130 TERM=143; do
        echo "kill -s ${name%=*} \$PPID" > ends
        status "${name#*=}" "$shell" ./configure
        left ''
    done
    # shellcheck disable=SC2016
    echo 'kill -s KILL $$' > ends
    status 137 "$shell" ./configure
    left ''
    rm makes ends
    # By its name alone, and from another directory
    said=$($shell configure -q)
    [ "$said" = '[-j1][configure][-q]' ] || { wrong=1; echo "$shell: by its name: $said"; }
    cd build || exit 2
    said=$($shell ../configure -q)
    [ "$said" = '[-j1][configure][--srcdir=..][-q]' ] || { wrong=1; echo "$shell: in build: $said"; }
    said=$($shell ../configure --src=/s)
    [ "$said" = '[-j1][configure][--srcdir=/s]' ] || { wrong=1; echo "$shell: --src: $said"; }
    said=$(ACRUN=/nowhere/acrun $shell ../configure 2>&1)
    [ "$said" = 'configure: error: the program acrun is not in PATH: install it, or set ACRUN to its path' ] || { wrong=1; echo "$shell: without acrun: $said"; }
    cd ..
}

for shell in ${1-dash bash sh}; do
    command -v "$shell" > /dev/null || continue
    [ $# = 0 ] && [ "$shell" = sh ] && is_one_of_these && continue
    rows_of_one_shell
done
if command -v shellcheck > /dev/null; then shellcheck ./configure || wrong=1; fi
[ "$wrong" = 0 ] && echo "wrapper: $rows rows as they should be"
# sh is one of these, if both are there.
for shell in ${1-dash bash}; do
    command -v "$shell" > /dev/null || shell=sh
    python3 "$here/signals.py" "$shell" ./configure || wrong=1
done
exit $wrong
