#!/bin/sh
# Configures a package whose compiler loses its permission to be executed after the first of three checks: with the script that Autoconf
# 2.71 makes, and with acrun, which is then started again with the compiler in order. Prints both side by side, without the lines that are
# about neither these checks nor the outputs, and compares that with what README.md shows. Without Autoconf 2.71 it passes over the
# left half, and says so. Ends with 1 if anything differs, and with 0 if there is no C compiler.
#   run.sh PROGRAM
set -u
acrun=$(realpath "$1") || exit 2
root=$(realpath "$(dirname "$0")/../..") || exit 2
if ! command -v cc > /dev/null; then
    echo "lost_compiler: there is no cc, so nothing was run"
    exit 0
fi
work=$(mktemp -d) || exit 2
trap 'rm -rf "$work"' EXIT
unset CC CFLAGS CPPFLAGS LDFLAGS LIBS CONFIG_SITE ACRUN_WHY ACRUN_PROGRESS
LC_ALL=C
export LC_ALL
mkdir "$work/theirs" "$work/ours" || exit 2
cat > "$work/theirs/configure.ac" <<'SOURCE'
AC_INIT([demo], [1.0])
AC_CONFIG_HEADERS([config.h])
AC_PROG_CC
AC_CHECK_HEADERS([sys/time.h sys/wait.h termios.h])
AC_OUTPUT
SOURCE
printf '#undef HAVE_SYS_TIME_H\n#undef HAVE_SYS_WAIT_H\n#undef HAVE_TERMIOS_H\n' > "$work/theirs/config.h.in"
# The compiler does its work, and takes its own permission away once it has seen the first of the three headers.
cat > "$work/theirs/compiler" <<'SOURCE'
#!/bin/sh
cc "$@"
status=$?
if grep -s -q '^#include <sys/time.h>' conftest.c conftest1.c; then chmod a-x "$0"; fi
exit "$status"
SOURCE
chmod 755 "$work/theirs/compiler"
cp -p "$work/theirs/"* "$work/ours" || exit 2

# shown TITLE COMMAND..: the title, the lines of the command that are shown, and its exit status.
shown() {
    echo "$1"
    shift
    "$@" > "$work/printed" 2>&1
    status=$?
    grep -E '^(checking for (sys/time|sys/wait|termios)\.h|config\.status: creating|configure: cut)' "$work/printed"
    echo "exit status $status"
}

: > "$work/left"
has_left=no
case $(autoconf --version 2> /dev/null | head -n 1) in
*' 2.71')
    has_left=yes
    cd "$work/theirs" && autoconf && shown 'Autoconf 2.71: ./configure' ./configure CC="$work/theirs/compiler" > "$work/left"
    ;;
*) echo "lost_compiler: there is no Autoconf 2.71, so its half was not run" ;;
esac
cd "$work/ours" || exit 2
{
    shown 'acrun configure -C' "$acrun" configure -C CC="$work/ours/compiler"
    chmod 755 compiler && sed -i 's/^if grep.*//' compiler
    echo
    shown 'acrun configure -C    # the same command again' "$acrun" configure -C CC="$work/ours/compiler"
} > "$work/right"

# Both halves side by side, as README.md has them.
awk 'FILENAME == ARGV[1] { left[++most] = $0; next }
    { line = sprintf("%-40s%s", left[FNR], $0); sub(/ +$/, "", line); print line }' "$work/left" "$work/right" > "$work/both"
sed -n '/^Autoconf 2\.71: \.\/configure/,/^```$/p' "$root/README.md" | sed '$d' > "$work/wanted"
if [ "$has_left" = no ]; then
    awk '{ line = sprintf("%-40s%s", "", substr($0, 41)); sub(/ +$/, "", line); print line }' "$work/wanted" > "$work/right.wanted"
    mv "$work/right.wanted" "$work/wanted"
fi
cat "$work/both"
if ! cmp -s "$work/both" "$work/wanted"; then
    echo 'lost_compiler: README.md shows'
    cat "$work/wanted"
    exit 1
fi
