#!/bin/sh
# Holds the lists of docs/trust.md against the calls of the system that strace shows: what the program starts, opens, makes, renames and
# removes. Each call that changes something, and each opening, has to be one that the page lists.
#   calls.sh PROGRAM     in an empty directory
set -u
program=$1 tools=$(dirname "$1")/acrun-tools
cc=$(command -v cc) || { echo 'calls: skipped, as there is no cc'; exit 77; }
if ! command -v strace > /dev/null || ! strace -f -o trace true 2> /dev/null; then
    echo 'calls: skipped, as there is no strace that works'
    exit 77
fi
wrong=0 rows=0
mkdir -p source/sub build build/sub/dir
cat > source/configure.ac << 'END'
AC_INIT([a],[1])
AC_ARG_VAR([NAME],[a word])
AC_PROG_CC
AC_CHECK_HEADERS([stdio.h no/such.h])
AC_CHECK_FUNC([puts])
AC_PREPROC_IFELSE([AC_LANG_PROGRAM([],[])],[AC_MSG_NOTICE([preprocessed])])
AC_RUN_IFELSE([AC_LANG_PROGRAM([],[])],[AC_MSG_NOTICE([ran])])
AC_CONFIG_FILES([Makefile sub/new/x])
AC_CONFIG_HEADERS([config.h])
AC_OUTPUT
END
mkdir source/sub/new
echo '@PACKAGE_NAME@ @NAME@' | tee source/Makefile.in > source/sub/new/x.in
echo '#undef HAVE_STDIO_H' > source/config.h.in

# Prints what the first process of a trace did and started, and no other, each once. A call that only looks is left out, and so is what the
# loader, the C library and a sanitizer read.
deeds() {
    awk '
    NR == 1 { first = $1; next }
    $1 == first && /(clone|clone3|fork|vfork)(\(| resumed)/ && / = [0-9]+$/ { child[$NF] = 1; next }
    $1 != first && / execve\(/ && !($1 in run) {
        words = $0
        sub(/^[^[]*\[/, "", words)
        sub(/\], 0x.*/, "", words)
        gsub(/\\/, "", words)
        run[$1] = words
    }
    $1 != first || /resumed>|^[0-9]+ +(---|\+\+\+)/ { next }
    {
        line = $0
        sub(/^[0-9]+ +/, "", line)
        call = line
        sub(/\(.*/, "", call)
        if (call ~ /^(access|arch_prctl|brk|clock_gettime|clone|clone3|close|dup2|exit_group|fcntl|fork|fstat|futex|getrandom|getpid|getrlimit|ioctl|lseek|lstat|madvise|mmap|mprotect|mremap|munmap|newfstatat|personality|pipe2|poll|pread64|prlimit64|read|readlink|readlinkat|rseq|rt_sigaction|rt_sigprocmask|sched_getaffinity|sched_yield|set_robust_list|set_tid_address|sigaltstack|sysinfo|stat|statx|uname|vfork|wait4|write|writev|getdents64)$/) next
        if (line ~ /^openat\([^"]*"\/(etc|lib|lib64|usr|proc|sys)\/[^"]*", O_RDONLY/) next
        sub(/ <unfinished \.\.\.>$/, "", line)
        sub(/ += [^=]*$/, "", line)
        sub(/^[a-z0-9]*at\(AT_FDCWD, /, call "(", line)
        print line
    }
    END { for (each in child) print "runs " run[each] }' trace | sort -u
}

# traced DIRECTORY EXPECTED WORD..: the deeds of acrun are those in the file EXPECTED, one pattern of the shell on each line, and it ends
# with 0. Each pattern has a deed.
traced() {
    directory=$1 expected=$2
    shift 2
    traced_of "$program" "$@"
}

# of_tools DIRECTORY EXPECTED WORD..: acrun starts acrun-tools with these words and does nothing else, and the deeds of acrun-tools are those
# in the file EXPECTED.
of_tools() {
    directory=$1 expected=starts deeds_of_tools=$2
    shift 2
    printf 'runs "*acrun-tools", "--acrun=*"' > starts
    printf ', "%s"' "$@" >> starts
    echo >> starts
    traced_of "$program" "$@"
    expected=$deeds_of_tools
    traced_of "$tools" "$@"
}

traced_of() {
    traced=$1
    shift
    rows=$((rows + 1))
    (cd "$directory" && strace -f -s 200 -o ../trace "$traced" "$@" > ../out 2> ../err < /dev/null) || { wrong=1; echo "calls: $*: status $?"; }
    deeds > seen
    sort -u "$expected" > patterns
    : > met
    while IFS= read -r deed; do
        found=''
        while IFS= read -r pattern; do
            # shellcheck disable=SC2254
            case $deed in $pattern) found=$pattern; printf '%s\n' "$pattern" >> met; break ;; esac
        done < patterns
        [ -n "$found" ] || { wrong=1; echo "calls: $* does what is not listed: $deed"; }
    done < seen
    sort -u met | comm -13 - patterns > unmet
    if [ -s unmet ]; then wrong=1; echo "calls: $* does not do:"; cat unmet; fi
}

# Files are opened in these two ways, and in no other.
reading='O_RDONLY|O_NOCTTY|O_CLOEXEC'
making='O_WRONLY|O_CREAT|O_EXCL|O_NOCTTY|O_CLOEXEC, 0666'
opens() { for name; do printf 'openat("%s", %s)\n' "$name" "$reading"; done; }
makes() { for name; do printf 'openat("%s", %s)\n' "$name" "$making"; done; }
templates() { opens ../source/Makefile.in ../source/sub/new/x.in ../source/config.h.in; }
children() {
    cat << 'END'
openat("/dev/null", O_RDONLY|O_NOCTTY|O_CLOEXEC)
openat("/dev/null", O_WRONLY|O_NOCTTY|O_CLOEXEC)
runs "*cc", "-E", "conftest.c"
runs "*cc", "-o", "conftest", "conftest.c"
runs "./conftest"
unlink("conftest")
unlink("conftest.c")
END
    makes conftest.c
}

# The answers of a run with a cache, until it ends.
answers() {
    cat << 'END'
getcwd("*", 4096)
openat("config.answers", O_WRONLY|O_CREAT|O_EXCL|O_NOCTTY|O_CLOEXEC, 0600)
unlink("config.answers")
END
}

{
    children
    answers
    # shellcheck disable=SC2016
    echo 'runs "sh", "-c", "test -f "$1" && test -x "$1"", "sh", "*cc"'
    echo 'runs "*cc", "-c", "conftest[12].c"'
    opens ../source/configure.ac
    templates
    makes 'conftest[12].c' acrun-1.tmp sub/new/acrun-1.tmp config.log
    echo 'mkdir("sub/new", 0777)'
    for name in config.cache config.status Makefile config.h; do echo "rename(\"acrun-1.tmp\", \"$name\")"; done
    echo 'rename("sub/new/acrun-1.tmp", "sub/new/x")'
} > first
traced build first configure --srcdir=../source -C

# In the second run all are there, and keep their permissions. The record keeps no bit to execute it. The answers are in the cache, but for
# those of AC_PREPROC_IFELSE and AC_RUN_IFELSE. What a compiler makes is removed before it, and a link to a cache is followed.
chmod 751 build/Makefile build/config.status
mv build/config.cache cache
ln -s ../cache build/config.cache
ln -s nowhere build/conftest.o
{
    children
    answers
    opens ../source/configure.ac config.cache config.h
    templates
    makes acrun-1.tmp sub/new/acrun-1.tmp config.log
    echo 'unlink("conftest.o")'
    echo 'unlink("config.log")'
    echo 'fchmod([0-9], 0750)'
    echo 'fchmod([0-9], 0640)'
    echo 'fchmod([0-9], 0644)'
    echo 'mkdir("sub/new", 0777)'
    for name in config.status Makefile; do echo "rename(\"acrun-1.tmp\", \"$name\")"; done
    echo 'rename("sub/new/acrun-1.tmp", "sub/new/x")'
} > second
# The link of a cache is read when the cache is compared. It is not written, since it has the same text.
traced build second configure --srcdir=../source -C

# With another cache, the file at the end of the link is replaced.
printf 'a_cv_b=c\n' >> cache
{
    grep -v conftest.o second
    makes ../acrun-1.tmp
    echo 'rename("../acrun-1.tmp", "../cache")'
} > third
chmod 640 build/config.status
traced build third configure --srcdir=../source -C

{
    opens config.status config.h
    templates
    makes acrun-1.tmp sub/new/acrun-1.tmp
    echo 'fchmod([0-9], 0750)'
    echo 'fchmod([0-9], 0644)'
    echo 'mkdir("sub/new", 0777)'
    echo 'rename("acrun-1.tmp", "Makefile")'
    echo 'rename("sub/new/acrun-1.tmp", "sub/new/x")'
} > remade
traced build remade status

{
    children
    answers
    opens config.status ../source/configure.ac config.cache
    makes acrun-1.tmp config.log
    echo 'unlink("config.log")'
    echo 'fchmod([0-9], 0640)'
    echo 'rename("acrun-1.tmp", "config.status")'
} > rechecked
traced build rechecked status --recheck

opens config.log config.status config.cache > asked
of_tools build asked why stdio.h
opens config.status > asked
of_tools build asked why
{ opens configure.ac; opens ./Makefile.in ./sub/new/x.in ./config.h.in; } > reads
of_tools source reads lint configure.ac
of_tools source reads port configure.ac
: > nothing
traced source nothing help configure
traced source nothing --version
opens ./configure.ac > reads
traced source reads configure --help

# What a child has: acrun's environment, and no other descriptors than three.
cat > show.c << 'END'
#include <fcntl.h>
#include <stdio.h>
#include <stdlib.h>
#include <unistd.h>
int main(int argc, char **argv)
{
    char seen[4096];
    int length = 0;
    for (int i = 0; i < 256; i++)
        if (fcntl(i, F_GETFD) != -1) length += sprintf(seen + length, "%d ", i);
    FILE *file = fopen("seen", "w");
    if (argc < 3 || !file) return 2;
    fprintf(file, "%s%s %s\n", seen, getenv("NAME") ? "named" : "unnamed", getenv("MINE") ? "kept" : "lost");
    fclose(file);
    execvp(argv[1], argv + 1);
    return 2;
}
END
if "$cc" -o build/show show.c; then
    rows=$((rows + 1))
    (cd build && MINE=1 "$program" configure -q --srcdir=../source NAME=1 "CC=./show $cc" 9< show 5> five) || { wrong=1; echo 'calls: with descriptors: it fails'; }
    said=$(cat build/seen)
    [ "$said" = '0 1 2 unnamed kept' ] || { wrong=1; echo "calls: a child has: $said"; }
fi
[ "$wrong" = 0 ] && echo "calls: $rows rows as they should be"
exit "$wrong"
