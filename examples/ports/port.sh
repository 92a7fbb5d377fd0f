# Moves a package of Debian over to acrun: NAME/edits has what `acrun port` can't do in its configure.ac, and what is to be done in the
# templates, and `acrun port --idioms` does the rest. The result is configured with acrun, and beside it the original and the result with
# Autoconf. All three have to agree by share/acrun-compare, but for what is named. Then it builds the package with acrun's files and runs its
# tests.
#   port.sh PROGRAM NAME LISTS
# LISTS is the directory that sources.sh filled: APT fetches the archive, and the checksum decides whether it is the one that is meant.
# NAME/settings sets the variables below:
#   source, version, sum   the name of Debian's source package, the version of the package, and the SHA-256 of its archive
#   prepare      commands that make configure.ac and the templates of what the archive has, if they aren't there
#   autoconf     commands that make the package's own script, `autoconf` if there are none
#   tests        commands that run the package's own tests
#   tools        commands that the tests need
# NAME/known has the differences that may be there, as `acrun-compare -x` reads them, and why. What docs/language.md and docs/migrate.md name as a
# difference from Autoconf, and `acrun-compare -k` leaves out, isn't there.
# The edits are of configure.ac and templates alone, as the archive has them, and have the new lines alone: see apply.sh. `acrun port` has
# to leave nothing after them. What is needed: the network, APT with an archive of Debian, make, a C compiler, Autoconf 2.71, and the
# libraries of the package. If one is missing, or if the machine's archives have the package in another version alone, it says so and ends
# with 77. It ends with 1 if something is otherwise than it should be.
# If ROWS is set in the environment, it prints the package's rows of docs/ports.md too.
# If PORTED=DIRECTORY is set, it copies the sources there as they are moved over, with no script of Autoconf, and ends: it needs no Autoconf
# then.
# To make the edits anew, set UNEDITED=DIRECTORY in the environment, which copies the sources there, edit a copy of them, and set
# EDITED=COPY, which first makes the edits of it. Both are absolute paths.
set -u
acrun=$(realpath "$1") || exit 2
here=$(realpath "$(dirname "$0")/$2") || exit 2
name=$2
share=$(realpath "$(dirname "$0")/../../share") || exit 2
lists=$3
work=$(mktemp -d) || exit 2
trap 'rm -rf "$work"' EXIT
mkdir "$work/bin" "$work/ours" "$work/theirs" && ln -s "$acrun" "$work/bin/acrun" || exit 2
PATH=$work/bin:$PATH:/usr/sbin:/sbin
unset CC CFLAGS CPPFLAGS LDFLAGS LIBS CONFIG_SITE MAKEFLAGS MFLAGS MAKELEVEL
status=0
. "$here/settings"

skip() {
    echo "$name: skipped: $1"
    exit 77
}

wrong() {
    echo "$name: $1"
    status=1
}

# Fetches the archive, and sets $archive to its path. Debian's version of the package is the one whose archive has the sum.
fetch() {
    apt-cache -c "$lists/apt.conf" showsrc --only-source "$source" > "$work/known" 2> "$work/fetch.out"
    awk -v sum="$sum" 'BEGIN { RS = ""; FS = "\n" }
        { for (i = 1; i <= NF; i++) {
              split($i, word, " ")
              if (word[1] == "Version:") version = word[2]
              if (word[1] == sum) file = word[3]
          }
          if (file != "") { print version, file; exit } }' "$work/known" > "$work/found"
    if [ ! -s "$work/found" ]; then
        others=$(sed -n 's/^Version: //p' "$work/known" | sort -u | paste -s -d ' ' -)
        skip "it is tried in version $version, and the archives of this machine have ${others:-none}; no archive has the sum $sum"
    fi
    read -r debian_version file < "$work/found"
    archive=$work/$file
    (cd "$work" && apt-get -c "$lists/apt.conf" -q source --download-only --tar-only "$source=$debian_version") >> "$work/fetch.out" 2>&1
    [ -f "$archive" ] || { tail -n 3 "$work/fetch.out"; skip "APT can't fetch $file"; }
    [ "$(sha256sum < "$archive" | cut -d ' ' -f 1)" = "$sum" ] || { wrong 'the archive is another one'; exit 1; }
}

# Applies the edits, and ports what they leave.
move() {
    sh "$here/../apply.sh" "$here/edits" . || { wrong 'the edits do not apply'; exit 1; }
    cp -R . "$work/edited"
    acrun port --idioms "$work/edited/configure.ac" > configure.ac || wrong 'port leaves something to do'
}

# Compares what acrun made with what Autoconf made in another directory, of sources that the second word names.
compare() {
    sh "$share/acrun-compare" -k -x "$here/known" "$1" "$work/ours" > "$work/compared" || {
        wrong "the outputs differ from those of $2 in"
        cat "$work/compared"
    }
    grep '^# nothing differs as line' "$work/compared" >> "$work/unneeded"
}

# Prints how long a command takes in a directory.
seconds() {
    cd "$1" || exit 2
    shift
    began=$(date +%s%N)
    "$@" > /dev/null 2>&1 || wrong "$* fails"
    echo "$began $(date +%s%N)" | awk '{ printf "%.2f s", ($2 - $1) / 1000000000 }'
}

# How many lines differ between two files, counted in both, without comments of `acrun port`.
changed() {
    diff "$1" "$2" | grep '^[<>]' | grep -c -v '^> dnl acrun: '
}

# Prints the package's rows of the tables: it ports the original, and configures copies of the sources, made before they were configured.
rows() {
    acrun port "$work/unedited/configure.ac" > "$work/exact"
    acrun port --idioms "$work/unedited/configure.ac" > "$work/idioms"
    by_hand=0
    for file in $(cd "$here/edits" && find . -type f); do
        by_hand=$((by_hand + $(changed "$work/unedited/$file" "$work/edited/$file")))
    done
    echo "| $name $version | $(wc -l < "$work/unedited/configure.ac") | $(changed "$work/unedited/configure.ac" "$work/exact") |" \
        "$(changed "$work/unedited/configure.ac" "$work/idioms") | $by_hand |" \
        "$(changed "$work/edited/configure.ac" "$work/both/configure.ac") |"
    one=$(seconds "$work/one" acrun -j1 configure)
    four=$(seconds "$work/four" acrun -j4 configure -C)
    cached=$(seconds "$work/four" acrun -j4 configure -C)
    autoconf=$(seconds "$work/autoconf" ./configure)
    echo "| $name $version | $checks | $one | $four | $cached | $autoconf |"
}

for tool in apt-get make cc ${tools-}; do
    command -v "$tool" > /dev/null || skip "there is no $tool"
done
[ -n "${PORTED-}" ] || autoconf --version 2> /dev/null | grep -q '^autoconf .* 2\.71$' || skip 'there is no Autoconf 2.71'
fetch
tar xf "$archive" -C "$work/ours" --strip-components=1
cd "$work/ours" && eval "${prepare-}" || exit 2
if [ -n "${PORTED-}" ]; then
    move
    rm -f configure
    mkdir -p "$PORTED" && cp -R . "$PORTED" || exit 2
    exit $status
fi
cp -R . "$work/theirs"

# Autoconf keeps a script that is newer than its source, such as the one of the archive that another Autoconf made.
cd "$work/theirs" && rm -f configure && eval "${autoconf-autoconf}" > autoconf.out 2>&1 || { wrong 'Autoconf makes no script of it'; exit 1; }
[ -z "${ROWS-}" ] || cp -R . "$work/autoconf"
./configure -q > configure.out 2>&1 || { tail -n 3 configure.out; skip 'its own configure fails on this machine, so there is nothing to compare with'; }

cd "$work/ours" || exit 2
cp -R . "$work/unedited"
[ -z "${UNEDITED-}" ] || { mkdir -p "$UNEDITED" && cp -R . "$UNEDITED"; }
[ -z "${EDITED-}" ] || sh "$here/../edits.sh" "$work/unedited" "$(realpath "$EDITED")" "$here/edits"
move
[ -z "${ROWS-}" ] || { cp -R . "$work/one" && cp -R . "$work/four"; }
cp -R . "$work/both"
acrun lint --json . | grep -q '"severity":"error"' && wrong 'lint finds an error'
acrun -j4 configure -q -C || { wrong "acrun configure ends with $?"; exit 1; }
(cd "$work/both" && rm -f configure && autoconf && ./configure -q) > both.out 2>&1 || { wrong 'Autoconf does not take the ported source'; exit 1; }
compare "$work/theirs" 'the original'
compare "$work/both" 'the ported source with Autoconf'
sort "$work/unneeded" | uniq -d | sed "s/^# nothing differs as/$name: nothing differs here as/"
checks=$(grep -c '^checking' config.log)
make -s > make.out 2>&1 || { wrong 'make fails'; tail -n 5 make.out; }
(eval "$tests") > tests.out 2>&1 || { wrong 'its tests fail'; tail -n 5 tests.out; }
[ "$status" = 0 ] && echo "$name: $checks checks, equal but for what is named, built and tested"
[ -z "${ROWS-}" ] || rows
exit $status
