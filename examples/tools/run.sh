#!/bin/sh
# Puts other programs in the place of acrun-tools, which acrun starts for lint, port, header and why, and looks at what acrun then does.
#   run.sh PROGRAM      PROGRAM has its own acrun-tools beside it
set -u
acrun=$(realpath "$1") || exit 2
root=$(realpath "$(dirname "$0")/../..") || exit 2
own=$(dirname "$acrun")/acrun-tools
[ -x "$own" ] || { echo "tools: there is no $own"; exit 1; }
folder=$(mktemp -d) || exit 2
trap 'chmod -R u+rwx "$folder"; rm -rf "$folder"' EXIT
folder=$(realpath "$folder")
unset ACRUN_WHY ACRUN_PROGRESS NO_COLOR
version=$(sed -n 's/^pub const VERSION: &str = "\(.*\)";$/\1/p' "$root/crates/cmd_help/src/texts.rt")
bin=$folder/bin tools=$folder/bin/acrun-tools
mkdir "$bin" "$folder/work" "$folder/hostile" "$folder/links" && cp "$acrun" "$bin/acrun" && cd "$folder/work" || exit 2
rows=0 wrong=0

# An acrun-tools that must not be started is first in PATH, in the current directory, and beside a link to acrun.
printf '#!/bin/sh\n: > "%s/started"\n' "$folder" > "$folder/hostile/acrun-tools"
chmod +x "$folder/hostile/acrun-tools"
cp "$folder/hostile/acrun-tools" . && cp "$folder/hostile/acrun-tools" "$folder/links" || exit 2
ln -s ../bin/acrun "$folder/links/acrun" && ln -s ../links/acrun "$folder/hostile/acrun" || exit 2
PATH=$folder/hostile:.:$PATH
printf 'AC_INIT([demo],[1.0])\nAC_NOPE\nAC_OUTPUT\n' > configure.ac

# stub: what stands in the place of acrun-tools, from standard input
stub() { rm -rf "$tools"; cat > "$tools"; chmod +x "$tools"; }

# expect TITLE STATUS OUT ERR COMMAND..: its status, what it prints, and the first line of standard error. A `*` in ERR is for any text.
expect() {
    title=$1 status=$2 out=$3 err=$4
    shift 4
    rows=$((rows + 1))
    "$@" > "$folder/out" 2> "$folder/err"
    found=$?
    first=$(head -n 1 "$folder/err")
    # The pattern is not quoted, so that its `*` counts.
    case $first in $err) is_err=1 ;; *) is_err=0 ;; esac
    if [ "$found" != "$status" ] || [ "$(cat "$folder/out")" != "$out" ] || [ "$is_err" = 0 ]; then
        wrong=1
        printf 'tools: %s: status %s, not %s; it prints "%s", not "%s", and says "%s", not "%s"\n' \
            "$title" "$found" "$status" "$(cat "$folder/out")" "$out" "$first" "$err"
    fi
}

# What can't be started. Nothing is read before: what comes on standard input is left for the next command.
rest() { echo text | { "$@"; status=$?; cat; exit "$status"; }; }
for words in 'lint -' 'port -' 'header -' 'why a'; do
    rm -rf "$tools"
    expect "no tools, $words" 2 text "acrun: tools $tools: No such file or directory" rest acrun $words
    ln -s nothing "$tools"
    expect "tools are a link to nothing, $words" 2 text "acrun: tools $tools: No such file or directory" rest acrun $words
    stub < /dev/null
    chmod a-x "$tools"
    expect "tools that are not executable, $words" 2 text "acrun: tools $tools: Permission denied" rest acrun $words
    rm -f "$tools" && mkdir "$tools"
    expect "tools are a directory, $words" 2 text "acrun: tools $tools: Permission denied" rest acrun $words
    printf 'echo started\n' | stub
    expect "tools that are no program, $words" 2 text "acrun: tools $tools: Exec format error" rest acrun $words
    stub < /dev/null
    expect "tools that are empty, $words" 2 text "acrun: tools $tools: Exec format error" rest acrun $words
    printf '#!/nowhere/sh\n' | stub
    expect "tools whose interpreter is missing, $words" 2 text "acrun: tools $tools: No such file or directory" rest acrun $words
done
printf '#!/bin/sh\nexit 0\n' | stub
expect 'a word that is not UTF-8' 2 text 'acrun: tools *' rest acrun lint "$(printf 'a\377')"
if unshare -m true 2> /dev/null; then
    no_proc() { unshare -m sh -c 'mount --make-rprivate / && umount -l /proc && exec "$@"' sh "$@"; }
    [ "$(no_proc ls /proc 2>&1)" != '' ] || expect 'no /proc' 2 '' 'acrun: tools *' no_proc acrun lint
fi

# What is started: the words, the environment, the directory and the streams are those of acrun.
stub << 'END'
#!/bin/sh
printf '<%s>' "$@"
END
long=$(yes 'a long word' | head -n 5000 | tr -d '\n')
for command in lint port header why; do
    expect "words of $command" 0 "<--acrun=$version><$command>" '' acrun "$command"
    expect "more words of $command" 0 "<--acrun=$version><$command><><a b><'><\"><\$HOME \`x\` \\><*><--acrun=0><--><-><
><é>" '' \
        acrun "$command" '' 'a b' "'" '"' '$HOME `x` \' '*' --acrun=0 -- - '
' 'é'
    expect "a long word of $command" 0 "<--acrun=$version><$command><$long><>" '' acrun "$command" "$long" ''
done
stub << 'END'
#!/bin/sh
tr '\0' '\n' < /proc/$$/environ
pwd -P
cat
echo on standard error >&2
END
given() { printf 'given\ntext' | env -i 'A=x y' B= "C='\"" "$bin/acrun" lint -; }
expect 'environment, directory and streams' 0 "A=x y
B=
C='\"
$folder/work
given
text" 'on standard error' given
stub << 'END'
#!/bin/sh
for number in 4 5 6 7 8 9; do [ ! -e "/proc/$$/fd/$number" ] || echo "$number"; done
END
more() { "$bin/acrun" lint 5> "$folder/five" 9< configure.ac; }
expect 'other descriptors' 0 '' '' more
printf '#!/bin/sh\nexit "$3"\n' | stub
for status in 0 1 2 3 77 255; do
    expect "status $status" "$status" '' '' acrun why "$status"
done
printf '#!/bin/sh\nkill -s "$3" "$$"\nsleep 10\n' | stub
expect 'tools that are killed' 137 '' '' acrun why KILL
expect 'tools that are terminated' 143 '' '' acrun why TERM
expect 'tools that a hangup ends' 129 '' '' acrun why HUP

# If the parent ignores SIGCHLD, acrun can't wait for the tools, and says so after they have ended.
if env --ignore-signal=CHLD true 2> /dev/null; then
    printf '#!/bin/sh\necho all\n' | stub
    expect 'SIGCHLD is ignored' 2 all "acrun: tools $tools: No child processes" env --ignore-signal=CHLD "$bin/acrun" lint
fi

# TERM to acrun alone ends acrun, and the tools go on.
stub << END
#!/bin/sh
: > "$folder/begun"
sleep 1
: > "$folder/done"
END
there() {
    for _ in 1 2 3 4 5 6 7 8 9 10 11 12 13 14 15 16 17 18 19 20; do
        [ ! -e "$1" ] || return 0
        sleep 0.5
    done
    return 1
}
"$bin/acrun" lint > /dev/null 2>&1 &
job=$!
rows=$((rows + 1))
there "$folder/begun" && kill -s TERM "$job"
wait "$job" 2> /dev/null
status=$?
if [ "$status" != 143 ] || [ -e "$folder/done" ] || ! there "$folder/done"; then
    wrong=1
    echo "tools: TERM to acrun alone: it ends with $status, and the tools do not go on after it"
fi

# Which acrun-tools is started: the one beside the program, however acrun was called.
printf '#!/bin/sh\necho beside\n' | stub
expect 'by PATH' 0 beside '' acrun lint
expect 'by its path' 0 beside '' "$bin/acrun" lint
expect 'by a path from here' 0 beside '' ../bin/acrun lint
expect 'by a link' 0 beside '' "$folder/links/acrun" lint
expect 'by a link to a link' 0 beside '' "$folder/hostile/acrun" lint
expect 'without PATH' 0 beside '' env -u PATH "$bin/acrun" lint
expect 'with an empty PATH' 0 beside '' env PATH= "$bin/acrun" lint
ln "$bin/acrun" "$bin/another" && expect 'by another name' 0 beside '' "$bin/another" lint
rm -f "$bin/another"

# Other words start nothing.
cp "$folder/hostile/acrun-tools" "$tools"
printf 'AC_INIT([demo],[1.0])\nAC_OUTPUT\n' > plain.ac
mkdir plain && cp plain.ac plain/configure.ac && cd plain || exit 2
rows=$((rows + 1))
{
    acrun configure; acrun status; acrun status --recheck; acrun help; acrun help lint; acrun --version; acrun -h; acrun -V
    acrun standin -c conftest.c; acrun < configure.ac; acrun lints; acrun -j4 lint; acrun Lint; acrun tools; acrun --acrun=0 lint
} > /dev/null 2>&1
cd .. || exit 2
[ ! -e "$folder/started" ] || { wrong=1; echo 'tools: an acrun-tools is started that must not be'; }

# The tools of another version.
printf '#!/bin/sh\necho "acrun: tools acrun-tools: another version" >&2\nexit 2\n' | stub
expect 'tools of another version' 2 text 'acrun: tools acrun-tools: another version' rest acrun lint -
for other in 0 "$version.1" '' "$version "; do
    expect "its tools, for acrun '$other'" 2 text 'acrun: tools acrun-tools: another version' rest "$own" "--acrun=$other" lint -
done

# acrun-tools by hand does the same as acrun.
cp "$own" "$tools"
for words in lint 'lint --json' 'lint -' 'lint nothing' port 'port -' 'port --idioms' 'port nothing' header 'header -' 'header nothing' why 'why AC_NOPE' 'lint --nope'; do
    acrun $words < configure.ac > "$folder/first" 2>&1
    status=$?
    for front in '' "--acrun=$version"; do
        rows=$((rows + 1))
        "$own" $front $words < configure.ac > "$folder/second" 2>&1
        found=$?
        if [ "$found" != "$status" ] || ! cmp -s "$folder/first" "$folder/second"; then
            wrong=1
            echo "tools: acrun-tools $front $words: status $found, and acrun has $status, or they print different texts"
        fi
    done
done
for words in configure status 'status --recheck' 'standin -c a.c' -j4 nope ''; do
    expect "acrun-tools $words" 2 text 'acrun: usage' rest "$own" $words
done

[ "$wrong" = 0 ] && echo "tools: $rows rows as they should be"
exit "$wrong"
