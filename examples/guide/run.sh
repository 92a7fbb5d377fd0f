#!/bin/sh
# Runs what the documents show: each command of their sessions, whose output has to be the one that is printed there, and a run of each block
# of statements and of each statement in a table. Ends with 1 if anything is otherwise, and with 0 if there is no C compiler or no make. An
# indented line below a line `<!-- each ends with 0 -->` is a command, up to two blanks, which has to end with 0.
#   run.sh PROGRAM [DOCUMENT]..
# Without a DOCUMENT it runs those below. A session below a line `<!-- needs PROGRAM.. -->` is passed over if one of these programs isn't
# there. In an output, a line `[N more lines]` is any N lines. A line that begins with `$ ` is a command, unless the output has that line there.
# If WRITE is set in the environment, each DOCUMENT is written with the outputs that were found, except those with such a line.
set -u
acrun=$(realpath "$1") || exit 2
shift
root=$(realpath "$(dirname "$0")/../..") || exit 2
if ! command -v cc > /dev/null || ! command -v make > /dev/null; then
    echo "guide: there is no cc or no make, so its commands were not run"
    exit 0
fi
[ $# -gt 0 ] || set -- README.md docs/tutorial.md docs/migrate.md docs/macros.md docs/troubleshooting.md
work=$(mktemp -d) || exit 2
trap 'rm -rf "$work"' EXIT
mkdir "$work/bin" && ln -s "$acrun" "$work/bin/acrun" && ln -s "$root/share/acrun-compare" "$work/bin/acrun-compare" || exit 2
PATH=$work/bin:$PATH LC_ALL=C
export LC_ALL
unset CC CFLAGS CPPFLAGS LDFLAGS LIBS MAKEFLAGS MFLAGS MAKELEVEL ACRUN_WHY
wrong=0 commands=0 blocks=0

# Prints the wanted output, with the lines that were found in the place of `[N more lines]`.
expand() {
    awk 'FILENAME == ARGV[1] { found[++most] = $0; next }
        /^ *\[[0-9]+ more lines\]$/ { gsub(/[^0-9]/, ""); for (left = $0; left > 0; left--) print found[++at]; next }
        { print; at++ }' "$work/found" "$work/wanted"
}

# Runs the command that was read.
begin_command() {
    . "$work/command" > "$work/found" 2>&1
    commands=$((commands + 1))
}

# Compares the output of the last command, if there is one, with the wanted one.
end_command() {
    [ -s "$work/command" ] || return
    if ! expand | cmp -s "$work/found" -; then
        wrong=1
        echo "$document: '$(head -n 1 "$work/command")' prints"
        cat "$work/found"
        echo "$document: and not"
        cat "$work/wanted"
    fi
    if grep -q -E '^ *\[[0-9]+ more lines\]$' "$work/wanted"; then cat "$work/wanted"; else cat "$work/found"; fi >> "$work/made"
    : > "$work/command"
    : > "$work/wanted"
}

# Returns whether the output of the last command has the line after those that were read.
is_output() {
    [ -s "$work/command" ] && next=$(($(expand | wc -l) + 1)) && [ "$(sed -n "${next}p" "$work/found")" = "$line" ]
}

# Returns whether the programs are there that a session needs, of a line `<!-- needs PROGRAM.. -->`.
has_needed() {
    for each in $needed; do
        if ! command -v "$each" > /dev/null; then
            echo "$document: there is no $each, so a session was not run"
            return 1
        fi
    done
}

# Runs a source that has the block.
run_block() {
    blocks=$((blocks + 1))
    mkdir "$work/block" && { echo 'AC_INIT([guide], [1.0])'; echo AC_PROG_CC; cat "$work/statements"; echo AC_OUTPUT; } > "$work/block/configure.ac"
    (cd "$work/block" && acrun configure -C CC=cc) > "$work/found" 2>&1 || {
        wrong=1
        echo "$document: this block is not run: $(tail -n 1 "$work/found")"
        cat "$work/statements"
    }
    rm -rf "$work/block"
}

# Runs a command whose output isn't shown.
run_quiet() {
    commands=$((commands + 1))
    printf '%s\n' "$line" | sed 's/^ *//; s/  .*//' > "$work/quiet"
    . "$work/quiet" > "$work/found" 2>&1 && return
    wrong=1
    echo "$document: '$(cat "$work/quiet")' doesn't end with 0"
    cat "$work/found"
}

# Runs the sessions and the blocks of a document, in a directory of its own.
run_document() {
    document=$1
    rm -rf "$work/session" && mkdir "$work/session" && cd "$work/session" || exit 2
    : > "$work/command"
    : > "$work/wanted"
    : > "$work/made"
    where=text needed=''
    while IFS= read -r line; do
        case $where:$line in
        session:*) ;;
        *) printf '%s\n' "$line" >> "$work/made" ;;
        esac
        case $where:$line in
        'text:<!-- needs '*) needed=${line#'<!-- needs '} needed=${needed%' -->'} ;;
        'text:<!-- each ends with 0 -->') where=quiet ;;
        'quiet:    '*) run_quiet ;;
        quiet:*) where=text ;;
        'text:```console')
            where=session
            has_needed || where=passed
            needed=''
            ;;
        'passed:```') where=text ;;
        'text:```m4') where=block && : > "$work/statements" ;;
        'text:| `'*'` | `'*'` |')
            statement=${line##*'` | `'}
            printf '%s\n' "${statement%'` |'}" | sed 's/\\|/|/g' > "$work/statements"
            run_block
            ;;
        'session:```')
            end_command
            printf '%s\n' "$line" >> "$work/made"
            where=text
            ;;
        'block:```')
            run_block
            where=text
            ;;
        block:*) printf '%s\n' "$line" >> "$work/statements" ;;
        session:"$ "*"<<'END'")
            end_command
            printf '%s\n' "$line" >> "$work/made"
            printf '%s\n' "${line#??}" > "$work/command"
            where=input
            ;;
        input:END)
            printf '%s\n' "$line" >> "$work/command"
            begin_command
            where=session
            ;;
        input:*) printf '%s\n' "$line" >> "$work/command" ;;
        session:"$ "*)
            if is_output; then
                printf '%s\n' "$line" >> "$work/wanted"
            else
                end_command
                printf '%s\n' "$line" >> "$work/made"
                printf '%s\n' "${line#??}" > "$work/command"
                begin_command
            fi
            ;;
        session:*) printf '%s\n' "$line" >> "$work/wanted" ;;
        esac
    done < "$root/$document"
    [ -z "${WRITE-}" ] || cat "$work/made" > "$root/$document"
}

for each_document; do
    run_document "$each_document"
done
if [ "$wrong" -eq 0 ]; then
    echo "guide: $commands commands and $blocks blocks, each as it should be"
fi
exit "$wrong"
