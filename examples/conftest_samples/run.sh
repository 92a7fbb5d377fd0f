#!/bin/sh
# Does what the jobs of the crate `conftest` say, with a real compiler, and looks whether each succeeds or fails as it
# should. The words and the texts come from the crate itself, by the program of crates/tests_compiler.
#   run.sh PROGRAM
# The compiler is the one that CC names, and `cc` where CC is unset.
set -uf
samples=$(realpath "$1") || exit 2
CC=${CC:-cc}
if ! command -v "${CC%% *}" > /dev/null 2>&1; then
    echo "conftest samples: there is no ${CC%% *} here; nothing was tried"
    exit 0
fi
directory=$(mktemp -d) || exit 2
trap 'rm -rf "$directory"' EXIT
cd "$directory" || exit 2
"$samples" > samples || exit 2
wrong=0
count=0
while read -r name how wanted; do
    rm -f conftest conftest.c conftest.o
    "$samples" "$CC" "$name" > job || exit 2
    sed 1d job > conftest.c
    found=no
    # The words are split at blanks, as the crate does it.
    if $(sed 1q job) > said 2>&1; then
        found=yes
        if [ "$how" = run ] && ! ./conftest >> said 2>&1; then
            found=no
        fi
    fi
    count=$((count + 1))
    if [ "$found" != "$wanted" ]; then
        wrong=$((wrong + 1))
        echo "$name: $found, not $wanted: $(sed 1q job)"
        cat said
    fi
done < samples
echo "conftest samples: $count tried with $CC, $wrong wrong"
[ "$count" -gt 0 ] && [ "$wrong" -eq 0 ]
