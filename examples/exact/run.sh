#!/bin/sh
# Holds what `acrun port` calls exact against Autoconf: the sources of sources.txt, those of examples/port about shell text, and 200 that
# tools/fuzz_exact.py makes. What `acrun port --idioms` leaves otherwise has to be stated: 40 more sources. A line of sources.txt is a name,
# the settings of its runs, which that script has, and a text, with escapes as printf has them.
#   run.sh PROGRAM [COUNT]    COUNT sources are made in place of 200, and a fifth of it in place of 40
here=$(realpath "$(dirname "$0")") || exit 2
for name in autoconf m4 cc python3; do
    command -v "$name" > /dev/null || { echo "exact: skipped, since there is no $name here"; exit 0; }
done
case $(autoconf --version | head -n 1) in
    *' 2.71') ;;
    *) echo 'exact: skipped, since this is not Autoconf 2.71'; exit 0 ;;
esac
said=$(mktemp) || exit 2
trap 'rm -f "$said"' EXIT
for words in --stored "--count ${2:-200} --runs 1" "--idioms --count $((${2:-200} / 5)) --runs 1"; do
    python3 "$here/../../tools/fuzz_exact.py" "$1" $words > "$said" || { cat "$said"; exit 1; }
    echo "exact: $(tail -n 1 "$said")"
done
