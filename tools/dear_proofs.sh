#!/bin/sh
# The largest proofs of a crate that was checked, in MB: those that the borrow checker's part takes longest for.
#   tools/dear_proofs.sh CRATE [HOW_MANY]
# Proofs of functions that are gone may be among them: the time is that of the last check that wrote one.
find "crates/$1/out/incremental" -name '*Lts*.oantt' -not -path '*/records/*' -printf '%s %TH:%TM %f\n' |
    sort -rn | head -n "${2:-20}" |
    sed 's/Rattle-[a-z0-9_]*-proofs\.//; s/\.oantt$//; s/\.Lts\b//' |
    awk '{ printf "%6.1f  %s  %s\n", $1 / 1e6, $2, $3 }'
