#!/bin/sh
# Makes the edits of a package anew, of files that were edited by hand.
#   edits.sh UNEDITED EDITED EDITS
# UNEDITED has the files of the archive, and EDITED the same after they were edited. Of each file that differs a file below EDITS is made,
# as apply.sh reads it. Files that are in one of the two alone are passed over.
set -u
rm -rf "$3"
(cd "$2" && find . -name autom4te.cache -prune -o -type f -print) | while IFS= read -r file; do
    [ -f "$1/$file" ] && ! cmp -s "$1/$file" "$2/$file" || continue
    mkdir -p "$(dirname "$3/$file")"
    { echo "sum $(sha256sum < "$1/$file" | cut -d ' ' -f 1)"; diff -n "$1/$file" "$2/$file"; } > "$3/$file"
    echo "${file#./}: $(grep -c '' "$3/$file") lines"
done
