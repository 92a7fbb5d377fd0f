#!/bin/sh
# Applies edits to the files of a directory, after it has checked that each file is the one that they are of.
#   apply.sh EDITS DIRECTORY
# Each file below EDITS has the edits of the file of the same name below DIRECTORY: a line `sum SHA256` of that file, and then what
# `diff -n` prints of it and of the edited one. So it has the new lines alone, and none of the file. Ends with 1 if a file is another one,
# and the script says which; that file is left as it is.
set -u
status=0
for edits in $(cd "$1" && find . -type f | sort); do
    file=$2/$edits
    read -r word sum < "$1/$edits"
    if [ "$word" != sum ] || [ "$(sha256sum < "$file" | cut -d ' ' -f 1)" != "$sum" ]; then
        echo "${edits#./}: the edits are of another file"
        status=1
        continue
    fi
    awk -v edits="$1/$edits" '
        BEGIN {
            while ((getline line < edits) > 0) {
                split(substr(line, 2), number, " ")
                if (line ~ /^d/) for (i = 0; i < number[2]; i++) gone[number[1] + i] = 1
                if (line ~ /^a/) for (i = 0; i < number[2]; i++) { getline line < edits; added[number[1]] = added[number[1]] line "\n" }
            }
            printf "%s", added[0]
        }
        !(NR in gone) { print }
        NR in added { printf "%s", added[NR] }' "$file" > "$file.edited" && cat "$file.edited" > "$file"
    rm -f "$file.edited"
done
exit $status
