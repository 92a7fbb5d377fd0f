#!/bin/sh
# Fetches the lists of source packages from the archives that APT uses on this machine, into a directory of its own. The machine's own
# lists stay as they are. The script makes the file apt.conf there, for the option -c of APT.
#   sources.sh DIRECTORY
# Ends with 77 if there is no APT, or if no list can be fetched.
set -u
[ "${1#/}" != "$1" ] || { echo 'sources.sh: the directory is an absolute path' >&2; exit 2; }

skip() {
    echo "ports: all are skipped: $1"
    exit 77
}

command -v apt-get > /dev/null || skip 'there is no apt-get'
eval "$(apt-config shell list Dir::Etc::sourcelist/f parts Dir::Etc::sourceparts/d)"
mkdir -p "$1/parts" "$1/lists/partial" "$1/cache/archives/partial" || exit 2
# As root, APT fetches as another user, who has to reach the directory.
chmod 755 "$1"

# Each entry of the machine, in either format, becomes one for sources.
for file in "${list-}" "${parts-}"/*.list; do
    [ ! -f "$file" ] || sed -n -E 's/^[ 	]*deb(-src)?[ 	]/deb-src /p' "$file"
done > "$1/sources.list"
for file in "${parts-}"/*.sources; do
    [ ! -f "$file" ] || { sed -E 's/^[Tt]ypes:.*/Types: deb-src/' "$file"; echo; }
done > "$1/parts/all.sources"
cat > "$1/apt.conf" << END
Dir::Etc::sourcelist "$1/sources.list";
Dir::Etc::sourceparts "$1/parts/";
Dir::State::Lists "$1/lists/";
Dir::Cache "$1/cache/";
#clear APT::Update::Pre-Invoke;
#clear APT::Update::Post-Invoke;
#clear APT::Update::Post-Invoke-Success;
END
apt-get -c "$1/apt.conf" -q update > "$1/update.out" 2>&1
for file in "$1"/lists/*_Sources*; do
    [ ! -f "$file" ] || exit 0
done
tail -n 5 "$1/update.out"
skip 'APT fetches no list of source packages'
