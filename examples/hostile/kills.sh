#!/bin/sh
# Kills runs with a cache at 300 moments, and starts them again: the second run is as one that was not killed (tools/kill_and_resume.py).
#   kills.sh PROGRAM
command -v python3 > /dev/null && command -v gcc > /dev/null || exit 77
python3 "$(dirname "$0")/../../tools/kill_and_resume.py" "$1" --sources 40 --moments 6 --no-tally > kills.out || { cat kills.out; exit 1; }
