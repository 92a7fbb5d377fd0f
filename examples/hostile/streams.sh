#!/bin/sh
# Gives the program streams that don't wait (O_NONBLOCK), as some parents leave them, and reads them late: no line is lost.
#   streams.sh PROGRAM
set -u
acrun=$(realpath "$1") || exit 2
folder=$(mktemp -d) || exit 2
trap 'rm -rf "$folder"' EXIT
cd "$folder" || exit 2
{
    echo 'AC_INIT([demo],[1.0])'
    i=0
    while [ $i -lt 4000 ]; do
        echo "AC_MSG_NOTICE([this is line $i of standard output])"
        echo "AC_MSG_WARN([this is line $i of standard error])"
        i=$((i + 1))
    done
    echo 'AC_OUTPUT'
} > configure.ac
"$acrun" configure > out 2> err || exit 2
python3 - "$acrun" <<'Y'
import fcntl, os, subprocess, sys, threading, time

def late(read):
    """All that a pipe gives, of which nothing is read for half a second."""
    time.sleep(0.5)
    found = b""
    while piece := os.read(read, 4096):
        found += piece
        time.sleep(0.001)
    return found

wrong = 0
for name, stream in (("out", 1), ("err", 2)):
    read, write = os.pipe()
    fcntl.fcntl(write, fcntl.F_SETFL, fcntl.fcntl(write, fcntl.F_GETFL) | os.O_NONBLOCK)
    streams = {"stdout": subprocess.DEVNULL, "stderr": subprocess.DEVNULL, ("stdout", "stderr")[stream - 1]: write}
    child = subprocess.Popen([sys.argv[1], "configure"], **streams)
    os.close(write)
    found = late(read)
    status = child.wait()
    if status != 0 or found != open(name, "rb").read():
        wrong = 1
        print(f"streams: std{name}: status {status}, {len(found)} bytes of {os.path.getsize(name)}")
sys.exit(wrong)
Y
wrong=$?
[ "$wrong" = 0 ] && echo 'streams: no line was lost that was read late'
exit "$wrong"
