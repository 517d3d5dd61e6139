#!/bin/sh
# Runs a command, drops what it writes, and prints the most kilobytes of memory that it held, as GNU
# time tells or, without it, as /proc tells 100 times a second. Of a command that starts others, GNU
# time tells the largest and /proc the command alone: peak.sh COMMAND
set -eu
if [ -x /usr/bin/time ]; then
    /usr/bin/time -f %M "$@" 2>&1 >/dev/null | tail -n 1
    exit
fi
"$@" >/dev/null 2>&1 &
most=0
while held=$(awk '$1 == "VmHWM:" { print $2 }' "/proc/$!/status" 2>/dev/null) && [ "$held" ]; do
    most=$held
    sleep 0.01
done
echo "$most"
