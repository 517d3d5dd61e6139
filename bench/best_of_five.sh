#!/bin/sh
# Runs a command five times, and once more for its memory. Prints the least time that a run took,
# the most memory that it held, and the last line that it wrote: best_of_five.sh COMMAND
set -eu
peak=$("$(dirname "$0")/peak.sh" "$@")
best=
for _ in 1 2 3 4 5; do
    begin=$(date +%s%N)
    output=$("$@" 2>/dev/null)
    end=$(date +%s%N)
    taken=$(((end - begin) / 1000000))
    if [ -z "$best" ] || [ "$taken" -lt "$best" ]; then best=$taken; fi
done
last=$(echo "$output" | tail -n 1)
echo "$best ms, $((peak / 1024)) MB at most${last:+: $last}"
