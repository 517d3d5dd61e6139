#!/bin/sh
# Prints how long a run by the meaning takes for a unit of a loop, and how much memory is held at
# most with half a million live calls, beside that of the loop.
set -eu
cd "$(dirname "$0")"
program=$(./built.sh bench generate 1 1)
for word in loop calls; do
    units=$("$program" interp $word | sed -n 's/^Ended after \([0-9]*\) units$/\1/p')
    result=$(./best_of_five.sh "$program" interp $word)
    best=${result%% ms*}
    echo "$word: $units units, $((best * 1000000 / units)) ns each; $result"
done
