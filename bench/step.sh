#!/bin/sh
# Prints how many steps a second the machine makes.
set -eu
cd "$(dirname "$0")"
program=$(./built.sh bench generate 1 1)
steps=$("$program" step | sed -n 's/^Ended after \([0-9]*\) steps$/\1/p')
result=$(./best_of_five.sh "$program" step)
best=${result%% ms*}
echo "$steps steps in $best ms, $((steps / best)) thousand steps a second"
