#!/bin/sh
# Prints how long it takes to assemble 200 procedures of 60 instructions a hundred times, and how
# much memory is held at most.
set -eu
cd "$(dirname "$0")"
program=$(./built.sh bench generate 1 1)
./best_of_five.sh "$program" assemble
