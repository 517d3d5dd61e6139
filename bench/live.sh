#!/bin/sh
# Prints how long it takes to make the largest procedure that is sized and to ask for its liveness,
# and how much memory is held at most.
set -eu
cd "$(dirname "$0")"
program=$(./built.sh bench generate 1 1)
./best_of_five.sh "$program" live
