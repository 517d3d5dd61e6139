#!/bin/sh
# Prints how long it takes to make a procedure of as many instructions as there may be and to tidy
# it, and how much memory is held at most.
set -eu
cd "$(dirname "$0")"
program=$(./built.sh bench generate 1 1)
./best_of_five.sh "$program" tidy
