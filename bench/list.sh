#!/bin/sh
# Prints how long it takes to list an image whose text has some 67 million bytes, and to list it and
# make the image of that text again, and how much memory is held at most.
set -eu
cd "$(dirname "$0")"
program=$(./built.sh bench generate 1 1)
echo "listed: $(./best_of_five.sh "$program" list 67108864 listed)"
echo "listed and assembled: $(./best_of_five.sh "$program" list 67108864)"
