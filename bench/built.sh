#!/bin/sh
# Builds the program crates/NAME, runs it with the words, and prints where it is:
# built.sh NAME WORDS
set -eu
cd "$(dirname "$0")/../crates/$1"
name=$1
shift
rt run -- "$@" >/dev/null 2>&1
echo "$PWD/out/$name"
