#!/bin/sh
# Times the program on the most statements `Write(1);` that the 2,048 nodes of a procedure have room
# for, compiled, run and written: the best of five, and beside it the most memory that is held.
set -eu
bench=$(cd "$(dirname "$0")" && pwd)
folder=$(mktemp -d)
trap 'rm -rf "$folder"' EXIT
cd "$folder"

awk 'BEGIN {
    printf "MODULE M; BEGIN "
    for (i = 1; i <= 1024; i++) printf "Write(1);"
    printf " END M."
}' >large.ob

"$bench/../pra" build
command="'$bench/../crates/pra/out/pra' run large.ob </dev/null 2>&1 >/dev/null"
result=$("$bench/best_of_five.sh" sh -c "$command")
echo "$(wc -c <large.ob) bytes of source, $(wc -c <out.pri) bytes of image, in $result"
