#!/bin/sh
# Prints how far the code that rounds find is from the best there is (quality.py): of the modules in
# the files, or else of generated modules 1 to 5 and 11 to 15, with 3 procedures each, and of those
# in examples/. It takes so many rounds, or 200; PRA names a compiler that is not to be built:
# [PRA=PROGRAM] [CSV=NAME] quality.sh [ROUNDS [FILE..]]. With CSV, NAME gets a row for each procedure.
set -eu
bench=$(cd "$(dirname "$0")" && pwd)
rounds=${1:-200}
if [ $# -gt 0 ]; then shift; fi
folder=$(mktemp -d)
trap 'rm -rf "$folder"' EXIT

if [ -z "${PRA-}" ]; then
    "$bench/../pra" build
    PRA=$bench/../crates/pra/out/pra
fi
if [ $# -eq 0 ]; then
    for seed in 1 2 3 4 5 11 12 13 14 15; do
        file=$folder/generated_$seed.ob
        "$PRA" gen "$file" --seed "$seed" --size 3 --rounds 0 --image "$folder/out.pri" >"$folder/out" ||
            [ $? -le 2 ]
    done
    set -- "$folder"/generated_*.ob "$bench"/../examples/*.ob
fi
python3 "$bench/quality.py" "$PRA" "$rounds" ${CSV:+--csv "$CSV"} "$@"
