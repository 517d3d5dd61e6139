#!/bin/sh
# Prints how long it takes to compile generated modules of 200 procedures: of each seed, by each
# word of cost and with each number of rounds, the user time in seconds, that of gcc -m32 -O2 -c for
# the same module as C, and the ratio of both. Both make a file of code of a file of text, without
# linking. They are run in turn five times, so that both meet the same load, and of each the least
# user time counts. Before these lines stand the module of the first seed without rounds and with
# ten: its lines, the most memory that is held and what the code costs; behind them that both
# programs write the same. A compiler that is not named is built:
# compile.sh [--compiler PROGRAM] [--seeds "1 7 9"] [--rounds "1 10 50"]
set -eu
bench=$(cd "$(dirname "$0")" && pwd)
program=
seeds="1 7 9"
rounds="1 10 50"
while [ $# -gt 0 ]; do
    case "$1${2+ }" in
    "--compiler ") program=$(readlink -f "$2") ;;
    "--seeds ") seeds=$2 ;;
    "--rounds ") rounds=$2 ;;
    *)
        echo "usage: compile.sh [--compiler PROGRAM] [--seeds LIST] [--rounds LIST]" >&2
        exit 2
        ;;
    esac
    shift 2
done
if [ -z "$program" ]; then
    "$bench/../pra" build
    program=$bench/../crates/pra/out/pra
fi
folder=$(mktemp -d)
trap 'rm -rf "$folder"' EXIT
cd "$folder"

for seed in $seeds; do
    "$program" gen "$seed.ob" --seed "$seed" --size 200 --rounds 0 >/dev/null || [ $? -le 2 ]
    awk -f "$bench/as_c.awk" "$seed.ob" >"$seed.c"
done
first=${seeds%% *}
for count in 0 10; do
    cost=$("$program" compile "$first.ob" --rounds "$count" | tail -n 1)
    peak=$("$bench/peak.sh" "$program" compile "$first.ob" --rounds "$count")
    lines=$(wc -l <"$first.ob")
    echo "seed $first, $count rounds: $lines lines, $((peak / 1024)) MB at most: $cost"
done
echo 'int main(void) { return 0; }' >try.c
if ! gcc -m32 -c try.c 2>/dev/null; then
    echo "gcc -m32 compiles nothing here"
    exit
fi

# The user time of a call, in seconds.
user_time() {
    { LC_ALL=C bash -c 'TIMEFORMAT=%U; time "$@" >/dev/null 2>&1' bash "$@"; } 2>&1
}

# The least times of both, and their ratio: measured SEED COST ROUNDS
measured() {
    : >ours.times >gcc.times
    for _ in 1 2 3 4 5; do
        user_time "$program" compile "$1.ob" --cost "$2" --rounds "$3" >>ours.times
        user_time gcc -m32 -O2 -fwrapv -c "$1.c" -o G.o >>gcc.times
    done
    ours=$(sort -n ours.times | head -n 1)
    theirs=$(sort -n gcc.times | head -n 1)
    echo "$ours $theirs" | awk -v row="seed $1 $2 $3 rounds" '{
        printf "%s: %.2f s, gcc %.2f s, ratio %.2f\n", row, $1, $2, $1 / $2
    }'
}

for seed in $seeds; do
    for cost in size speed; do
        for count in $rounds; do measured "$seed" "$cost" "$count"; done
    done
done

if ! gcc -m32 try.c -o try 2>/dev/null; then
    echo "gcc -m32 links no program here, so that nothing is compared"
    exit
fi
for seed in $seeds; do
    gcc -m32 -O2 -fwrapv "$seed.c" -o G
    "$program" run "$seed.ob" </dev/null >ours 2>notes
    ./G >theirs
    cmp ours theirs
    echo "seed $seed: both programs write the same $(wc -w <ours) numbers: $(tail -n 1 notes)"
done
