#!/bin/sh
# Times the program on two sources of some 60,000 tokens that keep the rules and the limits, which
# it reads, checks and compiles without rounds: one has 1 MB and 256 procedures, one has 10,000
# names in one scope.
# Each time is the best of five, and beside it stands the most memory that is held.
set -eu
bench=$(cd "$(dirname "$0")" && pwd)
folder=$(mktemp -d)
trap 'rm -rf "$folder"' EXIT
cd "$folder"

# 6 tokens around 256 procedures of 254
awk 'BEGIN {
    comment = "(*"
    skipped = " what stands here is skipped (* and this in it *)"
    while (length(comment) < 3200) comment = comment skipped
    print "MODULE Wide;"
    for (i = 1; i <= 256; i++) {
        print "PROCEDURE P" i "(VAR total: INTEGER; count: INTEGER); VAR i"
        for (k = 1; k <= 19; k++) print ", v" k
        print comment " *)"
        print ": INTEGER; BEGIN i := 0; WHILE i < count DO"
        for (k = 1; k <= 19; k++) print "v" k " := total + i * " k ";"
        print "i := i + 1 END END P" i ";"
    }
    print "BEGIN END Wide."
}' >wide.ob

# 6 tokens a constant, each of which names the one before
awk 'BEGIN {
    print "MODULE Names; CONST c1 = 1;"
    for (i = 2; i <= 10000; i++) print "c" i " = c" (i - 1) " + 1;"
    print "VAR b: BOOLEAN; BEGIN b := c10000 = 10000 END Names."
}' >names.ob

"$bench/../pra" build
for name in wide.ob names.ob; do
    result=$("$bench/best_of_five.sh" "$bench/../crates/pra/out/pra" compile "$name" \
        --rounds 0)
    echo "$name: $(stat -c %s "$name") bytes in $result"
done
