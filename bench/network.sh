#!/bin/sh
# Prints how long it takes to make the largest procedure's liveness, network and home routes, to ask
# whether these are admitted and what they cost, and to make room for a least path of each strand and
# find these at prices of nothing, as a family and each alone: of each part the least processor time
# of five runs, and of the least paths that for each layer of a strand too, beside that of the first
# strand by plain loops, once, which takes most of a minute. Then how much memory the liveness takes, and how much the network beside it.
set -eu
cd "$(dirname "$0")"
program=$(./built.sh bench generate 1 1)
for word in least least least least plain; do "$program" network "$word" 2>&1; done | awk '
    $3 == "ms" {
        if (!($1 in least)) { least[$1] = $2; parts[++count] = $1 }
        else if ($2 < least[$1]) least[$1] = $2
    }
    $1 == "masks" { masks = $2 }
    $1 == "plain" && $2 == "loops:" { layers = $3 }
    $1 ~ /:$/ || $2 ~ /routes:/ || $1 == "value" { said[$0] = 1 }
    END {
        for (line in said) print line
        for (i = 1; i <= count; i++) print parts[i] ": " least[parts[i]] " ms"
        printf "lagrange and least: %.1f and %.1f ns for each of %d layers of strands\n",
            least["lagrange"] * 1e6 / masks, least["least"] * 1e6 / masks, masks
        printf "plain loops: %.0f ns for each of %d layers\n", least["plain"] * 1e6 / layers, layers
    }'

live=$(./peak.sh "$program" network live)
build=$(./peak.sh "$program" network build)
all=$(./peak.sh "$program" network lagrange)
masks=$("$program" network valid 2>&1 >/dev/null | awk '$1 == "masks" { print $2 }')
each=$(((build - live) * 1024 / masks))
echo "liveness: $((live / 1024)) MB at most; with the network $((build / 1024)) MB," \
    "$each bytes more for each of $masks masks; with all parts $((all / 1024)) MB"
