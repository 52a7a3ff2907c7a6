#!/bin/sh
# Builds, runs the fixed vectors and a short random campaign.
#   sh check.sh
set -e
cd "$(dirname "$0")"
nice cargo build -j1 --release --offline

O=target/release/oracle
G=target/release/gen
T=target/check
mkdir -p "$T"
for v in bench corners i ii; do
    "$O" < "vectors/$v.txt" > "$T/$v.out"
    cmp "$T/$v.out" "vectors/$v.expected"
    echo "vectors/$v: as expected"
done

for seed in 1 2 3; do
    "$G" "$seed" --files 1000 --mode good --loads > "$T/in"
    "$O" < "$T/in" > "$T/out"
    "$G" "$seed" --files 1000 --mode good --loads --stops > "$T/in"
    "$O" < "$T/in" >> "$T/out"
    "$G" "$seed" --files 1000 --mode good --loads --stops --arrays > "$T/in"
    "$O" < "$T/in" >> "$T/out"
    "$G" "$seed" --files 1500 --mode bad --cycles 4 > "$T/in"
    "$O" < "$T/in" >> "$T/out"
    "$G" "$seed" --files 1500 --mode bad --cycles 4 --arrays > "$T/in"
    "$O" < "$T/in" >> "$T/out"
    echo "seed $seed: the Rust and the paper's model agree"
    awk '{ k = $1; if (k == "admit" || k == "refused" || k == "stopped") k = k " " $2; n[k]++ }
         END { for (k in n) printf "    %-12s %d\n", k, n[k] }' "$T/out" | sort
done
