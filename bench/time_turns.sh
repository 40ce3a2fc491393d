#!/bin/bash
# Times root turns from outside, by the processor time that slabbench takes, in milliseconds a turn.
# Usage: bench/time_turns.sh        (builds crates/slabbench first)
set -eu
cd "$(dirname "$0")/../crates/slabbench"
rt run -- turns data/three_orders.ord - 2 4 - 1 >/dev/null
program="$PWD/out/slabbench"
data="$PWD/../../bench/data"
TIMEFORMAT=%U

# file NAME: its path, or - where there is none
file() { if [ "$1" = - ]; then echo -; else echo "$data/$1"; fi; }

printf '%-16s %5s %6s %6s %8s  %s\n' mill loss count turns ms/turn outcome
for work in "csplib111.txt - 0 46 20" "csplib111.txt - - 46 20" "csplib111.txt - 0 47 20" \
    "few30c8y_0.ord few30c8y_0.yard 0 - 50" "schaus8_0.ord - 0 50 5" "few50c8y_0.ord few50c8y_0.yard 0 - 10"; do
    read -r orders yard loss count times <<<"$work"
    said=$(mktemp)
    clock=$({ time "$program" turns "$(file "$orders")" "$(file "$yard")" 2 "$loss" "$count" "$times" >"$said"; } 2>&1)
    printf '%-16s %5s %6s %6s %8s  %s\n' "$orders" "$loss" "$count" "$times" \
        "$(awk -v s="$clock" -v n="$times" 'BEGIN { printf "%.1f", 1000 * s / n }')" "$(cat "$said")"
    rm -f "$said"
done
