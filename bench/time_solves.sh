#!/bin/bash
# Times whole solves from outside, by the processor time of the program: a line for each mill of bench/data, with its points, its
# nodes and the bare ones among them, and the bytes of its certificate.
# Usage: bench/time_solves.sh        (builds crates/slabfront first)
set -eu
cd "$(dirname "$0")/../crates/slabfront"
here=$(mktemp -d)
rt run -- solve data/orders "$here/first" >/dev/null
program="$PWD/out/slabfront"
data="$PWD/../../bench/data"
TIMEFORMAT=%U
printf '%-14s %7s %8s %6s %10s  %s\n' mill nodes bare seconds bytes points
for orders in "$data"/*.ord "$data"/csplib111.txt; do
    name=$(basename "${orders%.*}")
    yard=()
    [ -f "$data/$name.yard" ] && yard=(--yard "$data/$name.yard")
    seconds=$({ time "$program" solve "$orders" "$here/cert" "${yard[@]}" >"$here/said" || true; } 2>&1)
    read -r _ nodes _ bare < <(grep '^nodes' "$here/said")
    points=$(awk '/^point/ { printf "(%s, %s) ", $2, $3 }' "$here/said")
    printf '%-14s %7s %8s %6s %10s  %s\n' "$name" "$nodes" "$bare" "$seconds" "$(stat -c %s "$here/cert")" "$points$(tail -n 1 "$here/said")"
done
rm -r "$here"
