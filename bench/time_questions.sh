#!/bin/bash
# Times the questions of each mill of bench/data from outside, by the processor time that slabbench takes: a line for each
# mill, with its questions, nodes, the splits of its tightened trees, bare splits, turns, solves, pivots and overflows.
# Usage: bench/time_questions.sh        (builds crates/slabbench first)
set -eu
cd "$(dirname "$0")/../crates/slabbench"
rt run -- questions data/three_pairs.ord - 2 100 >/dev/null
program="$PWD/out/slabbench"
data="$PWD/../../bench/data"
said=$(mktemp)
TIMEFORMAT=%U
printf '%-14s %9s %7s %7s %5s %7s %7s %8s %6s %8s  %s\n' mill questions nodes splits bare turns solves pivots wides seconds front
for orders in "$data"/*.ord "$data"/csplib111.txt; do
    name=$(basename "${orders%.*}")
    yard=-
    [ -f "$data/$name.yard" ] && yard="$data/$name.yard"
    seconds=$({ time "$program" questions "$orders" "$yard" 2 1000000 >"$said" || true; } 2>&1)
    awk -v name="$name" -v seconds="$seconds" '
        $3 == "least" { front = front "(" $4 ", " $5 ") " }
        $1 == "limit" { questions++; for (i = 3; i < NF; i++) if ($i == "splits") splits += $(i + 1); ended = $3 }
        $1 == "nodes" { nodes = $2; bare = $4; turns = $6; solves = $8; wides = $10; pivots = $14 }
        END { printf "%-14s %9d %7d %7d %5d %7d %7d %8d %6d %8s  %s%s\n", name, questions, nodes, splits, bare, turns, solves, pivots, wides, seconds, front, ended }
    ' "$said"
done
rm -f "$said"
