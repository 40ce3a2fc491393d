#!/bin/bash
# Times a check beside the solve that made the certificate: a line for each mill of bench/data, with the seconds of both
# (processor time of the built programs, the least of three checks) and the check as a part of the solve; below the clock's
# step it reads 0.
# Usage: bench/time_checks.sh        (builds crates/slabfront and crates/slabcheck first)
set -eu
cd "$(dirname "$0")/.."
here=$(mktemp -d)
(cd crates/slabfront && rt run -- solve data/orders "$here/first" >/dev/null)
(cd crates/slabcheck && rt run -- check data/orders data/cert >/dev/null)
solver=$PWD/crates/slabfront/out/slabfront
checker=$PWD/crates/slabcheck/out/slabcheck
TIMEFORMAT=%U
# spent WORD..: the seconds of a run
spent() { { time "$@" >"$here/said" || true; } 2>&1; }

printf '%-12s %9s %9s %7s\n' mill solve check part
for orders in bench/data/*.ord bench/data/csplib111.txt; do
    [ -f "$orders" ] || continue
    mill=$(basename "$orders")
    mill=${mill%.*}
    yard=()
    [ -f "bench/data/$mill.yard" ] && yard=(--yard "bench/data/$mill.yard")
    rm -f "$here/cert"
    solve=$(spent "$solver" solve "$orders" "$here/cert" "${yard[@]}")
    check=1000000
    for _ in 1 2 3; do
        run=$(spent "$checker" check "$orders" "$here/cert" "${yard[@]}")
        check=$(awk -v l="$check" -v r="$run" 'BEGIN { print (r < l ? r : l) }')
    done
    part=$(awk -v c="$check" -v s="$solve" 'BEGIN { printf "%s", (s > 0 ? sprintf("%.2f", c / s) : "-") }')
    printf '%-12s %9s %9s %7s  %s\n' "$mill" "$solve" "$check" "$part" "$(tail -1 "$here/said")"
done
rm -r "$here"
