#!/bin/bash
# Times the parts below the search beside the repository as it stood at commit 6e60c87, in one run: a line for each part and
# mill, with the milliseconds that a replay of the stored calls takes in each (processor time, less than a run of none), and
# their ratio. The last column asks for three colours on a slab, which the older tree doesn't know.
# Usage: bench/time_parts.sh [FOLDER]
#   FOLDER keeps the older tree, so that a later run needn't prove it again; by default it is made anew, which takes long.
set -eu
cd "$(dirname "$0")/.."
commit=6e60c87
program_commit=bf14413
parts=$PWD/bench/data/parts
mills=$PWD/bench/data
here=$(mktemp -d)
older=${1:-$here/older}
echo 0 >"$here/empty.yard"
for packed in "$parts"/*.gz; do
    file=$(basename "$packed" .gz)
    gunzip -c "$packed" >"$here/$file"
done
cp "$parts"/*.cert "$here"

# The older tree, with a later program of the same calls, which stood alone then and has no checks of whole certificates.
if [ ! -d "$older" ]; then
    git clone -q . "$older"
    git -C "$older" checkout -q "$commit"
    rm -r "$older/crates/bench_parts"
    git archive "$program_commit" crates/bench_parts | tar -x -C "$older"
    rm -r "$older/crates/bench_parts/src/checks.rt" "$older/crates/bench_parts/must-fail"
    sed -i '/^bench_parts:/d' "$older/crates.txt"
    git show "$program_commit:crates.txt" | grep '^bench_parts:' | sed 's/ cert_check$//' >>"$older/crates.txt"
    sed -i -e 's/read_yard(rt.alloc(), &mill, &yard)/read_yard(rt.alloc(), \&yard)/' \
        -e 's/mill.set_colour_limit(.*/let _ = colours;/' -e '/^mod checks;/d' -e '/check_often/d' "$older/crates/bench_parts/src/main.rt"
fi
(cd crates/slabbench && rt run -- price data/calls data/orders data/yard 2 1 >/dev/null)
(cd "$older/crates/bench_parts" && rt run -- price data/calls data/orders data/yard 2 1 >/dev/null)
new=$PWD/crates/slabbench/out/slabbench
old=$older/crates/bench_parts/out/bench_parts

TIMEFORMAT=%U
# spent PROGRAM WORD..: the seconds of a run
spent() { { time "$@" >"$here/said"; } 2>&1; }

# each PROGRAM TIMES WORD..: the milliseconds of one of so many replays, the least of three runs
each() {
    local program=$1 times=$2 none run least=1000000
    shift 2
    none=$(spent "$program" "$@" 0)
    for _ in 1 2 3; do
        run=$(spent "$program" "$@" "$times")
        least=$(awk -v l="$least" -v r="$run" 'BEGIN { print (r < l ? r : l) }')
    done
    awk -v r="$least" -v n="$none" -v t="$times" 'BEGIN { printf "%.3f", (r > n ? r - n : 0.001) * 1000 / t }'
}

ratio() { awk -v a="$1" -v b="$2" 'BEGIN { printf "%.1f", a / b }'; }

# on_mill PART MILL OLD_TIMES NEW_TIMES [TIMES_OF_THREE_COLOURS]: a line of the table
on_mill() {
    local part=$1 mill=$2 words older_words before now three=-
    local orders=$mills/$mill.ord yard=$mills/$mill.yard
    [ -f "$orders" ] || orders=$mills/$mill.txt
    [ -f "$yard" ] || yard=$here/empty.yard
    case "$part" in
        master) words=(masters "$here/$mill.mas") ;;
        leaf) words=(leaf "$here/$mill.cert" "$orders" "$yard" 2) ;;
        *) words=("$part" "$here/$mill.pri" "$orders" "$yard" 2) ;;
    esac
    older_words=("${words[@]}")
    [ "$part" != master ] || older_words=("$here/$mill.mas")
    before=$(each "$old" "$3" "${older_words[@]}")
    now=$(each "$new" "$4" "${words[@]}")
    if [ $# = 5 ]; then
        words[4]=3
        three=$(each "$new" "$5" "${words[@]}")
    fi
    printf '%-8s %-12s %12s %10s %7s %12s\n' "$part" "$mill" "$before" "$now" "$(ratio "$before" "$now")" "$three"
}

printf '%-8s %-12s %12s %10s %7s %12s\n' part mill "$commit, ms" "now, ms" ratio "3 colours, ms"
on_mill master csplib111 5 50
on_mill master few30c8y_0 3 20
on_mill master schaus8_0 1 2
on_mill master few50c8y_0 1 2
on_mill price csplib111 1 20 1
on_mill price few30c8y_0 20 50 10
on_mill price schaus8_0 1 8
on_mill price few50c8y_0 5 20
on_mill decide csplib111 50 5000
on_mill decide few30c8y_0 100 1000
on_mill decide schaus8_0 10 1000
on_mill decide few50c8y_0 5 50
on_mill leaf csplib111 100 2000 50
on_mill leaf few30c8y_0 500 1500 100
on_mill leaf schaus8_0 10 60
rm -r "$here"
